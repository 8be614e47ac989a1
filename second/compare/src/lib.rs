//! The exported functions of the proved compiler, as safe functions.

/// The bytes of a table: 8 lines of 4,096 values.
pub const TABLE_BYTES: usize = 32_768;
/// The widths that a reduction is lent: heights 0 to 19.
pub const WIDTHS: usize = 20;
/// The words of a node table: 10,240 nodes of height, low and high.
pub const NODE_WORDS: usize = 30_720;

/// The bytes of as many rows as are usable.
pub const ROW_BYTES: usize = 65_536;

/// The bytes of a bank and of a scan state.
pub const BANK_BYTES: usize = 667;
pub const SCAN_BYTES: usize = 86;

/// The least of refusals 1 to 7 and no nodes, or 0 and the number of nodes.
#[repr(C)]
#[derive(Clone, Copy, Debug, PartialEq, Eq)]
pub struct Reduction {
    pub refusal: u8,
    pub nodes: u16,
}

/// What the compiler answers: a refusal, 1 to 11, and no more; or 0 and the totals.
#[repr(C)]
#[derive(Clone, Copy, Debug, Default, PartialEq, Eq)]
pub struct Totals {
    pub refusal: u8,
    pub nodes: u16,
    pub cells: u8,
    pub rows: u16,
    pub bits: u32,
}

/// Where a walk from one cut to the next ends: the node reached and the outputs met, topmost most significant.
#[repr(C)]
#[derive(Clone, Copy, Debug, PartialEq, Eq)]
pub struct Reached {
    pub node: u16,
    pub outputs: u32,
}

/// What a step answers: kind 1 with block and cell, 0 for Idle, 2 with the number of the refusal.
#[repr(C)]
#[derive(Clone, Copy, Debug, PartialEq, Eq)]
pub struct StepNumbers {
    pub kind: u8,
    pub block: u8,
    pub cell: u8,
    pub refusal: u8,
}

mod exported {
    extern "C" {
        pub fn cascade_sheet_refusal(
            n: usize,
            m: usize,
            k: usize,
            l: usize,
            order: *const u8,
            order_length: usize,
            sheet: *const u8,
            sheet_length: usize,
        ) -> u8;
        pub fn cascade_sheet_table(
            n: usize,
            m: usize,
            k: usize,
            l: usize,
            order: *const u8,
            order_length: usize,
            sheet: *const u8,
            sheet_length: usize,
            table: *mut [u8; super::TABLE_BYTES],
        ) -> u8;
        pub fn cascade_reduce(
            n: usize,
            m: usize,
            k: usize,
            l: usize,
            order: *const u8,
            order_length: usize,
            sheet: *const u8,
            sheet_length: usize,
            widths: *mut [u16; super::WIDTHS],
            words: *mut [u16; super::NODE_WORDS],
        ) -> super::Reduction;
        pub fn cascade_walk(
            words: *const [u16; super::NODE_WORDS],
            bits: u32,
            height: u8,
            node: u16,
        ) -> u16;
        pub fn cascade_same_columns(
            words: *const [u16; super::NODE_WORDS],
            height: u8,
            v: u16,
            u: u16,
        ) -> bool;
        pub fn cascade_compatible_columns(
            words: *const [u16; super::NODE_WORDS],
            height: u8,
            v: u16,
            u: u16,
        ) -> bool;
        pub fn cascade_descent(
            words: *const [u16; super::NODE_WORDS],
            order: *const u8,
            order_length: usize,
            top: u8,
            bottom: u8,
            node: u16,
            inputs: u16,
            count: u8,
        ) -> super::Reached;
        pub fn cascade_compile(
            n: usize,
            m: usize,
            k: usize,
            l: usize,
            order: *const u8,
            order_length: usize,
            sheet: *const u8,
            sheet_length: usize,
            nodes: *mut u16,
            nodes_length: usize,
            records: *mut u8,
            records_length: usize,
            rows: *mut u8,
            rows_length: usize,
            widths: *mut [u16; super::WIDTHS],
        ) -> super::Totals;
        pub fn cascade_bank_new(
            limit: usize,
            bank: *mut [u8; super::BANK_BYTES],
            scan: *mut [u8; super::SCAN_BYTES],
        ) -> u8;
        pub fn cascade_admit(
            bank: *mut [u8; super::BANK_BYTES],
            scan: *mut [u8; super::SCAN_BYTES],
            records: *const u8,
            records_length: usize,
            bytes: *const u8,
            bytes_length: usize,
            rows: *mut u8,
            rows_length: usize,
        ) -> u8;
        pub fn cascade_admit_every(
            bank: *mut [u8; super::BANK_BYTES],
            scan: *mut [u8; super::SCAN_BYTES],
            records: *const u8,
            records_length: usize,
            bytes: *const u8,
            bytes_length: usize,
            period: usize,
            phase: usize,
            rows: *mut u8,
            rows_length: usize,
        ) -> u8;
        pub fn cascade_latch(
            bank: *const [u8; super::BANK_BYTES],
            scan: *mut [u8; super::SCAN_BYTES],
            words: *const [u16; 8],
        ) -> u8;
        pub fn cascade_step(
            bank: *const [u8; super::BANK_BYTES],
            scan: *mut [u8; super::SCAN_BYTES],
            rows: *const u8,
            rows_length: usize,
        ) -> super::StepNumbers;
        pub fn cascade_known(
            records: *const u8,
            records_length: usize,
            rows: *const u8,
            rows_length: usize,
            known: u16,
            word: u16,
            outputs: *mut [u8; 8],
        ) -> u8;
        pub fn cascade_widen(
            records: *const u8,
            records_length: usize,
            rows: *const u8,
            rows_length: usize,
            to_records: *mut u8,
            to_records_length: usize,
            to_rows: *mut u8,
            to_rows_length: usize,
        ) -> u8;
        pub fn cascade_narrow(
            records: *const u8,
            records_length: usize,
            rows: *const u8,
            rows_length: usize,
            to_records: *mut u8,
            to_records_length: usize,
            to_rows: *mut u8,
            to_rows_length: usize,
        ) -> u8;
    }
}

mod known;
mod moves;
mod state;
mod walks;

pub use known::known;
pub use moves::{narrow, widen};
pub use state::{bank_bytes, scan_bytes, State};
pub use walks::{compatible_columns, descent, same_columns, walk};

use second::job::Job;

/// n, m, K and L.
pub fn numbers(job: &Job) -> [usize; 4] {
    [
        job.inputs as usize,
        job.outputs as usize,
        job.cell_inputs as usize,
        job.cell_outputs as usize,
    ]
}

/// Calls an exported function on a job and what else it is lent. That is safe where the pointers lent and their lengths are of slices of
/// their own, of the lengths that the function takes: it is proved to stay within them, and order and sheet are only read.
#[macro_export]
macro_rules! call {
    ($function:expr, $job:expr $(, $lent:expr)*) => {{
        let [n, m, k, l] = $crate::numbers($job);
        let (order, sheet) = (&$job.order, &$job.sheet);
        $function(
            n,
            m,
            k,
            l,
            order.as_ptr(),
            order.len(),
            sheet.as_ptr(),
            sheet.len(),
            $($lent),*
        )
    }};
}

/// The least of refusals 1 to 6; 0 where there is none.
pub fn sheet_refusal(job: &Job) -> u8 {
    // SAFETY: nothing else is lent.
    unsafe { call!(exported::cascade_sheet_refusal, job) }
}

/// The same; where it is 0 the table is written.
pub fn sheet_table(job: &Job, table: &mut [u8; TABLE_BYTES]) -> u8 {
    // SAFETY: the table is an array of its own.
    unsafe { call!(exported::cascade_sheet_table, job, table) }
}

/// The refusal, or the number of nodes; where nothing is refused the final widths at heights 0 to t - 1 and three words
/// a node, height, low and high, are written to the front of the two arrays.
pub fn reduce(job: &Job, widths: &mut [u16; WIDTHS], words: &mut [u16; NODE_WORDS]) -> Reduction {
    // SAFETY: both are arrays of their own.
    unsafe { call!(exported::cascade_reduce, job, widths, words) }
}

/// The whole compiler: where nothing is refused three words a node, the stored records and the rows, two bytes each, are written to
/// the front of the three memories, and the widths at heights 0 to t - 1, then zeros, to the array.
pub fn compile(
    job: &Job,
    nodes: &mut [u16],
    records: &mut [u8],
    rows: &mut [u8],
    widths: &mut [u16; WIDTHS],
) -> Totals {
    // SAFETY: pointers and lengths are of slices and an array of their own.
    unsafe {
        call!(
            exported::cascade_compile,
            job,
            nodes.as_mut_ptr(),
            nodes.len(),
            records.as_mut_ptr(),
            records.len(),
            rows.as_mut_ptr(),
            rows.len(),
            widths
        )
    }
}

/// Jobs with numbers of any size, and with orders and sheets of any length and contents, made of a good one.
pub fn odd_jobs(good: &Job) -> Vec<Job> {
    let mut jobs = Vec::new();
    for number in [
        0,
        1,
        2,
        8,
        9,
        12,
        13,
        16,
        17,
        255,
        256,
        257,
        272,
        1 << 32,
        u64::MAX,
    ] {
        for place in 0..4 {
            let mut job = good.clone();
            let numbers = [
                &mut job.inputs,
                &mut job.outputs,
                &mut job.cell_inputs,
                &mut job.cell_outputs,
            ];
            *numbers.into_iter().nth(place).expect("four numbers") = number;
            jobs.push(job);
        }
        // n + m comes round to the order's length.
        let mut job = good.clone();
        job.outputs = (job.order.len() as u64).wrapping_sub(number);
        job.inputs = number;
        jobs.push(job.clone());
        job.outputs = u64::MAX;
        jobs.push(job);
    }
    for length in [
        0, 1, 7, 8, 19, 20, 21, 100, 2_040, 2_047, 2_048, 2_049, 2_056, 70_000,
    ] {
        let any = |i: usize| (i * 37) as u8;
        let mut job = good.clone();
        job.order = (0..length).map(any).collect();
        jobs.push(job.clone());
        job.sheet = Vec::new();
        jobs.push(job.clone());
        job.order = good.order.clone();
        job.sheet = vec![0; length];
        jobs.push(job.clone());
        job.sheet = (0..length).map(any).collect();
        jobs.push(job.clone());
        job.order = Vec::new();
        jobs.push(job);
    }
    jobs
}
