//! The listing: a job out of the bytes of standard input, and what program `cascade_list` prints.

use crate::job::{Answer, Job, Lent, Node};
use crate::stored::{row_value, rows_in, MAX_ROWS, ROW_BYTES};
use crate::{fast, plain};
use std::ffi::OsString;
use std::fmt::Write;

/// The compiler of this name: `plain`, or `fast` where it is that.
pub fn compiler(name: Option<OsString>) -> fn(&Job, &mut Lent) -> Answer {
    match name {
        Some(name) if name == "fast" => fast::compile,
        _ => plain::compile,
    }
}

/// A job as the bytes that `split` reads.
pub fn joined(job: &Job) -> Vec<u8> {
    let numbers = [job.inputs, job.outputs, job.cell_inputs, job.cell_outputs];
    let mut bytes: Vec<u8> = numbers.iter().map(|&n| n as u8).collect();
    bytes.extend(&job.order);
    bytes.extend(&job.sheet);
    bytes
}

/// n, m, K and L, a byte each, 0 where the input has ended; the order, n + m bytes or what is left
/// of them; all the rest is the sheet.
pub fn split(input: &[u8]) -> Job {
    let number = |place: usize| u64::from(input.get(place).copied().unwrap_or(0));
    let (inputs, outputs) = (number(0), number(1));
    let rest = input.get(4..).unwrap_or(&[]);
    // Two bytes each: at most 510.
    let order = rest.len().min((inputs + outputs) as usize);
    Job {
        inputs,
        outputs,
        cell_inputs: number(2),
        cell_outputs: number(3),
        order: rest[..order].to_vec(),
        sheet: rest[order..].to_vec(),
    }
}

/// Memory enough for every job: 19 heights of at most 512 columns and the top, 20 records, all
/// usable rows.
pub(crate) fn enough() -> Lent {
    Lent {
        nodes: vec![Node::default(); 10_240],
        records: vec![0; 80],
        rows: vec![0; ROW_BYTES * MAX_ROWS],
    }
}

/// Per height "height width rails", then per cell top height, bottom height, the values of its rows; or "refused N".
pub fn listing(job: &Job, compile: fn(&Job, &mut Lent) -> Answer) -> String {
    let mut lent = enough();
    let totals = match compile(job, &mut lent) {
        Answer::Refused(number) => return format!("refused {number}\n"),
        Answer::Accepted(totals) => totals,
    };
    let mut text = String::new();
    // An accepted job has a t of at most 20.
    let top = job.order.len();
    for height in (0..top).rev() {
        let width = totals.widths[height];
        let _ = writeln!(text, "{height} {width} {}", rails(width));
    }
    let mut rows = &rows_in(&lent.rows)[..totals.rows];
    let (mut upper, mut inputs) = (top, 0u32);
    for (place, record) in lent.records.chunks_exact(4).take(top).enumerate() {
        let height = top - place;
        inputs += u32::from(record[0] < 128);
        if record[1] == 1 {
            let (cell, after) = rows.split_at(1 << inputs);
            let _ = write!(text, "cell {upper} {}", height - 1);
            for &row in cell {
                let _ = write!(text, " {}", row_value(row));
            }
            text.push('\n');
            rows = after;
            upper = height - 1;
            inputs = u32::from(record[2]);
        }
    }
    text
}

/// The least r with 2^r at least the width.
fn rails(width: u16) -> u32 {
    u32::from(width).next_power_of_two().trailing_zeros()
}
