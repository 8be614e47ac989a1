//! The case table of the scope document, A to J: the sheet T and the jobs. E is as document 02, §1, has it, and S is the
//! example of its §3. Two jobs more have rows above 255 (its §6).

use crate::job::Job;

/// The order of T: x1 x2 x3 y1 x4 y2.
pub const ORDER: [u8; 6] = [0, 1, 2, 128, 3, 129];

/// Table 1 of document 000 as nine records. Input 0 is x1, output 0 is y1.
#[rustfmt::skip]
pub const T: [u8; 72] = [
    // y1: x1x2x3 = 001 and 100 give 0.
    0b0111, 0, 0b0100, 0, 1, 0, 0, 0,
    0b0111, 0, 0b0001, 0, 1, 0, 0, 0,
    // y1: x1x2x3 = 011, 101 and 110 give 1.
    0b0111, 0, 0b0110, 0, 0, 1, 0, 0,
    0b0111, 0, 0b0101, 0, 0, 1, 0, 0,
    0b0111, 0, 0b0011, 0, 0, 1, 0, 0,
    // y2: x2x3 = 00 gives 1, 01 gives 0.
    0b0110, 0, 0b0000, 0, 0, 2, 0, 0,
    0b0110, 0, 0b0100, 0, 2, 0, 0, 0,
    // y2: x2x3x4 = 110 gives 0, 111 gives 1.
    0b1110, 0, 0b0110, 0, 2, 0, 0, 0,
    0b1110, 0, 0b1110, 0, 0, 2, 0, 0,
];

/// The truth table of document 000, x1x2x3x4 counted up with x1 most significant: the values of y1
/// and of y2, 2 for d.
pub const TRUTH: [[u8; 16]; 2] = [
    [2, 2, 0, 0, 2, 2, 1, 1, 0, 0, 1, 1, 1, 1, 2, 2],
    [1, 1, 0, 0, 2, 2, 0, 1, 1, 1, 0, 0, 2, 2, 0, 1],
];

/// T with cell limits K and L.
pub fn t(cell_inputs: u64, cell_outputs: u64) -> Job {
    Job {
        inputs: 4,
        outputs: 2,
        cell_inputs,
        cell_outputs,
        order: ORDER.to_vec(),
        sheet: T.to_vec(),
    }
}

/// T, K 3, L 2. Cases I and J are this job with too little memory lent.
pub fn a() -> Job {
    t(3, 2)
}

/// T, K 3, L 3.
pub fn b() -> Job {
    t(3, 3)
}

/// T, K 4, L 2.
pub fn c() -> Job {
    t(4, 2)
}

/// T, K 2, L 2.
pub fn d() -> Job {
    t(2, 2)
}

/// T as sixteen full-mask records, with A's limits: accepted, and compiled as A is.
pub fn e() -> Job {
    let mut sheet = Vec::new();
    for word in 0..16u8 {
        // `word` has x1 most significant, the record x1 in its lowest bit.
        let values = word.reverse_bits() >> 4;
        let forced = |value: u8| {
            let output = |y: usize| u8::from(TRUTH[y][usize::from(word)] == value) << y;
            output(0) | output(1)
        };
        sheet.extend([0b1111, 0, values, 0, forced(0), forced(1), 0, 0]);
    }
    Job { sheet, ..a() }
}

/// E with y1 above x3, on which it depends: order x1 x2 y1 x3 x4 y2.
pub fn e2() -> Job {
    let order = vec![0, 1, 128, 2, 3, 129];
    Job { order, ..e() }
}

/// Empty sheet, n 1, m 1, K 2, L 1, order x1 y1.
pub fn f() -> Job {
    Job {
        inputs: 1,
        outputs: 1,
        cell_inputs: 2,
        cell_outputs: 1,
        order: vec![0, 128],
        sheet: Vec::new(),
    }
}

/// F's job, two mask-0 records, output 0 as 0 and as 1.
pub fn g() -> Job {
    let sheet = vec![0, 0, 0, 0, 1, 0, 0, 0, 0, 0, 0, 0, 0, 1, 0, 0];
    Job { sheet, ..f() }
}

/// F's job with a sheet of so many zero bytes: 2,056 and 7 are the case.
pub fn h(length: usize) -> Job {
    let sheet = vec![0; length];
    Job { sheet, ..f() }
}

/// x1 is the lid open, x2 washing demanded, y1 the wash valve. The wash line opens the valve; the lid-open line, a stop record,
/// closes it. K 3, L 2, order x1 x2 y1.
pub fn s() -> Job {
    let wash = [2, 0, 2, 0, 0, 1, 0, 0];
    let lid_open = [1, 0, 1, 0, 1, 0, 1, 0];
    Job {
        inputs: 2,
        outputs: 1,
        cell_inputs: 3,
        cell_outputs: 2,
        order: vec![0, 1, 128],
        sheet: [wash, lid_open].concat(),
    }
}

/// S with an ordinary lid-open line.
pub fn s_same() -> Job {
    let mut job = s();
    job.sheet[8 + 6] = 0;
    job
}

/// Records that make an output an input, for these values of other inputs.
fn copied(sheet: &mut Vec<u8>, input: usize, output: usize, mask: u16, values: u16) {
    for value in [0, 1] {
        sheet.extend((mask | 1 << input).to_le_bytes());
        sheet.extend((values | value << input).to_le_bytes());
        let bit = 1 << output;
        sheet.extend(if value == 0 { [bit, 0] } else { [0, bit] });
        sheet.extend([0, 0]);
    }
}

/// y1 is x1 where x12 is 0 and x9 where it is 1, y2 to y8 are x2 to x8. K 11, L 9, order x1 to x12, y1 to y8: 512 columns from
/// below x9 to above x12.
pub fn nine_rails() -> Job {
    let mut sheet = Vec::new();
    copied(&mut sheet, 0, 0, 1 << 11, 0);
    copied(&mut sheet, 8, 0, 1 << 11, 1 << 11);
    for place in 1..8 {
        copied(&mut sheet, place, place, 0, 0);
    }
    Job {
        inputs: 12,
        outputs: 8,
        cell_inputs: 11,
        cell_outputs: 9,
        order: (0..12).chain(128..136).collect(),
        sheet,
    }
}

/// y1 to y7 are x1 to x7, y8 is the one of x1 to x8 that x10 x11 x12 choose. K 11, L 15, order x1 to x9, y1 to y7, x10 x11 x12, y8:
/// the cell above x10 has 7 outputs and 8 rails.
pub fn fifteen_outputs() -> Job {
    let mut sheet = Vec::new();
    for place in 0..7 {
        copied(&mut sheet, place, place, 0, 0);
    }
    for place in 0..8 {
        // x10 most significant.
        let choice = (place as u16).reverse_bits() >> 13 << 9;
        copied(&mut sheet, place, 7, 7 << 9, choice);
    }
    Job {
        inputs: 12,
        outputs: 8,
        cell_inputs: 11,
        cell_outputs: 15,
        order: (0..9).chain(128..135).chain(9..12).chain([135]).collect(),
        sheet,
    }
}

/// A cell of sixteen outputs as stored records: x1, y1 to y4 and 12 rails; then a cell with y5.
#[rustfmt::skip]
pub const SIXTEEN_OUTPUTS: [u8; 24] = [
    0, 0, 0, 0,  128, 0, 0, 0,  129, 0, 0, 0,  130, 0, 0, 0,  131, 1, 12, 0,
    132, 1, 0, 0,
];
