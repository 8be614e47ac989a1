//! The sheet and the job: refusals 1 to 6, each a test of its own, and the function as a table.

use super::function::{Function, FREE};
use super::Mistake;
use crate::job::Job;

/// "Byte 6 of a record becomes 1 for a stop record, 0 for an ordinary one."
const ORDINARY: u8 = 0;
const STOP: u8 = 1;

/// A record of the sheet, 8 bytes.
struct Record {
    mask: u16,
    values: u16,
    zeros: u8,
    ones: u8,
    kind: u8,
    last: u8,
}

impl Record {
    /// "A record matches an input word that equals its values on its mask."
    fn matches(&self, word: u16) -> bool {
        word & self.mask == self.values & self.mask
    }

    /// The outputs the record names.
    fn outputs(&self) -> u8 {
        self.zeros | self.ones
    }
}

fn records(sheet: &[u8]) -> Vec<Record> {
    sheet
        .chunks_exact(8)
        .map(|b| Record {
            mask: u16::from_le_bytes([b[0], b[1]]),
            values: u16::from_le_bytes([b[2], b[3]]),
            zeros: b[4],
            ones: b[5],
            kind: b[6],
            last: b[7],
        })
        .collect()
}

/// The least of refusals 1 to 6, or the function of the sheet.
pub fn read(job: &Job) -> Result<Function, u8> {
    read_with(job, Mistake::None)
}

/// `read`, with a mistake made on purpose. A test may rely on those before it.
pub fn read_with(job: &Job, mistake: Mistake) -> Result<Function, u8> {
    if out_of_range(job) {
        return Err(1);
    }
    let (n, m) = (job.inputs as usize, job.outputs as usize);
    if not_each_variable_once(&job.order, n, m) {
        return Err(2);
    }
    if wrong_length(&job.sheet) {
        return Err(3);
    }
    let records = records(&job.sheet);
    if records.iter().any(|r| malformed(r, n, m)) {
        return Err(4);
    }
    if contradictory(&records, n, mistake) {
        return Err(5);
    }
    let values: Vec<Vec<u8>> = (0..m)
        .map(|output| values(&records, output, n, mistake))
        .collect();
    if output_above_input_it_depends_on(&values, &job.order) {
        return Err(6);
    }
    Ok(function(&values, &job.order, n))
}

/// 1: n, m, K or L out of range.
fn out_of_range(job: &Job) -> bool {
    !(1..=12).contains(&job.inputs)
        || !(1..=8).contains(&job.outputs)
        || !(2..=12).contains(&job.cell_inputs)
        || !(1..=16).contains(&job.cell_outputs)
}

/// 2: the order is not each variable once.
fn not_each_variable_once(order: &[u8], n: usize, m: usize) -> bool {
    let inputs = (0..n).map(|i| i as u8);
    let outputs = (0..m).map(|i| 128 + i as u8);
    let once = |variable: u8| order.iter().filter(|&&v| v == variable).count() == 1;
    order.len() != n + m || !inputs.chain(outputs).all(once)
}

/// 3: length not a multiple of 8, or over 2,048.
fn wrong_length(sheet: &[u8]) -> bool {
    sheet.len() % 8 != 0 || sheet.len() > 2048
}

/// 4: a bit outside n or m, a value bit outside the mask, one output in bytes 4 and 5, byte 6 above 1,
/// or byte 7 not zero.
fn malformed(record: &Record, n: usize, m: usize) -> bool {
    u32::from(record.mask | record.values) >> n != 0
        || u32::from(record.outputs()) >> m != 0
        || record.values & !record.mask != 0
        || record.zeros & record.ones != 0
        || record.kind > STOP
        || record.last != 0
}

/// The outputs that matching records of these kinds force to 0, and to 1.
fn forced(records: &[Record], kinds: &[u8], word: u16) -> (u8, u8) {
    let matching = || {
        let of_kinds = records.iter().filter(|r| kinds.contains(&r.kind));
        of_kinds.filter(|r| r.matches(word))
    };
    let zeros = matching().fold(0, |outputs, r| outputs | r.zeros);
    let ones = matching().fold(0, |outputs, r| outputs | r.ones);
    (zeros, ones)
}

/// 5: two records of one kind match a common word and force one output both ways, "also where a stop
/// record covers both".
fn contradictory(records: &[Record], n: usize, mistake: Mistake) -> bool {
    (0..1u16 << n).any(|word| {
        let both_ways = |records: &[Record], kinds: &[u8]| {
            let (zeros, ones) = forced(records, kinds, word);
            zeros & ones
        };
        let of_one_kind =
            |records: &[Record]| both_ways(records, &[ORDINARY]) | both_ways(records, &[STOP]);
        let clash = match mistake {
            Mistake::ClashBetweenKinds => both_ways(records, &[ORDINARY, STOP]),
            Mistake::CoveredClash => {
                let (zeros, ones) = forced(records, &[STOP], word);
                both_ways(records, &[ORDINARY]) & !(zeros | ones) | both_ways(records, &[STOP])
            }
            Mistake::NextRecordOnly => {
                let neighbours = records.windows(2);
                neighbours.fold(0, |outputs, pair| outputs | of_one_kind(pair))
            }
            _ => of_one_kind(records),
        };
        clash != 0
    })
}

/// "An output is 0 or 1 for a word if a matching record forces it, else free (d)"; "where a stop record
/// and an ordinary one both name an output for a word, the stop record decides". Its value for each
/// word, input 0 in the lowest bit of a word.
fn values(records: &[Record], output: usize, n: usize, mistake: Mistake) -> Vec<u8> {
    let value = |word: u16| {
        let names = |r: &&Record| r.matches(word) && r.outputs() >> output & 1 == 1;
        // Those of one kind agree (refusal 5).
        let first = |kind: u8| records.iter().filter(names).find(|r| r.kind == kind);
        let last = |kind: u8| {
            let mut of_kind = records.iter().filter(|r| r.kind == kind);
            of_kind.rfind(|r| r.matches(word)).filter(names)
        };
        let deciding = match mistake {
            Mistake::LaterDecides => records.iter().rfind(names),
            Mistake::LastMatching => last(STOP).or_else(|| last(ORDINARY)),
            _ => first(STOP).or_else(|| first(ORDINARY)),
        };
        deciding.map_or(FREE, |r| r.ones >> output & 1)
    };
    (0..1 << n).map(value).collect()
}

/// 6: an output stands above an input on which it depends, so that "two words that differ in that
/// input alone give it different values among 0, 1 and d".
fn output_above_input_it_depends_on(values: &[Vec<u8>], order: &[u8]) -> bool {
    let depends = |output: u8, input: u8| {
        let values = &values[usize::from(output)];
        (0..values.len()).any(|word| values[word] != values[word ^ 1 << input])
    };
    order.iter().enumerate().any(|(place, &above)| {
        above >= 128
            && order[place + 1..]
                .iter()
                .any(|&below| below < 128 && depends(above - 128, below))
    })
}

/// The outputs' values with the words read down the order.
fn function(values: &[Vec<u8>], order: &[u8], n: usize) -> Function {
    let inputs: Vec<u8> = order.iter().copied().filter(|&v| v < 128).collect();
    // The inputs read down the order, topmost most significant, are the number `place`.
    let word = |place: usize| {
        inputs.iter().enumerate().fold(0, |word, (k, input)| {
            word | (place >> (n - 1 - k) & 1) << input
        })
    };
    let lines = order.iter().filter(|&&v| v >= 128).map(|&output| {
        let values = &values[usize::from(output - 128)];
        (0..1 << n).map(|place| values[word(place)]).collect()
    });
    Function::new(order, lines.collect())
}
