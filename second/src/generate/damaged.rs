//! Small jobs damaged in each way that a job's or sheet's author can.

use super::plain::{small, Free};
use super::random::Random;
use super::sheet::{bytes, dependent, Record};
use crate::job::Job;

/// What is wrong with a job.
#[derive(Clone, Copy, Debug, PartialEq, Eq)]
pub enum Fault {
    InputCount,
    OutputCount,
    CellInputs,
    CellOutputs,
    OrderShort,
    OrderLong,
    OrderDouble,
    OrderForeign,
    SheetUneven,
    SheetLong,
    InputBit,
    OutputBit,
    ValueBit,
    BothInOne,
    TailBytes,
    Clash,
    OutputAbove,
}

impl Fault {
    pub const ALL: [Fault; 17] = [
        Fault::InputCount,
        Fault::OutputCount,
        Fault::CellInputs,
        Fault::CellOutputs,
        Fault::OrderShort,
        Fault::OrderLong,
        Fault::OrderDouble,
        Fault::OrderForeign,
        Fault::SheetUneven,
        Fault::SheetLong,
        Fault::InputBit,
        Fault::OutputBit,
        Fault::ValueBit,
        Fault::BothInOne,
        Fault::TailBytes,
        Fault::Clash,
        Fault::OutputAbove,
    ];
}

/// The faults come round with the index; one job in four has a second one.
pub fn damaged(random: &mut Random, index: u64) -> Job {
    let free = random.pick(&[Free::Few, Free::Many]);
    let mut job = small(random, free, None);
    let second = random.percent(25).then(|| random.pick(&Fault::ALL));
    let first = Fault::ALL[(index % Fault::ALL.len() as u64) as usize];
    // The later in the list goes in first, for it may rest on counts the earlier one spoils.
    let mut faults: Vec<Fault> = second.into_iter().chain([first]).collect();
    faults.sort_by_key(|fault| std::cmp::Reverse(*fault as u8));
    faults.dedup();
    for fault in faults {
        spoil(random, &mut job, fault);
    }
    job
}

/// A number over `most`, or 0 to `least` - 1; some agree with the right one in their lowest bits.
fn out_of_range(random: &mut Random, right: u64, least: u64, most: u64) -> u64 {
    match random.below(8) {
        0 => random.next() % least,
        1 => most + 1,
        2 => right + 256,
        3 => right + (1 << 16),
        4 => right + (1 << 32),
        5 => u64::MAX - random.next() % 3,
        6 => right + (1 << 63),
        _ => most + 1 + random.next() % 300,
    }
}

/// A place for one record: an old one or a new one at the end, which names nothing yet.
fn record_place(random: &mut Random, job: &mut Job) -> usize {
    let count = job.sheet.len() / 8;
    let place = random.within(0, count);
    if place == count {
        job.sheet.extend([0; 8]);
    }
    place * 8
}

/// `job` is small and as yet undamaged, or damaged only by faults later in the list.
fn spoil(random: &mut Random, job: &mut Job, fault: Fault) {
    let (n, m) = (job.inputs as usize, job.outputs as usize);
    let t = job.order.len();
    match fault {
        Fault::InputCount => job.inputs = out_of_range(random, job.inputs, 1, 12),
        Fault::OutputCount => job.outputs = out_of_range(random, job.outputs, 1, 8),
        Fault::CellInputs => job.cell_inputs = out_of_range(random, job.cell_inputs, 2, 12),
        Fault::CellOutputs => job.cell_outputs = out_of_range(random, job.cell_outputs, 1, 16),
        Fault::OrderShort => {
            let end = if random.coin() {
                t - 1
            } else {
                random.below(t)
            };
            job.order.truncate(end);
        }
        Fault::OrderLong => {
            let added = random.pick(&[0, n as u8, 128, 128 + m as u8]);
            job.order.insert(random.within(0, t), added);
            if random.percent(20) {
                job.order.extend([0; 300]);
            }
        }
        Fault::OrderDouble => {
            let from = random.below(t);
            let to = (from + random.within(1, t - 1)) % t;
            job.order[to] = job.order[from];
        }
        Fault::OrderForeign => {
            let beyond = [n as u8, 12, 127, 128 + m as u8, 136, 255, 64, 192];
            job.order[random.below(t)] = random.pick(&beyond);
        }
        Fault::SheetUneven => {
            let added = random.within(1, 7);
            for _ in 0..added {
                job.sheet
                    .push(if random.coin() { 0 } else { random.byte() });
            }
        }
        Fault::SheetLong => {
            let length = random.pick(&[2_056, 2_056, 2_064, 4_096, 2_049, 65_536 + 16]);
            let old = job.sheet.clone();
            while !old.is_empty() && job.sheet.len() + old.len() <= length {
                job.sheet.extend(&old);
            }
            job.sheet.resize(length, 0);
        }
        Fault::InputBit => {
            let at = record_place(random, job);
            let bit = 1u16 << random.within(n, 15);
            let [low, high] = bit.to_le_bytes();
            job.sheet[at] |= low;
            job.sheet[at + 1] |= high;
            if random.coin() {
                job.sheet[at + 2] |= low;
                job.sheet[at + 3] |= high;
            }
        }
        Fault::OutputBit => {
            let at = record_place(random, job);
            let bit = 1u8 << random.within(m, 7);
            job.sheet[at + 4 + random.below(2)] |= bit;
        }
        Fault::ValueBit => {
            let at = record_place(random, job);
            let most = random.pick(&[n, 16]);
            let bit = 1u16 << random.below(most);
            let [low, high] = bit.to_le_bytes();
            job.sheet[at] &= !low;
            job.sheet[at + 1] &= !high;
            job.sheet[at + 2] |= low;
            job.sheet[at + 3] |= high;
        }
        Fault::BothInOne => {
            let at = record_place(random, job);
            let bit = 1u8 << random.below(m);
            job.sheet[at + 4] |= bit;
            job.sheet[at + 5] |= bit;
        }
        Fault::TailBytes => {
            let at = record_place(random, job);
            let drawn = random.next();
            let value = [1, 128, 255][(drawn % 3) as usize];
            let tail = match (random.below(2), value) {
                // A 1 alone would mark a stop record.
                (0, 1) => marked(drawn >> 32),
                (0, _) => [value, 0],
                _ => [0, value],
            };
            job.sheet[at + 6..at + 8].copy_from_slice(&tail);
        }
        Fault::Clash => clash(random, job),
        Fault::OutputAbove => output_above(random, job),
    }
}

/// Bytes 6 and 7: a mark above 1, often 2, or a stop record's mark before a byte 7 that is not zero.
fn marked(drawn: u64) -> [u8; 2] {
    let any = (drawn >> 8) as u8;
    match drawn % 4 {
        0 | 1 => [2, 0],
        2 => [any.max(2), 0],
        _ => [1, any.max(1)],
    }
}

/// Two ordinary records that agree on one random word and force one output both ways, anywhere among the others.
fn clash(random: &mut Random, job: &mut Job) {
    let (n, m) = (job.inputs as usize, job.outputs as usize);
    let inputs = (1u16 << n) - 1;
    let word = random.word() & inputs;
    let output = random.below(m) as u8;
    for value in [false, true] {
        let mask = random.word() & inputs;
        let record = Record::new(mask, word).forcing(output, value);
        let place = random.within(0, job.sheet.len() / 8) * 8;
        job.sheet.splice(place..place, record.bytes());
    }
}

/// Puts an output above an input on which it depends: one that a record names for it, if it depends on
/// that, else any; where no output depends on an input, one is made to.
fn output_above(random: &mut Random, job: &mut Job) {
    let naming: Vec<usize> = (0..job.sheet.len() / 8)
        .filter(|r| {
            let record = &job.sheet[r * 8..r * 8 + 8];
            record[0] | record[1] != 0 && record[4] | record[5] != 0
        })
        .collect();
    let (mut input, mut output) = if naming.is_empty() {
        let input = random.below(job.inputs as usize) as u8;
        let output = random.below(job.outputs as usize) as u8;
        let record = Record::new(1 << input, random.word()).forcing(output, random.coin());
        job.sheet.extend(record.bytes());
        (input, output)
    } else {
        let at = random.pick(&naming) * 8;
        let mask = u16::from_le_bytes([job.sheet[at], job.sheet[at + 1]]);
        let forced = job.sheet[at + 4] | job.sheet[at + 5];
        (
            mask.trailing_zeros() as u8,
            7 - forced.leading_zeros() as u8,
        )
    };
    let mut records: Vec<Record> = job.sheet.chunks_exact(8).map(Record::read).collect();
    let masks = dependent(job.inputs as usize, job.outputs as usize, &records);
    let depends = |x: u8, y: u8| masks[usize::from(y)] >> x & 1 == 1;
    if !depends(input, output) {
        let any = (0..masks.len() as u8).flat_map(|y| (0..12).map(move |x| (x, y)));
        let pairs: Vec<(u8, u8)> = any.filter(|&(x, y)| depends(x, y)).collect();
        if pairs.is_empty() {
            // Free everywhere, then forced for one value of the input.
            let others = |record: &mut Record| *record = record.only(!(1 << output));
            records.iter_mut().for_each(others);
            let record = Record::new(1 << input, random.word());
            records.push(record.forcing(output, random.coin()));
            job.sheet = bytes(&records);
        } else {
            (input, output) = random.pick(&pairs);
        }
    }
    let find = |wanted: u8| job.order.iter().position(|v| *v == wanted);
    if let (Some(low), Some(high)) = (find(input), find(128 + output)) {
        if low < high {
            job.order.swap(low, high);
        }
    }
}
