//! Hand-made blocks in the stored form, and damage to them.

use super::random::Random;
use crate::fast;
use crate::job::{Answer, Job, Lent, Node, Totals};

/// Record bytes and row bytes.
pub type StoredBlock = (Vec<u8>, Vec<u8>);

/// The bytes of rows with these values.
pub fn row_bytes(values: &[u16]) -> Vec<u8> {
    values
        .iter()
        .flat_map(|value| value.to_le_bytes())
        .collect()
}

/// The variables of both kinds that a stored form may hold.
fn variables() -> Vec<u8> {
    (0..12).chain(128..136).collect()
}

/// A well-formed block of 1 to 20 records; one in four is large (most of them over 4,000 rows). Cells have up to 16 outputs.
pub fn block(seed: u64, index: u64) -> StoredBlock {
    let mut random = Random::new(200, seed, index);
    let large = random.percent(25);
    let mut variables = variables();
    random.shuffle(&mut variables);
    if large {
        variables.sort_by_key(|variable| *variable >= 128);
    }
    let count = if large {
        random.within(12, 20)
    } else {
        random.within(1, 20)
    };
    variables.truncate(count);
    let most_inputs = if large { 12 } else { random.within(3, 9) };
    let mut cut_chance = random.pick(&[10, 30, 60, 100]);
    // With 11 rails each further input makes 4,096 rows more: at most seven may follow.
    let large_rails = random.pick(&[8, 8, 8, 8, 8, 8, 9, 9, 10, 11]);
    let least_inputs = if large && large_rails == 11 { 5 } else { 0 };

    let (mut records, mut rows) = (Vec::new(), Vec::new());
    let (mut inputs, mut outputs) = (0, 0);
    for (place, variable) in variables.iter().enumerate() {
        if *variable < 128 {
            inputs += 1;
        } else {
            outputs += 1;
        }
        let next = variables.get(place + 1);
        let full = next.is_none_or(|next| *next < 128 && inputs == most_inputs);
        if !full && (inputs < least_inputs || !random.percent(cut_chance)) {
            records.extend([*variable, 0, 0, 0]);
            continue;
        }
        // The cell below needs a place for one input more.
        let most_rails = (16 - outputs).min(most_inputs - 1);
        let rails = match next {
            None => 0,
            Some(_) if large => most_rails.min(large_rails),
            Some(_) => random.within(0, most_rails),
        };
        records.extend([*variable, 1, rails as u8, 0]);
        let most = ((1u32 << (outputs + rails)) - 1) as u16;
        rows.extend((0..1usize << inputs).map(|_| random.value(most)));
        (inputs, outputs) = (rails, 0);
        if large {
            cut_chance = 0;
        }
    }
    (records, row_bytes(&rows))
}

/// The first byte of a random row of a well-formed block, and the outputs of the row's cell.
pub(super) fn some_row(random: &mut Random, (records, rows): &StoredBlock) -> (usize, usize) {
    let row = random.below(rows.len() / 2);
    let (mut first, mut inputs, mut outputs) = (0, 0, 0);
    for record in records.chunks_exact(4) {
        let (variable, cut, rails) = (record[0], record[1], usize::from(record[2]));
        inputs += usize::from(variable < 128);
        outputs += usize::from(variable >= 128);
        if cut == 1 {
            first += 1 << inputs;
            if row < first {
                return (2 * row, outputs + rails);
            }
            (inputs, outputs) = (rails, 0);
        }
    }
    (2 * row, 16)
}

/// One way to spoil a block; None where this block can't be spoilt so. Of ways 0 to 18 all but 14 to 16 change records alone.
pub(super) fn spoilt(random: &mut Random, way: usize, block: &StoredBlock) -> Option<StoredBlock> {
    let (mut records, mut rows) = block.clone();
    let count = records.len() / 4;
    let at = random.below(count) * 4;
    let last = records.len() - 4;
    let cuts: Vec<usize> = (0..count)
        .map(|r| r * 4)
        .filter(|r| records[r + 1] == 1)
        .collect();
    let inner = &cuts[..cuts.len() - 1];
    match way {
        0 => records.clear(),
        1 => records.truncate(last + random.below(4)),
        2 => records.extend(std::iter::repeat_n(0, random.within(1, 3))),
        3 => {
            while records.len() <= 80 {
                let copied: [u8; 4] = [records[at], 0, 0, 0];
                records.splice(0..0, copied);
            }
        }
        4 => records[at] = random.pick(&[12, 13, 63, 127, 136, 200, 255]),
        5 if count > 1 => {
            let other = (at + 4 * random.within(1, count - 1)) % records.len();
            records[at] = records[other];
        }
        6 => records[at + 1] = random.pick(&[2, 3, 128, 255]),
        7 if records[at + 1] == 0 => records[at + 2] = random.pick(&[1, 8, 255]),
        8 => records[at + 3] = random.pick(&[1, 2, 255]),
        9 => records[last + 1] = 0,
        10 => records[last + 2] = random.pick(&[1, 2, 9, 64, 255]),
        11 if !inner.is_empty() => {
            let rails = [9, 12, 13, 16, 17, 32, 63, 64, 65, 128, 255];
            records[random.pick(inner) + 2] = random.pick(&rails);
        }
        12 if !inner.is_empty() => {
            let rails = &mut records[random.pick(inner) + 2];
            *rails = if *rails == 0 || random.coin() {
                *rails + 1
            } else {
                *rails - 1
            };
        }
        13 if !inner.is_empty() => {
            let cut = random.pick(inner);
            records[cut + 1] = 0;
            records[cut + 2] = 0;
        }
        14 => rows.truncate(rows.len() - random.within(1, rows.len())),
        15 => rows.extend(std::iter::repeat_n(0, random.within(1, 9))),
        16 => {
            let byte = random.below(rows.len());
            rows[byte] = 255;
        }
        17 => {
            let byte = random.below(records.len());
            records[byte] = random.byte();
        }
        18 => {
            records.resize(4 * random.within(1, 21), 0);
            records.iter_mut().for_each(|byte| *byte = random.byte());
        }
        // The least value that is too large, then any such bit, which the low byte or the high one has.
        19 | 20 => {
            let (at, outputs) = some_row(random, block);
            if outputs == 16 {
                return None;
            }
            let value = match way {
                19 => 1u16 << outputs,
                _ => 1u16 << random.within(outputs, 15) | random.word(),
            };
            rows[at..at + 2].copy_from_slice(&value.to_le_bytes());
        }
        // A row's byte too few or too many; one byte a row.
        21 => {
            rows.pop();
        }
        22 => rows.push(0),
        23 => rows = rows.iter().step_by(2).copied().collect(),
        _ => return None,
    }
    Some((records, rows))
}

/// The number of ways `damage` knows.
const WAYS: usize = 24;

/// The block spoilt in a random way. Few come out well formed after all (a row or a byte that may be what it became).
pub fn damage(seed: u64, index: u64, block: &StoredBlock) -> StoredBlock {
    let mut random = Random::new(201, seed, index);
    if block.0.len() < 4 || !block.0.len().is_multiple_of(4) || block.1.len() < 2 {
        return (vec![0; 3], Vec::new());
    }
    loop {
        let way = random.below(WAYS);
        if let Some(found) = spoilt(&mut random, way, block) {
            return found;
        }
    }
}

/// The totals and the block that the compiler gives for a job; None where it refuses.
pub fn compiled_with_totals(job: &Job) -> Option<(Totals, StoredBlock)> {
    let mut lent = Lent {
        nodes: vec![Node::default(); 10_240],
        records: vec![0; 80],
        rows: vec![0; 65_536],
    };
    let Answer::Accepted(totals) = fast::compile(job, &mut lent) else {
        return None;
    };
    lent.records.truncate(4 * job.order.len());
    lent.rows.truncate(2 * totals.rows);
    Some((totals, (lent.records, lent.rows)))
}

/// The block alone.
pub fn compiled(job: &Job) -> Option<StoredBlock> {
    compiled_with_totals(job).map(|(_, block)| block)
}
