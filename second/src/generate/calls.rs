//! Lists of calls on a bank: admissions, latches and steps, refused ones among them, broken off anywhere.

use super::blocks::{damage, StoredBlock};
use super::periods::{right_period, Period, WRONG};
use super::random::Random;
use crate::book::Call;

/// A block with its period and phase.
pub(super) type Slow = (StoredBlock, Period);

/// How many cells a well-formed block's records hold.
pub(super) fn cell_count(block: &StoredBlock) -> usize {
    block.0.chunks(4).filter(|record| record[1] == 1).count()
}

/// The cells of these blocks, whose periods are right, that are due in each of the eight scans.
pub(super) fn reads(blocks: &[Slow]) -> [usize; 8] {
    let mut reads = [0; 8];
    for (block, (period, phase)) in blocks {
        let due = (*phase as usize..8).step_by(*period as usize);
        due.for_each(|scan| reads[scan] += cell_count(block));
    }
    reads
}

/// How a list draws periods: how many in a hundred are not period 1, and how many are wrong.
#[derive(Clone, Copy)]
struct Chances {
    other: usize,
    wrong: usize,
}

impl Chances {
    fn period(self, random: &mut Random) -> Period {
        if random.percent(self.wrong) {
            random.pick(&WRONG)
        } else if random.percent(self.other) {
            right_period(random)
        } else {
            (1, 0)
        }
    }
}

fn admission(
    random: &mut Random,
    blocks: &[StoredBlock],
    damaged: usize,
    chances: Chances,
) -> Call {
    let (mut records, mut rows) = (Vec::new(), Vec::new());
    if !blocks.is_empty() {
        (records, rows) = blocks[random.below(blocks.len())].clone();
        if random.percent(damaged) {
            (records, rows) = damage(random.next(), 0, &(records, rows));
        }
    }
    Call::admit_every(records, rows, chances.period(random))
}

pub(super) fn latch(random: &mut Random) -> Call {
    let high = random.pick(&[0, 0xF000, 0xFFFF]);
    Call::Latch(std::array::from_fn(|_| random.word() & (0x0FFF | high)))
}

/// A scan limit S, a row memory length in bytes and a list of calls over the given well-formed blocks. S and the
/// length are drawn around what some of the planned admissions need. Two lists in five have period 1 alone.
pub fn calls(seed: u64, index: u64, blocks: &[StoredBlock]) -> (u8, usize, Vec<Call>) {
    let mut random = Random::new(202, seed, index);
    let damaged = random.pick(&[0, 20, 50]);
    let (other, wrong) = random.pick(&[(0, 0), (0, 0), (50, 0), (100, 0), (90, 15)]);
    let chances = Chances { other, wrong };
    let mut calls = Vec::new();
    if random.percent(20) {
        calls.push(Call::Step);
    }
    let rounds = random.within(1, 12);
    let opening = random.pick(&[0, 1, 2, 3, 8, 11]);
    for _ in 0..opening {
        calls.push(admission(&mut random, blocks, damaged, chances));
    }
    for _ in 0..rounds {
        match random.below(5) {
            0 => calls.push(admission(&mut random, blocks, damaged, chances)),
            1 => calls.push(Call::Step),
            _ => {
                calls.push(latch(&mut random));
                let most = random.pick(&[1, 4, 20, 40]);
                let steps = random.within(0, most);
                calls.extend(std::iter::repeat_n(Call::Step, steps));
            }
        }
    }
    if random.percent(20) {
        calls.truncate(random.within(0, calls.len()));
    }

    let held = planned(&mut random, &calls, blocks);
    let due = reads(&held).into_iter().max().unwrap_or_default();
    let cells: usize = held.iter().map(|(block, _)| cell_count(block)).sum();
    let rows: usize = held.iter().map(|(block, _)| block.1.len()).sum();
    let limit = match random.below(8) {
        0 | 1 => due,
        2 => due.saturating_sub(1),
        3 => cells.saturating_sub(1),
        4 => random.within(1, 255),
        _ => 255,
    };
    let any = random.within(0, rows);
    let row_memory = match random.below(6) {
        0 => rows,
        1 => rows.saturating_sub(1),
        2 => rows + random.within(1, 300),
        3 => random.pick(&[any, rows / 2]),
        _ => random.pick(&[65_536, 65_535, 65_537, 80_000]),
    };
    (limit.clamp(1, 255) as u8, row_memory, calls)
}

/// The first few undamaged blocks that the list admits with a right period.
fn planned(random: &mut Random, calls: &[Call], blocks: &[StoredBlock]) -> Vec<Slow> {
    let mut held = Vec::new();
    for call in calls {
        if let Call::Admit {
            records,
            rows,
            period,
            phase,
        } = call
        {
            let block = (records.clone(), rows.clone());
            if blocks.contains(&block) && !WRONG.contains(&(*period, *phase)) {
                held.push((block, (*period, *phase)));
            }
        }
    }
    let count = random.within(0, held.len().min(8));
    if random.coin() {
        held.truncate(8);
    } else {
        held.truncate(count);
    }
    held
}
