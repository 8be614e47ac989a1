//! Undamaged jobs from hidden functions: small, medium, full rows, and at the limits.

use super::random::Random;
use super::sheet::{bytes, cover, garnish, named, order, Density, Hidden, Record, Standing};
use crate::job::Job;

#[derive(Clone, Copy, PartialEq, Eq)]
pub enum Free {
    Few,
    Many,
}

impl Free {
    fn keep(self, random: &mut Random) -> usize {
        match self {
            Free::Few => random.within(85, 100),
            Free::Many => random.within(15, 45),
        }
    }
}

/// K and L: tight, anything legal, or ample.
pub fn cell_limits(random: &mut Random) -> (u64, u64) {
    let (k, l) = match random.below(3) {
        0 => (random.within(2, 4), random.within(1, 3)),
        1 => (random.within(2, 12), random.within(1, 16)),
        _ => (random.within(8, 12), random.within(5, 16)),
    };
    (k as u64, l as u64)
}

fn standing(random: &mut Random) -> Standing {
    random.pick(&[Standing::Bottom, Standing::Anywhere, Standing::High])
}

/// A support of `size` inputs out of a list.
pub fn support(random: &mut Random, from: &[u8], size: usize) -> Vec<u8> {
    let mut list = from.to_vec();
    random.shuffle(&mut list);
    list.truncate(size);
    list
}

pub fn finished(n: usize, m: usize, limits: (u64, u64), order: Vec<u8>, records: &[Record]) -> Job {
    Job {
        inputs: n as u64,
        outputs: m as u64,
        cell_inputs: limits.0,
        cell_outputs: limits.1,
        order,
        sheet: bytes(records),
    }
}

/// n 1 to 5, m 1 to 4; `standing` None means any.
pub fn small(random: &mut Random, free: Free, fixed: Option<Standing>) -> Job {
    let (n, m) = (random.within(1, 5), random.within(1, 4));
    let inputs = random.permutation(n);
    let local = fixed == Some(Standing::Anywhere);
    let hidden: Vec<Hidden> = (0..m)
        .map(|_| {
            let size = if local {
                random.below(n.min(3) + 1)
            } else {
                random.within(n / 2, n)
            };
            let support = support(random, &inputs, size);
            Hidden::random(random, support)
        })
        .collect();
    let density = Density {
        keep: free.keep(random),
        share: if local { 10 } else { 50 },
        narrow: random.pick(&[0, 20, 50]),
        most: 250,
    };
    let mut records = cover(random, n, &hidden, &density);
    garnish(random, n, &mut records, 256);
    let standing = fixed.unwrap_or_else(|| standing(random));
    let limits = cell_limits(random);
    let order = order(random, &inputs, &named(m, &records), standing);
    finished(n, m, limits, order, &records)
}

/// n 6 to 9, m 2 to 6.
pub fn medium(random: &mut Random) -> Job {
    let (n, m) = (random.within(6, 9), random.within(2, 6));
    let inputs = random.permutation(n);
    let hidden: Vec<Hidden> = (0..m)
        .map(|_| {
            let size = random.within(2, 6);
            let support = support(random, &inputs, size);
            Hidden::random(random, support)
        })
        .collect();
    let free = random.pick(&[Free::Few, Free::Many]);
    let density = Density {
        keep: free.keep(random),
        share: random.pick(&[0, 10, 50]),
        narrow: random.pick(&[0, 10, 50]),
        most: 250,
    };
    let mut records = cover(random, n, &hidden, &density);
    garnish(random, n, &mut records, 256);
    let standing = standing(random);
    let limits = cell_limits(random);
    let order = order(random, &inputs, &named(m, &records), standing);
    finished(n, m, limits, order, &records)
}

/// One record with a full mask for each word, n 1 to 8, the outputs at the bottom.
pub fn full_rows(random: &mut Random) -> Job {
    let (n, m) = (random.within(1, 8), random.within(1, 8));
    let inputs = random.permutation(n);
    let mask = (1u16 << n) - 1;
    let free = random.pick(&[0, 0, 10, 50, 90]);
    let biased = random.pick(&[50, 50, 20, 95]);
    let mut records: Vec<Record> = (0..=mask).map(|word| Record::new(mask, word)).collect();
    for record in &mut records {
        for output in 0..m as u8 {
            if !random.percent(free) {
                *record = record.forcing(output, random.percent(biased));
            }
        }
    }
    if random.coin() {
        random.shuffle(&mut records);
    }
    let limits = cell_limits(random);
    let order = order(random, &inputs, &named(m, &records), Standing::Bottom);
    finished(n, m, limits, order, &records)
}

/// n 12, m 8, up to 256 records; supports mostly from a window of the order, so that many jobs are narrow.
/// Dense ones read many inputs anywhere and put the outputs last, so that some are too wide.
pub fn at_limits(random: &mut Random, free: Free) -> Job {
    let (n, m) = (12, 8);
    let mut inputs = random.permutation(n);
    let dense = random.percent(30);
    let spread = dense || random.percent(20);
    let window = random.within(if dense { 6 } else { 3 }, 7);
    let hidden: Vec<Hidden> = (0..m)
        .map(|_| {
            let first = random.below(n - window + 1);
            let from = if spread {
                &inputs[..]
            } else {
                &inputs[first..first + window]
            };
            let size = random.within(if dense { 5 } else { 1 }, window);
            let support = support(random, from, size);
            Hidden::random(random, support)
        })
        .collect();
    let density = Density {
        keep: free.keep(random),
        share: if dense {
            30
        } else {
            random.pick(&[0, 0, 5, 20])
        },
        narrow: if dense {
            random.pick(&[30, 70])
        } else {
            random.pick(&[0, 0, 5, 20])
        },
        most: 256,
    };
    let mut records = cover(random, n, &hidden, &density);
    if random.percent(30) {
        garnish(random, n, &mut records, 256);
    }
    if random.percent(15) && !records.is_empty() {
        let missing = 256 - records.len();
        let doubles: Vec<Record> = (0..missing).map(|_| random.pick(&records)).collect();
        records.extend(doubles);
    }
    if random.percent(15) {
        random.shuffle(&mut inputs);
    }
    let standing = if dense {
        Standing::Bottom
    } else {
        standing(random)
    };
    let limits = if random.coin() {
        (12, 8)
    } else {
        cell_limits(random)
    };
    let order = order(random, &inputs, &named(m, &records), standing);
    finished(n, m, limits, order, &records)
}
