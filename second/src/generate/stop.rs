//! Sheets with stop records: over ordinary ones, alone, and at the limits.

use super::dependence::{few, filled, full_rows, named_widely, ordered, replace, MOST};
use super::plain::support;
use super::random::Random;
use super::sheet::{cover, dependent, Density, Hidden, Record};
use crate::job::Job;

/// n 1 to 8, m 1 to 6.
pub fn sizes(random: &mut Random) -> (usize, usize) {
    (random.within(1, 8), random.within(1, 6))
}

/// Ordinary records, at least one, that agree with functions of at most three inputs.
fn ordinary(random: &mut Random, n: usize, m: usize) -> Vec<Record> {
    let hidden: Vec<Hidden> = (0..m).map(|_| few(random, n)).collect();
    let density = Density {
        keep: random.pick(&[100, 80, 40]),
        share: random.pick(&[0, 20, 60]),
        narrow: random.pick(&[0, 30]),
        most: 60,
    };
    let mut records = cover(random, n, &hidden, &density);
    if records.is_empty() {
        let record = Record::new(1 << random.below(n), random.word());
        records.push(record.forcing(random.below(m) as u8, random.coin()));
    }
    for _ in 0..random.below(4) {
        replace(random, n, &mut records);
    }
    records
}

/// The words of a record, some of them, or more; it names nothing.
fn around(random: &mut Random, n: usize, record: &Record) -> Record {
    let all = (1 << n) - 1;
    match random.below(3) {
        0 => Record::new(record.mask, record.values),
        1 => Record::new(record.mask & random.word(), record.values),
        _ => {
            let added = random.word() & random.word() & all & !record.mask;
            let values = record.values | (random.word() & added);
            Record::new(record.mask | added, values)
        }
    }
}

/// The record with the outputs forced as another one forces them, or the other way.
fn forcing_as(record: Record, other: &Record, same_way: bool) -> Record {
    let (zeros, ones) = if same_way {
        (other.zeros, other.ones)
    } else {
        (other.ones, other.zeros)
    };
    Record {
        zeros,
        ones,
        ..record
    }
}

/// A stop record for a sheet with these ordinary ones and stop records.
fn stop_record(
    random: &mut Random,
    (n, m): (usize, usize),
    ordinary: &[Record],
    stops: &[Record],
) -> Record {
    let under = random.pick(ordinary);
    let output = random.below(m) as u8;
    let record = match random.below(13) {
        0..=4 => {
            let outputs = if random.coin() { 255 } else { random.byte() };
            let record = around(random, n, &under);
            forcing_as(record, &under, random.percent(35)).only(outputs)
        }
        5 | 6 => {
            let outputs = random.byte() & !under.outputs() & ((1 << m) - 1);
            let ones = outputs & random.byte();
            let record = around(random, n, &under);
            Record {
                zeros: outputs & !ones,
                ones,
                ..record
            }
        }
        // A tested input turned over: values that differed by it may become the same.
        7 | 8 => {
            let turned = under.mask & (1 << random.below(n));
            let record = Record::new(under.mask, under.values ^ turned);
            forcing_as(record, &under, random.percent(75))
        }
        // Few inputs tested: dependence by ordinary records is hidden.
        9 => {
            let mask = random.pick(&[0, 1]) << random.below(n);
            Record::new(mask, random.word()).forcing(output, random.coin())
        }
        10 => Record::new((1 << n) - 1, random.word()).forcing(output, random.coin()),
        11 if !stops.is_empty() => random.pick(stops),
        _ => Record::new(random.word() & ((1 << n) - 1), random.word()),
    };
    Record {
        stop: true,
        ..record
    }
}

/// Ordinary records, and stop records that make 10 to 50 % of all; no two of one kind clash.
pub fn mixed(random: &mut Random, n: usize, m: usize) -> Vec<Record> {
    let ordinary = ordinary(random, n, m);
    let percent = random.within(10, 50);
    let (least, most) = (ordinary.len().div_ceil(9), ordinary.len());
    let count = (most * percent / (100 - percent)).clamp(least, most);
    let mut stops: Vec<Record> = Vec::new();
    let mut tries = 0;
    while stops.len() < count {
        let mut record = stop_record(random, (n, m), &ordinary, &stops);
        tries += 1;
        if tries > 20 * count {
            record = record.only(0);
        }
        if !stops.iter().any(|stop| stop.clashes(&record)) {
            stops.push(record);
        }
    }
    match random.below(4) {
        0 => [stops, ordinary].concat(),
        1 => [ordinary, stops].concat(),
        _ => {
            let mut records = [ordinary, stops].concat();
            random.shuffle(&mut records);
            records
        }
    }
}

/// Each output below the inputs on which it depends, whatever it does by the ordinary records alone.
pub fn stop_some(random: &mut Random) -> Job {
    let (n, m) = sizes(random);
    let records = mixed(random, n, m);
    let inputs = random.permutation(n);
    ordered(random, &inputs, &dependent(n, m, &records), &records)
}

/// Stop records alone, at least one.
pub fn stop_only(random: &mut Random) -> Job {
    let (n, m) = sizes(random);
    let mut records = if random.percent(25) {
        full_rows(random, n, m)
    } else {
        named_widely(random, n, m)
    };
    if records.is_empty() {
        records.push(Record::new(0, 0));
    }
    for record in &mut records {
        record.stop = true;
    }
    let inputs = random.permutation(n);
    ordered(random, &inputs, &dependent(n, m, &records), &records)
}

/// n 12, m 8, 256 records, about a third of them stop records. For each output both kinds read one window of the inputs.
pub fn limit_stop(random: &mut Random) -> Job {
    let (n, m) = (12, 8);
    let inputs = random.permutation(n);
    let window = random.within(3, 6);
    let first: Vec<usize> = (0..m).map(|_| random.below(n - window + 1)).collect();
    let stops = random.within(77, 94);
    let mut kind = |wanted: usize, most: usize, keep: usize| {
        let hidden: Vec<Hidden> = first
            .iter()
            .map(|&first| {
                let size = random.within(1, window);
                let support = support(random, &inputs[first..first + window], size);
                Hidden::random(random, support)
            })
            .collect();
        let density = Density {
            keep,
            share: random.pick(&[0, 0, 5]),
            narrow: 0,
            most,
        };
        let records = cover(random, n, &hidden, &density);
        filled(random, n, records, wanted)
    };
    let mut records = kind(stops, 60, 50);
    for record in &mut records {
        record.stop = true;
    }
    records.extend(kind(MOST - stops, 120, 95));
    random.shuffle(&mut records);
    let mut job = ordered(random, &inputs, &dependent(n, m, &records), &records);
    if random.coin() {
        (job.cell_inputs, job.cell_outputs) = (12, 8);
    }
    job
}
