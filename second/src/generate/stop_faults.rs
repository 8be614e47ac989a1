//! Sheets with stop records that are refused: with 5 for a clash within a kind, with 4 or 6 for one fault.

use super::dependence::{ordered, raise};
use super::random::Random;
use super::sheet::{dependent, Record};
use super::stop::{mixed, sizes};
use crate::job::Job;

/// Takes an output away from the records of a kind.
fn free(records: &mut [Record], stop: bool, output: u8) {
    for record in records.iter_mut().filter(|r| r.stop == stop) {
        *record = record.only(!(1 << output));
    }
}

/// Two records of a kind that both match a word and force an output both ways.
fn pair(random: &mut Random, n: usize, stop: bool, word: u16, output: u8) -> [Record; 2] {
    let all = (1 << n) - 1;
    [false, true].map(|value| {
        let record = Record::new(random.word() & all, word).forcing(output, value);
        Record { stop, ..record }
    })
}

/// One stop record that names an output for all words which both of a pair match, or two halves of such a one; each half goes
/// its own way.
fn covering(random: &mut Random, n: usize, pair: &[Record; 2], output: u8) -> Vec<Record> {
    let (mask, values) = (pair[0].mask | pair[1].mask, pair[0].values | pair[1].values);
    let wider = mask & (random.word() | random.word());
    let half = 1 << random.below(n) & !wider;
    let half = if random.coin() { half } else { 0 };
    let mut parts = vec![0, half];
    parts.dedup();
    let record = |part: u16| Record {
        stop: true,
        ..Record::new(wider | half, values & wider | part).forcing(output, random.coin())
    };
    parts.into_iter().map(record).collect()
}

/// Two records of one kind clash. What they are comes round with the index: ordinary ones; the same, with a stop record naming
/// the output for each word both match; stop records; the same, beside an ordinary one; stop records in a sheet of stop records.
pub fn stop_clash(random: &mut Random, index: u64) -> Job {
    let (n, m) = sizes(random);
    let mut records = mixed(random, n, m);
    let output = random.below(m) as u8;
    let word = random.word();
    let kind = index % 5;
    let stop = kind >= 2;
    let pair = pair(random, n, stop, word, output);
    free(&mut records, stop, output);
    match kind {
        1 => {
            free(&mut records, true, output);
            records.extend(covering(random, n, &pair, output));
        }
        2 => free(&mut records, false, output),
        3 => {
            free(&mut records, false, output);
            let mask = (pair[0].mask | pair[1].mask) & random.word();
            records.push(Record::new(mask, word).forcing(output, random.coin()));
        }
        4 => records.retain(|record| record.stop),
        _ => {}
    }
    let masks = dependent(n, m, &records);
    records.extend(pair);
    random.shuffle(&mut records);
    let inputs = random.permutation(n);
    ordered(random, &inputs, &masks, &records)
}

/// Where a record of a kind begins in the sheet; there is one.
fn place_of(random: &mut Random, sheet: &[u8], stop: bool) -> usize {
    let mut places: Vec<usize> = (0..sheet.len()).step_by(8).collect();
    places.retain(|at| sheet[at + 6] == u8::from(stop));
    random.pick(&places)
}

/// One fault in a sheet with records of both kinds; what it is comes round with the index. The last two are an output above an
/// input on which it depends, often by a stop record alone.
pub fn stop_damaged(random: &mut Random, index: u64) -> Job {
    loop {
        let (n, m) = sizes(random);
        let records = mixed(random, n, m);
        let inputs = random.permutation(n);
        let masks = dependent(n, m, &records);
        let mut job = ordered(random, &inputs, &masks, &records);
        let fault = index % 9;
        if fault < 7 {
            spoil(random, &mut job, fault);
            return job;
        }
        let mut ordinary = records;
        ordinary.retain(|record| !record.stop);
        let alone = dependent(n, m, &ordinary);
        let made = |y: usize| masks[y] & !alone[y];
        let mut outputs: Vec<usize> = (0..m).collect();
        let any = random.percent(30);
        outputs.retain(|&y| if any { masks[y] } else { made(y) } != 0);
        if outputs.is_empty() {
            continue;
        }
        let output = random.pick(&outputs);
        let mask = if any { masks[output] } else { made(output) };
        raise(random, &mut job.order, output as u8, mask);
        return job;
    }
}

/// Faults 0 to 6, each refused with 4: a mark above 1; byte 7 of a stop record and of an ordinary one not zero; and in a stop
/// record a value bit outside its mask, an output both ways, a bit outside n, a bit outside m.
fn spoil(random: &mut Random, job: &mut Job, fault: u64) {
    let (n, m) = (job.inputs as usize, job.outputs as usize);
    let stop = match fault {
        0 => random.coin(),
        2 => false,
        _ => true,
    };
    let at = place_of(random, &job.sheet, stop);
    let record = &mut job.sheet[at..at + 8];
    match fault {
        0 => {
            let any = random.within(2, 255) as u8;
            record[6] = random.pick(&[2, 2, 3, 255, any, any]);
        }
        1 | 2 => record[7] = random.pick(&[1, 1, 2, 128, 255]),
        3 => {
            let most = random.pick(&[n, n, 16]);
            let bit = 1u16 << random.below(most);
            for (byte, bits) in bit.to_le_bytes().into_iter().enumerate() {
                record[byte] &= !bits;
                record[2 + byte] |= bits;
            }
        }
        4 => {
            let bit = 1 << random.below(m);
            record[4] |= bit;
            record[5] |= bit;
        }
        5 => {
            let bit = 1u16 << random.within(n, 15);
            let valued = random.coin();
            for (byte, bits) in bit.to_le_bytes().into_iter().enumerate() {
                record[byte] |= bits;
                record[2 + byte] |= if valued { bits } else { 0 };
            }
        }
        _ => record[4 + random.below(2)] |= 1 << random.within(m, 7),
    }
}
