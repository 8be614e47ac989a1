//! Sheets that name inputs on which the output does not depend, with orders that go by dependence alone; and the
//! same with one output above an input on which it depends.

use super::plain::{cell_limits, finished, support};
use super::random::Random;
use super::sheet::{cover, dependent, order, Density, Hidden, Record, Standing};
use crate::job::Job;

/// The most records of a sheet.
pub const MOST: usize = 256;

/// The job with each output below the inputs of its mask, the inputs as given.
pub fn ordered(random: &mut Random, inputs: &[u8], masks: &[u16], records: &[Record]) -> Job {
    let standing = random.pick(&[Standing::Anywhere, Standing::Anywhere, Standing::High]);
    let order = order(random, inputs, masks, standing);
    let limits = cell_limits(random);
    finished(inputs.len(), masks.len(), limits, order, records)
}

/// The record with the output forced, if it has a value.
fn forced(record: Record, output: u8, value: Option<bool>) -> Record {
    value.map_or(record, |value| record.forcing(output, value))
}

/// A function of at most three inputs.
pub fn few(random: &mut Random, n: usize) -> Hidden {
    let inputs: Vec<u8> = (0..n as u8).collect();
    let size = random.within(0, n.min(3));
    let support = support(random, &inputs, size);
    Hidden::random(random, support)
}

/// One record with a full mask for each word. An output takes all of 0, 1 and free, or two of them.
pub fn full_rows(random: &mut Random, n: usize, m: usize) -> Vec<Record> {
    let mask = (1 << n) - 1;
    let mut records: Vec<Record> = (0..=mask).map(|word| Record::new(mask, word)).collect();
    for output in 0..m as u8 {
        let (free, value) = match random.below(4) {
            0 => (few(random, n), few(random, n)),
            1 => (Hidden::always(false), few(random, n)),
            2 => (few(random, n), Hidden::always(false)),
            _ => (few(random, n), Hidden::always(true)),
        };
        for record in &mut records {
            let word = record.values;
            let value = (!free.value(word)).then(|| value.value(word));
            *record = forced(*record, output, value);
        }
    }
    if random.percent(75) {
        random.shuffle(&mut records);
    }
    records
}

/// n 1 to 8, full rows.
pub fn full_rows_anywhere(random: &mut Random) -> Job {
    let (n, m) = (random.within(1, 8), random.within(1, 8));
    let records = full_rows(random, n, m);
    let inputs = random.permutation(n);
    ordered(random, &inputs, &dependent(n, m, &records), &records)
}

/// In place of one record, for all its outputs or some, two or three that together match the same words: halves by
/// an input that it does not test, or three that overlap, by two such inputs. Or a double.
pub fn replace(random: &mut Random, n: usize, records: &mut Vec<Record>) {
    let at = random.below(records.len());
    let record = records[at];
    let outputs = if random.coin() { 255 } else { random.byte() };
    let part = record.only(outputs);
    let testing = |cube: u16, values: u16| Record {
        mask: part.mask | cube,
        values: part.values | (values & cube),
        ..part
    };
    let mut untested: Vec<u16> = (0..n).map(|input| 1 << input).collect();
    untested.retain(|input| record.mask & input == 0);
    random.shuffle(&mut untested);
    let values = random.word();
    match (random.below(4), &untested[..]) {
        (0 | 1, [a, ..]) => {
            records[at] = record.only(!outputs);
            records.extend([testing(*a, values), testing(*a, !values)]);
        }
        (2, [a, b, ..]) => {
            records[at] = record.only(!outputs);
            records.extend([testing(*a, values), testing(*b, values)]);
            records.push(testing(a | b, !values));
        }
        _ => records.push(part),
    }
    records.retain(|record| record.outputs() != 0);
}

/// A cover of functions of few inputs, some outputs never 0 or never 1, with some records replaced and now and then one left
/// out; at most 240 records.
pub fn named_widely(random: &mut Random, n: usize, m: usize) -> Vec<Record> {
    let hidden: Vec<Hidden> = (0..m).map(|_| few(random, n)).collect();
    let density = Density {
        keep: random.pick(&[100, 100, 80, 40]),
        share: random.pick(&[0, 20, 60]),
        narrow: random.pick(&[0, 30]),
        most: 120,
    };
    let mut records = cover(random, n, &hidden, &density);
    let never = (random.byte() & random.byte(), random.byte() & random.byte());
    for record in &mut records {
        record.zeros &= !never.0;
        record.ones &= !never.1;
    }
    records.retain(|record| record.outputs() != 0);
    for _ in 0..random.within(2, 20) {
        if !records.is_empty() && records.len() <= 237 {
            replace(random, n, &mut records);
        }
    }
    if random.percent(15) {
        records.pop();
    }
    random.shuffle(&mut records);
    records
}

/// n 1 to 8, records that name more than they need.
pub fn named_not_dependent(random: &mut Random) -> Job {
    let (n, m) = (random.within(1, 8), random.within(1, 8));
    let records = named_widely(random, n, m);
    let inputs = random.permutation(n);
    ordered(random, &inputs, &dependent(n, m, &records), &records)
}

/// Makes an output take one value for all words but those that agree with one word on a mask, most often a full one,
/// and another value for these.
fn single_out(random: &mut Random, n: usize, full: bool, output: u8, records: &mut Vec<Record>) {
    let all = (1 << n) - 1;
    let mask = if random.percent(60) {
        all
    } else {
        random.word() & all | 1 << random.below(n)
    };
    let word = random.word() & mask;
    let [common, odd] = random.pick(&[
        [None, Some(false)],
        [None, Some(true)],
        [Some(false), None],
        [Some(true), None],
        [Some(false), Some(true)],
        [Some(true), Some(false)],
    ]);
    for record in records.iter_mut() {
        *record = record.only(!(1 << output));
    }
    if full {
        for record in records {
            let agrees = record.values & mask == word;
            *record = forced(*record, output, if agrees { odd } else { common });
        }
        return;
    }
    // The words that agree on some inputs and not on the next, for each input in turn.
    let mut tested = 0;
    for input in random.permutation(n) {
        if mask >> input & 1 == 1 {
            tested |= 1 << input;
            let record = Record::new(tested, word ^ 1 << input);
            records.push(forced(record, output, common));
        }
    }
    records.push(forced(Record::new(mask, word), output, odd));
    random.shuffle(records);
}

/// Full rows with n 1 to 8, or records that name more than they need with n 1 to 12; one output above an input on which
/// it depends.
pub fn dependent_above(random: &mut Random) -> Job {
    loop {
        let full = random.coin();
        let large = !full && random.percent(40);
        let n = if large {
            random.within(9, 12)
        } else {
            random.within(1, 8)
        };
        let m = random.within(1, 8);
        let mut records = if full {
            full_rows(random, n, m)
        } else {
            named_widely(random, n, m)
        };
        let mut output = random.below(m) as u8;
        let singled = random.percent(50);
        if singled {
            single_out(random, n, full, output, &mut records);
        }
        let masks = dependent(n, m, &records);
        let mut candidates: Vec<u8> = (0..m as u8).collect();
        candidates.retain(|y| masks[usize::from(*y)] != 0);
        if candidates.is_empty() {
            continue;
        }
        if !singled {
            output = random.pick(&candidates);
        }
        let inputs = random.permutation(n);
        let mut job = ordered(random, &inputs, &masks, &records);
        raise(random, &mut job.order, output, masks[usize::from(output)]);
        return job;
    }
}

/// Moves an output above an input of the mask; often that is the lowest of them, and no other variable is passed.
pub fn raise(random: &mut Random, order: &mut Vec<u8>, output: u8, mask: u16) {
    order.retain(|variable| *variable != 128 + output);
    let mut places: Vec<usize> = (0..order.len()).collect();
    places.retain(|place| order[*place] < 128 && mask >> order[*place] & 1 == 1);
    if random.percent(60) {
        places.drain(..places.len() - 1);
    }
    let most = random.pick(&places);
    let place = if random.percent(60) {
        most
    } else {
        random.within(0, most)
    };
    order.insert(place, 128 + output);
}

/// So many records with the values of fewer.
pub fn filled(
    random: &mut Random,
    n: usize,
    mut records: Vec<Record>,
    wanted: usize,
) -> Vec<Record> {
    if records.is_empty() {
        records.push(Record::new(0, 0).forcing(0, true));
    }
    while records.len() < wanted {
        if records.len() + 3 <= wanted {
            replace(random, n, &mut records);
        } else {
            let double = random.pick(&records);
            records.push(double);
        }
    }
    records
}

/// n 12, m 8, 256 records that name more than they need; each output reads a window of the inputs.
pub fn limit_named(random: &mut Random) -> Job {
    let (n, m) = (12, 8);
    let inputs = random.permutation(n);
    let window = random.within(3, 7);
    let hidden: Vec<Hidden> = (0..m)
        .map(|_| {
            let first = random.below(n - window + 1);
            let size = random.within(1, window);
            let support = support(random, &inputs[first..first + window], size);
            Hidden::random(random, support)
        })
        .collect();
    let density = Density {
        keep: random.pick(&[100, 100, 90, 30]),
        share: random.pick(&[0, 0, 5]),
        narrow: 0,
        most: 180,
    };
    let records = cover(random, n, &hidden, &density);
    let mut records = filled(random, n, records, MOST);
    random.shuffle(&mut records);
    let mut job = ordered(random, &inputs, &dependent(n, m, &records), &records);
    if random.coin() {
        (job.cell_inputs, job.cell_outputs) = (12, 8);
    }
    job
}
