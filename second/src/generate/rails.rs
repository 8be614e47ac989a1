//! Jobs whose cells have many outputs: with 9 rails at a cut, or with many outputs above one.

use super::plain::{finished, support};
use super::random::Random;
use super::sheet::{cover, named, order, Density, Hidden, Record, Standing};
use super::wide::{self, mask_of, spread, Parts, Slot};
use crate::job::Job;

/// So many outputs, numbered from 0, that are functions of a few data inputs: their records, and an order of these outputs and
/// inputs, the spare inputs below the data inputs.
fn above(random: &mut Random, data: &[u8], spare: &[u8], outputs: usize) -> (Vec<Record>, Vec<u8>) {
    let hidden: Vec<Hidden> = (0..outputs)
        .map(|_| {
            let size = random.within(1, 3);
            let support = support(random, data, size);
            Hidden::random(random, support)
        })
        .collect();
    let density = Density {
        keep: random.pick(&[100, 100, 85]),
        share: random.pick(&[0, 20]),
        narrow: 0,
        most: 128,
    };
    let records = cover(random, data.len(), &hidden, &density);
    let standing = random.pick(&[Standing::Anywhere, Standing::High]);
    let inputs = [data, spare].concat();
    let order = order(random, &inputs, &named(outputs, &records), standing);
    (records, order)
}

/// The job with its records mixed and the numbers of its outputs exchanged.
fn mixed(
    random: &mut Random,
    m: usize,
    limits: (u64, u64),
    mut order: Vec<u8>,
    mut records: Vec<Record>,
) -> Job {
    let names = random.permutation(m);
    let renamed = |outputs: u8| {
        let pairs = names.iter().enumerate();
        pairs.fold(0, |all, (from, to)| all | (outputs >> from & 1) << to)
    };
    for record in &mut records {
        (record.zeros, record.ones) = (renamed(record.zeros), renamed(record.ones));
    }
    for variable in order.iter_mut().filter(|variable| **variable >= 128) {
        *variable = 128 + names[usize::from(*variable - 128)];
    }
    random.shuffle(&mut records);
    finished(order.len() - m, m, limits, order, &records)
}

/// The outputs from `first` on, so many, in any order.
fn lowest(random: &mut Random, first: usize, count: usize) -> impl Iterator<Item = u8> {
    let outputs = random.permutation(count);
    outputs.into_iter().map(move |y| 128 + first as u8 + y)
}

/// Nine data inputs on top with 257 to 512 columns below them, all incompatible; then spare inputs, then one selector, by which the
/// lowest outputs choose data inputs. K is less than n, so that no cell from above the ninth data input reaches below the
/// selector, and one that starts between the two does. One job in ten has L 8 and no cut list.
pub fn nine_rails(random: &mut Random) -> Job {
    let n = random.within(11, 12);
    let low = random.within(5, 8);
    let upper = random.within(0, 8 - low);
    let mut names = random.permutation(n);
    let parts = Parts {
        data: names.split_off(n - 9),
        tenth: None,
        selectors: names.split_off(names.len() - 1),
        spare: names,
    };
    let lower = |(output, values): Slot| (output + upper as u8, values);
    let slots = wide::slots(random, low, &parts.selectors);
    let slots: Vec<Slot> = slots.into_iter().map(lower).collect();
    let any = random.below(256);
    let blind = random.pick(&[0, any, 255]);
    let (mut records, _) = wide::sheet(random, &parts, &slots, blind, 0);
    let mut data = parts.data.clone();
    random.shuffle(&mut data);
    let (more, mut order) = above(random, &data, &parts.spare, upper);
    records.extend(more);
    order.extend(&parts.selectors);
    order.extend(lowest(random, upper, low));
    let cell_inputs = random.within(10, n - 1) as u64;
    let cell_outputs = random.pick(&[8, 9, 9, 10, 11, 12, 13, 14, 15, 16]);
    let limits = (cell_inputs, cell_outputs);
    mixed(random, upper + low, limits, order, records)
}

/// Five to eight data inputs and up to seven outputs above selectors, by which the lowest outputs choose data inputs. Spare inputs,
/// no more than selectors, and a K less than n make it best to cut between: the cell above has up to 15 outputs, and no job has
/// cells of more.
pub fn many_outputs(random: &mut Random) -> Job {
    let selecting = random.within(1, 3);
    let low = 8 >> selecting;
    let upper = random.within(2, 8 - low);
    let data = random.within(5, 8);
    let spare = random.within(1, selecting.min(12 - data - selecting));
    let n = data + spare + selecting;
    let names = random.permutation(n);
    let (data, rest) = names.split_at(data);
    let (spare, selectors) = rest.split_at(spare);
    let (mut records, mut order) = above(random, data, spare, upper);
    for (place, input) in random.permutation(8).into_iter().zip(data) {
        let (output, choice) = (place as usize % low, place as usize / low);
        let (mask, values) = (mask_of(selectors), spread(selectors, choice));
        let flip = random.coin();
        for value in [0, 1] {
            let record = Record::new(mask | 1 << input, values | value << input);
            records.push(record.forcing((upper + output) as u8, (value == 1) ^ flip));
        }
    }
    order.extend(selectors);
    order.extend(lowest(random, upper, low));
    let any = random.within(9, 16);
    let cell_outputs = random.pick(&[upper + data.len(), 16, any]);
    let limits = (n as u64 - 1, cell_outputs as u64);
    mixed(random, upper + low, limits, order, records)
}
