//! Jobs with 512 different columns at one height before its merge, most pairs of them compatible.

use super::plain::finished;
use super::random::Random;
use super::sheet::{named, order, Record, Standing};
use super::wide::{mask_of, spread, Cube, Slot};
use crate::job::Job;

/// n 12, m 8, outputs at the bottom, K and L enough for any widths up to 256.
pub fn dense(random: &mut Random) -> Job {
    let (n, m) = (12, 8);
    let inputs = random.permutation(n);
    let mut records = sheet(random, &inputs);
    random.shuffle(&mut records);
    let limits = (random.within(9, 12) as u64, 8);
    let order = order(random, &inputs, &named(m, &records), Standing::Bottom);
    finished(n, m, limits, order, &records)
}

/// Eight data inputs on top name a class, one of 2, 4 or 8, and an index in it. The input below them splits each column in
/// two halves. One half holds the index, in slots that only its class uses: it is incompatible with its like of the same
/// class. The other holds the class, and the index as forced or free: it is incompatible with its like of other classes. So
/// above the split no two columns are compatible; below it three pairs in four are, less those that further records set
/// against each other. A clique has at most one half of the first kind from each class: 128, 64 or 32 rounds at least.
fn sheet(random: &mut Random, inputs: &[u8]) -> Vec<Record> {
    let mut data = inputs[..8].to_vec();
    random.shuffle(&mut data);
    let (class, index) = data.split_at(random.within(1, 3));
    let split = 1 << inputs[8];
    let side = random.word() & split;
    let other = (split, side ^ split);
    let selectors = &inputs[9..];
    let selecting = mask_of(selectors);

    let slot = |number: u8| (number / 8, spread(selectors, usize::from(number % 8)));
    let slots: Vec<Slot> = random.permutation(64).into_iter().map(slot).collect();
    let (own, rest) = slots.split_at(index.len() << class.len());
    let (shared, spare) = rest.split_at(data.len());

    // The records for both values of an input.
    let held = |slot: &Slot, cube: Cube, input: &u8, flip: bool| {
        [false, true].map(|value| {
            let bit = u16::from(value) << input;
            let record = Record::new(selecting | cube.0 | 1 << input, slot.1 | cube.1 | bit);
            record.forcing(slot.0, value ^ flip)
        })
    };
    let mut records = Vec::new();
    for (value, own) in own.chunks(index.len()).enumerate() {
        let cube = (split | mask_of(class), side | spread(class, value));
        for (slot, input) in own.iter().zip(index) {
            records.extend(held(slot, cube, input, random.coin()));
        }
    }
    for (place, (slot, input)) in shared.iter().zip(&data).enumerate() {
        let both = held(slot, other, input, random.coin());
        if place < class.len() {
            records.extend(both);
        } else {
            records.push(random.pick(&both));
        }
    }

    let most = random.within(160, 256);
    while records.len() < most {
        let slot = random.pick(spare);
        let mut mask = mask_of(inputs);
        for _ in 0..2 {
            mask &= !(1 << random.pick(&inputs[..9]));
        }
        let values = random.word() & !selecting | slot.1;
        let record = Record::new(mask, values).forcing(slot.0, random.coin());
        if !records.iter().any(|r| r.clashes(&record)) {
            records.push(record);
        }
    }
    records
}
