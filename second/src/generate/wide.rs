//! Multiplexer-like jobs with a chosen number of different columns at one height before its merge.

use super::plain::cell_limits;
use super::random::Random;
use super::sheet::{bytes, named, Record};
use crate::job::Job;

/// The value of some inputs: mask and values.
pub type Cube = (u16, u16);

/// An output at one value of the selectors.
pub type Slot = (u8, u16);

/// Cubes over `inputs` that together hold exactly the points none of `points` agrees with. Points are values of all `inputs`.
fn complement(inputs: &[u8], points: &[u16], cube: Cube, found: &mut Vec<Cube>) {
    if points.is_empty() {
        found.push(cube);
        return;
    }
    let Some((&input, rest)) = inputs.split_first() else {
        return;
    };
    for value in [0, 1] {
        let mut side = points.to_vec();
        side.retain(|point| point >> input & 1 == value);
        let narrower = (cube.0 | 1 << input, cube.1 | value << input);
        complement(rest, &side, narrower, found);
    }
}

pub fn mask_of(inputs: &[u8]) -> u16 {
    inputs.iter().map(|input| 1 << input).sum()
}

/// Spreads the bits of a number over inputs.
pub fn spread(inputs: &[u8], number: usize) -> u16 {
    let bit = |(place, input): (usize, &u8)| ((number >> place & 1) as u16) << input;
    inputs.iter().enumerate().map(bit).sum()
}

/// Different random values of `inputs`, as words.
fn points(random: &mut Random, inputs: &[u8], count: usize) -> Vec<u16> {
    let mut numbers: Vec<usize> = (0..1 << inputs.len()).collect();
    random.shuffle(&mut numbers);
    numbers[..count]
        .iter()
        .map(|n| spread(inputs, *n))
        .collect()
}

/// The inputs by their part. Nine data inputs each own a slot, so that all 512 of their values differ.
/// For `blind` values of the first eight the ninth is in no record (one column less each);
/// for `marked` values a tenth input is tested in one more slot (one column more each).
pub struct Parts {
    pub data: Vec<u8>,
    pub tenth: Option<u8>,
    pub selectors: Vec<u8>,
    pub spare: Vec<u8>,
}

/// A job with `columns` different columns, 490 to 530, at the height below the data inputs, and nowhere more.
pub fn wide(random: &mut Random, columns: usize) -> Job {
    let extra = if random.coin() { 0 } else { random.below(9) };
    let marked = columns.saturating_sub(512) + extra;
    let blind = 512 + marked - columns;
    let with_tenth = marked > 0;
    let selecting = random.within(1, if with_tenth { 2 } else { 3 });
    let used = 9 + usize::from(with_tenth) + selecting;
    let n = random.within(used, 12);
    let m = random.within([5, 3, 2][selecting - 1], 8);

    let mut names = random.permutation(n);
    let parts = Parts {
        data: names.split_off(n - 9),
        tenth: with_tenth.then(|| names.pop()).flatten(),
        selectors: names.split_off(names.len() - selecting),
        spare: names,
    };
    let slots = slots(random, m, &parts.selectors);
    let (mut records, anywhere) = sheet(random, &parts, &slots, blind, marked);
    for _ in 0..random.below(6) {
        let mut narrower = random.pick(&records);
        let added = mask_of(&parts.data) & random.word() & !narrower.mask;
        narrower.mask |= added;
        narrower.values |= random.word() & added;
        records.push(narrower);
    }
    random.shuffle(&mut records);
    let order = order(random, &parts, anywhere, m, &records);
    let (cell_inputs, cell_outputs) = if random.percent(75) {
        (random.within(10, 12) as u64, random.pick(&[8, 9, 16]))
    } else {
        cell_limits(random)
    };
    Job {
        inputs: n as u64,
        outputs: m as u64,
        cell_inputs,
        cell_outputs,
        order,
        sheet: bytes(&records),
    }
}

/// Nine slots for the data inputs and one for the marks. The data slots do not all share a value of the
/// first selector, else the all-free half of the next height would add a column.
pub fn slots(random: &mut Random, m: usize, selectors: &[u8]) -> Vec<Slot> {
    let mut slots: Vec<Slot> = Vec::new();
    for output in 0..m as u8 {
        for value in 0..1 << selectors.len() {
            slots.push((output, spread(selectors, value)));
        }
    }
    loop {
        random.shuffle(&mut slots);
        let high = slots[..9].iter().filter(|s| s.1 >> selectors[0] & 1 == 1);
        if (1..9).contains(&high.count()) {
            slots.truncate(10);
            return slots;
        }
    }
}

/// The records, and whether the tenth input may stand anywhere among the data inputs.
pub fn sheet(
    random: &mut Random,
    parts: &Parts,
    slots: &[Slot],
    blind: usize,
    marked: usize,
) -> (Vec<Record>, bool) {
    let selecting = mask_of(&parts.selectors);
    let mut records = Vec::new();
    let mut force = |slot: Slot, cube: Cube, value: bool| {
        let record = Record::new(selecting | cube.0, slot.1 | cube.1);
        records.push(record.forcing(slot.0, value));
    };
    let first_eight = &parts.data[..8];
    for (input, slot) in first_eight.iter().zip(slots) {
        let flip = random.coin();
        force(*slot, (1 << input, 0), flip);
        force(*slot, (1 << input, 1 << input), !flip);
    }

    // Blind values lie together, so that few cubes cover the others.
    let mut way = first_eight.to_vec();
    random.shuffle(&mut way);
    let turned = spread(&way, random.below(256));
    let unread: Vec<u16> = (0..blind).map(|v| spread(&way, v) ^ turned).collect();
    way.reverse();
    let mut seen = Vec::new();
    complement(&way, &unread, (0, 0), &mut seen);
    let ninth = 1 << parts.data[8];
    let flip = random.coin();
    for cube in seen {
        force(slots[8], (cube.0 | ninth, cube.1), flip);
        force(slots[8], (cube.0 | ninth, cube.1 | ninth), !flip);
    }

    let Some(tenth) = parts.tenth else {
        return (records, true);
    };
    let mut all = parts.data.clone();
    all.push(tenth);
    let marks: Vec<u16> = points(random, first_eight, marked)
        .into_iter()
        .map(|point| point | (random.word() & (ninth | 1 << tenth)))
        .collect();
    let filled = marked <= 8 && random.coin();
    let value = random.coin();
    for mark in &marks {
        let value = if filled { value } else { random.coin() };
        force(slots[9], (mask_of(&all), *mark), value);
    }
    if filled {
        let mut unmarked = Vec::new();
        complement(&all, &marks, (0, 0), &mut unmarked);
        for cube in unmarked {
            force(slots[9], cube, !value);
        }
    }
    (records, filled)
}

/// Data inputs on top, then selectors, outputs that are named below them; spare inputs and outputs anywhere.
/// Where marked columns are compatible with their neighbours the tenth input stands last of the ten.
fn order(
    random: &mut Random,
    parts: &Parts,
    tenth_anywhere: bool,
    m: usize,
    records: &[Record],
) -> Vec<u8> {
    let mut order = parts.data.clone();
    random.shuffle(&mut order);
    if let Some(tenth) = parts.tenth {
        let place = if tenth_anywhere { random.below(10) } else { 9 };
        order.insert(place, tenth);
    }
    order.extend(&parts.selectors);
    let named = named(m, records);
    let outputs = random.permutation(m);
    let (low, high): (Vec<u8>, Vec<u8>) = outputs
        .into_iter()
        .partition(|output| named[usize::from(*output)] != 0);
    order.extend(low.iter().map(|output| 128 + output));
    let free = high.iter().map(|output| 128 + output);
    for variable in free.chain(parts.spare.iter().copied()) {
        order.insert(random.within(0, order.len()), variable);
    }
    order
}
