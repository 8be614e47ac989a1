//! Sheets that can't clash, since each record agrees with one hidden function per output, and orders legal for them.

use super::random::Random;

#[derive(Clone, Copy, Debug, PartialEq, Eq)]
pub struct Record {
    pub mask: u16,
    pub values: u16,
    pub zeros: u8,
    pub ones: u8,
    pub stop: bool,
}

impl Record {
    /// An ordinary record that names nothing.
    pub fn new(mask: u16, values: u16) -> Record {
        Record {
            mask,
            values: values & mask,
            zeros: 0,
            ones: 0,
            stop: false,
        }
    }

    pub fn forcing(mut self, output: u8, value: bool) -> Record {
        if value {
            self.ones |= 1 << output;
        } else {
            self.zeros |= 1 << output;
        }
        self
    }

    /// The outputs named.
    pub fn outputs(self) -> u8 {
        self.zeros | self.ones
    }

    /// The same record of these outputs alone.
    pub fn only(mut self, outputs: u8) -> Record {
        self.zeros &= outputs;
        self.ones &= outputs;
        self
    }

    /// Two records of one kind match a common word and force one output both ways.
    pub fn clashes(&self, other: &Record) -> bool {
        self.stop == other.stop
            && (self.values ^ other.values) & self.mask & other.mask == 0
            && self.zeros & other.ones | self.ones & other.zeros != 0
    }

    /// A record of a sheet in order.
    pub fn read(bytes: &[u8]) -> Record {
        Record {
            mask: u16::from_le_bytes([bytes[0], bytes[1]]),
            values: u16::from_le_bytes([bytes[2], bytes[3]]),
            zeros: bytes[4],
            ones: bytes[5],
            stop: bytes[6] == 1,
        }
    }

    pub fn bytes(self) -> [u8; 8] {
        let (mask, values) = (self.mask.to_le_bytes(), self.values.to_le_bytes());
        let stop = u8::from(self.stop);
        [
            mask[0], mask[1], values[0], values[1], self.zeros, self.ones, stop, 0,
        ]
    }
}

pub fn bytes(records: &[Record]) -> Vec<u8> {
    records.iter().flat_map(|record| record.bytes()).collect()
}

/// A completely specified function of few inputs. Bit j of a table index is input `support[j]`.
pub struct Hidden {
    support: Vec<u8>,
    table: Vec<bool>,
}

impl Hidden {
    /// The same value for every word.
    pub fn always(value: bool) -> Hidden {
        Hidden {
            support: Vec::new(),
            table: vec![value],
        }
    }

    pub fn random(random: &mut Random, support: Vec<u8>) -> Hidden {
        let size = 1usize << support.len();
        let kind = random.below(8);
        let share = random.pick(&[10, 25, 50, 75]);
        let flip = random.coin();
        let chosen = random.below(size);
        let least = random.within(1, support.len().max(1)) as u32;
        let table = (0..size)
            .map(|index| {
                flip ^ match kind {
                    0 => index.count_ones() % 2 == 1,
                    1 => index == chosen,
                    2 => index.count_ones() >= least,
                    3 => index & chosen != 0,
                    _ => random.percent(share),
                }
            })
            .collect();
        Hidden { support, table }
    }

    /// The value of a word.
    pub fn value(&self, word: u16) -> bool {
        let bit = |(place, input): (usize, &u8)| usize::from(word >> input & 1) << place;
        self.table[self.support.iter().enumerate().map(bit).sum::<usize>()]
    }

    fn word(&self, index: usize) -> u16 {
        let bit = |(place, input): (usize, &u8)| ((index >> place & 1) as u16) << input;
        self.support.iter().enumerate().map(bit).sum()
    }

    fn mask(&self) -> u16 {
        self.support.iter().map(|input| 1 << input).sum()
    }

    /// The value taken by all words that match, if it is one.
    fn constant(&self, mask: u16, values: u16) -> Option<bool> {
        let shared = mask & self.mask();
        let matches = |index: &usize| self.word(*index) & shared == values & shared;
        let mut found = (0..self.table.len()).filter(matches).map(|i| self.table[i]);
        let first = found.next()?;
        found.all(|value| value == first).then_some(first)
    }
}

/// How a sheet is drawn from hidden functions; the first three are chances in percent.
pub struct Density {
    /// That a word not yet covered gets a record.
    pub keep: usize,
    /// That a record also forces another output it could.
    pub share: usize,
    /// That a record tests an input it need not.
    pub narrow: usize,
    /// The most records.
    pub most: usize,
}

pub fn cover(random: &mut Random, n: usize, hidden: &[Hidden], density: &Density) -> Vec<Record> {
    let mut records = Vec::new();
    for output in random.permutation(hidden.len()) {
        let function = &hidden[usize::from(output)];
        let mut indices: Vec<usize> = (0..function.table.len()).collect();
        random.shuffle(&mut indices);
        let mut covered = vec![false; indices.len()];
        for index in indices {
            if covered[index] || records.len() >= density.most || !random.percent(density.keep) {
                continue;
            }
            let word = function.word(index);
            let mut mask = widened(random, function, word);
            for (other, covered) in covered.iter_mut().enumerate() {
                *covered |= function.word(other) & mask == word & mask;
            }
            let mut values = word;
            if random.percent(density.narrow) {
                let extra = 1 << random.below(n) & !function.mask();
                mask |= extra;
                values |= random.word() & extra;
                // The half of the words this leaves out is kept or free like any other.
                if extra != 0 && records.len() + 1 < density.most && random.percent(density.keep) {
                    let half = Record::new(mask, values ^ extra);
                    records.push(half.forcing(output, function.table[index]));
                }
            }
            let mut record = Record::new(mask, values).forcing(output, function.table[index]);
            for (other, function) in hidden.iter().enumerate() {
                if other == usize::from(output) || !random.percent(density.share) {
                    continue;
                }
                if let Some(value) = function.constant(mask, values) {
                    record = record.forcing(other as u8, value);
                }
            }
            records.push(record);
        }
    }
    records
}

/// Drops tested inputs while the function stays constant; now and then one is kept that need not be.
fn widened(random: &mut Random, function: &Hidden, word: u16) -> u16 {
    let mut mask = function.mask();
    let mut inputs = function.support.clone();
    random.shuffle(&mut inputs);
    for input in inputs {
        let wider = mask & !(1 << input);
        if function.constant(wider, word).is_some() && !random.percent(10) {
            mask = wider;
        }
    }
    mask
}

/// Adds records that change nothing (no output named, doubles, narrower copies) and mixes all.
pub fn garnish(random: &mut Random, n: usize, records: &mut Vec<Record>, most: usize) {
    let inputs = (1u16 << n) - 1;
    for _ in 0..random.below(4) {
        if records.len() >= most {
            break;
        }
        let added = match random.below(3) {
            0 => Record::new(random.word() & inputs, random.word()),
            kind if !records.is_empty() => {
                let mut copy = random.pick(records);
                let extra = 1 << random.below(n);
                if kind == 2 && copy.mask & extra == 0 {
                    copy.mask |= extra;
                    copy.values |= random.word() & extra;
                }
                copy
            }
            _ => Record::new(0, 0),
        };
        records.push(added);
    }
    random.shuffle(records);
}

/// Where the outputs stand among the inputs.
#[derive(Clone, Copy, PartialEq, Eq)]
pub enum Standing {
    Bottom,
    Anywhere,
    High,
}

/// For each output the inputs named for it, as a mask.
pub fn named(m: usize, records: &[Record]) -> Vec<u16> {
    let names = |output: usize| {
        let naming = records.iter().filter(|r| r.outputs() >> output & 1 == 1);
        naming.fold(0, |mask, record| mask | record.mask)
    };
    (0..m).map(names).collect()
}

/// For each output the inputs on which it depends, as a mask: two words that differ in the input alone
/// give it different values among 0, 1 and free, a stop record deciding where it names the output. No
/// two records of one kind clash.
pub fn dependent(n: usize, m: usize, records: &[Record]) -> Vec<u16> {
    let forced = |word: u16| {
        let (mut ordinary, mut stop) = ([0, 0], [0, 0]);
        for r in records.iter().filter(|r| word & r.mask == r.values) {
            let all = if r.stop { &mut stop } else { &mut ordinary };
            *all = [all[0] | r.zeros, all[1] | r.ones];
        }
        let left = !(stop[0] | stop[1]);
        [stop[0] | ordinary[0] & left, stop[1] | ordinary[1] & left]
    };
    let forced: Vec<[u8; 2]> = (0..1 << n).map(forced).collect();
    let mut masks = vec![0; m];
    for input in 0..n {
        let differ = forced.iter().enumerate().fold(0, |outputs, (word, here)| {
            let there = forced[word ^ 1 << input];
            outputs | (here[0] ^ there[0]) | (here[1] ^ there[1])
        });
        for (output, mask) in masks.iter_mut().enumerate() {
            *mask |= u16::from(differ >> output & 1) << input;
        }
    }
    masks
}

/// An order with the inputs as given, topmost first, and each output below the inputs of its mask.
pub fn order(random: &mut Random, inputs: &[u8], masks: &[u16], standing: Standing) -> Vec<u8> {
    let n = inputs.len();
    let mut below: Vec<Vec<u8>> = vec![Vec::new(); n + 1];
    for output in random.permutation(masks.len()) {
        let mask = masks[usize::from(output)];
        let least = inputs.iter().rposition(|input| mask >> input & 1 == 1);
        let least = least.map_or(0, |place| place + 1);
        let place = match standing {
            Standing::Bottom => n,
            Standing::Anywhere => random.within(least, n),
            Standing::High => least,
        };
        below[place].push(128 + output);
    }
    let mut order = std::mem::take(&mut below[0]);
    for (place, input) in inputs.iter().enumerate() {
        order.push(*input);
        order.append(&mut below[place + 1]);
    }
    order
}
