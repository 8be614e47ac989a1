//! Cascades with one-byte rows, damage to them, and memories of any length to move a cascade to.

use super::blocks::{row_bytes, some_row, spoilt, StoredBlock};
use super::cascades::{filled, kinds, records_of};
use super::random::Random;

/// A well-formed cascade with at most so many outputs a cell, 8 to 16. Shapes and kinds of rows come round as in `made`, with fewer
/// rails where a cell would have more outputs.
pub fn at_most(outputs: u8, seed: u64, index: u64) -> StoredBlock {
    let (shape, rows) = kinds(index);
    let random = &mut Random::new(590, seed, index);
    let mut records = records_of(random, shape, seed, index);
    let mut own = 0;
    for record in records.chunks_exact_mut(4) {
        own += u8::from(record[0] >= 128);
        if record[1] == 1 {
            record[2] = record[2].min(outputs - own);
            own = 0;
        }
    }
    let rows = filled(random, &records, rows);
    (records, row_bytes(&rows))
}

/// The low bytes of two-byte rows.
pub fn low_bytes(rows: &[u8]) -> Vec<u8> {
    rows.iter().step_by(2).copied().collect()
}

/// A cascade that is well formed by the rules before document 02, §6.
pub fn one_byte(seed: u64, index: u64) -> StoredBlock {
    let (records, rows) = at_most(8, seed, index);
    (records, low_bytes(&rows))
}

/// The same rows as pairs of bytes.
fn pairs((records, rows): &StoredBlock) -> StoredBlock {
    let rows = rows.iter().flat_map(|&row| [row, 0]).collect();
    (records.clone(), rows)
}

/// One way to spoil a cascade with one-byte rows; None where this one can't be spoilt so.
fn spoilt_one_byte(random: &mut Random, way: usize, whole: &StoredBlock) -> Option<StoredBlock> {
    let (records, mut rows) = whole.clone();
    let at = random.below(rows.len());
    match way {
        // The ways that change records alone.
        0..=13 | 17 | 18 => {
            let (records, _) = spoilt(random, way, &pairs(whole))?;
            return Some((records, rows));
        }
        14 => rows.truncate(at),
        15 => rows.extend(random.bytes(at + 1)),
        16 => rows[at] = 255,
        19 => rows[at] ^= 1 << random.below(8),
        20 => {
            rows.pop();
        }
        21 => rows.push(0),
        22 => rows = pairs(whole).1,
        // The least value that is too large, then any such bit.
        _ => {
            let (pair, outputs) = some_row(random, &pairs(whole));
            if outputs >= 8 {
                return None;
            }
            rows[pair / 2] = match way {
                23 => 1 << outputs,
                _ => 1 << random.within(outputs, 7) | random.byte(),
            };
        }
    }
    Some((records, rows))
}

/// The number of ways `damage_one_byte` knows.
const WAYS: usize = 25;

/// A cascade with one-byte rows, well formed but perhaps for cells of more than 8 outputs, spoilt in a random way. Few come out well
/// formed after all.
pub fn damage_one_byte(seed: u64, index: u64, whole: &StoredBlock) -> StoredBlock {
    let random = &mut Random::new(591, seed, index);
    loop {
        let way = random.below(WAYS);
        if let Some(found) = spoilt_one_byte(random, way, whole) {
            return found;
        }
    }
}

/// How long a memory is, by the bytes needed of it.
#[derive(Clone, Copy, Debug, PartialEq, Eq)]
pub enum Room {
    OneByteShort,
    /// By any number of bytes.
    Short,
    Exact,
    Long,
}

impl Room {
    pub const ALL: [Room; 4] = [Room::OneByteShort, Room::Short, Room::Exact, Room::Long];

    /// So long a memory with random contents. Where nothing is needed none is short.
    pub fn memory(self, random: &mut Random, needed: usize) -> Vec<u8> {
        let length = match self {
            Room::OneByteShort => needed.saturating_sub(1),
            Room::Short => random.below(needed.max(1)),
            Room::Exact => needed,
            Room::Long => needed + random.within(1, 40),
        };
        random.bytes(length)
    }
}
