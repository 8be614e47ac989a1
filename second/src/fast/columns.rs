//! Columns of one height as packed planes, and the numbering of equal ones by hashing.

use super::{zeroed, MAX_COLUMNS};

/// Words in a plane of all columns of a height. Columns with more than one word never number more
/// than the prefixes, and prefixes times words of a column are at most 512.
pub const PLANE: usize = 512;
const SLOTS: usize = 2048;

/// The different columns of a height, in number order: column c has `size` words from c * size on,
/// in the plane of its 0s and in that of its 1s.
pub struct Columns {
    pub count: usize,
    pub size: usize,
    pub zero: Box<[u64; PLANE]>,
    pub one: Box<[u64; PLANE]>,
}

impl Columns {
    pub(super) fn new() -> Self {
        Columns {
            count: 0,
            size: 1,
            zero: zeroed(),
            one: zeroed(),
        }
    }

    #[inline(always)]
    pub fn zero(&self, column: usize) -> &[u64] {
        &self.zero[column * self.size..][..self.size]
    }

    #[inline(always)]
    pub fn one(&self, column: usize) -> &[u64] {
        &self.one[column * self.size..][..self.size]
    }

    /// Gives every column of a clique the clique's number and leaves the products alone, in number
    /// order. A clique's number is at most each member's, so no column is written over unread.
    #[inline(always)]
    pub(super) fn merge(&mut self, number: &[u16; MAX_COLUMNS]) {
        let mut count = 0;
        for (column, &clique) in number.iter().enumerate().take(self.count) {
            let clique = usize::from(clique);
            let (from, to) = (column * self.size, clique * self.size);
            if clique == count {
                count += 1;
                self.zero.copy_within(from..from + self.size, to);
                self.one.copy_within(from..from + self.size, to);
            } else {
                for i in 0..self.size {
                    self.zero[to + i] |= self.zero[from + i];
                    self.one[to + i] |= self.one[from + i];
                }
            }
        }
        self.count = count;
    }
}

/// Finds equal columns. A slot holds 1 + a column number, or 0.
pub struct Slots {
    slots: Box<[u16; SLOTS]>,
    mask: usize,
}

impl Slots {
    pub(super) fn new() -> Self {
        Slots {
            slots: zeroed(),
            mask: 0,
        }
    }

    /// Empties `columns` and the slots, for at most `candidates` columns of `size` words.
    #[inline(always)]
    pub(super) fn start(&mut self, columns: &mut Columns, candidates: usize, size: usize) {
        let len = (2 * candidates).next_power_of_two().min(SLOTS);
        self.mask = len - 1;
        self.slots[..len].fill(0);
        columns.count = 0;
        columns.size = size;
    }

    /// The number of the column with these planes, of an even number of words, which is added if it
    /// is new; none if it would be the 513th.
    #[inline(always)]
    pub(super) fn number(
        &mut self,
        columns: &mut Columns,
        zero: &[u64],
        one: &[u64],
    ) -> Option<u16> {
        let hash = hash(zero, one);
        let mut slot = (hash >> 40) as usize & self.mask;
        loop {
            let held = self.slots[slot & (SLOTS - 1)];
            if held == 0 {
                break;
            }
            let column = usize::from(held) - 1;
            if columns.zero(column) == zero && columns.one(column) == one {
                return Some(held - 1);
            }
            slot = (slot + 1) & self.mask;
        }
        let column = columns.count;
        if column == MAX_COLUMNS {
            return None;
        }
        let from = column * columns.size;
        columns.zero[from..from + zero.len()].copy_from_slice(zero);
        columns.one[from..from + one.len()].copy_from_slice(one);
        columns.count += 1;
        self.slots[slot & (SLOTS - 1)] = column as u16 + 1;
        Some(column as u16)
    }

    /// `number` for columns of one word.
    #[inline(always)]
    pub(super) fn number_word(
        &mut self,
        columns: &mut Columns,
        zero: u64,
        one: u64,
    ) -> Option<u16> {
        let hash = mix(mix(0, zero), one);
        let mut slot = (hash >> 40) as usize & self.mask;
        loop {
            let held = usize::from(self.slots[slot & (SLOTS - 1)]);
            if held == 0 {
                break;
            }
            let column = (held - 1) & (PLANE - 1);
            if columns.zero[column] == zero && columns.one[column] == one {
                return Some(column as u16);
            }
            slot = (slot + 1) & self.mask;
        }
        let column = columns.count;
        if column >= MAX_COLUMNS {
            return None;
        }
        columns.zero[column] = zero;
        columns.one[column] = one;
        columns.count += 1;
        self.slots[slot & (SLOTS - 1)] = column as u16 + 1;
        Some(column as u16)
    }
}

/// Four chains side by side, since each step of one waits for the step before.
#[inline(always)]
fn hash(zero: &[u64], one: &[u64]) -> u64 {
    let mut chains = [0u64; 4];
    for (z, o) in zero.chunks_exact(2).zip(one.chunks_exact(2)) {
        for (chain, word) in chains.iter_mut().zip([z[0], o[0], z[1], o[1]]) {
            *chain = chain.rotate_left(13) ^ word;
            *chain = chain.wrapping_add(*chain << 5);
        }
    }
    chains.iter().fold(0, |hash, &chain| mix(hash, chain))
}

#[inline(always)]
fn mix(hash: u64, word: u64) -> u64 {
    let product = (hash ^ word).wrapping_mul(0x9e37_79b9_7f4a_7c15);
    product ^ product >> 32
}
