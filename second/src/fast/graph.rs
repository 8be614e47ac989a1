//! The compatibility graph of the columns of a height, as rows of bits.

use super::columns::Columns;
use super::{zeroed, MAX_COLUMNS};

/// Words in a row of the graph.
pub const ROW: usize = MAX_COLUMNS / 64;

pub type Set = [u64; ROW];

/// `rows[c]` has bit j exactly when columns c and j differ and are compatible.
pub struct Graph {
    pub rows: Box<[Set; MAX_COLUMNS]>,
    /// The columns whose rows are found by comparing; the others get their edges from these.
    sources: Set,
    /// Edges run only between the two sides; without sides, between any columns.
    sides: Option<[Set; 2]>,
}

impl Graph {
    pub(super) fn new() -> Self {
        Graph {
            rows: zeroed(),
            sources: [0; ROW],
            sides: None,
        }
    }

    /// Makes the rows of `columns`, whose places are those set in `place(word)`; answers whether
    /// there is any edge. With `sides`, only pairs across them can be compatible.
    ///
    /// Two different columns without d are never compatible, so each edge has an end with some d;
    /// it also has an end on either side. The fewer of these are the sources.
    #[inline(always)]
    pub(super) fn build(
        &mut self,
        columns: &Columns,
        sides: Option<[Set; 2]>,
        place: impl Fn(usize) -> u64,
    ) -> bool {
        let count = columns.count;
        let mut free = [0; ROW];
        for column in 0..count {
            let (zero, one) = (columns.zero(column), columns.one(column));
            if (0..columns.size).any(|i| zero[i] | one[i] != place(i)) {
                free[column / 64] |= 1 << (column % 64);
            }
        }
        if let Some([a, b]) = sides {
            for (word, either) in free.iter_mut().zip(a.iter().zip(b)) {
                *word &= either.0 | either.1;
            }
            for side in [a, b] {
                if size(&side) < size(&free) {
                    free = side;
                }
            }
        }
        if size(&free) == 0 {
            return false;
        }
        self.sources = free;
        self.sides = sides;
        for row in &mut self.rows[..count] {
            *row = [0; ROW];
        }
        match count {
            0..=64 => self.by_pairs(columns),
            65..=128 => self.by_places::<2>(columns),
            129..=256 => self.by_places::<4>(columns),
            _ => self.by_places::<8>(columns),
        }
    }

    /// The columns that `column` may be compatible with.
    #[inline(always)]
    fn allowed(&self, column: usize, count: usize) -> Set {
        let (word, bit) = (column / 64 % ROW, 1 << (column % 64));
        match &self.sides {
            Some([a, b]) if a[word] & bit != 0 => *b,
            Some([a, b]) if b[word] & bit != 0 => *a,
            Some(_) => [0; ROW],
            None => {
                let mut all = [0; ROW];
                for (i, set) in all.iter_mut().enumerate() {
                    *set = low(count.saturating_sub(64 * i));
                }
                all[word] &= !bit;
                all
            }
        }
    }

    /// Few columns, perhaps long: each pair until a word shows a 0 against a 1.
    #[inline(always)]
    fn by_pairs(&mut self, columns: &Columns) -> bool {
        let (count, sources) = (columns.count, self.sources[0]);
        let mut edges = 0;
        for a in (0..count).filter(|a| sources >> a & 1 == 1) {
            let (zero, one) = (columns.zero(a), columns.one(a));
            // Pairs of sources are met from their lower member.
            let mut others = self.allowed(a, count)[0] & !(sources & low(a));
            let mut found = 0;
            while others != 0 {
                let b = others.trailing_zeros() as usize;
                others &= others - 1;
                if compatible(zero, one, columns.zero(b), columns.one(b)) {
                    found |= 1 << b;
                    self.rows[b][0] |= 1 << a;
                }
            }
            self.rows[a][0] |= found;
            edges |= found;
        }
        edges != 0
    }

    /// Many columns, each short: at each place the set of columns with 0 there and that with 1;
    /// a column is incompatible with the union of the sets opposite its own values.
    #[inline(always)]
    fn by_places<const W: usize>(&mut self, columns: &Columns) -> bool {
        let (count, size) = (columns.count, columns.size);
        // Of each place, the columns with 0 and those with 1.
        let mut with = [[[0u64; W]; 64]; 2];
        for word in 0..size {
            for (with, plane) in with.iter_mut().zip([&columns.zero, &columns.one]) {
                for block in 0..W {
                    let mut square = [0; 64];
                    let from = 64 * block;
                    for i in 0..64.min(count.saturating_sub(from)) {
                        square[i] = plane[(from + i) * size + word];
                    }
                    transpose(&mut square);
                    for i in 0..64 {
                        with[i][block] = square[i];
                    }
                }
            }
            for i in 0..W {
                let mut sources = self.sources[i];
                while sources != 0 {
                    let column = (64 * i + sources.trailing_zeros() as usize) % MAX_COLUMNS;
                    sources &= sources - 1;
                    // Until the last word, rows hold the incompatible columns.
                    let mut against = [0; W];
                    against.copy_from_slice(&self.rows[column][..W]);
                    let allowed = self.allowed(column, count);
                    if covers(&against, &allowed) {
                        continue;
                    }
                    unite(&mut against, columns.zero[column * size + word], &with[1]);
                    if !covers(&against, &allowed) {
                        unite(&mut against, columns.one[column * size + word], &with[0]);
                    }
                    self.rows[column][..W].copy_from_slice(&against);
                }
            }
        }
        self.close::<W>(count)
    }

    /// Turns the sources' rows of incompatible columns into those of compatible ones, and gives
    /// the other columns their edges.
    #[inline(always)]
    fn close<const W: usize>(&mut self, count: usize) -> bool {
        let mut edges = 0;
        for i in 0..W {
            let mut sources = self.sources[i];
            while sources != 0 {
                let column = (64 * i + sources.trailing_zeros() as usize) % MAX_COLUMNS;
                sources &= sources - 1;
                let allowed = self.allowed(column, count);
                for j in 0..W {
                    let row = !self.rows[column][j] & allowed[j];
                    self.rows[column][j] = row;
                    edges |= row;
                    let mut others = row & !self.sources[j];
                    while others != 0 {
                        let other = (64 * j + others.trailing_zeros() as usize) % MAX_COLUMNS;
                        others &= others - 1;
                        self.rows[other][column / 64] |= 1 << (column % 64);
                    }
                }
            }
        }
        edges != 0
    }
}

#[inline(always)]
fn size(set: &Set) -> u32 {
    set.iter().map(|word| word.count_ones()).sum()
}

/// Nothing allowed is left outside the union.
#[inline(always)]
fn covers<const W: usize>(union: &[u64; W], allowed: &Set) -> bool {
    let left = (0..W).fold(0, |left, i| left | allowed[i] & !union[i]);
    left == 0
}

/// Adds the sets of `places` to `union`.
#[inline(always)]
fn unite<const W: usize>(union: &mut [u64; W], mut places: u64, sets: &[[u64; W]; 64]) {
    while places != 0 {
        let set = &sets[places.trailing_zeros() as usize];
        places &= places - 1;
        for i in 0..W {
            union[i] |= set[i];
        }
    }
}

/// The lowest `count` bits, of at most 64.
#[inline(always)]
pub(super) fn low(count: usize) -> u64 {
    if count >= 64 {
        !0
    } else {
        (1 << count) - 1
    }
}

#[inline(always)]
fn compatible(zero: &[u64], one: &[u64], other_zero: &[u64], other_one: &[u64]) -> bool {
    let len = zero.len();
    let (one, other_zero, other_one) = (&one[..len], &other_zero[..len], &other_one[..len]);
    let mut at = 0;
    while at + 4 <= len {
        let mut clash = 0;
        for i in at..at + 4 {
            clash |= zero[i] & other_one[i] | one[i] & other_zero[i];
        }
        if clash != 0 {
            return false;
        }
        at += 4;
    }
    (at..len).all(|i| zero[i] & other_one[i] | one[i] & other_zero[i] == 0)
}

/// Bit j of word i becomes bit i of word j.
#[inline(always)]
fn transpose(words: &mut [u64; 64]) {
    let (mut span, mut mask) = (32, 0x0000_0000_ffff_ffffu64);
    while span != 0 {
        let mut i = 0;
        while i < 64 {
            let swap = (words[i] >> span ^ words[i | span]) & mask;
            words[i] ^= swap << span;
            words[i | span] ^= swap;
            i = ((i | span) + 1) & !span;
        }
        span >>= 1;
        mask ^= mask << span;
    }
}
