//! The set of rail words that may occur, carried from cell to cell as bits. Made for speed.

use super::cells::{value, Cells, Pair, Tested};
use super::{Values, UNKNOWN};
use crate::stored::RECORD_BYTES;

/// Rail words: bit b of word w is rail word 64 w + b. Rails are inputs of the cell below, so 64 words are room for any cut; four
/// words, for up to 8 rails, take less time to clear and to hand on.
type Set<const W: usize> = [u64; W];

/// From so many reads for each word of the set on, rail words are marked by bytes: a store does not wait for the one before it, as
/// a bit does.
const MANY: usize = 64;

/// Mistakes that can be switched on, for tests only.
#[derive(Clone, Copy, Debug, PartialEq, Eq)]
pub enum Mistake {
    None,
    /// The rail words above a cell stay in the set below it.
    SetKept,
    /// Only the lowest rail word of the set is followed.
    LowestRailWord,
    /// An output that the cascade lacks is shown as 0.
    LackingAsZero,
}

/// The exact evaluation: the whole cascade is tested before any row is followed, as the proved evaluation does it. Each row that may be
/// read is then read once; nothing is allocated.
pub fn sets(records: &[u8], rows: &[u8], known: u16, word: u16) -> Values {
    let mut cells = Cells::<true>::new(records, rows, known, word)?;
    while cells.next()?.is_some() {}
    evaluate::<false>(records, rows, known, word, Mistake::None)
}

/// The same in one pass: a cell is followed as soon as it is tested, whether or not the cells below it turn out well formed.
pub fn fused(records: &[u8], rows: &[u8], known: u16, word: u16) -> Values {
    evaluate::<true>(records, rows, known, word, Mistake::None)
}

/// `fused`, with a mistake made on purpose. Used by tests only.
pub fn sets_with(records: &[u8], rows: &[u8], known: u16, word: u16, mistake: Mistake) -> Values {
    evaluate::<true>(records, rows, known, word, mistake)
}

/// In as few words as the cut with most rails allows.
#[inline(always)]
fn evaluate<const TEST: bool>(
    records: &[u8],
    rows: &[u8],
    known: u16,
    word: u16,
    mistake: Mistake,
) -> Values {
    let each = records.as_chunks::<RECORD_BYTES>().0.iter();
    match each.fold(0, |most, record| most.max(record[2])) {
        0..=8 => in_words::<TEST, 4>(records, rows, known, word, mistake),
        9..=12 => in_words::<TEST, 64>(records, rows, known, word, mistake),
        _ => Err(12),
    }
}

#[inline(always)]
fn in_words<const TEST: bool, const W: usize>(
    records: &[u8],
    rows: &[u8],
    known: u16,
    word: u16,
    mistake: Mistake,
) -> Values {
    let mut values = match mistake {
        Mistake::LackingAsZero => [0; 8],
        _ => [UNKNOWN; 8],
    };
    let mut set: Set<W> = [0; W];
    set[0] = 1;
    // At least as many as the set has.
    let mut rail_words = 1;
    let mut cells = Cells::<TEST>::new(records, rows, known, word)?;
    while let Some(cell) = cells.next()? {
        if mistake == Mistake::LowestRailWord {
            set = lowest(&set);
        }
        let reads = rail_words << cell.free_count;
        let (some, all, below) = read(&cell, &set, reads);
        cell.decide(&mut values, some, all);
        set = match mistake {
            Mistake::SetKept => std::array::from_fn(|w| below[w] | set[w] & full::<W>(&cell)[w]),
            _ => below,
        };
        rail_words = reads.min(1 << cell.lower_rails);
    }
    Ok(values)
}

/// The bits that are 1 in some row that may be read, those that are 1 in all, and the rail words below the cell. There are at most
/// `reads` such rows.
#[inline(always)]
fn read<const W: usize>(cell: &Tested, set: &Set<W>, reads: usize) -> (u16, u16, Set<W>) {
    let (mut some, mut all, mut below) = (0, !0, [0; W]);
    let run = 1 << cell.free.trailing_ones();
    let rails = (1 << cell.lower_rails) - 1;
    if cell.lower_rails == 0 {
        below[0] = 1;
        each_run(cell, set, run, |rows| {
            for &row in rows {
                some |= value(row);
                all &= value(row);
            }
        });
    } else if reads < MANY * W {
        each_run(cell, set, 1, |rows| {
            let row = value(rows[0]);
            some |= row;
            all &= row;
            let rail = usize::from(row & rails);
            below[rail / 64 % W] |= 1 << (rail % 64);
        });
    } else {
        let mut marks = [[0; 64]; W];
        each_run(cell, set, run, |rows| {
            for &row in rows {
                let row = value(row);
                some |= row;
                all &= row;
                let rail = usize::from(row & rails);
                marks[rail / 64 % W][rail % 64] = 1;
            }
        });
        below = packed(&marks);
    }
    (some, all, below)
}

/// Hands on the rows that may be read, each once, so many at a time. These stand one after the other: 1, or a power of two by which
/// the unknown inputs lowest in the address count.
#[inline(always)]
fn each_run<const W: usize>(
    cell: &Tested,
    set: &Set<W>,
    run: usize,
    mut take: impl FnMut(&[Pair]),
) {
    let free = cell.free & !(run - 1);
    for (place, bits) in set.iter().enumerate() {
        let mut bits = *bits;
        while bits != 0 {
            let rail = 64 * place + bits.trailing_zeros() as usize;
            bits &= bits - 1;
            let first = rail << cell.input_count | cell.sure;
            let mut filling = 0;
            loop {
                take(&cell.rows[first | filling..][..run]);
                filling = (filling | !free).wrapping_add(1) & free;
                if filling == 0 {
                    break;
                }
            }
        }
    }
}

/// The set of the rail words marked with 1; the others have 0.
fn packed<const W: usize>(marks: &[[u8; 64]; W]) -> Set<W> {
    let word = |marks: &[u8; 64]| {
        let eights = marks.as_chunks().0.iter().enumerate();
        eights.fold(0, |word, (place, eight)| {
            // The product's highest byte has the eight marks in order, and no two of its terms meet.
            let bits = u64::from_le_bytes(*eight).wrapping_mul(0x0102_0408_1020_4080) >> 56;
            word | bits << (place * 8)
        })
    };
    marks.each_ref().map(word)
}

/// All rail words that the cell's lower rails can carry.
fn full<const W: usize>(cell: &Tested) -> Set<W> {
    std::array::from_fn(|place| {
        let words = (1usize << cell.lower_rails).saturating_sub(64 * place);
        (1u64.checked_shl(words as u32)).map_or(!0, |end| end - 1)
    })
}

/// The lowest rail word alone.
fn lowest<const W: usize>(set: &Set<W>) -> Set<W> {
    let mut found = [0; W];
    if let Some(place) = set.iter().position(|&bits| bits != 0) {
        found[place] = set[place] & set[place].wrapping_neg();
    }
    found
}
