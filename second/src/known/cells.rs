//! The cells of a stored cascade in one pass without allocation, each tested before it is handed on. Made for speed.

use crate::stored::{Cell, MAX_RECORDS, MAX_ROWS, RECORD_BYTES};

/// A row: two bytes, low byte first.
pub(super) type Pair = [u8; 2];

#[inline(always)]
pub(super) fn value(row: Pair) -> u16 {
    u16::from_le_bytes(row)
}

/// A cell that is well formed, as are all above it.
#[derive(Clone, Copy)]
pub(super) struct Tested<'a> {
    pub rows: &'a [Pair],
    /// The bits of a row address that the known inputs give; 0 in all others.
    pub sure: usize,
    /// The bits of a row address that unknown inputs have, and how many.
    pub free: usize,
    pub free_count: usize,
    /// The numbers of its input variables, a hexadecimal digit each, the topmost foremost; and how many.
    pub inputs: u64,
    pub input_count: usize,
    /// The same of its output variables.
    pub outputs: u32,
    pub output_count: usize,
    pub lower_rails: usize,
}

impl Tested<'_> {
    /// A cell with no records yet.
    pub const OPEN: Self = Tested {
        rows: &[],
        sure: 0,
        free: 0,
        free_count: 0,
        inputs: 0,
        input_count: 0,
        outputs: 0,
        output_count: 0,
        lower_rails: 0,
    };

    /// Writes the outputs' values, by the bits that are 1 in some row read and those that are 1 in all.
    #[inline(always)]
    pub fn decide(&self, values: &mut [u8; 8], some: u16, all: u16) {
        let mut outputs = self.outputs;
        for place in self.lower_rails..self.lower_rails + self.output_count {
            let value = (some >> place & 1) * 2 - (all >> place & 1);
            values[(outputs & 7) as usize] = value as u8;
            outputs >>= 4;
        }
    }
}

/// What is left of a cascade to be taken apart. Without TEST its rows are not tested: they were before.
pub(super) struct Cells<'a, const TEST: bool> {
    records: std::slice::Iter<'a, [u8; RECORD_BYTES]>,
    rows: &'a [Pair],
    upper_rails: usize,
    /// A bit for each variable above.
    seen: u32,
    unknown: u16,
    word: u16,
}

impl<'a, const TEST: bool> Cells<'a, TEST> {
    #[inline(always)]
    pub fn new(records: &'a [u8], rows: &'a [u8], known: u16, word: u16) -> Result<Self, u8> {
        let (records, part) = records.as_chunks();
        let (rows, half) = rows.as_chunks();
        let whole = part.is_empty() && half.is_empty() && rows.len() <= MAX_ROWS;
        if !whole || !(1..=MAX_RECORDS).contains(&records.len()) {
            return Err(12);
        }
        Ok(Cells {
            records: records.iter(),
            rows,
            upper_rails: 0,
            seen: 0,
            unknown: !known,
            word: word & known,
        })
    }

    /// The next cell, top first; None after the last of a well-formed cascade, 12 by then at the latest where it is not.
    #[inline(always)]
    pub fn next(&mut self) -> Result<Option<Tested<'a>>, u8> {
        let mut cell = Tested::OPEN;
        for &[variable, cut, rails, last] in self.records.by_ref() {
            // One of the two is 1, the other 0: the kinds come in no order that a branch could be foretold by.
            let output = usize::from(variable >> 7);
            let input = 1 - output;
            let number = variable & 127;
            let most = if output == 1 { 8 } else { 12 };
            let bit = 1 << (number & 15) << (12 * output);
            if number >= most || self.seen & bit != 0 || last != 0 {
                return Err(12);
            }
            self.seen |= bit;
            let free = usize::from(self.unknown >> number) & input;
            cell.free = cell.free << input | free;
            cell.free_count += free;
            cell.sure = cell.sure << input | usize::from(self.word >> number) & input;
            cell.inputs = cell.inputs << (4 * input) | u64::from(number) * input as u64;
            cell.input_count += input;
            cell.outputs = cell.outputs << (4 * output) | u32::from(number) * output as u32;
            cell.output_count += output;
            if (cut, rails) != (0, 0) {
                return self.closed(cell, cut, rails);
            }
        }
        let open = cell.input_count + cell.output_count;
        if open != 0 || self.upper_rails != 0 || !self.rows.is_empty() {
            return Err(12);
        }
        Ok(None)
    }

    /// A cell with all its records, cut off below with so many rails.
    #[inline(always)]
    fn closed(
        &mut self,
        mut cell: Tested<'a>,
        cut: u8,
        rails: u8,
    ) -> Result<Option<Tested<'a>>, u8> {
        cell.lower_rails = usize::from(rails);
        let inputs = self.upper_rails + cell.input_count;
        let outputs = cell.output_count + cell.lower_rails;
        if cut != 1 || inputs > Cell::MAX_INPUTS || outputs > Cell::MAX_OUTPUTS {
            return Err(12);
        }
        (cell.rows, self.rows) = self.rows.split_at_checked(1 << inputs).ok_or(12)?;
        // A row of sixteen outputs may be any.
        if TEST && outputs < 16 && over(cell.rows, outputs) {
            return Err(12);
        }
        self.upper_rails = cell.lower_rails;
        Ok(Some(cell))
    }
}

/// Whether a row is not below 2^outputs, which are fewer than 16.
#[inline(always)]
fn over(rows: &[Pair], outputs: usize) -> bool {
    rows.iter().fold(0, |any, &row| any | value(row)) >> outputs != 0
}
