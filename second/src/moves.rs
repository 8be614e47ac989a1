//! Document 02, §7: a stored cascade moved from one-byte rows to two-byte rows and back.
//!
//! Both moves take the stored cascade, then the record memory and the row memory that it goes to. They answer 0, with records and
//! rows at the front of the two and the bytes past them kept; or the refusal, and then both memories hold what they held.

use crate::stored::{cells, cells_with_rows, Cell, Valued, ROW_BYTES};

/// The most outputs of a cell with one-byte rows, lower rails counted in.
pub const NARROW_OUTPUTS: usize = 8;

/// A one-byte row.
impl Valued for u8 {
    fn value(self) -> u16 {
        u16::from(self)
    }
}

/// The two moves: to two-byte rows, and back to one-byte rows.
#[derive(Clone, Copy, Debug, PartialEq, Eq)]
pub enum Way {
    Widen,
    Narrow,
}

impl Way {
    pub const ALL: [Way; 2] = [Way::Widen, Way::Narrow];

    pub fn name(self) -> &'static str {
        match self {
            Way::Widen => "widen",
            Way::Narrow => "narrow",
        }
    }

    pub fn from_name(name: &str) -> Option<Way> {
        Way::ALL.into_iter().find(|way| way.name() == name)
    }

    /// The bytes that so many row bytes become.
    pub fn row_bytes(self, bytes: usize) -> usize {
        match self {
            Way::Widen => ROW_BYTES * bytes,
            Way::Narrow => bytes / ROW_BYTES,
        }
    }

    pub fn run(self, records: &[u8], rows: &[u8], to_records: &mut [u8], to_rows: &mut [u8]) -> u8 {
        match self {
            Way::Widen => widen(records, rows, to_records, to_rows),
            Way::Narrow => narrow(records, rows, to_records, to_rows),
        }
    }
}

/// The cells, each with its one-byte rows, when the stored form is well formed by the rules before §6: cells of at most 8 outputs,
/// as many row bytes as rows, and each byte below 2^outputs. The other rules for records are the same before §6 and after.
pub fn narrow_cells<'a>(records: &[u8], rows: &'a [u8]) -> Option<Vec<(Cell, &'a [u8])>> {
    let mut rest = rows;
    let mut pairs = Vec::new();
    for cell in cells(records)? {
        if cell.output_count() > NARROW_OUTPUTS {
            return None;
        }
        let (own, after) = rest.split_at_checked(cell.rows)?;
        if own
            .iter()
            .any(|&row| u16::from(row) >> cell.output_count() != 0)
        {
            return None;
        }
        rest = after;
        pairs.push((cell, own));
    }
    rest.is_empty().then_some(pairs)
}

/// From one-byte rows to two-byte rows, the low byte first and the high one 0. Refusals, in this order: 12 not well formed by the
/// rules before §6, 10 `to_records` short, 11 `to_rows` short.
pub fn widen(records: &[u8], rows: &[u8], to_records: &mut [u8], to_rows: &mut [u8]) -> u8 {
    if narrow_cells(records, rows).is_none() {
        return 12;
    }
    if to_records.len() < records.len() {
        return 10;
    }
    if to_rows.len() < ROW_BYTES * rows.len() {
        return 11;
    }
    to_records[..records.len()].copy_from_slice(records);
    for (to, &row) in to_rows.chunks_exact_mut(ROW_BYTES).zip(rows) {
        to.copy_from_slice(&[row, 0]);
    }
    0
}

/// From two-byte rows to one-byte rows, the low byte of each. Refusals, in this order: 12 not well formed, 10 `to_records` short,
/// 11 `to_rows` short of a byte a row, 15 a cell of more than 8 outputs.
pub fn narrow(records: &[u8], rows: &[u8], to_records: &mut [u8], to_rows: &mut [u8]) -> u8 {
    let Some(cells) = cells_with_rows(records, rows) else {
        return 12;
    };
    if to_records.len() < records.len() {
        return 10;
    }
    if to_rows.len() < rows.len() / ROW_BYTES {
        return 11;
    }
    if cells
        .iter()
        .any(|(cell, _)| cell.output_count() > NARROW_OUTPUTS)
    {
        return 15;
    }
    to_records[..records.len()].copy_from_slice(records);
    for (to, row) in to_rows.iter_mut().zip(rows.chunks_exact(ROW_BYTES)) {
        // With at most 8 outputs the high byte is 0.
        *to = row[0];
    }
    0
}
