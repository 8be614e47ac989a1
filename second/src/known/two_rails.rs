//! Document 003's two rails a signal, from cell to cell. It is safe, but loses which rails go together.

use super::{submasks, Values, UNKNOWN};
use crate::stored::{cells_with_rows, row_value};

/// The value of a signal that may be 0, may be 1, or may be either.
fn value(may_be_0: bool, may_be_1: bool) -> u8 {
    match (may_be_0, may_be_1) {
        (true, false) => 0,
        (false, true) => 1,
        _ => UNKNOWN,
    }
}

/// Every signal, be it input, output or one rail, is 0, 1 or unknown by itself. A bit of a cell's row is 0 or 1 if it is so in all
/// rows whose address agrees with the known signals above.
pub fn two_rails(records: &[u8], rows: &[u8], known: u16, word: u16) -> Values {
    let mut values = [UNKNOWN; 8];
    // The rails that may be 0, and those that may be 1.
    let mut rails = [0, 0];
    for (cell, own) in cells_with_rows(records, rows).ok_or(12)? {
        let zeros = cell.address(rails[0], !word | !known);
        let ones = cell.address(rails[1], word | !known);
        let (mut any_0, mut any_1) = (0, 0);
        for filling in submasks((zeros & ones) as u16) {
            let row = row_value(own[ones & !zeros | usize::from(filling)]);
            any_0 |= !row;
            any_1 |= row;
        }
        for ((output, may_be_0), (_, may_be_1)) in cell.values(any_0).zip(cell.values(any_1)) {
            values[output] = value(may_be_0, may_be_1);
        }
        rails = [any_0, any_1].map(|row| cell.next_rail(row));
    }
    Ok(values)
}
