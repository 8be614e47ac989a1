//! Every filling by a run made for speed: the cells are taken apart once, and what the runs read of a cell is gathered.

use super::cells::{value, Cells, Tested};
use super::{submasks, Values, UNKNOWN};
use crate::stored::MAX_RECORDS;

/// The bits that are 1 in some of a cell's rows read so far, and those that are 1 in all.
type Gathered = (u16, u16);

/// As `plain`.
pub fn fillings(records: &[u8], rows: &[u8], known: u16, word: u16) -> Values {
    let mut found = [Tested::OPEN; MAX_RECORDS];
    let (mut count, mut unknown) = (0, 0);
    let mut cells = Cells::<true>::new(records, rows, known, word)?;
    while let Some(cell) = cells.next()? {
        for place in 0..cell.input_count {
            unknown |= !known & 1 << (cell.inputs >> (4 * place) & 15);
        }
        found[count] = cell;
        count += 1;
    }
    let cells = &found[..count];
    let mut gathered = [(0, !0); MAX_RECORDS];
    for filling in submasks(unknown) {
        run(cells, word & !unknown | filling, &mut gathered);
    }
    let mut values = [UNKNOWN; 8];
    for (cell, (some, all)) in cells.iter().zip(gathered) {
        cell.decide(&mut values, some, all);
    }
    Ok(values)
}

fn run(cells: &[Tested], word: u16, gathered: &mut [Gathered]) {
    let mut rail = 0;
    for (cell, (some, all)) in cells.iter().zip(gathered) {
        let mut address = rail << cell.input_count;
        let mut inputs = cell.inputs;
        for place in 0..cell.input_count {
            address |= usize::from(word >> (inputs & 15) & 1) << place;
            inputs >>= 4;
        }
        let row = value(cell.rows[address]);
        *some |= row;
        *all &= row;
        rail = usize::from(row) & ((1 << cell.lower_rails) - 1);
    }
}
