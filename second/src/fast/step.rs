//! The step without allocation: the same tests as `bank::step`, in one pass over the records of each block.

use crate::bank::{Bank, Scan, Step};
use crate::stored::{Cell, FIRST_OUTPUT, MAX_RECORDS, MAX_ROWS, RECORD_BYTES};

/// The value of row `number` of the row memory, which has it.
#[inline(always)]
fn row_at(held_rows: &[u8], number: usize) -> u16 {
    u16::from(held_rows[2 * number]) | u16::from(held_rows[2 * number + 1]) << 8
}

/// Cells and rows of a block, and what was found of one of its cells.
#[derive(Clone, Copy, Default)]
struct Block {
    cells: usize,
    rows: usize,
    found: Option<Found>,
}

/// A cell: its records, its first row and its rails.
#[derive(Clone, Copy)]
struct Found {
    top: usize,
    end: usize,
    row: usize,
    upper: usize,
    lower: usize,
}

/// The block of these records, with the cell `wanted` looked up; None where they are not well formed.
fn block(records: &[u8], wanted: usize) -> Option<Block> {
    if !(1..=MAX_RECORDS).contains(&(records.len() / RECORD_BYTES)) {
        return None;
    }
    let mut seen = 0u32;
    let mut block = Block::default();
    let (mut top, mut inputs, mut outputs, mut upper) = (0, 0, 0, 0);
    for (place, record) in records.chunks_exact(RECORD_BYTES).enumerate() {
        let &[variable, cut, rails, 0] = record else {
            return None;
        };
        let bit = match variable {
            0..=11 => {
                inputs += 1;
                variable
            }
            128..=135 => {
                outputs += 1;
                12 + variable - FIRST_OUTPUT
            }
            _ => return None,
        };
        if seen >> bit & 1 == 1 {
            return None;
        }
        seen |= 1 << bit;
        if cut == 0 && rails == 0 {
            continue;
        }
        let lower = usize::from(rails);
        if cut != 1 || inputs > Cell::MAX_INPUTS || outputs + lower > Cell::MAX_OUTPUTS {
            return None;
        }
        if block.cells == wanted {
            block.found = Some(Found {
                top,
                end: place + 1,
                row: block.rows,
                upper,
                lower,
            });
        }
        block.cells += 1;
        block.rows += 1 << inputs;
        (top, inputs, outputs, upper) = (place + 1, lower, 0, lower);
    }
    (top == records.len() / RECORD_BYTES && upper == 0 && block.rows <= MAX_ROWS).then_some(block)
}

/// What a step needs of a bank and a scan state that are not refused with 12.
struct Held {
    rows: usize,
    /// The rows before the scan's block, how many cells it has, and the cell.
    next: Option<(usize, usize, Found)>,
}

fn records(bank: &Bank, place: usize) -> Option<&[u8]> {
    bank.records[place].get(..RECORD_BYTES * usize::from(bank.lengths[place]))
}

/// The byte of each of the eight scans in which a block is due is 1, the others are 0; None for a wrong period or phase.
fn due_scans(period: u8, phase: u8) -> Option<u64> {
    let scans: u64 = match period {
        1 => 0x0101_0101_0101_0101,
        2 => 0x0001_0001_0001_0001,
        4 => 0x0000_0001_0000_0001,
        8 => 0x0000_0000_0000_0001,
        _ => return None,
    };
    (phase < period).then(|| scans << (8 * phase))
}

fn due_in(scans: u64, number: u8) -> bool {
    scans >> (8 * number) & 1 == 1
}

fn held(bank: &Bank, scan: &Scan) -> Option<Held> {
    let count = usize::from(bank.count);
    if !(1..=255).contains(&bank.limit) || count > bank.records.len() || scan.number > 7 {
        return None;
    }
    // At most 160 cells are due in a scan, so a byte holds them.
    let (mut due_cells, mut rows, mut next) = (0, 0, None);
    for place in 0..count {
        let block = block(records(bank, place)?, usize::from(scan.cell))?;
        let scans = due_scans(bank.periods[place], bank.phases[place])?;
        if scan.running && place == usize::from(scan.block) {
            if !due_in(scans, scan.number) {
                return None;
            }
            next = Some((rows, block.cells, block.found?));
        }
        due_cells += block.cells as u64 * scans;
        rows += block.rows;
    }
    let rail_held = match next {
        Some((_, _, cell)) => scan.rail >> cell.upper == 0,
        None => !scan.running,
    };
    let cells_held = due_cells
        .to_le_bytes()
        .into_iter()
        .all(|cells| u16::from(cells) <= bank.limit);
    (cells_held && rows <= MAX_ROWS && rail_held).then_some(Held { rows, next })
}

/// The first block from this place on that is due in the scan.
fn next_due(bank: &Bank, from: usize, number: u8) -> Option<usize> {
    (from..usize::from(bank.count)).find(|&place| {
        due_scans(bank.periods[place], bank.phases[place])
            .is_some_and(|scans| due_in(scans, number))
    })
}

/// As `bank::step`.
pub fn step(bank: &Bank, scan: &mut Scan, held_rows: &[u8]) -> Step {
    let Some(held) = held(bank, scan) else {
        return Step::Refused(12);
    };
    let Some((before, cells, cell)) = held.next else {
        return Step::Idle;
    };
    if held_rows.len() < 2 * held.rows {
        return Step::Refused(11);
    }
    let went = Step::Went {
        block: scan.block,
        cell: scan.cell,
    };
    let place = usize::from(scan.block);
    let word = scan.words[place];
    let of_cell = &bank.records[place][RECORD_BYTES * cell.top..RECORD_BYTES * cell.end];
    let variables = || of_cell.chunks_exact(RECORD_BYTES).map(|record| record[0]);
    let address = variables()
        .filter(|&variable| variable < FIRST_OUTPUT)
        .fold(usize::from(scan.rail), |address, input| {
            address << 1 | usize::from(word >> input & 1)
        });
    let row = row_at(held_rows, before + cell.row + address);
    let mut bit = cell.lower;
    for variable in variables()
        .rev()
        .filter(|&variable| variable >= FIRST_OUTPUT)
    {
        scan.outputs[place][usize::from(variable - FIRST_OUTPUT)] = (row >> bit & 1) as u8;
        bit += 1;
    }
    if usize::from(scan.cell) + 1 < cells {
        scan.cell += 1;
        scan.rail = row & ((1 << cell.lower) - 1);
    } else {
        let next = next_due(bank, place + 1, scan.number);
        scan.running = next.is_some();
        scan.block = next.unwrap_or(0) as u8;
        scan.cell = 0;
        scan.rail = 0;
    }
    went
}
