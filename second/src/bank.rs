//! The bank: admission of blocks, latching of input words, and the stepper that reads one cell at a time. Each block is read in those
//! scans alone in which it is due.

mod mistake;

pub use mistake::Mistake;

use crate::stored::{
    self, row_value, rows_in, Cell, MAX_RECORDS, MAX_ROWS, RECORD_BYTES, ROW_BYTES,
};

/// The places for blocks.
pub const PLACES: usize = 8;
/// What an output holds when it is not set.
pub const NOT_SET: u8 = 2;
/// Scans are numbered below this, and round again.
pub const SCANS: u8 = 8;

/// The blocks held. `limit` is S; `lengths` count records. What stands in places not held, and record bytes past a block's length,
/// have no effect.
#[derive(Clone, Debug, PartialEq, Eq)]
pub struct Bank {
    pub limit: u16,
    pub count: u8,
    pub lengths: [u8; PLACES],
    pub records: [[u8; RECORD_BYTES * MAX_RECORDS]; PLACES],
    pub periods: [u8; PLACES],
    pub phases: [u8; PLACES],
}

/// The scan state. `running` says that reads are left; then `block` and `cell` name the next one and `rail` is
/// the rail word above it. `outputs[b][o]` is output o of the block in place b: 0, 1, or `NOT_SET`. `number` is that of the running
/// scan or of the last one.
#[derive(Clone, Debug, PartialEq, Eq)]
pub struct Scan {
    pub running: bool,
    pub block: u8,
    pub cell: u8,
    pub rail: u16,
    pub words: [u16; PLACES],
    pub outputs: [[u8; 8]; PLACES],
    pub number: u8,
}

impl Scan {
    /// No scan, nothing set; the next one is number 0.
    fn fresh() -> Scan {
        Scan {
            running: false,
            block: 0,
            cell: 0,
            rail: 0,
            words: [0; PLACES],
            outputs: [[NOT_SET; 8]; PLACES],
            number: SCANS - 1,
        }
    }

    /// The first cell of this block comes next. With none no reads are left, and the three are stored as 0.
    fn go_to(&mut self, block: Option<usize>) {
        self.running = block.is_some();
        self.block = block.unwrap_or(0) as u8;
        self.cell = 0;
        self.rail = 0;
    }
}

/// What a step answers. Blocks and cells count from 0.
#[derive(Clone, Copy, Debug, PartialEq, Eq)]
pub enum Step {
    Went { block: u8, cell: u8 },
    Idle,
    Refused(u8),
}

/// A block as it is handed in.
#[derive(Clone, Copy, Debug, PartialEq, Eq)]
pub struct Handed<'a> {
    pub records: &'a [u8],
    pub rows: &'a [u8],
    pub period: u64,
    pub phase: u64,
}

impl<'a> Handed<'a> {
    pub fn new(records: &'a [u8], rows: &'a [u8], (period, phase): (u64, u64)) -> Handed<'a> {
        Handed {
            records,
            rows,
            period,
            phase,
        }
    }
}

/// A right period with a right phase.
#[derive(Clone, Copy)]
struct Due {
    period: u8,
    phase: u8,
}

impl Due {
    /// None where period or phase is wrong.
    fn of(period: u64, phase: u64) -> Option<Due> {
        let right = matches!(period, 1 | 2 | 4 | 8) && phase < period;
        right.then_some(Due {
            period: period as u8,
            phase: phase as u8,
        })
    }

    fn in_scan(self, number: u8) -> bool {
        number % self.period == self.phase
    }
}

struct Block {
    cells: Vec<Cell>,
    due: Due,
}

impl Block {
    /// The cells that scan `number` reads.
    fn cells_due(&self, number: u8) -> usize {
        match self.due.in_scan(number) {
            true => self.cells.len(),
            false => 0,
        }
    }

    fn rows(&self) -> usize {
        rows_of(&self.cells)
    }
}

/// The blocks held, in order of admission.
struct Held {
    blocks: Vec<Block>,
}

impl Held {
    /// None where bank or scan state is one that every operation refuses with 12.
    fn of(bank: &Bank, scan: &Scan) -> Option<Held> {
        let count = usize::from(bank.count);
        if !(1..=255).contains(&bank.limit) || count > PLACES || scan.number >= SCANS {
            return None;
        }
        let mut blocks = Vec::with_capacity(count);
        for place in 0..count {
            let length = RECORD_BYTES * usize::from(bank.lengths[place]);
            let cells = stored::cells(bank.records[place].get(..length)?)?;
            let due = Due::of(bank.periods[place].into(), bank.phases[place].into())?;
            blocks.push(Block { cells, due });
        }
        let held = Held { blocks };
        let most = (0..SCANS).map(|number| held.cells_due(number)).max()?;
        if most > usize::from(bank.limit) || held.rows() > MAX_ROWS {
            return None;
        }
        if scan.running {
            let block = held.blocks.get(usize::from(scan.block))?;
            let cell = block.cells.get(usize::from(scan.cell))?;
            if scan.rail >> cell.upper_rails != 0 || !block.due.in_scan(scan.number) {
                return None;
            }
        }
        Some(held)
    }

    fn cells_due(&self, number: u8) -> usize {
        let blocks = self.blocks.iter();
        blocks.map(|block| block.cells_due(number)).sum()
    }

    fn rows(&self) -> usize {
        self.blocks.iter().map(Block::rows).sum()
    }

    /// The first block from this place on that is read in scan `number`.
    fn next_due(&self, from: usize, number: u8) -> Option<usize> {
        (from..self.blocks.len()).find(|&place| self.blocks[place].due.in_scan(number))
    }

    /// The most cells that a scan would read with this block held, too.
    fn cells_with(&self, new: &Block, mistake: Mistake) -> usize {
        let in_scan = |number: u8| self.cells_due(number) + new.cells_due(number);
        match mistake {
            Mistake::ReadsPerBlock => new.cells.len(),
            Mistake::CellsInAll => {
                let held = self.blocks.iter().map(|block| block.cells.len());
                held.sum::<usize>() + new.cells.len()
            }
            Mistake::FirstDueScan => in_scan(new.due.phase),
            _ => (0..SCANS).map(in_scan).max().unwrap_or_default(),
        }
    }
}

fn rows_of(cells: &[Cell]) -> usize {
    cells.iter().map(|cell| cell.rows).sum()
}

/// A bank with no block and a scan state with no scan, or 1 where S is out of range.
pub fn new_bank(limit: u64) -> Result<(Bank, Scan), u8> {
    if !(1..=255).contains(&limit) {
        return Err(1);
    }
    let bank = Bank {
        limit: limit as u16,
        count: 0,
        lengths: [0; PLACES],
        records: [[0; RECORD_BYTES * MAX_RECORDS]; PLACES],
        periods: [0; PLACES],
        phases: [0; PLACES],
    };
    Ok((bank, Scan::fresh()))
}

/// The older admission: period 1 and phase 0, so that the block is due in every scan.
pub fn admit(
    bank: &mut Bank,
    scan: &mut Scan,
    held_rows: &mut [u8],
    records: &[u8],
    rows: &[u8],
) -> Result<(), u8> {
    let handed = Handed::new(records, rows, (1, 0));
    admit_every(bank, scan, held_rows, handed)
}

/// Takes a block into the next place and its row bytes into `held_rows`, clears all outputs, drops the scan and numbers the next one 0.
/// Refusals, in this order, change nothing: 12 for bank or scan state, 12 for records and rows, 16, 13, 14, 11.
pub fn admit_every(
    bank: &mut Bank,
    scan: &mut Scan,
    held_rows: &mut [u8],
    handed: Handed,
) -> Result<(), u8> {
    admit_with(bank, scan, held_rows, handed, Mistake::None)
}

/// Admission with a mistake switched on.
pub fn admit_with(
    bank: &mut Bank,
    scan: &mut Scan,
    held_rows: &mut [u8],
    handed: Handed,
    mistake: Mistake,
) -> Result<(), u8> {
    let Handed { records, rows, .. } = handed;
    let held = Held::of(bank, scan).ok_or(12)?;
    if !stored::well_formed(records, rows) {
        return Err(12);
    }
    let place = held.blocks.len();
    if mistake == Mistake::PeriodAfterPlaces && place == PLACES {
        return Err(13);
    }
    let due = mistake.due(handed.period, handed.phase).ok_or(16)?;
    if place == PLACES {
        return Err(13);
    }
    let cells = stored::cells(records).ok_or(12)?;
    let new = Block { cells, due };
    if held.cells_with(&new, mistake) > usize::from(bank.limit) {
        return Err(14);
    }
    let start = held.rows();
    let end = start + rows_in(rows).len();
    if end > MAX_ROWS || held_rows.len() < mistake.bytes_a_row() * end {
        return Err(11);
    }
    let room = held_rows.get_mut(ROW_BYTES * start..).unwrap_or_default();
    let kept = rows.len().min(room.len());
    room[..kept].copy_from_slice(&rows[..kept]);
    bank.records[place][..records.len()].copy_from_slice(records);
    bank.lengths[place] = (records.len() / RECORD_BYTES) as u8;
    (bank.periods[place], bank.phases[place]) = (due.period, due.phase);
    bank.count += 1;
    let number = scan.number;
    *scan = Scan::fresh();
    if mistake == Mistake::AdmissionNumbersOn {
        scan.number = number;
    }
    Ok(())
}

/// Numbers the next scan and starts it: each block that is due takes its word and its outputs are cleared; the others keep both. Or
/// answers 12 and changes nothing. Bits above 11 and words for places not held are stored as 0.
pub fn latch(bank: &Bank, scan: &mut Scan, words: [u16; PLACES]) -> Result<(), u8> {
    latch_with(bank, scan, words, Mistake::None)
}

/// A latch with a mistake switched on.
pub fn latch_with(
    bank: &Bank,
    scan: &mut Scan,
    words: [u16; PLACES],
    mistake: Mistake,
) -> Result<(), u8> {
    let held = Held::of(bank, scan).ok_or(12)?;
    let number = mistake.next_number(scan.number, scan.running);
    let mut next = Scan {
        number,
        ..Scan::fresh()
    };
    for (place, block) in held.blocks.iter().enumerate() {
        let due = block.due.in_scan(number);
        let taken = due || mistake == Mistake::LatchTakesAll;
        next.words[place] = match taken {
            true => words[place] & 0xfff,
            false => scan.words[place],
        };
        let kept = match mistake {
            Mistake::LatchClearsAll => false,
            Mistake::ClearedWhenRead => true,
            _ => !due,
        };
        if kept {
            next.outputs[place] = scan.outputs[place];
        }
    }
    next.go_to(held.next_due(0, number));
    *scan = next;
    Ok(())
}

/// Reads the next cell: its outputs become set and the scan state moves on. Refusals, 12 and, after Idle, 11
/// where `held_rows` is shorter than all rows held, change nothing.
pub fn step(bank: &Bank, scan: &mut Scan, held_rows: &[u8]) -> Step {
    step_with(bank, scan, held_rows, Mistake::None)
}

/// A step with a mistake switched on.
pub fn step_with(bank: &Bank, scan: &mut Scan, held_rows: &[u8], mistake: Mistake) -> Step {
    let Some(held) = Held::of(bank, scan) else {
        return Step::Refused(12);
    };
    if !scan.running {
        return Step::Idle;
    }
    if held_rows.len() < mistake.bytes_a_row() * held.rows() {
        return Step::Refused(11);
    }
    let went = Step::Went {
        block: scan.block,
        cell: scan.cell,
    };
    let place = usize::from(scan.block);
    let at_cell = usize::from(scan.cell);
    let cells = &held.blocks[place].cells;
    let cell = &cells[at_cell];
    let before: usize = held.blocks[..place].iter().map(Block::rows).sum();
    let start = before + rows_of(&cells[..at_cell]);
    let at = start + cell.address(scan.rail, scan.words[place]);
    let row = row_value(rows_in(held_rows).get(at).copied().unwrap_or_default());
    let row = match mistake {
        Mistake::HighByteFirst => row.swap_bytes(),
        Mistake::LowByteAlone => row & 0xFF,
        _ => row,
    };
    if mistake == Mistake::ClearedWhenRead && at_cell == 0 {
        scan.outputs[place] = [NOT_SET; 8];
    }
    for (output, value) in cell.values(row) {
        scan.outputs[place][output] = u8::from(value);
    }
    if at_cell + 1 < cells.len() {
        scan.cell += 1;
        scan.rail = cell.next_rail(row);
    } else {
        scan.go_to(held.next_due(place + 1, scan.number));
    }
    went
}
