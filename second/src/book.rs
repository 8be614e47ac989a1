//! The book: what a list of calls on the bank must answer and set, told from the calls alone. Row memory and rows handed in are
//! bytes, two a row.

/// A call on the bank, with the arguments the book is fed.
#[derive(Clone, Debug, PartialEq, Eq)]
pub enum Call {
    Admit {
        records: Vec<u8>,
        rows: Vec<u8>,
        period: u64,
        phase: u64,
    },
    Latch([u16; 8]),
    Step,
}

impl Call {
    /// The older admission: period 1, phase 0.
    pub fn admit(records: Vec<u8>, rows: Vec<u8>) -> Call {
        Call::admit_every(records, rows, (1, 0))
    }

    pub fn admit_every(records: Vec<u8>, rows: Vec<u8>, (period, phase): (u64, u64)) -> Call {
        Call::Admit {
            records,
            rows,
            period,
            phase,
        }
    }
}

/// The answer to a call. Blocks and cells count from 0.
#[derive(Clone, Copy, Debug, PartialEq, Eq)]
pub enum Said {
    Accepted,
    Refused(u8),
    Went { block: u8, cell: u8 },
    Idle,
}

/// For each block in the book, by output number: None where the output is not set.
pub type Outputs = Vec<[Option<bool>; 8]>;

const BLOCKS: usize = 8;
const USABLE_ROWS: usize = 32_768;

/// For each of the eight scans whether a block is read in it.
type DueScans = [bool; 8];

/// A block as handed in, and when it is due.
#[derive(Clone, Debug, PartialEq, Eq)]
struct Block {
    records: Vec<u8>,
    rows: Vec<u8>,
    due: DueScans,
}

impl Block {
    fn cell_count(&self) -> usize {
        cells(&self.records).len()
    }
}

/// The scans that leave the phase as remainder by the period; None for a wrong period or phase.
fn due_scans(period: u64, phase: u64) -> Option<DueScans> {
    if ![1, 2, 4, 8].contains(&period) || phase >= period {
        return None;
    }
    let mut due = [false; 8];
    let every = (phase as usize..8).step_by(period as usize);
    every.for_each(|scan| due[scan] = true);
    Some(due)
}

/// Adds a block's cells to the reads of each scan in which it is due.
fn add_due(reads: &mut [usize; 8], due: &DueScans, cells: usize) {
    for (count, due) in reads.iter_mut().zip(due) {
        *count += if *due { cells } else { 0 };
    }
}

/// One cell read off a block's records. Variables are listed topmost first.
#[derive(Clone, Debug, PartialEq, Eq)]
struct CellShape {
    upper_rails: usize,
    inputs: Vec<u8>,
    outputs: Vec<u8>,
    lower_rails: usize,
}

impl CellShape {
    fn input_count(&self) -> usize {
        self.upper_rails + self.inputs.len()
    }

    fn output_count(&self) -> usize {
        self.outputs.len() + self.lower_rails
    }

    fn within_largest(&self) -> bool {
        self.input_count() <= 12 && self.output_count() <= 16
    }

    /// Only asked of cells within the largest.
    fn row_count(&self) -> usize {
        1 << self.input_count()
    }
}

/// The value of a row of a block, counted from the block's first: byte 2i is the low one, byte 2i + 1 the high one.
fn value_of_row(rows: &[u8], number: usize) -> usize {
    usize::from(rows[2 * number]) + 256 * usize::from(rows[2 * number + 1])
}

/// Cuts the records into cells. Records below the last cut belong to no cell and are left out.
fn cells(records: &[u8]) -> Vec<CellShape> {
    let mut cells = Vec::new();
    let mut upper_rails = 0;
    let mut inputs = Vec::new();
    let mut outputs = Vec::new();
    for record in records.chunks_exact(4) {
        if record[0] < 128 {
            inputs.push(record[0]);
        } else {
            outputs.push(record[0] - 128);
        }
        if record[1] == 1 {
            let lower_rails = usize::from(record[2]);
            cells.push(CellShape {
                upper_rails,
                inputs: std::mem::take(&mut inputs),
                outputs: std::mem::take(&mut outputs),
                lower_rails,
            });
            upper_rails = lower_rails;
        }
    }
    cells
}

fn record_fits(record: &[u8]) -> bool {
    let variable = matches!(record[0], 0..=11 | 128..=135);
    let cut = record[1] == 1 || (record[1] == 0 && record[2] == 0);
    variable && cut && record[3] == 0
}

/// The stored form's own test, on record bytes and row bytes.
pub fn well_formed(records: &[u8], rows: &[u8]) -> bool {
    if !records.len().is_multiple_of(4) || !(1..=20).contains(&(records.len() / 4)) {
        return false;
    }
    if !records.chunks_exact(4).all(record_fits) {
        return false;
    }
    let variables: Vec<u8> = records.chunks_exact(4).map(|record| record[0]).collect();
    let once = |variable| variables.iter().filter(|&v| v == variable).count() == 1;
    if !variables.iter().all(once) {
        return false;
    }
    if records[records.len() - 4..][1..3] != [1, 0] {
        return false;
    }
    let cells = cells(records);
    if !cells.iter().all(CellShape::within_largest) {
        return false;
    }
    let row_count: usize = cells.iter().map(CellShape::row_count).sum();
    if row_count > USABLE_ROWS || 2 * row_count != rows.len() {
        return false;
    }
    let mut first = 0;
    for cell in &cells {
        let end = first + cell.row_count();
        let bound = 1usize << cell.output_count();
        if (first..end).any(|number| value_of_row(rows, number) >= bound) {
            return false;
        }
        first = end;
    }
    true
}

/// The book of one bank, from the bank's making on.
#[derive(Clone, Debug, PartialEq, Eq)]
pub struct Book {
    limit: u8,
    row_memory: usize,
    blocks: Vec<Block>,
    /// Latches since the last admission.
    latches: usize,
    words: Vec<Option<u16>>,
    rail_words: Vec<usize>,
    to_read: Vec<(usize, usize)>,
    set: Outputs,
}

impl Book {
    /// `limit` is the scan limit S, 1 to 255; `row_memory` the length of the lent row memory in bytes.
    pub fn new(limit: u8, row_memory: usize) -> Book {
        Book {
            limit,
            row_memory,
            blocks: Vec::new(),
            latches: 0,
            words: Vec::new(),
            rail_words: Vec::new(),
            to_read: Vec::new(),
            set: Vec::new(),
        }
    }

    pub fn enter(&mut self, call: &Call) -> Said {
        match call {
            Call::Admit {
                records,
                rows,
                period,
                phase,
            } => self.admit(records, rows, due_scans(*period, *phase)),
            Call::Latch(words) => self.latch(words),
            Call::Step => self.step(),
        }
    }

    pub fn outputs(&self) -> Outputs {
        self.set.clone()
    }

    pub fn block_count(&self) -> usize {
        self.blocks.len()
    }

    /// The cells of all blocks in the book, due or not.
    pub fn cell_count(&self) -> usize {
        self.blocks.iter().map(Block::cell_count).sum()
    }

    /// The cells that are due in each of the eight scans.
    pub fn due_cells(&self) -> [usize; 8] {
        let mut reads = [0; 8];
        for block in &self.blocks {
            add_due(&mut reads, &block.due, block.cell_count());
        }
        reads
    }

    /// The number of the running scan or of the last one; None with no latch since the last admission.
    pub fn scan_number(&self) -> Option<usize> {
        self.latches.checked_sub(1).map(|before| before % 8)
    }

    /// The scan limit S.
    pub fn limit(&self) -> usize {
        usize::from(self.limit)
    }

    /// The rows of all blocks in the book.
    pub fn row_count(&self) -> usize {
        self.blocks.iter().map(|b| b.rows.len() / 2).sum()
    }

    /// Block and cell of each read left in the running scan, next one first; empty with no scan.
    pub fn cells_to_read(&self) -> &[(usize, usize)] {
        &self.to_read
    }

    /// Each block's word of its last due scan, bits above 11 left out; None for a block with no due scan since the last admission.
    pub fn words(&self) -> &[Option<u16>] {
        &self.words
    }

    /// The due scans of a block that is taken in, or the refusal.
    fn judged(&self, records: &[u8], rows: &[u8], due: Option<DueScans>) -> Result<DueScans, u8> {
        if !well_formed(records, rows) {
            return Err(12);
        }
        let due = due.ok_or(16)?;
        if self.blocks.len() >= BLOCKS {
            return Err(13);
        }
        let mut reads = self.due_cells();
        add_due(&mut reads, &due, cells(records).len());
        if reads.iter().any(|&count| count > self.limit()) {
            return Err(14);
        }
        let rows_in_all = self.row_count() + rows.len() / 2;
        if 2 * rows_in_all > self.row_memory || rows_in_all > USABLE_ROWS {
            return Err(11);
        }
        Ok(due)
    }

    fn admit(&mut self, records: &[u8], rows: &[u8], due: Option<DueScans>) -> Said {
        let due = match self.judged(records, rows, due) {
            Ok(due) => due,
            Err(number) => return Said::Refused(number),
        };
        self.blocks.push(Block {
            records: records.to_vec(),
            rows: rows.to_vec(),
            due,
        });
        let held = self.blocks.len();
        self.latches = 0;
        self.words = vec![None; held];
        self.rail_words = vec![0; held];
        self.to_read.clear();
        self.set = vec![[None; 8]; held];
        Said::Accepted
    }

    fn latch(&mut self, words: &[u16; 8]) -> Said {
        let scan = self.latches % 8;
        self.latches += 1;
        self.to_read.clear();
        for (number, block) in self.blocks.iter().enumerate() {
            if !block.due[scan] {
                continue;
            }
            self.words[number] = Some(words[number] & 0x0FFF);
            self.rail_words[number] = 0;
            self.set[number] = [None; 8];
            let count = block.cell_count();
            self.to_read.extend((0..count).map(|cell| (number, cell)));
        }
        Said::Accepted
    }

    fn step(&mut self) -> Said {
        if self.to_read.is_empty() {
            return Said::Idle;
        }
        let (block, cell) = self.to_read.remove(0);
        let shapes = cells(&self.blocks[block].records);
        let shape = &shapes[cell];
        let first: usize = shapes[..cell].iter().map(CellShape::row_count).sum();
        let word = self.words[block].expect("a block that is read has its word");
        let mut address = self.rail_words[block];
        for input in &shape.inputs {
            address = address * 2 + usize::from(word >> input & 1);
        }
        let row = value_of_row(&self.blocks[block].rows, first + address);
        for (place, output) in shape.outputs.iter().rev().enumerate() {
            let bit = row >> (shape.lower_rails + place) & 1 == 1;
            self.set[block][usize::from(*output)] = Some(bit);
        }
        self.rail_words[block] = row % (1 << shape.lower_rails);
        Said::Went {
            block: block as u8,
            cell: cell as u8,
        }
    }
}
