//! The stored form of a cascade: its cells, whether it is well formed, reading, writing, and what it emits.

pub const RECORD_BYTES: usize = 4;
pub const MAX_RECORDS: usize = 20;
pub const MAX_ROWS: usize = 32_768;
pub const ROW_BYTES: usize = 2;
/// Outputs stand in records as this number plus the output's own.
pub const FIRST_OUTPUT: u8 = 128;

/// A row as it stands in memory.
pub type Row = [u8; ROW_BYTES];

/// The rows in bytes, top first; a byte that is left over is no row.
pub fn rows_in(bytes: &[u8]) -> &[Row] {
    bytes.as_chunks().0
}

/// The value of a row: low byte first.
pub fn row_value(row: Row) -> u16 {
    u16::from_le_bytes(row)
}

/// A row in some form, whose value can be read.
pub trait Valued: Copy {
    fn value(self) -> u16;
}

impl Valued for Row {
    fn value(self) -> u16 {
        row_value(self)
    }
}

/// One variable of the order, top first. `rails` are those of the cut directly below it.
#[derive(Clone, Copy, Debug, PartialEq, Eq)]
pub struct Record {
    pub variable: u8,
    pub cut: bool,
    pub rails: u8,
}

/// Records and row bytes of any contents, not always well formed.
#[derive(Clone, Debug, PartialEq, Eq)]
pub struct Cascade {
    pub records: Vec<Record>,
    pub rows: Vec<u8>,
}

/// A cell of well-formed records: `length` records from record `top` on.
#[derive(Clone, Debug, PartialEq, Eq)]
pub struct Cell {
    pub top: usize,
    pub length: usize,
    /// The variable bytes of its records, topmost first.
    pub variables: Vec<u8>,
    /// The numbers of its input variables, topmost first.
    pub inputs: Vec<u8>,
    /// The numbers of its output variables from 0, topmost first.
    pub outputs: Vec<u8>,
    pub upper_rails: usize,
    pub lower_rails: usize,
    pub rows: usize,
}

impl Cell {
    pub const MAX_INPUTS: usize = 12;
    pub const MAX_OUTPUTS: usize = 16;

    fn open(top: usize, upper_rails: usize) -> Cell {
        Cell {
            top,
            length: 0,
            variables: Vec::new(),
            inputs: Vec::new(),
            outputs: Vec::new(),
            upper_rails,
            lower_rails: 0,
            rows: 0,
        }
    }

    /// Upper rails and input variables.
    pub fn input_count(&self) -> usize {
        self.upper_rails + self.inputs.len()
    }

    /// Output variables and lower rails.
    pub fn output_count(&self) -> usize {
        self.outputs.len() + self.lower_rails
    }

    pub fn bits(&self) -> usize {
        self.rows * self.output_count()
    }

    /// The row that the rail word and the input word address, counted from the cell's first.
    pub fn address(&self, rail: u16, word: u16) -> usize {
        self.inputs.iter().fold(usize::from(rail), |address, &i| {
            address << 1 | usize::from(word >> i & 1)
        })
    }

    /// The output variables with their bits of a row's value, topmost first. Higher bits are passed over.
    pub fn values(&self, row: u16) -> impl Iterator<Item = (usize, bool)> + '_ {
        let places = (self.lower_rails..self.output_count()).rev();
        self.outputs
            .iter()
            .zip(places)
            .map(move |(&output, place)| (usize::from(output), row >> place & 1 == 1))
    }

    /// The rail word that a row's value hands to the next cell.
    pub fn next_rail(&self, row: u16) -> u16 {
        row & ((1 << self.lower_rails) - 1)
    }
}

/// The cells, top first, when the records are well formed by themselves.
pub fn cells(records: &[u8]) -> Option<Vec<Cell>> {
    let whole = records.len() % RECORD_BYTES == 0;
    if !whole || !(1..=MAX_RECORDS).contains(&(records.len() / RECORD_BYTES)) {
        return None;
    }
    let mut seen = [false; 256];
    let mut rows = 0;
    let mut closed = Vec::new();
    let mut cell = Cell::open(0, 0);
    for (place, record) in records.chunks_exact(RECORD_BYTES).enumerate() {
        let &[variable, cut, rails, 0] = record else {
            return None;
        };
        if std::mem::replace(&mut seen[usize::from(variable)], true) {
            return None;
        }
        match variable {
            0..=11 => cell.inputs.push(variable),
            128..=135 => cell.outputs.push(variable - FIRST_OUTPUT),
            _ => return None,
        }
        cell.variables.push(variable);
        cell.length += 1;
        match (cut, rails) {
            (0, 0) => {}
            (1, _) => {
                cell.lower_rails = usize::from(rails);
                if cell.input_count() > Cell::MAX_INPUTS || cell.output_count() > Cell::MAX_OUTPUTS
                {
                    return None;
                }
                cell.rows = 1 << cell.input_count();
                rows += cell.rows;
                let next = Cell::open(place + 1, cell.lower_rails);
                closed.push(std::mem::replace(&mut cell, next));
            }
            _ => return None,
        }
    }
    // The cell left open must be an empty one with no rails above it.
    (cell.length == 0 && cell.upper_rails == 0 && rows <= MAX_ROWS).then_some(closed)
}

/// The cells, each with its rows, when the whole stored form is well formed.
pub fn cells_with_rows<'a>(records: &[u8], rows: &'a [u8]) -> Option<Vec<(Cell, &'a [Row])>> {
    let cells = cells(records)?;
    if rows.len() != ROW_BYTES * cells.iter().map(|cell| cell.rows).sum::<usize>() {
        return None;
    }
    let mut rest = rows_in(rows);
    let mut pairs = Vec::with_capacity(cells.len());
    for cell in cells {
        let (own, after) = rest.split_at(cell.rows);
        let limit = 1u32 << cell.output_count();
        if own.iter().any(|&row| u32::from(row_value(row)) >= limit) {
            return None;
        }
        rest = after;
        pairs.push((cell, own));
    }
    Some(pairs)
}

/// Whether records and rows together are well formed.
pub fn well_formed(records: &[u8], rows: &[u8]) -> bool {
    cells_with_rows(records, rows).is_some()
}

/// The cascade that the bytes hold, or 12 when they are not well formed.
pub fn read(records: &[u8], rows: &[u8]) -> Result<Cascade, u8> {
    if !well_formed(records, rows) {
        return Err(12);
    }
    let records = records
        .chunks_exact(RECORD_BYTES)
        .map(|record| Record {
            variable: record[0],
            cut: record[1] == 1,
            rails: record[2],
        })
        .collect();
    Ok(Cascade {
        records,
        rows: rows.to_vec(),
    })
}

/// Writes the stored form to the start of the lent memory and keeps the bytes past it. Refusals, in this
/// order, change nothing: 12 not well formed, 10 `records` short, 11 `rows` short.
pub fn write(cascade: &Cascade, records: &mut [u8], rows: &mut [u8]) -> Result<(), u8> {
    let bytes: Vec<u8> = cascade
        .records
        .iter()
        .flat_map(|record| [record.variable, u8::from(record.cut), record.rails, 0])
        .collect();
    if !well_formed(&bytes, &cascade.rows) {
        return Err(12);
    }
    let records = records.get_mut(..bytes.len()).ok_or(10)?;
    let rows = rows.get_mut(..cascade.rows.len()).ok_or(11)?;
    records.copy_from_slice(&bytes);
    rows.copy_from_slice(&cascade.rows);
    Ok(())
}

/// The cells of a well-formed cascade, each with the value of the row that an input word leads to.
pub fn walk<'a, R: Valued>(
    cells: &'a [(Cell, &'a [R])],
    word: u16,
) -> impl Iterator<Item = (&'a Cell, u16)> + 'a {
    cells.iter().scan(0, move |rail, (cell, own)| {
        let row = own[cell.address(*rail, word)].value();
        *rail = cell.next_rail(row);
        Some((cell, row))
    })
}

/// What the cells of a well-formed cascade emit for an input word, by output number; None for an output it does not have.
pub fn emitted<R: Valued>(cells: &[(Cell, &[R])], word: u16) -> [Option<bool>; 8] {
    let mut emitted = [None; 8];
    for (cell, row) in walk(cells, word) {
        for (output, value) in cell.values(row) {
            emitted[output] = Some(value);
        }
    }
    emitted
}

/// The same by records and rows; None where they are not well formed.
pub fn emit(records: &[u8], rows: &[u8], word: u16) -> Option<[Option<bool>; 8]> {
    Some(emitted(&cells_with_rows(records, rows)?, word))
}

/// The rail word below each cell of a well-formed cascade, top first; the last is 0.
pub fn rail_words(records: &[u8], rows: &[u8], word: u16) -> Option<Vec<u16>> {
    let cells = cells_with_rows(records, rows)?;
    let below = walk(&cells, word).map(|(cell, row)| cell.next_rail(row));
    Some(below.collect())
}
