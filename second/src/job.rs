//! What both compilers share: the job, the memory lent, the answer. No logic.

/// n, m, K, L, the order and the sheet as handed in: any numbers, any bytes.
#[derive(Clone, Debug, PartialEq, Eq)]
pub struct Job {
    pub inputs: u64,
    pub outputs: u64,
    pub cell_inputs: u64,
    pub cell_outputs: u64,
    pub order: Vec<u8>,
    pub sheet: Vec<u8>,
}

/// A node of the diagram. Child 0 is constant 0, child 1 constant 1; node 2 stands first in the table.
#[derive(Clone, Copy, Debug, PartialEq, Eq, Default)]
pub struct Node {
    pub height: u16,
    pub low: u16,
    pub high: u16,
}

/// The memory lent to a compiler, of any length and contents: record bytes, and row bytes, two a row, low byte first.
#[derive(Clone, Debug, PartialEq, Eq)]
pub struct Lent {
    pub nodes: Vec<Node>,
    pub records: Vec<u8>,
    pub rows: Vec<u8>,
}

/// What an accepted job is answered with. `rows` counts rows, not bytes. `widths[h]` is the width at height h for h below t, 0 from t on.
#[derive(Clone, Copy, Debug, PartialEq, Eq)]
pub struct Totals {
    pub nodes: usize,
    pub cells: usize,
    pub rows: usize,
    pub bits: usize,
    pub widths: [u16; 20],
}

#[derive(Clone, Copy, Debug, PartialEq, Eq)]
pub enum Answer {
    Refused(u8),
    Accepted(Totals),
}
