//! The fast compiler: sheet, reduction and cutting over packed bits, scratch allocated once.

pub mod columns;
pub mod cover;
pub mod cut;
pub mod graph;
mod records;
pub mod reduce;
pub mod sheet;
pub mod step;

use crate::job::{Answer, Job, Lent};

pub use cut::cut;
pub use reduce::{reduce, Diagram, Reducer};
pub use sheet::{read, Table};

/// Most columns a height may have before its merge.
pub const MAX_COLUMNS: usize = 512;
/// Most heights: 12 inputs and 8 outputs.
pub const MAX_HEIGHT: usize = 20;

/// A compiler with its own scratch; `compile` allocates nothing.
pub struct Compiler {
    pub table: Table,
    pub reducer: Reducer,
    pub diagram: Diagram,
    pub blocks: cut::Blocks,
}

impl Default for Compiler {
    fn default() -> Self {
        Self::new()
    }
}

impl Compiler {
    pub fn new() -> Self {
        Compiler {
            table: Table::new(),
            reducer: Reducer::new(),
            diagram: Diagram::new(),
            blocks: cut::Blocks::new(),
        }
    }

    /// The answer for any job. On a refusal nothing lent is changed; else nodes, records and rows
    /// are written to the start of what is lent and the rest is kept.
    pub fn compile(&mut self, job: &Job, lent: &mut Lent) -> Answer {
        let table = &mut self.table;
        let done = read(job, table)
            .and_then(|()| reduce(table, &mut self.reducer, &mut self.diagram))
            .and_then(|()| cut(table, &self.diagram, &mut self.blocks, lent));
        match done {
            Ok(totals) => Answer::Accepted(totals),
            Err(number) => Answer::Refused(number),
        }
    }
}

/// `Compiler::compile` on scratch made for this one job.
pub fn compile(job: &Job, lent: &mut Lent) -> Answer {
    Compiler::new().compile(job, lent)
}

/// Zeroed memory of fixed length on the heap, without passing through the stack.
pub(crate) fn zeroed<T: Clone + Default, const N: usize>() -> Box<[T; N]> {
    match vec![T::default(); N].into_boxed_slice().try_into() {
        Ok(array) => array,
        Err(_) => unreachable!("the slice was made with this length"),
    }
}
