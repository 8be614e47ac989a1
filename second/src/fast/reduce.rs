//! The reduction phase: one pass down the heights, refusal 7, or the widths and the diagram.
//!
//! Only the merged columns of a height are kept. Columns of a clique become equal, and their parts
//! below are merged alike from then on; a clique is closed when nothing left is compatible with
//! all of it, so different merged columns hold a 0 against a 1 somewhere, and forced places stay
//! as they are. Merges below therefore change neither widths nor numbers above, and columns found
//! from the merged ones in number order, 0 before 1, are met in the order of their least prefixes.

use super::columns::{Columns, Slots};
use super::cover::Cover;
use super::graph::{Graph, Set, ROW};
use super::sheet::{low_bytes, Table};
use super::{zeroed, MAX_COLUMNS, MAX_HEIGHT};
use crate::job::Node;

/// The top node, and at most 512 at each height below.
const MAX_NODES: usize = 1 + (MAX_HEIGHT - 1) * MAX_COLUMNS;

/// The reduced diagram.
pub struct Diagram {
    /// Widths by height, also at the top.
    pub widths: [u16; MAX_HEIGHT + 1],
    /// The number of the first node of each height; at height 0, constant 1.
    pub first: [u16; MAX_HEIGHT + 1],
    pub count: usize,
    nodes: Box<[Node; MAX_NODES]>,
}

impl Default for Diagram {
    fn default() -> Self {
        Self::new()
    }
}

impl Diagram {
    pub fn new() -> Self {
        Diagram {
            widths: [0; MAX_HEIGHT + 1],
            first: [0; MAX_HEIGHT + 1],
            count: 0,
            nodes: zeroed(),
        }
    }

    /// All nodes, number 2 first.
    pub fn nodes(&self) -> &[Node] {
        &self.nodes[..self.count]
    }

    /// The nodes at `height`, from 1 to the top, by column.
    pub fn at(&self, height: usize) -> &[Node] {
        let first = usize::from(self.first[height]) - 2;
        &self.nodes[first..first + usize::from(self.widths[height])]
    }
}

/// The scratch of the reduction.
pub struct Reducer {
    columns: Columns,
    next: Columns,
    slots: Slots,
    graph: Graph,
    cover: Box<Cover>,
    children: Box<[u16; 2 * MAX_COLUMNS]>,
}

impl Default for Reducer {
    fn default() -> Self {
        Self::new()
    }
}

impl Reducer {
    pub fn new() -> Self {
        Reducer {
            columns: Columns::new(),
            next: Columns::new(),
            slots: Slots::new(),
            graph: Graph::new(),
            cover: Box::new(Cover::new()),
            children: zeroed(),
        }
    }

    /// Numbers the columns below an input: each column's halves.
    #[inline(always)]
    fn split(&mut self, inputs_below: usize) -> Option<()> {
        let (columns, next) = (&self.columns, &mut self.next);
        let size = 1 << inputs_below.saturating_sub(3);
        self.slots.start(next, 2 * columns.count, size);
        if inputs_below < 3 {
            let (mask, half) = (low_bytes(inputs_below), 8 << inputs_below);
            for column in 0..columns.count {
                let (zero, one) = (columns.zero[column], columns.one[column]);
                let low = self.slots.number_word(next, zero & mask, one & mask)?;
                let high = self.slots.number_word(next, zero >> half, one >> half)?;
                self.children[2 * column] = low;
                self.children[2 * column + 1] = high;
            }
        } else if size == 1 {
            for half in 0..2 * columns.count {
                let (zero, one) = (columns.zero[half], columns.one[half]);
                self.children[half] = self.slots.number_word(next, zero, one)?;
            }
        } else {
            for half in 0..2 * columns.count {
                let zero = &columns.zero[half * size..][..size];
                let one = &columns.one[half * size..][..size];
                self.children[half] = self.slots.number(next, zero, one)?;
            }
        }
        Some(())
    }

    /// Numbers the columns below an output and notes its values. With no input between, its one
    /// kept place is at the start of each column. A child entry is the column's number, with 0x4000
    /// added where the output is 0 and 0x8000 where it is 1.
    #[inline(always)]
    fn drop_output(&mut self, output: u32) -> Option<()> {
        let (columns, next) = (&mut self.columns, &mut self.next);
        let size = columns.size;
        self.slots.start(next, columns.count, size);
        for column in 0..columns.count {
            let at = column * size;
            let zero = columns.zero[at] >> output & 1;
            let one = columns.one[at] >> output & 1;
            columns.zero[at] &= !(1 << output);
            columns.one[at] &= !(1 << output);
            let below = if size == 1 {
                self.slots
                    .number_word(next, columns.zero[at], columns.one[at])?
            } else {
                self.slots
                    .number(next, columns.zero(column), columns.one(column))?
            };
            self.children[column] = below | ((zero | one << 1) << 14) as u16;
        }
        Some(())
    }
}

/// Answers refusal 7, or makes the diagram of `table` after all merges; `table` is as `read` filled
/// it. After a refusal the diagram is of no use to the cutting.
pub fn reduce(table: &Table, reducer: &mut Reducer, diagram: &mut Diagram) -> Result<(), u8> {
    let top = table.top();
    let words = table.words();
    let mut inputs_below = table.inputs;
    let mut outputs_below = !0u64;
    reducer.columns.count = 1;
    reducer.columns.size = words;
    for (word, &[zero, one]) in table.forced().iter().enumerate() {
        reducer.columns.zero[word] = zero;
        reducer.columns.one[word] = one;
    }
    diagram.widths = [0; MAX_HEIGHT + 1];
    diagram.widths[top] = 1;
    diagram.first[top] = 2;
    diagram.count = 0;
    for (&variable, height) in table.order().iter().zip((1..=top).rev()) {
        let input = variable < 128;
        let numbered = if input {
            inputs_below -= 1;
            reducer.split(inputs_below)
        } else {
            let output = u32::from(variable & 127);
            outputs_below &= !(0x0101_0101_0101_0101 << output);
            reducer.drop_output(output)
        };
        numbered.ok_or(7)?;
        let width = reducer.columns.count;
        std::mem::swap(&mut reducer.columns, &mut reducer.next);
        let columns = &mut reducer.columns;
        let bytes = low_bytes(inputs_below) & outputs_below;
        let sides = (!input).then(|| sides(&reducer.children[..width]));
        let merged = height > 1
            && columns.count > 1
            && reducer
                .graph
                .build(columns, sides, |word| table.kept(word) & bytes);
        if merged {
            reducer.cover.take(&reducer.graph, columns.count);
            columns.merge(&reducer.cover.number);
        }
        let first = if height == 1 {
            1
        } else {
            diagram.first[height] + width as u16
        };
        diagram.first[height - 1] = first;
        diagram.widths[height - 1] = columns.count as u16;

        let number = |child: u16| {
            let column = child & 0x3fff;
            if merged {
                first + reducer.cover.number[usize::from(column) % MAX_COLUMNS]
            } else {
                first + column
            }
        };
        let nodes = &mut diagram.nodes[diagram.count..][..width];
        diagram.count += width;
        for (column, node) in nodes.iter_mut().enumerate() {
            node.height = height as u16;
            if input {
                node.low = number(reducer.children[2 * column]);
                node.high = number(reducer.children[2 * column + 1]);
            } else {
                let child = reducer.children[column];
                let below = number(child);
                node.low = if child & 0x8000 == 0 { below } else { 0 };
                node.high = if child & 0x4000 == 0 { below } else { 0 };
            }
        }
    }
    Ok(())
}

/// The columns below an output that can be compatible with others. Before it was dropped all were
/// incompatible in pairs, so two clash below still unless just the output set them apart: one from
/// a column where it is 0, the other from one where it is 1. A column from both clashes with all.
#[inline(always)]
fn sides(children: &[u16]) -> [Set; 2] {
    let mut sides = [[0; ROW]; 2];
    for &child in children {
        let (word, bit) = (usize::from(child & 0x3fff) / 64 % ROW, child % 64);
        sides[0][word] |= u64::from(child >> 14 & 1) << bit;
        sides[1][word] |= u64::from(child >> 15) << bit;
    }
    for i in 0..ROW {
        let both = sides[0][i] & sides[1][i];
        sides[0][i] &= !both;
        sides[1][i] &= !both;
    }
    sides
}
