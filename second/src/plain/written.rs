//! What is written: the node table, the rows and the stored form, all of the final function.

use super::cuts::{Cell, Cutting};
use super::function::{Columns, Function, FREE};
use super::Mistake;
use crate::job::Node;

/// "There is a node for each column at each height t to 1, heights falling, columns in number
/// order." `columns[h]` are the columns at height h, for h from 0 to t.
pub fn nodes(function: &Function, columns: &[Columns]) -> Vec<Node> {
    let top = function.top();
    // The number of the first node at each height; nodes start at 2.
    let mut first = vec![2; top + 1];
    for height in (1..top).rev() {
        first[height] = first[height + 1] + columns[height + 1].width();
    }
    // Below height 1 nothing is left to test: constant 1.
    let node = |height: usize, prefix: usize| match height {
        0 => 1,
        _ => (first[height] + columns[height].of_prefix[prefix]) as u16,
    };
    let mut nodes = Vec::new();
    for height in (1..=top).rev() {
        for &prefix in &columns[height].smallest {
            let (low, high) = if function.is_output(height) {
                // "A forbidden value's child is 0; for d both children agree."
                let child = node(height - 1, prefix);
                match function.output(height, prefix) {
                    0 => (child, 0),
                    1 => (0, child),
                    _ => (child, child),
                }
            } else {
                // "At an input, low is the child for 0, high for 1."
                (
                    node(height - 1, 2 * prefix),
                    node(height - 1, 2 * prefix + 1),
                )
            };
            nodes.push(Node {
                height: height as u16,
                low,
                high,
            });
        }
    }
    nodes
}

/// The values of the rows of all cells, top first.
pub fn rows(cutting: &Cutting, columns: &[Columns], cuts: &[usize]) -> Vec<u16> {
    let mut rows = Vec::new();
    for cut in cuts.windows(2) {
        rows.extend(cell_rows(cutting, columns, cut[0], cut[1]));
    }
    rows
}

/// "A row is two bytes, low byte first."
pub fn row_bytes(rows: &[u16], mistake: Mistake) -> Vec<u8> {
    let bytes = |&row: &u16| {
        let (low, high) = ((row % 256) as u8, (row / 256) as u8);
        match mistake {
            Mistake::HighByteFirst => [high, low],
            Mistake::LowByteAlone => [low, 0],
            _ => [low, high],
        }
    };
    rows.iter().flat_map(bytes).collect()
}

/// The values of the rows of the cell between two cuts. "Rows of unused rail words are 0."
fn cell_rows(cutting: &Cutting, columns: &[Columns], upper: usize, lower: usize) -> Vec<u16> {
    let function = cutting.function;
    let Cell { inputs, .. } = cutting.cell(upper, lower);
    let own_inputs = function.inputs_between(upper, lower);
    let mut rows = vec![0; 1 << inputs];
    for (rail_word, &prefix) in columns[upper].smallest.iter().enumerate() {
        for value in 0..1 << own_inputs {
            // "Row address: upper rail word, then the cell's inputs, topmost most significant."
            let address = rail_word << own_inputs | value;
            let at_lower = prefix << own_inputs | value;
            // The cell's outputs, topmost most significant, "then the lower rails in the lowest bits".
            let mut row = 0;
            for height in (lower + 1..=upper).rev().filter(|&h| function.is_output(h)) {
                let below = function.inputs_between(height, lower);
                row = row << 1 | emitted(function.output(height, at_lower >> below));
            }
            let lower_word = columns[lower].of_prefix[at_lower];
            rows[address] = (row << cutting.rails[lower] | lower_word) as u16;
        }
    }
    rows
}

/// "Final d is emitted as 0."
fn emitted(value: u8) -> usize {
    match value {
        FREE => 0,
        forced => usize::from(forced),
    }
}

/// "Stored form: t records of 4 bytes: variable byte; 1 if a cut lies directly below, else 0; rails
/// at that cut, else 0; zero."
pub fn records(cutting: &Cutting, cuts: &[usize]) -> Vec<u8> {
    let top = cutting.function.top();
    let mut records = Vec::new();
    for height in (1..=top).rev() {
        let variable = cutting.function.variable(height);
        let below = height - 1;
        records.extend(if cuts.contains(&below) {
            [variable, 1, cutting.rails[below] as u8, 0]
        } else {
            [variable, 0, 0, 0]
        });
    }
    records
}
