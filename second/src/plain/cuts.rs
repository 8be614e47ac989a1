//! Cut lists: cells, rails and the choice among all lists.

use super::function::Function;
use std::cmp::Reverse;

/// "At most 32,768 rows count as usable."
const MOST_ROWS: usize = 32_768;

/// "Rails at a cut are the least r with 2^r at least the width."
pub fn rails(width: usize) -> usize {
    let mut r = 0;
    while 1 << r < width {
        r += 1;
    }
    r
}

/// What decides over cut lists: the order, the rails at each height from 0 to t, K and L.
pub struct Cutting<'a> {
    pub function: &'a Function,
    pub rails: &'a [usize],
    pub most_inputs: usize,
    pub most_outputs: usize,
}

/// The inputs and outputs of a cell.
#[derive(Clone, Copy)]
pub struct Cell {
    pub inputs: usize,
    pub outputs: usize,
}

impl Cell {
    pub fn rows(self) -> usize {
        1 << self.inputs
    }

    pub fn bits(self) -> usize {
        self.rows() * self.outputs
    }
}

/// The sum of something over the cells of a list.
pub fn sum(cells: &[Cell], of: fn(Cell) -> usize) -> usize {
    cells.iter().map(|&cell| of(cell)).sum()
}

impl Cutting<'_> {
    /// The cell between two cuts: "its inputs are its upper rails and its inputs from the order; its
    /// outputs are its outputs from the order and its lower rails".
    pub fn cell(&self, upper: usize, lower: usize) -> Cell {
        Cell {
            inputs: self.rails[upper] + self.function.inputs_between(upper, lower),
            outputs: self.function.outputs_between(upper, lower) + self.rails[lower],
        }
    }

    /// The cells of a cut list, top first.
    pub fn cells(&self, cuts: &[usize]) -> Vec<Cell> {
        cuts.windows(2).map(|c| self.cell(c[0], c[1])).collect()
    }

    fn meets_limits(&self, cell: Cell) -> bool {
        cell.inputs <= self.most_inputs && cell.outputs <= self.most_outputs
    }

    /// The chosen cut list, or None when "no cut list meets K, L and 32,768 rows" (refusal 8). All
    /// falling lists from t to 0 are tried: bit h - 1 of `set` says whether height h is a cut.
    pub fn choose(&self) -> Option<Vec<usize>> {
        let top = self.function.top();
        let cell: Vec<Vec<Cell>> = (0..=top)
            .map(|upper| (0..upper).map(|lower| self.cell(upper, lower)).collect())
            .collect();
        let mut chosen = None;
        for set in 0u32..1 << (top - 1) {
            let between = (1..top).rev().filter(|h| set >> (h - 1) & 1 == 1);
            let mut cuts = vec![top];
            cuts.extend(between);
            cuts.push(0);
            let cells = || cuts.windows(2).map(|c| cell[c[0]][c[1]]);
            if !cells().all(|c| self.meets_limits(c)) {
                continue;
            }
            if cells().map(Cell::rows).sum::<usize>() > MOST_ROWS {
                continue;
            }
            // "Fewest cells, then fewest bits, then the longest first cell, then second, and so on."
            let bits: usize = cells().map(Cell::bits).sum();
            let lengths: Vec<_> = cuts.windows(2).map(|c| Reverse(c[0] - c[1])).collect();
            let key = (cuts.len() - 1, bits, lengths);
            if chosen.as_ref().is_none_or(|(best, _)| key < *best) {
                chosen = Some((key, cuts));
            }
        }
        chosen.map(|(_, cuts)| cuts)
    }

    /// A mistake, see `Mistake`: always the longest cell within K and L.
    pub fn greedy(&self) -> Option<Vec<usize>> {
        let mut cuts = vec![self.function.top()];
        let mut upper = self.function.top();
        while upper > 0 {
            upper = (0..upper).find(|&lower| self.meets_limits(self.cell(upper, lower)))?;
            cuts.push(upper);
        }
        (sum(&self.cells(&cuts), Cell::rows) <= MOST_ROWS).then_some(cuts)
    }
}
