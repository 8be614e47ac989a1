//! The clique cover of a compatibility graph.

use super::graph::{Graph, ROW};
use super::MAX_COLUMNS;

/// A key orders columns by edges, then by number: edges * 512 + number. Columns gone have `GONE`.
const EDGE: u32 = MAX_COLUMNS as u32;
const GONE: u32 = u32::MAX;

/// The cover; after `take`, `number[c]` is the clique of column c, cliques numbered by their
/// smallest member.
pub struct Cover {
    keys: [u32; MAX_COLUMNS],
    candidates: [u32; MAX_COLUMNS],
    clique: [u16; MAX_COLUMNS],
    opener: [u16; MAX_COLUMNS],
    pub number: [u16; MAX_COLUMNS],
    left: [u64; ROW],
}

impl Cover {
    pub(super) fn new() -> Self {
        Cover {
            keys: [0; MAX_COLUMNS],
            candidates: [0; MAX_COLUMNS],
            clique: [0; MAX_COLUMNS],
            opener: [0; MAX_COLUMNS],
            number: [0; MAX_COLUMNS],
            left: [0; ROW],
        }
    }

    /// Covers the first `count` columns.
    #[inline(always)]
    pub(super) fn take(&mut self, graph: &Graph, count: usize) {
        let words = count.div_ceil(64).min(ROW);
        let mut remaining = 0;
        self.left = [0; ROW];
        for column in 0..count {
            let edges: u32 = (0..words).map(|i| graph.rows[column][i].count_ones()).sum();
            if edges == 0 {
                self.alone(column);
            } else {
                self.keys[column] = edges * EDGE + column as u32;
                self.left[column / 64] |= 1 << (column % 64);
                remaining += 1;
            }
        }
        while remaining > 0 {
            let opener = self.keys[..count].iter().fold(GONE, |a, &b| a.min(b)) % EDGE;
            let members = self.grow(graph, opener as usize, words);
            remaining -= members;
            for i in 0..members {
                let member = usize::from(self.clique[i]);
                self.opener[member] = opener as u16;
                self.keys[member] = GONE;
                self.left[member / 64] &= !(1 << (member % 64));
            }
            remaining -= self.lower(graph, members, words);
        }
        let mut cliques = 0;
        for column in 0..count {
            let opener = usize::from(self.opener[column]);
            // The opener's key is free by now and holds the clique's number.
            if self.keys[opener] == GONE {
                self.keys[opener] = cliques;
                cliques += 1;
            }
            self.number[column] = self.keys[opener] as u16;
        }
    }

    /// A column without edges is a clique; its leaving changes no count, so it may leave at once.
    #[inline(always)]
    fn alone(&mut self, column: usize) {
        self.opener[column] = column as u16;
        self.keys[column] = GONE;
    }

    /// Grows the clique that `opener` opens into `clique`; answers its size.
    #[inline(always)]
    fn grow(&mut self, graph: &Graph, opener: usize, words: usize) -> usize {
        self.clique[0] = opener as u16;
        let mut members = 1;
        let mut len = 0;
        for i in 0..words {
            let mut open = graph.rows[opener][i] & self.left[i];
            while open != 0 {
                let column = 64 * i + open.trailing_zeros() as usize;
                open &= open - 1;
                self.candidates[len] = self.keys[column];
                len += 1;
            }
        }
        while len > 0 {
            let least = self.candidates[..len].iter().fold(GONE, |a, &b| a.min(b)) % EDGE;
            self.clique[members] = least as u16;
            members += 1;
            let row = &graph.rows[least as usize];
            let before = len;
            len = 0;
            for i in 0..before {
                let key = self.candidates[i];
                self.candidates[len] = key;
                let column = (key % EDGE) as usize;
                len += (row[column / 64] >> (column % 64) & 1) as usize;
            }
            // Where few fall out, sorting once is cheaper than a search for each join.
            if len > 32 && len > before - before / 8 {
                return self.grow_sorted(graph, members, len);
            }
        }
        members
    }

    /// Ends `grow`: counts stay as they are for the round, so candidates join in sorted order,
    /// unless one before them ruled them out.
    #[inline(always)]
    fn grow_sorted(&mut self, graph: &Graph, mut members: usize, len: usize) -> usize {
        self.candidates[..len].sort_unstable();
        let mut open = [!0u64; ROW];
        for &key in &self.candidates[..len] {
            let column = (key % EDGE) as usize;
            if open[column / 64] >> (column % 64) & 1 == 1 {
                self.clique[members] = column as u16;
                members += 1;
                for (word, row) in open.iter_mut().zip(&graph.rows[column]) {
                    *word &= row;
                }
            }
        }
        members
    }

    /// Lowers the counts of the columns left by their edges to the clique; answers how many have
    /// none then and leave too.
    #[inline(always)]
    fn lower(&mut self, graph: &Graph, members: usize, words: usize) -> usize {
        let mut gone = 0;
        if members > words {
            let (mut clique, mut near) = ([0u64; ROW], [0u64; ROW]);
            for &member in &self.clique[..members] {
                let member = usize::from(member);
                clique[member / 64] |= 1 << (member % 64);
                for i in 0..words {
                    near[i] |= graph.rows[member][i];
                }
            }
            for i in 0..words {
                let mut near = near[i] & self.left[i];
                while near != 0 {
                    let column = 64 * i + near.trailing_zeros() as usize;
                    near &= near - 1;
                    let edges: u32 = (0..words)
                        .map(|i| (graph.rows[column][i] & clique[i]).count_ones())
                        .sum();
                    gone += self.drop_edges(column, edges);
                }
            }
        } else {
            for at in 0..members {
                let member = usize::from(self.clique[at]);
                for i in 0..words {
                    let mut near = graph.rows[member][i] & self.left[i];
                    while near != 0 {
                        let column = 64 * i + near.trailing_zeros() as usize;
                        near &= near - 1;
                        gone += self.drop_edges(column, 1);
                    }
                }
            }
        }
        gone
    }

    #[inline(always)]
    fn drop_edges(&mut self, column: usize, edges: u32) -> usize {
        self.keys[column] -= edges * EDGE;
        if self.keys[column] >= EDGE {
            return 0;
        }
        self.alone(column);
        self.left[column / 64] &= !(1 << (column % 64));
        1
    }
}
