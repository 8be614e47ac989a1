//! The cutting phase: refusals 8 to 11, or the nodes, stored records and rows.
//!
//! The limit of 32,768 rows never decides. Rails at a cut are at most the inputs above it, so a
//! cell with inputs of the order has at most 2^s rows, s the inputs above its lower cut; s differs
//! between such cells, so together they have at most 2 + 4 + ... + 4,096 = 8,190 rows. A cell
//! without has 2^r rows, r the rails of at most 512 columns and so at most 9; it has an output of
//! the order, so there are at most 8 such cells and 4,096 such rows.

use super::reduce::Diagram;
use super::sheet::Table;
use super::{zeroed, MAX_HEIGHT};
use crate::job::{Lent, Node, Totals};

/// Values of rows.
type Block = Box<[u16; 4096]>;

/// Scratch for the rows of one cell: the blocks of two neighbouring heights.
pub struct Blocks {
    below: Block,
    here: Block,
}

impl Default for Blocks {
    fn default() -> Self {
        Self::new()
    }
}

impl Blocks {
    pub fn new() -> Self {
        Blocks {
            below: zeroed(),
            here: zeroed(),
        }
    }
}

/// The best way from a cut to height 0.
#[derive(Clone, Copy, PartialEq, Eq, PartialOrd, Ord)]
struct Way {
    cells: usize,
    bits: usize,
    next: usize,
}

/// Answers the least of refusals 8 to 11 that applies and leaves `lent` as it is, or writes nodes,
/// records and rows to its start; `diagram` is as `reduce` made it from `table`.
pub fn cut(
    table: &Table,
    diagram: &Diagram,
    blocks: &mut Blocks,
    lent: &mut Lent,
) -> Result<Totals, u8> {
    let top = table.top();
    let order = table.order();
    let mut rails = [0usize; MAX_HEIGHT + 1];
    // Inputs at or below each height.
    let mut inputs = [0usize; MAX_HEIGHT + 1];
    for height in 1..=top {
        let width = usize::from(diagram.widths[height]);
        rails[height] = width.next_power_of_two().trailing_zeros() as usize;
        inputs[height] = inputs[height - 1] + usize::from(order[top - height] < 128);
    }

    // A cell's inputs and outputs are counted for the cut above it and the cut below it.
    let cell_inputs = |upper: usize, lower: usize| rails[upper] + inputs[upper] - inputs[lower];
    let cell_outputs = |upper: usize, lower: usize| {
        (upper - inputs[upper]) - (lower - inputs[lower]) + rails[lower]
    };
    // Ways compare by cells, bits, then the lower next cut, which is the longer first cell.
    let mut ways = [None; MAX_HEIGHT + 1];
    ways[0] = Some(Way {
        cells: 0,
        bits: 0,
        next: 0,
    });
    for upper in 1..=top {
        let mut best: Option<Way> = None;
        for lower in 0..upper {
            let (ins, outs) = (cell_inputs(upper, lower), cell_outputs(upper, lower));
            let Some(rest) = ways[lower] else { continue };
            if ins > table.cell_inputs || outs > table.cell_outputs {
                continue;
            }
            let way = Way {
                cells: rest.cells + 1,
                bits: rest.bits + (outs << ins),
                next: lower,
            };
            if best.is_none_or(|best| way < best) {
                best = Some(way);
            }
        }
        ways[upper] = best;
    }
    let chosen = ways[top].ok_or(8)?;

    let next = |upper: usize| ways[upper].map_or(0, |way| way.next);
    let (mut rows, mut upper) = (0, top);
    while upper > 0 {
        rows += 1 << cell_inputs(upper, next(upper));
        upper = next(upper);
    }
    if lent.nodes.len() < diagram.count {
        return Err(9);
    }
    if lent.records.len() < 4 * top {
        return Err(10);
    }
    if lent.rows.len() < 2 * rows {
        return Err(11);
    }

    lent.nodes[..diagram.count].copy_from_slice(diagram.nodes());
    let (mut upper, mut at) = (top, 0);
    while upper > 0 {
        let lower = next(upper);
        for height in (lower..upper).rev() {
            let record = if height == lower {
                [order[top - height - 1], 1, rails[lower] as u8, 0]
            } else {
                [order[top - height - 1], 0, 0, 0]
            };
            lent.records[4 * (top - height - 1)..][..4].copy_from_slice(&record);
        }
        let len = 1 << cell_inputs(upper, lower);
        let cell = &mut lent.rows[2 * at..2 * (at + len)];
        write_rows(diagram, order, (upper, lower), rails[lower], blocks, cell);
        at += len;
        upper = lower;
    }

    let mut widths = [0; MAX_HEIGHT];
    widths[..top].copy_from_slice(&diagram.widths[..top]);
    Ok(Totals {
        nodes: diagram.count,
        cells: chosen.cells,
        rows,
        bits: chosen.bits,
        widths,
    })
}

/// Writes the bytes of a cell's rows. Their values are made from its lower cut up: each column of a
/// height has the block of rows for the cell's inputs at or below that height. A height has at most
/// as many columns as the upper cut has times the inputs between, so no height needs more than the
/// cell's rows.
fn write_rows(
    diagram: &Diagram,
    order: &[u8],
    (upper, lower): (usize, usize),
    lower_rails: usize,
    blocks: &mut Blocks,
    bytes: &mut [u8],
) {
    let Blocks { below, here } = blocks;
    for (column, row) in below[..usize::from(diagram.widths[lower])]
        .iter_mut()
        .enumerate()
    {
        *row = column as u16;
    }
    let (mut len, mut bit) = (1, 1u16 << (lower_rails & 15));
    for height in lower + 1..=upper {
        let nodes = diagram.at(height);
        let first = diagram.first[height - 1];
        if order[order.len() - height] < 128 {
            match len {
                1 => join::<1>(nodes, first, below, here),
                2 => join::<2>(nodes, first, below, here),
                4 => join::<4>(nodes, first, below, here),
                8 => join::<8>(nodes, first, below, here),
                16 => join::<16>(nodes, first, below, here),
                32 => join::<32>(nodes, first, below, here),
                _ => join_long(nodes, first, len, below, here),
            }
            len *= 2;
        } else {
            match len {
                1 => set::<1>(nodes, first, bit, below, here),
                2 => set::<2>(nodes, first, bit, below, here),
                4 => set::<4>(nodes, first, bit, below, here),
                8 => set::<8>(nodes, first, bit, below, here),
                16 => set::<16>(nodes, first, bit, below, here),
                32 => set::<32>(nodes, first, bit, below, here),
                _ => set_long(nodes, first, bit, len, below, here),
            }
            bit <<= 1;
        }
        std::mem::swap(below, here);
    }
    let used = len * usize::from(diagram.widths[upper]);
    let (used, unused) = bytes.split_at_mut(2 * used);
    store(used, below);
    unused.fill(0);
}

/// The values as row bytes, as many as there is room for.
#[inline(always)]
fn store(bytes: &mut [u8], values: &Block) {
    for (row, value) in bytes.as_chunks_mut().0.iter_mut().zip(values.iter()) {
        *row = value.to_le_bytes();
    }
}

/// At an input: the block for 0, then that for 1.
fn join<const LEN: usize>(nodes: &[Node], first: u16, below: &Block, here: &mut Block) {
    let (below, here) = (below.as_chunks::<LEN>().0, here.as_chunks_mut::<LEN>().0);
    for (node, pair) in nodes.iter().zip(here.chunks_exact_mut(2)) {
        pair[0] = below[usize::from(node.low - first)];
        pair[1] = below[usize::from(node.high - first)];
    }
}

fn join_long(nodes: &[Node], first: u16, len: usize, below: &Block, here: &mut Block) {
    for (node, pair) in nodes.iter().zip(here.chunks_exact_mut(2 * len)) {
        let (low, high) = pair.split_at_mut(len);
        low.copy_from_slice(&below[usize::from(node.low - first) * len..][..len]);
        high.copy_from_slice(&below[usize::from(node.high - first) * len..][..len]);
    }
}

/// The column below an output and the output's bit in the rows: one child is that column, the
/// other the same or constant 0; d is emitted as 0.
fn value(node: &Node, first: u16, bit: u16) -> (usize, u16) {
    let column = usize::from(node.low.max(node.high) - first);
    (column, if node.low == 0 { bit } else { 0 })
}

/// At an output: the block below, with the output's bit.
fn set<const LEN: usize>(nodes: &[Node], first: u16, bit: u16, below: &Block, here: &mut Block) {
    let (below, here) = (below.as_chunks::<LEN>().0, here.as_chunks_mut::<LEN>().0);
    for (node, block) in nodes.iter().zip(here) {
        let (column, bit) = value(node, first, bit);
        *block = below[column].map(|row| row | bit);
    }
}

fn set_long(nodes: &[Node], first: u16, bit: u16, len: usize, below: &Block, here: &mut Block) {
    for (node, block) in nodes.iter().zip(here.chunks_exact_mut(len)) {
        let (column, bit) = value(node, first, bit);
        for (row, &from) in block.iter_mut().zip(&below[column * len..][..len]) {
            *row = from | bit;
        }
    }
}
