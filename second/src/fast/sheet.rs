//! The sheet phase: refusals 1 to 6, or the table of forced outputs.

use super::records::{conflict, split, Records};
use super::{zeroed, MAX_HEIGHT};
use crate::job::Job;
use std::ops::Range;

/// Words of ten heaps. Heap d, from 2^(d + 1) on, looks only at the lowest d bits of a table word's
/// number: its node 1 stands for all their values, nodes 2i and 2i + 1 for the halves of node i,
/// and its leaves for single values. The leaves of the heap for all bits become the table.
const HEAPS: usize = 2048;

/// For each node the places forced to 0 and those forced to 1.
type Heaps = [[u64; 2]; HEAPS];

/// Bit 0 of every byte, then of every second, fourth and eighth.
const STRIDE: [u64; 4] = [
    0x0101_0101_0101_0101,
    0x0001_0001_0001_0001,
    0x0000_0001_0000_0001,
    0x0000_0000_0000_0001,
];

/// The job as read, and for each input word which outputs are forced, stop records laid over
/// ordinary ones.
///
/// A place is (input word, output). A table word holds 8 input words, lowest byte first; a byte has
/// bit i for output i. Input words are numbered down the order, topmost input most significant.
/// An output does not depend on the inputs below it (refusal 6), so only its places where those
/// are 0 are kept; all others are 0 in both planes.
pub struct Table {
    pub inputs: usize,
    pub outputs: usize,
    pub cell_inputs: usize,
    pub cell_outputs: usize,
    order: [u8; MAX_HEIGHT],
    heaps: Box<Heaps>,
    /// Those of the stop records alone; old contents where the sheet has none.
    stop_heaps: Box<Heaps>,
    kept: [u64; 10],
}

impl Default for Table {
    fn default() -> Self {
        Self::new()
    }
}

impl Table {
    pub fn new() -> Self {
        Table {
            inputs: 0,
            outputs: 0,
            cell_inputs: 0,
            cell_outputs: 0,
            order: [0; MAX_HEIGHT],
            heaps: zeroed(),
            stop_heaps: zeroed(),
            kept: [0; 10],
        }
    }

    /// The height of the top variable.
    pub fn top(&self) -> usize {
        self.inputs + self.outputs
    }

    /// The variables, top first.
    pub fn order(&self) -> &[u8] {
        &self.order[..self.inputs + self.outputs]
    }

    /// Words in each plane.
    pub fn words(&self) -> usize {
        1 << self.inputs.saturating_sub(3)
    }

    /// For each table word the places forced to 0 and those forced to 1.
    pub fn forced(&self) -> &[[u64; 2]] {
        &self.heaps[3 * self.words()..4 * self.words()]
    }

    /// The places kept in table word `word`, of all outputs.
    #[inline(always)]
    pub fn kept(&self, word: usize) -> u64 {
        self.kept[(word.trailing_zeros() as usize).min(9)]
    }
}

/// Answers the least of refusals 1 to 6 that applies, or fills `table`. After a refusal the table is
/// of no use to the reduction.
pub fn read(job: &Job, table: &mut Table) -> Result<(), u8> {
    if !(1..=12).contains(&job.inputs)
        || !(1..=8).contains(&job.outputs)
        || !(2..=12).contains(&job.cell_inputs)
        || !(1..=16).contains(&job.cell_outputs)
    {
        return Err(1);
    }
    let (n, m) = (job.inputs as usize, job.outputs as usize);
    table.inputs = n;
    table.outputs = m;
    table.cell_inputs = job.cell_inputs as usize;
    table.cell_outputs = job.cell_outputs as usize;

    // The bit of each input in the number of an input word, and the inputs below each output.
    let mut place = [0u16; 12];
    let mut below = [0usize; 8];
    if job.order.len() != n + m {
        return Err(2);
    }
    let (mut seen_inputs, mut seen_outputs, mut left) = (0u16, 0u16, n);
    for &variable in &job.order {
        let index = usize::from(variable & 127);
        let (seen, limit) = if variable < 128 {
            (&mut seen_inputs, n)
        } else {
            (&mut seen_outputs, m)
        };
        if index >= limit || *seen >> index & 1 == 1 {
            return Err(2);
        }
        *seen |= 1 << index;
        if variable < 128 {
            left -= 1;
            place[index] = 1 << left;
        } else {
            below[index] = left;
        }
    }
    table.order[..n + m].copy_from_slice(&job.order);

    if job.sheet.len() % 8 != 0 || job.sheet.len() > 2048 {
        return Err(3);
    }
    let records = split(&job.sheet, n, m).ok_or(4)?;
    if conflict(&records) {
        return Err(5);
    }

    let map = spread(&place);
    let words = table.words();
    fill(&mut table.heaps, words, &records, 0..records.ordinary, &map);
    if records.ordinary < records.count {
        lay_over(table, &records, &map);
    }
    if depends_below(table, &below) {
        return Err(6);
    }
    keep(table, &below);
    Ok(())
}

/// A mask of inputs as a mask of bits of the word's number: entry x for the low six inputs,
/// 64 + x for the high six.
#[inline(always)]
fn spread(place: &[u16; 12]) -> [u16; 128] {
    let mut map = [0; 128];
    for x in 1..64usize {
        let low = x.trailing_zeros() as usize;
        map[x] = map[x & (x - 1)] | place[low];
        map[64 + x] = map[64 + (x & (x - 1))] | place[6 + low];
    }
    map
}

/// Whether an output depends on an input below it: at two places that differ in that input's bit
/// alone it has different values, that is, they differ in the plane of 0s or in that of 1s.
///
/// The lowest bits come first. An output above an input is above all inputs below that one too, and
/// where it depends on none of these, the places where they are 0 stand for the others.
#[inline(always)]
fn depends_below(table: &Table, below: &[usize; 8]) -> bool {
    // For each bit the outputs above its input, in all bytes.
    let mut above = [0u64; 12];
    for (y, &low) in below.iter().enumerate().take(table.outputs) {
        for above in &mut above[..low] {
            *above |= STRIDE[0] << y;
        }
    }
    let forced = table.forced();
    let mut differ = 0;
    for (bit, &outputs) in above.iter().enumerate() {
        if outputs == 0 {
            break;
        }
        let (mut zeros, mut ones) = (0, 0);
        let places = if bit < 3 {
            for &[zero, one] in forced {
                zeros |= zero ^ zero >> (8 << bit);
                ones |= one ^ one >> (8 << bit);
            }
            STRIDE[bit + 1] * 255
        } else {
            let step = 1 << (bit - 3);
            for pair in forced.chunks_exact(2 * step) {
                zeros |= pair[0][0] ^ pair[step][0];
                ones |= pair[0][1] ^ pair[step][1];
            }
            !0
        };
        differ |= (zeros | ones) & outputs & places;
    }
    differ != 0
}

/// Sets which places are kept: a table word divisible by just 2^z takes entry z, word 0 the last.
/// All others become 0.
#[inline(always)]
fn keep(table: &mut Table, below: &[usize; 8]) {
    for z in 0..10 {
        let mut kept = 0;
        for (y, &low) in below.iter().enumerate().take(table.outputs) {
            if low <= z + 3 {
                kept |= STRIDE[low.min(3)] << y;
            }
        }
        table.kept[z] = kept & low_bytes(table.inputs);
    }
    let words = table.words();
    for word in 0..words {
        let kept = table.kept(word);
        let place = &mut table.heaps[3 * words + word];
        *place = [place[0] & kept, place[1] & kept];
    }
}

/// The bytes of a word that `inputs` inputs use.
#[inline(always)]
pub(super) fn low_bytes(inputs: usize) -> u64 {
    if inputs >= 3 {
        !0
    } else {
        (1 << (8 << inputs)) - 1
    }
}

/// Fills the heaps at all places from the records of one kind. The lowest three bits of an input
/// word's number choose a byte in a table word. Of the bits above, a record's highest tested one
/// chooses the heap, so that those over it need no listing; the record enters at the nodes whose
/// words it matches all, so that those under its lowest tested one need none either.
#[inline(always)]
fn fill(heaps: &mut Heaps, words: usize, records: &Records, kind: Range<usize>, map: &[u16; 128]) {
    const ONES: [u64; 3] = [
        0xff00_ff00_ff00_ff00,
        0xffff_0000_ffff_0000,
        0xffff_ffff_0000_0000,
    ];
    heaps[..4 * words].fill([0; 2]);
    for r in kind {
        let force = records.force[r];
        if force == 0 {
            continue;
        }
        let (mask, value) = (records.mask[r], records.value[r]);
        let mask = usize::from(map[usize::from(mask & 63)] | map[64 + usize::from(mask >> 6)]);
        let value = usize::from(map[usize::from(value & 63)] | map[64 + usize::from(value >> 6)]);
        let mut bytes = !0;
        for (bit, &ones) in ONES.iter().enumerate() {
            if mask >> bit & 1 == 1 {
                bytes &= if value >> bit & 1 == 1 { ones } else { !ones };
            }
        }
        let zero = (u64::from(force & 255) * 0x0101_0101_0101_0101) & bytes;
        let one = (u64::from(force >> 8) * 0x0101_0101_0101_0101) & bytes;
        let high = mask >> 3;
        let depth = usize::BITS - high.leading_zeros();
        let level = high.trailing_zeros().min(depth);
        let block = 1 << (depth - level);
        let first = (2 << depth) + (block | value >> 3 >> level);
        let free = !(high >> level) & (block - 1);
        let mut choice = 0usize;
        loop {
            or(heaps, first + choice, [zero, one]);
            choice = choice.wrapping_sub(free) & free;
            if choice == 0 {
                break;
            }
        }
    }
    let mut leaves = 1;
    while leaves <= words {
        let heap = 2 * leaves;
        for node in 1..leaves {
            let whole = heaps[heap + node];
            or(heaps, heap + 2 * node, whole);
            or(heaps, heap + 2 * node + 1, whole);
        }
        if leaves < words {
            // The next heap looks at one bit more; its leaves start at 6 * leaves.
            for leaf in 0..leaves {
                let whole = heaps[heap + leaves + leaf];
                or(heaps, 6 * leaves + leaf, whole);
                or(heaps, 7 * leaves + leaf, whole);
            }
        }
        leaves *= 2;
    }
}

/// Lays the stop records over the table of the ordinary ones: they decide at the places they force.
/// Neither kind forces a place both ways (refusal 5), so none is forced both ways afterwards.
#[inline(never)]
fn lay_over(table: &mut Table, records: &Records, map: &[u16; 128]) {
    let words = table.words();
    let stops = &mut table.stop_heaps;
    fill(stops, words, records, records.ordinary..records.count, map);
    let leaves = 3 * words..4 * words;
    for (place, &[zero, one]) in table.heaps[leaves.clone()].iter_mut().zip(&stops[leaves]) {
        let left = !(zero | one);
        *place = [place[0] & left | zero, place[1] & left | one];
    }
}

#[inline(always)]
fn or(heaps: &mut Heaps, node: usize, [zero, one]: [u64; 2]) {
    let place = &mut heaps[node % HEAPS];
    *place = [place[0] | zero, place[1] | one];
}
