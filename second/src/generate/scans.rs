//! Lists of calls over blocks with periods: scans to their end, scans that are dropped, admissions in mid-scan, and S at which 14 hangs
//! on one scan.

use super::blocks::StoredBlock;
use super::calls::{cell_count, latch, reads, Slow};
use super::periods::{right_period, RIGHT, WRONG};
use super::random::Random;
use crate::book::{Book, Call};

/// A kind of list.
#[derive(Clone, Copy, Debug, PartialEq, Eq)]
pub enum Scans {
    /// Eight to twenty scans, each stepped to its end; admissions between and in them are refused.
    Whole,
    /// Each scan of the eight is dropped after each number of reads.
    Dropped,
    /// Blocks are admitted while reads are left.
    Admitted,
    /// 14 hangs on one scan of the eight, or S is the least at which it isn't given.
    OneScan,
}

impl Scans {
    pub const ALL: [Scans; 4] = [
        Scans::Whole,
        Scans::Dropped,
        Scans::Admitted,
        Scans::OneScan,
    ];
}

/// S, the row memory's length and the calls, which the book reckons with to know the reads left.
struct List {
    limit: u8,
    memory: usize,
    calls: Vec<Call>,
    book: Book,
}

impl List {
    /// Over row memory that these blocks need, and up to three bytes more.
    fn new(random: &mut Random, limit: usize, blocks: &[Slow]) -> List {
        let limit = limit.clamp(1, 255) as u8;
        let rows: usize = blocks.iter().map(|(block, _)| block.1.len()).sum();
        let memory = rows + random.below(4);
        List {
            limit,
            memory,
            calls: Vec::new(),
            book: Book::new(limit, memory),
        }
    }

    fn enter(&mut self, call: Call) {
        self.book.enter(&call);
        self.calls.push(call);
    }

    fn steps(&mut self, count: usize) {
        (0..count).for_each(|_| self.enter(Call::Step));
    }

    fn admit_all(&mut self, blocks: &[Slow]) {
        blocks.iter().for_each(|block| self.enter(admission(block)));
    }

    fn left(&self) -> usize {
        self.book.cells_to_read().len()
    }
}

fn admission((block, period): &Slow) -> Call {
    Call::admit_every(block.0.clone(), block.1.clone(), *period)
}

/// An admission that is refused with 12 or 16.
fn refused(random: &mut Random, block: &StoredBlock) -> Call {
    match random.below(3) {
        0 => {
            let (records, mut rows) = block.clone();
            rows.truncate(random.below(rows.len()));
            Call::admit_every(records, rows, right_period(random))
        }
        _ => admission(&(block.clone(), random.pick(&WRONG))),
    }
}

/// y1 is x1; and two cells, the first with y1 and a rail, the second with y2, which is x1 and x2.
fn plainest() -> [StoredBlock; 2] {
    let one = (vec![0, 0, 0, 0, 128, 1, 0, 0], vec![0, 0, 1, 0]);
    let records = vec![0, 0, 0, 0, 128, 1, 1, 0, 1, 0, 0, 0, 129, 1, 0, 0];
    let two = (records, vec![0, 0, 3, 0, 0, 0, 0, 0, 0, 0, 1, 0]);
    [one, two]
}

/// Blocks of few cells and rows with right periods.
fn drawn(random: &mut Random, blocks: &[StoredBlock], cells: usize, count: usize) -> Vec<Slow> {
    let few = |block: &&StoredBlock| cell_count(block) <= cells && block.1.len() <= 512;
    let mut small: Vec<StoredBlock> = blocks.iter().filter(few).cloned().collect();
    small.extend(plainest());
    (0..count)
        .map(|_| {
            let block = small[random.below(small.len())].clone();
            (block, right_period(random))
        })
        .collect()
}

fn most(reads: [usize; 8]) -> usize {
    reads.into_iter().max().unwrap_or_default()
}

fn whole(random: &mut Random, blocks: &[StoredBlock]) -> List {
    let count = random.within(1, 8);
    let held = drawn(random, blocks, 6, count);
    let limit = random.pick(&[255, most(reads(&held))]);
    let mut list = List::new(random, limit, &held);
    list.admit_all(&held);
    let chance = random.pick(&[0, 20]);
    for _ in 0..random.within(8, 20) {
        list.enter(latch(random));
        let left = list.left();
        let before = random.within(0, left);
        list.steps(before);
        if random.percent(chance) {
            list.enter(refused(random, &held[0].0));
        }
        list.steps(left - before + random.below(3));
    }
    list
}

fn dropped(random: &mut Random, blocks: &[StoredBlock]) -> List {
    let count = random.within(1, 4);
    let held = drawn(random, blocks, 3, count);
    let mut list = List::new(random, 255, &held);
    list.admit_all(&held);
    let due = reads(&held);
    let ahead: [usize; 8] = std::array::from_fn(|_| random.below(8));
    for round in 0..=most(due) {
        for scan in 0..8 {
            list.enter(latch(random));
            list.steps((round + ahead[scan]) % (due[scan] + 1));
        }
    }
    list
}

fn in_mid_scan(random: &mut Random, blocks: &[StoredBlock]) -> List {
    let count = random.within(2, 8);
    let held = drawn(random, blocks, 4, count);
    let narrow = random.within(1, 12);
    let limit = random.pick(&[255, 255, most(reads(&held)), narrow]);
    let mut list = List::new(random, limit, &held);
    for block in &held {
        list.enter(admission(block));
        for _ in 0..random.pick(&[1, 2, 5, 10]) {
            list.enter(latch(random));
            let left = list.left();
            list.steps(random.within(0, left));
        }
        list.enter(latch(random));
        let left = list.left();
        list.steps(random.below(left.max(1)));
        if random.percent(25) {
            list.enter(refused(random, &block.0));
        }
    }
    list
}

/// Blocks of which all but the last can be held with S, and the last can't by one scan alone; or by none.
fn on_one_scan(random: &mut Random, blocks: &[StoredBlock]) -> (usize, Vec<Slow>) {
    for _ in 0..200 {
        let count = random.within(2, 8);
        let all = drawn(random, blocks, 5, count);
        let mut after = reads(&all);
        after.sort_unstable();
        let before = most(reads(&all[..count - 1]));
        // Below the most, at least what all other scans read.
        let least = after[6].max(before).max(1);
        if least < after[7] {
            let limit = match random.percent(20) {
                true => after[7],
                false => random.within(least, after[7] - 1),
            };
            return (limit, all);
        }
    }
    let [one, two] = plainest();
    (2, vec![(two, (1, 0)), (one, random.pick(&RIGHT[7..]))])
}

fn one_scan(random: &mut Random, blocks: &[StoredBlock]) -> List {
    let (limit, all) = on_one_scan(random, blocks);
    let (last, held) = all.split_last().expect("two blocks at least");
    let mut list = List::new(random, limit, &all);
    list.admit_all(held);
    for _ in 0..random.below(4) {
        list.enter(latch(random));
        list.steps(random.below(6));
    }
    list.enter(admission(last));
    // In other scans it may find room.
    for _ in 0..3 {
        list.enter(latch(random));
        list.steps(random.below(6));
        let period = right_period(random);
        list.enter(admission(&(last.0.clone(), period)));
    }
    for _ in 0..random.below(10) {
        list.enter(latch(random));
        let left = list.left();
        list.steps(random.within(left / 2, left + 1));
    }
    list
}

/// A scan limit S, a row memory length in bytes and a list of calls of this kind over blocks of few cells.
pub fn scans(kind: Scans, seed: u64, index: u64, blocks: &[StoredBlock]) -> (u8, usize, Vec<Call>) {
    let random = &mut Random::new(210 + kind as u64, seed, index);
    let list = match kind {
        Scans::Whole => whole(random, blocks),
        Scans::Dropped => dropped(random, blocks),
        Scans::Admitted => in_mid_scan(random, blocks),
        Scans::OneScan => one_scan(random, blocks),
    };
    (list.limit, list.memory, list.calls)
}
