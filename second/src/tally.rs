//! What lists of calls with periods were examples of, counted; and in any eight latches in a row the whole reads of each block.

use crate::book::{Book, Call, Said};
use std::collections::BTreeMap;

/// A block that was admitted: its cells and its period.
#[derive(Clone, Copy, Debug)]
struct Block {
    cells: usize,
    period: u64,
}

/// The counts of many lists. `start` comes before each list.
#[derive(Clone, Debug, Default)]
pub struct Tally {
    pub lists: u64,
    /// Blocks admitted, by period and phase.
    pub periods: BTreeMap<(u64, u64), u64>,
    /// Admissions accepted with reads left.
    pub in_mid_scan: u64,
    /// Scans dropped by a latch with reads left, by the reads made.
    pub dropped: BTreeMap<usize, u64>,
    /// Latches, with a block held, that found none due.
    pub nothing_due: u64,
    /// Eight latches in a row with scans to their end, whose whole reads were counted; by the number of the first scan.
    pub eights: [u64; 8],
    /// Refusals 14 that hang on this scan alone.
    pub on_one_scan: [u64; 8],
    /// Refusals by number.
    pub refused: BTreeMap<u8, u64>,
    blocks: Vec<Block>,
    /// The cells read of each block in the scan, one after another from its first on; None with no scan.
    read: Option<Vec<usize>>,
    /// For each scan to its end, the last one last: the blocks read whole.
    whole: Vec<Vec<bool>>,
}

impl Tally {
    pub fn start(&mut self) {
        self.lists += 1;
        self.blocks.clear();
        self.read = None;
        self.whole.clear();
    }

    /// Counts a call, with the book as it was before and the answer.
    pub fn add(&mut self, before: &Book, call: &Call, said: Said) {
        match (call, said) {
            (Call::Admit { .. }, Said::Accepted) => self.admitted(before, call),
            (Call::Admit { .. }, Said::Refused(number)) => {
                *self.refused.entry(number).or_default() += 1;
                if number == 14 {
                    self.over_in_one_scan(before, call);
                }
            }
            (Call::Latch(_), Said::Accepted) => self.latched(before),
            (Call::Step, Said::Went { block, cell }) => {
                let read = self.read.as_mut().expect("a scan");
                let count = &mut read[usize::from(block)];
                assert_eq!(*count, usize::from(cell), "cells of a block, top first");
                *count += 1;
            }
            _ => {}
        }
    }

    fn admitted(&mut self, before: &Book, call: &Call) {
        let Call::Admit { period, phase, .. } = call else {
            return;
        };
        *self.periods.entry((*period, *phase)).or_default() += 1;
        self.in_mid_scan += u64::from(!before.cells_to_read().is_empty());
        self.blocks.push(Block {
            cells: cells_of(call),
            period: *period,
        });
        self.read = None;
        self.whole.clear();
    }

    fn over_in_one_scan(&mut self, before: &Book, call: &Call) {
        let Call::Admit { period, phase, .. } = call else {
            return;
        };
        let due = before.due_cells();
        let over = |scan: &usize| {
            let more = match *scan as u64 % period == *phase {
                true => cells_of(call),
                false => 0,
            };
            due[*scan] + more > before.limit()
        };
        let scans: Vec<usize> = (0..8).filter(over).collect();
        assert!(!scans.is_empty(), "14 with room in every scan");
        if let [scan] = scans[..] {
            self.on_one_scan[scan] += 1;
        }
    }

    fn latched(&mut self, before: &Book) {
        let left = before.cells_to_read().len();
        match self.read.take() {
            Some(read) if left > 0 => {
                *self.dropped.entry(read.iter().sum()).or_default() += 1;
                self.whole.clear();
            }
            Some(read) => self.ended(before, &read),
            None => {}
        }
        let number = before.scan_number().map_or(0, |number| (number + 1) % 8);
        let due = before.due_cells()[number];
        self.nothing_due += u64::from(due == 0 && !self.blocks.is_empty());
        self.read = Some(vec![0; self.blocks.len()]);
    }

    /// Every block is read whole exactly 8 divided by its period times in eight scans.
    fn ended(&mut self, before: &Book, read: &[usize]) {
        let whole = read
            .iter()
            .zip(&self.blocks)
            .map(|(&count, block)| count == block.cells);
        self.whole.push(whole.collect());
        let Some(first) = self.whole.len().checked_sub(8) else {
            return;
        };
        if self.blocks.is_empty() {
            return;
        }
        for (place, block) in self.blocks.iter().enumerate() {
            let count = self.whole[first..].iter().filter(|whole| whole[place]);
            assert_eq!(count.count() as u64, 8 / block.period);
        }
        let last = before.scan_number().expect("a scan");
        self.eights[(last + 1) % 8] += 1;
    }

    /// Each kind was seen, of right periods every one.
    pub fn assert_all_seen(&self) {
        assert_eq!(self.periods.len(), 15, "{self:?}");
        let counts = self.eights.iter().chain(&self.on_one_scan);
        let others = [self.in_mid_scan, self.nothing_due];
        assert!(counts.chain(&others).all(|&count| count > 0), "{self:?}");
        for number in [11, 12, 13, 14, 16] {
            assert!(self.refused.contains_key(&number), "{number}");
        }
        assert!((0..6).all(|reads| self.dropped.contains_key(&reads)));
    }
}

fn cells_of(call: &Call) -> usize {
    match call {
        Call::Admit { records, .. } => records.chunks_exact(4).filter(|r| r[1] == 1).count(),
        _ => 0,
    }
}

impl std::fmt::Display for Tally {
    fn fmt(&self, f: &mut std::fmt::Formatter) -> std::fmt::Result {
        writeln!(f, "{} lists; admitted {:?}", self.lists, self.periods)?;
        writeln!(
            f,
            "{} in mid-scan; {} latches with nothing due; dropped after so many reads {:?}",
            self.in_mid_scan, self.nothing_due, self.dropped
        )?;
        writeln!(f, "eight whole scans from each on {:?}", self.eights)?;
        write!(
            f,
            "14 by one scan alone {:?}; refused {:?}",
            self.on_one_scan, self.refused
        )
    }
}
