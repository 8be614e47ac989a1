//! What newcomers write: mistakes of a bank, for tests only.

use super::{Due, SCANS};
use crate::stored::ROW_BYTES;

/// A mistake that can be switched on.
#[derive(Clone, Copy, Debug, PartialEq, Eq)]
pub enum Mistake {
    None,
    /// Admission: 14 is judged by the new block's cells alone.
    ReadsPerBlock,
    /// Admission and step: 11 is judged as if a row took one byte. Rows for which no room is left are dropped, and read as 0.
    MemoryInRows,
    /// Step: a row's high byte first.
    HighByteFirst,
    /// Step: a row's low byte alone.
    LowByteAlone,
    /// Admission: 14 is judged by the cells of all blocks, due together or not.
    CellsInAll,
    /// Admission: 14 is judged by the new block's first due scan alone.
    FirstDueScan,
    /// Admission: 16 is judged by the lowest bytes of period and phase.
    PeriodAsByte,
    /// Admission: 16 is tested after 13.
    PeriodAfterPlaces,
    /// Admission: scans are numbered on.
    AdmissionNumbersOn,
    /// Latch: each scan has number 0.
    NumberStays,
    /// Latch: scans are numbered 0 to 3 and round again.
    RoundAtFour,
    /// Latch: a scan that is dropped leaves its number to the next one.
    DroppedNotCounted,
    /// Latch: outputs of blocks that aren't due are cleared, too.
    LatchClearsAll,
    /// Latch: words of blocks that aren't due are taken, too.
    LatchTakesAll,
    /// Latch and step: a due block's outputs are cleared by the read of its first cell.
    ClearedWhenRead,
}

impl Mistake {
    /// The bytes that a row is thought to need.
    pub(super) fn bytes_a_row(self) -> usize {
        match self {
            Mistake::MemoryInRows => 1,
            _ => ROW_BYTES,
        }
    }

    /// Period and phase as they are read.
    pub(super) fn due(self, period: u64, phase: u64) -> Option<Due> {
        match self {
            Mistake::PeriodAsByte => Due::of(period & 0xFF, phase & 0xFF),
            _ => Due::of(period, phase),
        }
    }

    /// The number of the next scan.
    pub(super) fn next_number(self, number: u8, running: bool) -> u8 {
        match self {
            Mistake::NumberStays => 0,
            Mistake::RoundAtFour => (number + 1) % 4,
            Mistake::DroppedNotCounted if running => number,
            _ => (number + 1) % SCANS,
        }
    }
}
