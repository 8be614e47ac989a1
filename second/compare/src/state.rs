//! A bank, its scan state and row memory as the bytes that the exported functions are lent. A row is two of them.

use crate::{exported, StepNumbers, BANK_BYTES, SCAN_BYTES};
use second::bank::{Bank, Scan};

#[derive(Clone, Debug, PartialEq, Eq)]
pub struct State {
    pub bank: [u8; BANK_BYTES],
    pub scan: [u8; SCAN_BYTES],
    pub rows: Vec<u8>,
}

/// The bytes of a bank of the second one.
pub fn bank_bytes(bank: &Bank) -> [u8; BANK_BYTES] {
    let mut bytes = [0; BANK_BYTES];
    bytes[..2].copy_from_slice(&bank.limit.to_le_bytes());
    bytes[2] = bank.count;
    bytes[3..11].copy_from_slice(&bank.lengths);
    bytes[11..651].copy_from_slice(bank.records.as_flattened());
    bytes[651..659].copy_from_slice(&bank.periods);
    bytes[659..].copy_from_slice(&bank.phases);
    bytes
}

/// The bytes of a scan state of the second one.
pub fn scan_bytes(scan: &Scan) -> [u8; SCAN_BYTES] {
    let mut bytes = [0; SCAN_BYTES];
    bytes[0] = u8::from(scan.running);
    bytes[1] = scan.block;
    bytes[2] = scan.cell;
    bytes[3..5].copy_from_slice(&scan.rail.to_le_bytes());
    for (to, word) in bytes[5..21].chunks_exact_mut(2).zip(scan.words) {
        to.copy_from_slice(&word.to_le_bytes());
    }
    bytes[21..85].copy_from_slice(scan.outputs.as_flattened());
    bytes[85] = scan.number;
    bytes
}

impl State {
    /// A bank and a scan state of the second one.
    pub fn of(bank: &Bank, scan: &Scan, rows: Vec<u8>) -> State {
        State {
            bank: bank_bytes(bank),
            scan: scan_bytes(scan),
            rows,
        }
    }

    /// The refusal of a bank made with S over what the state holds; 0 where it is made.
    pub fn make(&mut self, limit: usize) -> u8 {
        // SAFETY: as in `admit`.
        unsafe { exported::cascade_bank_new(limit, &mut self.bank, &mut self.scan) }
    }

    /// The older admission.
    pub fn admit(&mut self, records: &[u8], bytes: &[u8]) -> u8 {
        // SAFETY: pointers and lengths are of arrays and slices of their own, of the lengths that the function takes, and it is proved to
        // stay within them.
        unsafe {
            exported::cascade_admit(
                &mut self.bank,
                &mut self.scan,
                records.as_ptr(),
                records.len(),
                bytes.as_ptr(),
                bytes.len(),
                self.rows.as_mut_ptr(),
                self.rows.len(),
            )
        }
    }

    pub fn admit_every(&mut self, records: &[u8], bytes: &[u8], period: usize, phase: usize) -> u8 {
        // SAFETY: as in `admit`.
        unsafe {
            exported::cascade_admit_every(
                &mut self.bank,
                &mut self.scan,
                records.as_ptr(),
                records.len(),
                bytes.as_ptr(),
                bytes.len(),
                period,
                phase,
                self.rows.as_mut_ptr(),
                self.rows.len(),
            )
        }
    }

    pub fn latch(&mut self, words: &[u16; 8]) -> u8 {
        // SAFETY: as in `admit`.
        unsafe { exported::cascade_latch(&self.bank, &mut self.scan, words) }
    }

    pub fn step(&mut self) -> StepNumbers {
        // SAFETY: as in `admit`.
        unsafe {
            exported::cascade_step(
                &self.bank,
                &mut self.scan,
                self.rows.as_ptr(),
                self.rows.len(),
            )
        }
    }
}
