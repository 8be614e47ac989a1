//! The records of a sheet by field: refusals 4 and 5.

use std::ops::Range;

/// The most records of a sheet.
const MAX_RECORDS: usize = 256;

/// The records of a sheet by field, ordinary ones first. `force` has the outputs forced to 0 low and
/// those forced to 1 high; `against` has them exchanged.
pub(super) struct Records {
    /// How many are ordinary; the others are stop records.
    pub ordinary: usize,
    pub count: usize,
    pub mask: [u16; MAX_RECORDS],
    pub value: [u16; MAX_RECORDS],
    pub force: [u16; MAX_RECORDS],
    pub against: [u16; MAX_RECORDS],
}

/// The fields of the records, or none if a record has a bit that refusal 4 forbids.
#[inline(always)]
pub(super) fn split(sheet: &[u8], n: usize, m: usize) -> Option<Records> {
    let count = sheet.len() / 8;
    let mut records = Records {
        ordinary: count,
        count,
        mask: [0; MAX_RECORDS],
        value: [0; MAX_RECORDS],
        force: [0; MAX_RECORDS],
        against: [0; MAX_RECORDS],
    };
    let (inputs, outputs) = ((1u16 << n) - 1, (1u16 << m) - 1);
    let (mut bad, mut marks) = (0, 0);
    for (r, bytes) in sheet.chunks_exact(8).take(MAX_RECORDS).enumerate() {
        let mask = u16::from_le_bytes([bytes[0], bytes[1]]);
        let value = u16::from_le_bytes([bytes[2], bytes[3]]);
        let force = u16::from_le_bytes([bytes[4], bytes[5]]);
        let mark = u16::from_le_bytes([bytes[6], bytes[7]]);
        let against = force.swap_bytes();
        bad |= (mask & !inputs) | (value & !mask) | (force & against);
        bad |= (force | against) & 255 & !outputs;
        marks |= mark;
        records.mask[r] = mask;
        records.value[r] = value;
        records.force[r] = force;
        records.against[r] = against;
    }
    if bad != 0 || marks > 1 {
        return None;
    }
    if marks == 1 {
        ordinary_first(&mut records, sheet);
    }
    Some(records)
}

/// Puts the ordinary records, which stand as in the sheet, before the stop records.
#[inline(never)]
fn ordinary_first(records: &mut Records, sheet: &[u8]) {
    records.ordinary = 0;
    for (r, bytes) in sheet.chunks_exact(8).take(MAX_RECORDS).enumerate() {
        if bytes[6] == 0 {
            records.mask.swap(records.ordinary, r);
            records.value.swap(records.ordinary, r);
            records.force.swap(records.ordinary, r);
            records.against.swap(records.ordinary, r);
            records.ordinary += 1;
        }
    }
}

/// Whether two records of one kind clash.
#[inline(always)]
pub(super) fn conflict(records: &Records) -> bool {
    conflict_among(records, 0..records.ordinary)
        || conflict_among(records, records.ordinary..records.count)
}

/// Two records match a common word exactly when their values agree on the inputs both test.
#[inline(always)]
fn conflict_among(records: &Records, kind: Range<usize>) -> bool {
    for r in kind.start + 1..kind.end {
        let (mask, value, against) = (records.mask[r], records.value[r], records.against[r]);
        let mut hit = 0;
        for s in kind.start..r {
            let differ = (records.value[s] ^ value) & records.mask[s] & mask;
            let clash = records.force[s] & against;
            hit |= u16::from(differ == 0) & u16::from(clash != 0);
        }
        if hit != 0 {
            return true;
        }
    }
    false
}
