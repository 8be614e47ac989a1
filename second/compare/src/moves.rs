//! The moves between one-byte rows and two-byte rows, as safe functions.

use crate::exported;

/// An exported move: of records and rows to two memories, each a pointer and a length.
type Move =
    unsafe extern "C" fn(*const u8, usize, *const u8, usize, *mut u8, usize, *mut u8, usize) -> u8;

fn run(
    exported: Move,
    records: &[u8],
    rows: &[u8],
    to_records: &mut [u8],
    to_rows: &mut [u8],
) -> u8 {
    // SAFETY: pointers and lengths are of slices of their own, and the functions are proved to stay within them.
    unsafe {
        exported(
            records.as_ptr(),
            records.len(),
            rows.as_ptr(),
            rows.len(),
            to_records.as_mut_ptr(),
            to_records.len(),
            to_rows.as_mut_ptr(),
            to_rows.len(),
        )
    }
}

/// To two-byte rows. 0, with records and rows at the front of the two memories and their rest kept; or 12, 10 or 11, and both as they
/// were.
pub fn widen(records: &[u8], rows: &[u8], to_records: &mut [u8], to_rows: &mut [u8]) -> u8 {
    run(exported::cascade_widen, records, rows, to_records, to_rows)
}

/// Back to one-byte rows: the same, with 15 after 11.
pub fn narrow(records: &[u8], rows: &[u8], to_records: &mut [u8], to_rows: &mut [u8]) -> u8 {
    run(exported::cascade_narrow, records, rows, to_records, to_rows)
}
