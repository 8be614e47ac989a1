//! The evaluation of a stored cascade with unknown inputs, as a safe function.

use crate::exported;

/// 0 and eight values, output 0 first: 0, 1, or 2 for unknown; `rows` are two bytes a row. Or 12, where the cascade is not well formed, and `outputs` as they
/// were.
pub fn known(records: &[u8], rows: &[u8], known: u16, word: u16, outputs: &mut [u8; 8]) -> u8 {
    // SAFETY: pointers and lengths are of slices and an array of their own, and the function is proved to stay within them.
    unsafe {
        exported::cascade_known(
            records.as_ptr(),
            records.len(),
            rows.as_ptr(),
            rows.len(),
            known,
            word,
            outputs,
        )
    }
}
