//! Walks over node words, as safe functions.

use crate::{exported, Reached, NODE_WORDS};

/// Where a walk from the node at the height ends; bit h - 1 is the value of the variable at height h.
pub fn walk(words: &[u16; NODE_WORDS], bits: u32, height: u8, node: u16) -> u16 {
    // SAFETY: the function is proved to read the array alone, and to write nothing; so are the three below.
    unsafe { exported::cascade_walk(words, bits, height, node) }
}

/// The columns of two nodes at one height are the same.
pub fn same_columns(words: &[u16; NODE_WORDS], height: u8, v: u16, u: u16) -> bool {
    // SAFETY: as above.
    unsafe { exported::cascade_same_columns(words, height, v, u) }
}

/// The columns of two nodes at one height are compatible.
pub fn compatible_columns(words: &[u16; NODE_WORDS], height: u8, v: u16, u: u16) -> bool {
    // SAFETY: as above.
    unsafe { exported::cascade_compatible_columns(words, height, v, u) }
}

/// From the node at the first cut down to the second, with the values of so many inputs between.
pub fn descent(
    words: &[u16; NODE_WORDS],
    order: &[u8],
    cuts: (u8, u8),
    node: u16,
    inputs: u16,
    count: u8,
) -> Reached {
    let (top, bottom) = cuts;
    // SAFETY: as above; pointer and length are of the slice.
    unsafe {
        exported::cascade_descent(
            words,
            order.as_ptr(),
            order.len(),
            top,
            bottom,
            node,
            inputs,
            count,
        )
    }
}
