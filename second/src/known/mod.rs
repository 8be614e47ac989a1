//! Document 02, §5: what a stored cascade emits for certain while some inputs are unknown. `plain` goes through the fillings one by
//! one, `fillings` does so fast, `sets` carries the set of rail words that may occur from cell to cell (`fused` while it tests), and `two_rails` says what
//! remains of it where each rail is three-valued by itself, as document 003 has it.
//!
//! All take records, rows, the mask of known inputs and a word with their values. Bits of the word at unknown inputs, bits above 11
//! of either, and bits of inputs that the cascade lacks have no effect.

mod cells;
mod fillings;
mod plain;
mod sets;
mod two_rails;

pub use fillings::fillings;
pub use plain::{plain, Runs};
pub use sets::{fused, sets, sets_with, Mistake};
pub use two_rails::two_rails;

/// The value of an output that is 0 for some filling and 1 for another, or that the cascade lacks.
pub const UNKNOWN: u8 = 2;

/// 0, 1 or `UNKNOWN` for each output, output 0 first; or the refusal, which is 12 and no other.
pub type Values = Result<[u8; 8], u8>;

/// The numbers that have no bit outside `free`, counted up from 0.
pub fn submasks(free: u16) -> impl Iterator<Item = u16> {
    let after = move |now: &u16| Some((now | !free).wrapping_add(1) & free).filter(|&s| s != 0);
    std::iter::successors(Some(0), after)
}
