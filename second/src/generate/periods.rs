//! Periods with phases, right and wrong.

use super::random::Random;

/// A period and a phase.
pub type Period = (u64, u64);

/// Every right one.
#[rustfmt::skip]
pub const RIGHT: [Period; 15] = [
    (1, 0),
    (2, 0), (2, 1),
    (4, 0), (4, 1), (4, 2), (4, 3),
    (8, 0), (8, 1), (8, 2), (8, 3), (8, 4), (8, 5), (8, 6), (8, 7),
];

/// Wrong ones that a text can say: at most 255 each.
#[rustfmt::skip]
pub const WRONG: [Period; 24] = [
    (0, 0), (0, 1), (3, 0), (3, 1), (3, 2), (5, 0), (6, 1), (7, 3), (9, 0), (12, 0), (16, 0), (16, 9), (32, 0), (128, 0), (255, 0), (255, 255),
    (1, 1), (2, 2), (4, 4), (8, 8), (1, 255), (2, 3), (4, 128), (8, 9),
];

/// Wrong ones, of which some would be right by their low bytes alone.
#[rustfmt::skip]
pub const LARGE: [Period; 16] = [
    (256, 0), (257, 0), (258, 1), (264, 7), (1, 256), (2, 257), (8, 263), (65_537, 0), (4, 65_536),
    (1 << 32, 0), (1 << 32 | 1, 0), (1 << 32 | 8, 3), (2, 1 << 32 | 1), (1 << 63 | 4, 2), (u64::MAX, 0), (1, u64::MAX),
];

/// A right one; each period is as likely as the others.
pub fn right_period(random: &mut Random) -> Period {
    let period = random.pick(&[1, 2, 4, 8]);
    (period, random.below(period as usize) as u64)
}
