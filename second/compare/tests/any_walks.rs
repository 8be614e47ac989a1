//! Walks, comparisons and descents over any words, at any heights and from any nodes, against the rules of their definitions, word by word.

use proved::{compatible_columns, descent, same_columns, walk, Reached, NODE_WORDS};
use second::generate::Random;

const SEED: u64 = 59;
/// The first number that is no node's.
const PAST: u16 = 10_242;

/// The rules: subtraction stops at 0, and a list has 0 past its end.
mod rules {
    use super::{Reached, NODE_WORDS, PAST};

    fn child(words: &[u16; NODE_WORDS], v: u16, place: usize) -> u16 {
        match v {
            PAST.. => 0,
            _ => words[usize::from(v.saturating_sub(2)) * 3 + place],
        }
    }

    fn low(words: &[u16; NODE_WORDS], v: u16) -> u16 {
        child(words, v, 1)
    }

    fn high(words: &[u16; NODE_WORDS], v: u16) -> u16 {
        child(words, v, 2)
    }

    fn has(bits: u32, place: u8) -> bool {
        place < 32 && bits >> place & 1 == 1
    }

    pub fn walk(words: &[u16; NODE_WORDS], bits: u32, height: u8, v: u16) -> u16 {
        if height == 0 || v < 2 {
            return v;
        }
        let below = height - 1;
        let next = if has(bits, below) {
            high(words, v)
        } else {
            low(words, v)
        };
        walk(words, bits, below, next)
    }

    fn same_nodes(words: &[u16; NODE_WORDS], height: u8, v: u16, u: u16) -> bool {
        if height == 0 || v < 2 || u < 2 {
            return v == u;
        }
        same_nodes(words, height - 1, low(words, v), low(words, u))
            && same_nodes(words, height - 1, high(words, v), high(words, u))
    }

    pub fn same(words: &[u16; NODE_WORDS], height: u8, v: u16, u: u16) -> bool {
        height <= 20 && same_nodes(words, height, v, u)
    }

    fn compatible_nodes(words: &[u16; NODE_WORDS], height: u8, v: u16, u: u16) -> bool {
        let neither_zero = |v: u16, u: u16| v != 0 && u != 0;
        if height == 0 || v < 2 || u < 2 {
            return neither_zero(v, u);
        }
        let lows = (low(words, v), low(words, u));
        let highs = (high(words, v), high(words, u));
        let l = neither_zero(lows.0, lows.1);
        let r = neither_zero(highs.0, highs.1);
        (l || r)
            && (!l || compatible_nodes(words, height - 1, lows.0, lows.1))
            && (!r || compatible_nodes(words, height - 1, highs.0, highs.1))
    }

    pub fn compatible(words: &[u16; NODE_WORDS], height: u8, v: u16, u: u16) -> bool {
        height <= 20 && compatible_nodes(words, height, v, u)
    }

    pub fn descent(
        words: &[u16; NODE_WORDS],
        order: &[u8],
        (top, bottom): (u8, u8),
        node: u16,
        inputs: u16,
        mut count: u8,
    ) -> Reached {
        let (mut node, mut outputs) = (node, 0);
        let heights = if top <= 20 {
            top.saturating_sub(bottom)
        } else {
            0
        };
        for k in (0..usize::from(heights)).rev() {
            if node < 2 {
                break;
            }
            let place = order.len().saturating_sub(usize::from(bottom) + k + 1);
            let variable = order.get(place).copied().unwrap_or(0);
            if variable < 128 {
                count = count.saturating_sub(1);
                let one = has(u32::from(inputs), count);
                node = if one {
                    high(words, node)
                } else {
                    low(words, node)
                };
            } else if low(words, node) == 0 {
                (node, outputs) = (high(words, node), outputs * 2 + 1);
            } else {
                (node, outputs) = (low(words, node), outputs * 2);
            }
        }
        Reached { node, outputs }
    }
}

/// A number: mostly one of these, else any byte.
fn byte(random: &mut Random, often: &[u8]) -> u8 {
    match random.below(4) {
        0 => random.byte(),
        _ => random.pick(often),
    }
}

fn node(random: &mut Random, below: u16) -> u16 {
    match random.below(8) {
        0 => random.pick(&[0, 1, 2, PAST - 1, PAST, PAST + 1, u16::MAX]),
        1 => random.word(),
        _ => random.word() % below,
    }
}

#[derive(Debug, Default)]
struct Seen {
    calls: u64,
    ends_at: [u64; 3],
    same: u64,
    compatible: u64,
    over_20: u64,
    outputs_met: u64,
    met_nothing: u64,
}

/// Compares over words whose children are nodes below a number and, with so many of a hundred, constant 0.
fn compare(below: u16, zeros: usize, comparisons: &[u8]) -> Seen {
    let random = &mut Random::new(78, SEED, u64::from(below) << 8 | zeros as u64);
    let mut seen = Seen::default();
    let mut words = [0; NODE_WORDS];
    for _ in 0..20 {
        words.fill_with(|| match random.percent(zeros) {
            true => 0,
            false => random.word() % below,
        });
        for _ in 0..2_000 {
            let (v, u) = (node(random, below), node(random, below));
            let bits = random.next() as u32;
            let height = byte(random, &[0, 1, 2, 3, 5, 10, 19, 20, 21, 31, 32, 33, 255]);
            let end = walk(&words, bits, height, v);
            assert_eq!(
                end,
                rules::walk(&words, bits, height, v),
                "{height}, {v}, {bits:b}"
            );
            seen.ends_at[usize::from(end.min(2))] += 1;

            let height = random.pick(comparisons);
            let u = if random.percent(10) { v } else { u };
            let same = same_columns(&words, height, v, u);
            assert_eq!(
                same,
                rules::same(&words, height, v, u),
                "{height}, {v}, {u}"
            );
            let may_merge = compatible_columns(&words, height, v, u);
            let by_rule = rules::compatible(&words, height, v, u);
            assert_eq!(may_merge, by_rule, "{height}, {v}, {u}");
            seen.same += u64::from(same);
            seen.compatible += u64::from(may_merge);
            seen.over_20 += u64::from(height > 20);

            let order: Vec<u8> = (0..random.below(26)).map(|_| random.byte()).collect();
            let top = byte(random, &[1, 5, 10, 18, 19, 20, 21, 22]);
            let cuts = (top, byte(random, &[0, 0, 1, 4, 9, 19, 20]));
            let (inputs, count) = (random.word(), byte(random, &[0, 1, 4, 12, 16, 17]));
            let to = descent(&words, &order, cuts, v, inputs, count);
            let by_rule = rules::descent(&words, &order, cuts, v, inputs, count);
            assert_eq!(to, by_rule, "{order:?}, {cuts:?}, {v}, {inputs:b}, {count}");
            seen.outputs_met += u64::from(to.outputs != 0);
            seen.met_nothing += u64::from(to.node == v && to.outputs == 0);
            seen.calls += 4;
        }
    }
    println!("nodes below {below}, {zeros} of 100 are 0: {seen:?}");
    seen
}

#[test]
fn any() {
    // Comparisons follow every pair of paths, so few words let one reach far down.
    let low = [0, 1, 2, 3, 5, 8, 21, 22, 40, 255];
    let high = [0, 1, 4, 12, 19, 20, 21, 255];
    for seen in [
        compare(u16::MAX, 0, &high),
        compare(u16::MAX, 20, &high),
        compare(PAST, 0, &low),
        compare(PAST, 40, &low),
        compare(30, 10, &low),
        compare(4, 20, &low),
    ] {
        assert!(seen.over_20 >= 1_000 && seen.outputs_met >= 500, "{seen:?}");
        assert!(seen.same >= 1_000 && seen.compatible >= 1_000, "{seen:?}");
    }
}

/// Words that let a comparison follow every pair of paths from height 20: each node has two nodes below for its children.
#[test]
fn deepest() {
    let mut words = [0; NODE_WORDS];
    for (node, words) in words.chunks_exact_mut(3).enumerate() {
        let next = (node as u16 + 1) % 5_000 * 2;
        words.copy_from_slice(&[0, 2 + next, 3 + next]);
    }
    // Nodes 5,000 apart have the same children.
    for (v, u) in [(2, 2), (2, 3), (7, 2_000), (4_000, 9_000)] {
        let same = same_columns(&words, 20, v, u);
        assert_eq!(same, rules::same(&words, 20, v, u));
        let may_merge = compatible_columns(&words, 20, v, u);
        assert_eq!(may_merge, rules::compatible(&words, 20, v, u));
        assert!(may_merge && same == (v % 5_000 == u % 5_000));
        assert!(!same_columns(&words, 21, v, v) && !compatible_columns(&words, 21, v, v));
    }
}
