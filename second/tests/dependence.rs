//! Refusal 6 by dependence (document 02, §1): small written jobs, each with both compilers.

mod written;

use second::cases;
use second::job::Job;
use written::refusal;

/// An ordinary record: tested inputs, their values, outputs forced to 0, outputs forced to 1.
type Line = (u16, u16, u8, u8);

fn written(n: u64, m: u64, order: &[u8], lines: &[Line]) -> Job {
    let ordinary = lines.iter().map(|&(k, v, z, y)| (k, v, z, y, 0));
    written::written(n, m, order, &ordinary.collect::<Vec<_>>())
}

/// One input, y1 above it, for x1 = 0 and x1 = 1 a value of y1 (2 for d).
fn pair(at_0: u8, at_1: u8) -> Job {
    let line = |x: u16, value: u8| (1, x, u8::from(value == 0), u8::from(value == 1));
    written(1, 1, &[128, 0], &[line(0, at_0), line(1, at_1)])
}

#[test]
fn an_input_named_on_both_sides() {
    for value in 0..3 {
        for other in 0..3 {
            let expected = if value == other { 0 } else { 6 };
            assert_eq!(refusal(&pair(value, other)), expected, "{value} {other}");
            // Below its input y1 may depend on it.
            let mut below = pair(value, other);
            below.order = vec![0, 128];
            assert_eq!(refusal(&below), 0, "{value} {other}");
        }
    }
}

/// x1 = 1 and x2 = 1 overlap, and with x1x2 = 00 all words are covered.
#[test]
fn overlapping_records_that_cover() {
    let lines = [(1, 1, 0, 1), (2, 2, 0, 1), (3, 0, 0, 1)];
    for order in [[128, 0, 1], [128, 1, 0], [0, 128, 1], [1, 128, 0]] {
        assert_eq!(refusal(&written(2, 1, &order, &lines)), 0);
        assert_eq!(refusal(&written(2, 1, &order, &lines[..2])), 6);
    }
    // The same for 0, and with doubles.
    let zeros = lines.map(|(mask, values, _, ones)| (mask, values, ones, 0));
    let doubled = [zeros, zeros].concat();
    assert_eq!(refusal(&written(2, 1, &[128, 0, 1], &doubled)), 0);
    assert_eq!(refusal(&written(2, 1, &[128, 0, 1], &zeros[1..])), 6);
}

#[test]
fn a_clash_comes_first() {
    // For x1 = 1 y1 is 0 and 1; for x1 = 0 it is free.
    let lines = [(1, 1, 0, 1), (1, 1, 1, 0)];
    assert_eq!(refusal(&written(1, 1, &[128, 0], &lines)), 5);
    assert_eq!(refusal(&written(1, 1, &[128, 0], &lines[..1])), 6);
    // So is a bit outside of n.
    let outside = [(1, 1, 0, 1), (2, 0, 0, 1)];
    assert_eq!(refusal(&written(1, 1, &[128, 0], &outside)), 4);
}

#[test]
fn an_output_is_judged_by_its_own_values() {
    // Both outputs name x1; y1 is 1 on both sides, y2 copies it.
    let lines = [(1, 0, 2, 1), (1, 1, 0, 3)];
    assert_eq!(refusal(&written(1, 2, &[128, 0, 129], &lines)), 0);
    assert_eq!(refusal(&written(1, 2, &[129, 0, 128], &lines)), 6);
    assert_eq!(refusal(&written(1, 2, &[128, 129, 0], &lines)), 6);
    // Now y1 copies it and y2 does not depend on it.
    let turned = [(1, 0, 1, 2), (1, 1, 0, 3)];
    assert_eq!(refusal(&written(1, 2, &[129, 0, 128], &turned)), 0);
    assert_eq!(refusal(&written(1, 2, &[128, 0, 129], &turned)), 6);
}

/// y1 is x1 and x2 differ, y2 is x3; x4 is named for both, since each word is a record.
#[test]
fn each_place_in_the_order_of_full_rows() {
    let line = |word: u16| {
        let ones = ((word ^ word >> 1) & 1 | (word >> 2 & 1) << 1) as u8;
        (15, word, !ones & 3, ones)
    };
    let lines: Vec<Line> = (0..16).map(line).collect();
    for first in 0..=4 {
        for second in 0..=4 {
            let mut order = vec![0, 1, 2, 3];
            order.insert(first, 128);
            order.insert(second + usize::from(second >= first), 129);
            let expected = if first >= 2 && second >= 3 { 0 } else { 6 };
            let job = written(4, 2, &order, &lines);
            assert_eq!(refusal(&job), expected, "{order:?}");
        }
    }
}

/// An order of twelve inputs with `lowest` at the bottom, and one output just above it.
fn above(lowest: u8) -> Vec<u8> {
    let mut order: Vec<u8> = (0..12).filter(|&input| input != lowest).collect();
    order.extend([128, lowest]);
    order
}

/// The words other than `odd`, as one record for each input: up to it equal to `odd`, there not.
fn all_but(odd: u16, zeros: u8, ones: u8) -> Vec<Line> {
    let record = |input: u16| {
        let mask = (2 << input) - 1;
        (mask, (odd ^ 1 << input) & mask, zeros, ones)
    };
    (0..12).map(record).collect()
}

#[test]
fn one_place_of_4096() {
    for odd in [0, 1, 0x800, 0xFFF, 0x7FF, 0xA5C] {
        for (zeros, ones) in [(0, 1), (1, 0)] {
            let alone = (0xFFF, odd, zeros, ones);
            let rest = all_but(odd, zeros, ones);
            let mut whole = rest.clone();
            whole.push(alone);
            let mut against = rest.clone();
            against.push((0xFFF, odd, ones, zeros));
            for lowest in 0..12 {
                let order = above(lowest);
                let job = |lines: &[Line]| written(12, 1, &order, lines);
                assert_eq!(refusal(&job(&[alone])), 6);
                assert_eq!(refusal(&job(&rest)), 6);
                assert_eq!(refusal(&job(&against)), 6);
                assert_eq!(refusal(&job(&whole)), 0);
            }
        }
    }
}

/// y8 copies input 11 and names no other; seven outputs above it are constant in one record.
#[test]
fn input_11_only() {
    let lines = [(0x800, 0, 0x80, 0), (0x800, 0x800, 0, 0x80), (0, 0, 85, 42)];
    let job = |input_11: usize, output_7: usize| {
        let mut order: Vec<u8> = (128..135).chain(0..11).collect();
        order.insert(7 + input_11, 11);
        order.insert(output_7, 135);
        written(12, 8, &order, &lines)
    };
    for input_11 in [0, 5, 11] {
        for output_7 in [0, 7 + input_11, 8 + input_11, 19] {
            let expected = if output_7 > 7 + input_11 { 0 } else { 6 };
            assert_eq!(refusal(&job(input_11, output_7)), expected);
        }
    }
}

#[test]
fn full_rows_of_table_1() {
    assert_eq!(refusal(&cases::e()), 0);
    assert_eq!(refusal(&cases::e2()), 6);
    // y2 depends on x2, x3 and x4, y1 on x1, x2 and x3.
    let orders: [(&[u8], u8); 4] = [
        (&[1, 2, 3, 129, 0, 128], 0),
        (&[2, 1, 0, 128, 3, 129], 0),
        (&[1, 2, 129, 3, 0, 128], 6),
        (&[1, 3, 2, 128, 129, 0], 6),
    ];
    for (order, expected) in orders {
        let order = order.to_vec();
        let job = Job {
            order,
            ..cases::e()
        };
        assert_eq!(refusal(&job), expected, "{:?}", job.order);
    }
}
