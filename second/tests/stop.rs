//! Stop records over ordinary ones (document 02, §3): small written jobs, each with both compilers.

mod forced;
mod written;

use forced::forced;
use second::job::{Answer, Job};
use second::{plain, stored};
use written::{made, refusal, written, Line};

const ORDINARY: u8 = 0;
const STOP: u8 = 1;

/// The highest input on top, the outputs at the bottom: a word and its place in a table are the same number.
fn at_the_bottom(n: u64, m: u64, lines: &[Line]) -> Job {
    let inputs = (0..n as u8).rev();
    let order: Vec<u8> = inputs.chain((0..m as u8).map(|y| 128 + y)).collect();
    written(n, m, &order, lines)
}

/// For each output its value at each word, 0 to 2^n - 1, of a job that is accepted. What both cascades emit is allowed.
fn values(n: u64, m: u64, lines: &[Line]) -> Vec<String> {
    let job = at_the_bottom(n, m, lines);
    let (Answer::Accepted(totals), lent) = made(&job) else {
        panic!("refused: {job:?}");
    };
    let table = plain::table(&job).expect("accepted");
    let letter = |&value: &u8| ['0', '1', 'd'][usize::from(value)];
    let line = |values: &[u8]| values.iter().map(letter).collect();
    let lines: Vec<String> = table.chunks(1 << n).map(line).collect();
    let records = &lent.records[..4 * job.order.len()];
    for word in 0..1 << n {
        let emitted =
            stored::emit(records, &lent.rows[..2 * totals.rows], word).expect("well formed");
        for (values, emitted) in lines.iter().zip(emitted) {
            let value = values.as_bytes()[usize::from(word)];
            let emitted = if emitted == Some(true) { b'1' } else { b'0' };
            assert!(value == b'd' || value == emitted, "word {word}: {job:?}");
        }
    }
    lines
}

/// A word in which x1 is bit 0 and x2 bit 1. One line opens for x2, the other closes for x1.
#[test]
fn a_stop_record_decides() {
    let (opens, closes) = ((2, 2, 0, 1), (1, 1, 1, 0));
    let of = |(mask, values, zeros, ones), kind| -> Line { (mask, values, zeros, ones, kind) };
    let (ordinary, stop) = (of(opens, ORDINARY), of(closes, STOP));
    assert_eq!(values(2, 1, &[ordinary, stop]), ["d010"]);
    assert_eq!(values(2, 1, &[stop, ordinary]), ["d010"]);
    // The opening line as the stop record: 1 over 0.
    let (ordinary, stop) = (of(closes, ORDINARY), of(opens, STOP));
    assert_eq!(values(2, 1, &[ordinary, stop]), ["d011"]);
    assert_eq!(values(2, 1, &[stop, ordinary]), ["d011"]);
    // Both of one kind.
    for kind in [ORDINARY, STOP] {
        let lines = [of(opens, kind), of(closes, kind)];
        assert_eq!(refusal(&at_the_bottom(2, 1, &lines)), 5);
    }
}

#[test]
fn the_kinds_are_opposed_at_some_words_or_all() {
    // y1 is 1 by ordinary records; a stop record closes it for x1x2 = 10, for x1 = 1, for all.
    let open = (0, 0, 0, 1, ORDINARY);
    assert_eq!(values(2, 1, &[open, (3, 1, 1, 0, STOP)]), ["1011"]);
    assert_eq!(values(2, 1, &[open, (1, 1, 1, 0, STOP)]), ["1010"]);
    assert_eq!(values(2, 1, &[open, (0, 0, 1, 0, STOP)]), ["0000"]);
    // The same way it changes nothing where the ordinary one matches, and forces where it does not.
    let open = (1, 1, 0, 1, ORDINARY);
    assert_eq!(values(2, 1, &[open, (0, 0, 0, 1, STOP)]), ["1111"]);
    assert_eq!(values(2, 1, &[open, (3, 1, 0, 1, STOP)]), ["d1d1"]);
    // Two stop records that do not meet, each its own way.
    let stops = [(1, 0, 0, 1, STOP), (1, 1, 1, 0, STOP)];
    let lines = [stops[0], (2, 2, 1, 0, ORDINARY), stops[1]];
    assert_eq!(values(2, 1, &lines), ["1010"]);
}

/// All orders of a list.
fn arrangements(lines: &[Line]) -> Vec<Vec<Line>> {
    if lines.is_empty() {
        return vec![Vec::new()];
    }
    let mut all = Vec::new();
    for first in 0..lines.len() {
        let mut rest = lines.to_vec();
        let line = rest.remove(first);
        for mut others in arrangements(&rest) {
            others.insert(0, line);
            all.push(others);
        }
    }
    all
}

#[test]
fn two_ordinary_records_clash_where_a_stop_record_covers_both() {
    let pair = [(1, 1, 0, 1, ORDINARY), (2, 2, 1, 0, ORDINARY)];
    for (zeros, ones) in [(1, 0), (0, 1)] {
        // The words both match, more of them, all.
        for (mask, values) in [(3, 3), (1, 1), (2, 2), (0, 0)] {
            let stop = (mask, values, zeros, ones, STOP);
            for lines in arrangements(&[pair[0], pair[1], stop]) {
                assert_eq!(refusal(&at_the_bottom(2, 1, &lines)), 5);
            }
            // Either alone is not refused.
            for ordinary in pair {
                assert_eq!(refusal(&at_the_bottom(2, 1, &[ordinary, stop])), 0);
            }
        }
    }
    // Covered by two stop records, one for each value of x3.
    let halves = [(4, 0, 1, 0, STOP), (4, 4, 0, 1, STOP)];
    for lines in arrangements(&[pair[0], pair[1], halves[0], halves[1]]) {
        assert_eq!(refusal(&at_the_bottom(3, 1, &lines)), 5);
    }
}

#[test]
fn two_stop_records_clash() {
    let pair = [(1, 1, 0, 1, STOP), (2, 2, 1, 0, STOP)];
    assert_eq!(refusal(&at_the_bottom(2, 1, &pair)), 5);
    for (zeros, ones) in [(1, 0), (0, 1), (0, 0)] {
        for (mask, values) in [(3, 3), (3, 0), (0, 0)] {
            let ordinary = (mask, values, zeros, ones, ORDINARY);
            for lines in arrangements(&[pair[0], pair[1], ordinary]) {
                assert_eq!(refusal(&at_the_bottom(2, 1, &lines)), 5);
            }
        }
    }
    // Apart, or of different outputs, they do not clash.
    let apart = [(3, 1, 0, 1, STOP), (2, 2, 1, 0, STOP)];
    assert_eq!(values(2, 1, &apart), ["d100"]);
    let outputs = [(1, 1, 0, 1, STOP), (2, 2, 2, 0, STOP)];
    assert_eq!(values(2, 2, &outputs), ["d1d1", "dd00"]);
}

#[test]
fn a_stop_record_that_names_nothing_or_another_output() {
    let copies = [(1, 0, 1, 0, ORDINARY), (1, 1, 0, 1, ORDINARY)];
    assert_eq!(values(2, 2, &copies), ["0101", "dddd"]);
    let without = made(&at_the_bottom(2, 2, &copies));
    for nothing in [(0, 0, 0, 0, STOP), (3, 1, 0, 0, STOP), (1, 1, 0, 0, STOP)] {
        for lines in arrangements(&[copies[0], copies[1], nothing]) {
            assert!(made(&at_the_bottom(2, 2, &lines)) == without);
        }
    }
    for lines in arrangements(&[copies[0], copies[1], (0, 0, 2, 0, STOP)]) {
        assert_eq!(values(2, 2, &lines), ["0101", "0000"]);
    }
    // One that names both, under a stop record for one of them.
    let lines = [(0, 0, 0, 3, ORDINARY), (1, 1, 2, 0, STOP)];
    assert_eq!(values(2, 2, &lines), ["1111", "1010"]);
}

/// A job of one record, in order but for what is given.
fn alone(bytes: [u8; 8]) -> Job {
    Job {
        sheet: bytes.to_vec(),
        ..at_the_bottom(2, 2, &[])
    }
}

#[test]
fn bytes_6_and_7() {
    for kind in 0..=255 {
        let expected = if kind <= 1 { 0 } else { 4 };
        assert_eq!(refusal(&alone([1, 0, 1, 0, 1, 2, kind, 0])), expected);
        assert_eq!(refusal(&alone([0, 0, 0, 0, 0, 0, kind, 0])), expected);
    }
    for last in 1..=255 {
        for kind in [0, 1, 2, 255] {
            assert_eq!(refusal(&alone([1, 0, 1, 0, 1, 2, kind, last])), 4);
        }
    }
}

#[test]
fn a_stop_record_is_tested_as_any_other() {
    for kind in [ORDINARY, STOP] {
        let bad = [
            // A value outside the mask, below n and above.
            [1, 0, 3, 0, 1, 0, kind, 0],
            [0, 0, 1, 0, 0, 0, kind, 0],
            [1, 0, 1, 0x80, 1, 0, kind, 0],
            // An output both ways.
            [1, 0, 1, 0, 1, 1, kind, 0],
            [1, 0, 1, 0, 3, 2, kind, 0],
            // A bit outside n.
            [4, 0, 0, 0, 1, 0, kind, 0],
            [4, 0, 4, 0, 1, 0, kind, 0],
            [0, 0x10, 0, 0, 1, 0, kind, 0],
            // A bit outside m.
            [1, 0, 1, 0, 4, 0, kind, 0],
            [1, 0, 1, 0, 0, 0x80, kind, 0],
        ];
        for bytes in bad {
            assert_eq!(refusal(&alone(bytes)), 4, "{bytes:?}");
        }
    }
}

#[test]
fn a_stop_record_hides_dependence() {
    // y1 copies x1 by ordinary records and stands above it.
    let copies = [(1, 0, 1, 0, ORDINARY), (1, 1, 0, 1, ORDINARY)];
    let job = |order: &[u8], stops: &[Line]| written(2, 1, order, &[&copies[..], stops].concat());
    assert_eq!(refusal(&job(&[1, 128, 0], &[])), 6);
    assert_eq!(refusal(&job(&[1, 128, 0], &[(0, 0, 1, 0, STOP)])), 0);
    // It need only decide where the values differ: for x1 = 0 the other way, or for x1 = 1.
    assert_eq!(refusal(&job(&[1, 128, 0], &[(1, 0, 0, 1, STOP)])), 0);
    assert_eq!(refusal(&job(&[1, 128, 0], &[(1, 1, 1, 0, STOP)])), 0);
    // For x2 = 1 alone y1 copies x1 still where x2 = 0.
    assert_eq!(refusal(&job(&[1, 128, 0], &[(2, 2, 1, 0, STOP)])), 6);
    // Both halves by x2: it depends on x2 now, or not.
    let (low, high) = ((2, 0, 1, 0, STOP), (2, 2, 0, 1, STOP));
    assert_eq!(refusal(&job(&[1, 128, 0], &[low, high])), 0);
    assert_eq!(refusal(&job(&[0, 128, 1], &[low, high])), 6);
    assert_eq!(refusal(&job(&[128, 0, 1], &[low, (2, 2, 1, 0, STOP)])), 0);
}

#[test]
fn a_stop_record_makes_dependence() {
    let order = [1, 128, 0];
    let constant = (0, 0, 0, 1, ORDINARY);
    let job = |lines: &[Line]| written(2, 1, &order, lines);
    assert_eq!(refusal(&job(&[constant])), 0);
    // Against what is forced, and where all is free.
    assert_eq!(refusal(&job(&[constant, (1, 1, 1, 0, STOP)])), 6);
    assert_eq!(refusal(&job(&[(1, 1, 1, 0, STOP)])), 6);
    // It names x1 and makes none: the same value as on the other side, or both sides the same.
    assert_eq!(refusal(&job(&[constant, (1, 1, 0, 1, STOP)])), 0);
    let sides = [(1, 0, 1, 0, STOP), (1, 1, 1, 0, STOP)];
    assert_eq!(refusal(&job(&[constant, sides[0], sides[1]])), 0);
    assert_eq!(refusal(&job(&[sides[0], sides[1]])), 0);
    // One side by each kind: 1 by the stop record for x1 = 0, by the ordinary one for x1 = 1.
    let lines = [(1, 1, 0, 1, ORDINARY), (1, 0, 0, 1, STOP)];
    assert_eq!(refusal(&job(&lines)), 0);
    // It tests x1 and names y2 alone, which stands below.
    let order = [1, 128, 0, 129];
    let lines = [(0, 0, 0, 3, ORDINARY), (1, 1, 2, 0, STOP)];
    assert_eq!(refusal(&written(2, 2, &order, &lines)), 0);
}

/// One word of 4,096: a stop record there against a constant, with the output just above each input.
#[test]
fn one_place_of_4096() {
    for lowest in 0..12 {
        let mut order: Vec<u8> = (0..12).filter(|&input| input != lowest).collect();
        order.extend([128, lowest]);
        let job = |lines: &[Line]| written(12, 1, &order, lines);
        for odd in [0, 1, 0x800, 0xFFF, 0xA5C] {
            let (constant, stop) = ((0, 0, 0, 1, ORDINARY), (0xFFF, odd, 1, 0, STOP));
            assert_eq!(refusal(&job(&[constant, stop])), 6);
            // Hidden by the other side of the lowest input.
            let other = (0xFFF, odd ^ 1 << lowest, 1, 0, STOP);
            assert_eq!(refusal(&job(&[constant, stop, other])), 0);
            // An ordinary record for one word under a stop record for all.
            let ordinary = (0xFFF, odd, 1, 0, ORDINARY);
            assert_eq!(refusal(&job(&[ordinary, (0, 0, 0, 1, STOP)])), 0);
            assert_eq!(refusal(&job(&[ordinary])), 6);
        }
    }
}

#[test]
fn the_lowest_refusal_wins() {
    let order = [128, 0];
    let makes = (1, 1, 0, 1, STOP);
    let against = (1, 1, 1, 0, STOP);
    let marked = (0, 0, 0, 0, 2);
    let outside = (2, 0, 0, 1, STOP);
    let job = |lines: &[Line]| refusal(&written(1, 1, &order, lines));
    assert_eq!(job(&[makes]), 6);
    assert_eq!(job(&[makes, against]), 5);
    for bad in [marked, outside] {
        assert_eq!(job(&[makes, bad]), 4);
        assert_eq!(job(&[makes, against, bad]), 4);
        assert_eq!(job(&[bad, against, makes]), 4);
    }
    // Opposed kinds are no clash, so 6 is next.
    let (ordinary, constant) = ((1, 1, 1, 0, ORDINARY), (0, 0, 1, 0, ORDINARY));
    assert_eq!(job(&[makes, ordinary]), 6);
    assert_eq!(job(&[makes, constant]), 6);
    // 1, 2 and 3 come before.
    let mut bad = written(1, 1, &order, &[makes, against, marked]);
    bad.sheet.push(0);
    assert_eq!(refusal(&bad), 3);
    bad.order = vec![128, 128];
    assert_eq!(refusal(&bad), 2);
    bad.cell_inputs = 1;
    assert_eq!(refusal(&bad), 1);
}

#[test]
fn the_place_of_a_record_does_not_matter() {
    let lines = [
        (1, 1, 1, 2, ORDINARY),
        (2, 2, 0, 3, STOP),
        (3, 0, 2, 1, ORDINARY),
        (7, 4, 1, 0, STOP),
        (0, 0, 0, 0, STOP),
    ];
    // The fourth is opposed to the third; one more stop record clashes with the second.
    let job = |lines: &[Line]| made(&at_the_bottom(3, 2, lines));
    let sheets = [
        lines[..].to_vec(),
        [&lines[..4], &[(7, 6, 1, 0, STOP)]].concat(),
    ];
    for (sheet, refused) in sheets.iter().zip([false, true]) {
        let first = job(sheet);
        assert_eq!(first.0 == Answer::Refused(5), refused, "{:?}", first.0);
        for moved in arrangements(sheet) {
            assert!(job(&moved) == first, "{moved:?}");
        }
    }
}

/// All sheets of three records of one input and one output, and the output above and below.
#[test]
fn every_small_sheet() {
    let mut all = Vec::new();
    for (mask, values) in [(0, 0), (1, 0), (1, 1)] {
        for (zeros, ones) in [(0, 0), (1, 0), (0, 1)] {
            all.extend([ORDINARY, STOP].map(|kind| (mask, values, zeros, ones, kind)));
        }
    }
    let clash = |one: &Line, other: &Line| {
        one.4 == other.4 && (one.1 ^ other.1) & one.0 & other.0 == 0 && one.2 & other.3 != 0
    };
    let mut seen = [0; 7];
    for place in 0..all.len().pow(3) {
        let lines = [place, place / 18, place / 324].map(|at| all[at % 18]);
        let clashes = lines.iter().any(|a| lines.iter().any(|b| clash(a, b)));
        for order in [[0, 128], [128, 0]] {
            let job = written(1, 1, &order, &lines);
            let depends = forced(&job.sheet, 0) != forced(&job.sheet, 1);
            let expected = match (clashes, depends && order[0] == 128) {
                (true, _) => 5,
                (_, true) => 6,
                _ => 0,
            };
            assert_eq!(refusal(&job), expected, "{lines:?}");
            seen[usize::from(expected)] += 1;
        }
    }
    assert!(
        [0, 5, 6].iter().all(|&number| seen[number] > 2_000),
        "{seen:?}"
    );
}
