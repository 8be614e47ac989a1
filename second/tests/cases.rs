//! Cases A to J of the scope document, with everything it prints. Case S, rows above 255 and each refusal of a compiler are in the
//! folder beside.

#[path = "cases/refused.rs"]
mod refused;
#[path = "cases/rows.rs"]
mod rows;
#[path = "cases/stop.rs"]
mod stop;

use second::cases::{self, TRUTH};
use second::job::{Answer, Job, Lent, Node, Totals};
use second::list::{listing, split};
use second::{fast, plain};

type Compiler = fn(&Job, &mut Lent) -> Answer;

/// The compilers that are held against the cases; a further one is a further line.
#[rustfmt::skip]
const COMPILERS: &[(&str, Compiler)] = &[
    ("plain", plain::compile),
    ("fast", fast::compile),
];

/// Memory of the given lengths, filled with a pattern.
fn lent(nodes: usize, records: usize, rows: usize) -> Lent {
    let node = |i: usize| Node {
        height: 0x5000 + i as u16,
        low: 0x6000 + i as u16,
        high: 0x7000 + i as u16,
    };
    Lent {
        nodes: (0..nodes).map(node).collect(),
        records: (0..records).map(|i| 0xA5 ^ i as u8).collect(),
        rows: (0..rows).map(|i| 0x5A ^ i as u8).collect(),
    }
}

fn enough() -> Lent {
    lent(10_240, 80, 65_536)
}

/// Refused with this number, and all lent memory as it was.
fn refused(compile: Compiler, job: &Job, lent: Lent, number: u8) {
    let mut after = lent.clone();
    assert_eq!(compile(job, &mut after), Answer::Refused(number), "{job:?}");
    assert!(after == lent, "lent memory changed");
}

/// The values of rows, from their bytes.
fn values(bytes: &[u8]) -> Vec<u32> {
    let pairs = bytes.chunks_exact(2);
    pairs
        .map(|b| u32::from(b[0]) + 256 * u32::from(b[1]))
        .collect()
}

/// Accepted: the totals and the written part; memory past it is as it was.
fn accepted(compile: Compiler, job: &Job) -> (Totals, Lent) {
    let before = enough();
    let mut after = before.clone();
    let Answer::Accepted(totals) = compile(job, &mut after) else {
        panic!("refused: {job:?}");
    };
    let (records, rows) = (4 * job.order.len(), 2 * totals.rows);
    assert!(after.nodes[totals.nodes..] == before.nodes[totals.nodes..]);
    assert!(after.records[records..] == before.records[records..]);
    assert!(after.rows[rows..] == before.rows[rows..]);
    after.nodes.truncate(totals.nodes);
    after.records.truncate(records);
    after.rows.truncate(rows);
    (totals, after)
}

/// The widths at heights t - 1 to 0 of the totals; from t on they hold 0.
fn widths(totals: &Totals, top: usize) -> Vec<u16> {
    assert!(totals.widths[top..].iter().all(|&w| w == 0));
    totals.widths[..top].iter().rev().copied().collect()
}

const LISTING_A: &str = "\
5 2 1
4 3 2
3 4 2
2 3 2
1 2 1
0 1 0
cell 6 3 0 1 2 2 0 3 2 2
cell 3 0 1 1 0 0 2 3 2 2
";

#[rustfmt::skip]
const STORED_A: [u8; 24] = [
    0x00, 0x00, 0x00, 0x00, 0x01, 0x00, 0x00, 0x00, 0x02, 0x01, 0x02, 0x00,
    0x80, 0x00, 0x00, 0x00, 0x03, 0x00, 0x00, 0x00, 0x81, 0x01, 0x00, 0x00,
];

#[rustfmt::skip]
const ROWS_A: [u8; 32] = [
    0, 0, 1, 0, 2, 0, 2, 0, 0, 0, 3, 0, 2, 0, 2, 0,
    1, 0, 1, 0, 0, 0, 0, 0, 2, 0, 3, 0, 2, 0, 2, 0,
];

/// The node table of A, worked out by hand. After the merges x1x2x3 = 000 to 111 have the columns
/// (y1; y2 for x4 = 0, 1) 011, 000, 101, 101, 011, 100, 101, 101.
const NODES_A: [(u16, u16, u16); 15] = [
    (6, 3, 4),   // 2
    (5, 5, 6),   // 3: x1 = 0
    (5, 7, 6),   // 4: x1 = 1
    (4, 8, 9),   // 5: x1x2 = 00
    (4, 10, 10), // 6: 01 and 11
    (4, 8, 11),  // 7: 10
    (3, 12, 0),  // 8: 011
    (3, 13, 0),  // 9: 000
    (3, 0, 14),  // 10: 101
    (3, 0, 13),  // 11: 100
    (2, 15, 15), // 12: y2 is 1 1
    (2, 16, 16), // 13: y2 is 0 0
    (2, 16, 15), // 14: y2 is 0 1
    (1, 0, 1),   // 15: y2 is 1
    (1, 1, 0),   // 16: y2 is 0
];

#[test]
fn a_whole() {
    for &(name, compile) in COMPILERS {
        let job = cases::a();
        assert_eq!(listing(&job, compile), LISTING_A, "{name}");
        let (totals, written) = accepted(compile, &job);
        assert_eq!((totals.nodes, totals.cells, totals.rows), (15, 2, 16));
        assert_eq!(totals.bits, 8 * 2 + 8 * 2);
        assert_eq!(widths(&totals, 6), [2, 3, 4, 3, 2, 1]);
        assert_eq!(written.records, STORED_A);
        assert_eq!(written.rows, ROWS_A);
        let nodes: Vec<_> = written
            .nodes
            .iter()
            .map(|n| (n.height, n.low, n.high))
            .collect();
        assert_eq!(nodes, NODES_A, "{name}");
    }
}

#[test]
fn the_nodes_of_a_have_the_shape_the_document_says() {
    for &(_, compile) in COMPILERS {
        let (totals, written) = accepted(compile, &cases::a());
        let nodes = written.nodes;
        assert!(nodes.windows(2).all(|n| n[0].height >= n[1].height));
        for height in 1..=6u16 {
            let count = nodes.iter().filter(|n| n.height == height).count();
            let width = if height == 6 {
                1
            } else {
                totals.widths[usize::from(height)]
            };
            assert_eq!(count, usize::from(width));
        }
        for node in &nodes {
            for child in [node.low, node.high] {
                // Constant 0 stands for a forbidden value only, constant 1 below height 1 only.
                match child {
                    0 => assert!(matches!(node.height, 3 | 1)),
                    1 => assert_eq!(node.height, 1),
                    _ => assert_eq!(nodes[usize::from(child) - 2].height, node.height - 1),
                }
            }
        }
        for word in 0..16usize {
            allowed_by_walk(&nodes, word);
        }
    }
}

/// A walk by x1x2x3x4 = `word` that takes each output value not forbidden ends at constant 1, and
/// those values are allowed.
fn allowed_by_walk(nodes: &[Node], word: usize) {
    let (mut at, mut shift, mut output) = (2u16, 4, 0);
    while at > 1 {
        let node = nodes[usize::from(at) - 2];
        at = if matches!(node.height, 3 | 1) {
            let truth = TRUTH[output][word];
            output += 1;
            assert!(truth != 0 || node.low != 0);
            assert!(truth != 1 || node.high != 0);
            node.low.max(node.high)
        } else {
            shift -= 1;
            [node.low, node.high][word >> shift & 1]
        };
    }
    assert_eq!(at, 1);
}

#[test]
fn b_cuts_at_two() {
    for &(_, compile) in COMPILERS {
        let (totals, written) = accepted(compile, &cases::b());
        assert_eq!((totals.cells, totals.rows, totals.bits), (2, 16, 32));
        let cuts: Vec<u8> = written.records.chunks(4).map(|r| r[1]).collect();
        assert_eq!(cuts, [0, 0, 0, 1, 0, 1]);
        assert_eq!(written.records[4 * 3..4 * 4], [0x80, 1, 2, 0]);
        // A's cells would have as many bits, but a first cell shorter by one.
        let (a, _) = accepted(compile, &cases::a());
        assert_eq!((a.cells, a.bits), (totals.cells, totals.bits));
        assert!(listing(&cases::b(), compile).contains("\ncell 6 2 0 1 6 6 0 5 6 6\ncell 2 0 "));
    }
}

#[test]
fn c_is_one_cell_of_sixteen_rows() {
    for &(_, compile) in COMPILERS {
        let (totals, written) = accepted(compile, &cases::c());
        assert_eq!((totals.cells, totals.rows, totals.bits), (1, 16, 32));
        assert_eq!(written.rows.len(), 32);
        for (word, row) in values(&written.rows).into_iter().enumerate() {
            assert!(row < 4);
            assert!([2, row >> 1].contains(&TRUTH[0][word].into()));
            assert!([2, row & 1].contains(&TRUTH[1][word].into()));
        }
    }
}

/// Document 02, §1: full rows name every input, but y1 stands above x4 alone and does not depend on it.
#[test]
fn e_compiles_as_a_does() {
    for &(name, compile) in COMPILERS {
        assert!(cases::e().sheet.len() == 16 * 8 && cases::e().sheet != cases::a().sheet);
        assert_eq!(listing(&cases::e(), compile), LISTING_A, "{name}");
        assert_eq!(
            accepted(compile, &cases::e()),
            accepted(compile, &cases::a())
        );
    }
}

#[test]
fn f_empty_sheet() {
    for &(_, compile) in COMPILERS {
        let (totals, written) = accepted(compile, &cases::f());
        assert_eq!(widths(&totals, 2), [1, 1]);
        assert_eq!(written.rows, [0; 4]);
        assert_eq!((totals.nodes, totals.cells, totals.bits), (2, 1, 2));
        assert_eq!(
            listing(&cases::f(), compile),
            "1 1 0\n0 1 0\ncell 2 0 0 0\n"
        );
    }
}

#[test]
fn t_is_the_table_of_document_000_and_its_widths_fall_from_8_to_4() {
    assert_eq!(plain::table(&cases::a()), Ok(TRUTH.concat()));
    assert_eq!(plain::table(&cases::e()), Ok(TRUTH.concat()));
    assert_eq!(plain::table(&cases::e2()), Err(6));
    // The same down another order: y2 first, x4 most significant.
    let order = vec![3, 2, 1, 0, 129, 128];
    let turned = plain::table(&Job {
        order,
        ..cases::a()
    })
    .unwrap();
    for place in 0..16usize {
        let word = usize::from((place as u8).reverse_bits() >> 4);
        assert_eq!(turned[place], TRUTH[1][word]);
        assert_eq!(turned[16 + place], TRUTH[0][word]);
    }
    let before = plain::widths_before_merges(&cases::a()).unwrap();
    assert_eq!(before.iter().max(), Some(&8));
    assert_eq!(before.len(), 6);
    for &(_, compile) in COMPILERS {
        let (totals, _) = accepted(compile, &cases::a());
        assert_eq!(totals.widths.iter().max(), Some(&4));
    }
}

#[test]
fn input_is_split_as_the_document_says() {
    let a = cases::a();
    let bytes = [&[4, 2, 3, 2], &a.order[..], &a.sheet].concat();
    assert_eq!(split(&bytes), a);
    for &(_, compile) in COMPILERS {
        for length in 0..4 {
            assert_eq!(listing(&split(&bytes[..length]), compile), "refused 1\n");
        }
        for length in 4..10 {
            assert_eq!(listing(&split(&bytes[..length]), compile), "refused 2\n");
        }
        assert_eq!(listing(&split(&bytes[..11]), compile), "refused 3\n");
        let long = [&bytes[..10], &[0; 2056]].concat();
        assert_eq!(listing(&split(&long), compile), "refused 3\n");
        assert_eq!(listing(&split(&[255; 4000]), compile), "refused 1\n");
    }
    let cut_short = split(&bytes[..7]);
    assert_eq!(cut_short.order, [0, 1, 2]);
    assert!(cut_short.sheet.is_empty());
}
