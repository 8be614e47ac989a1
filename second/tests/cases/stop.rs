//! Case S, the example of document 02, §3, worked out by hand, and the same with ordinary lines alone.

use super::{accepted, enough, refused, widths, COMPILERS};
use second::cases;
use second::list::listing;
use second::plain;

/// y1 for x1x2 = 00, 01, 10, 11: free, 1, 0, and for 11 the stop record's 0 over the 1. At height 2 the columns of x1 = 0 and 1
/// are d1 and 00: 0 stands against 1 for x2 = 1, so nothing merges. At height 1 they are d, 1 and 0, numbered so, with 2, 1 and
/// 1 edges: column 1 opens and d joins it, then 0 is left. So y1 is 1 1 0 0, and the widths are 2, 2 and 1. One cell with
/// inputs x1, x2 and output y1 is within K 3 and L 2, and no list has fewer: 4 rows, 4 bits.
const LISTING_S: &str = "2 2 1\n1 2 1\n0 1 0\ncell 3 0 1 1 0 0\n";

/// Two nodes at each of the heights 2 and 1: y1 = 1 with x1 = 0 first, then y1 = 0.
const NODES_S: [(u16, u16, u16); 5] = [
    (3, 3, 4), // 2
    (2, 5, 5), // 3: x1 = 0
    (2, 6, 6), // 4: x1 = 1
    (1, 0, 1), // 5: y1 is 1
    (1, 1, 0), // 6: y1 is 0
];

#[test]
fn s_whole() {
    assert_eq!(plain::table(&cases::s()), Ok(vec![2, 1, 0, 0]));
    for &(name, compile) in COMPILERS {
        let job = cases::s();
        assert_eq!(listing(&job, compile), LISTING_S, "{name}");
        let (totals, written) = accepted(compile, &job);
        assert_eq!((totals.nodes, totals.cells, totals.rows), (5, 1, 4));
        assert_eq!(totals.bits, 4);
        assert_eq!(widths(&totals, 3), [2, 2, 1]);
        assert_eq!(written.records, [0, 0, 0, 0, 1, 0, 0, 0, 0x80, 1, 0, 0]);
        assert_eq!(written.rows, [1, 0, 1, 0, 0, 0, 0, 0]);
        let nodes = written.nodes.iter().map(|n| (n.height, n.low, n.high));
        assert!(nodes.eq(NODES_S), "{name}");
    }
}

#[test]
fn s_same_is_refused() {
    for &(_, compile) in COMPILERS {
        refused(compile, &cases::s_same(), enough(), 5);
    }
}
