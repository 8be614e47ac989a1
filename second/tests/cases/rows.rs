//! Rows of two bytes (document 02, §6): two jobs with values above 255, worked out by hand.

use super::{accepted, enough, lent, refused, values, widths, COMPILERS};
use second::cases;
use second::fast;
use second::job::{Answer, Job};
use second::list::listing;
use second::stored;

/// No output is free, so nothing merges. x1 to x9 make up to 512 columns; x10 and x11 change nothing; after x12 y1 is known and
/// x2 to x8 are left, and each output takes one of these away.
const WIDTHS_NINE: [u16; 20] = [
    2, 4, 8, 16, 32, 64, 128, 256, 512, 512, 512, 256, 128, 64, 32, 16, 8, 4, 2, 1,
];

/// K is 11, so there are two cells, and a cut above x10 or below x11 leaves one of 12 inputs. Below x10: 1,024 rows of 9
/// outputs, then 2,048 rows of 8, 25,600 bits. Below x11 it would be 26,624. Columns count as x1 to x9 do.
fn nine_rails_rows() -> Vec<u32> {
    let upper = (0..1_024).map(|address| address >> 1);
    let lower = (0..2_048).map(|address| {
        let (column, x12) = (address >> 2, address & 1);
        let (x1, x9) = (column >> 8, column & 1);
        let y1 = if x12 == 1 { x9 } else { x1 };
        y1 << 7 | column >> 1 & 127
    });
    upper.chain(lower).collect()
}

#[test]
fn nine_rails() {
    for &(name, compile) in COMPILERS {
        let job = cases::nine_rails();
        let (totals, written) = accepted(compile, &job);
        assert_eq!(widths(&totals, 20), WIDTHS_NINE, "{name}");
        assert_eq!((totals.cells, totals.rows, totals.bits), (2, 3_072, 25_600));
        assert_eq!(written.records[4 * 9..4 * 10], [9, 1, 9, 0]);
        assert_eq!(values(&written.rows), nine_rails_rows(), "{name}");
        // Column 511: rows 1,022 and 1,023, the low byte first.
        assert_eq!(written.rows[2 * 1_022..2 * 1_024], [0xFF, 1, 0xFF, 1]);
        assert_eq!(written.rows[2 * 512..2 * 514], [0, 1, 0, 1]);
        let text = listing(&job, compile);
        assert!(text.contains("\n10 512 9\n"));
        let first = text.lines().find(|line| line.starts_with("cell 20 10 "));
        assert!(first.is_some_and(|line| line.ends_with(" 510 510 511 511")));
        let too_few = Job {
            cell_outputs: 8,
            ..job
        };
        refused(compile, &too_few, enough(), 8);
    }
}

/// Nothing merges here either. From below x8 to above x10 the columns are the values of x1 to x8, for y8 may be any of these; then
/// x10 leaves four of them, x11 two.
const WIDTHS_FIFTEEN: [u16; 20] = [
    2, 4, 8, 16, 32, 64, 128, 256, 256, 256, 256, 256, 256, 256, 256, 256, 16, 4, 2, 1,
];

#[test]
fn fifteen_outputs() {
    for &(name, compile) in COMPILERS {
        let job = cases::fifteen_outputs();
        let (totals, written) = accepted(compile, &job);
        assert_eq!(widths(&totals, 20), WIDTHS_FIFTEEN, "{name}");
        // A cut below y7: 512 rows of 7 outputs and 8 rails, then 2,048 rows of y8.
        assert_eq!((totals.cells, totals.rows, totals.bits), (2, 2_560, 9_728));
        assert_eq!(written.records[4 * 15..4 * 16], [134, 1, 8, 0]);
        let (upper, lower) = written.rows.split_at(2 * 512);
        for (address, row) in upper.chunks_exact(2).enumerate() {
            let column = (address >> 1) as u8;
            assert_eq!(row, [column, column >> 1], "{name}");
        }
        for (address, row) in lower.chunks_exact(2).enumerate() {
            let (column, choice) = (address >> 3, address & 7);
            assert_eq!(row, [(column >> (7 - choice) & 1) as u8, 0], "{name}");
        }
        assert!(listing(&job, compile).contains(" 32766 32766 32767 32767\n"));
        for word in 0..4_096u16 {
            let emitted = stored::emit(&written.records, &written.rows, word).expect("well formed");
            let chosen = (word >> 9).reverse_bits() >> 13;
            for (output, value) in emitted.into_iter().enumerate() {
                let input = if output < 7 { output as u16 } else { chosen };
                assert_eq!(value, Some(word >> input & 1 == 1), "{word}");
            }
        }
    }
}

/// With one output less the cut goes above y7: 11,264 bits. Below x10 it would be 11,328.
#[test]
fn fourteen_outputs() {
    for &(_, compile) in COMPILERS {
        let job = Job {
            cell_outputs: 14,
            ..cases::fifteen_outputs()
        };
        let (totals, written) = accepted(compile, &job);
        assert_eq!((totals.cells, totals.rows, totals.bits), (2, 2_560, 11_264));
        assert_eq!(written.records[4 * 14..4 * 15], [133, 1, 8, 0]);
    }
}

/// 11 goes by two bytes a row, and a byte past the last row is kept. Both compilers are asked in case J.
#[test]
fn row_memory_is_counted_in_pairs() {
    let job = cases::fifteen_outputs();
    let (totals, written) = accepted(fast::compile, &job);
    let bytes = 2 * totals.rows;
    for length in [0, totals.rows, totals.rows + 1, bytes - 2, bytes - 1] {
        refused(fast::compile, &job, lent(totals.nodes, 80, length), 11);
    }
    for length in [bytes, bytes + 1, bytes + 2, bytes + 3] {
        let mut memory = lent(totals.nodes, 80, length);
        let past = memory.rows[bytes..].to_vec();
        assert_eq!(fast::compile(&job, &mut memory), Answer::Accepted(totals));
        assert!(memory.rows == [written.rows.clone(), past].concat());
    }
}
