//! Each refusal of a compiler, with all lent memory as it was.

use super::{accepted, enough, lent, refused, COMPILERS, ROWS_A};
use second::cases;
use second::job::{Answer, Job};
use second::list::listing;
use second::plain;

#[test]
fn d_e2_g_and_h_are_refused() {
    for &(_, compile) in COMPILERS {
        refused(compile, &cases::d(), enough(), 8);
        refused(compile, &cases::e2(), enough(), 6);
        refused(compile, &cases::g(), enough(), 5);
        refused(compile, &cases::h(2056), enough(), 3);
        refused(compile, &cases::h(7), enough(), 3);
        assert_eq!(listing(&cases::d(), compile), "refused 8\n");
    }
}

#[test]
fn i_and_j_lend_too_little() {
    for &(_, compile) in COMPILERS {
        let a = cases::a();
        refused(compile, &a, lent(14, 24, 32), 9);
        for bytes in [0, 15, 16, 30, 31] {
            refused(compile, &a, lent(15, 24, bytes), 11);
        }
        refused(compile, &a, lent(15, 23, 32), 10);
        refused(compile, &a, lent(0, 0, 0), 9);
        refused(compile, &a, lent(15, 0, 0), 10);
        for bytes in [32, 33, 34] {
            let mut memory = lent(15, 24, bytes);
            let past = memory.rows[32..].to_vec();
            assert!(matches!(compile(&a, &mut memory), Answer::Accepted(_)));
            assert_eq!(
                (&memory.rows[..32], &memory.rows[32..]),
                (&ROWS_A[..], &past[..])
            );
        }
    }
}

#[test]
fn numbers_and_bytes_of_any_kind() {
    for &(_, compile) in COMPILERS {
        let a = cases::a();
        let changed = |change: &dyn Fn(&mut Job)| {
            let mut job = a.clone();
            change(&mut job);
            job
        };
        for number in [0, 13, 17, 255, 1 << 32 | 3, u64::MAX - 1, u64::MAX] {
            refused(compile, &changed(&|j| j.inputs = number), enough(), 1);
            refused(compile, &changed(&|j| j.outputs = number), enough(), 1);
            refused(compile, &changed(&|j| j.cell_inputs = number), enough(), 1);
            let limit = if number == 13 { 18 } else { number };
            refused(compile, &changed(&|j| j.cell_outputs = limit), enough(), 1);
        }
        for limit in 1..=16 {
            let (answer, number) = (
                compile(&changed(&|j| j.cell_outputs = limit), &mut enough()),
                8,
            );
            assert_eq!(answer == Answer::Refused(number), limit == 1);
            assert_eq!(matches!(answer, Answer::Accepted(_)), limit > 1);
        }
        let orders: [&[u8]; 6] = [
            &[],
            &[0, 1, 2, 128, 3],
            &[0, 1, 2, 128, 3, 129, 130],
            &[0, 1, 2, 128, 3, 3],
            &[0, 1, 2, 128, 4, 129],
            &[0, 1, 2, 128, 255, 129],
        ];
        for order in orders {
            refused(
                compile,
                &changed(&|j| j.order = order.to_vec()),
                enough(),
                2,
            );
        }
        let records: [[u8; 8]; 11] = [
            [0x10, 0, 0, 0, 1, 0, 0, 0],
            [0, 0x10, 0, 0, 1, 0, 0, 0],
            [1, 0, 3, 0, 1, 0, 0, 0],
            [0, 0, 0, 0x80, 1, 0, 0, 0],
            [0, 0, 0, 0, 4, 0, 0, 0],
            [0, 0, 0, 0, 0, 0x80, 0, 0],
            [0, 0, 0, 0, 3, 2, 0, 0],
            [0, 0, 0, 0, 0, 0, 2, 0],
            [0, 0, 0, 0, 0, 0, 0x81, 0],
            [0, 0, 0, 0, 0, 0, 0, 0x80],
            [0, 0, 0, 0, 0, 0, 1, 1],
        ];
        for record in records {
            // 4 is answered although the records before it are 5, and the order is 6.
            let sheet = [&cases::g().sheet[..], &cases::e2().sheet, &record].concat();
            let job = Job {
                sheet,
                ..cases::e2()
            };
            refused(compile, &job, enough(), 4);
        }
        let sheet = [cases::g().sheet, cases::e2().sheet].concat();
        let job = Job {
            sheet,
            ..cases::e2()
        };
        refused(compile, &job, enough(), 5);
    }
}

/// y1 to y7 copy x1 to x7; y8 is one of the inputs from x8 on, chosen by `selectors` at the bottom.
fn wide(selectors: u32) -> Job {
    let mut sheet = Vec::new();
    let mut force = |mask: u16, values: u16, output: u8, zero: bool| {
        let (mask, values) = (mask.to_le_bytes(), values.to_le_bytes());
        let bit = 1 << output;
        let (zeros, ones) = if zero { (bit, 0) } else { (0, bit) };
        sheet.extend([mask[0], mask[1], values[0], values[1], zeros, ones, 0, 0]);
    };
    for i in 0..7 {
        force(1 << i, 0, i, true);
        force(1 << i, 1 << i, i, false);
    }
    for choice in 0..1u16 << selectors {
        let (mask, values) = (((1 << selectors) - 1) << 10, choice << 10);
        let input = 1 << (7 + choice.min(2));
        force(mask | input, values, 7, true);
        force(mask | input, values | input, 7, false);
    }
    Job {
        inputs: 12,
        outputs: 8,
        cell_inputs: 12,
        cell_outputs: 8,
        order: (0..12).chain(128..136).collect(),
        sheet,
    }
}

#[test]
fn more_than_512_columns_are_refused() {
    for &(_, compile) in COMPILERS {
        let (totals, _) = accepted(compile, &wide(1));
        assert_eq!(totals.widths.iter().max(), Some(&512));
        refused(compile, &wide(2), enough(), 7);
        let widths = plain::widths_before_merges(&wide(2)).unwrap();
        assert_eq!(widths.iter().max(), Some(&1024));
    }
}
