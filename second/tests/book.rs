//! The book on cases K and L, whole and dropped scans, refusals of admission, and damaged stored forms.

use second::book::{well_formed, Book, Call, Said};

const RECORDS: [u8; 24] = [
    0x00, 0, 0, 0, 0x01, 0, 0, 0, 0x02, 1, 2, 0, 0x80, 0, 0, 0, 0x03, 0, 0, 0, 0x81, 1, 0, 0,
];
#[rustfmt::skip]
const ROWS: [u8; 32] = [
    0, 0, 1, 0, 2, 0, 2, 0, 0, 0, 3, 0, 2, 0, 2, 0,
    1, 0, 1, 0, 0, 0, 0, 0, 2, 0, 3, 0, 2, 0, 2, 0,
];

fn admit(records: &[u8], rows: &[u8]) -> Call {
    Call::admit(records.to_vec(), rows.to_vec())
}

fn case_a() -> Call {
    admit(&RECORDS, &ROWS)
}

fn went(block: u8, cell: u8) -> Said {
    Said::Went { block, cell }
}

/// Words for the first two places, bits above 11 set.
fn latch(first: u16, second: u16) -> Call {
    Call::Latch([
        first | 0xF000,
        second | 0xF000,
        0xFFFF,
        0xFFFF,
        0xFFFF,
        0xFFFF,
        0xFFFF,
        0xFFFF,
    ])
}

/// y1 and y2 of table 1, None where free. Bit 0 of the word is x1.
fn table_1(word: u16) -> [Option<bool>; 2] {
    let x = |i: u16| word >> (i - 1) & 1;
    let y1 = match (x(1), x(2), x(3)) {
        (0, 0, 1) | (1, 0, 0) => Some(false),
        (0, 1, 1) | (1, 0, 1) | (1, 1, 0) => Some(true),
        _ => None,
    };
    let y2 = match (x(2), x(3), x(4)) {
        (0, 0, _) | (1, 1, 1) => Some(true),
        (0, 1, _) | (1, 1, 0) => Some(false),
        _ => None,
    };
    [y1, y2]
}

#[test]
fn case_k() {
    let mut book = Book::new(3, 100);
    assert_eq!(book.enter(&case_a()), Said::Accepted);
    let before = book.clone();
    assert_eq!(book.enter(&case_a()), Said::Refused(14));
    assert_eq!(book, before);
    assert_eq!((book.block_count(), book.cell_count()), (1, 2));
}

#[test]
fn case_l() {
    for bytes in [64, 65] {
        let mut book = Book::new(4, bytes);
        assert_eq!(book.enter(&case_a()), Said::Accepted);
        assert_eq!(book.enter(&case_a()), Said::Accepted);
        assert_eq!((book.block_count(), book.cell_count()), (2, 4));
        assert_eq!(book.row_count(), 32);
    }
    for bytes in [32, 33, 62, 63] {
        let mut book = Book::new(4, bytes);
        assert_eq!(book.enter(&case_a()), Said::Accepted);
        assert_eq!(book.enter(&case_a()), Said::Refused(11));
    }
    let mut book = Book::new(4, 31);
    assert_eq!(book.enter(&case_a()), Said::Refused(11));
}

#[test]
fn whole_scans() {
    let mut book = Book::new(4, 64);
    assert_eq!(book.enter(&Call::Step), Said::Idle);
    book.enter(&case_a());
    book.enter(&case_a());
    assert_eq!(book.enter(&Call::Step), Said::Idle);
    for first in 0..16 {
        for second in 0..16 {
            assert_eq!(book.enter(&latch(first, second)), Said::Accepted);
            assert_eq!(book.words(), [Some(first), Some(second)]);
            assert_eq!(book.cells_to_read(), [(0, 0), (0, 1), (1, 0), (1, 1)]);
            assert_eq!(book.outputs(), [[None; 8]; 2]);
            assert_eq!(book.enter(&Call::Step), went(0, 0));
            assert_eq!(book.outputs(), [[None; 8]; 2]);
            assert_eq!(book.enter(&Call::Step), went(0, 1));
            assert!(book.outputs()[0][..2].iter().all(Option::is_some));
            assert_eq!(book.outputs()[1], [None; 8]);
            assert_eq!(book.enter(&Call::Step), went(1, 0));
            assert_eq!(book.enter(&Call::Step), went(1, 1));
            let done = book.clone();
            assert_eq!(book.enter(&Call::Step), Said::Idle);
            assert_eq!(book.enter(&Call::Step), Said::Idle);
            assert_eq!(book, done);
            for (set, word) in book.outputs().iter().zip([first, second]) {
                assert_eq!(set[2..], [None; 6]);
                for (value, wanted) in set.iter().zip(table_1(word)) {
                    assert!(wanted.is_none() || *value == wanted);
                }
            }
        }
    }
}

#[test]
fn outputs_above_the_last_cell() {
    // x0 | y3 y1 with one rail below | x1 y0.
    let records = [
        0, 0, 0, 0, 131, 0, 0, 0, 129, 1, 1, 0, 1, 0, 0, 0, 128, 1, 0, 0,
    ];
    let rows = [0b011, 0, 0b100, 0, 1, 0, 0, 0, 0, 0, 1, 0];
    assert!(well_formed(&records, &rows));
    let mut book = Book::new(255, 12);
    assert_eq!(book.enter(&admit(&records, &rows)), Said::Accepted);
    book.enter(&latch(0b10, 0));
    book.enter(&Call::Step);
    let mut wanted = [None; 8];
    (wanted[3], wanted[1]) = (Some(false), Some(true));
    assert_eq!(book.outputs(), [wanted]);
    book.enter(&Call::Step);
    wanted[0] = Some(true);
    assert_eq!(book.outputs(), [wanted]);
    book.enter(&latch(0b01, 0));
    book.enter(&Call::Step);
    let mut wanted = [None; 8];
    (wanted[3], wanted[1]) = (Some(true), Some(false));
    assert_eq!(book.outputs(), [wanted]);
    book.enter(&Call::Step);
    wanted[0] = Some(true);
    assert_eq!(book.outputs(), [wanted]);
}

#[test]
fn scan_dropped_by_a_latch() {
    let mut book = Book::new(4, 64);
    book.enter(&case_a());
    book.enter(&case_a());
    book.enter(&latch(5, 6));
    for _ in 0..3 {
        book.enter(&Call::Step);
    }
    assert_eq!(book.cells_to_read(), [(1, 1)]);
    assert_eq!(book.enter(&latch(7, 8)), Said::Accepted);
    assert_eq!(book.outputs(), [[None; 8]; 2]);
    assert_eq!(book.words(), [Some(7), Some(8)]);
    assert_eq!(book.enter(&Call::Step), went(0, 0));
}

#[test]
fn scan_dropped_by_an_admission_only_when_accepted() {
    let mut book = Book::new(4, 64);
    book.enter(&case_a());
    book.enter(&latch(5, 6));
    book.enter(&Call::Step);
    book.enter(&admit(&RECORDS, &ROWS[2..]));
    assert_eq!(book.cells_to_read(), [(0, 1)]);
    assert_eq!(book.enter(&Call::Step), went(0, 1));
    assert_ne!(book.outputs(), [[None; 8]]);
    book.enter(&latch(5, 6));
    book.enter(&Call::Step);
    assert_eq!(book.enter(&case_a()), Said::Accepted);
    assert_eq!(book.outputs(), [[None; 8]; 2]);
    assert_eq!(book.enter(&Call::Step), Said::Idle);
    assert!(book.cells_to_read().is_empty());
}

#[test]
fn a_latch_with_no_block() {
    let mut book = Book::new(1, 0);
    assert_eq!(book.enter(&latch(1, 2)), Said::Accepted);
    assert_eq!(book.enter(&Call::Step), Said::Idle);
    assert!(book.outputs().is_empty());
}

#[test]
fn refusals_of_admission_in_their_order() {
    let one_row = admit(&[0x80, 1, 0, 0], &[1, 0]);
    let malformed = admit(&[0x80, 1, 0, 0], &[2, 0]);
    // Eight blocks fill S and the row memory, so that all four cases hold at once.
    let mut book = Book::new(8, 16);
    for _ in 0..8 {
        assert_eq!(book.enter(&one_row), Said::Accepted);
    }
    assert_eq!(book.enter(&malformed), Said::Refused(12));
    assert_eq!(book.enter(&one_row), Said::Refused(13));
    let mut book = Book::new(1, 3);
    assert_eq!(book.enter(&one_row), Said::Accepted);
    assert_eq!(book.enter(&one_row), Said::Refused(14));
    let mut book = Book::new(2, 3);
    assert_eq!(book.enter(&one_row), Said::Accepted);
    assert_eq!(book.enter(&one_row), Said::Refused(11));
}

#[test]
fn usable_rows_bound_the_bank() {
    let mut records: Vec<u8> = (0..12).flat_map(|input| [input, 0, 0, 0]).collect();
    let last = records.len() - 3;
    records[last] = 1;
    let block = admit(&records, &[0; 8192]);
    let mut book = Book::new(255, 100_000);
    for _ in 0..8 {
        assert_eq!(book.enter(&block), Said::Accepted);
    }
    assert_eq!(book.row_count(), 32_768);
    let one_row = admit(&[0x80, 1, 0, 0], &[1, 0]);
    let mut book = Book::new(255, 100_000);
    assert_eq!(book.enter(&one_row), Said::Accepted);
    for _ in 0..7 {
        assert_eq!(book.enter(&block), Said::Accepted);
    }
    assert_eq!(book.enter(&block), Said::Refused(13));

    // Two cells of 8 rails and 4 inputs, 4,096 rows each, below two short ones.
    let mut records = Vec::new();
    for input in 0..12 {
        let cut = u8::from(input % 4 == 3 || input == 0);
        let rails = if input == 0 || input == 11 {
            0
        } else {
            8 * cut
        };
        records.extend([input, cut, rails, 0]);
    }
    let count = 2 + (1 << 3) + 2 * (1 << 12);
    let block = admit(&records, &vec![0; 2 * count]);
    let mut book = Book::new(255, 100_000);
    for _ in 0..3 {
        assert_eq!(book.enter(&block), Said::Accepted);
    }
    assert_eq!(book.enter(&block), Said::Refused(11));
}

#[test]
fn stored_forms_that_are_not_well_formed() {
    assert!(well_formed(&RECORDS, &ROWS));
    assert!(!well_formed(&[], &[]));
    assert!(!well_formed(&RECORDS[..23], &ROWS));
    for length in [0, 15, 16, 30, 31] {
        assert!(!well_formed(&RECORDS, &ROWS[..length]));
    }
    assert!(!well_formed(&RECORDS, &[&ROWS[..], &[0]].concat()));
    // Place, then bytes that make it wrong.
    let wrong: [(usize, &[u8]); 8] = [
        (0, &[12, 127, 136, 255, 1]),
        (1, &[1, 2, 255]),
        (2, &[1, 255]),
        (3, &[1, 255]),
        (10, &[3, 9, 12, 16, 17, 31, 32, 63, 64, 128, 255]),
        (12, &[129]),
        (21, &[0, 2]),
        (22, &[1, 7, 8, 64, 255]),
    ];
    for (place, bytes) in wrong {
        for byte in bytes {
            let mut records = RECORDS;
            records[place] = *byte;
            assert!(!well_formed(&records, &ROWS), "{place} {byte}");
        }
    }
    for place in 0..32 {
        let mut rows = ROWS;
        rows[place] = if place % 2 == 0 { 4 } else { 1 };
        assert!(!well_formed(&RECORDS, &rows));
    }
}
