//! The bank: cases K and L, whole scans, the order of refusals. Damaged states are in the folder beside.

use second::bank::{admit, admit_with, latch, new_bank, step, Bank, Handed, Mistake, Scan, Step};
use second::stored::{emit, rail_words};

#[path = "bank_cases/damage.rs"]
mod damage;

const A_RECORDS: [u8; 24] = [
    0x00, 0, 0, 0, 0x01, 0, 0, 0, 0x02, 1, 2, 0, 0x80, 0, 0, 0, 0x03, 0, 0, 0, 0x81, 1, 0, 0,
];
#[rustfmt::skip]
const A_ROWS: [u8; 32] = [
    0, 0, 1, 0, 2, 0, 2, 0, 0, 0, 3, 0, 2, 0, 2, 0,
    1, 0, 1, 0, 0, 0, 0, 0, 2, 0, 3, 0, 2, 0, 2, 0,
];
/// A block of one cell with one row.
const ONE: ([u8; 4], [u8; 2]) = ([128, 1, 0, 0], [1, 0]);

/// Table 1 of document 000, x1 most significant: y1 then y2, `d` for free.
const TABLE: [&str; 16] = [
    "d1", "d1", "00", "00", "dd", "dd", "10", "11", "01", "01", "10", "10", "1d", "1d", "d0", "d1",
];

fn went(block: u8, cell: u8) -> Step {
    Step::Went { block, cell }
}

/// Twelve inputs in one cell: 4,096 rows, all 0.
fn wide() -> (Vec<u8>, Vec<u8>) {
    let records = (0..12).flat_map(|v| [v, u8::from(v == 11), 0, 0]);
    (records.collect(), vec![0; 2 * 4096])
}

/// Two cells, the second of eight rails and four inputs: 256 + 4,096 rows.
fn wider() -> (Vec<u8>, Vec<u8>) {
    let mut records = wide().0;
    (records[4 * 7 + 1], records[4 * 7 + 2]) = (1, 8);
    (records, vec![0; 2 * (256 + 4096)])
}

/// A bank with the given S that holds case A's block twice, and its row memory.
fn two(limit: u64) -> (Bank, Scan, Vec<u8>) {
    let (mut bank, mut scan) = new_bank(limit).unwrap();
    let mut rows = vec![0; 64];
    for _ in 0..2 {
        let answer = admit(&mut bank, &mut scan, &mut rows, &A_RECORDS, &A_ROWS);
        assert_eq!(answer, Ok(()));
    }
    (bank, scan, rows)
}

/// The answer of an admission, which must change nothing if it is a refusal.
fn admitted(
    (bank, scan, rows): &mut (Bank, Scan, Vec<u8>),
    records: &[u8],
    new_rows: &[u8],
) -> Result<(), u8> {
    let before = (bank.clone(), scan.clone(), rows.clone());
    let answer = admit(bank, scan, rows, records, new_rows);
    if answer.is_err() {
        assert_eq!(before, (bank.clone(), scan.clone(), rows.clone()));
    }
    answer
}

fn started(limit: u64, length: usize) -> (Bank, Scan, Vec<u8>) {
    let (bank, scan) = new_bank(limit).unwrap();
    (bank, scan, vec![7; length])
}

#[test]
fn making_a_bank() {
    for limit in [0, 256, 65_536, 65_537, 1 << 32 | 1, u64::MAX] {
        assert_eq!(new_bank(limit), Err(1));
    }
    let (mut bank, mut scan) = new_bank(255).unwrap();
    assert_eq!((bank.limit, bank.count, scan.running), (255, 0, false));
    assert_eq!((bank.lengths, bank.records), ([0; 8], [[0; 80]; 8]));
    assert_eq!((bank.periods, bank.phases), ([0; 8], [0; 8]));
    assert_eq!((scan.words, scan.outputs), ([0; 8], [[2; 8]; 8]));
    assert_eq!(scan.number, 7);
    // With no block a latch leaves no reads, and the state as new but for the scan's number.
    let fresh = scan.clone();
    assert_eq!(step(&bank, &mut scan, &[]), Step::Idle);
    for number in [0, 1, 2, 3, 4, 5, 6, 7, 0, 1] {
        assert_eq!(latch(&bank, &mut scan, [0xffff; 8]), Ok(()));
        assert_eq!(step(&bank, &mut scan, &[]), Step::Idle);
        let fresh = fresh.clone();
        assert_eq!(scan, Scan { number, ..fresh });
    }
    assert_eq!(
        admit(&mut bank, &mut scan, &mut [0], &ONE.0, &ONE.1),
        Err(11)
    );
    assert_eq!(
        admit(&mut bank, &mut scan, &mut [0; 2], &ONE.0, &ONE.1),
        Ok(())
    );
}

#[test]
fn case_k() {
    let mut held = started(3, 100);
    assert_eq!(admitted(&mut held, &A_RECORDS, &A_ROWS), Ok(()));
    let mut mistaken = held.clone();
    assert_eq!(admitted(&mut held, &A_RECORDS, &A_ROWS), Err(14));
    // A newcomer's bank takes the block in, and then holds more cells than S.
    let (bank, scan, rows) = &mut mistaken;
    let (a, per_block) = (
        Handed::new(&A_RECORDS, &A_ROWS, (1, 0)),
        Mistake::ReadsPerBlock,
    );
    let answer = admit_with(bank, scan, rows, a, per_block);
    assert_eq!((answer, bank.count), (Ok(()), 2));
    assert_eq!(latch(bank, scan, [0; 8]), Err(12));
    // By itself a block over S is refused with the mistake too.
    let (bank, scan, rows) = &mut started(1, 100);
    let answer = admit_with(bank, scan, rows, a, per_block);
    assert_eq!(answer, Err(14));
}

#[test]
fn case_l_scans_all_words() {
    let (bank, mut scan, rows) = two(4);
    assert_eq!((bank.count, &bank.lengths[..3]), (2, &[6, 6, 0][..]));
    assert_eq!(bank.records[1][..24], A_RECORDS);
    assert_eq!(bank.records[1][24..], [0; 56]);
    assert_eq!(rows, [A_ROWS, A_ROWS].concat());
    for first in 0..16u16 {
        let second = first * 7 + 3 & 15;
        let mut words = [0xffff; 8];
        (words[0], words[1]) = (first | 0xf000, second);
        assert_eq!(latch(&bank, &mut scan, words), Ok(()));
        assert_eq!(scan.words, [first, second, 0, 0, 0, 0, 0, 0]);
        assert_eq!((scan.running, scan.outputs), (true, [[2; 8]; 8]));
        let mut expected = [[2; 8]; 8];
        for (place, word) in [(0, first), (1, second)] {
            let rails = rail_words(&A_RECORDS, &A_ROWS, word).unwrap();
            assert_eq!(step(&bank, &mut scan, &rows), went(place, 0));
            assert_eq!(scan.outputs, expected);
            assert_eq!((scan.block, scan.cell, scan.rail), (place, 1, rails[0]));
            assert_eq!(step(&bank, &mut scan, &rows), went(place, 1));
            let emitted = emit(&A_RECORDS, &A_ROWS, word).unwrap();
            let line = TABLE[usize::from(word.reverse_bits() >> 12)];
            for (output, value) in line.chars().enumerate() {
                expected[usize::from(place)][output] = match value {
                    'd' => u8::from(emitted[output].unwrap()),
                    _ => u8::from(value == '1'),
                };
            }
            assert_eq!(scan.outputs, expected);
        }
        assert!(!scan.running);
        assert_eq!((scan.block, scan.cell, scan.rail), (0, 0, 0));
        let read = scan.clone();
        assert_eq!(step(&bank, &mut scan, &rows), Step::Idle);
        assert_eq!(scan, read);
    }
}

#[test]
fn latch_and_admission_drop_a_scan() {
    let (mut bank, mut scan, mut rows) = two(5);
    rows.extend([7; 2]);
    for steps in 0..6 {
        latch(&bank, &mut scan, [5; 8]).unwrap();
        for _ in 0..steps {
            step(&bank, &mut scan, &rows);
        }
        assert_eq!(latch(&bank, &mut scan, [6; 8]), Ok(()));
        assert_eq!((scan.block, scan.cell, scan.rail), (0, 0, 0));
        assert_eq!((scan.running, scan.outputs), (true, [[2; 8]; 8]));
    }
    for _ in 0..3 {
        step(&bank, &mut scan, &rows);
    }
    assert!(scan.running && scan.outputs[0][0] != 2);
    assert_eq!(
        admit(&mut bank, &mut scan, &mut rows, &ONE.0, &ONE.1),
        Ok(())
    );
    assert_eq!(scan, new_bank(5).unwrap().1);
    assert_eq!((bank.count, &rows[64..]), (3, &[1, 0][..]));
    assert_eq!(step(&bank, &mut scan, &rows), Step::Idle);
    latch(&bank, &mut scan, [0; 8]).unwrap();
    let answers: Vec<Step> = (0..6).map(|_| step(&bank, &mut scan, &rows)).collect();
    let order = [went(0, 0), went(0, 1), went(1, 0), went(1, 1), went(2, 0)];
    assert_eq!((&answers[..5], answers[5]), (&order[..], Step::Idle));
    assert_eq!(scan.outputs[2], [1, 2, 2, 2, 2, 2, 2, 2]);
}

#[test]
fn admission_refuses_12_13_14_11() {
    let bad = &A_ROWS[2..];
    // Alone.
    assert_eq!(admitted(&mut started(255, 99), &A_RECORDS, bad), Err(12));
    let mut full = started(8, 99);
    for _ in 0..8 {
        assert_eq!(admitted(&mut full, &ONE.0, &ONE.1), Ok(()));
    }
    let mut roomy = full.clone();
    roomy.0.limit = 255;
    assert_eq!(admitted(&mut roomy, &A_RECORDS, &A_ROWS), Err(13));
    assert_eq!(admitted(&mut started(1, 99), &A_RECORDS, &A_ROWS), Err(14));
    for bytes in [0, 15, 16, 30, 31] {
        let mut short = started(255, bytes);
        assert_eq!(admitted(&mut short, &A_RECORDS, &A_ROWS), Err(11));
    }
    for bytes in [32, 33, 34] {
        let mut held = started(2, bytes);
        assert_eq!(admitted(&mut held, &A_RECORDS, &A_ROWS), Ok(()));
        assert_eq!(
            (&held.2[..32], &held.2[32..]),
            (&A_ROWS[..], &[7, 7][..bytes - 32])
        );
    }
    // In pairs.
    assert_eq!(admitted(&mut roomy, &A_RECORDS, bad), Err(12));
    assert_eq!(admitted(&mut started(1, 99), &A_RECORDS, bad), Err(12));
    assert_eq!(admitted(&mut started(255, 0), &A_RECORDS, bad), Err(12));
    assert_eq!(admitted(&mut full, &ONE.0, &ONE.1), Err(13));
    roomy.2.truncate(16);
    assert_eq!(admitted(&mut roomy, &A_RECORDS, &A_ROWS), Err(13));
    assert_eq!(admitted(&mut started(1, 31), &A_RECORDS, &A_ROWS), Err(14));
    // All of them, then a running scan, which a refusal keeps.
    full.2.truncate(16);
    assert_eq!(admitted(&mut full, &A_RECORDS, bad), Err(12));
    assert_eq!(admitted(&mut full, &A_RECORDS, &A_ROWS), Err(13));
    let mut held = two(5);
    latch(&held.0, &mut held.1, [5; 8]).unwrap();
    step(&held.0, &mut held.1, &held.2);
    assert_eq!(admitted(&mut held, &A_RECORDS, &A_ROWS), Err(14));
    assert_eq!(admitted(&mut held, &ONE.0, &ONE.1), Err(11));
}

#[test]
fn rows_in_all() {
    let (records, rows) = wide();
    let mut held = started(255, 80_000);
    for _ in 0..7 {
        assert_eq!(admitted(&mut held, &records, &rows), Ok(()));
    }
    for bytes in [32_768, 65_534, 65_535] {
        let mut narrow = held.clone();
        narrow.2.truncate(bytes);
        assert_eq!(admitted(&mut narrow, &records, &rows), Err(11));
    }
    // 32,768 rows in all are usable, one more is not, however much is lent.
    let (more, more_rows) = wider();
    assert_eq!(admitted(&mut held, &more, &more_rows), Err(11));
    assert_eq!(admitted(&mut held, &records, &rows), Ok(()));
    assert_eq!(
        (&held.2[..65_536], &held.2[65_536..]),
        (&[0; 65_536][..], &[7; 14_464][..])
    );
    assert_eq!(latch(&held.0, &mut held.1, [0; 8]), Ok(()));
    assert_eq!(step(&held.0, &mut held.1, &held.2[..65_536]), went(0, 0));
    assert_eq!(
        step(&held.0, &mut held.1, &held.2[..65_535]),
        Step::Refused(11)
    );
}

#[test]
fn step_gives_12_then_idle_then_11() {
    let (bank, mut scan, rows) = two(4);
    assert_eq!(step(&bank, &mut scan, &[]), Step::Idle);
    latch(&bank, &mut scan, [5; 8]).unwrap();
    let latched = scan.clone();
    for length in [0, 16, 32, 62, 63] {
        // All rows held count, not just those of the cell to be read.
        assert_eq!(step(&bank, &mut scan, &rows[..length]), Step::Refused(11));
        assert_eq!(scan, latched);
    }
    let mut damaged = bank.clone();
    damaged.limit = 0;
    assert_eq!(step(&damaged, &mut scan, &[]), Step::Refused(12));
    for _ in 0..4 {
        assert!(matches!(step(&bank, &mut scan, &rows), Step::Went { .. }));
    }
    assert_eq!(step(&bank, &mut scan, &[]), Step::Idle);
    assert_eq!(step(&damaged, &mut scan, &[]), Step::Refused(12));
}
