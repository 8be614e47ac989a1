//! Rows as pairs of bytes: values up to 2^outputs - 1 for each number of outputs, and the number of rows at its limit.

use super::{bytes, records};
use second::book;
use second::cases::SIXTEEN_OUTPUTS;
use second::generate::{cascade, over_limit, Over, Rows, Shape};
use second::known::{fillings, fused, plain, sets, two_rails};
use second::stored::{cells, emit, rail_words, read, well_formed, write};

/// Every test of the stored form says so.
fn agree(records: &[u8], rows: &[u8], formed: bool) {
    assert_eq!(well_formed(records, rows), formed);
    assert_eq!(book::well_formed(records, rows), formed);
    assert_eq!(read(records, rows).is_ok(), formed);
    for evaluation in [plain, fillings, sets, fused, two_rails] {
        assert_eq!(evaluation(records, rows, 0xFFF, 5).is_ok(), formed);
    }
}

/// A cell of one input and so many outputs, all but four of them rails, then a cell of one output. The second number is its rows.
fn of_outputs(count: u8) -> (Vec<u8>, usize) {
    let rails = count.saturating_sub(4);
    let mut list = vec![(0, 0, 0)];
    list.extend((rails..count).map(|place| (128 + place - rails, 0, 0)));
    let last = list.len() - 1;
    (list[last].1, list[last].2) = (1, rails);
    list.push((135, 1, 0));
    (records(&list), 1 << rails)
}

#[test]
fn values_are_below_2_to_the_outputs() {
    for count in 1..=16 {
        let (records, below) = of_outputs(count);
        let most = ((1u32 << count) - 1) as u16;
        let with = |row: u16| [vec![0, row], vec![1; below]].concat();
        agree(&records, &bytes(&with(most)), true);
        agree(&records, &bytes(&with(0)), true);
        if count < 16 {
            for bit in count..16 {
                agree(&records, &bytes(&with(1 << bit)), false);
                agree(&records, &bytes(&with(1 << bit | most)), false);
            }
        }
        // A row's bytes stand low byte first.
        let swapped: Vec<u16> = with(most).iter().map(|row| row.swap_bytes()).collect();
        agree(&records, &bytes(&swapped), false);
    }
    assert!(cells(&of_outputs(17).0).is_none());
}

#[test]
fn a_row_is_read_low_byte_first() {
    // x1, y1 to y4 and 12 rails; then y5, which is 1 for one rail word alone.
    let records = SIXTEEN_OUTPUTS.to_vec();
    let mut rows = vec![0; 2 * (2 + 4_096)];
    // Row 1 is A5C3: y1 to y4 are 1010, the rail word is 5C3.
    (rows[2], rows[3]) = (0xC3, 0xA5);
    rows[2 * (2 + 0x5C3)] = 1;
    let emitted = emit(&records, &rows, 1).expect("well formed");
    let expected = [true, false, true, false, true].map(Some);
    assert_eq!(
        (&emitted[..5], &emitted[5..]),
        (&expected[..], &[None; 3][..])
    );
    assert_eq!(rail_words(&records, &rows, 1), Some(vec![0x5C3, 0]));
    assert_eq!(rail_words(&records, &rows, 0), Some(vec![0, 0]));
    agree(&records, &rows, true);
}

#[test]
fn as_many_rows_as_can_be() {
    for index in 0..6 {
        let (records, rows) = cascade(Shape::Largest, Rows::Random, 1, index);
        assert_eq!(rows.len(), 65_536);
        agree(&records, &rows, true);
        agree(&records, &rows[..65_535], false);
        agree(&records, &[&rows[..], &[0]].concat(), false);
        let cascade = read(&records, &rows).expect("well formed");
        let (mut stored, mut memory) = (vec![0; 80], vec![7; 65_537]);
        assert_eq!(write(&cascade, &mut stored, &mut memory[..65_535]), Err(11));
        assert_eq!(memory, [7; 65_537]);
        assert_eq!(write(&cascade, &mut stored, &mut memory), Ok(()));
        assert!(memory[..65_536] == rows && memory[65_536] == 7);
    }
}

/// Over one limit alone: the rows are as many as the cells ask for, and below 2^outputs.
#[test]
fn over_a_limit() {
    for over in Over::ALL {
        for index in 0..40 {
            let (records, rows) = over_limit(over, 1, index);
            agree(&records, &rows, false);
            assert!(cells(&records).is_none());
        }
    }
    for index in 0..4 {
        let (records, rows) = over_limit(Over::Rows, 1, index);
        assert_eq!(rows.len(), 2 * 36_864);
        agree(&records, &rows[..65_536], false);
        // Without its last cell it is well formed.
        let mut fewer = records[..records.len() - 4].to_vec();
        let last = fewer.len() - 4;
        fewer[last + 2] = 0;
        let mut rows = rows[..65_536].to_vec();
        for row in rows[7 * 8_192..].chunks_exact_mut(2) {
            (row[0], row[1]) = (row[0] & 1, 0);
        }
        agree(&fewer, &rows, true);
    }
}
