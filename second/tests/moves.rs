//! Moves between one-byte rows and two-byte rows (document 02, §7): cases worked out by hand. What holds of all cascades, wrong
//! versions and lists of calls as text are in the folder beside.

#[path = "moves/all.rs"]
mod all;
#[path = "stored/shape.rs"]
mod shape;
#[path = "moves/text.rs"]
mod text;
#[path = "moves/wrong.rs"]
mod wrong;

use second::cases;
use second::generate::{
    at_most, cascade, compiled, damage, damage_one_byte, job, low_bytes, made, row_bytes, Family,
    Rows, Shape, StoredBlock,
};
use second::moves::{narrow_cells, Way};
use second::stored::{emitted, well_formed};

const SEED: u64 = 707;

/// Case A's stored form, with one-byte and two-byte rows.
const A_RECORDS: [u8; 24] = [
    0x00, 0, 0, 0, 0x01, 0, 0, 0, 0x02, 1, 2, 0, 0x80, 0, 0, 0, 0x03, 0, 0, 0, 0x81, 1, 0, 0,
];
const A_NARROW: [u8; 16] = [0, 1, 2, 2, 0, 3, 2, 2, 1, 1, 0, 0, 2, 3, 2, 2];
#[rustfmt::skip]
const A_WIDE: [u8; 32] = [
    0, 0, 1, 0, 2, 0, 2, 0, 0, 0, 3, 0, 2, 0, 2, 0,
    1, 0, 1, 0, 0, 0, 0, 0, 2, 0, 3, 0, 2, 0, 2, 0,
];

fn records(list: &[(u8, u8, u8)]) -> Vec<u8> {
    list.iter().flat_map(|&(v, c, r)| [v, c, r, 0]).collect()
}

/// The answer over memories of so many bytes, each of them 7 before; a refusal must leave them so.
fn answer(way: Way, (records, rows): &StoredBlock, bytes: (usize, usize)) -> u8 {
    let (mut to_records, mut to_rows) = (vec![7; bytes.0], vec![7; bytes.1]);
    let answer = way.run(records, rows, &mut to_records, &mut to_rows);
    if answer != 0 {
        assert!(to_records.iter().chain(&to_rows).all(|&byte| byte == 7));
    }
    answer
}

/// The cascade over memories just long enough, or the refusal.
fn moved(way: Way, (records, rows): &StoredBlock) -> Result<StoredBlock, u8> {
    let mut to_records = vec![7; records.len()];
    let mut to_rows = vec![7; way.row_bytes(rows.len())];
    match way.run(records, rows, &mut to_records, &mut to_rows) {
        0 => Ok((to_records, to_rows)),
        refusal => Err(refusal),
    }
}

/// A cascade to be moved: compiled, made by hand, or made by hand with at most 8 or 9 outputs a cell. One in three is damaged, and one in
/// six has two-byte rows below 256 alone.
fn tried(way: Way, index: u64) -> StoredBlock {
    let (kind, index) = (index % 24, index / 24);
    let family = Family::ALL[index as usize % Family::ALL.len()];
    let (records, mut rows) = match kind % 4 {
        0 => compiled(&job(family, SEED, index)).unwrap_or_else(|| made(SEED, index)),
        1 => made(SEED, index),
        2 => at_most(9, SEED, index),
        _ => at_most(8, SEED, index),
    };
    if kind / 4 == 0 {
        rows.iter_mut()
            .skip(1)
            .step_by(2)
            .for_each(|high| *high = 0);
    }
    let damaged = kind / 4 >= 4;
    match way {
        Way::Widen => {
            let whole = (records, low_bytes(&rows));
            match damaged {
                true => damage_one_byte(SEED, kind + 24 * index, &whole),
                false => whole,
            }
        }
        Way::Narrow if damaged => damage(SEED, kind + 24 * index, &(records, rows)),
        Way::Narrow => (records, rows),
    }
}

#[test]
fn table_1_both_ways() {
    let narrow = (A_RECORDS.to_vec(), A_NARROW.to_vec());
    let wide = (A_RECORDS.to_vec(), A_WIDE.to_vec());
    assert_eq!(compiled(&cases::a()).as_ref(), Some(&wide));
    assert_eq!(moved(Way::Widen, &narrow), Ok(wide.clone()));
    assert_eq!(moved(Way::Narrow, &wide), Ok(narrow));
    // Row 5 of the first cell, 3, leads x1x2x3x4 = 1010 to row 6 of the second, 2: y1 is 1, y2 is 0.
    let cells = narrow_cells(&A_RECORDS, &A_NARROW).expect("well formed");
    let set = emitted(&cells, 0b0101);
    assert_eq!(set[..3], [Some(true), Some(false), None]);
    // 0000 leads to row 0, then again to row 0, 1.
    let set = emitted(&cells, 0);
    assert_eq!(set[..3], [Some(false), Some(true), None]);
}

#[test]
fn memories_of_any_length() {
    for way in Way::ALL {
        let (from, to) = match way {
            Way::Widen => (&A_NARROW[..], &A_WIDE[..]),
            Way::Narrow => (&A_WIDE[..], &A_NARROW[..]),
        };
        for (record_bytes, row_bytes) in (0..30).flat_map(|r| (0..40).map(move |q| (r, q))) {
            let old = |count: usize| (0..count).map(|place| 200 - place as u8);
            let mut to_records: Vec<u8> = old(record_bytes).collect();
            let mut to_rows: Vec<u8> = old(row_bytes).collect();
            let answer = way.run(&A_RECORDS, from, &mut to_records, &mut to_rows);
            let expected = match () {
                () if record_bytes < 24 => 10,
                () if row_bytes < to.len() => 11,
                () => 0,
            };
            assert_eq!(answer, expected, "{record_bytes} {row_bytes}");
            let (mut written_records, mut written_rows) = (&A_RECORDS[..], to);
            if answer != 0 {
                (written_records, written_rows) = (&[], &[]);
            }
            let after = |written: &[u8], count| -> Vec<u8> {
                let kept = old(count).skip(written.len());
                written.iter().copied().chain(kept).collect()
            };
            assert_eq!(to_records, after(written_records, record_bytes));
            assert_eq!(to_rows, after(written_rows, row_bytes));
        }
    }
}

/// x1 and y8 with one rail; then a cell of so many outputs, at most four of them variables and the others rails, over that rail; then
/// y7. And where that cell's two rows begin; the rows are 0.
fn of_outputs(count: u8) -> (Vec<u8>, Vec<u16>, usize) {
    let rails = count.saturating_sub(4);
    let mut list = vec![(0, 0, 0), (135, 1, 1)];
    list.extend((rails..count).map(|place| (128 + place - rails, 0, 0)));
    let last = list.len() - 1;
    (list[last].1, list[last].2) = (1, rails);
    list.push((134, 1, 0));
    (records(&list), vec![0; 2 + 2 + (1 << rails)], 2)
}

fn bytes(way: Way, values: &[u16]) -> Vec<u8> {
    match way {
        Way::Widen => values.iter().map(|&value| value as u8).collect(),
        Way::Narrow => row_bytes(values),
    }
}

#[test]
fn each_number_of_outputs() {
    for count in 1..=16 {
        let (records, mut values, at) = of_outputs(count);
        let mut with = |way: Way, value: u32| {
            values[at + 1] = value as u16;
            moved(way, &(records.clone(), bytes(way, &values)))
        };
        let most = (1u32 << count) - 1;
        // Rows below 256 all the same give 12 going up and 15 going back from nine outputs on.
        for value in [0, 1, most & 255, most] {
            let up = with(Way::Widen, value & 255);
            let back = with(Way::Narrow, value);
            match count {
                0..=8 => assert_eq!(moved(Way::Narrow, &up.expect("moved")), back),
                _ => assert_eq!((up, back), (Err(12), Err(15))),
            }
        }
        for bit in count..16 {
            assert_eq!(with(Way::Narrow, 1 << bit), Err(12));
            assert_eq!(with(Way::Narrow, 1 << bit | most), Err(12));
        }
        for bit in count..8 {
            assert_eq!(with(Way::Widen, 1 << bit), Err(12));
            assert_eq!(with(Way::Widen, 1 << bit | most), Err(12));
        }
    }
    let (records, values, _) = of_outputs(17);
    for way in Way::ALL {
        assert_eq!(moved(way, &(records.clone(), bytes(way, &values))), Err(12));
    }
}

/// Each set of the four faults, by each of several bad inputs: the first of 12, 10, 11 and 15 wins.
#[test]
fn the_order_of_refusals() {
    type Spoil = fn(&mut StoredBlock);
    let bad: [Spoil; 6] = [
        |stored| stored.1.push(0),
        |stored| {
            stored.1.pop();
        },
        |stored| stored.1[0] = 4,
        |stored| *stored.1.last_mut().expect("rows") = 2,
        |stored| stored.0[3] = 1,
        |stored| stored.0[4] = 0,
    ];
    for (way, spoil) in Way::ALL
        .into_iter()
        .flat_map(|way| bad.map(|spoil| (way, spoil)))
    {
        for faults in 0..16u8 {
            let is = |place: u8| faults >> place & 1 == 1;
            // Going up there is no 15.
            if way == Way::Widen && is(3) {
                continue;
            }
            let (records, values, _) = of_outputs(if is(3) { 9 } else { 8 });
            let mut stored = (records, bytes(way, &values));
            let needed = (stored.0.len(), way.row_bytes(stored.1.len()));
            if is(0) {
                spoil(&mut stored);
            }
            let expected = [12, 10, 11, 15].into_iter().zip(0..);
            let expected = expected.into_iter().find(|&(_, place)| is(place));
            let expected = expected.map_or(0, |(number, _)| number);
            for short in [1, 3, usize::MAX] {
                let less = |bytes: usize, fault| match is(fault) {
                    true => bytes.saturating_sub(short),
                    false => bytes + short % 5,
                };
                let lent = (less(needed.0, 1), less(needed.1, 2));
                assert_eq!(answer(way, &stored, lent), expected, "{faults:04b}");
            }
        }
    }
}

/// Every other number of row bytes, odd ones too, and the rows of the other form.
#[test]
fn numbers_of_row_bytes() {
    let with = |rows: &[u8]| (A_RECORDS.to_vec(), rows.to_vec());
    for length in 0..80 {
        let zeros = with(&[0; 80][..length]);
        let up = if length == 16 { 0 } else { 12 };
        assert_eq!(answer(Way::Widen, &zeros, (100, 200)), up);
        let back = if length == 32 { 0 } else { 12 };
        assert_eq!(answer(Way::Narrow, &zeros, (100, 200)), back);
    }
    assert_eq!(answer(Way::Widen, &with(&A_WIDE), (100, 200)), 12);
    assert_eq!(answer(Way::Narrow, &with(&A_NARROW), (100, 200)), 12);
    assert_eq!(answer(Way::Narrow, &with(&A_WIDE[..31]), (100, 200)), 12);
}

/// 32,768 rows, which cells of 8 outputs can't have; and 11,521, the most that these can have.
#[test]
fn many_rows() {
    for index in 0..8 {
        let largest = cascade(Shape::Largest, Rows::Sparse, SEED, index);
        let needed = largest.0.len();
        assert_eq!(answer(Way::Narrow, &largest, (needed, 32_768)), 15);
        assert_eq!(answer(Way::Narrow, &largest, (needed, 32_767)), 11);
        assert_eq!(answer(Way::Narrow, &largest, (needed - 1, 32_767)), 10);
        let low = (largest.0, low_bytes(&largest.1));
        assert_eq!(answer(Way::Widen, &low, (80, 65_536)), 12);
    }
    // y1 and 7 rails; x1, then 4, 4 and 3 inputs, each time with 8 rails; then y2 to y8, all but the last with 7 rails.
    let mut list = vec![(128, 1, 7)];
    list.extend((0..12).map(|input| match input {
        0 | 4 | 8 | 11 => (input, 1, 8),
        _ => (input, 0, 0),
    }));
    list.extend((129..135).map(|output| (output, 1, 7)));
    list.push((135, 1, 0));
    let rows = 1 + 256 + 4_096 + 4_096 + 2_048 + 256 + 6 * 128;
    let stored = (records(&list), vec![1; rows]);
    let wide = moved(Way::Widen, &stored).expect("moved");
    assert!(well_formed(&wide.0, &wide.1) && wide.1 == [1, 0].repeat(rows));
    assert_eq!(answer(Way::Widen, &stored, (80, 2 * rows - 1)), 11);
    assert_eq!(answer(Way::Narrow, &wide, (80, rows - 1)), 11);
    assert_eq!(moved(Way::Narrow, &wide), Ok(stored));
}
