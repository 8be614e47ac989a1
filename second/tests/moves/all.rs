//! What holds of every cascade: going up and back, going back and up, what is moved is well formed by the other rules, and a run over
//! every word emits the same.

use super::shape::plain_shape;
use super::{moved, tried, SEED};
use second::generate::{compiled, job, low_bytes, made, one_byte, Family, StoredBlock};
use second::moves::{narrow_cells, Way};
use second::stored::{cells_with_rows, emitted, well_formed};

/// So many made by hand, and the accepted ones among so many jobs of each family.
fn wide_cascades(by_hand: u64, jobs: u64) -> impl Iterator<Item = StoredBlock> {
    let jobs = move |family| (0..jobs).map(move |index| job(family, SEED, index));
    let jobs = Family::ALL.into_iter().flat_map(jobs);
    let compiled = jobs.filter_map(|job| compiled(&job));
    (0..by_hand).map(|index| made(SEED, index)).chain(compiled)
}

/// The outputs of each cell, when the stored form is well formed with so many bytes a row and at most so many outputs a cell.
fn outputs((records, rows): &StoredBlock, width: usize, most: u32) -> Option<Vec<u32>> {
    let shape = plain_shape(records, most)?;
    let mut values = rows.chunks(width);
    for (inputs, outputs) in &shape {
        for _ in 0..1 << inputs {
            let row = values.next().filter(|row| row.len() == width)?;
            let value = row
                .iter()
                .rev()
                .fold(0, |value, byte| value << 8 | u32::from(*byte));
            if value >= 1 << outputs {
                return None;
            }
        }
    }
    let outputs = shape.into_iter().map(|(_, outputs)| outputs).collect();
    values.next().is_none().then_some(outputs)
}

/// Both emit the same for every word.
fn same_run(narrow: &StoredBlock, wide: &StoredBlock) {
    let one = narrow_cells(&narrow.0, &narrow.1).expect("well formed");
    let two = cells_with_rows(&wide.0, &wide.1).expect("well formed");
    for word in 0..4_096 {
        assert_eq!(emitted(&one, word), emitted(&two, word), "{wide:?}");
    }
}

#[test]
fn up_and_back() {
    let by_hand = (0..1_000).map(|index| one_byte(SEED, index));
    let old = wide_cascades(0, 40)
        .map(|(records, rows)| (records, low_bytes(&rows)))
        .filter(|(records, _)| plain_shape(records, 8).is_some());
    let mut count = 0;
    for narrow in by_hand.chain(old) {
        assert!(outputs(&narrow, 1, 8).is_some());
        let wide = moved(Way::Widen, &narrow).expect("moved");
        assert_eq!(wide.0, narrow.0);
        assert!(well_formed(&wide.0, &wide.1) && outputs(&wide, 2, 16).is_some());
        same_run(&narrow, &wide);
        assert!(moved(Way::Narrow, &wide) == Ok(narrow));
        count += 1;
    }
    println!("{count} cascades up and back");
    assert!(count > 1_500, "{count}");
}

#[test]
fn back_and_up() {
    let (mut count, mut refused) = (0, 0);
    for wide in wide_cascades(1_000, 40) {
        let most = outputs(&wide, 2, 16)
            .expect("well formed")
            .into_iter()
            .max();
        match moved(Way::Narrow, &wide) {
            Ok(narrow) => {
                assert!(most <= Some(8) && outputs(&narrow, 1, 8).is_some());
                assert_eq!(narrow.0, wide.0);
                same_run(&narrow, &wide);
                assert!(moved(Way::Widen, &narrow) == Ok(wide));
                count += 1;
            }
            Err(number) => {
                assert!(number == 15 && most > Some(8), "{number} {most:?}");
                refused += 1;
            }
        }
    }
    println!("{count} cascades back and up, {refused} refused with 15");
    assert!(count > 900 && refused > 500, "{count} {refused}");
}

/// 12 exactly where the rules, said once more, say so.
#[test]
fn judged_by_the_rules() {
    let mut seen = [[0; 2]; 2];
    for (way, index) in Way::ALL
        .into_iter()
        .flat_map(|way| (0..3_600).map(move |index| (way, index)))
    {
        let stored = tried(way, index);
        let formed = match way {
            Way::Widen => outputs(&stored, 1, 8),
            Way::Narrow => outputs(&stored, 2, 16),
        };
        let answer = moved(way, &stored);
        assert_eq!(answer == Err(12), formed.is_none(), "{stored:?}");
        seen[way as usize][usize::from(formed.is_some())] += 1;
    }
    println!("12 or not, going up and going back: {seen:?}");
    assert!(
        seen.as_flattened().iter().all(|&count| count > 500),
        "{seen:?}"
    );
}
