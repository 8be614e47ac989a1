//! The moves said once more, with mistakes made on purpose: each must show on cascades of the generator.

use super::shape::plain_shape;
use super::{tried, SEED};
use second::generate::{Random, Room, StoredBlock};
use second::moves::Way;
use std::collections::BTreeMap;

#[derive(Clone, Copy, Debug, PartialEq, Eq)]
enum Mistake {
    None,
    /// 15 before 11.
    ManyBeforeRows,
    /// 11 before 10.
    RowsBeforeRecords,
    /// 10 before 12.
    RecordsBeforeBad,
    /// 10 where row memory is short.
    TenForRows,
    /// Row memory is asked for as many bytes as are stored.
    StoredBytes,
    /// One-byte rows judged by the rules of today.
    SixteenOutputs,
    /// Rows of 2^outputs and more are passed.
    LargeRows,
    /// Row bytes past the last row are passed.
    MoreRows,
    /// 15 from ten outputs on.
    NinePassed,
    /// 15 by output variables alone.
    RailsNotCounted,
    /// 15 by the first cell alone.
    FirstCell,
    /// 15 where a row is above 255.
    ByValues,
    /// The last row first.
    Reversed,
    /// The high byte is the one kept going back.
    HighByteKept,
    /// The high byte first going up.
    HighByteFirst,
    /// The last row is not written.
    LastRowLeftOut,
    /// The bytes past the written part become 0.
    RestCleared,
    /// Records are written before row memory is looked at.
    WrittenBefore11,
}

const MISTAKES: [Mistake; 18] = [
    Mistake::ManyBeforeRows,
    Mistake::RowsBeforeRecords,
    Mistake::RecordsBeforeBad,
    Mistake::TenForRows,
    Mistake::StoredBytes,
    Mistake::SixteenOutputs,
    Mistake::LargeRows,
    Mistake::MoreRows,
    Mistake::NinePassed,
    Mistake::RailsNotCounted,
    Mistake::FirstCell,
    Mistake::ByValues,
    Mistake::Reversed,
    Mistake::HighByteKept,
    Mistake::HighByteFirst,
    Mistake::LastRowLeftOut,
    Mistake::RestCleared,
    Mistake::WrittenBefore11,
];

/// The rows' values, and whether they are as many as the cells have and each below 2^outputs.
fn values(mistake: Mistake, rows: &[u8], width: usize, shape: &[(u32, u32)]) -> (Vec<u16>, bool) {
    let value = |row: &[u8]| {
        row.iter()
            .rev()
            .fold(0, |v, byte| v << 8 | u16::from(*byte))
    };
    let values: Vec<u16> = rows.chunks(width).map(value).collect();
    let bounds = shape.iter().flat_map(|&(inputs, outputs)| {
        let bound = 1u32 << outputs;
        std::iter::repeat_n(bound, 1 << inputs)
    });
    let count = bounds.clone().count();
    let long = mistake == Mistake::MoreRows && rows.len() > width * count;
    let counted = rows.len() == width * count || long;
    let below = values
        .iter()
        .zip(bounds)
        .all(|(v, bound)| u32::from(*v) < bound);
    (values, counted && (below || mistake == Mistake::LargeRows))
}

/// Whether going back must give 15.
fn many(mistake: Mistake, shape: &[(u32, u32)], values: &[u16]) -> bool {
    let over = |&(_, outputs): &(u32, u32)| outputs > 8;
    match mistake {
        Mistake::NinePassed => shape.iter().any(|&(_, outputs)| outputs > 9),
        // There are eight output variables.
        Mistake::RailsNotCounted => false,
        Mistake::FirstCell => shape.first().is_some_and(over),
        Mistake::ByValues => values.iter().any(|&value| value > 255),
        _ => shape.iter().any(over),
    }
}

/// The answer; what is written stands in `lent`.
fn run(mistake: Mistake, way: Way, stored: &StoredBlock, lent: &mut StoredBlock) -> u8 {
    let (records, rows) = stored;
    let (width, most) = match way {
        Way::Widen if mistake == Mistake::SixteenOutputs => (1, 16),
        Way::Widen => (1, 8),
        Way::Narrow => (2, 16),
    };
    let shape = plain_shape(records, most);
    let (values, formed) = values(mistake, rows, width, shape.as_deref().unwrap_or_default());
    let needed = match way {
        _ if mistake == Mistake::StoredBytes => rows.len(),
        Way::Widen => 2 * values.len(),
        Way::Narrow => rows.len() / 2,
    };
    let bad = (12, shape.is_none() || !formed);
    let short_records = (10, lent.0.len() < records.len());
    let number = if mistake == Mistake::TenForRows {
        10
    } else {
        11
    };
    let short_rows = (number, lent.1.len() < needed);
    let shape = shape.unwrap_or_default();
    let over = way == Way::Narrow && many(mistake, &shape, &values);
    let over = (15, over);
    let order = match mistake {
        Mistake::ManyBeforeRows => [bad, short_records, over, short_rows],
        Mistake::RowsBeforeRecords => [bad, short_rows, short_records, over],
        Mistake::RecordsBeforeBad => [short_records, bad, short_rows, over],
        _ => [bad, short_records, short_rows, over],
    };
    let refusal = order.into_iter().find(|(_, given)| *given);
    let refusal = refusal.map_or(0, |(number, _)| number);
    if refusal == 0 || (refusal == 11 && mistake == Mistake::WrittenBefore11) {
        lent.0[..records.len()].copy_from_slice(records);
    }
    if refusal != 0 {
        return refusal;
    }
    let mut moved: Vec<Vec<u8>> = values
        .iter()
        .map(|value| match (way, mistake) {
            (Way::Widen, Mistake::HighByteFirst) => value.to_be_bytes().to_vec(),
            (Way::Widen, _) => value.to_le_bytes().to_vec(),
            (Way::Narrow, Mistake::HighByteKept) => vec![(value >> 8) as u8],
            (Way::Narrow, _) => vec![*value as u8],
        })
        .collect();
    match mistake {
        Mistake::Reversed => moved.reverse(),
        Mistake::LastRowLeftOut => {
            moved.pop();
        }
        _ => {}
    }
    let moved = moved.concat();
    // A mistake may leave more rows than there is room for.
    for (to, byte) in lent.1.iter_mut().zip(&moved) {
        *to = *byte;
    }
    if mistake == Mistake::RestCleared {
        lent.0[records.len()..].fill(0);
        lent.1[moved.len()..].fill(0);
    }
    0
}

#[test]
fn mistakes_show() {
    let mut random = Random::new(1, SEED, 0);
    let mut answers: BTreeMap<(&str, u8), u64> = BTreeMap::new();
    let mut found = [0; MISTAKES.len()];
    for (way, index) in Way::ALL
        .into_iter()
        .flat_map(|way| (0..2_160).map(move |index| (way, index)))
    {
        let stored = tried(way, index);
        let [for_records, for_rows] = [(); 2].map(|()| match random.below(8) {
            place @ 0..4 => Room::ALL[place],
            place => [Room::Exact, Room::Long][place % 2],
        });
        let lent = (
            for_records.memory(&mut random, stored.0.len()),
            for_rows.memory(&mut random, way.row_bytes(stored.1.len())),
        );
        let mut right = lent.clone();
        let answer = way.run(&stored.0, &stored.1, &mut right.0, &mut right.1);
        let differs = |mistake| {
            let mut wrong = lent.clone();
            run(mistake, way, &stored, &mut wrong) != answer || wrong != right
        };
        assert!(!differs(Mistake::None), "{way:?} {stored:?}");
        for (found, mistake) in found.iter_mut().zip(MISTAKES) {
            *found += usize::from(differs(mistake));
        }
        *answers.entry((way.name(), answer)).or_default() += 1;
    }
    println!("{answers:?}");
    println!("{:?}", MISTAKES.iter().zip(found).collect::<Vec<_>>());
    assert!(
        answers.len() == 4 + 5 && answers.values().all(|&count| count > 100),
        "{answers:?}"
    );
    assert!(found.iter().all(|&count| count > 20), "{found:?}");
}
