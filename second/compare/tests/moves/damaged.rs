//! Input that is not well formed, or just so, each way.

use super::{compare, over_memories, Seen, SEED};
use second::cases;
use second::generate::{
    at_most, compiled, damage, damage_one_byte, job, low_bytes, made, one_byte, over_limit,
    row_bytes, Family, Over, Random, Room, StoredBlock,
};
use second::moves::{narrow_cells, Way};
use second::stored::{cells, well_formed};

/// Over memories long enough.
fn accepted(random: &mut Random, way: Way, stored: &StoredBlock, seen: &mut Seen) -> u8 {
    let lent = (
        Room::Long.memory(random, stored.0.len()),
        Room::Exact.memory(random, way.row_bytes(stored.1.len())),
    );
    compare(way, stored, &lent, seen)
}

/// Compiled ones and such made by hand, spoilt in every way that the generator has; and one-byte rows of
/// cells with more than 8 outputs, some with 9 at most.
#[test]
fn damaged() {
    let mut random = Random::new(11, SEED, 0);
    let mut seen = Seen::new();
    for index in 0..4_000 {
        let family = Family::ALL[index as usize % Family::ALL.len()];
        let compiled = match index % 3 {
            0 => compiled(&job(family, SEED, index)),
            _ => None,
        };
        let wide = compiled.unwrap_or_else(|| made(SEED, index));
        let narrow = match index % 3 {
            0 => (wide.0.clone(), low_bytes(&wide.1)),
            _ => one_byte(SEED, index),
        };
        let nine = at_most(9, SEED, index);
        for (way, stored) in [
            (Way::Narrow, damage(SEED, index, &wide)),
            (Way::Widen, damage_one_byte(SEED, index, &narrow)),
            (Way::Widen, (wide.0.clone(), low_bytes(&wide.1))),
            (Way::Widen, (nine.0.clone(), low_bytes(&nine.1))),
            (Way::Narrow, nine),
            // The rows of the other form.
            (Way::Widen, wide),
            (Way::Narrow, narrow),
        ] {
            let answer = accepted(&mut random, way, &stored, &mut seen);
            let formed = match way {
                Way::Widen => narrow_cells(&stored.0, &stored.1).is_some(),
                Way::Narrow => well_formed(&stored.0, &stored.1),
            };
            assert_eq!(answer == 12, !formed);
            over_memories(&mut random, way, &stored, &mut seen);
        }
    }
    println!("damaged: {seen:?}");
    assert!(seen[&("widen", 12)] > 20_000 && seen[&("narrow", 12)] > 20_000);
}

/// The values 2^outputs - 1 and 2^outputs in each cell, and a byte or a row too few or too many.
#[test]
fn rows_at_their_bounds() {
    let mut random = Random::new(12, SEED, 0);
    let mut seen = Seen::new();
    for (way, index) in Way::ALL
        .into_iter()
        .flat_map(|way| (0..900).map(move |index| (way, index)))
    {
        let (width, (records, rows)) = match way {
            Way::Widen => (1, one_byte(SEED, index)),
            Way::Narrow => (2, made(SEED, index)),
        };
        for less in 1..=2 {
            let fewer = (
                records.clone(),
                rows[..rows.len().saturating_sub(less)].to_vec(),
            );
            assert_eq!(accepted(&mut random, way, &fewer, &mut seen), 12);
            let more = (records.clone(), [&rows[..], &[0; 2][..less]].concat());
            assert_eq!(accepted(&mut random, way, &more, &mut seen), 12);
        }
        let mut first = 0;
        for cell in cells(&records).expect("well formed") {
            let bound = 1u32 << cell.output_count();
            let place = width * (first + random.below(cell.rows));
            first += cell.rows;
            for value in [bound - 1, bound] {
                if value >> (8 * width) != 0 {
                    continue;
                }
                let mut stored = (records.clone(), rows.clone());
                stored.1[place..place + width].copy_from_slice(&value.to_le_bytes()[..width]);
                let answer = accepted(&mut random, way, &stored, &mut seen);
                assert_eq!(answer == 12, value == bound);
            }
        }
    }
    println!("rows at their bounds: {seen:?}");
}

/// Over one limit of today, and with one-byte rows.
#[test]
fn over_a_limit() {
    let mut random = Random::new(13, SEED, 0);
    let mut seen = Seen::new();
    for (over, index) in Over::ALL
        .iter()
        .flat_map(|over| (0..40).map(move |index| (*over, index)))
    {
        let wide = over_limit(over, SEED, index);
        let narrow = (wide.0.clone(), low_bytes(&wide.1));
        for (way, stored) in [(Way::Narrow, wide), (Way::Widen, narrow)] {
            assert_eq!(accepted(&mut random, way, &stored, &mut seen), 12);
            over_memories(&mut random, way, &stored, &mut seen);
        }
    }
}

/// Every byte of case A's records and rows changed in every way, and slices of any length.
#[test]
fn odd_bytes_and_lengths() {
    let mut random = Random::new(14, SEED, 0);
    let mut seen = Seen::new();
    let wide = compiled(&cases::a()).expect("accepted");
    let narrow = (wide.0.clone(), low_bytes(&wide.1));
    for (way, stored) in [(Way::Narrow, wide), (Way::Widen, narrow)] {
        let mut odd = Vec::new();
        for (place, value) in (0..stored.0.len()).flat_map(|p| (0..=255).map(move |v| (p, v))) {
            let mut changed = stored.clone();
            changed.0[place] = value;
            odd.push(changed);
        }
        for (place, value) in (0..stored.1.len()).flat_map(|p| (0..=255).map(move |v| (p, v))) {
            let mut changed = stored.clone();
            changed.1[place] = value;
            odd.push(changed);
        }
        for length in (0..100).chain([255, 256, 4_096, 32_768, 65_535, 65_536, 65_537, 70_000]) {
            odd.push((stored.0.clone(), vec![0; length]));
            odd.push((vec![0; length], stored.1.clone()));
            odd.push((random.bytes(length), stored.1.clone()));
            odd.push((random.bytes(length), random.bytes(length)));
        }
        for stored in odd {
            let lent = (random.bytes(100), random.bytes(100));
            compare(way, &stored, &lent, &mut seen);
        }
    }
    println!("case A with odd bytes and lengths: {seen:?}");
    assert!(seen[&("widen", 0)] > 20 && seen[&("narrow", 0)] > 20);
}

/// Rows of every value in cells of eight and of nine outputs.
#[test]
fn every_value() {
    let mut random = Random::new(15, SEED, 0);
    let mut seen = Seen::new();
    for rails in [7, 8] {
        // x1 to x9, y1 and rails; then y2.
        let mut records: Vec<u8> = (0..9).flat_map(|x| [x, 0, 0, 0]).collect();
        records.extend([128, 1, rails, 0, 129, 1, 0, 0]);
        let below = vec![0; 1 << rails];
        let values: Vec<u16> = (0..512).map(|value| value & ((2 << rails) - 1)).collect();
        let rows = row_bytes(&[&values[..], &below].concat());
        let wide = (records, rows);
        let answer = accepted(&mut random, Way::Narrow, &wide, &mut seen);
        assert_eq!(answer, if rails == 7 { 0 } else { 15 });
        let narrow = (wide.0, low_bytes(&wide.1));
        let answer = accepted(&mut random, Way::Widen, &narrow, &mut seen);
        assert_eq!(answer, if rails == 7 { 0 } else { 12 });
    }
}
