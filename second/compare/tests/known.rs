//! The proved evaluation with unknown inputs, through its exported function, against a run of the cascade for every filling.

use proved::known;
use second::cases;
use second::generate::{
    compiled, damage, job, known_but, made, over_limit, Family, Over, Random,
    StoredBlock as Cascade,
};
use second::known::{plain, sets, Runs};
use second::stored::{cells, well_formed};

const SEED: u64 = 5077;

/// The values, over old contents that vary; or 12, and then the contents are the old ones.
fn proved_values(
    random: &mut Random,
    (records, rows): &Cascade,
    mask: u16,
    word: u16,
) -> Result<[u8; 8], u8> {
    let old: [u8; 8] = std::array::from_fn(|_| random.byte());
    let mut outputs = old;
    match known(records, rows, mask, word, &mut outputs) {
        0 => Ok(outputs),
        number => {
            assert_eq!(outputs, old, "a refusal changed the outputs");
            Err(number)
        }
    }
}

/// Compiled ones of every family, then ones made by hand: 20,000.
fn cascades() -> impl Iterator<Item = Cascade> {
    let jobs = |family| (0..700).map(move |index| job(family, SEED, index));
    let compiled = Family::ALL
        .into_iter()
        .flat_map(jobs)
        .filter_map(|job| compiled(&job));
    let by_hand = (0..).map(|index| made(SEED, index));
    compiled.chain(by_hand).take(20_000)
}

#[test]
fn every_filling() {
    let mut random = Random::new(1, SEED, 0);
    let (mut tried, mut lacking) = (0, 0);
    let mut found = [0u64; 3];
    for cascade in cascades() {
        let runs = Runs::of(&cascade.0, &cascade.1).expect("well formed");
        for place in 0..20 {
            // Each number of unknown inputs, then any masks.
            let mask = match place {
                0..=12 => known_but(&mut random, place),
                _ => random.word(),
            };
            let word = random.word();
            let values = runs.values(mask, word);
            assert_eq!(
                proved_values(&mut random, &cascade, mask, word),
                Ok(values),
                "{mask:#x} {word:#x} {cascade:?}"
            );
            for (output, value) in values.into_iter().enumerate() {
                match runs.has(output) {
                    true => found[usize::from(value)] += 1,
                    false => lacking += 1,
                }
            }
        }
        tried += 1;
    }
    let [zeros, ones, unknown] = found;
    println!("{tried} cascades, 20 masks each: {zeros} outputs 0, {ones} outputs 1, {unknown} unknown, {lacking} lacking");
    assert_eq!(tried, 20_000);
    assert!(found.iter().all(|&count| count > 100_000), "{found:?}");
}

#[test]
fn damaged() {
    let mut random = Random::new(2, SEED, 0);
    let (mut refused, mut index) = (0, 0);
    while refused < 4_000 {
        let whole = match index % 4 {
            0 => compiled(&job(Family::SmallOrders, SEED, index)),
            1 => compiled(&job(Family::Medium, SEED, index)),
            _ => None,
        };
        let whole = whole.unwrap_or_else(|| made(SEED, index));
        let cascade = damage(SEED, index, &whole);
        let (mask, word) = (random.word(), random.word());
        let values = plain(&cascade.0, &cascade.1, mask, word);
        assert_eq!(
            proved_values(&mut random, &cascade, mask, word),
            values,
            "{cascade:?}"
        );
        refused += u32::from(values == Err(12));
        index += 1;
    }
    println!("{index} damaged cascades: {refused} give 12");
}

/// Rows too large, or one byte too few or too many, in cells of any number of outputs up to sixteen; and
/// cascades over one limit alone.
#[test]
fn rows_at_their_bounds() {
    let mut random = Random::new(4, SEED, 0);
    for index in 0..1_200 {
        let (records, rows) = made(SEED, index);
        let mut first = 0;
        let mut tried = vec![rows[..rows.len() - 1].to_vec(), [&rows[..], &[0]].concat()];
        for cell in cells(&records).expect("well formed") {
            let bound = 1u32 << cell.output_count();
            let place = 2 * (first + random.below(cell.rows));
            first += cell.rows;
            for value in [bound - 1, bound].map(u16::try_from).into_iter().flatten() {
                let mut rows = rows.clone();
                rows[place..place + 2].copy_from_slice(&value.to_le_bytes());
                tried.push(rows);
            }
        }
        for rows in tried {
            let (mask, word) = (known_but(&mut random, 2), random.word());
            let expected = sets(&records, &rows, mask, word);
            let cascade = (records.clone(), rows);
            let values = proved_values(&mut random, &cascade, mask, word);
            assert_eq!(values, expected, "{index}");
            assert_eq!(values.is_ok(), well_formed(&cascade.0, &cascade.1));
        }
    }
    for over in Over::ALL {
        for index in 0..40 {
            let cascade = over_limit(over, SEED, index);
            let values = proved_values(&mut random, &cascade, 0, 0);
            assert_eq!(values, Err(12), "{over:?}");
        }
    }
}

/// Every byte of case A's records and rows changed in every way, and slices of any length.
#[test]
fn odd_bytes_and_lengths() {
    let mut random = Random::new(3, SEED, 0);
    let (records, rows) = compiled(&cases::a()).expect("accepted");
    let mut odd = Vec::new();
    for (place, value) in (0..records.len()).flat_map(|p| (0..=255).map(move |v| (p, v))) {
        let mut changed = records.clone();
        changed[place] = value;
        odd.push((changed, rows.clone()));
    }
    for (place, value) in (0..rows.len()).flat_map(|p| (0..=255).map(move |v| (p, v))) {
        let mut changed = rows.clone();
        changed[place] = value;
        odd.push((records.clone(), changed));
    }
    for length in (0..100).chain([255, 256, 4_096, 32_768, 65_535, 65_536, 65_537, 70_000]) {
        odd.push((records.clone(), vec![0; length]));
        odd.push((vec![0; length], rows.clone()));
        let any = (0..length).map(|_| random.byte()).collect();
        odd.push((any, rows.clone()));
    }
    let mut accepted = 0;
    for cascade in odd {
        let expected = plain(&cascade.0, &cascade.1, 0b0110, 0);
        let values = proved_values(&mut random, &cascade, 0b0110, 0);
        assert_eq!(values, expected, "{cascade:?}");
        assert_eq!(values.is_ok(), well_formed(&cascade.0, &cascade.1));
        accepted += u32::from(values.is_ok());
    }
    assert!(accepted > 40, "{accepted}");
}
