//! Outputs that are certain while inputs are unknown, by every evaluation: cases worked out by hand, then all of them against `plain`.

use second::cases;
use second::generate::{
    compiled, damage, job, known_but, made, row_bytes, Family, Random, StoredBlock as Cascade,
};
use second::known::{
    fillings, fused, plain, sets, sets_with, submasks, two_rails, Mistake, Runs, Values, UNKNOWN,
};
use second::stored::{cells, emit, well_formed};

const SEED: u64 = 503;

fn records(list: &[(u8, u8, u8)]) -> Vec<u8> {
    list.iter().flat_map(|&(v, c, r)| [v, c, r, 0]).collect()
}

/// Values of the lowest outputs; the others are lacking.
fn shown(lowest: &[u8]) -> Values {
    let mut values = [UNKNOWN; 8];
    values[..lowest.len()].copy_from_slice(lowest);
    Ok(values)
}

/// The exact evaluations must all say so.
fn exact(cascade: &Cascade, known: u16, word: u16, lowest: &[u8]) {
    for evaluation in [plain, fillings, sets, fused] {
        let values = evaluation(&cascade.0, &cascade.1, known, word);
        assert_eq!(values, shown(lowest), "{known:b} {word:b}");
    }
}

/// The accepted jobs among so many of each family, compiled.
fn all_compiled(jobs: u64) -> impl Iterator<Item = Cascade> {
    let jobs = move |family| (0..jobs).map(move |index| job(family, SEED, index));
    Family::ALL
        .into_iter()
        .flat_map(jobs)
        .filter_map(|job| compiled(&job))
}

/// So many made by hand, and compiled ones of every family that is accepted.
fn cascades(by_hand: u64, jobs: u64) -> impl Iterator<Item = Cascade> {
    let by_hand = (0..by_hand).map(|index| made(SEED, index));
    by_hand.chain(all_compiled(jobs))
}

/// The values, by `sets`, of a well-formed cascade.
fn certain(cascade: &Cascade, known: u16, word: u16) -> [u8; 8] {
    sets(&cascade.0, &cascade.1, known, word).expect("well formed")
}

#[test]
fn table_1() {
    // Case A: x1 x2 x3 go to two rails, x4 and these to y1 y2. By x1x2x3, 000 counted up, the rail word is 0 1 2 2 0 3 2 2; by the rail
    // word, then x4, y1y2 is 01 01, 00 00, 10 11, 10 10.
    let cascade = compiled(&cases::a()).expect("accepted");
    // Nothing known: y1 and y2 take both values.
    exact(&cascade, 0, 0, &[2, 2]);
    // x2x3 = 00: rail word 0 whatever x1 is, and x4 does not matter there.
    exact(&cascade, 0b0110, 0b0000, &[0, 1]);
    // x1x3 = 11: rail words 3 and 2, so y1 is 1; y2 is 0 but for rail word 2 with x4 = 1.
    exact(&cascade, 0b0101, 0b0101, &[1, 2]);
    exact(&cascade, 0b1101, 0b0101, &[1, 0]);
    // x1x3x4 = 010: rail words 1 and 2, for which y1 is 0 and 1, and y2 is 0. Each rail alone may be 0 or 1, and so with two rails a
    // signal rail word 0, where y2 is 1, isn't ruled out.
    exact(&cascade, 0b1101, 0b0100, &[2, 0]);
    let safe = two_rails(&cascade.0, &cascade.1, 0b1101, 0b0100);
    assert_eq!(safe, shown(&[2, 2]));
}

#[test]
fn the_examples_of_document_003() {
    // Its example 2.1, f = not x1 and x2, or x1 and x3. As in its figure 2.2 the first product p is made by itself: x1 x2 go to rails
    // p x1, and then f = p or x1 and x3.
    let cascade = (
        records(&[(0, 0, 0), (1, 1, 2), (2, 0, 0), (128, 1, 0)]),
        row_bytes(&[0b00, 0b10, 0b01, 0b01, 0, 0, 0, 1, 1, 1, 1, 1]),
    );
    // x1x2x3 = 00u, u11 and u1u give 0, 1 and u.
    exact(&cascade, 0b011, 0b000, &[0]);
    exact(&cascade, 0b110, 0b110, &[1]);
    exact(&cascade, 0b010, 0b010, &[2]);
    // Its example 2.2: for u11 p and x1 are unknown, each by itself, and f is unknown.
    let safe = |known, word| two_rails(&cascade.0, &cascade.1, known, word);
    assert_eq!(safe(0b011, 0b000), shown(&[0]));
    assert_eq!(safe(0b110, 0b110), shown(&[2]));
    assert_eq!(safe(0b010, 0b010), shown(&[2]));
}

#[test]
fn rails_that_go_together() {
    // x1 goes to rails x1 and not x1; y1 is whether they differ: always.
    let made = |list: &[(u8, u8, u8)], rows: &[u16]| (records(list), row_bytes(rows));
    let cascade = made(&[(0, 1, 2), (128, 1, 0)], &[1, 2, 0, 1, 1, 0]);
    exact(&cascade, 0, 0, &[1]);
    let safe = two_rails(&cascade.0, &cascade.1, 0, 0);
    assert_eq!(safe, shown(&[2]));
    // y1 is the rail, and word 0 of it is never reached.
    let cascade = made(&[(0, 1, 1), (128, 1, 0)], &[1, 1, 0, 1]);
    exact(&cascade, 0, 0, &[1]);
    // A cell without inputs, then one without outputs: y1 is certain, the others are lacking.
    let cascade = made(&[(128, 1, 0), (5, 1, 0)], &[1, 0, 0]);
    exact(&cascade, 0, 0xFFFF, &[1]);
    // Output 7 alone, which is input 11.
    let cascade = made(&[(11, 0, 0), (135, 1, 0)], &[0, 1]);
    exact(&cascade, 0x7FF, 0xFFF, &[]);
    exact(&cascade, 0x800, 0x800, &[2, 2, 2, 2, 2, 2, 2, 1]);
    exact(&cascade, 0x800, 0x7FF, &[2, 2, 2, 2, 2, 2, 2, 0]);
}

/// x1 to x12 go to twelve rails, each word to its own; y1 is the exclusive or of the highest rail and the lowest, y2 whether all
/// are 1.
#[test]
fn twelve_rails() {
    let mut list: Vec<(u8, u8, u8)> = (0..12).map(|x| (x, 0, 0)).collect();
    list[11] = (11, 1, 12);
    list.extend([(128, 0, 0), (129, 1, 0)]);
    let words = 0..4_096u16;
    let lower = words
        .clone()
        .map(|rail| ((rail ^ rail >> 11) & 1) << 1 | u16::from(rail == 4_095));
    let rows: Vec<u16> = words.chain(lower).collect();
    let cascade = (records(&list), row_bytes(&rows));
    exact(&cascade, 0, 0, &[2, 2]);
    // x1, input 0, is the highest rail, x12 the lowest.
    exact(&cascade, 0x801, 0x801, &[0, 2]);
    exact(&cascade, 0x801, 0x800, &[1, 0]);
    exact(&cascade, 0x7FE, 0x7FE, &[2, 2]);
    exact(&cascade, 0x002, 0x000, &[2, 0]);
    exact(&cascade, 0xFFF, 0xFFF, &[0, 1]);
}

/// x1 goes to y1 to y4 and to twelve rails, as 0000 and 0FF or 1111 and F00; y5 is whether the rail word is one of these two.
#[test]
fn sixteen_outputs() {
    let lower = (0..4_096u16).map(|rail| u16::from([0x0FF, 0xF00].contains(&rail)));
    let rows: Vec<u16> = [0x00FF, 0xFF00].into_iter().chain(lower).collect();
    let cascade = (cases::SIXTEEN_OUTPUTS.to_vec(), row_bytes(&rows));
    exact(&cascade, 0, 0, &[2, 2, 2, 2, 1]);
    exact(&cascade, 1, 0, &[0, 0, 0, 0, 1]);
    exact(&cascade, 1, 1, &[1, 1, 1, 1, 1]);
    let safe = two_rails(&cascade.0, &cascade.1, 0, 0);
    assert_eq!(safe, shown(&[2, 2, 2, 2, 2]));
}

/// `plain`, which fills only inputs that the cascade uses, against every word that agrees with the known inputs.
#[test]
fn plain_against_every_word() {
    let mut random = Random::new(1, SEED, 0);
    let small = cascades(400, 20).filter(|(_, rows)| rows.len() <= 128);
    let mut tried = 0;
    for cascade in small.take(60) {
        let (records, rows) = &cascade;
        let emitted: Vec<_> = (0..4_096).map(|word| emit(records, rows, word)).collect();
        for unknown in 0..=12 {
            let (known, word) = (known_but(&mut random, unknown), random.word());
            let every = |output: usize, value| {
                (0..4_096)
                    .filter(|w| (w ^ word) & known & 0xFFF == 0)
                    .all(|w| emitted[usize::from(w)].expect("well formed")[output] == Some(value))
            };
            let expected = std::array::from_fn(|output| match () {
                () if every(output, false) => 0,
                () if every(output, true) => 1,
                () => UNKNOWN,
            });
            assert_eq!(plain(records, rows, known, word), Ok(expected));
            tried += 1;
        }
    }
    assert_eq!(tried, 60 * 13);
}

/// All exact evaluations against `plain`, and two rails a signal against it: never 0 or 1 where `plain` says otherwise. Answers how
/// many outputs were 0, 1 and unknown, and how many were certain by the exact ones alone.
fn compare(cascade: &Cascade, runs: &Runs, known: u16, word: u16) -> [u64; 4] {
    let (records, rows) = cascade;
    let expected = runs.values(known, word);
    assert_eq!(
        sets(records, rows, known, word),
        Ok(expected),
        "{cascade:?}"
    );
    let safe = two_rails(records, rows, known, word).expect("well formed");
    let mut counts = [0; 4];
    for (exact, safe) in expected.into_iter().zip(safe) {
        assert!(safe == exact || safe == UNKNOWN, "{cascade:?}");
        counts[usize::from(exact)] += 1;
        counts[3] += u64::from(safe != exact);
    }
    counts
}

fn add(sums: &mut [u64; 4], counts: [u64; 4]) {
    for (sum, count) in sums.iter_mut().zip(counts) {
        *sum += count;
    }
}

#[test]
fn every_mask_of_small_cascades() {
    let mut random = Random::new(2, SEED, 0);
    let mut sums = [0; 4];
    let small = |cascade: &Cascade| cascade.1.len() <= 600;
    let mut tried = 0;
    for cascade in cascades(2_000, 30).filter(small).step_by(2) {
        let runs = Runs::of(&cascade.0, &cascade.1).expect("well formed");
        for mask in 0..4_096 {
            let word = random.word();
            add(&mut sums, compare(&cascade, &runs, mask, word));
        }
        tried += 1;
    }
    println!("{tried} cascades, every mask: 0, 1, unknown, certain by sets alone {sums:?}");
    assert!(
        tried > 60 && sums.iter().all(|&sum| sum > 10_000),
        "{tried} {sums:?}"
    );
}

#[test]
fn random_masks() {
    let mut random = Random::new(3, SEED, 0);
    let mut sums = [0; 4];
    let mut tried = 0;
    for cascade in cascades(1_600, 60) {
        let runs = Runs::of(&cascade.0, &cascade.1).expect("well formed");
        for unknown in (0..=12).chain([1, 2, 3]) {
            let (known, word) = (known_but(&mut random, unknown), random.word());
            add(&mut sums, compare(&cascade, &runs, known, word));
        }
        let (known, word) = (random.word(), random.word());
        let expected = Ok(runs.values(known, word));
        assert_eq!(plain(&cascade.0, &cascade.1, known, word), expected);
        assert_eq!(fillings(&cascade.0, &cascade.1, known, word), expected);
        tried += 1;
    }
    println!("{tried} cascades, 16 masks: 0, 1, unknown, certain by sets alone {sums:?}");
    assert!(sums.iter().all(|&sum| sum > 1_000), "{sums:?}");
}

/// Inputs learnt one by one in any order: a 0 or 1 stays as it is, and at last the outputs are those of a run.
#[test]
fn learning_inputs() {
    let mut random = Random::new(4, SEED, 0);
    let mut learnt = 0;
    for cascade in cascades(1_000, 20) {
        let word = random.word();
        let mut known = random.word() & 0xF000;
        let mut before = certain(&cascade, known, word);
        for input in random.permutation(12) {
            known |= 1 << input;
            let after = certain(&cascade, known, word);
            for (old, new) in before.into_iter().zip(after) {
                assert!(old == new || old == UNKNOWN, "{cascade:?}");
                learnt += u32::from(old != new);
            }
            before = after;
        }
        let emitted = emit(&cascade.0, &cascade.1, word).expect("well formed");
        assert_eq!(before, emitted.map(|value| value.map_or(UNKNOWN, u8::from)));
    }
    assert!(learnt > 1_000, "{learnt}");
}

/// Bits of the word at unknown inputs, bits above 11, and bits of inputs that no cell uses.
#[test]
fn bits_without_effect() {
    let mut random = Random::new(5, SEED, 0);
    for cascade in cascades(800, 20) {
        let cells = cells(&cascade.0).expect("well formed");
        let inputs = cells.iter().flat_map(|cell| &cell.inputs);
        let used = inputs.fold(0, |mask, input| mask | 1 << input);
        for unknown in 0..=12 {
            let (known, word) = (known_but(&mut random, unknown), random.word());
            let values = certain(&cascade, known, word);
            let any = random.word();
            for (known, word) in [
                (known, word & known | any & !known),
                (known & 0xFFF | any & 0xF000, word),
                (known, word & 0xFFF | any & 0xF000),
                (known & used | any & !used, word),
                (known, word & used | any & !used),
                (known & used, word & known & used),
            ] {
                assert_eq!(certain(&cascade, known, word), values, "{cascade:?}");
            }
        }
    }
}

#[test]
fn not_well_formed_is_12() {
    let mut random = Random::new(6, SEED, 0);
    let mut refused = 0;
    for (index, cascade) in cascades(4_000, 20).enumerate() {
        let (records, rows) = damage(SEED, index as u64, &cascade);
        let (known, word) = (random.word(), random.word());
        let expected = plain(&records, &rows, known, word);
        assert_eq!(expected == Err(12), !well_formed(&records, &rows));
        assert_eq!(sets(&records, &rows, known, word), expected);
        assert_eq!(fillings(&records, &rows, known, word), expected);
        let safe = two_rails(&records, &rows, known, word);
        assert_eq!(safe.is_err(), expected.is_err());
        refused += u32::from(expected.is_err());
    }
    println!("{refused} damaged cascades are refused");
    assert!(refused > 3_000, "{refused}");
    // One byte of case A's records changed in every way; then its rows.
    let (records, rows) = compiled(&cases::a()).expect("accepted");
    let agrees = |records: &[u8], rows: &[u8]| {
        let values = sets(records, rows, 0b0110, 0);
        assert_eq!(values, plain(records, rows, 0b0110, 0), "{records:?}");
        assert_eq!(values.is_ok(), well_formed(records, rows));
    };
    for (place, value) in (0..records.len()).flat_map(|p| (0..=255).map(move |v| (p, v))) {
        let mut changed = records.clone();
        changed[place] = value;
        agrees(&changed, &rows);
    }
    for (place, value) in (0..rows.len()).flat_map(|p| (0..=255).map(move |v| (p, v))) {
        let mut changed = rows.clone();
        changed[place] = value;
        agrees(&records, &changed);
    }
    for length in 0..70 {
        agrees(&records, &[0; 70][..length]);
        agrees(&[0; 100][..length], &rows);
    }
}

/// Each mistake shows on many cascades.
#[test]
fn mistakes() {
    let mut random = Random::new(7, SEED, 0);
    let wrong = [
        Mistake::SetKept,
        Mistake::LowestRailWord,
        Mistake::LackingAsZero,
    ];
    let (mut tried, mut found) = (0, [0; 3]);
    for cascade in cascades(800, 20) {
        let (records, rows) = &cascade;
        let asked: [_; 10] = std::array::from_fn(|k| (known_but(&mut random, k), random.word()));
        let differs = |mistake| {
            asked.iter().any(|&(known, word)| {
                let values = sets_with(records, rows, known, word, mistake);
                values != plain(records, rows, known, word)
            })
        };
        assert!(!differs(Mistake::None));
        for (found, mistake) in found.iter_mut().zip(wrong) {
            *found += u32::from(differs(mistake));
        }
        tried += 1;
    }
    println!("{tried} cascades; {wrong:?} differ on {found:?}");
    assert!(found.iter().all(|&found| found > tried / 5), "{found:?}");
}

#[test]
fn submasks_are_all_and_in_order() {
    for free in [0, 1, 0x800, 0xFFF, 0x5A5, 0xFFFF, 0x8001] {
        let expected = (0..=0xFFFF).filter(|number| number & !free == 0);
        assert!(submasks(free).eq(expected));
    }
}
