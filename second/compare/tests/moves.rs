//! The proved moves between one-byte rows and two-byte rows (document 02, §7), through their exported functions, against the second
//! one's: every answer and every byte of both memories. Damaged input is in the folder beside.

#[path = "moves/damaged.rs"]
mod damaged;

use proved::{State, BANK_BYTES, ROW_BYTES, SCAN_BYTES};
use second::cases;
use second::generate::{
    cascade, compiled, job, low_bytes, made, one_byte, Family, Random, Room, Rows, Shape,
    StoredBlock,
};
use second::moves::{narrow_cells, Way};
use second::stored::walk;
use std::collections::BTreeMap;

const SEED: u64 = 7077;
/// The cascades moved each way.
const CASCADES: usize = 20_000;
/// From so many row bytes on, not all combinations of memories are tried.
const MANY: usize = 1_500;

/// How often each answer came.
type Seen = BTreeMap<(&'static str, u8), u64>;

fn proved_run(way: Way, (records, rows): &StoredBlock, lent: &mut StoredBlock) -> u8 {
    let run = match way {
        Way::Widen => proved::widen,
        Way::Narrow => proved::narrow,
    };
    run(records, rows, &mut lent.0, &mut lent.1)
}

/// One move by both, over memories with these old contents. The answer and every byte must be the same after.
fn compare(way: Way, stored: &StoredBlock, lent: &StoredBlock, seen: &mut Seen) -> u8 {
    let (mut held, mut second) = (lent.clone(), lent.clone());
    let answer = proved_run(way, stored, &mut held);
    let expected = way.run(&stored.0, &stored.1, &mut second.0, &mut second.1);
    let lengths = (lent.0.len(), lent.1.len());
    assert_eq!(answer, expected, "{way:?} {lengths:?} {stored:?}");
    assert!(held == second, "{way:?} {lengths:?} {stored:?}");
    assert!(answer == 0 || held == *lent, "a refusal changed memory");
    *seen.entry((way.name(), answer)).or_default() += 1;
    answer
}

/// The move over memories one byte short, short by more, exact and long, with random old contents: all sixteen combinations, or, for
/// many rows, four in which each length stands once for records and once for rows.
fn over_memories(random: &mut Random, way: Way, stored: &StoredBlock, seen: &mut Seen) {
    let mut turned = Room::ALL;
    random.shuffle(&mut turned);
    for (for_records, once) in Room::ALL.into_iter().zip(turned) {
        let of_rows = match stored.1.len() < MANY {
            true => &Room::ALL[..],
            false => &[once],
        };
        for for_rows in of_rows {
            let lent = (
                for_records.memory(random, stored.0.len()),
                for_rows.memory(random, way.row_bytes(stored.1.len())),
            );
            compare(way, stored, &lent, seen);
        }
    }
}

/// The proved move to memories just long enough, or the refusal.
fn moved(random: &mut Random, way: Way, stored: &StoredBlock) -> Result<StoredBlock, u8> {
    let mut lent = (
        random.bytes(stored.0.len()),
        random.bytes(way.row_bytes(stored.1.len())),
    );
    match proved_run(way, stored, &mut lent) {
        0 => Ok(lent),
        refusal => Err(refusal),
    }
}

/// The accepted ones among so many jobs of each family, compiled.
fn all_compiled(jobs: u64) -> impl Iterator<Item = StoredBlock> {
    let jobs = move |family| (0..jobs).map(move |index| job(family, SEED, index));
    let jobs = Family::ALL.into_iter().flat_map(jobs);
    jobs.filter_map(|job| compiled(&job))
}

/// Compiled ones of every family and such that are made by hand, each way: what can be moved back, too, as one-byte rows, and then
/// others made by hand.
#[test]
fn every_cascade() {
    let mut random = Random::new(1, SEED, 0);
    let mut seen = Seen::new();
    let (mut backs, mut ups, mut tried) = (0, 0, 0);
    let mut up = |random: &mut Random, narrow: &StoredBlock, seen: &mut Seen| {
        over_memories(random, Way::Widen, narrow, seen);
        let wide = moved(random, Way::Widen, narrow).expect("moved");
        let back = moved(random, Way::Narrow, &wide).expect("moved");
        assert!(back == *narrow, "{narrow:?}");
        ups += 1;
        ups
    };
    let made = (0..).map(|index| made(SEED, index));
    for wide in all_compiled(700).chain(made).take(CASCADES) {
        over_memories(&mut random, Way::Narrow, &wide, &mut seen);
        match moved(&mut random, Way::Narrow, &wide) {
            Ok(narrow) => {
                let again = moved(&mut random, Way::Widen, &narrow).expect("moved");
                assert!(again == wide, "{wide:?}");
                up(&mut random, &narrow, &mut seen);
                backs += 1;
            }
            Err(number) => assert_eq!(number, 15),
        }
        tried += 1;
    }
    let mut index = 0;
    while up(&mut random, &one_byte(SEED, index), &mut seen) < CASCADES {
        index += 1;
    }
    println!(
        "{tried} cascades going back, {backs} of them back and up, {ups} up and back: {seen:?}"
    );
    assert_eq!((tried, ups), (CASCADES, CASCADES));
    assert_eq!(seen.len(), 3 + 4, "{seen:?}");
    assert!(seen.values().all(|&count| count > 5_000), "{seen:?}");
}

/// Memories around every length that matters, for case A.
#[test]
fn memories_of_any_length() {
    let mut random = Random::new(2, SEED, 0);
    let mut seen = Seen::new();
    let wide = compiled(&cases::a()).expect("accepted");
    let narrow = moved(&mut random, Way::Narrow, &wide).expect("moved");
    for (way, stored) in [(Way::Narrow, &wide), (Way::Widen, &narrow)] {
        let lengths = || (0..100).chain([4_096, 65_535, 65_536, 65_537, 70_000]);
        for (record_bytes, row_bytes) in lengths().flat_map(|r| lengths().map(move |q| (r, q))) {
            if record_bytes > 100 && row_bytes > 100 && record_bytes != row_bytes {
                continue;
            }
            let lent = (random.bytes(record_bytes), random.bytes(row_bytes));
            compare(way, stored, &lent, &mut seen);
        }
    }
    println!("case A over memories of any length: {seen:?}");
}

/// As many rows as can be: 32,768 with two bytes each; 15 for whatever fits.
#[test]
fn as_many_rows_as_can_be() {
    let mut random = Random::new(3, SEED, 0);
    let mut seen = Seen::new();
    for index in 0..100 {
        let kind = Rows::ALL[index as usize % Rows::ALL.len()];
        let largest = cascade(Shape::Largest, kind, SEED, index);
        for row_bytes in [0, 32_766, 32_767, 32_768, 32_769, 65_536, 80_000] {
            let lent = (random.bytes(80), random.bytes(row_bytes));
            let answer = compare(Way::Narrow, &largest, &lent, &mut seen);
            assert_eq!(answer, if row_bytes < 32_768 { 11 } else { 15 });
        }
        let low = low_bytes(&largest.1);
        let lent = (random.bytes(80), random.bytes(65_536));
        let answer = compare(Way::Widen, &(largest.0, low), &lent, &mut seen);
        assert_eq!(answer, 12);
    }
    println!("32,768 rows: {seen:?}");
}

/// The outputs of so many blocks in the bytes of a scan state.
fn outputs(state: &State, count: usize) -> &[u8] {
    &state.scan[21..][..8 * count]
}

/// Widened cascades in the proved bank: after each step the outputs set are those of the cells that runs of the cascades with
/// one-byte rows have read so far.
#[test]
fn scans_of_widened_cascades() {
    let mut random = Random::new(4, SEED, 0);
    let narrow: Vec<StoredBlock> = all_compiled(60)
        .filter_map(|wide| moved(&mut random, Way::Narrow, &wide).ok())
        .collect();
    let (mut scans, mut reads) = (0, 0);
    for group in narrow.chunks(3) {
        let mut state = State {
            bank: [0; BANK_BYTES],
            scan: [0; SCAN_BYTES],
            rows: random.bytes(ROW_BYTES),
        };
        assert_eq!(state.make(255), 0);
        let mut blocks = Vec::new();
        for (records, rows) in group {
            let block = (records.clone(), rows.clone());
            let wide = moved(&mut random, Way::Widen, &block).expect("moved");
            match state.admit(&wide.0, &wide.1) {
                0 => blocks.push(narrow_cells(records, rows).expect("well formed")),
                // The largest leave no room for others.
                number => assert_eq!(number, 11),
            }
        }
        for _ in 0..20 {
            let words: [u16; 8] = std::array::from_fn(|_| random.word());
            assert_eq!(state.latch(&words), 0);
            let mut expected = vec![2; 8 * blocks.len()];
            for (block, cells) in blocks.iter().enumerate() {
                for (number, (cell, row)) in walk(cells, words[block]).enumerate() {
                    let step = state.step();
                    assert_eq!((step.kind, step.refusal), (1, 0));
                    let place = (usize::from(step.block), usize::from(step.cell));
                    assert_eq!(place, (block, number));
                    for (output, value) in cell.values(row) {
                        expected[8 * block + output] = u8::from(value);
                    }
                    assert_eq!(outputs(&state, blocks.len()), expected);
                    reads += 1;
                }
            }
            assert_eq!(state.step().kind, 0);
            scans += 1;
        }
    }
    println!(
        "{} widened cascades, {scans} scans, {reads} reads",
        narrow.len()
    );
    assert!(narrow.len() > 700 && reads > 20_000);
}
