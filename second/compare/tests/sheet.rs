//! The sheet layer against `plain`: refusal and every byte of the table after, over old contents that vary.

use proved::{odd_jobs, sheet_refusal, sheet_table, TABLE_BYTES};
use second::generate::{job, Family};
use second::job::Job;
use second::plain;
use std::collections::BTreeMap;

const SEED: u64 = 31;

/// The table that must be there after: `plain` has its lines topmost output first, the proved layer lowest first.
fn expected(job: &Job, old: &[u8; TABLE_BYTES]) -> (u8, Vec<u8>) {
    let mut after = old.to_vec();
    match plain::table(job) {
        Err(number) => (number, after),
        Ok(table) => {
            let line = 1 << job.inputs;
            for (place, values) in table.chunks_exact(line).rev().enumerate() {
                after[place * line..][..line].copy_from_slice(values);
            }
            (0, after)
        }
    }
}

/// Compares so many jobs of a family; answers how often each refusal came.
fn compare(family: Family, jobs: u64) -> BTreeMap<u8, u64> {
    let mut seen = BTreeMap::new();
    let mut old = [0u8; TABLE_BYTES];
    for index in 0..jobs {
        let job = job(family, SEED, index);
        let mut state = index.wrapping_mul(0x9E37_79B9_7F4A_7C15) | 1;
        for byte in old.iter_mut() {
            state ^= state << 13;
            state ^= state >> 7;
            state ^= state << 17;
            *byte = state as u8;
        }
        let (number, table) = expected(&job, &old);
        assert_eq!(sheet_refusal(&job), number, "{job:?}");
        let mut lent = old;
        assert_eq!(sheet_table(&job, &mut lent), number, "{job:?}");
        assert!(lent[..] == table[..], "the table differs: {job:?}");
        *seen.entry(number).or_default() += 1;
    }
    println!("{}: {jobs} jobs, {seen:?}", family.name());
    seen
}

#[test]
fn small() {
    for family in Family::SMALL {
        assert_eq!(compare(family, 4_500).len(), 1);
    }
}

#[test]
fn damaged() {
    let seen = compare(Family::SmallDamaged, 9_000);
    assert!((1..=6).all(|number| seen.contains_key(&number)), "{seen:?}");
}

#[test]
fn larger() {
    compare(Family::Medium, 400);
    compare(Family::FullRows, 400);
    compare(Family::Loose, 1_000);
    compare(Family::LimitFewFree, 60);
    compare(Family::LimitManyFree, 60);
    compare(Family::Columns512, 40);
}

/// Document 02, §1: outputs above inputs named for them, on which they depend or not.
#[test]
fn dependence() {
    for (family, jobs) in [
        (Family::FullRowsAnywhere, 1_500),
        (Family::NamedNotDependent, 3_000),
        (Family::LimitNamed, 40),
    ] {
        assert!(compare(family, jobs).keys().eq([&0]));
    }
    assert!(compare(Family::DependentAbove, 2_000).keys().eq([&6]));
}

/// Document 02, §3: stop records over ordinary ones, alone, clashing and damaged.
#[test]
fn stop_records() {
    for (family, jobs) in [
        (Family::StopSome, 4_000),
        (Family::StopOnly, 2_000),
        (Family::LimitStop, 40),
    ] {
        assert!(compare(family, jobs).keys().eq([&0]));
    }
    assert!(compare(Family::StopClash, 3_000).keys().eq([&5]));
    let seen = compare(Family::StopDamaged, 3_000);
    assert!(seen.keys().eq([&4, &6]), "{seen:?}");
}

/// Numbers of any size and slices of any length and contents.
#[test]
fn odd_numbers_and_lengths() {
    let old = [7u8; TABLE_BYTES];
    for job in odd_jobs(&job(Family::SmallOrders, SEED, 3)) {
        let (number, table) = expected(&job, &old);
        let mut lent = old;
        assert_eq!(sheet_table(&job, &mut lent), number, "{job:?}");
        assert!(lent[..] == table[..]);
        assert_eq!(sheet_refusal(&job), number, "{job:?}");
    }
}
