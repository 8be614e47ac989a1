//! plain against fast on random jobs of every family: every field of the answer and every byte of the lent memory.

use second::generate::{compiled, job, lent, Family};
use second::job::{Answer, Job, Lent, Node};
use second::{fast, plain};
use std::collections::BTreeMap;

const SEED: u64 = 2007;

/// Memory enough for every job, filled with a pattern.
fn enough() -> Lent {
    let node = |i: usize| Node {
        height: i as u16,
        low: 0xA000 | i as u16,
        high: !(i as u16),
    };
    Lent {
        nodes: (0..10_240).map(node).collect(),
        records: vec![0x5A; 80],
        rows: vec![0xA5; 65_536],
    }
}

/// Both compilers on the same memory; the answer, after all is found equal.
fn same(job: &Job, before: &Lent) -> Answer {
    let (mut one, mut other) = (before.clone(), before.clone());
    let answer = plain::compile(job, &mut one);
    assert_eq!(answer, fast::compile(job, &mut other), "{job:?}");
    assert!(one == other, "lent memory differs: {job:?}");
    if matches!(answer, Answer::Refused(_)) {
        assert!(one == *before, "a refusal changed lent memory: {job:?}");
    }
    answer
}

fn number(answer: Answer) -> u8 {
    match answer {
        Answer::Refused(number) => number,
        Answer::Accepted(_) => 0,
    }
}

/// So many jobs of a family, each with ample memory and with memories that are short, exact or long.
/// Answers how often each refusal came; 0 stands for acceptance.
fn compare(family: Family, jobs: u64) -> BTreeMap<u8, u64> {
    let mut seen = BTreeMap::new();
    let ample = enough();
    for index in 0..jobs {
        let job = job(family, SEED, index);
        let answer = same(&job, &ample);
        *seen.entry(number(answer)).or_default() += 1;
        let needed = match answer {
            Answer::Accepted(totals) => (totals.nodes, 4 * job.order.len(), 2 * totals.rows),
            Answer::Refused(_) => (1, 1, 1),
        };
        let answer = same(&job, &lent(&job, SEED, index, needed));
        if matches!(number(answer), 9..=11) {
            *seen.entry(number(answer)).or_default() += 1;
        }
    }
    println!("{}: {jobs} jobs, {seen:?}", family.name());
    seen
}

/// The refusals that must have come, 0 for acceptance.
fn reached(seen: &BTreeMap<u8, u64>, numbers: &[u8]) {
    for number in numbers {
        assert!(seen.contains_key(number), "no {number} in {seen:?}");
    }
}

#[test]
fn small_few_free() {
    reached(&compare(Family::SmallFewFree, 3_500), &[0, 8, 9, 10, 11]);
}

#[test]
fn small_many_free() {
    reached(&compare(Family::SmallManyFree, 3_500), &[0, 9, 10, 11]);
}

#[test]
fn small_orders() {
    reached(&compare(Family::SmallOrders, 3_500), &[0, 8, 9, 10, 11]);
}

#[test]
fn small_damaged() {
    reached(&compare(Family::SmallDamaged, 5_500), &[1, 2, 3, 4, 5, 6]);
}

#[test]
fn tight_and_loose() {
    let tight = compare(Family::Tight, 2_000);
    assert_eq!(tight.keys().collect::<Vec<_>>(), [&8]);
    reached(&compare(Family::Loose, 2_000), &[0, 9, 10, 11]);
}

#[test]
fn medium() {
    reached(&compare(Family::Medium, 600), &[0, 8, 9, 10, 11]);
}

#[test]
fn full_rows() {
    reached(&compare(Family::FullRows, 600), &[0, 8, 9, 10, 11]);
}

#[test]
fn limits() {
    reached(&compare(Family::LimitFewFree, 25), &[0, 8]);
    reached(&compare(Family::LimitManyFree, 25), &[0]);
    reached(&compare(Family::LimitNamed, 15), &[0, 8]);
}

#[test]
fn dependence() {
    for family in [Family::FullRowsAnywhere, Family::NamedNotDependent] {
        let seen = compare(family, 1_000);
        reached(&seen, &[0, 8, 9, 10, 11]);
        assert!(!seen.contains_key(&6), "{seen:?}");
    }
    let above = compare(Family::DependentAbove, 1_000);
    assert_eq!(above.keys().collect::<Vec<_>>(), [&6]);
}

#[test]
fn stop_records() {
    for (family, jobs) in [(Family::StopSome, 4_000), (Family::StopOnly, 2_000)] {
        let seen = compare(family, jobs);
        reached(&seen, &[0, 8, 9, 10, 11]);
        assert!(!seen.keys().any(|number| (1..=7).contains(number)));
    }
    let clash = compare(Family::StopClash, 3_000);
    assert_eq!(clash.keys().collect::<Vec<_>>(), [&5]);
    let damaged = compare(Family::StopDamaged, 3_000);
    assert_eq!(damaged.keys().collect::<Vec<_>>(), [&4, &6]);
    reached(&compare(Family::LimitStop, 12), &[0, 8]);
}

#[test]
fn columns() {
    let most = compare(Family::Columns512, 15);
    assert!(!most.contains_key(&7), "{most:?}");
    let over = compare(Family::Columns513, 20);
    assert_eq!(over.keys().collect::<Vec<_>>(), [&7]);
    reached(&compare(Family::ColumnsAround, 15), &[7]);
    let dense = compare(Family::ColumnsDense, 8);
    assert!(dense.keys().all(|number| matches!(number, 0 | 9..=11)));
}

/// Cells of more than eight outputs. The same sheets under every L are cut in many ways.
#[test]
fn many_outputs() {
    let ample = enough();
    reached(&compare(Family::NineRails, 3), &[0]);
    let mut narrow = job(Family::NineRails, SEED, 0);
    narrow.cell_outputs = 8;
    assert_eq!(same(&narrow, &ample), Answer::Refused(8));
    reached(&compare(Family::ManyOutputs, 30), &[0, 9, 10]);
    let wide = (0..).map(|index| job(Family::ManyOutputs, SEED, index));
    let mut jobs: Vec<Job> = wide.filter(|job| job.order.len() <= 16).take(10).collect();
    jobs.extend((0..20).map(|index| job(Family::Medium, SEED, index)));
    let (mut accepted, mut above) = ([0; 17], 0);
    for limit in 1..=16 {
        for job in &mut jobs {
            job.cell_outputs = limit;
            if let Answer::Accepted(_) = same(job, &ample) {
                accepted[limit as usize] += 1;
                let (_, rows) = compiled(job).expect("accepted");
                above += usize::from(rows.chunks_exact(2).any(|row| row[1] != 0));
            }
        }
    }
    println!("accepted by L {accepted:?}, {above} with rows above 255");
    assert!(accepted[4..].iter().all(|&count| count > 5), "{accepted:?}");
    assert!(above > 20, "{above}");
}
