//! Line order (document 02, §4): sheets with the same records, each as often, in any arrangement, are one to both compilers.

mod written;

use second::fast::Compiler;
use second::generate::{arranged, job, lent, Family};
use second::job::{Answer, Job, Lent};
use second::plain::{self, compile_with, Mistake};
use std::collections::BTreeMap;
use written::{enough, made, refusal, written, Line};

const SEED: u64 = 404;

/// A compiler gives the same answer and the same memory after for all six, over memory that is enough and over memory one
/// too short, exact or too long. Answers the number of arrangements that are other bytes, and counts the refusals.
fn same(
    job: &Job,
    index: u64,
    compile: &mut dyn FnMut(&Job, &mut Lent) -> Answer,
    seen: &mut BTreeMap<u8, u64>,
) -> usize {
    let others = arranged(job, SEED, index);
    let mut all = |before: &Lent| {
        let mut of = |job: &Job| {
            let mut after = before.clone();
            (compile(job, &mut after), after)
        };
        let first = of(job);
        for other in &others {
            assert!(of(other) == first, "{:?} {job:?} {other:?}", first.0);
        }
        let number = match first.0 {
            Answer::Accepted(_) => 0,
            Answer::Refused(number) => number,
        };
        *seen.entry(number).or_default() += 1;
        first.0
    };
    let needed = match all(&enough()) {
        Answer::Accepted(totals) => (totals.nodes, 4 * job.order.len(), 2 * totals.rows),
        Answer::Refused(_) => (1, 1, 1),
    };
    all(&lent(job, SEED, index, needed));
    others.iter().filter(|o| o.sheet != job.sheet).count()
}

/// So many sheets of each family by `fast`, and the first of them by `plain`.
#[test]
fn both_compilers() {
    let mut compiler = Compiler::new();
    let mut seen = BTreeMap::new();
    let (mut sheets, mut other) = (0, 0);
    for family in Family::ALL {
        let (jobs, literal) = match family {
            Family::LimitFewFree | Family::LimitManyFree => (20, 1),
            Family::LimitNamed | Family::LimitStop => (20, 1),
            Family::Columns512 | Family::Columns513 => (20, 1),
            Family::ColumnsAround | Family::ColumnsDense => (20, 1),
            Family::NineRails => (20, 1),
            Family::ManyOutputs => (60, 4),
            Family::Medium | Family::FullRows => (100, 8),
            _ => (300, 60),
        };
        for index in 0..jobs {
            let job = job(family, SEED, index);
            let fast = &mut |job: &Job, lent: &mut Lent| compiler.compile(job, lent);
            other += same(&job, index, fast, &mut seen);
            sheets += 1;
            if index < literal {
                same(&job, index, &mut plain::compile, &mut seen);
            }
        }
    }
    println!("{sheets} sheets, {other} other arrangements, {seen:?}");
    assert!(other > 4 * sheets, "{other} of {sheets}");
    assert!((0..=11).all(|number| seen[&number] >= 10), "{seen:?}");
}

/// The arrangements hold the same records, each as often, and what follows the last whole record.
#[test]
fn the_arrangements() {
    let sorted = |sheet: &[u8]| {
        let mut records: Vec<&[u8]> = sheet.chunks_exact(8).collect();
        records.sort_unstable();
        records.concat()
    };
    for family in Family::ALL {
        for index in 0..40 {
            let mut job = job(family, SEED, index);
            let tail = [1, 2, 3, 4, 5, 6, 7];
            job.sheet.extend(&tail[..index as usize % 8]);
            let whole = job.sheet.len() / 8 * 8;
            for other in arranged(&job, SEED, index) {
                assert_eq!(sorted(&other.sheet), sorted(&job.sheet));
                assert_eq!(other.sheet[whole..], job.sheet[whole..]);
            }
        }
    }
    let empty = written(1, 1, &[0, 128], &[]);
    assert!(arranged(&empty, SEED, 0).iter().all(|job| *job == empty));
}

/// All sheets of three records of one input and one output: each is answered as the same records sorted.
#[test]
fn every_small_sheet() {
    let mut all: Vec<Line> = Vec::new();
    for (mask, values) in [(0, 0), (1, 0), (1, 1)] {
        for (zeros, ones) in [(0, 0), (1, 0), (0, 1)] {
            all.extend([0, 1].map(|kind| (mask, values, zeros, ones, kind)));
        }
    }
    for order in [[0, 128], [128, 0]] {
        let mut sorted = BTreeMap::new();
        for place in 0..all.len().pow(3) {
            let mut lines = [place, place / 18, place / 324].map(|at| all[at % 18]);
            let here = made(&written(1, 1, &order, &lines));
            lines.sort_unstable();
            let first = sorted.entry(lines).or_insert_with(|| here.clone());
            assert!(here == *first, "{lines:?}");
        }
        assert_eq!(sorted.len(), 18 * 19 * 20 / 6);
    }
}

/// "Each as often": a record that stands twice is no other function, but it counts for 3.
#[test]
fn a_record_that_stands_more_often() {
    let lines = [(1, 1, 1, 0, 0), (2, 2, 0, 2, 1), (3, 0, 2, 1, 0)];
    let job = |count: usize| {
        let lines: Vec<Line> = (0..count).map(|i| lines[i % 3]).collect();
        written(2, 2, &[0, 1, 128, 129], &lines)
    };
    let once = made(&job(3));
    assert!(matches!(once.0, Answer::Accepted(_)));
    for count in [4, 6, 255, 256] {
        assert!(made(&job(count)) == once);
        for other in arranged(&job(count), SEED, count as u64) {
            assert!(made(&other) == once);
        }
    }
    for count in [257, 300] {
        for other in arranged(&job(count), SEED, count as u64) {
            assert_eq!(refusal(&other), 3);
        }
    }
}

/// In how many of 500 jobs a compiler with a mistake tells arrangements apart.
fn shows(family: Family, mistake: Mistake) -> usize {
    let tells_apart = |index: &u64| {
        let job = job(family, SEED, *index);
        let of = |job: &Job| {
            let mut lent = enough();
            (compile_with(job, &mut lent, mistake), lent)
        };
        let first = of(&job);
        arranged(&job, SEED, *index).iter().any(|j| of(j) != first)
    };
    (0..500).filter(tells_apart).count()
}

#[test]
fn mistakes_show() {
    let later = shows(Family::StopSome, Mistake::LaterDecides);
    let last = shows(Family::SmallOrders, Mistake::LastMatching);
    let next = shows(Family::StopClash, Mistake::NextRecordOnly);
    println!("later {later}, last {last}, next {next}");
    assert!(later > 100 && last > 100 && next > 100);
    for family in [Family::StopSome, Family::SmallOrders, Family::StopClash] {
        assert_eq!(shows(family, Mistake::None), 0);
    }
}
