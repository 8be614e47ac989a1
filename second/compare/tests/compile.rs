//! The whole compiler against `fast` and `plain`: every field of the answer, every width and every element of the three
//! memories after, lent long, exact and short, over old contents that vary.

use proved::{compile, odd_jobs, Totals, ROW_BYTES, WIDTHS};
use second::fast::Compiler;
use second::generate::{job, Family};
use second::job::{Answer, Job, Lent, Node};
use second::plain;
use std::collections::BTreeMap;

const SEED: u64 = 61;

/// Numbers of any kind, one after another.
struct Numbers(u64);

impl Numbers {
    fn next(&mut self) -> u64 {
        self.0 ^= self.0 << 13;
        self.0 ^= self.0 >> 7;
        self.0 ^= self.0 << 17;
        self.0
    }

    fn below(&mut self, limit: usize) -> usize {
        (self.next() % limit as u64) as usize
    }
}

/// The memories as C lends them: the node table as words, of any number.
#[derive(Clone, Debug, PartialEq)]
struct Memories {
    nodes: Vec<u16>,
    records: Vec<u8>,
    rows: Vec<u8>,
    widths: [u16; WIDTHS],
}

impl Memories {
    /// So many words and bytes, old contents of their own for each call.
    fn old([words, records, rows]: [usize; 3], numbers: &mut Numbers) -> Memories {
        let mut widths = [0; WIDTHS];
        widths.fill_with(|| numbers.next() as u16);
        Memories {
            nodes: (0..words).map(|_| numbers.next() as u16).collect(),
            records: (0..records).map(|_| numbers.next() as u8).collect(),
            rows: (0..rows).map(|_| numbers.next() as u8).collect(),
            widths,
        }
    }

    /// As the second compiler is lent them: words that make no whole node are left out.
    fn lent(&self) -> Lent {
        let node = |words: &[u16]| Node {
            height: words[0],
            low: words[1],
            high: words[2],
        };
        Lent {
            nodes: self.nodes.chunks_exact(3).map(node).collect(),
            records: self.records.clone(),
            rows: self.rows.clone(),
        }
    }

    /// After a second compiler's call.
    fn after(&mut self, lent: Lent) {
        for (words, node) in self.nodes.chunks_exact_mut(3).zip(&lent.nodes) {
            words.copy_from_slice(&[node.height, node.low, node.high]);
        }
        self.records = lent.records;
        self.rows = lent.rows;
    }
}

/// One call of both on memories of these lengths; all must be the same after. Answers the refusal, or 0.
fn check(
    job: &Job,
    lengths: [usize; 3],
    numbers: &mut Numbers,
    second: &mut impl FnMut(&Job, &mut Lent) -> Answer,
) -> u8 {
    let mut here = Memories::old(lengths, numbers);
    let mut there = here.clone();
    let mut lent = there.lent();
    let answer = match second(job, &mut lent) {
        Answer::Refused(refusal) => Totals {
            refusal,
            ..Totals::default()
        },
        Answer::Accepted(made) => {
            there.widths = made.widths;
            Totals {
                refusal: 0,
                nodes: made.nodes as u16,
                cells: made.cells as u8,
                rows: made.rows as u16,
                bits: made.bits as u32,
            }
        }
    };
    there.after(lent);
    let given = compile(
        job,
        &mut here.nodes,
        &mut here.records,
        &mut here.rows,
        &mut here.widths,
    );
    assert_eq!(given, answer, "the answer differs: {lengths:?} {job:?}");
    assert!(here == there, "the memories differ: {lengths:?} {job:?}");
    answer.refusal
}

/// How often each refusal came; 0 stands for none.
type Seen = BTreeMap<u8, u64>;

fn seen(of: &Seen, refusal: u8) -> u64 {
    of.get(&refusal).copied().unwrap_or(0)
}

/// Each job with long, exact and short memories.
fn compare(
    name: &str,
    jobs: impl Iterator<Item = Job>,
    mut second: impl FnMut(&Job, &mut Lent) -> Answer,
) -> Seen {
    let mut numbers = Numbers(SEED);
    let mut all = Seen::new();
    let mut calls = 0u64;
    for (index, job) in jobs.enumerate() {
        let mut enough = Lent {
            nodes: vec![Node::default(); 10_240],
            records: vec![0; 80],
            rows: vec![0; ROW_BYTES],
        };
        let needed = match second(&job, &mut enough) {
            Answer::Accepted(made) => [made.nodes * 3, job.order.len() * 4, made.rows * 2],
            Answer::Refused(_) => [numbers.below(400), numbers.below(100), numbers.below(400)],
        };
        let more = |numbers: &mut Numbers| needed.map(|length| length + numbers.below(9));
        let mut kinds = vec![needed, more(&mut numbers)];
        if index % 50 == 0 {
            kinds.push([30_720, 80, ROW_BYTES]);
        }
        // One, two or three memories too short.
        let short = index % 7 + 1;
        let mut lengths = more(&mut numbers);
        for (place, length) in lengths.iter_mut().enumerate() {
            if short >> place & 1 == 1 {
                *length = match numbers.below(4) {
                    0 => needed[place].saturating_sub(1),
                    1 => numbers.below(needed[place] + 1),
                    2 => needed[place] / 2,
                    _ => 0,
                };
            }
        }
        kinds.push(lengths);
        for lengths in kinds {
            let refusal = check(&job, lengths, &mut numbers, &mut second);
            *all.entry(refusal).or_default() += 1;
            calls += 1;
        }
    }
    println!("{name}: {calls} calls, {all:?}");
    all
}

fn with_fast(family: Family, jobs: u64) -> Seen {
    let mut compiler = Compiler::new();
    let name = format!("{}: {jobs} jobs with fast", family.name());
    compare(
        &name,
        (0..jobs).map(|i| job(family, SEED, i)),
        |job, lent| compiler.compile(job, lent),
    )
}

fn with_plain(family: Family, jobs: u64) -> Seen {
    let name = format!("{}: {jobs} jobs with plain", family.name());
    compare(
        &name,
        (0..jobs).map(|i| job(family, SEED, i)),
        plain::compile,
    )
}

/// Accepted, and 9, 10 and 11, each at least so often.
fn lent_cases(all: &Seen, least: u64) -> bool {
    [0, 9, 10, 11]
        .iter()
        .all(|&number| seen(all, number) >= least)
}

#[test]
fn small() {
    for family in Family::SMALL {
        let all = with_fast(family, 9_000);
        assert!(lent_cases(&all, 900), "{all:?}");
        let all = with_plain(family, 2_000);
        assert!(lent_cases(&all, 200), "{all:?}");
    }
}

#[test]
fn damaged() {
    let all = with_fast(Family::SmallDamaged, 10_000);
    assert!((1..=6).all(|number| seen(&all, number) >= 100), "{all:?}");
    let all = with_plain(Family::SmallDamaged, 2_000);
    assert!((1..=6).all(|number| seen(&all, number) >= 20), "{all:?}");
}

#[test]
fn medium() {
    for family in [Family::Medium, Family::FullRows] {
        let all = with_fast(family, 4_000);
        assert!(lent_cases(&all, 300), "{all:?}");
        with_plain(family, 200);
    }
}

#[test]
fn cell_limits() {
    let all = with_fast(Family::Tight, 4_000);
    assert!(all.keys().eq([&8]), "{all:?}");
    let all = with_fast(Family::Loose, 4_000);
    assert!(lent_cases(&all, 400), "{all:?}");
    with_plain(Family::Tight, 60);
    with_plain(Family::Loose, 60);
}

#[test]
fn limits() {
    for family in [Family::LimitFewFree, Family::LimitManyFree] {
        let all = with_fast(family, 1_000);
        assert!(lent_cases(&all, 50), "{all:?}");
        with_plain(family, 6);
    }
}

#[test]
fn columns() {
    let all = with_fast(Family::Columns512, 500);
    assert!(lent_cases(&all, 20), "{all:?}");
    let all = with_fast(Family::Columns513, 500);
    assert!(all.keys().eq([&7]), "{all:?}");
    let all = with_fast(Family::ColumnsAround, 500);
    assert!(seen(&all, 0) >= 50 && seen(&all, 7) >= 50, "{all:?}");
    let all = with_fast(Family::ColumnsDense, 500);
    let in_order = all.keys().all(|number| matches!(number, 0 | 9..=11));
    assert!(lent_cases(&all, 20) && in_order, "{all:?}");
}

/// Document 02, §1: outputs above inputs named for them, on which they depend or not.
#[test]
fn dependence() {
    let mut inputs = [0u64; 9];
    for index in 0..12_000 {
        inputs[job(Family::FullRowsAnywhere, SEED, index).inputs as usize] += 1;
    }
    assert!(
        inputs[1..].iter().all(|&count| count >= 1_000),
        "{inputs:?}"
    );
    let in_order = |all: &Seen| all.keys().all(|number| matches!(number, 0 | 7..=11));
    for (family, jobs, literal) in [
        (Family::FullRowsAnywhere, 12_000, 150),
        (Family::NamedNotDependent, 12_000, 150),
        (Family::LimitNamed, 400, 4),
    ] {
        let all = with_fast(family, jobs);
        assert!(lent_cases(&all, jobs / 20) && in_order(&all), "{all:?}");
        let all = with_plain(family, literal);
        assert!(seen(&all, 0) >= literal && in_order(&all), "{all:?}");
    }
    for all in [
        with_fast(Family::DependentAbove, 8_000),
        with_plain(Family::DependentAbove, 120),
    ] {
        assert!(all.keys().eq([&6]), "{all:?}");
    }
}

/// Document 02, §3: stop records over ordinary ones, alone, clashing and damaged.
#[test]
fn stop_records() {
    let in_order = |all: &Seen| all.keys().all(|number| matches!(number, 0 | 7..=11));
    for (family, jobs, literal) in [
        (Family::StopSome, 14_000, 250),
        (Family::StopOnly, 6_000, 100),
        (Family::LimitStop, 300, 8),
    ] {
        let all = with_fast(family, jobs);
        assert!(lent_cases(&all, jobs / 20) && in_order(&all), "{all:?}");
        assert!(seen(&all, 8) >= jobs / 20, "{all:?}");
        let all = with_plain(family, literal);
        assert!(seen(&all, 0) >= literal / 2 && in_order(&all), "{all:?}");
    }
    for all in [
        with_fast(Family::StopClash, 4_000),
        with_plain(Family::StopClash, 150),
    ] {
        assert!(all.keys().eq([&5]), "{all:?}");
    }
    for all in [
        with_fast(Family::StopDamaged, 6_000),
        with_plain(Family::StopDamaged, 150),
    ] {
        assert!(all.keys().eq([&4, &6]), "{all:?}");
    }
}

/// Document 02, §6: 9 rails at a cut, cells of up to 15 outputs, and the same sheets under every L from 0 to 17.
#[test]
fn many_outputs() {
    let all = with_fast(Family::NineRails, 300);
    assert!(lent_cases(&all, 20) && seen(&all, 8) >= 20, "{all:?}");
    with_plain(Family::NineRails, 2);
    let all = with_fast(Family::ManyOutputs, 2_000);
    assert!(lent_cases(&all, 100), "{all:?}");
    with_plain(Family::ManyOutputs, 20);

    let every_limit = |family: Family, sheets: u64| {
        let sheets = (0..sheets).map(move |index| job(family, SEED, index));
        sheets.flat_map(|job| {
            (0..=17).map(move |cell_outputs| Job {
                cell_outputs,
                ..job.clone()
            })
        })
    };
    let mut compiler = Compiler::new();
    for (family, sheets) in [
        (Family::SmallOrders, 200),
        (Family::Medium, 200),
        (Family::Loose, 100),
        (Family::LimitFewFree, 20),
        (Family::Columns512, 10),
        (Family::NineRails, 20),
        (Family::ManyOutputs, 100),
    ] {
        let name = format!("{} under every L", family.name());
        let all = compare(&name, every_limit(family, sheets), |job, lent| {
            compiler.compile(job, lent)
        });
        // L 0 and 17, each with three or four memories.
        assert!(seen(&all, 1) >= 2 * 3 * sheets, "{all:?}");
        assert!(lent_cases(&all, sheets / 10), "{all:?}");
    }
}

/// Numbers of any size and slices of any length and contents.
#[test]
fn odd_numbers_and_lengths() {
    let jobs = odd_jobs(&job(Family::SmallOrders, SEED, 3));
    let mut compiler = Compiler::new();
    let all = compare("odd numbers and lengths", jobs.into_iter(), |job, lent| {
        compiler.compile(job, lent)
    });
    assert!((0..=3).all(|number| seen(&all, number) > 0), "{all:?}");
}
