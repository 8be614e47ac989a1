//! The reduction against `fast` and `plain`: refusal, number of nodes, and every word of both arrays after, over old
//! contents that vary.

use proved::{odd_jobs, reduce, Reduction, NODE_WORDS, ROW_BYTES, WIDTHS};
use second::fast::{self, Compiler};
use second::generate::{job, Family};
use second::job::{Answer, Job, Lent, Node};
use second::plain;
use std::collections::BTreeMap;

const SEED: u64 = 47;

/// A refusal, or the widths at heights 0 to t - 1 and the nodes.
type Made = Result<(Vec<u16>, Vec<Node>), u8>;

/// The two arrays that are lent.
#[derive(Clone)]
struct Arrays {
    widths: [u16; WIDTHS],
    words: [u16; NODE_WORDS],
}

impl Arrays {
    /// Old contents of their own for each index.
    fn old(index: u64) -> Arrays {
        let mut arrays = Arrays {
            widths: [0; WIDTHS],
            words: [0; NODE_WORDS],
        };
        let mut state = index.wrapping_mul(0x9E37_79B9_7F4A_7C15) | 1;
        for word in arrays.widths.iter_mut().chain(&mut arrays.words) {
            state ^= state << 13;
            state ^= state >> 7;
            state ^= state << 17;
            *word = state as u16;
        }
        arrays
    }
}

fn by_fast(compiler: &mut Compiler, job: &Job) -> Made {
    fast::read(job, &mut compiler.table)?;
    fast::reduce(
        &compiler.table,
        &mut compiler.reducer,
        &mut compiler.diagram,
    )?;
    let widths = &compiler.diagram.widths[..compiler.table.top()];
    Ok((widths.to_vec(), compiler.diagram.nodes().to_vec()))
}

/// `plain` gives nodes and widths only with a cascade, so it is asked for one of the largest cells: these admit one cell for
/// the whole job, and where K and L are in range the reduction does not depend on them.
fn by_plain(job: &Job) -> Made {
    let mut job = job.clone();
    if (2..=12).contains(&job.cell_inputs) && (1..=16).contains(&job.cell_outputs) {
        (job.cell_inputs, job.cell_outputs) = (12, 16);
    }
    let mut lent = Lent {
        nodes: vec![Node::default(); NODE_WORDS / 3],
        records: vec![0; 80],
        rows: vec![0; ROW_BYTES],
    };
    match plain::compile(&job, &mut lent) {
        Answer::Refused(number) => Err(number),
        Answer::Accepted(totals) => {
            lent.nodes.truncate(totals.nodes);
            let widths = totals.widths[..job.order.len()].to_vec();
            Ok((widths, lent.nodes))
        }
    }
}

/// The answer and the arrays after must be what was made, and all else in the arrays as it was.
fn check(job: &Job, made: &Made, old: &Arrays) {
    let mut after = old.clone();
    let answer = match made {
        Err(number) => Reduction {
            refusal: *number,
            nodes: 0,
        },
        Ok((widths, nodes)) => {
            after.widths[..widths.len()].copy_from_slice(widths);
            for (words, node) in after.words.chunks_exact_mut(3).zip(nodes) {
                words.copy_from_slice(&[node.height, node.low, node.high]);
            }
            Reduction {
                refusal: 0,
                nodes: nodes.len() as u16,
            }
        }
    };
    let mut lent = old.clone();
    let given = reduce(job, &mut lent.widths, &mut lent.words);
    assert_eq!(given, answer, "the answer differs: {job:?}");
    assert_eq!(lent.widths, after.widths, "the widths differ: {job:?}");
    let other = (0..NODE_WORDS).find(|&place| lent.words[place] != after.words[place]);
    if let Some(place) = other {
        let (here, there) = (lent.words[place], after.words[place]);
        panic!("word {place} is {here}, not {there}: {job:?}");
    }
}

/// What the jobs of a comparison were.
#[derive(Debug, Default)]
struct Seen {
    /// How often each refusal came; 0 stands for none.
    refusals: BTreeMap<u8, u64>,
    /// Accepted jobs with a final width of 512.
    widest: u64,
    /// Accepted jobs with t = 20, where every width is written.
    highest: u64,
    most_nodes: usize,
}

impl Seen {
    fn count(&self, refusal: u8) -> u64 {
        self.refusals.get(&refusal).copied().unwrap_or(0)
    }

    fn only(&self, refusal: u8) -> bool {
        self.refusals.keys().eq([&refusal])
    }
}

/// Compares so many jobs of a family with what `make` makes of them.
fn compare(family: Family, jobs: u64, mut make: impl FnMut(&Job) -> Made) -> Seen {
    let mut seen = Seen::default();
    for index in 0..jobs {
        let job = job(family, SEED, index);
        let made = make(&job);
        check(&job, &made, &Arrays::old(index));
        let refusal = match &made {
            Err(number) => *number,
            Ok((widths, nodes)) => {
                seen.widest += u64::from(widths.contains(&512));
                seen.highest += u64::from(widths.len() == WIDTHS);
                seen.most_nodes = seen.most_nodes.max(nodes.len());
                0
            }
        };
        *seen.refusals.entry(refusal).or_default() += 1;
    }
    seen
}

fn with_fast(family: Family, jobs: u64) -> Seen {
    let mut compiler = Compiler::new();
    let seen = compare(family, jobs, |job| by_fast(&mut compiler, job));
    println!("{}: {jobs} jobs with fast, {seen:?}", family.name());
    seen
}

fn with_plain(family: Family, jobs: u64) -> Seen {
    let seen = compare(family, jobs, by_plain);
    println!("{}: {jobs} jobs with plain, {seen:?}", family.name());
    seen
}

/// The most columns that any height has before its own merge, as `plain` counts them.
fn most_columns(family: Family, index: u64) -> usize {
    let widths = plain::widths_before_own_merges(&job(family, SEED, index));
    let most = widths.and_then(|widths| widths.into_iter().max());
    most.expect("the sheet layer accepts the job")
}

#[test]
fn small() {
    for family in Family::SMALL {
        assert!(with_fast(family, 6_000).only(0));
    }
}

#[test]
fn small_by_plain() {
    for family in Family::SMALL {
        assert!(with_plain(family, 3_000).only(0));
    }
}

#[test]
fn damaged() {
    let seen = with_fast(Family::SmallDamaged, 8_000);
    assert!((1..=6).all(|number| seen.count(number) >= 100), "{seen:?}");
    let seen = with_plain(Family::SmallDamaged, 4_000);
    assert!((1..=6).all(|number| seen.count(number) >= 50), "{seen:?}");
}

#[test]
fn medium() {
    for family in [Family::Medium, Family::FullRows] {
        assert!(with_fast(family, 2_000).only(0));
        assert!(with_plain(family, 400).only(0));
    }
    for family in [Family::Tight, Family::Loose] {
        assert!(with_fast(family, 2_000).only(0));
        assert!(with_plain(family, 100).only(0));
    }
}

#[test]
fn limits() {
    let (mut highest, mut too_wide) = (0, 0);
    for family in [Family::LimitFewFree, Family::LimitManyFree] {
        let seen = with_fast(family, 1_500);
        highest += seen.highest;
        too_wide += seen.count(7);
        with_plain(family, 20);
    }
    assert!(highest >= 2_000 && too_wide >= 10, "{highest}, {too_wide}");
}

#[test]
fn columns_512() {
    let seen = with_fast(Family::Columns512, 1_000);
    assert!(seen.only(0) && seen.widest >= 300, "{seen:?}");
    for index in 0..20 {
        assert_eq!(most_columns(Family::Columns512, index), 512);
    }
    assert!(with_plain(Family::Columns512, 20).only(0));
}

#[test]
fn columns_513() {
    assert!(with_fast(Family::Columns513, 1_000).only(7));
    for index in 0..20 {
        assert_eq!(most_columns(Family::Columns513, index), 513);
    }
    assert!(with_plain(Family::Columns513, 20).only(7));
}

#[test]
fn columns_around() {
    let seen = with_fast(Family::ColumnsAround, 1_000);
    assert!(seen.count(0) >= 300 && seen.count(7) >= 200, "{seen:?}");
    let seen = with_plain(Family::ColumnsAround, 20);
    assert!(seen.count(0) >= 3 && seen.count(7) >= 3, "{seen:?}");
}

#[test]
fn columns_dense() {
    assert!(with_fast(Family::ColumnsDense, 500).only(0));
    for index in 0..5 {
        assert_eq!(most_columns(Family::ColumnsDense, index), 512);
    }
    assert!(with_plain(Family::ColumnsDense, 5).only(0));
}

/// Document 02, §3: stop records over ordinary ones, alone, clashing and damaged.
#[test]
fn stop_records() {
    for (family, jobs, literal) in [
        (Family::StopSome, 4_000, 400),
        (Family::StopOnly, 1_500, 150),
    ] {
        assert!(with_fast(family, jobs).only(0));
        assert!(with_plain(family, literal).only(0));
    }
    assert!(with_fast(Family::StopClash, 1_000).only(5));
    let seen = with_fast(Family::StopDamaged, 1_000);
    assert!(seen.refusals.keys().eq([&4, &6]), "{seen:?}");
    let seen = with_fast(Family::LimitStop, 300);
    assert!(seen.count(0) + seen.count(7) == 300, "{seen:?}");
    assert!(seen.highest >= 250, "{seen:?}");
    with_plain(Family::LimitStop, 4);
}

/// Compares a job with both; answers what was made.
fn both(job: &Job, index: u64) -> Made {
    let made = by_fast(&mut Compiler::new(), job);
    assert_eq!(made, by_plain(job), "{job:?}");
    check(job, &made, &Arrays::old(index));
    made
}

/// Nine inputs on top that all stay told apart while six free outputs go by: 512 columns at seven heights.
#[test]
fn many_nodes() {
    // Each of the nine is copied to output 6 or 7 at one value of inputs 9 to 11, a pair of its own.
    let slots = [0, 3, 5, 6, 7, 8, 10, 13, 15u16];
    let mut sheet = Vec::new();
    for (input, slot) in slots.iter().enumerate() {
        let mask = 7 << 9 | 1u16 << input;
        let output = 64 << (slot % 2);
        let at_0 = (slot / 2) << 9;
        let at_1 = at_0 | 1 << input;
        for (values, zeros, ones) in [(at_0, output, 0), (at_1, 0, output)] {
            sheet.extend(mask.to_le_bytes());
            sheet.extend(values.to_le_bytes());
            sheet.extend([zeros, ones, 0, 0]);
        }
    }
    let job = Job {
        inputs: 12,
        outputs: 8,
        cell_inputs: 12,
        cell_outputs: 8,
        order: (0..9)
            .chain(128..134)
            .chain(9..12)
            .chain(134..136)
            .collect(),
        sheet,
    };
    let (widths, nodes) = both(&job, 1).expect("nothing is refused");
    assert_eq!(widths[5..12], [512; 7]);
    println!("many nodes: {}, widths {widths:?}", nodes.len());
}

/// No record: one column at each height, so each node has the next one for both children.
#[test]
fn no_record() {
    for n in 1..=12u8 {
        for m in 1..=8u8 {
            let top = u16::from(n + m);
            let node = |height| {
                let child = if height == 1 { 1 } else { top - height + 3 };
                Node {
                    height,
                    low: child,
                    high: child,
                }
            };
            let nodes: Vec<Node> = (1..=top).rev().map(node).collect();
            let made = Ok((vec![1; usize::from(top)], nodes));
            let (inputs, outputs) = (0..n, 128..128 + m);
            let orders: [Vec<u8>; 2] = [
                inputs.clone().chain(outputs.clone()).collect(),
                outputs.chain(inputs).collect(),
            ];
            for order in orders {
                let job = Job {
                    inputs: u64::from(n),
                    outputs: u64::from(m),
                    cell_inputs: 2,
                    cell_outputs: 1,
                    order,
                    sheet: Vec::new(),
                };
                check(&job, &made, &Arrays::old(u64::from(top)));
            }
        }
    }
}

/// Numbers of any size and slices of any length and contents.
#[test]
fn odd_numbers_and_lengths() {
    let mut seen: BTreeMap<u8, u64> = BTreeMap::new();
    let jobs = odd_jobs(&job(Family::SmallOrders, SEED, 3));
    for (index, job) in jobs.iter().enumerate() {
        let refusal = both(job, index as u64).err().unwrap_or(0);
        *seen.entry(refusal).or_default() += 1;
    }
    println!("odd: {seen:?}");
    assert!((0..=3).all(|number| seen.contains_key(&number)), "{seen:?}");
}
