//! Line order (document 02, §4) through the archive: a sheet in five other arrangements of its records gives the same answer
//! and leaves every byte of the lent memory the same, in each function that takes a sheet.

use proved::{compile, reduce, sheet_refusal, sheet_table};
use proved::{Reduction, Totals, NODE_WORDS, ROW_BYTES, TABLE_BYTES, WIDTHS};
use second::generate::{arranged, job, Family, Random};
use second::job::Job;
use std::collections::BTreeMap;

const SEED: u64 = 83;

/// All that is lent for a job and a sheet.
#[derive(Clone, PartialEq)]
struct Memories {
    nodes: Vec<u16>,
    records: Vec<u8>,
    rows: Vec<u8>,
    widths: [u16; WIDTHS],
    table: Box<[u8; TABLE_BYTES]>,
    reduced: [u16; WIDTHS],
    words: Box<[u16; NODE_WORDS]>,
}

/// The answers of the functions that take a sheet.
#[derive(Debug, PartialEq)]
struct Answers {
    compiled: Totals,
    refusals: [u8; 2],
    reduced: Reduction,
}

impl Memories {
    /// So many words and bytes, old contents of their own for each sheet.
    fn old([nodes, records, rows]: [usize; 3], random: &mut Random) -> Memories {
        let mut table = Box::new([0; TABLE_BYTES]);
        let mut words = Box::new([0; NODE_WORDS]);
        for eight in table.chunks_exact_mut(8) {
            eight.copy_from_slice(&random.next().to_le_bytes());
        }
        for (word, pair) in words.iter_mut().zip(table.chunks_exact(2).cycle()) {
            *word = u16::from_le_bytes([pair[0], pair[1]]);
        }
        Memories {
            nodes: words[..nodes].to_vec(),
            records: table[..records].to_vec(),
            rows: table.iter().cycle().take(rows).copied().collect(),
            widths: std::array::from_fn(|_| random.word()),
            table,
            reduced: std::array::from_fn(|_| random.word()),
            words,
        }
    }

    fn answers(&mut self, job: &Job) -> Answers {
        let (nodes, records, rows) = (&mut self.nodes, &mut self.records, &mut self.rows);
        Answers {
            compiled: compile(job, nodes, records, rows, &mut self.widths),
            refusals: [sheet_refusal(job), sheet_table(job, &mut self.table)],
            reduced: reduce(job, &mut self.reduced, &mut self.words),
        }
    }
}

/// What a job needs, by a compile over enough memory, and then one of the three one too short, all exact, or all longer.
fn lengths(job: &Job, random: &mut Random) -> [usize; 3] {
    let most = [NODE_WORDS, 80, ROW_BYTES];
    let made = Memories::old(most, random).answers(job).compiled;
    let mut needed = [
        usize::from(made.nodes) * 3,
        4 * job.order.len(),
        2 * usize::from(made.rows),
    ];
    match random.below(8) {
        place @ 0..=2 => needed[place] = needed[place].saturating_sub(1),
        3 | 4 => needed = needed.map(|length| length + random.below(9)),
        _ => {}
    }
    [0, 1, 2].map(|place| needed[place].min(most[place]))
}

/// How many sheets of a family, 20,000 in all.
fn sheets(family: Family) -> u64 {
    match family {
        Family::SmallFewFree | Family::SmallManyFree | Family::SmallOrders => 2_000,
        Family::SmallDamaged => 3_000,
        Family::StopSome => 2_700,
        Family::StopOnly | Family::StopClash | Family::StopDamaged => 1_000,
        Family::Medium | Family::FullRows | Family::FullRowsAnywhere => 700,
        Family::NamedNotDependent | Family::DependentAbove => 700,
        Family::Tight | Family::Loose => 450,
        Family::LimitFewFree | Family::LimitManyFree => 100,
        Family::LimitNamed | Family::LimitStop => 100,
        Family::Columns513 | Family::ColumnsAround => 75,
        Family::Columns512 | Family::ColumnsDense => 25,
        Family::NineRails => 50,
        Family::ManyOutputs => 250,
    }
}

#[test]
fn every_byte() {
    let mut seen: BTreeMap<u8, u64> = BTreeMap::new();
    let (mut count, mut other) = (0, 0);
    for family in Family::ALL {
        for index in 0..sheets(family) {
            let job = job(family, SEED, index);
            let random = &mut Random::new(600 + family as u64, SEED, index);
            let before = Memories::old(lengths(&job, random), random);
            let mut after = before.clone();
            let answers = after.answers(&job);
            for moved in arranged(&job, SEED, index) {
                other += u64::from(moved != job);
                let mut here = before.clone();
                assert_eq!(here.answers(&moved), answers, "{job:?} {moved:?}");
                assert!(here == after, "the memories differ: {job:?} {moved:?}");
            }
            *seen.entry(answers.compiled.refusal).or_default() += 1;
            count += 1;
        }
    }
    println!("{count} sheets, {other} arrangements that are other bytes, {seen:?}");
    assert_eq!(count, 20_000);
    assert!(other > 80_000, "{other}");
    assert!((0..=11).all(|number| seen[&number] >= 50), "{seen:?}");
}
