//! The generator: same seed same job, undamaged families in order, each fault present, column counts as promised. Cells of many
//! outputs, cascades made by hand, lists with periods and lists as text are in the folder beside.

mod forced;
#[path = "generate/outputs.rs"]
mod outputs;
#[path = "generate/scans.rs"]
mod scans;
#[path = "generate/texts.rs"]
mod texts;

use forced::forced;
use second::book::{well_formed, Book, Call, Said};
use second::generate::{
    block, calls, damage, job, known_but, lent, made, scans as list, Family, Fault, Random, Scans,
};
use second::job::{Answer, Job, Lent, Node};
use second::plain;
use std::collections::BTreeSet;

/// The refusals 1 to 6 that fit a job, each judged alone where that has a meaning.
fn faults(job: &Job) -> BTreeSet<u8> {
    let mut found = BTreeSet::new();
    let (n, m) = (job.inputs, job.outputs);
    let limits = (2..=12).contains(&job.cell_inputs) && (1..=16).contains(&job.cell_outputs);
    let counts = (1..=12).contains(&n) && (1..=8).contains(&m);
    if !limits || !counts {
        found.insert(1);
    }
    if !job.sheet.len().is_multiple_of(8) || job.sheet.len() > 2_048 {
        found.insert(3);
    }
    if !counts {
        return found;
    }
    let mut sorted = job.order.clone();
    sorted.sort_unstable();
    let each_once = (0..n as u8).chain((0..m as u8).map(|y| 128 + y));
    if !sorted.into_iter().eq(each_once) {
        found.insert(2);
    }
    let records = records(job);
    for r in &records {
        let input_bits = r.mask >> n != 0;
        let output_bits = u16::from(r.zeros | r.ones) >> m != 0;
        let both_ways = r.zeros & r.ones != 0;
        let tail = r.kind > 1 || r.last != 0;
        if input_bits || output_bits || r.values & !r.mask != 0 || both_ways || tail {
            found.insert(4);
        }
    }
    for a in &records {
        for b in &records {
            let common = (a.values ^ b.values) & a.mask & b.mask == 0;
            if a.kind == b.kind && common && a.zeros & b.ones != 0 {
                found.insert(5);
            }
        }
    }
    let values: Vec<(u8, u8)> = (0..1 << n).map(|word| forced(&job.sheet, word)).collect();
    let place = |variable: u8| job.order.iter().position(|v| *v == variable);
    for (x, y) in (0..n as u8).flat_map(|x| (0..m as u8).map(move |y| (x, y))) {
        let value = |word: usize| (values[word].0 >> y & 1, values[word].1 >> y & 1);
        let depends = || (0..values.len()).any(|word| value(word) != value(word ^ 1 << x));
        if let (Some(output), Some(input)) = (place(128 + y), place(x)) {
            if output < input && depends() {
                found.insert(6);
            }
        }
    }
    found
}

struct Row {
    mask: u16,
    values: u16,
    zeros: u8,
    ones: u8,
    kind: u8,
    last: u8,
}

fn records(job: &Job) -> Vec<Row> {
    let row = |r: &[u8]| Row {
        mask: u16::from_le_bytes([r[0], r[1]]),
        values: u16::from_le_bytes([r[2], r[3]]),
        zeros: r[4],
        ones: r[5],
        kind: r[6],
        last: r[7],
    };
    job.sheet.chunks_exact(8).map(row).collect()
}

/// The most columns at a height before its merge, as merging goes down; it ends where a count is over 512.
fn peak(job: &Job) -> usize {
    let widths = plain::widths_before_own_merges(job).expect("a job in order");
    widths.into_iter().max().unwrap_or(0)
}

/// The number of the refusal with ample memory lent, 0 where there is none.
fn refusal(job: &Job) -> u8 {
    let mut lent = Lent {
        nodes: vec![Node::default(); 10_240],
        records: vec![0; 80],
        rows: vec![0; 65_536],
    };
    match plain::compile(job, &mut lent) {
        Answer::Refused(number) => number,
        Answer::Accepted(_) => 0,
    }
}

#[test]
fn the_same_seed_gives_the_same() {
    for family in Family::ALL {
        assert_eq!(Family::from_name(family.name()), Some(family));
        let list = |seed| (0..20).map(|i| job(family, seed, i)).collect::<Vec<_>>();
        assert_eq!(list(7), list(7));
        assert_ne!(list(7), list(8));
        let one = job(family, 7, 3);
        assert_eq!(lent(&one, 1, 2, (9, 8, 7)), lent(&one, 1, 2, (9, 8, 7)));
    }
    assert_eq!(block(1, 2), block(1, 2));
    assert_eq!(made(1, 2), made(1, 2));
    let given = [block(1, 2), block(1, 3)];
    assert_eq!(calls(4, 5, &given), calls(4, 5, &given));
    for kind in Scans::ALL {
        assert_eq!(list(kind, 4, 5, &given), list(kind, 4, 5, &given));
        assert_ne!(list(kind, 4, 5, &given), list(kind, 4, 6, &given));
    }
    assert_eq!(damage(4, 5, &given[0]), damage(4, 5, &given[0]));
}

#[test]
fn undamaged_families_are_in_order() {
    for family in Family::ALL
        .into_iter()
        .filter(|family| !Family::REFUSED.contains(family))
    {
        let many = [Family::NineRails, Family::ManyOutputs].contains(&family);
        for index in 0..if many { 60 } else { 300 } {
            let job = job(family, 11, index);
            assert!(faults(&job).is_empty(), "{family:?} {index}");
        }
    }
}

#[test]
fn masks_overlap_often() {
    for family in Family::ALL {
        let overlaps = |index: &u64| {
            let records = records(&job(family, 5, *index));
            let shared =
                |a: &Row, b: &Row| a.mask != b.mask && (a.values ^ b.values) & a.mask & b.mask == 0;
            records.iter().any(|a| records.iter().any(|b| shared(a, b)))
        };
        let count = (0..200).filter(overlaps).count();
        let full = [Family::FullRows, Family::FullRowsAnywhere].contains(&family);
        assert!(full || count > 60, "{family:?} {count}");
    }
}

#[test]
fn each_fault_occurs() {
    let wanted = |fault: Fault| match fault as usize {
        0..=3 => 1,
        4..=7 => 2,
        8..=9 => 3,
        10..=14 => 4,
        15 => 5,
        _ => 6,
    };
    let round = Fault::ALL.len() as u64;
    for (place, fault) in Fault::ALL.into_iter().enumerate() {
        let (mut hit, mut alone) = (0, 0);
        for index in (0..100).map(|i| i * round + place as u64) {
            let found = faults(&job(Family::SmallDamaged, 3, index));
            hit += usize::from(found.contains(&wanted(fault)));
            alone += usize::from(found.first() == Some(&wanted(fault)));
            assert!(fault != Fault::OutputAbove || !found.is_empty(), "{index}");
            let tail = matches!(found.first(), Some(1..=4));
            assert!(fault != Fault::TailBytes || tail, "{index}");
        }
        assert!(hit >= 80 && alone >= 50, "{fault:?}: {hit} {alone}");
    }
    let jobs: Vec<Job> = (0..1700).map(|i| job(Family::SmallDamaged, 3, i)).collect();
    assert!(jobs.iter().any(|j| j.inputs > u64::from(u32::MAX)));
    assert!(jobs.iter().any(|j| j.inputs == 0) && jobs.iter().any(|j| j.cell_inputs == 1));
    assert!(jobs.iter().any(|j| j.sheet.len() == 2_056));
}

#[test]
fn column_counts_are_reached() {
    let peaks = |family| {
        let of = move |index| peak(&job(family, 1, index));
        (0..60).map(of).collect::<BTreeSet<usize>>()
    };
    assert_eq!(peaks(Family::Columns512), BTreeSet::from([512]));
    assert_eq!(peaks(Family::Columns513), BTreeSet::from([513]));
    let around = peaks(Family::ColumnsAround);
    assert!(around.is_subset(&(500..=520).collect()), "{around:?}");
    assert!(around.len() > 12, "{around:?}");
}

/// The least over these jobs: 512 columns, 72.5 % of the pairs compatible, 32 cliques, 28 different numbers of edges.
#[test]
fn dense_columns_are_many_and_most_pairs_compatible() {
    let mut rounds = BTreeSet::new();
    for index in 0..20 {
        let covers = plain::covers(&job(Family::ColumnsDense, 1, index));
        let covers = covers.expect("no refusal 1 to 7");
        let widest = covers.iter().max_by_key(|(columns, _)| columns.width());
        let (columns, cliques) = widest.expect("a height");
        let tables = &columns.tables;
        let others = tables.len() - 1;
        let edges = |one: &Vec<u8>| {
            let compatible = tables.iter().filter(|two| plain::compatible(one, two));
            compatible.count() - 1
        };
        let edges: Vec<usize> = tables.iter().map(edges).collect();
        let percent = 100 * edges.iter().sum::<usize>() / (tables.len() * others);
        let different = BTreeSet::from_iter(edges).len();
        assert_eq!(tables.len(), 512, "{index}");
        assert!(percent >= 70, "{index}: {percent} %");
        assert!(cliques.len() >= 32, "{index}: {} cliques", cliques.len());
        assert!(different >= 20, "{index}: {different}");
        rounds.insert(cliques.len());
    }
    assert!(rounds.len() >= 3, "{rounds:?}");
}

#[test]
fn families_at_the_limits_are_both_narrow_and_wide() {
    // Merging keeps sheets with much freedom narrow.
    for (family, least) in [(Family::LimitFewFree, 513), (Family::LimitManyFree, 150)] {
        let peaks: Vec<usize> = (0..60).map(|i| peak(&job(family, 2, i))).collect();
        let wide = peaks.iter().filter(|peak| **peak >= least).count();
        assert!((1..40).contains(&wide), "{family:?} {peaks:?}");
    }
}

#[test]
fn tight_has_no_cut_list_and_loose_has_one() {
    for index in 0..200 {
        assert_eq!(refusal(&job(Family::Tight, 1, index)), 8, "tight {index}");
        assert_eq!(refusal(&job(Family::Loose, 1, index)), 0, "loose {index}");
    }
}

#[test]
fn lent_memory_is_short_exact_and_long() {
    let job = job(Family::Medium, 1, 1);
    let mut seen = BTreeSet::new();
    let (mut one_short, mut half) = (false, false);
    for index in 0..200 {
        let memory = lent(&job, 1, index, (30, 40, 50));
        let lengths = [
            (memory.nodes.len(), 30),
            (memory.records.len(), 40),
            (memory.rows.len(), 50),
        ];
        for (which, (length, needed)) in lengths.into_iter().enumerate() {
            assert!(length >= needed / 2);
            seen.insert((which, length.cmp(&needed)));
            one_short |= length + 1 == needed;
            half |= length == needed / 2;
        }
    }
    assert!(seen.len() == 9 && one_short && half);
    assert!(lent(&job, 1, 1, (0, 0, 0)).nodes.len() < 100);
}

#[test]
fn blocks_are_well_formed_and_damage_shows() {
    let mut counts = BTreeSet::new();
    let mut spoilt = 0;
    // Row bytes of odd length, and rows that are too large by their high byte or by their low byte alone.
    let (mut odd, mut high_byte, mut low_byte) = (0, 0, 0);
    for index in 0..2_000 {
        let (records, whole) = block(9, index);
        assert!(well_formed(&records, &whole), "{index}");
        counts.insert(records.len() / 4);
        let (damaged, rows) = damage(9, index, &(records.clone(), whole.clone()));
        let formed = well_formed(&damaged, &rows);
        spoilt += usize::from(!formed);
        odd += rows.len() % 2;
        if !formed && damaged == records && rows.len() == whole.len() {
            let differs = |byte: usize| (byte..rows.len()).step_by(2).any(|b| rows[b] != whole[b]);
            high_byte += usize::from(differs(1));
            low_byte += usize::from(!differs(1));
        }
    }
    assert_eq!(counts.len(), 20);
    assert!(spoilt > 1_800, "{spoilt}");
    assert!(
        odd > 100 && high_byte > 50 && low_byte > 50,
        "{odd} {high_byte} {low_byte}"
    );
}

#[test]
fn call_lists_meet_each_answer() {
    let blocks: Vec<_> = (0..60).map(|index| block(4, index)).collect();
    let mut refused = BTreeSet::new();
    let (mut went, mut idle, mut broken_off, mut crowded) = (0, 0, 0, 0);
    for index in 0..600 {
        let given = &blocks[index % 50..][..1 + index % 10];
        let (limit, row_memory, calls) = calls(6, index as u64, given);
        assert!(limit > 0);
        let mut book = Book::new(limit, row_memory);
        for call in &calls {
            match book.enter(call) {
                Said::Refused(number) => {
                    crowded += usize::from(number == 11 && row_memory > 65_536);
                    refused.insert(number);
                }
                Said::Idle => idle += 1,
                said => went += usize::from(matches!(call, Call::Step) && said != Said::Accepted),
            }
        }
        broken_off += usize::from(!book.cells_to_read().is_empty());
    }
    assert_eq!(refused, BTreeSet::from([11, 12, 13, 14, 16]));
    let counts = (went, idle, broken_off, crowded);
    let enough = went > 1_000 && idle > 500 && broken_off > 30 && crowded > 0;
    assert!(enough, "{counts:?}");
}

#[test]
fn masks_have_as_many_unknown_inputs_as_said() {
    let mut random = Random::new(1, 2, 3);
    for unknown in 0..=12 {
        let masks: BTreeSet<u16> = (0..100).map(|_| known_but(&mut random, unknown)).collect();
        assert!(masks.len() > 10);
        let count = |mask: &u16| (!mask & 0xFFF).count_ones();
        assert!(masks.iter().all(|mask| count(mask) == unknown as u32));
    }
}
