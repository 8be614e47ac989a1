//! What newcomers write: for each mistake of a compiler a job on which it shows.

use second::cases;
use second::job::{Answer, Job, Lent, Node, Totals};
use second::plain::{compile, compile_with, table, Mistake};

fn enough() -> Lent {
    Lent {
        nodes: vec![Node::default(); 10_240],
        records: vec![0; 80],
        rows: vec![0; 65_536],
    }
}

/// The answer, the records and the rows with a mistake made.
fn with(job: &Job, mistake: Mistake) -> (Answer, Vec<u8>, Vec<u8>) {
    let mut lent = enough();
    let answer = compile_with(job, &mut lent, mistake);
    let (records, rows) = match answer {
        Answer::Accepted(totals) => (4 * job.order.len(), 2 * totals.rows),
        Answer::Refused(_) => (0, 0),
    };
    lent.records.truncate(records);
    lent.rows.truncate(rows);
    (answer, lent.records, lent.rows)
}

/// The same, for a job that is accepted.
fn accepted(job: &Job, mistake: Mistake) -> (Totals, Vec<u8>, Vec<u8>) {
    match with(job, mistake) {
        (Answer::Accepted(totals), records, rows) => (totals, records, rows),
        (Answer::Refused(number), ..) => panic!("refused {number}"),
    }
}

/// The widths at heights t - 1 to 0.
fn widths(job: &Job, totals: &Totals) -> Vec<u16> {
    let below_top = &totals.widths[..job.order.len()];
    below_top.iter().rev().copied().collect()
}

#[test]
fn no_mistake_is_the_compiler() {
    let mut lent = enough();
    let answer = compile(&cases::a(), &mut lent);
    let (same, records, rows) = with(&cases::a(), Mistake::None);
    assert_eq!(answer, same);
    assert_eq!(lent.records[..24], records);
    assert_eq!(lent.rows[..32], rows);
}

#[test]
fn free_outputs_filled_with_0_before_merging() {
    // One record: x1 = 1 makes y1 1. Free otherwise, so x1 need not be told to the cells below.
    let job = Job {
        inputs: 1,
        outputs: 3,
        cell_inputs: 4,
        cell_outputs: 2,
        order: vec![0, 130, 129, 128],
        sheet: vec![1, 0, 1, 0, 0, 1, 0, 0],
    };
    let (right, _, rows) = accepted(&job, Mistake::None);
    assert_eq!(widths(&job, &right), [1, 1, 1, 1]);
    assert_eq!((right.bits, rows), (4, vec![0, 0, 0, 0, 1, 0]));
    let (wrong, _, rows) = accepted(&job, Mistake::FreeAsZero);
    assert_eq!(widths(&job, &wrong), [2, 2, 2, 1]);
    assert_eq!((wrong.bits, rows), (8, vec![0, 0, 1, 0, 0, 0, 1, 0]));
    // Case A itself would be refused, and B have a width of 5.
    let (answer, ..) = with(&cases::a(), Mistake::FreeAsZero);
    assert_eq!(answer, Answer::Refused(8));
    let (wrong, ..) = accepted(&cases::b(), Mistake::FreeAsZero);
    assert_eq!(widths(&cases::b(), &wrong), [2, 4, 5, 3, 2, 1]);
}

#[test]
fn compatibility_tested_on_the_next_output_only() {
    // y1 is free, y2 is the opposite of x1: by y1 alone the two columns seem compatible.
    let job = Job {
        inputs: 1,
        outputs: 2,
        cell_inputs: 2,
        cell_outputs: 4,
        order: vec![0, 128, 129],
        sheet: vec![1, 0, 1, 0, 2, 0, 0, 0, 1, 0, 0, 0, 0, 2, 0, 0],
    };
    assert_eq!(table(&job), Ok(vec![2, 2, 1, 0]));
    let (right, records, rows) = accepted(&job, Mistake::None);
    assert_eq!(widths(&job, &right), [2, 2, 1]);
    assert_eq!(rows, [1, 0, 0, 0]);
    let (wrong, same_records, rows) = accepted(&job, Mistake::NextOutputOnly);
    assert_eq!(widths(&job, &wrong), [1, 1, 1]);
    assert_eq!(records, same_records);
    // y2, the lowest bit, is 1 for x1 = 1, where the sheet forces 0.
    assert_eq!(rows, [1, 0, 1, 0]);
}

#[test]
fn cutting_greedily_at_the_longest_cell() {
    // Order y2 x1 x2 y1. The longest first cell takes both inputs: 4 rows and then 1. One input in
    // each cell makes 2 rows and 2.
    let job = Job {
        inputs: 2,
        outputs: 2,
        cell_inputs: 4,
        cell_outputs: 1,
        order: vec![129, 0, 1, 128],
        sheet: vec![],
    };
    let (right, records, rows) = accepted(&job, Mistake::None);
    assert_eq!((right.cells, right.bits, rows.len()), (2, 4, 8));
    assert_eq!(
        records,
        [129, 0, 0, 0, 0, 1, 0, 0, 1, 0, 0, 0, 128, 1, 0, 0]
    );
    let (wrong, records, rows) = accepted(&job, Mistake::GreedyCut);
    assert_eq!((wrong.cells, wrong.bits, rows.len()), (2, 5, 10));
    assert_eq!(
        records,
        [129, 0, 0, 0, 0, 0, 0, 0, 1, 1, 0, 0, 128, 1, 0, 0]
    );
}

#[test]
fn widths_taken_before_later_merges() {
    // Order y1 x2 y2 x1, one record: x2 = 0 makes y2 0. The two columns under x2 merge.
    let job = Job {
        inputs: 2,
        outputs: 2,
        cell_inputs: 2,
        cell_outputs: 1,
        order: vec![128, 1, 129, 0],
        sheet: vec![2, 0, 0, 0, 2, 0, 0, 0],
    };
    let (right, records, _) = accepted(&job, Mistake::None);
    assert_eq!(widths(&job, &right), [1, 1, 1, 1]);
    assert_eq!((right.bits, right.rows), (4, 4));
    assert_eq!(
        records,
        [128, 0, 0, 0, 1, 1, 0, 0, 129, 0, 0, 0, 0, 1, 0, 0]
    );
    let (wrong, records, _) = accepted(&job, Mistake::WidthsBeforeLaterMerges);
    assert_eq!(widths(&job, &wrong), [1, 2, 1, 1]);
    assert_eq!((wrong.bits, wrong.rows), (5, 5));
    assert_eq!(
        records,
        [128, 1, 0, 0, 1, 0, 0, 0, 129, 0, 0, 0, 0, 1, 0, 0]
    );
    // Case A itself would be refused: six columns at height 3 before its merge, four after.
    let (answer, ..) = with(&cases::a(), Mistake::WidthsBeforeLaterMerges);
    assert_eq!(answer, Answer::Refused(8));
    let (wrong, ..) = accepted(&cases::b(), Mistake::WidthsBeforeLaterMerges);
    assert_eq!(widths(&cases::b(), &wrong), [2, 4, 6, 3, 2, 1]);
}

#[test]
fn the_later_record_decides() {
    // The lid-open line comes first.
    let mut job = cases::s();
    job.sheet.rotate_left(8);
    let right = with(&job, Mistake::None);
    assert_eq!(right, with(&cases::s(), Mistake::None));
    assert_eq!(right.2, [1, 0, 1, 0, 0, 0, 0, 0]);
    // The wash line is last, so the valve is opened with the lid open.
    let (_, _, rows) = accepted(&job, Mistake::LaterDecides);
    assert_eq!(rows, [0, 0, 1, 0, 0, 0, 1, 0]);
    // With the lid-open line last the mistake does not show.
    assert_eq!(with(&cases::s(), Mistake::LaterDecides), right);
}

#[test]
fn a_clash_between_kinds() {
    assert!(matches!(
        with(&cases::s(), Mistake::None).0,
        Answer::Accepted(_)
    ));
    let (answer, ..) = with(&cases::s(), Mistake::ClashBetweenKinds);
    assert_eq!(answer, Answer::Refused(5));
}

#[test]
fn a_clash_that_a_stop_record_covers() {
    // Two ordinary lines clash where the lid is open, and the lid-open line names the valve there.
    let mut job = cases::s();
    job.sheet.extend([3, 0, 3, 0, 1, 0, 0, 0]);
    let (answer, ..) = with(&job, Mistake::None);
    assert_eq!(answer, Answer::Refused(5));
    let wrong = with(&job, Mistake::CoveredClash);
    assert_eq!(wrong, with(&cases::s(), Mistake::None));
    // Without the lid-open line, and where the two are stop records, it gives 5 all the same.
    let mut bare = job.clone();
    bare.sheet.drain(8..16);
    let mut stops = job;
    stops.sheet[6] = 1;
    stops.sheet[16 + 6] = 1;
    for job in [bare, stops] {
        let (answer, ..) = with(&job, Mistake::CoveredClash);
        assert_eq!(answer, Answer::Refused(5));
    }
}

#[test]
fn the_last_matching_record_alone_counts() {
    // For every word one record makes y1 1, another y2.
    let mut job = Job {
        inputs: 1,
        outputs: 2,
        cell_inputs: 2,
        cell_outputs: 2,
        order: vec![0, 128, 129],
        sheet: vec![0, 0, 0, 0, 0, 1, 0, 0, 0, 0, 0, 0, 0, 2, 0, 0],
    };
    for wrong_rows in [[1, 0, 1, 0], [2, 0, 2, 0]] {
        let (_, _, rows) = accepted(&job, Mistake::None);
        assert_eq!(rows, [3, 0, 3, 0]);
        let (_, _, rows) = accepted(&job, Mistake::LastMatching);
        assert_eq!(rows, wrong_rows);
        job.sheet.rotate_left(8);
    }
}

#[test]
fn a_clash_of_neighbours_alone() {
    // Case G's two records with one between them that names nothing, and then side by side.
    let mut job = cases::g();
    let nothing = [1, 0, 1, 0, 0, 0, 0, 0];
    job.sheet.splice(8..8, nothing);
    for beside in [false, true] {
        assert_eq!(with(&job, Mistake::None).0, Answer::Refused(5));
        let (answer, ..) = with(&job, Mistake::NextRecordOnly);
        assert_eq!(answer == Answer::Refused(5), beside);
        job.sheet.rotate_left(8);
    }
}

/// Mistakes with rows of two bytes, on rows above 255; case A, whose rows are below 256, shows the first of them alone.
#[test]
fn bytes_of_rows() {
    let job = cases::fifteen_outputs();
    let (right, _, rows) = accepted(&job, Mistake::None);
    let (totals, _, swapped) = accepted(&job, Mistake::HighByteFirst);
    assert_eq!(totals, right);
    let pairs = rows.chunks_exact(2).flat_map(|row| [row[1], row[0]]);
    assert!(swapped != rows && pairs.eq(swapped));
    let (totals, _, low) = accepted(&job, Mistake::LowByteAlone);
    assert_eq!(totals, right);
    let pairs = rows.chunks_exact(2).flat_map(|row| [row[0], 0]);
    assert!(low != rows && pairs.eq(low));
    let a = with(&cases::a(), Mistake::None);
    assert_ne!(with(&cases::a(), Mistake::HighByteFirst), a);
    assert_eq!(with(&cases::a(), Mistake::LowByteAlone), a);
}

/// Case J: 16 to 31 bytes are room for sixteen rows of one byte.
#[test]
fn row_memory_counted_in_rows() {
    for bytes in 0..40 {
        let answer = |mistake| {
            let mut lent = enough();
            lent.rows.truncate(bytes);
            compile_with(&cases::a(), &mut lent, mistake)
        };
        let right = answer(Mistake::None);
        assert_eq!(right == Answer::Refused(11), bytes < 32);
        let wrong = answer(Mistake::MemoryInRows);
        assert_eq!(wrong == Answer::Refused(11), bytes < 16);
    }
}
