//! Lists of calls over blocks with periods: what the generator promises of each kind.

use second::book::{Book, Call, Said};
use second::generate::{block, right_period, scans, Random, Scans, LARGE, RIGHT, WRONG};
use std::collections::{BTreeMap, BTreeSet};

fn list(kind: Scans, index: u64) -> (u8, usize, Vec<Call>) {
    let blocks: Vec<_> = (0..6).map(|k| block(12, 6 * index + k)).collect();
    scans(kind, 12, index, &blocks)
}

#[test]
fn periods_right_and_wrong() {
    let right = |(period, phase): (u64, u64)| [1, 2, 4, 8].contains(&period) && phase < period;
    assert!(RIGHT.into_iter().all(right));
    assert_eq!(BTreeSet::from(RIGHT).len(), 15);
    assert!(!WRONG.into_iter().chain(LARGE).any(right));
    let most = |(period, phase): (u64, u64)| period.max(phase);
    assert!(WRONG.into_iter().all(|wrong| most(wrong) <= 255));
    assert!(LARGE.into_iter().all(|wrong| most(wrong) > 255));
    let random = &mut Random::new(1, 12, 0);
    let mut counts = BTreeMap::new();
    for _ in 0..4_000 {
        *counts.entry(right_period(random)).or_insert(0) += 1;
    }
    assert!(counts.keys().eq(&RIGHT));
    assert!(counts.values().all(|&count| count > 50), "{counts:?}");
}

#[test]
fn whole_scans() {
    for index in 0..200 {
        let (limit, row_memory, calls) = list(Scans::Whole, index);
        let mut book = Book::new(limit, row_memory);
        let mut latches = 0;
        for call in &calls {
            let left = book.cells_to_read().len();
            let said = book.enter(call);
            match call {
                Call::Latch(_) => {
                    assert_eq!(left, 0, "{index}");
                    latches += 1;
                }
                Call::Admit { .. } if latches > 0 => {
                    assert!(matches!(said, Said::Refused(12 | 16)), "{said:?}");
                }
                Call::Admit { .. } => assert_eq!(said, Said::Accepted),
                Call::Step => {}
            }
        }
        assert!((8..=20).contains(&latches) && book.cells_to_read().is_empty());
    }
}

/// Each scan is dropped after each number of reads that leaves some.
#[test]
fn dropped_scans() {
    for index in 0..200 {
        let (limit, row_memory, calls) = list(Scans::Dropped, index);
        let mut book = Book::new(limit, row_memory);
        let (mut dropped, mut reads) = (BTreeSet::new(), 0);
        for call in &calls {
            if let (Call::Latch(_), Some(number)) = (call, book.scan_number()) {
                if !book.cells_to_read().is_empty() {
                    dropped.insert((number, reads));
                }
                reads = 0;
            }
            let said = book.enter(call);
            assert!(!matches!(said, Said::Refused(_) | Said::Idle));
            reads += usize::from(matches!(said, Said::Went { .. }));
        }
        // The list's last scan is none that a latch drops.
        if let (Some(number), false) = (book.scan_number(), book.cells_to_read().is_empty()) {
            dropped.insert((number, reads));
        }
        let due = book.due_cells();
        let each = (0..8).flat_map(|scan| (0..due[scan]).map(move |reads| (scan, reads)));
        assert_eq!(dropped, each.collect(), "{index}");
    }
}

#[test]
fn admissions_in_mid_scan() {
    let mut found = 0;
    for index in 0..200 {
        let (limit, row_memory, calls) = list(Scans::Admitted, index);
        let mut book = Book::new(limit, row_memory);
        for call in &calls {
            let left = !book.cells_to_read().is_empty();
            let said = book.enter(call);
            let admitted = matches!(call, Call::Admit { .. }) && said == Said::Accepted;
            found += usize::from(admitted && left);
        }
    }
    assert!(found > 300, "{found}");
}

/// With S less by one or more the last of the planned blocks gives 14 by one scan; with the least S that is enough it is admitted.
#[test]
fn fourteen_by_one_scan() {
    let (mut one, mut none) = (0, 0);
    for index in 0..200 {
        let (limit, row_memory, calls) = list(Scans::OneScan, index);
        let mut book = Book::new(limit, row_memory);
        for call in &calls {
            let before = book.due_cells();
            let blocks = book.block_count();
            let said = book.enter(call);
            let Call::Admit {
                records,
                period,
                phase,
                ..
            } = call
            else {
                continue;
            };
            let cells = records.chunks_exact(4).filter(|r| r[1] == 1).count();
            let over = (*phase as usize..8).step_by(*period as usize);
            let over = over.filter(|&scan| before[scan] + cells > usize::from(limit));
            let most = book.due_cells().into_iter().max().unwrap_or(0);
            match (said, over.count()) {
                (Said::Refused(14), 1) => one += 1,
                (Said::Accepted, 0) if blocks > 0 && most == usize::from(limit) => none += 1,
                _ => {}
            }
        }
    }
    assert!(one >= 120 && none > 20, "{one} {none}");
}
