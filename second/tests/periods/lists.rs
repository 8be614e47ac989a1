//! Bank against book on lists of calls with periods, the whole reads of each block in eight scans, and mistakes that the book shows.

use super::differs::differs;
use second::bank::Mistake;
use second::book::{Book, Call, Said};
use second::generate::{block, calls, compiled, job, scans, Family, Scans, StoredBlock, LARGE};
use second::panel::Panel;
use second::tally::Tally;

const SEED: u64 = 808;

fn blocks(index: u64) -> Vec<StoredBlock> {
    let hand_made = (0..6).map(|k| block(SEED, index * 6 + k));
    hand_made
        .chain(compiled(&job(Family::SmallOrders, SEED, index)))
        .collect()
}

fn lists(kind: Scans) -> u64 {
    match kind {
        Scans::Dropped => 500,
        _ => 1_500,
    }
}

#[test]
fn bank_and_book() {
    let mut tally = Tally::default();
    for (kind, index) in Scans::ALL
        .into_iter()
        .flat_map(|kind| (0..lists(kind)).map(move |index| (kind, index)))
    {
        let (limit, row_memory, list) = scans(kind, SEED, index, &blocks(index));
        let mut panel = Panel::new(limit, vec![7; row_memory]);
        let mut book = Book::new(limit, row_memory);
        tally.start();
        for call in &list {
            let before = panel.clone();
            let said = panel.call(call);
            tally.add(&book, call, said);
            assert_eq!(said, book.enter(call), "{kind:?} {index}");
            assert_eq!(panel.outputs(), book.outputs(), "{kind:?} {index}");
            for (told, word) in book.words().iter().zip(panel.scan.words) {
                assert!(told.is_none_or(|told| told == word), "{kind:?} {index}");
            }
            let number = book.scan_number().unwrap_or(7);
            assert_eq!(usize::from(panel.scan.number), number);
            assert_eq!(panel.scan.running, !book.cells_to_read().is_empty());
            if let Said::Refused(_) = said {
                assert_eq!(panel, before);
            }
        }
    }
    println!("{tally}");
    tally.assert_all_seen();
}

/// The tally sees a block that is read in a scan too many or too few, and 14 with room.
#[test]
fn what_the_tally_shows() {
    let (one, rows) = (vec![128, 1, 0, 0], vec![1, 0]);
    let admission = Call::admit_every(one, rows, (2, 1));
    let fails = |reads: &[usize]| {
        let run = || {
            let (mut tally, mut book) = (Tally::default(), Book::new(9, 9));
            tally.start();
            tally.add(&book, &admission, Said::Accepted);
            book.enter(&admission);
            for count in reads {
                let latch = Call::Latch([0; 8]);
                tally.add(&book, &latch, Said::Accepted);
                book.enter(&latch);
                while book.enter(&Call::Step) != Said::Idle {}
                for _ in 0..*count {
                    let went = Said::Went { block: 0, cell: 0 };
                    tally.add(&book, &Call::Step, went);
                }
            }
        };
        std::panic::catch_unwind(run).is_err()
    };
    assert!(!fails(&[0, 1, 0, 1, 0, 1, 0, 1, 0]));
    assert!(fails(&[0, 1, 0, 1, 0, 1, 0, 0, 0]));
    assert!(fails(&[0, 1, 0, 1, 0, 1, 1, 1, 0]));
    assert!(fails(&[0, 1, 0, 2]));
    let refused = || Tally::default().add(&Book::new(9, 9), &admission, Said::Refused(14));
    assert!(std::panic::catch_unwind(refused).is_err());
}

#[test]
fn mistakes_show() {
    let mistakes = [
        Mistake::None,
        Mistake::ReadsPerBlock,
        Mistake::CellsInAll,
        Mistake::FirstDueScan,
        Mistake::PeriodAfterPlaces,
        Mistake::AdmissionNumbersOn,
        Mistake::NumberStays,
        Mistake::RoundAtFour,
        Mistake::DroppedNotCounted,
        Mistake::LatchClearsAll,
        Mistake::LatchTakesAll,
        Mistake::ClearedWhenRead,
    ];
    let mut found = [0; 12];
    for index in 0..300 {
        let blocks = blocks(index);
        let kinds = Scans::ALL.map(|kind| scans(kind, SEED, index, &blocks));
        for list in [calls(SEED, index, &blocks)].iter().chain(&kinds) {
            for (found, mistake) in found.iter_mut().zip(mistakes) {
                *found += usize::from(differs(mistake, list));
            }
        }
    }
    println!("{mistakes:?} differ on {found:?} of 1500 lists");
    assert_eq!(found[0], 0);
    assert!(found[1..].iter().all(|&count| count > 5), "{found:?}");
}

/// Numbers that a byte would not hold.
#[test]
fn a_period_read_as_a_byte() {
    let list = |period| {
        let call = Call::admit_every(vec![128, 1, 0, 0], vec![1, 0], period);
        (9, 9, vec![call])
    };
    let found = LARGE.map(|period| {
        assert!(!differs(Mistake::None, &list(period)));
        differs(Mistake::PeriodAsByte, &list(period))
    });
    assert_eq!(found.iter().filter(|&&shown| shown).count(), 12);
}
