//! Periods and phases in the proved bank (document 02, §8): lists of calls of each kind, the older admission, numbers of any size.
//! Damaged states are in the file beside.

use super::{blocks, lent, outputs, said, SEED};
use proved::State;
use second::book::{Book, Call, Said};
use second::generate::{block, calls, scans, Random, Scans, LARGE, RIGHT, WRONG};
use second::panel::Panel;
use second::tally::Tally;

fn lists(kind: Scans) -> u64 {
    match kind {
        Scans::Dropped => 3_000,
        _ => 6_000,
    }
}

/// Runs of eight scans and more, scans dropped after each number of reads, admissions in mid-scan, and S at which 14 hangs on one scan.
#[test]
fn lists_with_periods() {
    let mut tally = Tally::default();
    let mut made = 0;
    for (kind, index) in Scans::ALL
        .into_iter()
        .flat_map(|kind| (0..lists(kind)).map(move |index| (kind, index)))
    {
        let (limit, row_memory, list) = scans(kind, SEED, index, &blocks(index));
        let mut second = Panel::new(limit, vec![index as u8; row_memory]);
        let mut held = lent(&second);
        assert_eq!(held.make(usize::from(limit)), 0);
        assert_eq!(held, lent(&second));
        let mut book = Book::new(limit, row_memory);
        tally.start();
        for call in &list {
            let answer = said(&mut held, call);
            tally.add(&book, call, answer);
            assert_eq!(answer, second.call(call), "{kind:?} {index}");
            assert_eq!(answer, book.enter(call), "{kind:?} {index}");
            assert_eq!(outputs(&held), book.outputs(), "{kind:?} {index}");
            assert_eq!(held, lent(&second), "{kind:?} {index}");
            made += 1;
        }
    }
    println!("{made} calls; {tally}");
    assert!(tally.lists >= 20_000);
    tally.assert_all_seen();
}

/// `cascade_admit` is `cascade_admit_every` with period 1 and phase 0.
#[test]
fn the_older_admission() {
    let (mut admitted, mut refused) = (0, 0);
    for index in 0..1_500 {
        let (limit, row_memory, list) = calls(SEED, 30_000 + index, &blocks(index));
        let mut held = lent(&Panel::new(limit, vec![0; row_memory.min(9_000)]));
        for call in &list {
            let Call::Admit { records, rows, .. } = call else {
                said(&mut held, call);
                continue;
            };
            let mut older = held.clone();
            let answer = held.admit_every(records, rows, 1, 0);
            assert_eq!(answer, older.admit(records, rows));
            assert_eq!(held, older);
            match answer {
                0 => admitted += 1,
                _ => refused += 1,
            }
        }
    }
    println!("{admitted} admitted by both, {refused} refused");
    assert!(admitted > 1_000 && refused > 1_000);
}

/// A state with a running scan: five blocks with periods, of which the first and the last are due.
fn running() -> (State, Panel) {
    let mut second = Panel::new(255, vec![3; 4_000]);
    let small: Vec<_> = (0..)
        .map(|index| block(SEED, index))
        .filter(|(_, rows)| rows.len() < 200)
        .take(5)
        .collect();
    for ((records, rows), period) in small
        .into_iter()
        .zip([(1, 0), (2, 1), (4, 2), (8, 7), (2, 0)])
    {
        let said = second.call(&Call::admit_every(records, rows, period));
        assert_eq!(said, Said::Accepted);
    }
    assert_eq!(second.call(&Call::Latch([0x5A5; 8])), Said::Accepted);
    (lent(&second), second)
}

/// Each period and each phase of up to nine bits, and numbers whose low bytes alone would be right.
#[test]
fn periods_of_any_size() {
    let (state, second) = running();
    let (one, rows) = (vec![128, 1, 0, 0], vec![1, 0]);
    let small = (0..=300).flat_map(|period| (0..=300).map(move |phase| (period, phase)));
    for (period, phase) in small.chain(WRONG).chain(LARGE) {
        let mut held = state.clone();
        let answer = held.admit_every(&one, &rows, period as usize, phase as usize);
        let right = RIGHT.contains(&(period, phase));
        assert_eq!(answer, if right { 0 } else { 16 }, "{period} {phase}");
        if !right {
            assert_eq!(held, state);
            let bad = held.admit_every(&one, &[2, 0], period as usize, phase as usize);
            assert_eq!((bad, &held), (12, &state));
            continue;
        }
        let mut after = second.clone();
        let call = Call::admit_every(one.clone(), rows.clone(), (period, phase));
        assert_eq!(after.call(&call), Said::Accepted);
        assert_eq!(held, lent(&after));
    }
}

/// 16 among the other refusals: after 12, before 13, 14 and 11.
#[test]
fn the_place_of_16() {
    let mut random = Random::new(31, SEED, 0);
    let (one, rows) = (vec![128, 1, 0, 0], vec![1, 0]);
    for wrong in WRONG.into_iter().chain(LARGE) {
        // Eight blocks of one cell: S, places and row memory are full.
        for count in [0, 1, 7, 8] {
            let mut second = Panel::new(8, random.bytes(2 * count));
            for _ in 0..count {
                let said = second.call(&Call::admit(one.clone(), rows.clone()));
                assert_eq!(said, Said::Accepted);
            }
            second.bank.limit = count.max(1) as u16;
            let state = lent(&second);
            let (period, phase) = (wrong.0 as usize, wrong.1 as usize);
            let mut held = state.clone();
            assert_eq!(held.admit_every(&one, &rows, period, phase), 16);
            assert_eq!(held.admit_every(&one, &[2, 0], period, phase), 12);
            let later = match count {
                8 => 13,
                0 => 11,
                _ => 14,
            };
            assert_eq!(held.admit_every(&one, &rows, 1, 0), later);
            assert_eq!(held, state);
            held.scan[85] = 8;
            assert_eq!(held.admit_every(&one, &rows, period, phase), 12);
        }
    }
}
