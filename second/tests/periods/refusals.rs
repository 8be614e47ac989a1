//! Refusals 12, 14 and 16 with periods and phases.

use super::{Both, Stored, DUE, ONE, TWO};
use second::bank::{latch, step, Step};
use second::book::{Call, Said};
use second::fast;
use second::generate::{LARGE, RIGHT, WRONG};

const BAD: Stored = (ONE.0, &[0, 0, 2, 0]);

/// 14 exactly when the due cells of some scan would exceed S, however many cells there are in all.
#[test]
fn due_cells_against_s() {
    for (one, first) in DUE {
        for (other, second) in DUE {
            let together = first.chars().any(|scan| second.contains(scan));
            for (limit, room) in [(1, false), (2, !together), (3, !together), (4, true)] {
                let mut both = Both::new(limit, 1_000);
                if limit == 1 {
                    assert_eq!(both.admit(TWO, one), Said::Refused(14));
                    continue;
                }
                assert_eq!(both.admit(TWO, one), Said::Accepted);
                let said = both.admit(TWO, other);
                let expected = if room {
                    Said::Accepted
                } else {
                    Said::Refused(14)
                };
                assert_eq!(said, expected, "{one:?} {other:?} {limit}");
            }
        }
    }
}

/// Eight blocks of two cells, one for each scan, with S 2; and one of one cell more where there is room in one scan alone.
#[test]
fn a_scan_for_each_block() {
    let slow: Vec<(Stored, (u64, u64))> = (0..8).map(|phase| (TWO, (8, phase))).collect();
    let mut both = Both::with(2, &slow);
    assert_eq!(both.book.cell_count(), 16);
    assert_eq!(both.admit(ONE, (8, 3)), Said::Refused(13));
    for latches in 0..24u8 {
        both.latch(3);
        assert_eq!(both.run(), [(latches % 8, 0), (latches % 8, 1)]);
    }
    for free in 0..8u64 {
        let others = slow.iter().filter(|(_, period)| period.1 != free);
        let mut both = Both::with(2, &others.copied().collect::<Vec<_>>());
        for (period, scans) in DUE {
            let said = both.clone().admit(ONE, period);
            let alone = scans == free.to_string();
            let expected = if alone {
                Said::Accepted
            } else {
                Said::Refused(14)
            };
            assert_eq!(said, expected, "{free} {period:?}");
        }
        assert_eq!(both.admit(TWO, (8, free)), Said::Accepted);
    }
}

/// 12, 16, 13, 14, 11, each with all later ones.
#[test]
fn the_place_of_16() {
    let periods = WRONG.into_iter().chain(LARGE);
    for wrong in periods {
        // 16 alone, and with 11.
        assert_eq!(Both::new(255, 99).admit(ONE, wrong), Said::Refused(16));
        assert_eq!(Both::new(255, 3).admit(ONE, wrong), Said::Refused(16));
        // With 14 and 11.
        let mut both = Both::new(1, 0);
        assert_eq!(both.admit(TWO, wrong), Said::Refused(16));
        assert_eq!(both.admit(TWO, (1, 0)), Said::Refused(14));
        // With 13, 14 and 11; and 12 before it.
        let mut full = Both::new(8, 32);
        for _ in 0..8 {
            assert_eq!(full.admit(ONE, (1, 0)), Said::Accepted);
        }
        assert_eq!(full.admit(ONE, wrong), Said::Refused(16));
        assert_eq!(full.admit(BAD, wrong), Said::Refused(12));
        assert_eq!(full.admit(ONE, (8, 7)), Said::Refused(13));
        assert_eq!(Both::new(255, 99).admit(BAD, wrong), Said::Refused(12));
        // A damaged state comes first, too.
        let mut panel = full.panel.clone();
        panel.scan.number = 8;
        let call = Call::admit_every(ONE.0.into(), ONE.1.into(), wrong);
        assert_eq!(panel.call(&call), Said::Refused(12));
        assert_eq!(full.panel.call(&call), Said::Refused(16));
    }
    for right in RIGHT {
        assert_eq!(Both::new(255, 99).admit(ONE, right), Said::Accepted);
        assert_eq!(Both::new(255, 3).admit(ONE, right), Said::Refused(11));
        assert_eq!(Both::new(255, 99).admit(BAD, right), Said::Refused(12));
    }
}

/// Every period and phase that two bytes can be.
#[test]
fn each_period_and_phase() {
    let both = Both::new(255, 99);
    for period in 0..=256 {
        for phase in 0..=256 {
            let right = RIGHT.contains(&(period, phase));
            let said = both.clone().admit(ONE, (period, phase));
            assert_eq!(said == Said::Accepted, right);
            assert_eq!(said == Said::Refused(16), !right);
        }
    }
}

/// 12 counts cells by scans: S may be lowered to the most that one scan has, and no further.
#[test]
fn cells_held_against_s() {
    let blocks = [
        (TWO, (2, 0)),
        (TWO, (4, 1)),
        (ONE, (8, 3)),
        (ONE, (1, 0)),
        (TWO, (8, 5)),
    ];
    // Scans 0 to 7 have 3, 3, 3, 2, 3, 5, 3 and 1.
    let mut both = Both::with(255, &blocks);
    both.latch(3);
    for running in [true, false] {
        for limit in 1..=12 {
            let mut panel = both.panel.clone();
            panel.bank.limit = limit;
            let held = limit >= 5;
            let refused = Said::Refused(12);
            let expected = match (held, running) {
                (false, _) => refused,
                (true, true) => Said::Went { block: 0, cell: 0 },
                (true, false) => Said::Idle,
            };
            assert_eq!(panel.clone().call(&Call::Step), expected, "{limit}");
            let said = panel.clone().call(&Call::Latch([0; 8]));
            assert_eq!(said == refused, !held);
            let call = Call::admit_every(ONE.0.into(), ONE.1.into(), (8, 7));
            let said = panel.call(&call);
            assert_eq!(said, if held { Said::Accepted } else { refused });
        }
        both.run();
    }
}

/// A scan number above 7 gives 12 with no scan, with reads left and with all cells read; with reads left so does one by which the block
/// isn't due.
#[test]
fn scan_numbers() {
    for (period, scans) in DUE {
        let fresh = Both::with(255, &[(ONE, (1, 0)), (TWO, period)]).panel;
        let mut running = fresh.clone();
        while running.scan.block != 1 {
            let said = running.call(&Call::Latch([3; 8]));
            assert_eq!(said, Said::Accepted);
            running.call(&Call::Step);
        }
        let mut done = running.clone();
        while done.call(&Call::Step) != Said::Idle {}
        for number in 0..=255 {
            let due = scans.contains(&number.to_string()) && number < 8;
            for (state, formed) in [(&fresh, number < 8), (&running, due), (&done, number < 8)] {
                let mut panel = state.clone();
                panel.scan.number = number;
                for stepper in [step, fast::step::step] {
                    let mut scan = panel.scan.clone();
                    let answer = stepper(&panel.bank, &mut scan, &panel.rows);
                    let expected = match (formed, panel.scan.running) {
                        (false, _) => Step::Refused(12),
                        (true, false) => Step::Idle,
                        (true, true) => Step::Went { block: 1, cell: 0 },
                    };
                    assert_eq!(answer, expected, "{period:?} {number}");
                }
                let mut scan = panel.scan.clone();
                let answer = latch(&panel.bank, &mut scan, [0; 8]);
                assert_eq!(answer.is_ok(), formed);
                let next = if formed { (number + 1) % 8 } else { number };
                assert_eq!(scan.number, next);
                let call = Call::admit(ONE.0.into(), ONE.1.into());
                let said = panel.call(&call);
                assert_eq!(said == Said::Accepted, formed);
                assert_eq!(said == Said::Refused(12), !formed);
                let after = if formed { 7 } else { number };
                assert_eq!(panel.scan.number, after);
            }
        }
    }
}

/// A wrong period or phase gives 12 where it is held, and nothing where it isn't.
#[test]
fn held_periods_and_phases() {
    let fresh = Both::with(255, &[(ONE, (1, 0)), (TWO, (1, 0))]).panel;
    let mut running = fresh.clone();
    running.call(&Call::Latch([3; 8]));
    for state in [fresh, running] {
        for (place, (period, phase)) in (0..8).flat_map(|p| WRONG.map(|wrong| (p, wrong))) {
            let mut panel = state.clone();
            panel.bank.periods[place] = period as u8;
            panel.bank.phases[place] = phase as u8;
            let formed = place >= 2;
            for call in [
                Call::Step,
                Call::Latch([0; 8]),
                Call::admit(ONE.0.into(), ONE.1.into()),
                Call::admit_every(ONE.0.into(), ONE.1.into(), (3, 0)),
            ] {
                let mut after = panel.clone();
                let said = after.call(&call);
                assert_eq!(said == Said::Refused(12), !formed, "{call:?}");
                if !formed {
                    assert_eq!(after, panel);
                }
            }
        }
    }
}
