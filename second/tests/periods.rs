//! Blocks with periods and phases (document 02, §8), on bank and book: its sentences, worked out by hand. Refusals and random lists are
//! in the folder beside.

#[path = "differs/mod.rs"]
mod differs;
#[path = "periods/lists.rs"]
mod lists;
#[path = "periods/refusals.rs"]
mod refusals;

use second::bank::{admit, admit_every, new_bank, Handed};
use second::book::{Book, Call, Said};
use second::generate::{Period, RIGHT};
use second::panel::Panel;

/// Records and rows.
type Stored = (&'static [u8], &'static [u8]);

/// y1 is x1: a cell of two rows.
const ONE: Stored = (&[0, 0, 0, 0, 128, 1, 0, 0], &[0, 0, 1, 0]);
/// y1 is x1; below it y2 is x1 and x2: two cells of two and four rows.
const TWO: Stored = (
    &[0, 0, 0, 0, 128, 1, 1, 0, 1, 0, 0, 0, 129, 1, 0, 0],
    &[0, 0, 3, 0, 0, 0, 0, 0, 0, 0, 1, 0],
);

/// For each right period and phase the scans in which a block is due.
const DUE: [(Period, &str); 15] = [
    ((1, 0), "01234567"),
    ((2, 0), "0246"),
    ((2, 1), "1357"),
    ((4, 0), "04"),
    ((4, 1), "15"),
    ((4, 2), "26"),
    ((4, 3), "37"),
    ((8, 0), "0"),
    ((8, 1), "1"),
    ((8, 2), "2"),
    ((8, 3), "3"),
    ((8, 4), "4"),
    ((8, 5), "5"),
    ((8, 6), "6"),
    ((8, 7), "7"),
];

/// Bank and book, which must answer and set the same, and keep the same words.
#[derive(Clone)]
struct Both {
    panel: Panel,
    book: Book,
}

impl Both {
    fn new(limit: u8, row_memory: usize) -> Both {
        Both {
            panel: Panel::new(limit, vec![7; row_memory]),
            book: Book::new(limit, row_memory),
        }
    }

    /// With these blocks admitted.
    fn with(limit: u8, blocks: &[(Stored, Period)]) -> Both {
        let mut both = Both::new(limit, 1_000);
        for (block, period) in blocks {
            assert_eq!(both.admit(*block, *period), Said::Accepted);
        }
        both
    }

    fn call(&mut self, call: &Call) -> Said {
        let before = self.panel.clone();
        let said = self.panel.call(call);
        assert_eq!(said, self.book.enter(call));
        assert_eq!(self.panel.outputs(), self.book.outputs());
        for (told, word) in self.book.words().iter().zip(self.panel.scan.words) {
            assert!(told.is_none_or(|told| told == word));
        }
        if let Said::Refused(_) = said {
            assert_eq!(self.panel, before);
        }
        said
    }

    fn admit(&mut self, (records, rows): Stored, period: Period) -> Said {
        self.call(&Call::admit_every(records.into(), rows.into(), period))
    }

    /// The same word for each place.
    fn latch(&mut self, word: u16) {
        assert_eq!(self.call(&Call::Latch([word; 8])), Said::Accepted);
    }

    /// Steps to Idle: the blocks and cells read.
    fn run(&mut self) -> Vec<(u8, u8)> {
        let mut read = Vec::new();
        loop {
            match self.call(&Call::Step) {
                Said::Went { block, cell } => read.push((block, cell)),
                Said::Idle => return read,
                said => panic!("{said:?}"),
            }
        }
    }

    fn steps(&mut self, count: usize) {
        for _ in 0..count {
            assert!(matches!(self.call(&Call::Step), Said::Went { .. }));
        }
    }

    /// Outputs 0 and 1 of a block: `.` for not set. No other is.
    fn shown(&self, block: usize) -> String {
        let outputs = self.panel.outputs()[block];
        assert_eq!(outputs[2..], [None; 6]);
        let shown = |value: Option<bool>| match value {
            None => '.',
            Some(false) => '0',
            Some(true) => '1',
        };
        outputs[..2].iter().map(|&value| shown(value)).collect()
    }

    fn number(&self) -> u8 {
        self.panel.scan.number
    }
}

#[test]
fn scans_are_numbered_by_accepted_latches() {
    let mut both = Both::new(9, 1_000);
    assert_eq!((both.number(), both.book.scan_number()), (7, None));
    for block in 0..3 {
        let period = [(1, 0), (2, 1), (8, 5)][block];
        for latches in 0..20u8 {
            both.latch(3);
            let number = latches % 8;
            assert_eq!(both.number(), number);
            assert_eq!(both.book.scan_number(), Some(number.into()));
            // Reads, whole scans, dropped scans and refused calls don't count.
            match latches % 3 {
                0 => drop(both.run()),
                1 => drop(both.call(&Call::Step)),
                _ => assert_eq!(both.admit(ONE, (3, 0)), Said::Refused(16)),
            }
            let mut damaged = both.panel.clone();
            damaged.bank.limit = 0;
            let refused = damaged.call(&Call::Latch([0; 8]));
            assert_eq!((refused, damaged.scan.number), (Said::Refused(12), number));
            assert_eq!(both.number(), number);
        }
        // The first after an admission is 0.
        assert_eq!(both.admit(TWO, period), Said::Accepted);
        assert_eq!((both.number(), both.book.scan_number()), (7, None));
    }
}

#[test]
fn each_block_is_read_in_its_due_scans() {
    assert_eq!(DUE.map(|(period, _)| period), RIGHT);
    for (period, scans) in DUE {
        let mut both = Both::with(2, &[(TWO, period)]);
        for latches in 0..20 {
            both.latch(3);
            let due = scans.contains(&(latches % 8).to_string());
            let scan = &both.panel.scan;
            assert_eq!(scan.running, due, "{period:?} {latches}");
            assert_eq!((scan.block, scan.cell, scan.rail), (0, 0, 0));
            let read: &[(u8, u8)] = if due { &[(0, 0), (0, 1)] } else { &[] };
            assert_eq!(both.run(), read, "{period:?} {latches}");
            let scan = &both.panel.scan;
            assert_eq!((scan.running, scan.block, scan.cell), (false, 0, 0));
        }
    }
}

/// Among the due blocks the order is that of admission, each block's cells top first; the others are stepped over.
#[test]
fn the_order_of_reads() {
    let blocks = [
        (ONE, (4, 3)),
        (TWO, (2, 1)),
        (ONE, (8, 3)),
        (TWO, (1, 0)),
        (ONE, (4, 1)),
        (ONE, (2, 0)),
    ];
    let mut both = Both::with(255, &blocks);
    for latches in 0..16 {
        both.latch(1);
        let read = both.run();
        let expected: &[(u8, u8)] = match latches % 8 {
            0 | 2 | 4 | 6 => &[(3, 0), (3, 1), (5, 0)],
            1 | 5 => &[(1, 0), (1, 1), (3, 0), (3, 1), (4, 0)],
            3 => &[(0, 0), (1, 0), (1, 1), (2, 0), (3, 0), (3, 1)],
            _ => &[(0, 0), (1, 0), (1, 1), (3, 0), (3, 1)],
        };
        assert_eq!(read, expected, "{latches}");
    }
}

#[test]
fn a_block_that_is_not_due_keeps_word_and_outputs() {
    let mut both = Both::with(255, &[(TWO, (1, 0)), (TWO, (2, 0)), (TWO, (4, 2))]);
    // Each scan with its word, then what the three blocks show after it and the words that they have.
    for (word, shown, words) in [
        (3, ["11", "11", ".."], [Some(3), Some(3), None]),
        (0, ["00", "11", ".."], [Some(0), Some(3), None]),
        (1, ["10", "10", "10"], [Some(1), Some(1), Some(1)]),
        (3, ["11", "10", "10"], [Some(3), Some(1), Some(1)]),
        (2, ["00", "00", "10"], [Some(2), Some(2), Some(1)]),
        (3, ["11", "00", "10"], [Some(3), Some(2), Some(1)]),
        (3, ["11", "11", "11"], [Some(3), Some(3), Some(3)]),
        (0, ["00", "11", "11"], [Some(0), Some(3), Some(3)]),
        (2, ["00", "00", "11"], [Some(2), Some(2), Some(3)]),
    ] {
        both.latch(word | 0xF000);
        assert_eq!(both.shown(0), "..");
        both.run();
        assert_eq!([0, 1, 2].map(|block| both.shown(block)), shown, "{word}");
        assert_eq!(both.book.words(), words);
    }
}

/// What a dropped scan didn't reach is unset until the block's next due scan, also where an earlier scan had set it.
#[test]
fn outputs_that_a_dropped_scan_did_not_reach() {
    for (reads, slow) in [(0, ".."), (1, ".."), (2, ".."), (3, "1."), (4, "11")] {
        let mut both = Both::with(255, &[(TWO, (1, 0)), (TWO, (2, 1))]);
        for word in [3, 1, 3] {
            both.latch(word);
            both.run();
        }
        assert_eq!(both.shown(1), "10");
        both.latch(3);
        assert_eq!(both.shown(1), "..");
        both.steps(reads);
        assert_eq!(both.shown(1), slow);
        // Scan 4, in which it isn't due.
        both.latch(0);
        assert_eq!(both.shown(1), slow);
        assert_eq!(both.run(), [(0, 0), (0, 1)]);
        assert_eq!((both.shown(0), both.shown(1)), ("00".into(), slow.into()));
        assert_eq!(both.book.words(), [Some(0), Some(3)]);
        // Scan 5 reads it again.
        both.latch(1);
        both.run();
        assert_eq!(both.shown(1), "10");
    }
}

/// All outputs are unset between an admission and the block's first due scan, also of blocks that were read before it.
#[test]
fn from_an_admission_to_the_first_due_scan() {
    let mut both = Both::with(255, &[(TWO, (8, 3)), (ONE, (1, 0))]);
    for _ in 0..4 {
        both.latch(3);
        assert_eq!(both.shown(0), "..");
        both.run();
    }
    assert_eq!(both.shown(0), "11");
    both.latch(0);
    both.run();
    assert_eq!(both.shown(0), "11");
    // Refused, it clears nothing; accepted, it clears all and numbers anew.
    assert_eq!(both.admit(ONE, (8, 8)), Said::Refused(16));
    assert_eq!(both.shown(0), "11");
    assert_eq!(both.admit(ONE, (8, 6)), Said::Accepted);
    for latches in 0..7 {
        let slow = if latches > 3 { "11" } else { ".." };
        assert_eq!((both.shown(0), both.shown(2)), (slow.into(), "..".into()));
        both.latch(3);
        assert_eq!(both.shown(2), "..");
        both.run();
    }
    assert_eq!(both.shown(2), "1.");
}

/// A held block that isn't due keeps its bytes whatever they are; places not held are stored as 0 and not set.
#[test]
fn bytes_that_a_latch_keeps() {
    let mut both = Both::with(255, &[(TWO, (1, 0)), (TWO, (4, 1))]);
    both.panel.scan.words = [0xFFFF; 8];
    both.panel.scan.outputs = [[77; 8]; 8];
    let scan = &mut both.panel.scan;
    for (number, kept) in [(0, true), (1, false), (2, true), (3, true)] {
        let bank = &both.panel.bank;
        scan.words[1] = 0xABCD;
        scan.outputs[1] = [0, 1, 2, 3, 77, 128, 254, 255];
        assert_eq!(second::bank::latch(bank, scan, [0xF123; 8]), Ok(()));
        assert_eq!(scan.number, number);
        let slow = if kept { 0xABCD } else { 0x123 };
        assert_eq!(scan.words, [0x123, slow, 0, 0, 0, 0, 0, 0]);
        let outputs = if kept {
            [0, 1, 2, 3, 77, 128, 254, 255]
        } else {
            [2; 8]
        };
        assert_eq!((scan.outputs[0], scan.outputs[1]), ([2; 8], outputs));
        assert_eq!(scan.outputs[2..], [[2; 8]; 6]);
    }
}

#[test]
fn the_older_admission_means_period_1_and_phase_0() {
    let (mut bank, mut scan) = new_bank(255).unwrap();
    let mut rows = vec![7; 100];
    let (mut other_bank, mut other_scan, mut other_rows) =
        (bank.clone(), scan.clone(), rows.clone());
    for place in 1..=8 {
        let (records, bytes) = [ONE, TWO][place % 2];
        assert_eq!(
            admit(&mut bank, &mut scan, &mut rows, records, bytes),
            Ok(())
        );
        let handed = Handed::new(records, bytes, (1, 0));
        let answer = admit_every(&mut other_bank, &mut other_scan, &mut other_rows, handed);
        assert_eq!(answer, Ok(()));
        assert_eq!(
            (&bank, &scan, &rows),
            (&other_bank, &other_scan, &other_rows)
        );
        assert_eq!(bank.periods[..place], [1; 8][..place]);
        assert_eq!(
            (&bank.periods[place..], bank.phases),
            (&[0; 8][place..], [0; 8])
        );
    }
    let call = Call::admit(ONE.0.into(), ONE.1.into());
    assert_eq!(call, Call::admit_every(ONE.0.into(), ONE.1.into(), (1, 0)));
}

/// An admission writes the new place's period and phase and leaves the others.
#[test]
fn periods_in_the_bank() {
    let mut both = Both::new(255, 1_000);
    both.panel.bank.periods = [9; 8];
    both.panel.bank.phases = [200; 8];
    let (mut periods, mut phases) = ([9; 8], [200; 8]);
    for (place, period) in [(4, 3), (8, 7), (1, 0), (2, 1), (8, 0)]
        .into_iter()
        .enumerate()
    {
        assert_eq!(both.admit(TWO, (period.0, period.0)), Said::Refused(16));
        assert_eq!(both.admit(TWO, period), Said::Accepted);
        (periods[place], phases[place]) = (period.0 as u8, period.1 as u8);
        let bank = &both.panel.bank;
        assert_eq!((bank.periods, bank.phases), (periods, phases));
    }
}
