//! Damaged states with periods (document 02, §8), each tried on every call: answers and all bytes as the second bank has them.

use super::{blocks, lent, said, word, SEED};
use second::bank::{Bank, Scan};
use second::book::{Call, Said};
use second::generate::{right_period, scans, Random, Scans, LARGE, WRONG};
use second::panel::Panel;
use second::stored;
use std::collections::BTreeMap;

/// Where a state stands.
#[derive(Clone, Copy, PartialEq, Eq)]
enum Stands {
    /// No latch since the last admission.
    AtRest,
    /// Reads are left.
    Running,
    /// All cells are read, or none was due.
    Done,
}

impl Stands {
    fn name(self) -> &'static str {
        match self {
            Stands::AtRest => "at rest",
            Stands::Running => "running",
            Stands::Done => "done",
        }
    }
}

/// A state that a list of calls leaves, broken off anywhere.
fn left(random: &mut Random, index: u64) -> (Panel, Stands) {
    let kind = [Scans::Admitted, Scans::Whole, Scans::Dropped][index as usize % 3];
    let (limit, row_memory, list) = scans(kind, SEED, 50_000 + index, &blocks(index));
    let mut panel = Panel::new(limit, random.bytes(row_memory));
    let mut latched = false;
    for call in &list[..random.within(1, list.len().min(150))] {
        match (call, panel.call(call)) {
            (Call::Latch(_), _) => latched = true,
            (Call::Admit { .. }, Said::Accepted) => latched = false,
            _ => {}
        }
    }
    let stands = match (panel.scan.running, latched) {
        (true, _) => Stands::Running,
        (false, true) => Stands::Done,
        (false, false) => Stands::AtRest,
    };
    (panel, stands)
}

fn due(bank: &Bank, place: usize, number: u8) -> bool {
    number % bank.periods[place] == bank.phases[place]
}

/// The due cells of the eight scans, and all cells.
fn reads(bank: &Bank) -> ([usize; 8], usize) {
    let (mut reads, mut all) = ([0; 8], 0);
    for place in 0..usize::from(bank.count) {
        let length = 4 * usize::from(bank.lengths[place]);
        let cells = stored::cells(&bank.records[place][..length]);
        let cells = cells.expect("well formed").len();
        all += cells;
        let due = (0..8).filter(|&number| due(bank, place, number));
        due.for_each(|number| reads[usize::from(number)] += cells);
    }
    (reads, all)
}

/// Some held block that is due in the running scan or isn't, other than the one to be read.
fn other_block(random: &mut Random, bank: &Bank, scan: &Scan, is_due: bool) -> Option<u8> {
    let found = (0..bank.count).filter(|&place| {
        place != scan.block && due(bank, usize::from(place), scan.number) == is_due
    });
    let found: Vec<u8> = found.collect();
    (!found.is_empty()).then(|| random.pick(&found))
}

const WAYS: usize = 16;

/// What one change made of a state, and whether it alone gives 12.
type Damage = (String, Option<bool>);

/// One change; None where the state can't be changed so.
fn damage(random: &mut Random, way: usize, panel: &mut Panel, stands: Stands) -> Option<Damage> {
    let (bank, scan) = (&mut panel.bank, &mut panel.scan);
    let held = usize::from(bank.count);
    let running = stands == Stands::Running;
    let own = usize::from(scan.block);
    let place = random.below(held.max(1));
    let always = |name: &str| Some((name.to_string(), Some(true)));
    let never = |name: &str| Some((name.to_string(), Some(false)));
    match way {
        0..=2 => {
            let above = random.within(9, 254) as u8;
            scan.number = [8, 255, above][way];
            let name = ["8", "255", "above 8"][way];
            always(&format!("number {name} {}", stands.name()))
        }
        3 => {
            let ahead = random.within(1, 7) as u8;
            scan.number = scan.number.wrapping_add(ahead) % 8;
            match running {
                true if due(bank, own, scan.number) => never("number by which the block is due"),
                true => always("number by which the block isn't due"),
                false => never("another number"),
            }
        }
        4..=6 if held > 0 => {
            bank.periods[place] = [0, 3, 16][way - 4];
            bank.phases[place] = random.below(2) as u8;
            always(&format!("period {}", bank.periods[place]))
        }
        7 if held > 0 => {
            bank.phases[place] = bank.periods[place];
            always("phase as the period")
        }
        8 if held > 0 => {
            bank.phases[place] = random.within(usize::from(bank.periods[place]) + 1, 255) as u8;
            always("phase above the period")
        }
        9 if held < 8 => {
            let (period, phase) = random.pick(&WRONG);
            let place = random.within(held, 7);
            (bank.periods[place], bank.phases[place]) = (period as u8, phase as u8);
            never("wrong in a place not held")
        }
        10 if held > 0 => {
            let (period, phase) = right_period(random);
            (bank.periods[place], bank.phases[place]) = (period as u8, phase as u8);
            Some(("another right period".to_string(), None))
        }
        11..=13 if held > 0 => {
            let (reads, all) = reads(bank);
            let most = *reads.iter().max().expect("eight");
            let over = reads.iter().filter(|&&count| count == most).count();
            match way {
                11 if most > 1 => {
                    bank.limit = (most - 1) as u16;
                    always(match over {
                        1 => "S under one scan alone",
                        _ => "S under some scans",
                    })
                }
                12 => {
                    bank.limit = most as u16;
                    never("S as one scan needs")
                }
                13 if most < all => {
                    bank.limit = random.within(most, all - 1) as u16;
                    never("S under all cells, under no scan")
                }
                _ => None,
            }
        }
        14 | 15 if running => {
            let is_due = way == 14;
            scan.block = other_block(random, bank, scan, is_due)?;
            (scan.cell, scan.rail) = (0, 0);
            match is_due {
                true => never("another due block"),
                false => always("a block that isn't due"),
            }
        }
        _ => None,
    }
}

/// Tries a state on every call; counts the answers, and answers how many gave 12.
fn tried(random: &mut Random, panel: &Panel, seen: &mut BTreeMap<String, u64>) -> usize {
    let (records, rows) = (vec![0, 0, 0, 0, 128, 1, 0, 0], vec![0, 0, 1, 0]);
    let wrong = match random.coin() {
        true => random.pick(&WRONG),
        false => random.pick(&LARGE),
    };
    let admit = |period| Call::admit_every(records.clone(), rows.clone(), period);
    let calls = [
        admit((1, 0)),
        admit(right_period(random)),
        admit(wrong),
        Call::Latch(std::array::from_fn(|_| random.word())),
        Call::Step,
    ];
    // Any byte but 0 says that reads are left.
    let running = random.within(1, 255) as u8;
    let mut state = lent(panel);
    if panel.scan.running {
        state.scan[0] = running;
    }
    let mut twelve = 0;
    for call in &calls {
        let (mut held, mut after) = (state.clone(), panel.clone());
        let answer = said(&mut held, call);
        assert_eq!(answer, after.call(call), "{call:?} {panel:?}");
        match answer {
            Said::Refused(_) | Said::Idle => assert_eq!(held, state),
            Said::Accepted | Said::Went { .. } => assert_eq!(held, lent(&after)),
        }
        twelve += usize::from(answer == Said::Refused(12));
        *seen.entry(word(answer)).or_default() += 1;
    }
    // The older admission by the new one's function, too.
    let (mut older, mut newer) = (state.clone(), state);
    let answers = [
        older.admit(&records, &rows),
        newer.admit_every(&records, &rows, 1, 0),
    ];
    assert_eq!((answers[0], older), (answers[1], newer));
    twelve
}

/// How often each damage was tried, and how many of its states gave 12.
type Counts = BTreeMap<String, [u64; 2]>;

#[test]
fn damaged_states_with_periods() {
    let mut random = Random::new(32, SEED, 0);
    let mut seen = BTreeMap::new();
    let mut counts = Counts::new();
    let (mut states, mut twice) = (0, 0);
    for index in 0..14_000 {
        let (whole, stands) = left(&mut random, index);
        for way in 0..WAYS {
            let mut panel = whole.clone();
            let Some((name, alone)) = damage(&mut random, way, &mut panel, stands) else {
                continue;
            };
            if random.percent(10) {
                let less = random.below(panel.rows.len() + 1);
                panel.rows.truncate(less);
            }
            let twelve = tried(&mut random, &panel, &mut seen);
            // On every call or on none.
            assert!(twelve == 0 || twelve == 5, "{name} {panel:?}");
            assert!(alone.is_none_or(|alone| alone == (twelve > 0)), "{name}");
            let [count, refused] = counts.entry(name).or_default();
            *count += 1;
            *refused += u64::from(twelve > 0);
            states += 1;
            // With another one; after a wrong period none is reckoned from.
            if !(4..=8).contains(&way) {
                let other = random.below(10);
                if damage(&mut random, other, &mut panel, stands).is_some() {
                    tried(&mut random, &panel, &mut seen);
                    twice += 1;
                }
            }
        }
    }
    println!("{states} states with one damage, {twice} with two, each on six calls: {seen:?}");
    println!("{counts:?}");
    assert!(states >= 150_000);
    for number in ["11", "12", "13", "14", "16", "went", "idle", "accepted"] {
        assert!(seen.contains_key(number), "{number}");
    }
    for name in [
        "number 8 at rest",
        "number 8 running",
        "number 8 done",
        "number 255 at rest",
        "number 255 running",
        "number 255 done",
        "number by which the block is due",
        "number by which the block isn't due",
        "period 0",
        "period 3",
        "period 16",
        "phase as the period",
        "wrong in a place not held",
        "S under one scan alone",
        "S as one scan needs",
        "S under all cells, under no scan",
        "a block that isn't due",
        "another due block",
    ] {
        assert!(
            counts.get(name).is_some_and(|[count, _]| *count > 300),
            "{name}"
        );
    }
    let [count, refused] = counts["another right period"];
    assert!(0 < refused && refused < count);
}
