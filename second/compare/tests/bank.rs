//! The proved bank, through its exported functions, against the second bank and its book: every answer, every output and every byte
//! of bank, scan state and row memory after each call. Periods and rows at their limits are in the folder beside.

#[path = "bank/damaged.rs"]
mod damaged;
#[path = "bank/periods.rs"]
mod periods;
#[path = "bank/rows.rs"]
mod rows;

use proved::{State, StepNumbers, ROW_BYTES};
use second::bank::{self, NOT_SET};
use second::book::{Book, Call, Outputs, Said};
use second::generate::{
    block, calls, compiled, damage, job, made, right_period, Family, Random, StoredBlock,
};
use second::panel::Panel;
use second::stored;
use std::collections::BTreeMap;

const SEED: u64 = 9341;

/// Hand-made blocks, some with cells of up to sixteen outputs and up to 12 rails, and one that the compiler wrote.
fn blocks(index: u64) -> Vec<StoredBlock> {
    let family = match index % 24 {
        23 => Family::ManyOutputs,
        place => [Family::SmallOrders, Family::SmallManyFree, Family::Medium][place as usize % 3],
    };
    let hand_made = (0..3).map(|k| block(SEED, index * 3 + k));
    let of_many = (index % 8 == 0).then(|| made(SEED, index / 8));
    hand_made
        .chain(of_many)
        .chain(compiled(&job(family, SEED, index)))
        .collect()
}

/// The bytes that the second bank's state is.
fn lent(panel: &Panel) -> State {
    State::of(&panel.bank, &panel.scan, panel.rows.clone())
}

/// The proved function's answer; period 1 with phase 0 goes by the older admission.
fn said(state: &mut State, call: &Call) -> Said {
    let numbered = |refusal: u8| match refusal {
        0 => Said::Accepted,
        number => Said::Refused(number),
    };
    match call {
        Call::Admit {
            records,
            rows,
            period: 1,
            phase: 0,
        } => numbered(state.admit(records, rows)),
        Call::Admit {
            records,
            rows,
            period,
            phase,
        } => {
            let [period, phase] = [period, phase].map(|number| *number as usize);
            numbered(state.admit_every(records, rows, period, phase))
        }
        Call::Latch(words) => numbered(state.latch(words)),
        Call::Step => match state.step() {
            StepNumbers {
                kind: 1,
                block,
                cell,
                refusal: 0,
            } => Said::Went { block, cell },
            StepNumbers {
                kind: 0,
                block: 0,
                cell: 0,
                refusal: 0,
            } => Said::Idle,
            StepNumbers {
                kind: 2,
                block: 0,
                cell: 0,
                refusal,
            } => Said::Refused(refusal),
            other => panic!("{other:?}"),
        },
    }
}

/// The outputs in the bytes of a scan state.
fn outputs(state: &State) -> Outputs {
    let count = usize::from(state.bank[2]);
    let value = |v: u8| (v != NOT_SET).then_some(v == 1);
    let places = state.scan[21..].chunks_exact(8).take(count);
    places
        .map(|place| std::array::from_fn(|o| value(place[o])))
        .collect()
}

fn word(answer: Said) -> String {
    match answer {
        Said::Accepted => "accepted".to_string(),
        Said::Refused(number) => number.to_string(),
        Said::Went { .. } => "went".to_string(),
        Said::Idle => "idle".to_string(),
    }
}

#[test]
fn lists_of_calls() {
    let mut random = Random::new(1, SEED, 0);
    let (mut lists, mut made) = (0, 0);
    let mut seen: BTreeMap<String, u64> = BTreeMap::new();
    for index in 0..21_000 {
        let (limit, row_memory, list) = calls(SEED, index, &blocks(index));
        let rows = (0..row_memory).map(|_| random.next() as u8).collect();
        let mut second = Panel::new(limit, rows);
        let mut held = lent(&second);
        held.bank.fill(random.next() as u8);
        held.scan.fill(random.next() as u8);
        assert_eq!(held.make(usize::from(limit)), 0);
        assert_eq!(held, lent(&second), "list {index}");
        let mut book = Book::new(limit, row_memory);
        for call in &list {
            let answer = said(&mut held, call);
            assert_eq!(answer, second.call(call), "list {index}");
            assert_eq!(answer, book.enter(call), "list {index}");
            assert_eq!(outputs(&held), book.outputs(), "list {index}");
            assert_eq!(held, lent(&second), "list {index}");
            *seen.entry(word(answer)).or_default() += 1;
            made += 1;
        }
        lists += 1;
    }
    println!("{lists} lists, {made} calls: {seen:?}");
    for number in ["11", "12", "13", "14", "16", "went", "idle"] {
        assert!(seen.contains_key(number), "{number}");
    }
}

/// One field of the bank or the scan state takes another value; `held` are the blocks.
fn spoil(random: &mut Random, second: &mut Panel, held: &[StoredBlock]) {
    let place = random.below(8);
    let (bank, scan) = (&mut second.bank, &mut second.scan);
    match random.below(15) {
        0 => bank.limit = random.pick(&[0, 256, 257, 511, 65_535]),
        1 => bank.limit = random.within(1, 255) as u16,
        2 => bank.count = random.pick(&[0, 1, 7, 8, 9, 255]),
        3 => bank.lengths[place] = random.pick(&[0, 1, 19, 20, 21, 255]),
        4 => {
            let byte = random.below(80);
            bank.records[place][byte] = random.pick(&[0, 1, 2, 9, 11, 12, 127, 128, 135, 136]);
        }
        5 => bank.records[place][random.below(80)] ^= 1 << random.below(8),
        6 if !held.is_empty() => {
            let (records, _) = damage(random.next(), 0, &held[random.below(held.len())]);
            let length = records.len().min(80);
            bank.records[place][..length].copy_from_slice(&records[..length]);
            bank.lengths[place] = (records.len() / 4) as u8;
        }
        7 => scan.running = !scan.running,
        8 => scan.block = random.pick(&[0, 1, 2, 3, 7, 8, 255]),
        9 => scan.cell = random.pick(&[0, 1, 2, 3, 4, 19, 20, 255]),
        10 => {
            let bits = random.below(16);
            scan.rail = random.pick(&[0, 1, 255, 256, 65_535, 1 << bits]);
            if random.coin() {
                scan.rail = random.below(1 << (bits / 2)) as u16;
            }
        }
        11 => scan.number = random.pick(&[0, 1, 2, 5, 7, 8, 255]),
        12 => {
            let (period, phase) = right_period(random);
            (bank.periods[place], bank.phases[place]) = (period as u8, phase as u8);
        }
        13 => match random.coin() {
            true => bank.periods[place] = random.pick(&[0, 1, 2, 3, 4, 8, 16, 255]),
            false => bank.phases[place] = random.pick(&[0, 1, 2, 3, 4, 7, 8, 255]),
        },
        _ => {
            scan.words[place] = random.word();
            scan.outputs[place][random.below(8)] = random.next() as u8;
        }
    }
}

/// States that no list of calls leaves, each tried on a latch, a step and an admission.
#[test]
fn damaged_states() {
    let mut random = Random::new(2, SEED, 0);
    let mut seen: BTreeMap<String, u64> = BTreeMap::new();
    let mut states = 0;
    for index in 0..21_000 {
        let blocks = blocks(index % 6_000);
        let (limit, row_memory, list) = calls(SEED, index, &blocks);
        let rows = (0..row_memory).map(|_| random.next() as u8).collect();
        let mut second = Panel::new(limit, rows);
        let made = random.within(0, list.len());
        for call in &list[..made] {
            second.call(call);
        }
        for _ in 0..5 {
            let mut spoilt = second.clone();
            for _ in 0..random.within(1, 3) {
                spoil(&mut random, &mut spoilt, &blocks);
            }
            if random.percent(20) {
                spoilt.rows.truncate(random.below(spoilt.rows.len() + 1));
            }
            let (records, rows) = blocks[random.below(blocks.len())].clone();
            let words = std::array::from_fn(|_| random.word());
            // any byte but 0 says that a scan runs
            let running = random.within(1, 255) as u8;
            let period = match random.percent(70) {
                true => (1, 0),
                false => right_period(&mut random),
            };
            for call in [
                Call::admit_every(records, rows, period),
                Call::Latch(words),
                Call::Step,
            ] {
                let mut after = spoilt.clone();
                let mut held = lent(&spoilt);
                if spoilt.scan.running {
                    held.scan[0] = running;
                }
                let before = held.clone();
                let answer = said(&mut held, &call);
                assert_eq!(answer, after.call(&call), "state of list {index}");
                match answer {
                    Said::Refused(_) | Said::Idle => assert_eq!(held, before),
                    Said::Accepted | Said::Went { .. } => assert_eq!(held, lent(&after)),
                }
                *seen.entry(word(answer)).or_default() += 1;
            }
            states += 1;
        }
    }
    println!("{states} damaged states, each on three calls: {seen:?}");
    assert!(states >= 100_000);
    for number in ["11", "12", "13", "14", "went", "idle", "accepted"] {
        assert!(seen.contains_key(number), "{number}");
    }
}

/// States of any bytes.
#[test]
fn any_bytes() {
    let mut random = Random::new(3, SEED, 0);
    for index in 0..20_000 {
        let mut state = State {
            bank: std::array::from_fn(|_| random.next() as u8),
            scan: std::array::from_fn(|_| random.next() as u8),
            rows: (0..random.below(128))
                .map(|_| random.next() as u8)
                .collect(),
        };
        if index % 2 == 0 {
            state.bank[1] = 0;
            state.bank[2] %= 9;
            state.scan[85] %= 16;
        }
        let limit_held = state.bank[1] == 0 && state.bank[0] != 0;
        let empty = state.bank[2] == 0 && state.scan[0] == 0;
        let formed = limit_held && empty && state.scan[85] < 8;
        let before = state.clone();
        let (records, rows) = block(SEED, index % 50);
        let answers = [
            state.admit(&records, &rows),
            state.clone().latch(&[index as u16; 8]),
            state.admit_every(&records, &rows, index as usize, 0),
        ];
        let step = state.step();
        if !formed {
            assert_eq!(answers, [12, 12, 12]);
            assert_eq!((step.kind, step.refusal), (2, 12));
            assert_eq!(state, before);
        }
    }
}

/// S of any size.
#[test]
fn limits() {
    for limit in (0..300).chain([511, 65_535, 65_536, 65_537, 1 << 32, usize::MAX]) {
        let mut state = State {
            bank: [7; proved::BANK_BYTES],
            scan: [9; proved::SCAN_BYTES],
            rows: Vec::new(),
        };
        let before = state.clone();
        match bank::new_bank(limit as u64) {
            Ok((bank, scan)) => {
                assert_eq!(state.make(limit), 0);
                assert_eq!(state, State::of(&bank, &scan, Vec::new()));
            }
            Err(number) => {
                assert_eq!(state.make(limit), number);
                assert_eq!(state, before);
            }
        }
    }
}

/// A whole scan of compiled blocks sets what a run over the latched words emits.
#[test]
fn whole_scans() {
    for index in 0..500 {
        let blocks = blocks(index);
        let (bank, scan) = bank::new_bank(255).expect("S in range");
        let mut state = State::of(&bank, &scan, vec![0; ROW_BYTES]);
        // The largest leave no room for others.
        let mut blocks = blocks;
        blocks.retain(|(records, rows)| match state.admit(records, rows) {
            0 => true,
            number => number != 11,
        });
        assert_eq!(usize::from(state.bank[2]), blocks.len());
        let words: [u16; 8] = std::array::from_fn(|b| (index * 977 + b as u64 * 331) as u16);
        assert_eq!(state.latch(&words), 0);
        while state.step().kind == 1 {}
        for (place, (records, rows)) in blocks.iter().enumerate() {
            let emitted = stored::emit(records, rows, words[place] & 0xFFF).expect("well formed");
            assert_eq!(outputs(&state)[place], emitted);
        }
    }
}
