//! Bank against book on random lists of calls, and what demand 3 says beside the book.

use second::book::{Book, Call, Said};
use second::generate::{block, calls, compiled, job, made, Family, StoredBlock, RIGHT};
use second::panel::Panel;
use second::stored;

const SEED: u64 = 4711;

/// Hand-made blocks and blocks that the compiler wrote; some have cells of more than eight outputs.
fn blocks(index: u64) -> Vec<StoredBlock> {
    let hand_made = (0..3).map(|k| block(SEED, index * 3 + k));
    let of_many = (index % 8 == 0).then(|| made(SEED, index / 8));
    let family = match index % 8 {
        1 => Family::ManyOutputs,
        _ => Family::SmallOrders,
    };
    hand_made
        .chain(of_many)
        .chain(compiled(&job(family, SEED, index)))
        .collect()
}

fn panel(limit: u8, row_memory: usize) -> Panel {
    Panel::new(
        limit,
        (0..row_memory).map(|i| (i * 37 + 11) as u8).collect(),
    )
}

#[test]
fn bank_answers_and_sets_what_the_book_does() {
    let (mut lists, mut made, mut refused) = (0, 0, [0; 17]);
    for index in 0..6_000 {
        let (limit, row_memory, list) = calls(SEED, index, &blocks(index));
        let mut panel = panel(limit, row_memory);
        let mut book = Book::new(limit, row_memory);
        for call in &list {
            let before = panel.clone();
            let said = panel.call(call);
            assert_eq!(said, book.enter(call), "list {index}");
            assert_eq!(panel.outputs(), book.outputs(), "list {index}");
            if let Said::Refused(number) = said {
                refused[usize::from(number)] += 1;
                assert!(panel.bank == before.bank && panel.scan == before.scan);
                assert!(panel.rows == before.rows);
            }
            made += 1;
        }
        lists += 1;
    }
    println!("{lists} lists, {made} calls, refused by number {refused:?}");
    assert!([11, 12, 13, 14, 16].iter().all(|&n| refused[n] > 0));
}

/// Every scan makes the lesser of its steps and the cells of the blocks that are due, which are at most S.
#[test]
fn a_scan_reads_as_many_cells_as_are_due() {
    let mut fewer = 0;
    for index in 0..1_000 {
        let (limit, row_memory, list) = calls(SEED, index, &blocks(index));
        let mut panel = panel(limit, row_memory);
        let mut held: Vec<(usize, u64, u64)> = Vec::new();
        let mut latches = 0;
        let (mut cells, mut steps, mut reads) = (0, 0, 0);
        for call in &list {
            match (call, panel.call(call)) {
                (Call::Latch(_), said) => {
                    assert_eq!(said, Said::Accepted);
                    let due = |&&(_, period, phase): &&(usize, u64, u64)| latches % period == phase;
                    cells = held.iter().filter(due).map(|block| block.0).sum();
                    fewer += usize::from(cells < held.iter().map(|block| block.0).sum());
                    (steps, reads) = (0, 0);
                    latches += 1;
                }
                (
                    Call::Admit {
                        records,
                        period,
                        phase,
                        ..
                    },
                    Said::Accepted,
                ) => {
                    let count = stored::cells(records).expect("well formed").len();
                    held.push((count, *period, *phase));
                    (cells, steps, reads, latches) = (0, 0, 0, 0);
                }
                (Call::Step, said) => {
                    steps += 1;
                    reads += usize::from(matches!(said, Said::Went { .. }));
                    assert_eq!(reads, cells.min(steps));
                }
                _ => {}
            }
            assert!(cells <= usize::from(limit));
        }
    }
    assert!(fewer > 500, "{fewer}");
}

/// Bits of a due block's word that no cell read so far uses have no effect on what is set, in the latch or in the scan state, and the
/// reads left emit what a run over the replaced words emits. A block that isn't due keeps what it had.
#[test]
fn unread_inputs_stand_as_they_like() {
    let mut kept = 0;
    for index in 0..1_000u64 {
        let words: [u16; 8] =
            std::array::from_fn(|b| (index * 977 + b as u64 * 331) as u16 & 0xFFF);
        let flips: [u16; 8] = std::array::from_fn(|b| (index * 7919 + b as u64 * 127) as u16);
        let mut panel = panel(255, 65_536);
        let mut blocks = Vec::new();
        for (place, (records, rows)) in self::blocks(index).into_iter().enumerate() {
            let period = RIGHT[(index as usize * 7 + place * 4) % 15];
            let call = Call::admit_every(records.clone(), rows.clone(), period);
            match panel.call(&call) {
                Said::Accepted => blocks.push((records, rows, period)),
                // The largest leave no room for others.
                said => assert_eq!(said, Said::Refused(11)),
            }
        }
        // Scans before this one, some of them dropped.
        let number = index % 11;
        for scan in 0..number {
            panel.call(&Call::Latch(
                words.map(|word| word.rotate_left(scan as u32)),
            ));
            for _ in 0..(index * 13 + scan * 5) % 40 {
                panel.call(&Call::Step);
            }
        }
        let before = panel.outputs();
        let rest = panel.clone();
        panel.call(&Call::Latch(words));
        let mut used = [0u16; 8];
        for _ in 0..index % 12 {
            if let Said::Went { block, cell } = panel.call(&Call::Step) {
                let cells = stored::cells(&blocks[usize::from(block)].0).expect("well formed");
                for input in &cells[usize::from(cell)].inputs {
                    used[usize::from(block)] |= 1 << input;
                }
            }
        }
        let replaced: [u16; 8] = std::array::from_fn(|b| words[b] ^ (flips[b] & !used[b]));
        let mut again = rest;
        again.call(&Call::Latch(replaced));
        for _ in 0..index % 12 {
            again.call(&Call::Step);
        }
        assert_eq!(panel.outputs(), again.outputs());
        let due = |(period, phase): (u64, u64)| number % 8 % period == phase;
        for (place, (.., period)) in blocks.iter().enumerate() {
            if due(*period) {
                panel.scan.words[place] = replaced[place];
            }
        }
        for panel in [&mut panel, &mut again] {
            while panel.call(&Call::Step) != Said::Idle {}
            for (place, (records, rows, period)) in blocks.iter().enumerate() {
                let expected = match due(*period) {
                    true => stored::emit(records, rows, replaced[place]).expect("well formed"),
                    false => before[place],
                };
                kept += usize::from(!due(*period) && expected != [None; 8]);
                assert_eq!(panel.outputs()[place], expected);
            }
        }
    }
    assert!(kept > 500, "{kept}");
}
