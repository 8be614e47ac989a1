//! Rows of two bytes in the bank (document 02, §6): row memory in pairs, cells of sixteen outputs, as many rows as a bank can hold,
//! and mistakes that the book shows.

#[path = "differs/mod.rs"]
mod differs;

use differs::differs;
use second::bank::{admit, latch, new_bank, step, Bank, Mistake, Scan, Step};
use second::book::{Book, Call, Said};
use second::cases::SIXTEEN_OUTPUTS;
use second::fast;
use second::generate::{
    block, calls, cascade, compiled, job, made, over_limit, row_bytes, Family, Over, Rows, Shape,
    StoredBlock,
};

const SEED: u64 = 616;

fn went(block: u8, cell: u8) -> Step {
    Step::Went { block, cell }
}

/// A bank with this block, over row memory of so many bytes.
fn with(block: &StoredBlock, bytes: usize) -> Result<(Bank, Scan, Vec<u8>), u8> {
    let (mut bank, mut scan) = new_bank(255)?;
    let mut rows = vec![7; bytes];
    let before = (bank.clone(), scan.clone(), rows.clone());
    let answer = admit(&mut bank, &mut scan, &mut rows, &block.0, &block.1);
    if answer.is_err() {
        assert!((&bank, &scan, &rows) == (&before.0, &before.1, &before.2));
    }
    answer.map(|()| (bank, scan, rows))
}

/// The last byte of an odd memory is no room, and is kept.
#[test]
fn row_memory_of_any_length() {
    for index in 0..300 {
        let block = match index % 3 {
            0 => made(SEED, index),
            _ => block(SEED, index),
        };
        let needed = block.1.len();
        for bytes in [0, needed / 2, needed - 2, needed - 1] {
            assert_eq!(with(&block, bytes).err(), Some(11));
        }
        for past in 0..4 {
            let (bank, mut scan, rows) = with(&block, needed + past).expect("room");
            assert!(rows[..needed] == block.1 && rows[needed..] == [7; 3][..past]);
            latch(&bank, &mut scan, [0x5A5; 8]).expect("formed");
            let latched = scan.clone();
            for short in [0, needed / 2, needed - 1] {
                let refused = Step::Refused(11);
                assert_eq!(step(&bank, &mut scan, &rows[..short]), refused);
                let quick = fast::step::step(&bank, &mut scan, &rows[..short]);
                assert_eq!((quick, &scan), (refused, &latched));
            }
            let quick = fast::step::step(&bank, &mut scan.clone(), &rows);
            assert_eq!(
                (quick, step(&bank, &mut scan, &rows)),
                (went(0, 0), went(0, 0))
            );
        }
    }
}

/// x1, y1 to y4 and 12 rails; then y5, which is 1 for one rail word alone. A row's bits above its cell's outputs don't count.
#[test]
fn a_step_reads_low_byte_first() {
    let records = SIXTEEN_OUTPUTS.to_vec();
    let mut values = vec![0; 2 + 4_096];
    (values[1], values[2 + 0x5C3]) = (0xA5C3, 1);
    let block = (records, row_bytes(&values));
    for above in [0, 0x02, 0xFE] {
        let (bank, scan, mut rows) = with(&block, 8_196).expect("room");
        // Of the second cell alone: all sixteen bits of the first one's rows count.
        for row in rows[4..].chunks_exact_mut(2) {
            (row[0], row[1]) = (row[0] | above, above);
        }
        for stepper in [step, fast::step::step] {
            let mut scan = scan.clone();
            latch(&bank, &mut scan, [1; 8]).expect("formed");
            assert_eq!(stepper(&bank, &mut scan, &rows), went(0, 0));
            assert_eq!((scan.cell, scan.rail), (1, 0x5C3));
            assert_eq!(scan.outputs[0], [1, 0, 1, 0, 2, 2, 2, 2]);
            assert_eq!(stepper(&bank, &mut scan, &rows), went(0, 1));
            assert_eq!(scan.outputs[0], [1, 0, 1, 0, 1, 2, 2, 2]);
        }
    }
}

/// A rail word of the scan state may have up to 12 bits.
#[test]
fn rail_words_outside_those_held() {
    let block = cascade(Shape::Largest, Rows::Random, SEED, 0);
    let (bank, mut scan, rows) = with(&block, 65_536).expect("room");
    latch(&bank, &mut scan, [0; 8]).expect("formed");
    assert_eq!(step(&bank, &mut scan, &rows), went(0, 0));
    let rails = bank.records[0].chunks_exact(4).find(|r| r[1] == 1);
    let words = 1 << rails.expect("a cut")[2];
    for (rail, held) in [(words - 1, true), (words, false), (u16::MAX, false)] {
        scan.rail = rail;
        for stepper in [step, fast::step::step] {
            let answer = stepper(&bank, &mut scan.clone(), &rows);
            assert_eq!(answer, if held { went(0, 1) } else { Step::Refused(12) });
        }
    }
}

#[test]
fn as_many_rows_as_a_bank_holds() {
    let one = (vec![128, 1, 0, 0], vec![1, 0]);
    for index in 0..8 {
        let largest = cascade(Shape::Largest, Rows::Random, SEED, index);
        assert_eq!(with(&largest, 65_535).err(), Some(11));
        let (mut bank, mut scan, mut rows) = with(&largest, 70_000).expect("room");
        let before = rows.clone();
        let answer = admit(&mut bank, &mut scan, &mut rows, &one.0, &one.1);
        assert_eq!((answer, rows == before), (Err(11), true));
        // The other way round, too: 32,769 rows in all.
        let (mut bank, mut scan, mut rows) = with(&one, 70_000).expect("room");
        let answer = admit(&mut bank, &mut scan, &mut rows, &largest.0, &largest.1);
        assert_eq!(answer, Err(11));
        let mut book = Book::new(255, 70_000);
        for ((records, rows), said) in [(one.clone(), Said::Accepted), (largest, Said::Refused(11))]
        {
            assert_eq!(book.enter(&Call::admit(records, rows)), said);
        }
    }
}

/// A block of 36,864 rows, one with a cell of 17 outputs, one with a cell of 13 inputs: 12 on admission, and where the bank holds
/// its records.
#[test]
fn blocks_over_a_limit() {
    let memory = vec![0; 80_000];
    for (over, index) in Over::ALL
        .iter()
        .flat_map(|over| (0..20).map(move |i| (*over, i)))
    {
        let block = over_limit(over, SEED, index);
        assert_eq!(with(&block, 80_000).err(), Some(12));
        let (records, rows) = block.clone();
        let said = Book::new(255, 80_000).enter(&Call::admit(records, rows));
        assert_eq!(said, Said::Refused(12), "{over:?}");
        let (mut bank, mut scan) = new_bank(255).expect("S in range");
        bank.records[0][..block.0.len()].copy_from_slice(&block.0);
        bank.lengths[0] = (block.0.len() / 4) as u8;
        bank.count = 1;
        for stepper in [step, fast::step::step] {
            assert_eq!(stepper(&bank, &mut scan, &memory), Step::Refused(12));
        }
        assert_eq!(latch(&bank, &mut scan, [0; 8]), Err(12));
    }
}

#[test]
fn mistakes_show() {
    let mistakes = [
        Mistake::None,
        Mistake::HighByteFirst,
        Mistake::LowByteAlone,
        Mistake::MemoryInRows,
    ];
    let mut found = [0; 4];
    for index in 0..300 {
        let many = compiled(&job(Family::ManyOutputs, SEED, index));
        let hand_made = cascade(Shape::SixteenOutputs, Rows::Random, SEED, index);
        let blocks: Vec<StoredBlock> = many.into_iter().chain([hand_made]).collect();
        let list = calls(SEED, index, &blocks);
        for (found, mistake) in found.iter_mut().zip(mistakes) {
            *found += usize::from(differs(mistake, &list));
        }
    }
    println!("{mistakes:?} differ on {found:?} of 300 lists");
    assert_eq!(found[0], 0);
    assert!(found[1..].iter().all(|&count| count > 30), "{found:?}");
}
