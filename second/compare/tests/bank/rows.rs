//! Rows of two bytes in the proved bank (document 02, §6): damaged rows, row memory of any length, as many rows as a bank can hold.

use super::{lent, outputs, said, SEED};
use proved::{State, ROW_BYTES};
use second::book::{Call, Said};
use second::generate::{
    block, cascade, compiled, damage, job, made, over_limit, Family, Over, Random, Rows, Shape,
    StoredBlock,
};
use second::panel::Panel;
use second::stored;

/// One admission by both, over row memory of so many bytes; every byte must be the same after.
fn admitted(block: &StoredBlock, bytes: usize, random: &mut Random) -> (Said, State, Panel) {
    let mut second = Panel::new(255, (0..bytes).map(|_| random.byte()).collect());
    let mut held = lent(&second);
    let (records, rows) = block.clone();
    let call = Call::admit(records, rows);
    let answer = said(&mut held, &call);
    assert_eq!(answer, second.call(&call), "{bytes} {block:?}");
    assert!(held == lent(&second), "{bytes} {block:?}");
    (answer, held, second)
}

/// Whole scans by both, over any words and over held rows with any bits, those above a cell's outputs too.
fn scanned(state: &State, second: &Panel, random: &mut Random) {
    for any in [false, true] {
        let (mut held, mut second) = (state.clone(), second.clone());
        if any {
            second.rows.fill_with(|| random.byte());
            held.rows.clone_from(&second.rows);
        }
        let latch = Call::Latch(std::array::from_fn(|_| random.word()));
        let mut answer = said(&mut held, &latch);
        assert_eq!(answer, second.call(&latch));
        while answer != Said::Idle {
            answer = said(&mut held, &Call::Step);
            assert_eq!(answer, second.call(&Call::Step));
            assert!(held == lent(&second));
            assert_eq!(outputs(&held), second.outputs());
        }
    }
}

/// Lengths around what the rows need: half of it, one byte or one row less, exactly it, one byte or one row more.
#[test]
fn row_memory_of_any_length() {
    let mut random = Random::new(11, SEED, 0);
    for index in 0..2_000 {
        let block = match index % 3 {
            0 => made(SEED, index),
            1 => block(SEED, index),
            _ => {
                let family = [Family::ManyOutputs, Family::SmallOrders][index as usize % 2];
                compiled(&job(family, SEED, index)).unwrap_or_else(|| made(SEED, index))
            }
        };
        let needed = block.1.len();
        let any = random.below(needed + 9);
        for bytes in [
            needed / 2,
            needed - 2,
            needed - 1,
            needed,
            needed + 1,
            needed + 2,
            any,
        ] {
            let (answer, state, second) = admitted(&block, bytes, &mut random);
            let short = bytes < needed;
            assert_eq!(
                answer,
                if short {
                    Said::Refused(11)
                } else {
                    Said::Accepted
                }
            );
            if bytes == needed + 1 {
                scanned(&state, &second, &mut random);
            }
            if short {
                continue;
            }
            // Lent less at the step than at the admission.
            let (mut held, mut second) = (state, second);
            let latch = Call::Latch([0x5A5; 8]);
            assert_eq!(said(&mut held, &latch), second.call(&latch));
            for less in [needed - 1, needed / 2, 0] {
                held.rows.truncate(less);
                second.rows.truncate(less);
                assert_eq!(said(&mut held, &Call::Step), Said::Refused(11));
                assert_eq!(second.call(&Call::Step), Said::Refused(11));
                assert!(held == lent(&second));
            }
        }
    }
}

/// Rows too large by their low or their high byte, row bytes of odd number, and all other damage.
#[test]
fn damaged_blocks() {
    let mut random = Random::new(12, SEED, 0);
    let (mut refused, mut accepted) = (0, 0);
    for index in 0..20_000 {
        let whole = match index % 2 {
            0 => made(SEED, index),
            _ => block(SEED, index),
        };
        let (answer, ..) = admitted(&damage(SEED, index, &whole), 65_536, &mut random);
        match answer {
            Said::Refused(12) => refused += 1,
            Said::Accepted => accepted += 1,
            other => panic!("{other:?}"),
        }
    }
    println!("{refused} damaged blocks give 12, {accepted} are well formed after all");
    assert!(refused > 15_000 && accepted > 100);
}

/// The values 2^outputs - 1 and 2^outputs in each cell of hand-made cascades.
#[test]
fn rows_at_their_bound() {
    let mut random = Random::new(13, SEED, 0);
    for index in 0..600 {
        let (records, rows) = made(SEED, index);
        let mut first = 0;
        for cell in stored::cells(&records).expect("well formed") {
            let bound = 1u32 << cell.output_count();
            let place = 2 * (first + random.below(cell.rows));
            first += cell.rows;
            for value in [bound - 1, bound] {
                let Ok(value) = u16::try_from(value) else {
                    continue;
                };
                let mut rows = rows.clone();
                rows[place..place + 2].copy_from_slice(&value.to_le_bytes());
                let block = (records.clone(), rows);
                let (answer, ..) = admitted(&block, ROW_BYTES, &mut random);
                let over = u32::from(value) == bound;
                assert_eq!(
                    answer,
                    if over {
                        Said::Refused(12)
                    } else {
                        Said::Accepted
                    }
                );
            }
        }
    }
}

#[test]
fn as_many_rows_as_can_be() {
    let mut random = Random::new(14, SEED, 0);
    for index in 0..40 {
        let kind = Rows::ALL[index as usize % Rows::ALL.len()];
        let largest = cascade(Shape::Largest, kind, SEED, index);
        for bytes in [65_534, 65_535, 65_536, 65_537, 80_000] {
            let (answer, state, second) = admitted(&largest, bytes, &mut random);
            let short = bytes < ROW_BYTES;
            assert_eq!(
                answer,
                if short {
                    Said::Refused(11)
                } else {
                    Said::Accepted
                }
            );
            if short {
                continue;
            }
            scanned(&state, &second, &mut random);
            let (mut held, mut second) = (state, second);
            let (records, rows) = (vec![128, 1, 0, 0], vec![1, 0]);
            let call = Call::admit(records, rows);
            assert_eq!(said(&mut held, &call), Said::Refused(11));
            assert_eq!(second.call(&call), Said::Refused(11));
            assert!(held == lent(&second));
        }
    }
}

/// 36,864 rows, a cell of 17 outputs or one of 13 inputs, on admission and where the bank holds the records.
#[test]
fn blocks_over_a_limit() {
    let mut random = Random::new(15, SEED, 0);
    for (over, index) in Over::ALL
        .iter()
        .flat_map(|over| (0..40).map(move |index| (*over, index)))
    {
        let block = over_limit(over, SEED, index);
        for bytes in [65_536, 73_728, 80_000] {
            let (answer, ..) = admitted(&block, bytes, &mut random);
            assert_eq!(answer, Said::Refused(12));
        }
        let mut second = Panel::new(255, vec![0; 80_000]);
        second.bank.records[0][..block.0.len()].copy_from_slice(&block.0);
        second.bank.lengths[0] = (block.0.len() / 4) as u8;
        second.bank.count = 1;
        for call in [Call::Latch([0; 8]), Call::Step] {
            assert_eq!(said(&mut lent(&second), &call), Said::Refused(12));
            assert_eq!(second.call(&call), Said::Refused(12));
        }
    }
}
