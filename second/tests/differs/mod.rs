//! A bank with a mistake, held against the book.

use second::bank::{admit_with, latch_with, new_bank, step_with, Handed, Mistake, Step};
use second::book::{Book, Call, Outputs, Said};

/// Whether a bank with a mistake answers, sets or keeps in words anything else than the book.
pub fn differs(mistake: Mistake, (limit, row_memory, list): &(u8, usize, Vec<Call>)) -> bool {
    let (mut bank, mut scan) = new_bank(u64::from(*limit)).expect("S in range");
    let mut held = vec![0; *row_memory];
    let mut book = Book::new(*limit, *row_memory);
    let numbered = |answer: Result<(), u8>| answer.map_or_else(Said::Refused, |()| Said::Accepted);
    list.iter().any(|call| {
        let said = match call {
            Call::Admit {
                records,
                rows,
                period,
                phase,
            } => {
                let handed = Handed::new(records, rows, (*period, *phase));
                let (bank, scan) = (&mut bank, &mut scan);
                numbered(admit_with(bank, scan, &mut held, handed, mistake))
            }
            Call::Latch(words) => numbered(latch_with(&bank, &mut scan, *words, mistake)),
            Call::Step => match step_with(&bank, &mut scan, &held, mistake) {
                Step::Went { block, cell } => Said::Went { block, cell },
                Step::Idle => Said::Idle,
                Step::Refused(number) => Said::Refused(number),
            },
        };
        let value = |v: u8| (v < 2).then_some(v == 1);
        let blocks = scan.outputs[..usize::from(bank.count)].iter();
        let outputs: Outputs = blocks.map(|outputs| outputs.map(value)).collect();
        if said != book.enter(call) || outputs != book.outputs() {
            return true;
        }
        let mut words = book.words().iter().zip(scan.words);
        words.any(|(told, word)| told.is_some_and(|told| told != word))
    })
}
