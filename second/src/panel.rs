//! A bank with its scan state and row memory, called as the book is.

use crate::bank::{self, Bank, Handed, Scan, Step, NOT_SET};
use crate::book::{Call, Outputs, Said};
use crate::fast;

#[derive(Clone, Debug, PartialEq, Eq)]
pub struct Panel {
    pub bank: Bank,
    pub scan: Scan,
    /// Row memory, two bytes a row.
    pub rows: Vec<u8>,
}

fn numbered(answer: Result<(), u8>) -> Said {
    answer.map_or_else(Said::Refused, |()| Said::Accepted)
}

impl Panel {
    /// A bank just made with an S in range, and row memory of any contents.
    pub fn new(limit: u8, rows: Vec<u8>) -> Panel {
        let (bank, scan) = bank::new_bank(u64::from(limit)).expect("S in range");
        Panel { bank, scan, rows }
    }

    /// The answer of the bank. Both steps must agree, and leave the same scan state.
    pub fn call(&mut self, call: &Call) -> Said {
        match call {
            Call::Admit {
                records,
                rows,
                period,
                phase,
            } => {
                let handed = Handed::new(records, rows, (*period, *phase));
                let (bank, scan) = (&mut self.bank, &mut self.scan);
                numbered(bank::admit_every(bank, scan, &mut self.rows, handed))
            }
            Call::Latch(words) => numbered(bank::latch(&self.bank, &mut self.scan, *words)),
            Call::Step => {
                let mut scan = self.scan.clone();
                let quick = fast::step::step(&self.bank, &mut scan, &self.rows);
                let answer = bank::step(&self.bank, &mut self.scan, &self.rows);
                assert_eq!((quick, &scan), (answer, &self.scan));
                match answer {
                    Step::Went { block, cell } => Said::Went { block, cell },
                    Step::Idle => Said::Idle,
                    Step::Refused(number) => Said::Refused(number),
                }
            }
        }
    }

    /// The outputs of each block held.
    pub fn outputs(&self) -> Outputs {
        let value = |v: u8| (v != NOT_SET).then_some(v == 1);
        let held = self.scan.outputs[..usize::from(self.bank.count)].iter();
        held.map(|outputs| outputs.map(value)).collect()
    }
}
