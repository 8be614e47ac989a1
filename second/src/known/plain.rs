//! The literal evaluation: a run of the cascade for every filling.

use super::{submasks, Values, UNKNOWN};
use crate::stored::{cells_with_rows, emitted, Cell, Row};

type Emitted = [Option<bool>; 8];

/// The inputs that the cells use, as a mask.
fn used(cells: &[(Cell, &[Row])]) -> u16 {
    let inputs = cells.iter().flat_map(|(cell, _)| &cell.inputs);
    inputs.fold(0, |mask, input| mask | 1 << input)
}

/// The values that an output has in every run.
fn common(runs: &[Emitted]) -> [u8; 8] {
    std::array::from_fn(|output| {
        let every = |value| runs.iter().all(|run| run[output] == Some(value));
        match (every(false), every(true)) {
            (true, _) => 0,
            (_, true) => 1,
            _ => UNKNOWN,
        }
    })
}

/// Fills the unknown inputs that the cascade uses; the others change no run.
pub fn plain(records: &[u8], rows: &[u8], known: u16, word: u16) -> Values {
    let cells = cells_with_rows(records, rows).ok_or(12)?;
    let unknown = used(&cells) & !known;
    let filled = submasks(unknown).map(|filling| word & !unknown | filling);
    let runs: Vec<Emitted> = filled.map(|word| emitted(&cells, word)).collect();
    Ok(common(&runs))
}

/// What a well-formed cascade emits for every word of the inputs that it uses, so that many masks can be asked.
pub struct Runs {
    used: u16,
    /// By word; only those of words with no other bits are filled in.
    emitted: Vec<Emitted>,
}

impl Runs {
    /// 12 where the cascade is not well formed.
    pub fn of(records: &[u8], rows: &[u8]) -> Result<Runs, u8> {
        let cells = cells_with_rows(records, rows).ok_or(12)?;
        let used = used(&cells);
        let mut by_word = vec![[None; 8]; usize::from(used) + 1];
        for word in submasks(used) {
            by_word[usize::from(word)] = emitted(&cells, word);
        }
        Ok(Runs {
            used,
            emitted: by_word,
        })
    }

    /// Whether the cascade has the output.
    pub fn has(&self, output: usize) -> bool {
        self.emitted[0][output].is_some()
    }

    /// As `plain`.
    pub fn values(&self, known: u16, word: u16) -> [u8; 8] {
        let unknown = self.used & !known;
        let sure = word & self.used & known;
        let filled = submasks(unknown).map(|filling| usize::from(sure | filling));
        let runs: Vec<Emitted> = filled.map(|word| self.emitted[word]).collect();
        common(&runs)
    }
}
