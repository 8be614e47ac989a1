//! The lines of a list of bank calls (docs/REPLAY.md): their words, the call that a line says, and what was expected of one that says
//! none.
//!
//! Blanks are the space, the tab and the carriage return; every other byte but the newline belongs to a word.

use crate::bank::PLACES;

/// The longest text.
pub const TEXT_BYTES: usize = 1_048_576;
/// The most bytes that the word of records and the word of rows stand for.
pub const WORD_BYTES: usize = 65_535;
/// The most bytes of row memory.
pub const MEMORY_BYTES: u32 = 65_536;

const MOST_LIMIT: u32 = 65_535;
const MOST_PERIOD: u32 = 255;

/// What a line after the first says.
#[derive(Debug, PartialEq, Eq)]
pub enum Line {
    /// Passed over.
    Nothing,
    Bank(u64),
    Admit {
        records: Vec<u8>,
        rows: Vec<u8>,
        period: u64,
        phase: u64,
    },
    Latch([u16; PLACES]),
    Step,
}

/// The words of a line.
pub fn words(line: &[u8]) -> Vec<&[u8]> {
    line.split(|byte| matches!(byte, b' ' | b'\t' | b'\r'))
        .filter(|word| !word.is_empty())
        .collect()
}

/// One to so many digits in base 10.
fn number(text: &[u8], most_digits: usize, most: u32) -> Option<u32> {
    if !(1..=most_digits).contains(&text.len()) || !text.iter().all(u8::is_ascii_digit) {
        return None;
    }
    let value = text
        .iter()
        .fold(0, |value, digit| 10 * value + u32::from(digit - b'0'));
    (value <= most).then_some(value)
}

/// Digits in base 16, small or capital.
fn digits(text: &[u8]) -> Option<u32> {
    text.iter().try_fold(0, |value, &byte| {
        Some(16 * value + char::from(byte).to_digit(16)?)
    })
}

/// Two digits for each byte, or `-` for none.
fn bytes(text: &[u8]) -> Option<Vec<u8>> {
    if text == b"-" {
        return Some(Vec::new());
    }
    if text.len() % 2 != 0 || text.len() > 2 * WORD_BYTES {
        return None;
    }
    let pairs = text.chunks_exact(2);
    pairs
        .map(|pair| digits(pair).map(|byte| byte as u8))
        .collect()
}

fn latched(texts: &[&[u8]]) -> Option<[u16; PLACES]> {
    if texts.len() != PLACES || texts.iter().any(|text| text.len() != 4) {
        return None;
    }
    let mut words = [0; PLACES];
    for (word, text) in words.iter_mut().zip(texts) {
        *word = digits(text)? as u16;
    }
    Some(words)
}

/// The first line's number, which is at most `most`.
pub fn read_memory(line: &[u8], most: u32) -> Option<u32> {
    match words(line)[..] {
        [b"memory", n] => number(n, 5, most),
        _ => None,
    }
}

fn admitted(records: &[u8], rows: &[u8], period: &[u8], phase: &[u8]) -> Option<Line> {
    Some(Line::Admit {
        records: bytes(records)?,
        rows: bytes(rows)?,
        period: number(period, 3, MOST_PERIOD)?.into(),
        phase: number(phase, 3, MOST_PERIOD)?.into(),
    })
}

/// A line after the first; None for one that can't be read.
pub fn read_line(line: &[u8]) -> Option<Line> {
    match words(line)[..] {
        [] | [[b'#', ..], ..] => Some(Line::Nothing),
        [b"bank", limit] => number(limit, 5, MOST_LIMIT).map(|limit| Line::Bank(limit.into())),
        [b"admit", records, rows] => admitted(records, rows, b"1", b"0"),
        [b"admit", records, rows, period, phase] => admitted(records, rows, period, phase),
        [b"latch", ref texts @ ..] => latched(texts).map(Line::Latch),
        [b"step"] => Some(Line::Step),
        _ => None,
    }
}

/// What is printed of a first line that can't be read.
pub fn first_not_understood(most: u32) -> String {
    not_understood(
        1,
        &format!("memory N, where N is one to five digits and at most {most}"),
    )
}

/// What is printed of another line that can't be read; lines are counted from 1.
pub fn line_not_understood(place: usize, line: &[u8]) -> String {
    let first = words(line).first().copied().unwrap_or_default();
    let expected = [
        ("bank", "bank S, where S is one to five digits and at most 65535"),
        (
            "admit",
            "admit RECORDS ROWS or admit RECORDS ROWS PERIOD PHASE, where RECORDS and ROWS are in base 16, two digits a byte and at most \
             65535 bytes, or - for none, and PERIOD and PHASE one to three digits and at most 255",
        ),
        ("latch", "latch and eight words of four digits in base 16"),
        ("step", "step and nothing after it"),
    ];
    let begun = expected
        .into_iter()
        .find(|(begin, _)| first.starts_with(begin.as_bytes()));
    not_understood(
        place,
        begun.map_or("bank, admit, latch or step", |(_, expected)| expected),
    )
}

fn not_understood(place: usize, expected: &str) -> String {
    format!("line {place}: not understood, expected {expected}\n")
}

/// What is printed of a text that is too long.
pub fn input_over() -> String {
    format!("input over {TEXT_BYTES} bytes\n")
}

/// A word of records or of rows, in small digits.
pub fn word_of(bytes: &[u8]) -> String {
    match bytes {
        [] => "-".to_string(),
        _ => bytes.iter().map(|byte| format!("{byte:02x}")).collect(),
    }
}

/// The line that admits a block to be read in every scan.
pub fn admit_line(records: &[u8], rows: &[u8]) -> String {
    format!("admit {} {}", word_of(records), word_of(rows))
}

/// The line that admits a block with its period and phase.
pub fn admit_every_line(records: &[u8], rows: &[u8], (period, phase): (u64, u64)) -> String {
    format!("{} {period} {phase}", admit_line(records, rows))
}
