//! What a program prints of a list of bank calls as text (docs/REPLAY.md).
//!
//! Each call prints `ok`, `went B C`, `idle` or `refused N`, then for each block held ` B:` and eight characters for outputs 0 to 7: `0`,
//! `1`, or `.` for not set. With no bank made yet every call but `bank` is refused with 12; a `bank` that is refused keeps the bank that
//! stood before. A line that can't be read ends the list, and is told of after the calls before it.

use crate::bank::{self, Bank, Handed, Scan, Step};
use crate::call_lines::{
    first_not_understood, input_over, line_not_understood, read_line, read_memory, Line,
    MEMORY_BYTES, TEXT_BYTES,
};

/// The most calls of a list.
pub const CALLS: usize = 32_768;

struct Held {
    bank: Bank,
    scan: Scan,
}

fn accepted(result: Result<(), u8>) -> String {
    match result {
        Ok(()) => "ok".to_string(),
        Err(refusal) => format!("refused {refusal}"),
    }
}

/// The call's answer.
fn run(held: &mut Option<Held>, rows: &mut [u8], call: &Line) -> String {
    if let Line::Bank(limit) = call {
        let made = bank::new_bank(*limit).map(|(bank, scan)| *held = Some(Held { bank, scan }));
        return accepted(made);
    }
    let Some(Held { bank, scan }) = held else {
        return "refused 12".to_string();
    };
    match call {
        Line::Admit {
            records,
            rows: bytes,
            period,
            phase,
        } => {
            let handed = Handed::new(records, bytes, (*period, *phase));
            accepted(bank::admit_every(bank, scan, rows, handed))
        }
        Line::Latch(words) => accepted(bank::latch(bank, scan, *words)),
        _ => match bank::step(bank, scan, rows) {
            Step::Went { block, cell } => format!("went {block} {cell}"),
            Step::Idle => "idle".to_string(),
            Step::Refused(refusal) => format!("refused {refusal}"),
        },
    }
}

fn blocks(held: &Held) -> String {
    let mut text = String::new();
    let count = usize::from(held.bank.count);
    for (place, outputs) in held.scan.outputs.iter().take(count).enumerate() {
        text.push_str(&format!(" {place}:"));
        text.extend(outputs.iter().map(|value| match value {
            0 => '0',
            1 => '1',
            _ => '.',
        }));
    }
    text
}

/// The calls up to the first line that can't be read, and what is printed of that line.
fn read<'a>(lines: impl Iterator<Item = &'a [u8]>) -> (Vec<Line>, String) {
    let mut calls = Vec::new();
    for (line, place) in lines.zip(2..) {
        match read_line(line) {
            Some(Line::Nothing) => {}
            Some(call) => calls.push(call),
            None => return (calls, line_not_understood(place, line)),
        }
    }
    (calls, String::new())
}

/// What the program prints of a text.
pub fn printed(text: &[u8]) -> String {
    if text.len() > TEXT_BYTES {
        return input_over();
    }
    let mut lines = text.split(|&byte| byte == b'\n');
    let first = lines.next().unwrap_or_default();
    let Some(memory) = read_memory(first, MEMORY_BYTES) else {
        return first_not_understood(MEMORY_BYTES);
    };
    let (calls, last) = read(lines);
    if calls.len() > CALLS {
        return format!("over {CALLS} calls\n");
    }
    let mut rows = vec![0; memory as usize];
    let (mut held, mut output) = (None, String::new());
    for call in &calls {
        output.push_str(&run(&mut held, &mut rows, call));
        output.push_str(&held.as_ref().map(blocks).unwrap_or_default());
        output.push('\n');
    }
    output + &last
}
