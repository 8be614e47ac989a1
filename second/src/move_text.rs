//! What a program prints of a list of bank calls as text whose blocks' rows are moved (docs/REPLAY.md, with one byte a row).
//!
//! The first line gets the bytes that as many rows need, and an admission its rows moved, in small digits, or it becomes `refused N`;
//! its period and phase stay as they are spelt and are not judged. Every other line that `replay` can read, also one that is passed
//! over, keeps its words, parted by one space. After a line that can't be read nothing is printed.

use crate::call_lines::{
    admit_line, first_not_understood, input_over, line_not_understood, read_line, read_memory,
    words, Line, MEMORY_BYTES, TEXT_BYTES,
};
use crate::moves::Way;

/// The most bytes of memory in a first line: twice as many must be bytes of a first line, too.
fn most_memory(way: Way) -> u32 {
    match way {
        Way::Widen => MEMORY_BYTES / 2,
        Way::Narrow => MEMORY_BYTES,
    }
}

fn first_line(line: &[u8], way: Way) -> Result<Vec<u8>, String> {
    let most = most_memory(way);
    let memory = read_memory(line, most).ok_or_else(|| first_not_understood(most))?;
    Ok(format!("memory {}", way.row_bytes(memory as usize)).into_bytes())
}

/// `last` are the words after the rows.
fn admission(records: &[u8], rows: &[u8], last: &[&[u8]], way: Way) -> Vec<u8> {
    let mut to_records = vec![0; records.len()];
    let mut to_rows = vec![0; way.row_bytes(rows.len())];
    let moved = match way.run(records, rows, &mut to_records, &mut to_rows) {
        0 => admit_line(&to_records, &to_rows),
        refusal => return format!("refused {refusal}").into_bytes(),
    };
    [&[moved.as_bytes()], last].concat().join(&b' ')
}

/// A line after the first.
fn call_line(line: &[u8], place: usize, way: Way) -> Result<Vec<u8>, String> {
    let words = words(line);
    match read_line(line) {
        Some(Line::Admit { records, rows, .. }) => Ok(admission(&records, &rows, &words[3..], way)),
        Some(_) => Ok(words.join(&b' ')),
        None => Err(line_not_understood(place, line)),
    }
}

/// What the program prints of a text.
pub fn printed(text: &[u8], way: Way) -> Vec<u8> {
    if text.len() > TEXT_BYTES {
        return input_over().into_bytes();
    }
    let mut output = Vec::new();
    let mut lines: Vec<&[u8]> = text.split(|&byte| byte == b'\n').collect();
    // Blanks after the last line feed are no line.
    lines.pop_if(|last| words(last).is_empty() && last.len() < text.len());
    for (line, place) in lines.into_iter().zip(1..) {
        let moved = match place {
            1 => first_line(line, way),
            _ => call_line(line, place, way),
        };
        match moved {
            Ok(line) => {
                output.extend(line);
                output.push(b'\n');
            }
            Err(told) => {
                output.extend(told.into_bytes());
                break;
            }
        }
    }
    output
}
