//! Long texts to be moved: around the longest one, the most bytes printed, and the longest words.

use super::{proved, Seen, SEED};
use second::call_lines::{admit_line, word_of, TEXT_BYTES};
use second::generate::{cascade, longest_in_text, Rows, Shape};
use second::moves::Way;

/// As many row bytes to be widened as a text holds.
#[test]
fn most_bytes_printed() {
    let mut seen = Seen::default();
    // x1 to x12 and y1 in a cell, and x1 to x6 and y1 in a cell.
    let cell = |inputs: u8| {
        let mut records: Vec<u8> = (0..inputs).flat_map(|x| [x, 0, 0, 0]).collect();
        records.extend([128, 1, 0, 0]);
        let records = word_of(&records);
        let line = |rows: &str| format!("admit {records} {}\n", rows.repeat(1 << inputs));
        (line("01"), line("0100"))
    };
    let (mut narrow, mut wide) = ("memory 32768\n".to_string(), "memory 65536\n".to_string());
    for (one_byte, two_bytes) in [12, 6].map(cell) {
        while narrow.len() + one_byte.len() < TEXT_BYTES {
            narrow += &one_byte;
            wide += &two_bytes;
        }
    }
    let remark = "#".repeat(TEXT_BYTES - narrow.len());
    narrow += &remark;
    wide += &format!("{remark}\n");
    seen.compare(Way::Widen, narrow.as_bytes());
    assert!(proved(Way::Widen, narrow.as_bytes()) == wide.as_bytes());
    println!("{} bytes printed: {seen:?}", wide.len());
    assert!(wide.len() > 2_000_000);
}

/// Around the longest text: a remark, blanks, many lines, an admission, and first lines that can't be read.
#[test]
fn long_texts() {
    let mut seen = Seen::default();
    let filled = |head: &str, with: &str, length: usize| -> Vec<u8> {
        let rest = with.bytes().cycle();
        head.bytes().chain(rest).take(length).collect()
    };
    for length in [
        65_528,
        65_529,
        TEXT_BYTES - 1,
        TEXT_BYTES,
        TEXT_BYTES + 1,
        TEXT_BYTES + 7,
        2 * TEXT_BYTES,
    ] {
        for (head, with) in [
            ("memory 8\n#", "x"),
            ("memory 8\n#", " x\t\r"),
            ("memory 8\nbank 1\n", "step\n"),
            ("memory 8\nbank 1\n", "\t step\r\n"),
            ("memory 8\nstep", " \t\r"),
            ("memory 8\n", "\n"),
            ("memory 8\nadmit 00000000 ", "0"),
            ("memory 8\nadmit ", "aF"),
            ("memory 8\n", "admit - -\n"),
            ("memory 8\nlatch", " 0000"),
            ("memory 0", "0"),
            ("", "\n"),
        ] {
            let mut text = filled(head, with, length);
            seen.both_ways(&text);
            text.pop();
            text.push(b'\n');
            seen.compare(Way::ALL[length % 2], &text);
        }
    }
    println!("long: {seen:?}");
    assert!(seen.lines["input"] > 100);
}

/// Words of the most bytes and of more, and the blocks of the most rows.
#[test]
fn long_admissions() {
    let mut seen = Seen::default();
    let words = [1, 65_534, 65_535, 65_536, 65_537].map(|count| "a0".repeat(count));
    for word in &words {
        for block in [
            format!("{word} -"),
            format!("- {word}"),
            format!("00010000 {word}"),
            format!("{word}\t{word} "),
            format!("{word}0 -"),
            format!("- {word}g"),
        ] {
            seen.both_ways(format!("memory 9\nadmit {block}\r\nstep\n").as_bytes());
        }
    }
    for index in 0..3 {
        let blocks = [
            longest_in_text(SEED, index),
            cascade(Shape::Largest, Rows::Sparse, SEED, index),
            cascade(Shape::EightRails, Rows::Random, SEED, index),
        ];
        for (records, rows) in blocks {
            let line = admit_line(&records, &rows);
            seen.both_ways(format!("memory 9\n{line}\n{line}\nstep\n").as_bytes());
        }
    }
    println!("long admissions: {seen:?}");
    for kind in ["refused 12", "refused 15", "line"] {
        assert!(seen.lines.contains_key(kind), "{kind} {seen:?}");
    }
}
