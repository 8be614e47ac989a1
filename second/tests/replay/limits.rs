//! Long texts, long lists and long admissions, at their limits and over them.

use super::{both, not_understood, ADMIT, BANK, BLOCK, MEMORY, OTHER};
use second::call_lines::admit_line;
use second::generate::{cascade, longest_in_text, Rows, Shape};

const TEXT: usize = 1_048_576;
const CALLS: usize = 32_768;

#[test]
fn long_texts() {
    for (length, read) in [
        (TEXT - 1, true),
        (TEXT, true),
        (TEXT + 1, false),
        (TEXT + 2, false),
        (2 * TEXT, false),
    ] {
        let told = |text: &str| match read {
            true => text.to_string(),
            false => "input over 1048576 bytes\n".to_string(),
        };
        for (head, with, text) in [
            ("memory 8\nbank 1\n#", "x", "ok\n".to_string()),
            ("memory 8\nbank 1\n", "\n", "ok\n".to_string()),
            ("memory 8\nbank 1\nstep", " \t\r", "ok\nidle\n".to_string()),
            ("\t", " ", not_understood(1, MEMORY)),
            ("memory 0", "0", not_understood(1, MEMORY)),
            ("memory 8\nbank ", "0", not_understood(2, BANK)),
            ("memory 8\nadmit ", "0", not_understood(2, ADMIT)),
            ("memory 8\n", "\u{0}", not_understood(2, OTHER)),
        ] {
            let bytes = head.bytes().chain(with.bytes().cycle());
            let long: Vec<u8> = bytes.take(length).collect();
            assert_eq!(both(&long), told(&text), "{head:?} {length}");
        }
    }
}

#[test]
fn many_calls() {
    let steps = |count: usize| "step\n".repeat(count);
    let idle = |count: usize| "refused 12\n".repeat(count);
    let over = "over 32768 calls\n".to_string();
    for (text, expected) in [
        (steps(CALLS), idle(CALLS)),
        (steps(CALLS + 1), over.clone()),
        // Lines without a call are none.
        (format!("#\n\n{} \n\n#", steps(CALLS)), idle(CALLS)),
        // A call that is refused is one.
        (steps(CALLS) + "bank 0\n", over.clone()),
        (
            steps(CALLS) + "x",
            idle(CALLS) + &not_understood(CALLS + 2, OTHER),
        ),
        (
            format!("{}x\n{}", steps(CALLS - 1), steps(2)),
            idle(CALLS - 1) + &not_understood(CALLS + 1, OTHER),
        ),
        (steps(CALLS + 1) + "x\n", over.clone()),
        // Calls after a line that can't be read are not counted.
        (
            format!("bank\n{}", steps(CALLS + 1)),
            not_understood(2, BANK),
        ),
        (steps(200_000), over.clone()),
    ] {
        let text = format!("memory 0\n{text}");
        assert!(both(text.as_bytes()) == expected, "{}", text.len());
    }
    // Over both limits, and a first line that can't be read.
    let text = format!("memory 0\n{}", steps(250_000));
    assert_eq!(both(text.as_bytes()), "input over 1048576 bytes\n");
    let text = format!("memory x\n{}", steps(CALLS + 1));
    assert_eq!(both(text.as_bytes()), not_understood(1, MEMORY));
}

#[test]
fn long_admissions() {
    let bytes = |count: usize| "0a".repeat(count);
    let (most, over) = (bytes(65_535), bytes(65_536));
    let bad = not_understood(3, ADMIT);
    for (words, answer) in [
        (format!("{most} {most}"), "refused 12\n"),
        (format!("{most} -"), "refused 12\n"),
        (format!("- {most}"), "refused 12\n"),
        (format!("{over} -"), &bad),
        (format!("- {over}"), &bad),
        (format!("{most}0 -"), &bad),
        (format!("- {most}0"), &bad),
        (format!("{most}g -"), &bad),
        (format!("{over} {over}"), &bad),
    ] {
        let text = format!("memory 65536\nbank 1\nadmit \t {words} \r\n");
        assert_eq!(both(text.as_bytes()), format!("ok\n{answer}"));
    }
}

/// The block that fills most of the row memory is admitted; the largest has a byte more than a word may have.
#[test]
fn large_blocks() {
    let (records, rows) = longest_in_text(31, 0);
    assert_eq!(rows.len(), 63_488);
    let line = admit_line(&records, &rows);
    let block = " 0:........";
    for (memory, answer) in [
        (65_536, format!("ok{block}\nrefused 11{block}\n")),
        (63_488, format!("ok{block}\nrefused 11{block}\n")),
        (63_487, "refused 11\nrefused 11\n".to_string()),
    ] {
        let text = format!("memory {memory}\nbank 255\n{line}\n{line}\n");
        assert_eq!(both(text.as_bytes()), format!("ok\n{answer}"));
    }
    let (records, rows) = cascade(Shape::Largest, Rows::Random, 31, 0);
    let text = format!("memory 65536\nbank 255\n{}\n", admit_line(&records, &rows));
    let told = format!("ok\n{}", not_understood(3, ADMIT));
    assert_eq!(both(text.as_bytes()), told);
}

/// The first line's number is the row memory's bytes.
#[test]
fn row_memory() {
    for (memory, answer) in [
        ("31", "refused 11"),
        ("32", "ok 0:........"),
        ("00032", "ok 0:........"),
        ("65536", "ok 0:........"),
    ] {
        let text = format!("memory {memory}\nbank 2\nadmit {BLOCK}\n");
        assert_eq!(both(text.as_bytes()), format!("ok\n{answer}\n"));
    }
}
