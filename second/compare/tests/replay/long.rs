//! Texts near the longest, lists near the most calls, and admissions near the longest words.

use super::{all_seen, compare, texts, with_others, Seen, SEED, SHORT};
use second::call_lines::{admit_line, TEXT_BYTES};
use second::generate::{cascade, longest_in_text, respelt, text, Random, Rows, Shape};
use second::replay::CALLS;

fn filled(head: &str, with: &str, length: usize) -> Vec<u8> {
    head.bytes()
        .chain(with.bytes().cycle())
        .take(length)
        .collect()
}

#[test]
fn long_texts() {
    let mut seen = Seen::new();
    for length in [
        32_768,
        32_769,
        65_536,
        TEXT_BYTES - 1,
        TEXT_BYTES,
        TEXT_BYTES + 1,
        TEXT_BYTES + 2,
        2 * TEXT_BYTES,
    ] {
        for (head, with) in [
            ("memory 8\nbank 1\n#", "x"),
            ("memory 8\nbank 1\n", "\n"),
            ("memory 8\nbank 1\n", "# x\r\n"),
            ("memory 8\nbank 1\nstep", " \t\r"),
            ("memory 8\nbank 1\n", "step\n"),
            ("memory 8\nbank 1\n", " step \t\r step\n"),
            ("memory 8\nadmit ", "aF"),
            ("memory 8\nlatch", " 0000"),
            ("memory 8\n", "\u{0}"),
            ("memory 0", "0"),
            ("\t", " "),
            ("", "\n"),
        ] {
            compare(&filled(head, with, length), &mut seen);
        }
    }
    println!("long: {seen:?}");
    all_seen(&["input", "over", "idle", "ok"], &seen);
}

/// Lists of the generator, as many as such texts hold.
#[test]
fn long_lists() {
    let (mut seen, mut longest) = (Seen::new(), 0);
    let random = &mut Random::new(12, SEED, 0);
    let mut lists = Vec::new();
    texts(2_000, SHORT, |lines| lists.push(lines));
    for index in 0..24 {
        let most = [300_000, 700_000, 1_000_000][index % 3];
        let mut lines = vec![lists[random.below(lists.len())][0].clone()];
        let mut length = 0;
        while length <= most {
            let more = &lists[random.below(lists.len())][1..];
            length += more.iter().map(|line| line.len() + 1).sum::<usize>();
            lines.extend_from_slice(more);
        }
        let whole = match random.coin() {
            true => text(&lines),
            false => {
                let lines = with_others(random, lines);
                respelt(random, &lines)
            }
        };
        if whole.len() <= TEXT_BYTES {
            longest = longest.max(whole.len());
        }
        compare(&whole, &mut seen);
    }
    println!("long lists, at most {longest} bytes: {seen:?}");
    assert!(longest > 1_000_000);
    all_seen(&["11", "12", "13", "14", "16", "went", "idle"], &seen);
}

#[test]
fn many_calls() {
    let mut seen = Seen::new();
    let block = "000000000100000002010200800000000300000081010000 \
                 0000010002000200000003000200020001000100000000000200030002000200";
    let latch = format!("latch{}\n", " 000d".repeat(8));
    let scan = format!("{latch}step\nstep\n step\r\n\n# x\n");
    // Four calls a scan, after the bank and the block.
    let (head, scans) = (format!("bank 255\nadmit {block}\n"), (CALLS - 2) / 4);
    // A block that is due in every other scan, and as many calls.
    let text = format!(
        "memory 64\nbank 255\nadmit {block} 2 1\n{}",
        scan.repeat(scans)
    );
    compare(text.as_bytes(), &mut seen);
    for more in [0, 1, 2, 3, 4, 200] {
        for last in ["", "x", "\n #", "memory 9\n", "step 1\nstep\n"] {
            let text = format!(
                "memory 64\n{head}{}{}{last}",
                scan.repeat(scans),
                "step\n".repeat(more)
            );
            compare(text.as_bytes(), &mut seen);
        }
    }
    for (before, after) in [(CALLS - 1, 2), (CALLS, 1), (CALLS + 1, 0), (0, CALLS + 1)] {
        let [before, after] = [before, after].map(|count| "bank 1\n".repeat(count));
        for line in ["", "bank\n", "latch\n"] {
            let text = format!("memory 0\n{before}{line}{after}");
            compare(text.as_bytes(), &mut seen);
        }
    }
    // The most bytes printed: eight blocks.
    let head = format!(
        "memory 65536\nbank 255\n{}",
        format!("admit {block}\n").repeat(8)
    );
    let text = format!("{head}{}", "step\n".repeat(CALLS - 9));
    compare(text.as_bytes(), &mut seen);
    println!("many calls: {seen:?}");
    all_seen(&["over", "went", "idle", "expected step"], &seen);
}

/// Admissions of the longest words, and of blocks that take most of the row memory.
#[test]
fn long_admissions() {
    let mut seen = Seen::new();
    let words = [0, 1, 65_534, 65_535, 65_536, 65_537].map(|count| "a0".repeat(count));
    for records in &words {
        for rows in &words {
            for last in ["", " 8\t7", " 256 0"] {
                let text =
                    format!("memory 65536\nbank 255\nadmit {records}  {rows}{last}\r\nstep\n");
                compare(text.as_bytes(), &mut seen);
            }
        }
        for end in ["0", "-", "g"] {
            let text = format!("memory 65536\nbank 255\nadmit - {records}{end}\nstep\n");
            compare(text.as_bytes(), &mut seen);
        }
    }
    let scan = format!("latch{}\n{}", " 0FA5".repeat(8), "step\n".repeat(12));
    for (index, memory) in [65_536, 63_488, 63_487].into_iter().enumerate() {
        let (records, rows) = longest_in_text(SEED, index as u64);
        let line = admit_line(&records, &rows);
        let text = format!("memory {memory}\nbank 255\n{line}\n{scan}{line}\n{scan}");
        compare(text.as_bytes(), &mut seen);
        let (records, rows) = cascade(Shape::Largest, Rows::Random, SEED, index as u64);
        let line = admit_line(&records, &rows);
        let text = format!("memory {memory}\nbank 255\n{line}\n{scan}");
        compare(text.as_bytes(), &mut seen);
    }
    // Four admissions of the longest rows that can be read, with other blocks between.
    let line = format!("admit - {}\n", words[3]);
    let (records, rows) = cascade(Shape::EightRails, Rows::Random, SEED, 0);
    let other = admit_line(&records, &rows);
    let text = format!(
        "memory 65536\nbank 255\n{}",
        format!("{line}{other}\n").repeat(4)
    );
    compare(text.as_bytes(), &mut seen);
    println!("long admissions: {seen:?}");
    all_seen(&["11", "12", "went", "expected admit"], &seen);
}
