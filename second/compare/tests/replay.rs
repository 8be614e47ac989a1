//! The proved program that runs a list of calls against the second one: what both print on the same text. Long texts are in the folder
//! beside.

#[path = "replay/long.rs"]
mod long;

use second::generate::{
    bad_line, block, call_line, calls, compiled, job, passed_over, period_spelt, respaced, respelt,
    scans, text, Family, Random, Scans, StoredBlock, BAD_LINES, BAD_MEMORY,
};
use second::replay::printed;
use second::run::output_of;
use std::collections::BTreeMap;
use std::path::PathBuf;

const SEED: u64 = 5077;

/// The most bytes of most texts.
const SHORT: usize = 32_768;

/// How often each kind of line was printed: a refusal by its number, a line that can't be read by what was expected.
type Seen = BTreeMap<String, u64>;

/// Runs the proved program on a text and compares.
fn compare(text: &[u8], seen: &mut Seen) {
    let program = PathBuf::from(env!("CARGO_MANIFEST_DIR")).join("../../target/bin/bank_replay");
    let output = output_of(program, &[], text);
    let same = output == printed(text);
    assert!(same, "{}", String::from_utf8_lossy(text));
    for line in output.lines() {
        let mut words = line.split(' ');
        let kind = match (words.next(), words.next()) {
            (Some("refused"), Some(number)) => number.to_string(),
            (Some("line"), _) => format!("expected {}", words.nth(3).unwrap_or_default()),
            (word, _) => word.unwrap_or_default().to_string(),
        };
        *seen.entry(kind).or_default() += 1;
    }
}

/// What must have been expected in some text.
const EXPECTED: [&str; 6] = [
    "expected memory",
    "expected bank",
    "expected admit",
    "expected latch",
    "expected step",
    "expected bank,",
];

fn all_seen(kinds: &[&str], seen: &Seen) {
    for kind in kinds {
        assert!(seen.contains_key(*kind), "{kind} {seen:?}");
    }
}

/// Hand-made blocks of few rows, and one that the compiler wrote.
fn blocks(index: u64) -> Vec<StoredBlock> {
    let hand_made = (0..6).map(|k| block(SEED, index * 6 + k));
    hand_made
        .filter(|(_, rows)| rows.len() <= 400)
        .chain(compiled(&job(Family::SmallOrders, SEED, index)))
        .collect()
}

/// Texts of several lists each, as lines of at most so many bytes in all.
fn texts(lists: u64, most: usize, mut each: impl FnMut(Vec<Vec<u8>>)) {
    let mut random = Random::new(7, SEED, 0);
    let (mut lines, mut length, mut held) = (Vec::new(), 0, 0);
    for index in 0.. {
        if held == lists {
            break;
        }
        let (limit, memory, list) = match index % 8 {
            0 => scans(random.pick(&Scans::ALL), SEED, index, &blocks(index)),
            _ => calls(SEED, index, &blocks(index)),
        };
        let capital = random.coin();
        let mut more = vec![format!("bank {limit}")];
        for call in &list {
            let line = call_line(call, capital);
            more.push(period_spelt(&mut random, &line));
        }
        let bytes: usize = more.iter().map(|line| line.len() + 1).sum();
        if bytes > most / 2 {
            continue;
        }
        if length + bytes > most - 20 || random.percent(10) && length > 0 {
            each(std::mem::take(&mut lines));
            length = 0;
        }
        if length == 0 {
            lines.push(format!("memory {}", memory.min(65_536)).into_bytes());
        }
        lines.extend(more.into_iter().map(String::into_bytes));
        length += bytes;
        held += 1;
    }
    each(lines);
}

/// The lines with others between them: some that are passed over, and in some lists one that can't be read.
fn with_others(random: &mut Random, lines: Vec<Vec<u8>>) -> Vec<Vec<u8>> {
    let chance = random.pick(&[0, 5, 30]);
    let mut more = Vec::new();
    for line in lines {
        more.push(line);
        while random.percent(chance) {
            more.push(passed_over(random));
        }
    }
    if random.percent(3) {
        more[0] = random.pick(&BAD_MEMORY).to_vec();
    } else if random.percent(30) {
        let place = random.within(1, more.len());
        more.insert(place, bad_line(random));
    }
    more
}

/// Half of them in the plainest spelling, the others in any.
#[test]
fn lists_of_calls() {
    let (mut seen, mut runs) = (Seen::new(), 0);
    let random = &mut Random::new(9, SEED, 0);
    texts(20_000, SHORT, |lines| {
        let whole = match random.coin() {
            true => text(&lines),
            false => {
                let lines = with_others(random, lines);
                respelt(random, &lines)
            }
        };
        compare(&whole, &mut seen);
        runs += 1;
    });
    println!("lists in {runs} texts: {seen:?}");
    all_seen(&["11", "12", "13", "14", "16", "went", "idle"], &seen);
    all_seen(&EXPECTED, &seen);
}

/// Texts with bytes changed, put in or left out.
#[test]
fn spoilt_texts() {
    let mut seen = Seen::new();
    let random = &mut Random::new(8, SEED, 0);
    texts(4_000, SHORT, |lines| {
        let mut text = match random.coin() {
            true => text(&lines),
            false => respelt(random, &lines),
        };
        for _ in 0..random.within(1, 3) {
            let place = random.below(text.len());
            match random.below(5) {
                0 => text[place] = random.byte(),
                1 => text[place] = random.pick(b" \t\r\n#-09afgAF:/`@G"),
                2 => text.insert(place, random.pick(b" \t\r\n#-09afg")),
                3 => {
                    text.remove(place);
                }
                _ => text.truncate(place + 1),
            }
        }
        compare(&text, &mut seen);
    });
    println!("spoilt: {seen:?}");
    assert!(seen["expected admit"] > 100);
}

/// Lines that the form allows or nearly allows.
fn tried() -> Vec<Vec<u8>> {
    let zeros = "0000 ".repeat(7);
    let mut tried: Vec<String> = ["", "#", "# x", " ", "\t", "\r", " #", "\r\t# x", "step"]
        .map(String::from)
        .to_vec();
    for number in [
        "", "0", "1", "00001", "255", "256", "65535", "65536", "99999", "100000", "-1", "1 ", "a",
    ] {
        tried.push(format!("bank {number}"));
    }
    for bytes in ["", "-", "--", "0", "00", "000", "0g", "fF", "- -", "00 "] {
        tried.push(format!("admit {bytes}"));
        for other in ["", "-", "00", "0", "0G", "00 00"] {
            tried.push(format!("admit {bytes} {other}"));
        }
    }
    for period in [
        "", "0", "1", "2", "08", "008", "3", "16", "255", "256", "999", "0001", "-1", "+1", "a",
        "1x",
    ] {
        for phase in [
            "", "0", "1", "007", "8", "255", "256", "0000", "-", "f", "0 0", "#",
        ] {
            tried.push(format!("admit 80010000 0100 {period} {phase}"));
            tried.push(format!("admit - - {period}\t {phase}"));
        }
    }
    for word in [
        "", "0", "000", "0000", "ffff", "00000", "000g", "0000 ", "00:0",
    ] {
        tried.push(format!("latch {zeros}{word}"));
        tried.push(format!("latch {word} {}", zeros.trim_end()));
    }
    let bad = BAD_LINES.iter().map(|line| line.to_vec());
    tried
        .into_iter()
        .map(String::into_bytes)
        .chain(bad)
        .collect()
}

/// Each of them after a good first line, as the last one without a newline, as the first one, and with other blanks.
#[test]
fn single_lines() {
    let mut seen = Seen::new();
    let random = &mut Random::new(10, SEED, 0);
    let tried = tried();
    for line in &tried {
        compare(
            &[b"memory 9\nbank 9\n", &line[..], b"\nstep\n"].concat(),
            &mut seen,
        );
        compare(&[b"memory 9\n", &line[..]].concat(), &mut seen);
        compare(line, &mut seen);
        let spaced = respaced(random, line);
        compare(
            &[b"memory 9\n", &spaced[..], b"\nstep\n"].concat(),
            &mut seen,
        );
    }
    println!("{} lines, each in four texts: {seen:?}", tried.len());
    all_seen(&EXPECTED, &seen);
}

#[test]
fn first_lines() {
    let mut seen = Seen::new();
    let random = &mut Random::new(11, SEED, 0);
    for memory in [
        "0", "1", "32768", "32769", "65535", "65536", "65537", "99999", "00009", "000009", "", "x",
        "9 ", "9 9",
    ] {
        let line = format!("memory {memory}").into_bytes();
        let spaced = respaced(random, &line);
        for line in [line, spaced] {
            compare(&[&line[..], b"\nbank 1\n"].concat(), &mut seen);
        }
    }
    for line in BAD_MEMORY {
        for after in ["", "\n", "\r\nmemory 9\n"] {
            compare(&[line, after.as_bytes()].concat(), &mut seen);
        }
    }
    println!("first lines: {seen:?}");
}

#[test]
fn every_byte() {
    let mut seen = Seen::new();
    for byte in 0..=255u8 {
        for (before, after) in [
            ("memory 9\n", "\nbank 1\n"),
            ("memory 9\nbank ", "\n"),
            ("memory 9\nbank", "9\n"),
            ("memory 9\nbank 9\nadmit 0", " -\n"),
            ("memory 9\nbank 9\nadmit 80010000 0100 ", " 0\n"),
            ("memory 9\nbank 9\nadmit 80010000 0100 8", "7\n"),
            ("memory 9\nbank 9\nadmit 80010000 0100 2 1", ""),
            ("memory 9\nbank 9\nstep", ""),
        ] {
            let text = [before.as_bytes(), &[byte], after.as_bytes()].concat();
            compare(&text, &mut seen);
        }
    }
    println!("every byte: {seen:?}");
}

/// The stored input, broken off at each of its bytes.
#[test]
fn broken_off() {
    let mut seen = Seen::new();
    let stored = PathBuf::from(env!("CARGO_MANIFEST_DIR")).join("../../crates/bank_replay/stdin");
    let text = std::fs::read(stored).expect("the stored input");
    for end in 0..=text.len() {
        compare(&text[..end], &mut seen);
    }
    println!("{} bytes: {seen:?}", text.len());
}
