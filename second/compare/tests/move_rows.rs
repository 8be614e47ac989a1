//! The proved program that moves the rows of a list of calls against the second one: every byte that both print of the same text. The
//! lists are made in the folder beside, where long texts are, too.

#[path = "move_rows/lists.rs"]
mod lists;
#[path = "move_rows/long.rs"]
mod long;

use lists::{list, Kind};
use second::call_lines::admit_line;
use second::cases;
use second::generate::{
    compiled, low_bytes, passed_over, respaced, respelt, text, Random, BAD_LINES, BAD_MEMORY,
};
use second::move_text::printed;
use second::moves::Way;
use second::run::bytes_of;
use std::collections::BTreeMap;
use std::path::PathBuf;

const SEED: u64 = 7177;

/// What the proved program prints; it reads the way as a line before the text.
fn proved(way: Way, text: &[u8]) -> Vec<u8> {
    let program = PathBuf::from(env!("CARGO_MANIFEST_DIR")).join("../../target/bin/move_rows");
    let input = [way.name().as_bytes(), b"\n", text].concat();
    bytes_of(program, &[], &input)
}

/// The texts compared, and how often each kind of line was printed.
#[derive(Default, Debug)]
struct Seen {
    texts: u64,
    lines: BTreeMap<String, u64>,
}

impl Seen {
    fn add(&mut self, output: &[u8]) {
        self.texts += 1;
        for line in output.split_inclusive(|&byte| byte == b'\n') {
            let line = String::from_utf8_lossy(line.trim_ascii_end());
            let kind = match line.split(' ').next().unwrap_or_default() {
                _ if line.starts_with("refused") => &line[..],
                "" => "empty",
                "admit" if line.split(' ').count() == 5 => "admit every",
                word if word.starts_with('#') => "#",
                word => word,
            };
            *self.lines.entry(kind.to_string()).or_default() += 1;
        }
    }

    fn compare(&mut self, way: Way, text: &[u8]) {
        let output = proved(way, text);
        let same = output == printed(text, way);
        assert!(same, "{way:?} {:?}", String::from_utf8_lossy(text));
        self.add(&output);
    }

    fn both_ways(&mut self, text: &[u8]) {
        Way::ALL.into_iter().for_each(|way| self.compare(way, text));
    }
}

/// Each list goes its way, in the program's spelling or in others, and one in five the other way, too.
#[test]
fn lists_of_calls() {
    let mut seen = Seen::default();
    let mut random = Random::new(1, SEED, 0);
    let mut longest = 0;
    for (way, index) in Way::ALL
        .into_iter()
        .flat_map(|way| (0..650).map(move |index| (way, index)))
    {
        let lines = list(way, Kind::Any, index);
        let text = match random.coin() {
            true => text(&lines),
            false => respelt(&mut random, &lines),
        };
        match random.below(5) {
            0 => seen.both_ways(&text),
            _ => seen.compare(way, &text),
        }
        longest = longest.max(printed(&text, way).len());
    }
    println!("lists, at most {longest} bytes printed: {seen:?}");
    assert!(seen.texts >= 1_500 && longest > 80_000);
    for (kind, least) in [
        ("admit", 700),
        ("admit every", 1_000),
        ("refused 12", 1_000),
        ("refused 15", 200),
        ("line", 100),
        ("input", 20),
        ("#", 500),
        ("empty", 200),
    ] {
        assert!(seen.lines[kind] > least, "{kind} {seen:?}");
    }
}

/// By the proved program alone: lists whose blocks can all be moved, there and back, in whatever spelling they begin.
#[test]
fn there_and_back() {
    let mut seen = Seen::default();
    let mut random = Random::new(2, SEED, 0);
    for (way, back) in [(Way::Narrow, Way::Widen), (Way::Widen, Way::Narrow)] {
        for index in 0..350 {
            let lines = list(way, Kind::Movable, 10_000 + index);
            let whole = text(&lines);
            let first = match random.coin() {
                true => whole.clone(),
                false => respelt(&mut random, &lines),
            };
            let there = proved(way, &first);
            assert!(there == printed(&first, way), "{whole:?}");
            let again = proved(back, &there);
            assert!(again == whole, "{:?}", String::from_utf8_lossy(&whole));
            seen.add(&there);
            seen.add(&again);
        }
    }
    println!("there and back: {seen:?}");
    assert!(seen.texts >= 1_400);
    assert!(seen.lines["admit"] > 700 && seen.lines["admit every"] > 1_000);
    let kinds = [
        "#",
        "admit",
        "admit every",
        "bank",
        "empty",
        "latch",
        "memory",
        "step",
    ];
    assert!(seen.lines.keys().all(|kind| kinds.contains(&&kind[..])));
}

/// Texts with bytes changed, put in or left out; half of them with changed digits alone, so that blocks are spoilt.
#[test]
fn spoilt_texts() {
    let mut seen = Seen::default();
    let mut random = Random::new(3, SEED, 0);
    for (way, index) in Way::ALL
        .into_iter()
        .flat_map(|way| (0..350).map(move |index| (way, 20_000 + index)))
    {
        let mut text = text(&list(way, Kind::Movable, index));
        for _ in 0..random.within(1, 3) {
            let place = random.below(text.len());
            if index % 2 == 0 {
                if text[place].is_ascii_hexdigit() {
                    text[place] = random.pick(b"0123456789abcdefABCDEF");
                }
                continue;
            }
            match random.below(5) {
                0 => text[place] = random.byte(),
                1 => text[place] = random.pick(b" \t\r\n#-09afgAF:/`@G"),
                2 => text.insert(place, random.pick(b" \t\r\n#-09afg")),
                3 => {
                    text.remove(place);
                }
                _ => text.truncate(place + 1),
            }
        }
        seen.compare(way, &text);
    }
    println!("spoilt: {seen:?}");
    assert!(seen.lines["line"] > 100 && seen.lines["refused 12"] > 100);
}

/// Every line that the form allows or nearly allows, and every byte in some places of one.
#[test]
fn single_lines() {
    let mut seen = Seen::default();
    let zeros = "0000 ".repeat(7);
    let random = &mut Random::new(4, SEED, 0);
    let mut tried: Vec<String> = [
        "",
        "#",
        "# x",
        "step",
        "-",
        "0",
        " ",
        "\t",
        "\r",
        " #",
        "#  x\ty\r",
        "\r# \r",
    ]
    .map(String::from)
    .into();
    for number in ["0", "1", "00001", "255", "256", "65535", "99999", "-1", "a"] {
        tried.push(format!("bank {number}"));
    }
    for bytes in ["", "-", "--", "0", "00", "000", "0g", "fF", "- -", "00 "] {
        tried.push(format!("admit {bytes}"));
        for other in ["", "-", "00", "0", "0G", "Ff", "00 00"] {
            tried.push(format!("admit {bytes} {other}"));
        }
    }
    for period in ["", "1", "001", "3", "255", "256", "0001", "a", "-", "8 7 6"] {
        for phase in ["", "0", "000", "9", "255", "256", "0000", "f", "#"] {
            tried.push(format!("admit - - {period} {phase}"));
            tried.push(format!("admit 80010000 01 {period}\t{phase} "));
            tried.push(format!("admit 80010000  0100 {period} {phase}"));
        }
    }
    for word in ["", "0", "0000", "fFfF", "00000", "000g", "0000 ", "00:0"] {
        tried.push(format!("latch {zeros}{word}"));
        tried.push(format!("latch {word} {}", zeros.trim_end()));
    }
    let mut tried: Vec<Vec<u8>> = tried.into_iter().map(String::into_bytes).collect();
    tried.extend(
        BAD_LINES
            .iter()
            .chain(&BAD_MEMORY)
            .map(|line| line.to_vec()),
    );
    tried.extend((0..60).map(|_| passed_over(random)));
    for line in &tried {
        seen.both_ways(&[b"memory 9\nbank 9\n", &line[..], b"\nstep\n"].concat());
        let spaced = respaced(random, line);
        seen.both_ways(&[b"memory 9\n", &spaced[..], b"\n\nstep\n"].concat());
        let last = random.pick(&[line, &spaced]);
        seen.both_ways(&[b"memory 9\n", &last[..]].concat());
    }
    for memory in [
        "0", "1", "2", "9", "00009", "32767", "32768", "32769", "65534", "65535", "65536", "65537",
    ] {
        for end in [
            "",
            "\n",
            "\n\n",
            "\nbank 1",
            "\r\nbank 1\n",
            " \nx",
            "\t\n\n\n",
        ] {
            seen.both_ways(format!("memory {memory}{end}").as_bytes());
        }
    }
    for line in &BAD_MEMORY {
        for end in ["", "\n", "\nbank 1\n"] {
            seen.both_ways(&[line, end.as_bytes()].concat());
        }
    }
    for byte in 0..=255 {
        let byte = [byte];
        for (before, after) in [
            ("memory 9\n", "\nstep\n"),
            ("memory 9\nadmit 0", " -\n"),
            ("memory 9\nadmit 80010000 01 ", " 0\n"),
            ("memory 9\nadmit 80010000 01 1", "2\n"),
            ("memory 9\n# x", "y \n"),
            ("memory 9\nstep", ""),
            ("memory", "9\n"),
            ("memory ", "\n"),
        ] {
            let text = [before.as_bytes(), &byte, after.as_bytes()].concat();
            seen.compare(Way::ALL[usize::from(byte[0] % 2)], &text);
        }
    }
    println!("{} lines, and others: {seen:?}", tried.len());
}

/// Case A's list, of either form, broken off at each of its bytes.
#[test]
fn broken_off() {
    let mut seen = Seen::default();
    let (records, wide) = compiled(&cases::a()).expect("accepted");
    for (way, memory, rows) in [
        (Way::Narrow, 64, wide.clone()),
        (Way::Widen, 32, low_bytes(&wide)),
    ] {
        let block = admit_line(&records, &rows);
        let text = format!(
            "memory {memory}\n# a remark\n\nbank 4\n{block}\nlatch{}\nstep\n\nadmit - -\n{block} 04 3\n",
            " 00Fd".repeat(8)
        );
        for end in 0..=text.len() {
            seen.compare(way, &text.as_bytes()[..end]);
        }
        let text = text.replace(' ', "\t ").replace('\n', " \r\n ");
        for end in (0..=text.len()).step_by(3) {
            seen.compare(way, &text.as_bytes()[..end]);
        }
    }
    println!("broken off: {seen:?}");
}
