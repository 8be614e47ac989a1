//! Lists of calls as text: lines of calls, lines that are passed over, lines that can't be read, and other spellings of the same words.

use super::random::Random;
use crate::book::Call;
use crate::call_lines::{admit_every_line, admit_line, words};

/// Lines that are no first line.
pub const BAD_MEMORY: [&[u8]; 20] = [
    b"",
    b" \t\r",
    b"#",
    b"# memory 8",
    b"memory",
    b"memory ",
    b"memory8",
    b"memory 8 8",
    b"memory 000008",
    b"memory 65537",
    b"memory 99999",
    b"memory 100000",
    b"memory -8",
    b"memory +8",
    b"memory 8a",
    b"memory\x0B8",
    b"memory 8\0",
    b"Memory 8",
    b"mem 8",
    b"bank 8",
];

/// Lines that can't stand after the first one.
pub const BAD_LINES: [&[u8]; 72] = [
    b"bank",
    b"bank ",
    b" bank\t",
    b"bank 65536",
    b"bank 99999",
    b"bank 000001",
    b"bank 1 1",
    b"bank 1 #",
    b"bank -1",
    b"bank +1",
    b"bank a",
    b"bank1",
    b"banks 1",
    b"bank\x0C1",
    b"admit",
    b"admit ",
    b"admit -",
    b"admit 00",
    b"admit - - -",
    b"admit - - #",
    b"admit 00 00 00",
    b"admit 0 -",
    b"admit 000 -",
    b"admit - 0g",
    b"admit -- -",
    b"admit - 00-",
    b"admit 0\x0000 -",
    b"admit - - 1",
    b"admit - - 1 0 0",
    b"admit - - 1 0 #",
    b"admit - - 256 0",
    b"admit - - 1 256",
    b"admit - - 999 0",
    b"admit - - 0001 0",
    b"admit - - 1 0000",
    b"admit - - a 0",
    b"admit - - 1 f",
    b"admit - - - 0",
    b"admit - - 1 -",
    b"admit - - -1 0",
    b"admit - - 1 +0",
    b"admit 0 - 1 0",
    b"admit - 0g 1 0",
    b"admit-- -",
    b"admits - -",
    b"latch",
    b"latch ",
    b"latch 0000 0000 0000 0000 0000 0000 0000",
    b"latch 0000 0000 0000 0000 0000 0000 0000 0000 0000",
    b"latch 0000 0000 0000 0000 0000 0000 0000 000",
    b"latch 0000 0000 0000 0000 0000 0000 0000 00000",
    b"latch 000g 0000 0000 0000 0000 0000 0000 0000",
    b"latch - 0000 0000 0000 0000 0000 0000 0000",
    b"latch0000 0000 0000 0000 0000 0000 0000 0000",
    b"latch 00000000000000000000000000000000",
    b"step 1",
    b"step step",
    b"step #",
    b"steps",
    b"\tstep,",
    b"step\0",
    b"Step",
    b"BANK 1",
    b"ban 1",
    b"s tep",
    b"memory 8",
    b"-",
    b"ok",
    b"refused 12",
    b"line 1: not understood",
    b"\x0B",
    b"\xFF",
];

/// A call's line, latched words in small or in capital digits. Period 1 with phase 0 is left out.
pub fn call_line(call: &Call, capital: bool) -> String {
    match call {
        Call::Admit {
            records,
            rows,
            period: 1,
            phase: 0,
        } => admit_line(records, rows),
        Call::Admit {
            records,
            rows,
            period,
            phase,
        } => admit_every_line(records, rows, (*period, *phase)),
        Call::Latch(words) => {
            let words = words.map(|word| match capital {
                true => format!("{word:04X}"),
                false => format!("{word:04x}"),
            });
            format!("latch {}", words.join(" "))
        }
        Call::Step => "step".to_string(),
    }
}

/// An admission's line with period and phase in other spellings: zeros before them, or 1 and 0 said where they were left out. Every
/// other line stays.
pub fn period_spelt(random: &mut Random, line: &str) -> String {
    let mut words: Vec<&str> = line.split(' ').collect();
    if words[0] != "admit" || random.coin() {
        return line.to_string();
    }
    if words.len() == 3 {
        words.extend(["1", "0"]);
    }
    let last = words.split_off(3).into_iter().map(|word| {
        let zeros = random.within(0, 3usize.saturating_sub(word.len()));
        format!("{}{word}", "0".repeat(zeros))
    });
    let last: Vec<String> = last.collect();
    format!("{} {}", words.join(" "), last.join(" "))
}

/// A line that is passed over: empty, or a remark of any bytes with one space between its words.
pub fn passed_over(random: &mut Random) -> Vec<u8> {
    let count = random.within(0, 30);
    let mut any = random.bytes(count);
    any.retain(|&byte| byte != b'\n');
    match random.below(4) {
        0 => Vec::new(),
        1 => b"# admit - -".to_vec(),
        2 => b"#".to_vec(),
        _ => words(&[b"#".to_vec(), any].concat()).join(&b' '),
    }
}

/// A line of the list above, or a call with a word too few or too many, with two words in one or with a byte that doesn't belong there.
pub fn bad_line(random: &mut Random) -> Vec<u8> {
    if random.coin() {
        return random.pick(&BAD_LINES).to_vec();
    }
    let good: &[u8] = random.pick(&[
        b"bank 255",
        b"admit 00ff 0100",
        b"admit 00ff 0100 8 255",
        b"latch 0000 0001 0002 0003 0004 0005 0006 0007",
        b"step",
    ]);
    let mut words: Vec<Vec<u8>> = words(good).into_iter().map(<[u8]>::to_vec).collect();
    let place = random.below(words.len());
    match random.below(4) {
        0 if words.len() > 1 => {
            words.remove(place);
        }
        1 if place > 0 => {
            let more = words.remove(place);
            words[place - 1].extend(more);
        }
        2 => words.insert(place + 1, random.pick(&[&b"0000"[..], b"-", b"#"]).to_vec()),
        _ => {
            let byte = random.below(words[place].len());
            words[place][byte] = random.pick(b"gG/:@`-+\0\x0B\x0C\x7F\xA0\xFF");
        }
    }
    words.join(&b' ')
}

fn blanks(random: &mut Random, least: usize) -> Vec<u8> {
    (0..random.within(least, 4))
        .map(|_| random.pick(b"  \t\r"))
        .collect()
}

/// The same words with other blanks between them and at the ends.
pub fn respaced(random: &mut Random, line: &[u8]) -> Vec<u8> {
    let mut spaced = blanks(random, 0);
    for (place, word) in words(line).into_iter().enumerate() {
        if place > 0 {
            spaced.extend(blanks(random, 1));
        }
        spaced.extend(word);
    }
    spaced.extend(blanks(random, 0));
    spaced
}

/// The lines as text.
pub fn text(lines: &[Vec<u8>]) -> Vec<u8> {
    lines
        .iter()
        .flat_map(|line| [&line[..], b"\n"].concat())
        .collect()
}

/// The lines as text in other spellings: some or all digits of admissions in capitals, zeros before the first line's number, other
/// blanks, CR LF at the end of each line, no newline at the end of all.
pub fn respelt(random: &mut Random, lines: &[Vec<u8>]) -> Vec<u8> {
    let mut lines = lines.to_vec();
    if let Some(number) = lines[0].strip_prefix(b"memory ") {
        let zeros = random.within(0, 5usize.saturating_sub(number.len()));
        lines[0] = [b"memory ", &b"00000"[..zeros], number].concat();
    }
    let moved = random.pick(&[0, 0, 10, 100]);
    let carriage_returns = random.percent(30);
    for line in &mut lines {
        let capitals = random.pick(&[0, 0, 50, 100]);
        if line.starts_with(b"admit ") {
            let digits = line.iter_mut().skip(6);
            digits
                .filter(|_| random.percent(capitals))
                .for_each(|digit| digit.make_ascii_uppercase());
        }
        if random.percent(moved) {
            *line = respaced(random, line);
        }
        if carriage_returns {
            line.push(b'\r');
        }
    }
    // An empty line without its newline is none.
    let ends_empty = lines.last().is_some_and(|line| words(line).is_empty());
    let mut text = text(&lines);
    if random.percent(40) && !ends_empty {
        text.pop();
    }
    text
}
