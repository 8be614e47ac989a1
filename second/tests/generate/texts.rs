//! Lists of calls as text: what the generator promises of its lines.

use second::call_lines::{read_line, read_memory, words, Line};
use second::generate::{
    bad_line, passed_over, period_spelt, respaced, respelt, Random, BAD_LINES, BAD_MEMORY,
};
use std::collections::BTreeSet;

#[test]
fn lines_of_each_kind() {
    let random = &mut Random::new(4, 31, 0);
    for line in BAD_MEMORY {
        assert_eq!(read_memory(line, 65_536), None, "{line:?}");
    }
    for line in BAD_LINES {
        assert_eq!(read_line(line), None, "{line:?}");
    }
    for _ in 0..2_000 {
        let line = bad_line(random);
        assert_eq!(read_line(&line), None, "{line:?}");
        let line = passed_over(random);
        assert_eq!(read_line(&line), Some(Line::Nothing), "{line:?}");
        assert_eq!(words(&line).join(&b' '), line);
    }
}

/// Blanks of each kind come between words and at either end, and no word changes.
#[test]
fn spellings() {
    let random = &mut Random::new(5, 31, 0);
    let line = b"admit 0a -";
    let (mut first, mut last) = ([0; 256], [0; 256]);
    for _ in 0..2_000 {
        let spaced = respaced(random, line);
        assert_eq!(words(&spaced), words(line));
        first[usize::from(spaced[0])] += 1;
        last[usize::from(spaced[spaced.len() - 1])] += 1;
    }
    for counts in [first, last] {
        assert!(b" \t\r".iter().all(|&byte| counts[usize::from(byte)] > 100));
    }
    let lines = [&b"memory 8"[..], line, b"", b"# x", b"step"].map(<[u8]>::to_vec);
    let (mut carriage_returns, mut ended, mut capitals) = (0, 0, 0);
    for _ in 0..1_000 {
        let text = respelt(random, &lines);
        carriage_returns += u32::from(text.windows(2).filter(|pair| pair == b"\r\n").count() >= 4);
        ended += u32::from(text.ends_with(b"\n"));
        capitals += u32::from(text.contains(&b'A'));
        let mut spelt = text.split(|&byte| byte == b'\n');
        let memory = spelt.next().and_then(|first| read_memory(first, 8));
        assert_eq!(memory, Some(8));
        for (line, spelt) in lines[1..].iter().zip(spelt) {
            assert_eq!(read_line(spelt), read_line(line));
        }
    }
    let counts = [carriage_returns, ended, capitals];
    assert!(
        counts.iter().all(|count| (100..900).contains(count)),
        "{counts:?}"
    );
}

/// Zeros come before period and phase, and 1 and 0 are said or left out; the line says the same.
#[test]
fn spellings_of_periods() {
    let random = &mut Random::new(6, 31, 0);
    for (line, spellings) in [
        ("admit 0a -", 10),
        ("admit - 0a 8 7", 9),
        ("admit - 0a 16 0", 6),
        ("admit - - 255 128", 1),
        ("step", 1),
        ("bank 1", 1),
    ] {
        let spelt: BTreeSet<String> = (0..500).map(|_| period_spelt(random, line)).collect();
        assert_eq!(spelt.len(), spellings, "{spelt:?}");
        for spelt in spelt {
            let read = read_line(spelt.as_bytes());
            assert!(read.is_some() && read == read_line(line.as_bytes()));
        }
    }
}
