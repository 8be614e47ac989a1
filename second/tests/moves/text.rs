//! Lists of calls as text, moved: what `move_text` and the program print.

use super::{moved, of_outputs, A_NARROW, A_RECORDS, A_WIDE, SEED};
use second::book::Call;
use second::call_lines::admit_line as admit;
use second::generate::{
    bad_line, block, call_line, calls, period_spelt, respaced, row_bytes, Random, StoredBlock,
    BAD_LINES, BAD_MEMORY,
};
use second::move_text::printed;
use second::moves::Way;
use second::run::output_of;
use std::process::Command;

const PROGRAM: &str = env!("CARGO_BIN_EXE_second_move");

fn not_understood(place: usize, expected: &str) -> String {
    format!("line {place}: not understood, expected {expected}\n")
}

fn first_not_understood(way: Way) -> String {
    let most = match way {
        Way::Widen => 32_768,
        Way::Narrow => 65_536,
    };
    not_understood(
        1,
        &format!("memory N, where N is one to five digits and at most {most}"),
    )
}

/// What is expected of a line by how it begins.
fn expected(line: &[u8]) -> &'static str {
    let begin = String::from_utf8_lossy(line);
    let begin = begin.trim_ascii_start();
    match begin {
        _ if begin.starts_with("bank") => "bank S, where S is one to five digits and at most 65535",
        _ if begin.starts_with("admit") => {
            "admit RECORDS ROWS or admit RECORDS ROWS PERIOD PHASE, where RECORDS and ROWS are in base 16, two digits a byte and at most \
             65535 bytes, or - for none, and PERIOD and PHASE one to three digits and at most 255"
        }
        _ if begin.starts_with("latch") => "latch and eight words of four digits in base 16",
        _ if begin.starts_with("step") => "step and nothing after it",
        _ => "bank, admit, latch or step",
    }
}

/// What both print of a text; it must be text.
fn both(way: Way, text: &[u8]) -> String {
    let output = output_of(PROGRAM, &[way.name()], text);
    assert_eq!(output.as_bytes(), printed(text, way));
    output
}

/// Case A's block twice, a scan, and lines that stay.
fn list(memory: usize, admit: &str) -> String {
    format!(
        "memory {memory}\n# memory 5\n\nbank 4\n{admit}\nlatch 000d fffD 0000 0000 0000 0000 0000 ffff\nstep\n\
         {admit}\n#admit - -\nbank 00000\n#\n\n\nbank 65535\n# x\nlatch {0} {0} {0} {0} {0} {0} {0} {0}\nstep\n",
        "aBcD"
    )
}

#[test]
fn table_1() {
    let narrow = list(32, &admit(&A_RECORDS, &A_NARROW));
    let wide = list(64, &admit(&A_RECORDS, &A_WIDE));
    assert_eq!(both(Way::Widen, narrow.as_bytes()), wide);
    assert_eq!(both(Way::Narrow, wide.as_bytes()), narrow);
    // With digits of either case, and no newline at the end.
    let upper = admit(&A_RECORDS, &A_NARROW).to_uppercase();
    let text = list(32, &upper.replace("ADMIT", "admit"));
    assert_eq!(both(Way::Widen, text.trim_end().as_bytes()), wide);
    // Rows of the other form.
    let refused = list(128, "refused 12");
    assert_eq!(both(Way::Widen, wide.as_bytes()), refused);
    let refused = list(16, "refused 12");
    assert_eq!(both(Way::Narrow, narrow.as_bytes()), refused);
    // Bytes of a remark that are no text stay, too.
    assert_eq!(
        printed(b"memory 1\n#\xFF\xFE\nadmit - -\nstep", Way::Widen),
        b"memory 2\n#\xFF\xFE\nrefused 12\nstep\n"
    );
}

#[test]
fn more_than_eight_outputs() {
    let (records, values, _) = of_outputs(9);
    let wide = format!("memory 1\n{}\n", admit(&records, &row_bytes(&values)));
    assert_eq!(both(Way::Narrow, wide.as_bytes()), "memory 0\nrefused 15\n");
    let narrow = format!("memory 1\n{}\n", admit(&records, &vec![0; values.len()]));
    let refused = "memory 2\nrefused 12\n";
    assert_eq!(both(Way::Widen, narrow.as_bytes()), refused);
}

/// Period and phase stay as they are spelt, right or wrong; of a block that can't be moved nothing stays.
#[test]
fn periods() {
    let (narrow, wide) = (admit(&A_RECORDS, &A_NARROW), admit(&A_RECORDS, &A_WIDE));
    for last in [
        "1 0", "8 7", "08 007", "001 00", "3 0", "0 0", "255 255", "16 4", "2 2",
    ] {
        for between in [" ", "\t", "  \r "] {
            let spelt = format!(" {narrow} {last}\r").replace(' ', between);
            let text =
                format!("memory 16\nbank 9\n{spelt}\nadmit - - {last}\nadmit - -\n{narrow}\n");
            let refused = "refused 12\n".repeat(2);
            let expected = format!("memory 32\nbank 9\n{wide} {last}\n{refused}{wide}\n");
            assert_eq!(both(Way::Widen, text.as_bytes()), expected, "{last}");
        }
        let text = format!("memory 32\n{wide} {last}\n{narrow} {last}");
        let expected = format!("memory 16\n{narrow} {last}\nrefused 12\n");
        assert_eq!(both(Way::Narrow, text.as_bytes()), expected, "{last}");
    }
    for last in [
        "1", "1 0 0", "256 0", "1 256", "0001 0", "1 0000", "a 0", "1 -", "-1 0", "1 #",
    ] {
        let text = format!("memory 16\n{narrow} {last}\n");
        let told = format!("memory 32\n{}", not_understood(2, expected(b"admit")));
        assert_eq!(both(Way::Widen, text.as_bytes()), told, "{last}");
    }
}

#[test]
fn first_lines() {
    for (number, up, back) in [
        ("0", Some(0), Some(0)),
        ("1", Some(2), Some(0)),
        ("7", Some(14), Some(3)),
        ("00007", Some(14), Some(3)),
        ("32767", Some(65_534), Some(16_383)),
        ("32768", Some(65_536), Some(16_384)),
        ("32769", None, Some(16_384)),
        ("65536", None, Some(32_768)),
        ("65537", None, None),
        ("99999", None, None),
        ("000007", None, None),
        ("", None, None),
        ("7 ", Some(14), Some(3)),
        (" 7", Some(14), Some(3)),
        ("\t 7\r", Some(14), Some(3)),
        ("7 7", None, None),
        ("-1", None, None),
        ("+1", None, None),
        ("x", None, None),
    ] {
        for (way, moved) in [(Way::Widen, up), (Way::Narrow, back)] {
            for (ending, step) in [("", ""), ("\n", ""), ("\nstep", "step\n"), ("\n\n", "\n")] {
                let expected = match moved {
                    Some(bytes) => format!("memory {bytes}\n{step}"),
                    None => first_not_understood(way),
                };
                let text = format!("memory {number}{ending}");
                assert_eq!(both(way, text.as_bytes()), expected, "{text:?}");
            }
        }
    }
    for line in BAD_MEMORY {
        for after in ["", "\n", "\nmemory 1\n"] {
            for way in Way::ALL {
                let text = [line, after.as_bytes()].concat();
                assert_eq!(both(way, &text), first_not_understood(way), "{text:?}");
            }
        }
    }
    for way in Way::ALL {
        let text = " \tmemory\t\r00008 \r\nstep";
        let expected = format!("memory {}\nstep\n", way.row_bytes(8));
        assert_eq!(both(way, text.as_bytes()), expected);
    }
}

#[test]
fn lines_that_cannot_be_read() {
    let random = &mut Random::new(3, SEED, 0);
    let mut lines: Vec<Vec<u8>> = BAD_LINES.map(<[u8]>::to_vec).to_vec();
    lines.extend((0..200).map(|_| bad_line(random)));
    for line in lines {
        let spelt = match random.coin() {
            true => respaced(random, &line),
            false => line.clone(),
        };
        for way in Way::ALL {
            let memory = way.row_bytes(2);
            let text = [
                b"memory 2\nadmit 00 00\n",
                &spelt[..],
                b"\nadmit 00 00\nx\n",
            ]
            .concat();
            let told = not_understood(3, expected(&line));
            let output = format!("memory {memory}\nrefused 12\n{told}");
            assert_eq!(both(way, &text), output, "{line:?}");
            let text = [b"memory 2\n\n#\nstep\n", &spelt[..]].concat();
            let told = not_understood(5, expected(&line));
            let output = format!("memory {memory}\n\n#\nstep\n{told}");
            assert_eq!(both(way, &text), output, "{line:?}");
        }
    }
}

/// Every line but an admission keeps its words as they are spelt.
#[test]
fn blanks() {
    let zeros = " 00aF".repeat(8);
    for (line, moved) in [
        ("", ""),
        (" ", ""),
        ("\t\r ", ""),
        ("\r", ""),
        ("#", "#"),
        ("#\r", "#"),
        (" \t#", "#"),
        ("#  x\ty \r", "# x y"),
        ("#\t# ", "# #"),
        ("\r#a  b\r\rc", "#a b c"),
        ("# admit  00 00", "# admit 00 00"),
        ("# \u{b}\u{0}  é", "# \u{b}\u{0} é"),
        ("step", "step"),
        (" step\r", "step"),
        ("bank\t \t00009", "bank 00009"),
        ("\tadmit\r-   -", "refused 12"),
        (&format!(" latch{zeros}\r"), &format!("latch{zeros}")),
        (
            &format!("latch{}", zeros.replace(' ', "\t  ")),
            &format!("latch{zeros}"),
        ),
    ] {
        for way in Way::ALL {
            let memory = way.row_bytes(8);
            let text = format!("memory 8\r\n{line}\nstep\r\n{line}\n");
            let output = format!("memory {memory}\n{moved}\nstep\n{moved}\n");
            assert_eq!(both(way, text.as_bytes()), output, "{line:?}");
            // A last line that has a word is one also without its newline.
            let text = format!("memory 8\n{line}");
            let last = match moved {
                "" => String::new(),
                _ => format!("{moved}\n"),
            };
            let output = format!("memory {memory}\n{last}");
            assert_eq!(both(way, text.as_bytes()), output, "{line:?}");
        }
    }
    let upper = admit(&A_RECORDS, &A_NARROW)[6..]
        .to_uppercase()
        .replace(' ', "\t\r");
    let text = format!("memory 8\n\r admit  {upper} \r\n");
    let output = format!("memory 16\n{}\n", admit(&A_RECORDS, &A_WIDE));
    assert_eq!(both(Way::Widen, text.as_bytes()), output);
}

/// Up to 1,048,576 bytes are read, whatever they hold; a final newline counts.
#[test]
fn long_texts() {
    for (length, read) in [
        (1_048_575, true),
        (1_048_576, true),
        (1_048_577, false),
        (2_000_000, false),
    ] {
        for way in Way::ALL {
            let check = |text: &str, expected: String| {
                assert_eq!(text.len(), length);
                let over = "input over 1048576 bytes\n".to_string();
                let expected = if read { expected } else { over };
                assert!(both(way, text.as_bytes()) == expected);
            };
            let memory = format!("memory {}\n", way.row_bytes(7));
            for last in ["\n", "x"] {
                let remark = format!("#{}{last}", "x".repeat(length - 11));
                let expected = format!("{memory}{}\n", remark.trim_end());
                check(&format!("memory 7\n{remark}"), expected);
            }
            let blanks = " ".repeat(length - 13);
            check(
                &format!("memory 7\nstep{blanks}"),
                format!("{memory}step\n"),
            );
            check(&"x".repeat(length), first_not_understood(way));
        }
    }
    // Calls are not counted.
    let steps = "step\n".repeat(100_000);
    let text = format!("memory 0\n{steps}");
    assert!(both(Way::Widen, text.as_bytes()) == text);
}

/// Words of at most 65,535 bytes can be read.
#[test]
fn long_admissions() {
    for (count, told) in [
        (65_535, "refused 12\n".to_string()),
        (65_536, not_understood(2, expected(b"admit"))),
    ] {
        let bytes = "00".repeat(count);
        for words in [format!("{bytes} -"), format!("- {bytes}")] {
            for way in Way::ALL {
                let text = format!("memory 0\nadmit {words}\n");
                assert_eq!(both(way, text.as_bytes()), format!("memory 0\n{told}"));
            }
        }
    }
}

/// Lists of the generator: an admission is moved, or refused as the block is. Without the refused ones, the list narrowed and widened
/// again is the list.
#[test]
fn lists_back_and_up() {
    let random = &mut Random::new(5, SEED, 0);
    let (mut kept, mut refused, mut slow) = (0, 0, 0);
    for index in 0..400 {
        let blocks: Vec<StoredBlock> = (6 * index..6 * index + 6)
            .map(|place| block(SEED, place))
            .filter(|(_, rows)| rows.len() <= 1_000)
            .collect();
        let (limit, memory, list) = calls(SEED, index, &blocks);
        let memory = memory.min(65_536) / 2;
        let head = |memory: usize| format!("memory {memory}\nbank {limit}\n");
        let (mut text, mut expected) = (head(2 * memory), head(memory));
        let mut movable = text.clone();
        for call in list {
            let line = period_spelt(random, &call_line(&call, false));
            let line_after = match call {
                Call::Admit { records, rows, .. } => {
                    let last: Vec<&str> = line.split(' ').skip(3).collect();
                    slow += usize::from(!last.is_empty());
                    moved(Way::Narrow, &(records, rows)).map(|(records, rows)| {
                        let moved = admit(&records, &rows);
                        [&[&moved[..]], &last[..]].concat().join(" ")
                    })
                }
                _ => Ok(line.clone()),
            };
            text += &format!("{line}\n");
            match line_after {
                Err(number) => {
                    refused += 1;
                    expected += &format!("refused {number}\n");
                }
                Ok(after) => {
                    kept += u32::from(line.starts_with("admit"));
                    expected += &format!("{after}\n");
                    movable += &format!("{line}\n");
                }
            }
        }
        assert_eq!(both(Way::Narrow, text.as_bytes()), expected);
        let narrow = both(Way::Narrow, movable.as_bytes());
        assert_eq!(both(Way::Widen, narrow.as_bytes()), movable);
    }
    println!("{kept} admissions moved, {refused} refused, {slow} with period and phase");
    assert!(kept > 200 && refused > 200, "{kept} {refused}");
    assert!(slow > 200, "{slow}");
}

#[test]
fn arguments() {
    for arguments in [&[][..], &["up"], &["widen", "narrow"], &["Widen"], &[""]] {
        let refused = Command::new(PROGRAM).args(arguments).output();
        assert_eq!(refused.expect("starts").status.code(), Some(2));
    }
}
