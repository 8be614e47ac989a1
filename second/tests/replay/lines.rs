//! Blanks, lines that are passed over, and lines that can't be read.

use super::{both, not_understood, ADMIT, BANK, LATCH, MEMORY, OTHER, STEP};
use second::generate::{bad_line, respaced, Random, BAD_LINES, BAD_MEMORY};
use second::replay::printed;

/// What is expected of a line by how it begins.
fn expected(line: &[u8]) -> &'static str {
    let begin = line.trim_ascii_start();
    match begin {
        [b'b', b'a', b'n', b'k', ..] => BANK,
        [b'a', b'd', b'm', b'i', b't', ..] => ADMIT,
        [b'l', b'a', b't', b'c', b'h', ..] => LATCH,
        [b's', b't', b'e', b'p', ..] => STEP,
        _ => OTHER,
    }
}

#[test]
fn good_lines() {
    let zeros = " 0000".repeat(7);
    let latch = format!("latch{zeros} fFfF");
    for (line, answer) in [
        ("bank 1", "ok"),
        ("bank 00001", "ok"),
        ("bank 00255", "ok"),
        ("bank 0", "refused 1"),
        ("bank 00000", "refused 1"),
        ("bank 256", "refused 1"),
        ("bank 65535", "refused 1"),
        ("admit - -", "refused 12"),
        ("admit 00 -", "refused 12"),
        ("admit - 00", "refused 12"),
        ("admit aF Fa", "refused 12"),
        ("admit - - 1 0", "refused 12"),
        ("admit 00 0F 255 255", "refused 12"),
        ("admit 80010000 0100 3 0", "refused 16"),
        ("admit 80010000 0100 0 0", "refused 16"),
        ("admit 80010000 0100 255 000", "refused 16"),
        ("admit 80010000 0100 8 008", "refused 16"),
        ("admit 80010000 0100 1 0", "ok 0:........"),
        ("admit 80010000 0100 001 000", "ok 0:........"),
        ("admit 80010000 0100 08 7", "ok 0:........"),
        (&latch, "ok"),
        ("step", "idle"),
    ] {
        let between = line.replace(' ', " \t\r ");
        for spelt in [
            line.to_string(),
            format!("{line} "),
            format!("{line}\t"),
            format!("{line}\r"),
            format!(" {line}"),
            format!("\t{line}"),
            format!("\r{line}"),
            format!("{line}\r\r"),
            between.clone(),
            format!("\r \t{between}\t \r"),
            line.replace(' ', "  "),
            line.replace(' ', "\t"),
            line.replace(' ', "\r"),
        ] {
            for end in ["", "\n"] {
                let text = format!("memory 8\nbank 9\n{spelt}{end}");
                assert_eq!(both(text.as_bytes()), format!("ok\n{answer}\n"), "{text:?}");
            }
        }
    }
}

#[test]
fn first_lines() {
    for line in [
        "memory 8",
        "memory 0",
        "memory 00008",
        "memory 65535",
        "memory 65536",
        "memory 8\r",
        "memory 8 ",
        " memory 8",
        "\tmemory\t8\t",
        "\r \tmemory \t\r 8 \r\r",
    ] {
        assert_eq!(both(line.as_bytes()), "", "{line:?}");
        let text = format!("{line}\nbank 1\nstep");
        assert_eq!(both(text.as_bytes()), "ok\nidle\n", "{line:?}");
    }
    for line in BAD_MEMORY {
        for after in ["", "\n", "\r\n", "\nmemory 8\n", "\nx\n"] {
            let text = [line, after.as_bytes()].concat();
            assert_eq!(both(&text), not_understood(1, MEMORY), "{text:?}");
        }
    }
    assert_eq!(both(b""), not_understood(1, MEMORY));
    // The first line is not passed over, also before a good one.
    assert_eq!(both(b"\nmemory 8\n"), not_understood(1, MEMORY));
    assert_eq!(both(b"# x\nmemory 8\n"), not_understood(1, MEMORY));
    assert_eq!(both(b"memory\n8\n"), not_understood(1, MEMORY));
}

#[test]
fn passed_over() {
    for line in [
        &b""[..],
        b" ",
        b"\t",
        b"\r",
        b" \t\r \r\t",
        b"#",
        b"# step",
        b"#step",
        b" #",
        b"\t# x",
        b"\r \t#",
        b"##",
        b"#\0\xFF\x0B",
        b"# memory 8",
    ] {
        let text = [b"memory 8\n", line, b"\nbank 1\n", line, b"\n", line].concat();
        assert_eq!(both(&text), "ok\n", "{line:?}");
        // They are counted.
        let text = [b"memory 8\n", line, b"\nbank 1\n", line, b"\nx"].concat();
        assert_eq!(both(&text), format!("ok\n{}", not_understood(5, OTHER)));
    }
    // Only at the beginning.
    assert_eq!(both(b"memory 8\nstep #"), not_understood(2, STEP));
    // A carriage return ends no line.
    assert_eq!(both(b"memory 8\nbank 1\rstep\n"), not_understood(2, BANK));
    assert_eq!(both(b"memory 8\n# x\rbank 1\nbank 1\n"), "ok\n");
}

#[test]
fn lines_that_cannot_be_read() {
    let random = &mut Random::new(2, 31, 0);
    for line in BAD_LINES {
        for spelt in [
            line.to_vec(),
            [b" \t\r", line, b"\r"].concat(),
            respaced(random, line),
        ] {
            let told = not_understood(3, expected(line));
            let text = [b"memory 0\n#\n", &spelt[..], b"\nbank 1\nx\n"].concat();
            assert_eq!(both(&text), told, "{spelt:?}");
            let told = format!("ok\nidle\n{}", not_understood(4, expected(line)));
            let text = [b"memory 0\nbank 1\nstep\n", &spelt[..]].concat();
            assert_eq!(both(&text), told, "{spelt:?}");
        }
    }
    for _ in 0..5_000 {
        let line = bad_line(random);
        let text = [b"memory 0\n", &line[..], b"\nbank 1\n"].concat();
        assert_eq!(
            printed(&text),
            not_understood(2, expected(&line)),
            "{line:?}"
        );
    }
}

/// Each text that a line can begin with, and texts a byte off it.
#[test]
fn beginnings() {
    for (line, expected) in [
        ("bank", BANK),
        ("bankadmit", BANK),
        ("bank-", BANK),
        ("ban", OTHER),
        ("ank 1", OTHER),
        ("Bank 1", OTHER),
        ("xbank 1", OTHER),
        ("b ank 1", OTHER),
        ("admit", ADMIT),
        ("admitted", ADMIT),
        ("admi", OTHER),
        ("admi t - -", OTHER),
        ("ADMIT - -", OTHER),
        ("latch", LATCH),
        ("latches", LATCH),
        ("latc", OTHER),
        ("stepped", STEP),
        ("step back", STEP),
        ("ste", OTHER),
        ("stepbank", STEP),
        ("memory 8", OTHER),
        ("-", OTHER),
        ("x # step", OTHER),
        ("\u{A0}step", OTHER),
        ("\u{B}step", OTHER),
        ("\u{0}step", OTHER),
    ] {
        for before in ["", " ", "\t\r"] {
            let text = format!("memory 0\n{before}{line}\n");
            assert_eq!(
                both(text.as_bytes()),
                not_understood(2, expected),
                "{line:?}"
            );
        }
    }
}

/// Each byte as the only one of a line, within words, between words and at a line's end; the newline parts two lines.
#[test]
fn every_byte() {
    let zeros = " 0000".repeat(7);
    for byte in (0..=255u8).filter(|&byte| byte != b'\n') {
        let blank = matches!(byte, b' ' | b'\t' | b'\r');
        let digit = byte.is_ascii_hexdigit();
        let number = byte.is_ascii_digit();
        for (before, after, good, answer, expected) in [
            ("", "\nbank 1", blank || byte == b'#', "ok\n", OTHER),
            ("bank", "1", blank, "ok\n", BANK),
            ("bank 00", "1", byte.is_ascii_digit(), "", BANK),
            ("admit 0", " -", digit, "refused 12\n", ADMIT),
            ("admit -", "-", blank, "refused 12\n", ADMIT),
            ("admit - - ", " 0", number, "refused 12\n", ADMIT),
            ("admit - - 1 0", "2", number, "refused 12\n", ADMIT),
            ("admit - - 1", "2", blank, "refused 12\n", ADMIT),
            ("latch 000", &zeros, digit, "refused 12\n", LATCH),
            ("step", "", blank, "refused 12\n", STEP),
            ("", "step", blank, "refused 12\n", OTHER),
        ] {
            // A remark, and limits of which some are refused.
            if byte == b'#' && before.is_empty() && !good || good && answer.is_empty() {
                continue;
            }
            let line = [before.as_bytes(), &[byte], after.as_bytes()].concat();
            let told = match good {
                true => answer.to_string(),
                false => not_understood(2, expected),
            };
            let text = [b"memory 8\n", &line[..], b"\n"].concat();
            assert_eq!(printed(&text), told, "{line:?}");
        }
    }
}
