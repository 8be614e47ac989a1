//! The line that admits a compiled job's block.

use second::block_text::printed;
use second::call_lines::{read_line, Line};
use second::generate::{compiled, job, Family};
use second::list::joined;
use second::run::output_of;
use second::{cases, fast, list, plain, replay};

const PROGRAM: &str = env!("CARGO_BIN_EXE_second_block");

const A: &str = "admit 000000000100000002010200800000000300000081010000 \
                 0000010002000200000003000200020001000100000000000200030002000200\n";

#[test]
fn case_a() {
    assert_eq!(printed(&cases::a(), plain::compile), A);
    assert_eq!(output_of(PROGRAM, &[], &joined(&cases::a())), A);
    assert_eq!(output_of(PROGRAM, &["fast"], &joined(&cases::a())), A);
}

/// Rows above 255 stand low byte first.
#[test]
fn fifteen_outputs() {
    let text = printed(&cases::fifteen_outputs(), fast::compile);
    let rows = text.trim_end().split(' ').nth(2).expect("rows");
    for (address, row) in rows.as_bytes().chunks(4).take(512).enumerate() {
        let column = address / 2;
        let value = (column / 2 * 256 + column) as u16;
        let [low, high] = value.to_le_bytes();
        assert_eq!(row, format!("{low:02x}{high:02x}").as_bytes());
    }
}

#[test]
fn refused() {
    for (input, number) in [
        (&b""[..], 1),
        (&[1, 1, 2, 1, 0], 2),
        (&[1, 1, 2, 1, 0, 128, 0], 3),
    ] {
        let text = format!("refused {number}\n");
        assert_eq!(output_of(PROGRAM, &[], input), text);
        assert_eq!(printed(&list::split(input), fast::compile), text);
    }
}

/// The line is read as the block that the compiler gives, and a bank admits it.
#[test]
fn read_again() {
    let (mut admitted, mut refused) = (0, 0);
    for family in Family::ALL {
        for index in 0..8 {
            let job = job(family, 77, index);
            let text = printed(&job, fast::compile);
            let Some((records, rows)) = compiled(&job) else {
                assert!(text.starts_with("refused "), "{text}");
                refused += 1;
                continue;
            };
            let line = text.strip_suffix('\n').expect("a line");
            let read = read_line(line.as_bytes());
            let due_always = Line::Admit {
                records,
                rows,
                period: 1,
                phase: 0,
            };
            assert_eq!(read, Some(due_always));
            let list = format!("memory 65536\nbank 255\n{text}");
            assert_eq!(replay::printed(list.as_bytes()), "ok\nok 0:........\n");
            admitted += 1;
        }
    }
    assert!(admitted > 100 && refused > 20, "{admitted} {refused}");
}
