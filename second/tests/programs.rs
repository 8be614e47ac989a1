//! The programs on good and on bad input: any bytes get an answer, never a panic.

use second::cases;
use second::generate::{job, Family};
use second::list::joined as raw;
use second::run::output_of as run;
use second::{fast, list, plain};
use std::process::Command;

const LIST: &str = env!("CARGO_BIN_EXE_second_list");
const BANK: &str = env!("CARGO_BIN_EXE_second_bank");
const JOBS: &str = env!("CARGO_BIN_EXE_second_jobs");
const KNOWN: &str = env!("CARGO_BIN_EXE_second_known");

#[test]
fn the_listing_of_case_a() {
    let listing = "5 2 1\n4 3 2\n3 4 2\n2 3 2\n1 2 1\n0 1 0\n\
        cell 6 3 0 1 2 2 0 3 2 2\ncell 3 0 1 1 0 0 2 3 2 2\n";
    assert_eq!(run(LIST, &[], &raw(&cases::a())), listing);
    assert_eq!(run(LIST, &["fast"], &raw(&cases::a())), listing);
}

/// Values above 255 are printed, not bytes.
#[test]
fn the_listing_of_fifteen_outputs() {
    for arguments in [&[][..], &["fast"]] {
        let text = run(LIST, arguments, &raw(&cases::fifteen_outputs()));
        let mut expected = String::from("cell 20 4");
        for address in 0..512 {
            let column = address / 2;
            expected += &format!(" {}", column / 2 * 256 + column);
        }
        assert_eq!(text.lines().nth(20), Some(&expected[..]));
    }
}

#[test]
fn bad_input_is_refused() {
    assert_eq!(run(LIST, &[], b""), "refused 1\n");
    assert_eq!(run(LIST, &[], &[255; 70_000]), "refused 1\n");
    assert_eq!(run(LIST, &[], &[1, 1, 2, 1, 0]), "refused 2\n");
    let mut long = vec![1, 1, 2, 1, 0, 128];
    long.resize(6 + 2_056, 0);
    assert_eq!(run(LIST, &[], &long), "refused 3\n");
    for length in 0..60 {
        let bytes: Vec<u8> = (0..length).map(|i| (i * i + 7 * length) as u8).collect();
        assert!(run(LIST, &[], &bytes).starts_with("refused "));
        run(BANK, &[], &bytes);
    }
}

/// The listing of every small job is the same by both compilers, and after the input is cut anywhere.
#[test]
fn listings_agree() {
    for index in 0..4_000 {
        let family = match index % 2 {
            _ if index % 200 == 1 => Family::ManyOutputs,
            0 => Family::SmallOrders,
            _ => Family::StopSome,
        };
        let mut bytes = raw(&job(family, 5, index / 2));
        if index % 3 == 0 {
            bytes.truncate(bytes.len() * (index as usize % 7) / 7);
        }
        let job = list::split(&bytes);
        assert_eq!(
            list::listing(&job, plain::compile),
            list::listing(&job, fast::compile)
        );
    }
}

#[test]
fn the_generator_writes_what_the_listing_reads() {
    let output = Command::new(JOBS)
        .args(["--raw", "loose", "3", "4"])
        .output()
        .expect("the program starts");
    assert_eq!(list::split(&output.stdout), job(Family::Loose, 3, 4));
    let refused = Command::new(JOBS).arg("nothing").output().expect("starts");
    assert_eq!(refused.status.code(), Some(2));
}

#[test]
fn certain_outputs_are_counted() {
    let text = run(KNOWN, &["4"], b"");
    let lines: Vec<&str> = text.lines().skip(2).collect();
    assert!(lines.len() > 40, "{text}");
    for line in lines {
        let cells = line.split('|').skip(3).take(4);
        let counts: Vec<u64> = cells
            .map(|cell| cell.split_whitespace().next().and_then(|n| n.parse().ok()))
            .map(|count| count.expect("a number"))
            .collect();
        let [asked, exact, safe, alone] = counts[..] else {
            panic!("{line}");
        };
        assert!(exact <= asked && safe + alone == exact, "{line}");
    }
    let refused = Command::new(KNOWN).arg("0").output().expect("starts");
    assert_eq!(refused.status.code(), Some(2));
}
