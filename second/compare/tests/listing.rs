//! The proved listing program against the second one: what both print on the same standard input.

use second::generate::{arranged, job, Family};
use second::list::joined as bytes;
use second::run::output_of;
use std::collections::BTreeMap;
use std::path::PathBuf;

const SEED: u64 = 73;

fn program(place: &str) -> PathBuf {
    PathBuf::from(env!("CARGO_MANIFEST_DIR"))
        .join("../..")
        .join(place)
}

/// Both must print the same; counts the first words printed.
fn compare(name: &str, inputs: impl Iterator<Item = Vec<u8>>) -> BTreeMap<String, u64> {
    let (proved, second) = (
        program("target/bin/cascade_list"),
        program("second/target/release/second_list"),
    );
    let mut seen = BTreeMap::new();
    for input in inputs {
        let text = output_of(&proved, &[], &input);
        assert_eq!(text, output_of(&second, &[], &input), "{input:?}");
        let kind = match text.strip_prefix("refused ") {
            Some(number) => number.trim_end().to_owned(),
            None => "listed".to_owned(),
        };
        *seen.entry(kind).or_default() += 1;
    }
    println!("{name}: {seen:?}");
    seen
}

#[test]
fn jobs() {
    for family in Family::ALL {
        let jobs = match family {
            Family::SmallDamaged => 500,
            Family::SmallFewFree | Family::SmallManyFree | Family::SmallOrders => 300,
            Family::Medium | Family::FullRows | Family::Loose => 150,
            Family::StopSome | Family::StopClash | Family::StopDamaged => 150,
            Family::LimitStop | Family::NineRails | Family::ManyOutputs => 10,
            _ => 40,
        };
        compare(
            family.name(),
            (0..jobs).map(|i| bytes(&job(family, SEED, i))),
        );
    }
}

/// Document 02, §4: the proved program prints the same text for a sheet in five other arrangements of its records.
#[test]
fn arrangements() {
    let proved = program("target/bin/cascade_list");
    for family in Family::ALL {
        for index in 0..8 {
            let job = job(family, SEED, index);
            let text = output_of(&proved, &[], &bytes(&job));
            for moved in arranged(&job, SEED, index) {
                assert_eq!(output_of(&proved, &[], &bytes(&moved)), text, "{job:?}");
            }
        }
    }
}

/// Whole inputs broken off anywhere, and with bytes after their end.
#[test]
fn broken_off() {
    let whole = bytes(&job(Family::SmallOrders, SEED, 5));
    let seen = compare("broken off", (0..=whole.len()).map(|n| whole[..n].to_vec()));
    assert!(seen["1"] == 4 && seen.contains_key("2") && seen.contains_key("3"));
    let longer = [
        1, 7, 8, 2_048, 2_049, 2_056, 4_000, 4_090, 4_096, 4_100, 70_000,
    ];
    compare(
        "longer",
        longer.iter().map(|&more| {
            let mut input = whole.clone();
            input.resize(whole.len() + more, 0);
            input
        }),
    );
}

/// Bytes of any kind, and all lengths up to 300.
#[test]
fn any_bytes() {
    let mut state = SEED;
    compare(
        "any bytes",
        (0..300).map(|length| {
            (0..length)
                .map(|place| {
                    state ^= state << 13;
                    state ^= state >> 7;
                    state ^= state << 17;
                    // Small numbers in front, so that some get further than refusal 1.
                    if place < 4 {
                        (state % 14) as u8
                    } else {
                        state as u8
                    }
                })
                .collect()
        }),
    );
}
