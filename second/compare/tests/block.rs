//! The proved program that prints the line which admits a job's block against the second one, and the line in a list of calls.

use second::block_text::printed;
use second::generate::{job, Family, Random};
use second::job::Job;
use second::list::{joined, split};
use second::run::output_of;
use second::{fast, plain, replay};
use std::collections::BTreeMap;
use std::path::PathBuf;

const SEED: u64 = 9077;

fn from_top(place: &str) -> PathBuf {
    PathBuf::from(env!("CARGO_MANIFEST_DIR"))
        .join("../..")
        .join(place)
}

/// What the proved program prints, after it is found to be what the second one prints; counts it by the refusal.
fn compare(input: &[u8], seen: &mut BTreeMap<String, u64>) -> String {
    let line = output_of(from_top("target/bin/cascade_block"), &[], input);
    let job = split(input);
    assert!(line == printed(&job, fast::compile), "{job:?}");
    let kind = match line.strip_prefix("refused ") {
        Some(number) => number.trim_end(),
        None => "admit",
    };
    *seen.entry(kind.to_string()).or_default() += 1;
    line
}

/// Runs a list through the proved program; answers what it prints, after it is found to be what the second one prints.
fn replayed(text: &str) -> String {
    let output = output_of(from_top("target/bin/bank_replay"), &[], text.as_bytes());
    assert!(output == replay::printed(text.as_bytes()), "{text}");
    output
}

/// A list that admits these lines, some with a period and a phase put after them, and scans some words. Jobs that were refused have no
/// line in it.
fn road(random: &mut Random, lines: &[String]) -> String {
    let mut text = "memory 65536\nbank 255\n".to_string();
    for line in lines.iter().filter(|line| line.starts_with("admit ")) {
        text += line.trim_end();
        text += random.pick(&["\n", " 1 0\n", " 2 1\n", " 4 2\n"]);
    }
    for _ in 0..3 {
        let words: [String; 8] = std::array::from_fn(|_| format!("{:04x}", random.word()));
        text += &format!("latch {}\n", words.join(" "));
        text += &"step\n".repeat(random.within(1, 24));
    }
    text
}

fn jobs_of(family: Family) -> u64 {
    match family {
        Family::SmallDamaged => 300,
        Family::SmallFewFree | Family::SmallManyFree | Family::SmallOrders => 200,
        Family::Medium | Family::FullRows | Family::Loose => 80,
        Family::StopSome | Family::StopClash | Family::StopDamaged => 80,
        Family::LimitStop | Family::NineRails | Family::ManyOutputs => 8,
        _ => 24,
    }
}

/// Jobs of every family; the lines of four at a time go into a list.
#[test]
fn jobs() {
    let random = &mut Random::new(1, SEED, 0);
    let mut went = 0;
    for family in Family::ALL {
        let mut seen = BTreeMap::new();
        let jobs: Vec<Job> = (0..jobs_of(family))
            .map(|index| job(family, SEED, index))
            .collect();
        for some in jobs.chunks(4) {
            let lines: Vec<String> = some
                .iter()
                .map(|job| compare(&joined(job), &mut seen))
                .collect();
            let output = replayed(&road(random, &lines));
            went += output
                .lines()
                .filter(|line| line.starts_with("went"))
                .count();
        }
        println!("{}: {seen:?}", family.name());
    }
    println!("{went} cells read");
    assert!(went > 2_000);
}

/// The jobs of the folder of examples, each in a list of its own.
#[test]
fn examples() {
    let random = &mut Random::new(2, SEED, 0);
    let mut seen = BTreeMap::new();
    let files = std::fs::read_dir(from_top("examples")).expect("the examples");
    let mut paths: Vec<PathBuf> = files.map(|file| file.expect("a file").path()).collect();
    paths.retain(|path| path.extension().is_some_and(|end| end == "job"));
    paths.sort();
    for path in &paths {
        let input = std::fs::read(path).expect("a job");
        let line = compare(&input, &mut seen);
        assert_eq!(line, printed(&split(&input), plain::compile));
        let output = replayed(&road(random, std::slice::from_ref(&line)));
        let admitted = output.lines().nth(1).expect("a call");
        assert_eq!(line.starts_with("admit "), admitted == "ok 0:........");
    }
    println!("{} examples: {seen:?}", paths.len());
    assert!(paths.len() >= 7 && seen.contains_key("admit"));
}

/// Whole inputs broken off anywhere, and with bytes after their end.
#[test]
fn broken_off() {
    let mut seen = BTreeMap::new();
    let whole = joined(&job(Family::SmallOrders, SEED, 5));
    for end in 0..=whole.len() {
        compare(&whole[..end], &mut seen);
    }
    for more in [1, 7, 8, 2_048, 2_049, 2_056, 4_096, 70_000] {
        let mut input = whole.clone();
        input.resize(whole.len() + more, 0);
        compare(&input, &mut seen);
    }
    println!("broken off: {seen:?}");
    assert!(["1", "2", "3"]
        .iter()
        .all(|number| seen.contains_key(*number)));
}
