//! Times one evaluation with unknown inputs, by the proved function, `sets`, `fused` and all fillings, on the largest cascades. Argument:
//! rounds of which the least counts (25 if none is given).

use proved::known;
use second::generate::{
    cascade, compiled, job, known_but, Family, Random, Rows, Shape, StoredBlock as Cascade,
};
use second::known::{fillings, fused, sets, Values};
use second::{list, stored};
use std::hint::black_box;
use std::process::ExitCode;
use std::time::Instant;

const SEED: u64 = 1;
/// Cascades of a kind.
const CASCADES: usize = 4;
/// Evaluations in a timed batch.
const CALLS: usize = 256;

type Evaluation = fn(&[u8], &[u8], u16, u16) -> Values;

fn proved_values(records: &[u8], rows: &[u8], mask: u16, word: u16) -> Values {
    let mut outputs = [0; 8];
    match known(records, rows, mask, word, &mut outputs) {
        0 => Ok(outputs),
        number => Err(number),
    }
}

/// A cascade with a mask of known inputs and a word.
type Asked<'a> = (&'a Cascade, u16, u16);

/// Nanoseconds an evaluation.
fn time(evaluation: Evaluation, batch: &[Asked]) -> f64 {
    let began = Instant::now();
    for ((records, rows), mask, word) in batch {
        let _ = black_box(evaluation(black_box(records), rows, *mask, *word));
    }
    began.elapsed().as_secs_f64() * 1e9 / batch.len() as f64
}

fn measure(name: &str, cascades: &[Cascade], rounds: u32) {
    const EVALUATIONS: [Evaluation; 4] = [proved_values, sets, fused, fillings];
    let rows = cascades.iter().map(rows).max();
    let cells = |(records, _): &Cascade| stored::cells(records).map_or(0, |cells| cells.len());
    let cells = cascades.iter().map(cells).max();
    for unknown in [0, 1, 3, 6, 12] {
        let random = &mut Random::new(700, SEED, unknown as u64);
        let batch: Vec<Asked> = (0..CALLS)
            .map(|place| &cascades[place % cascades.len()])
            .map(|cascade| (cascade, known_but(random, unknown), random.word()))
            .collect();
        for ((records, rows), mask, word) in &batch {
            let values = EVALUATIONS.map(|evaluation| evaluation(records, rows, *mask, *word));
            assert!(values[0].is_ok() && values.iter().all(|v| *v == values[0]));
        }
        let mut least = [f64::MAX; 4];
        for _ in 0..rounds {
            for (least, evaluation) in least.iter_mut().zip(EVALUATIONS) {
                *least = least.min(time(evaluation, &batch));
            }
        }
        let [proved, sets, fused, filled] = least;
        println!(
            "| {name} | {} | {} | {unknown} | {proved:.0} | {sets:.0} | {fused:.0} | {filled:.0} | {:.2} | {:.2} |",
            rows.unwrap_or(0),
            cells.unwrap_or(0),
            proved / sets,
            proved / fused
        );
    }
}

/// Those that have the most of what `size` counts.
fn largest(cascades: impl Iterator<Item = Cascade>, size: fn(&Cascade) -> usize) -> Vec<Cascade> {
    let mut cascades: Vec<Cascade> = cascades.collect();
    cascades.sort_by_key(|cascade| std::cmp::Reverse(size(cascade)));
    cascades.truncate(CASCADES);
    cascades
}

fn rows((_, bytes): &Cascade) -> usize {
    bytes.len() / 2
}

/// Rows of cells with upper rails.
fn rows_below_rails((records, _): &Cascade) -> usize {
    let cells = stored::cells(records).unwrap_or_default();
    let below = cells.iter().filter(|cell| cell.upper_rails > 0);
    below.map(|cell| cell.rows).sum()
}

fn by_hand(shape: Shape, kind: Rows) -> Vec<Cascade> {
    largest((0..100).map(|i| cascade(shape, kind, SEED, i)), rows)
}

/// Of every family.
fn all_compiled() -> impl Iterator<Item = Cascade> {
    let jobs = |family| (0..300).map(move |index| job(family, SEED, index));
    let jobs = Family::ALL.into_iter().flat_map(jobs);
    jobs.filter_map(|job| compiled(&job))
}

fn main() -> ExitCode {
    let rounds = match std::env::args().nth(1).map(|text| text.parse::<u32>()) {
        None => 25,
        Some(Ok(rounds)) if rounds > 0 => rounds,
        Some(_) => {
            eprintln!("compare_known [ROUNDS]");
            return ExitCode::from(2);
        }
    };
    let basket = concat!(env!("CARGO_MANIFEST_DIR"), "/../../examples/basket.job");
    let basket = std::fs::read(basket).map(|bytes| compiled(&list::split(&bytes)));
    let Ok(Some(basket)) = basket else {
        eprintln!("compare_known: the basket example is not there, or refused");
        return ExitCode::FAILURE;
    };
    println!("Nanoseconds an evaluation, least of {rounds} batches of {CALLS} taken in turn.");
    println!("| cascades | rows | cells | unknown inputs | proved | sets | fused | all fillings | proved / sets | proved / fused |");
    println!("|---|---|---|---|---|---|---|---|---|---|");
    for (name, cascades) in [
        (
            "eight rails by hand, random",
            by_hand(Shape::EightRails, Rows::Random),
        ),
        (
            "eight rails by hand, coupled",
            by_hand(Shape::EightRails, Rows::Coupled),
        ),
        (
            "largest by hand, random",
            by_hand(Shape::Largest, Rows::Random),
        ),
        (
            "largest by hand, coupled",
            by_hand(Shape::Largest, Rows::Coupled),
        ),
        (
            "sixteen outputs by hand",
            by_hand(Shape::SixteenOutputs, Rows::Random),
        ),
        (
            "many cells by hand",
            by_hand(Shape::ManyCells, Rows::Random),
        ),
        ("one cell by hand", by_hand(Shape::OneCell, Rows::Random)),
        ("largest compiled", largest(all_compiled(), rows)),
        (
            "compiled, most rows below rails",
            largest(all_compiled(), rows_below_rails),
        ),
        ("basket", vec![basket]),
    ] {
        measure(name, &cascades, rounds);
    }
    ExitCode::SUCCESS
}
