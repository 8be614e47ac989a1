//! Counts how many outputs stay certain while inputs are unknown, by `sets` and by `two_rails`, over cascades of the generator: the
//! compiled ones of each family of jobs, and those made by hand, by the kind of their rows. Argument: cascades for each (2,000 if none
//! is given). The unknown inputs are drawn from those that the cascade uses; cascades that use fewer are passed over, as are outputs
//! that a cascade lacks.

use second::generate::{cascade, compiled, job, Family, Random, Rows, Shape, StoredBlock};
use second::known::{sets, two_rails, UNKNOWN};
use second::stored::cells;
use std::process::ExitCode;

const SEED: u64 = 1;
const MASKS: usize = 20;

/// Outputs asked, those certain by each evaluation, and those certain by `sets` alone.
#[derive(Clone, Copy, Default)]
struct Counts {
    asked: u64,
    exact: u64,
    safe: u64,
    alone: u64,
}

impl Counts {
    fn add(&mut self, other: Counts) {
        self.asked += other.asked;
        self.exact += other.exact;
        self.safe += other.safe;
        self.alone += other.alone;
    }

    /// A line of the table.
    fn print(&self, name: &str, unknown: usize) {
        let part = |count: u64| {
            let percent = 100.0 * count as f64 / self.asked as f64;
            format!("{count} ({percent:.1} %)")
        };
        let (exact, safe, alone) = (part(self.exact), part(self.safe), part(self.alone));
        println!(
            "| {name} | {unknown} | {} | {exact} | {safe} | {alone} |",
            self.asked
        );
    }
}

/// One cascade under so many masks; None where it uses fewer inputs.
fn count(random: &mut Random, (records, rows): &StoredBlock, unknown: usize) -> Option<Counts> {
    let cells = cells(records)?;
    let mut inputs: Vec<u8> = cells.iter().flat_map(|cell| cell.inputs.clone()).collect();
    let outputs: u64 = cells.iter().map(|cell| cell.outputs.len() as u64).sum();
    if inputs.len() < unknown {
        return None;
    }
    let mut counts = Counts::default();
    for _ in 0..MASKS {
        random.shuffle(&mut inputs);
        let known = inputs[..unknown]
            .iter()
            .fold(!0, |mask, i| mask & !(1 << i));
        let word = random.word();
        let exact = sets(records, rows, known, word).ok()?;
        let safe = two_rails(records, rows, known, word).ok()?;
        let certain = |values: [u8; 8]| values.iter().filter(|&&v| v != UNKNOWN).count() as u64;
        let alone = |(exact, safe): &(u8, u8)| *exact != UNKNOWN && *safe == UNKNOWN;
        counts.add(Counts {
            asked: outputs,
            exact: certain(exact),
            safe: certain(safe),
            alone: exact.into_iter().zip(safe).filter(alone).count() as u64,
        });
    }
    Some(counts)
}

/// The lines of one family, added to those of all.
fn family(name: &str, cascades: &[StoredBlock], all: &mut [(usize, Counts); 3]) {
    let random = &mut Random::new(600, SEED, 0);
    for (unknown, sum) in all {
        let mut own = Counts::default();
        for counts in cascades.iter().filter_map(|c| count(random, c, *unknown)) {
            own.add(counts);
        }
        if own.asked > 0 {
            own.print(name, *unknown);
            sum.add(own);
        }
    }
}

fn none() -> [(usize, Counts); 3] {
    [1, 3, 6].map(|unknown| (unknown, Counts::default()))
}

fn print_all(name: &str, all: &[(usize, Counts); 3]) {
    for (unknown, counts) in all {
        counts.print(name, *unknown);
    }
}

fn main() -> ExitCode {
    let count = match std::env::args().nth(1).map(|text| text.parse::<u64>()) {
        None => 2_000,
        Some(Ok(count)) if count > 0 => count,
        Some(_) => {
            eprintln!("second_known [CASCADES]");
            return ExitCode::from(2);
        }
    };
    println!("| family | unknown inputs | outputs asked | certain by exact sets | certain by two rails a signal | only by exact sets |");
    println!("|---|---|---|---|---|---|");
    let mut all = none();
    for each in Family::ALL {
        // Of some families none or few are accepted.
        let jobs = (0..4 * count).map(|index| job(each, SEED, index));
        let accepted = jobs.filter_map(|job| compiled(&job));
        let cascades: Vec<StoredBlock> = accepted.take(count as usize).collect();
        family(each.name(), &cascades, &mut all);
    }
    print_all("all compiled", &all);
    let mut all = none();
    for rows in Rows::ALL {
        let shape = |index: u64| Shape::ALL[index as usize % Shape::ALL.len()];
        let made = |index| cascade(shape(index), rows, SEED, index);
        let cascades: Vec<StoredBlock> = (0..count).map(made).collect();
        family(
            &format!("by hand, {} rows", rows.name()),
            &cascades,
            &mut all,
        );
    }
    print_all("all by hand", &all);
    ExitCode::SUCCESS
}
