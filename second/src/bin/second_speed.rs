//! Times fast, by phase and in all, and plain, on families of the generator. Arguments: jobs for each family
//! (100 if none is given), then the families' names (all those beyond the small ones if none is given).

use second::fast::{cut, read, reduce, Compiler};
use second::generate::{job, Family};
use second::job::{Answer, Lent, Node};
use second::plain;
use std::process::ExitCode;
use std::time::Instant;

const SEED: u64 = 1;

/// Microseconds of one measure over many jobs.
#[derive(Default)]
struct Times {
    sum: f64,
    worst: f64,
    count: u32,
}

impl Times {
    fn add(&mut self, began: Instant) {
        let time = began.elapsed().as_secs_f64() * 1e6;
        self.sum += time;
        self.worst = self.worst.max(time);
        self.count += 1;
    }

    fn text(&self) -> String {
        let mean = self.sum / f64::from(self.count.max(1));
        format!("{mean:.1} / {:.1}", self.worst)
    }
}

fn time(family: Family, jobs: u64) {
    let mut lent = Lent {
        nodes: vec![Node::default(); 10_240],
        records: vec![0; 80],
        rows: vec![0; 65_536],
    };
    let mut compiler = Compiler::new();
    let mut times: [Times; 5] = Default::default();
    let mut accepted = 0;
    for index in 0..jobs {
        let job = job(family, SEED, index);
        let [sheet, reduction, cutting, whole, literal] = &mut times;
        let began = Instant::now();
        let answer = compiler.compile(&job, &mut lent);
        whole.add(began);
        accepted += u32::from(matches!(answer, Answer::Accepted(_)));

        let Compiler {
            table,
            reducer,
            diagram,
            blocks,
        } = &mut compiler;
        let began = Instant::now();
        let done = read(&job, table);
        sheet.add(began);
        if done.is_ok() {
            let began = Instant::now();
            let done = reduce(table, reducer, diagram);
            reduction.add(began);
            if done.is_ok() {
                let began = Instant::now();
                let _ = cut(table, diagram, blocks, &mut lent);
                cutting.add(began);
            }
        }

        let began = Instant::now();
        assert_eq!(plain::compile(&job, &mut lent), answer);
        literal.add(began);
    }
    let [sheet, reduction, cutting, whole, literal] = times.each_ref().map(Times::text);
    println!(
        "| {} | {jobs} | {accepted} | {sheet} | {reduction} | {cutting} | {whole} | {literal} |",
        family.name()
    );
}

fn main() -> ExitCode {
    let mut arguments = std::env::args().skip(1);
    let jobs = match arguments.next().map(|text| text.parse::<u64>()) {
        None => 100,
        Some(Ok(jobs)) => jobs,
        Some(Err(_)) => {
            eprintln!("second_speed [JOBS [FAMILY ..]]");
            return ExitCode::from(2);
        }
    };
    let mut families = Vec::new();
    for name in arguments {
        match Family::from_name(&name) {
            Some(family) => families.push(family),
            None => {
                eprintln!("no family {name}");
                return ExitCode::from(2);
            }
        }
    }
    if families.is_empty() {
        let larger = |family: &Family| !family.name().starts_with("small");
        families = Family::ALL.into_iter().filter(larger).collect();
    }
    println!("Microseconds a job, mean / worst.");
    println!("| family | jobs | accepted | fast: sheet | reduction | cutting | in all | plain |");
    println!("|---|---|---|---|---|---|---|---|");
    for family in families {
        time(family, jobs);
    }
    ExitCode::SUCCESS
}
