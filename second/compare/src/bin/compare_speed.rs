//! Times the proved layers against `fast`, in one run: the same jobs, both built for release. Argument: jobs for each family.

use proved::{compile, reduce, sheet_refusal, sheet_table, State};
use proved::{NODE_WORDS, ROW_BYTES, TABLE_BYTES, WIDTHS};
use second::bank::{self, Bank, Handed, Scan};
use second::fast::{self, read, Compiler};
use second::generate::{block, compiled as compiled_block, job, Family, StoredBlock};
use second::job::{Job, Lent, Node};
use second::plain;
use std::process::ExitCode;
use std::time::Instant;

/// Microseconds of one run.
fn time(run: &mut impl FnMut()) -> f64 {
    let began = Instant::now();
    run();
    began.elapsed().as_secs_f64() * 1e6
}

/// The least of five times, in microseconds.
fn least(mut run: impl FnMut()) -> f64 {
    (0..5).map(|_| time(&mut run)).fold(f64::MAX, f64::min)
}

fn sheet(name: &str, jobs: &[Job]) {
    let mut compiler = Compiler::new();
    let mut table = Box::new([0u8; TABLE_BYTES]);
    let (mut proved, mut rival, mut worst) = (0.0, 0.0, 0.0f64);
    for job in jobs {
        let one = least(|| {
            sheet_table(job, &mut table);
        });
        let other = least(|| {
            let _ = read(job, &mut compiler.table);
        });
        proved += one;
        rival += other;
        worst = worst.max(one);
    }
    let count = jobs.len().max(1) as f64;
    println!(
        "| sheet | {name} | {} | {:.1} | {:.1} | {:.2} | {worst:.1} |",
        jobs.len(),
        proved / count,
        rival / count,
        proved / rival
    );
}

/// The jobs that the sheet layer accepts.
fn accepted(jobs: &[Job]) -> Vec<&Job> {
    jobs.iter().filter(|job| sheet_refusal(job) == 0).collect()
}

/// The sheet layer and the reduction together, on jobs that the sheet layer accepts. `plain` merges at every height
/// but makes no nodes; it is run once a job, on one job in ten.
fn reduction(name: &str, jobs: &[Job]) {
    let jobs = accepted(jobs);
    if jobs.is_empty() {
        return;
    }
    let mut compiler = Compiler::new();
    let mut widths = [0u16; WIDTHS];
    let mut words = Box::new([0u16; NODE_WORDS]);
    let (mut proved, mut rival, mut worst) = (0.0, 0.0, 0.0f64);
    let (mut literal, mut literal_jobs, mut too_wide) = (0.0, 0, 0);
    for (index, job) in jobs.iter().enumerate() {
        too_wide += u32::from(reduce(job, &mut widths, &mut words).refusal == 7);
        let one = least(|| {
            reduce(job, &mut widths, &mut words);
        });
        let other = least(|| {
            let _ = read(job, &mut compiler.table).and_then(|()| {
                fast::reduce(
                    &compiler.table,
                    &mut compiler.reducer,
                    &mut compiler.diagram,
                )
            });
        });
        proved += one;
        rival += other;
        worst = worst.max(one);
        if index % 10 == 0 {
            literal_jobs += 1;
            literal += time(&mut || {
                plain::widths_before_own_merges(job);
            });
        }
    }
    let count = jobs.len() as f64;
    println!(
        "| reduction | {name} | {} | {too_wide} | {:.1} | {:.1} | {:.2} | {worst:.1} | {:.0} |",
        jobs.len(),
        proved / count,
        rival / count,
        proved / rival,
        literal / f64::from(literal_jobs)
    );
}

/// The whole compiler with memory enough, on jobs that the sheet layer accepts.
fn compiled(name: &str, jobs: &[Job]) {
    let jobs = accepted(jobs);
    if jobs.is_empty() {
        return;
    }
    let mut compiler = Compiler::new();
    let mut widths = [0u16; WIDTHS];
    let mut words = vec![0u16; NODE_WORDS];
    let (mut records, mut rows) = (vec![0u8; 80], vec![0u8; ROW_BYTES]);
    let mut lent = Lent {
        nodes: vec![Node::default(); NODE_WORDS / 3],
        records: records.clone(),
        rows: rows.clone(),
    };
    let (mut proved, mut rival, mut worst, mut refused) = (0.0, 0.0, 0.0f64, 0);
    for job in &jobs {
        let mut run = || compile(job, &mut words, &mut records, &mut rows, &mut widths);
        refused += u32::from(run().refusal != 0);
        let one = least(|| {
            run();
        });
        let other = least(|| {
            let _ = compiler.compile(job, &mut lent);
        });
        proved += one;
        rival += other;
        worst = worst.max(one);
    }
    let count = jobs.len() as f64;
    println!(
        "| compile | {name} | {} | {refused} | {:.1} | {:.1} | {:.2} | {worst:.1} |",
        jobs.len(),
        proved / count,
        rival / count,
        proved / rival,
    );
}

/// Nanoseconds a call, the least of five runs of as many calls as `run` says it makes.
fn each(mut run: impl FnMut() -> usize) -> f64 {
    (0..5)
        .map(|_| {
            let began = Instant::now();
            let calls = run();
            began.elapsed().as_secs_f64() * 1e9 / calls as f64
        })
        .fold(f64::MAX, f64::min)
}

/// The blocks in a bank of the second one, with the rows they take, all with this period and one phase after another; the proved one's
/// state is made of it.
fn admitted(blocks: &[StoredBlock], period: u64) -> (Bank, Scan, Vec<u8>) {
    let (mut bank, mut scan) = bank::new_bank(255).expect("S in range");
    let mut rows = vec![0; ROW_BYTES];
    for ((records, bytes), place) in blocks.iter().zip(0..) {
        let handed = Handed::new(records, bytes, (period, place % period));
        bank::admit_every(&mut bank, &mut scan, &mut rows, handed).expect("room");
    }
    (bank, scan, rows)
}

/// Whole scans, each latched anew, and steps with no scan: these make the test for 12 and read nothing.
fn steps(name: &str, blocks: &[StoredBlock], period: u64) {
    const SCANS: usize = 2_000;
    let (bank, mut scan, rows) = admitted(blocks, period);
    let mut state = State::of(&bank, &scan, rows.clone());
    let idle = each(|| {
        for _ in 0..SCANS {
            std::hint::black_box(state.step());
        }
        SCANS
    });
    let idle_rival = each(|| {
        for _ in 0..SCANS {
            std::hint::black_box(fast::step::step(&bank, &mut scan, &rows));
        }
        SCANS
    });
    let words = [0x5A5u16; 8];
    bank::latch(&bank, &mut scan, words).expect("formed");
    state.latch(&words);
    let (start, begun) = (scan.clone(), state.scan);
    let mut cells = 0;
    let proved = each(|| {
        let mut made = 0;
        for _ in 0..SCANS {
            state.scan = begun;
            while state.step().kind == 1 {
                made += 1;
            }
        }
        cells = made / SCANS;
        made + SCANS
    });
    let rival = each(|| {
        let mut made = 0;
        for _ in 0..SCANS {
            scan = start.clone();
            while let bank::Step::Went { .. } = fast::step::step(&bank, &mut scan, &rows) {
                made += 1;
            }
        }
        made + SCANS
    });
    println!(
        "| {name} | {} | {period} | {cells} | {proved:.0} | {rival:.0} | {:.2} | {idle:.0} | {idle_rival:.0} | {:.2} |",
        blocks.len(),
        proved / rival,
        idle / idle_rival
    );
}

/// Blocks that the compiler writes for table 1, and hand-made ones of many records.
fn banks() -> Vec<(&'static str, Vec<StoredBlock>, u64)> {
    let table1 = compiled_block(&second::cases::a()).expect("case A is accepted");
    let long: Vec<StoredBlock> = (0..)
        .map(|i| block(1, i))
        .filter(|(records, rows)| records.len() == 80 && rows.len() < 8_000)
        .take(8)
        .collect();
    vec![
        ("table 1", vec![table1.clone()], 1),
        ("table 1", vec![table1.clone(); 8], 1),
        ("table 1", vec![table1; 8], 8),
        ("20 records", long[..1].to_vec(), 1),
        ("20 records", long.clone(), 1),
        ("20 records", long, 8),
    ]
}

fn main() -> ExitCode {
    let count = match std::env::args().nth(1).map(|text| text.parse::<u64>()) {
        None => 200,
        Some(Ok(count)) => count,
        Some(Err(_)) => {
            eprintln!("compare_speed [JOBS]");
            return ExitCode::from(2);
        }
    };
    let mut rows: Vec<(&str, Vec<Job>)> = Vec::new();
    for family in Family::ALL {
        let jobs = (0..count).map(|i| job(family, 1, i)).collect();
        rows.push((family.name(), jobs));
    }
    // Sheets as long as they may be.
    let full = |family| {
        let jobs = (0..count * 20).map(move |i| job(family, 1, i));
        jobs.filter(|j: &Job| j.sheet.len() == 2_048)
            .take(count as usize)
    };
    let jobs = full(Family::LimitFewFree)
        .chain(full(Family::LimitManyFree))
        .collect();
    rows.push(("256 records, n 12, m 8", jobs));

    println!("Microseconds a job, least of five; the buffers are not cleared between runs.");
    println!("| layer | family | jobs | proved | fast | ratio | proved, worst |");
    println!("|---|---|---|---|---|---|---|");
    for (name, jobs) in &rows {
        sheet(name, jobs);
    }
    println!();
    println!("Sheet and reduction; plain in one run, on one job in ten.");
    println!(
        "| layer | family | jobs | refused 7 | proved | fast | ratio | proved, worst | plain |"
    );
    println!("|---|---|---|---|---|---|---|---|---|");
    for (name, jobs) in &rows {
        reduction(name, jobs);
    }
    println!();
    println!("The whole compiler.");
    println!("| layer | family | jobs | refused | proved | fast | ratio | proved, worst |");
    println!("|---|---|---|---|---|---|---|---|");
    for (name, jobs) in &rows {
        compiled(name, jobs);
    }
    println!();
    println!(
        "Nanoseconds a step, over whole scans with the step to Idle; then of a step with no scan."
    );
    println!("| blocks of | blocks | period | cells | proved | fast | ratio | proved, no scan | fast, no scan | ratio |");
    println!("|---|---|---|---|---|---|---|---|---|---|");
    for (name, blocks, period) in banks() {
        steps(name, &blocks, period);
    }
    ExitCode::SUCCESS
}
