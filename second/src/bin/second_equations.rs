//! Writes random small jobs, lists of bank calls, damaged states and moves between one-byte and two-byte rows as equations of the
//! Rattle definitions, each with what the second compiler, bank, book and moves say: `second_equations FOLDER SEED JOBS LISTS STATES
//! [MOVES]`, with no moves where their number is not given. The folder becomes the files of a crate.

#[path = "second_equations/moves.rs"]
mod moves;

use second::bank::{admit_every, latch, new_bank, step, Bank, Handed, Scan, Step, NOT_SET};
use second::book::{Book, Call, Outputs, Said};
use second::generate::{block, calls, job, lent, Family, StoredBlock, RIGHT};
use second::job::{Answer, Job, Lent, Node};
use second::plain;
use std::collections::BTreeMap;
use std::fmt::Write as _;
use std::path::Path;
use std::process::ExitCode;
use std::{env, fs, io};

const FAMILIES: [Family; 14] = [
    Family::SmallOrders,
    Family::SmallFewFree,
    Family::SmallManyFree,
    Family::SmallDamaged,
    Family::Tight,
    Family::Loose,
    Family::FullRows,
    Family::FullRowsAnywhere,
    Family::NamedNotDependent,
    Family::DependentAbove,
    Family::StopSome,
    Family::StopOnly,
    Family::StopClash,
    Family::StopDamaged,
];

const EQUATIONS_PER_FILE: usize = 20;

fn list<T>(items: impl IntoIterator<Item = T>, text: impl Fn(T) -> String) -> String {
    let mut out = String::from("(");
    for item in items {
        let _ = write!(out, "{} ∷ ", text(item));
    }
    out + "[])"
}

fn bytes(items: &[u8]) -> String {
    list(items, |b| b.to_string())
}

fn nodes(items: &[Node]) -> String {
    list(items, |n| format!("node {} {} {}", n.height, n.low, n.high))
}

/// Few enough inputs, outputs and records to compute with. A number out of range or a sheet too long costs nothing.
fn small(job: &Job) -> bool {
    let variables = (job.inputs <= 4 && job.outputs <= 3) || !(1..=12).contains(&job.inputs);
    let records = job.sheet.len() <= 160 || job.sheet.len() > 2_048;
    variables && records && job.order.len() <= 12
}

/// The equation of one job, and what it is an example of: a refusal, or so many cells.
fn compile_equation(job: &Job, before: &Lent) -> (String, String) {
    let mut after = before.clone();
    let answer = plain::compile(job, &mut after);
    let (said, kind) = match answer {
        Answer::Refused(number) => (format!("refused {number}"), format!("refused {number}")),
        Answer::Accepted(t) => (
            format!(
                "accepted record {{ nodes = {}; cells = {}; rows = {}; bits = {}; widths = {} }}",
                t.nodes,
                t.cells,
                t.rows,
                t.bits,
                list(&t.widths[..job.order.len()], |w| w.to_string())
            ),
            format!("{} cells", t.cells),
        ),
    };
    let equation = format!(
        "compile {} {} {} (record {{ n = {}; m = {}; K = {}; L = {}; order = {} }}) {}\n    ≡ record {{ answer = {said}; nodes = {}; records = {}; rows = {} }}",
        nodes(&before.nodes), bytes(&before.records), bytes(&before.rows),
        job.inputs, job.outputs, job.cell_inputs, job.cell_outputs, bytes(&job.order), bytes(&job.sheet),
        nodes(&after.nodes), bytes(&after.records), bytes(&after.rows)
    );
    (equation, kind)
}

fn call_text(call: &Call) -> String {
    match call {
        Call::Admit {
            records,
            rows,
            period,
            phase,
        } => {
            let (records, rows) = (bytes(records), bytes(rows));
            format!("admission (handed {records} {rows} {period} {phase})")
        }
        Call::Latch(words) => format!("latching {}", list(words, |w| w.to_string())),
        Call::Step => "stepping".into(),
    }
}

fn entry(said: Said, outputs: &Outputs) -> String {
    let said = match said {
        Said::Accepted => "accepted".into(),
        Said::Refused(number) => format!("refused {number}"),
        Said::Idle => "idle".into(),
        Said::Went { block, cell } => format!("went {block} {cell}"),
    };
    let value = |v: &Option<bool>| v.map_or(2, u8::from).to_string();
    format!(
        "record {{ answer = {said}; outputs = {} }}",
        list(outputs, |block| list(block, value))
    )
}

/// One call on the second bank.
fn made(bank: &mut Bank, scan: &mut Scan, rows: &mut [u8], call: &Call) -> Said {
    let plain = |answer: Result<(), u8>| answer.map_or_else(Said::Refused, |()| Said::Accepted);
    match call {
        Call::Admit {
            records,
            rows: bytes,
            period,
            phase,
        } => {
            let handed = Handed::new(records, bytes, (*period, *phase));
            plain(admit_every(bank, scan, rows, handed))
        }
        Call::Latch(words) => plain(latch(bank, scan, *words)),
        Call::Step => match step(bank, scan, rows) {
            Step::Went { block, cell } => Said::Went { block, cell },
            Step::Idle => Said::Idle,
            Step::Refused(number) => Said::Refused(number),
        },
    }
}

/// The equations of one list of calls, of the bank and of the book.
fn list_equations(limit: u8, row_memory: usize, calls: &[Call]) -> [String; 2] {
    let (mut bank, mut scan) = new_bank(u64::from(limit)).expect("S in range");
    let mut rows = vec![9; row_memory];
    let mut book = Book::new(limit, row_memory);
    let (mut held, mut booked) = (Vec::new(), Vec::new());
    for call in calls {
        let said = made(&mut bank, &mut scan, &mut rows, call);
        let value = |v: u8| (v != NOT_SET).then_some(v == 1);
        let outputs = scan.outputs[..usize::from(bank.count)].iter();
        held.push(entry(said, &outputs.map(|o| o.map(value)).collect()));
        let said = book.enter(call);
        booked.push(entry(said, &book.outputs()));
    }
    let calls = list(calls, call_text);
    [
        format!(
            "trace (fresh {limit} (replicate {row_memory} 9)) {calls}\n    ≡ {}",
            list(held, |e| e)
        ),
        format!(
            "book_trace {limit} {row_memory} new_book {calls}\n    ≡ {}",
            list(booked, |e| e)
        ),
    ]
}

/// Small hand-made and compiled blocks.
fn blocks(seed: u64, index: u64) -> Vec<StoredBlock> {
    let mut found: Vec<StoredBlock> = (0..200)
        .map(|k| block(seed, index * 200 + k))
        .filter(|b| b.1.len() <= 48 && b.0.len() <= 40)
        .take(2)
        .collect();
    let job = job(Family::SmallOrders, seed, index);
    let mut lent = Lent {
        nodes: vec![Node::default(); 10_240],
        records: vec![0; 80],
        rows: vec![0; 65_536],
    };
    if let Answer::Accepted(totals) = plain::compile(&job, &mut lent) {
        if totals.rows <= 32 {
            lent.records.truncate(4 * job.order.len());
            lent.rows.truncate(2 * totals.rows);
            found.push((lent.records, lent.rows));
        }
    }
    found
}

/// A bank and scan state with one or two fields changed, and whether the second bank gives 12 of it.
fn state_equation(seed: u64, index: u64) -> String {
    let (mut bank, mut scan) = new_bank(1 + index % 9).expect("S in range");
    let mut rows = vec![0; 800];
    let pick = (seed ^ index).wrapping_mul(0x9E37_79B9_7F4A_7C15) >> 32;
    for (place, (records, bytes)) in blocks(seed, index).iter().enumerate() {
        let period = RIGHT[(pick >> (4 * place)) as usize % 15];
        let handed = Handed::new(records, bytes, period);
        let _ = admit_every(&mut bank, &mut scan, &mut rows, handed);
    }
    for _ in 0..1 + pick % 9 {
        let _ = latch(&bank, &mut scan, [0x0A5A; 8]);
    }
    for _ in 0..index % 4 {
        step(&bank, &mut scan, &rows);
    }
    for change in [pick % 14, (pick >> 8) % 29] {
        let small = (pick >> 16) as u8 % 5;
        match change {
            0 => bank.limit = [0, 1, 2, 255, 256, 65_535][usize::from(small)],
            1 => bank.count = bank.count.wrapping_add(small),
            2 => bank.lengths[usize::from(small)] = (pick >> 20) as u8 % 23,
            3 => bank.records[0][usize::from(small) * 4 % 12] = (pick >> 20) as u8 % 14,
            4 => bank.records[0][1 + usize::from(small) % 3] = (pick >> 20) as u8 % 3,
            5 => scan.running = !scan.running,
            6 => scan.block = small,
            7 => scan.cell = small,
            8 => scan.rail = (pick >> 20) as u16 % 9,
            9 => scan.words = [0xFFFF; 8],
            10 => scan.outputs = [[77; 8]; 8],
            11 => scan.number = [0, 1, 7, 8, 255][usize::from(small)],
            12 => bank.periods[usize::from(small) % 3] = [0, 2, 3, 8, 16][usize::from(small)],
            13 => bank.phases[usize::from(small) % 3] = [0, 1, 2, 4, 8][usize::from(small)],
            _ => {}
        }
    }
    let formed = latch(&bank, &mut scan.clone(), [0; 8]).is_ok();
    let numbers = |items: &[u16]| list(items, |w| w.to_string());
    format!(
        "formed (record {{ limit = {}; count = {}; lengths = {}; records = {}; periods = {}; phases = {} }}) (record {{ running = {}; block = {}; cell = {}; rail = {}; words = {}; outputs = {}; number = {} }}) ≡ {formed}",
        bank.limit, bank.count, bytes(&bank.lengths), bytes(&bank.records.concat()), bytes(&bank.periods), bytes(&bank.phases),
        scan.running, scan.block, scan.cell, scan.rail, numbers(&scan.words), bytes(&scan.outputs.concat()), scan.number
    )
}

const HEAD: &str = "use mathlib.Core.Path.{◌≡◌, refl}
use mathlib.Core.Bool.{Bool, true, false}
use mathlib.Core.List.{List, [], ◌∷◌}
use Prim.Native.Nat.{ℕ}
use lib.ListN.{replicate}
use Rattle.sheet_spec.specs.Opened.{sheet_opened}
use Rattle.reduction_spec.specs.Opened.{reduction_opened}
use Rattle.reduction_spec.specs.declared.Node.{Node}
use Rattle.cutting_spec.specs.Opened.{cutting_opened}
use Rattle.bank_spec.specs.Opened.{bank_opened}
";
const COMPILER: &str =
    "use Rattle.cutting_spec.specs.Compile.{compile, Compiled, Totals, accepted, refused}

abbrev node : ℕ → ℕ → ℕ → Node
node h l r = record { height = h; low = l; high = r }
";
const BANK: &str = "use Rattle.bank_spec.specs.State.{fresh, formed}
use Rattle.bank_spec.specs.Calls.{accepted, refused, idle, went, handed}
use Rattle.bank_spec.specs.Book.{new_book}
use Rattle.bank_spec.specs.CallLists.{admission, latching, stepping, Entry, trace, book_trace}
";

/// Writes the equations as proof files, and their names for the crate's list of modules.
fn write(
    folder: &Path,
    name: &str,
    (head, opened): (&str, &str),
    equations: &[String],
) -> io::Result<Vec<String>> {
    let mut names = Vec::new();
    for (place, part) in equations.chunks(EQUATIONS_PER_FILE).enumerate() {
        let module = format!("{name}{place}");
        let mut text = format!("{HEAD}{head}");
        for (i, equation) in part.iter().enumerate() {
            let _ = write!(
                text,
                "\npub e{i} : {equation}\nunfolding sheet_opened reduction_opened cutting_opened bank_opened{opened}\ne{i} = refl\n"
            );
        }
        fs::write(folder.join(format!("proofs/{module}.antt")), text)?;
        names.push(module);
    }
    Ok(names)
}

/// So many jobs, the same number of each kind as far as it goes.
fn job_equations(seed: u64, wanted: usize) -> (Vec<String>, BTreeMap<String, usize>) {
    let (mut equations, mut kinds) = (Vec::new(), BTreeMap::<String, usize>::new());
    let most = wanted / 10;
    for index in 0.. {
        let family = FAMILIES[index as usize % FAMILIES.len()];
        let job = job(family, seed, index);
        if equations.len() == wanted || index > 200_000 {
            break;
        }
        if !small(&job) {
            continue;
        }
        let mut ample = Lent {
            nodes: vec![Node::default(); 10_240],
            records: vec![0; 80],
            rows: vec![0; 65_536],
        };
        let needed = match plain::compile(&job, &mut ample) {
            Answer::Accepted(t) => (t.nodes, 4 * job.order.len(), 2 * t.rows),
            Answer::Refused(_) => (2, 2, 2),
        };
        if needed.0 > 40 || needed.2 > 80 {
            continue;
        }
        let (equation, kind) = compile_equation(&job, &lent(&job, seed, index, needed));
        let count = kinds.entry(kind).or_default();
        if *count < most {
            *count += 1;
            equations.push(equation);
        }
    }
    (equations, kinds)
}

fn run(folder: &Path, seed: u64, counts: [usize; 4]) -> io::Result<()> {
    let [jobs, lists, states, moves] = counts;
    fs::create_dir_all(folder.join("src"))?;
    fs::create_dir_all(folder.join("proofs"))?;
    fs::write(folder.join("src/lib.rt"), "// Equations alone.\n")?;
    let (compiled, kinds) = job_equations(seed, jobs);
    let mut called = Vec::new();
    for index in 0..lists as u64 {
        let (limit, row_memory, mut list) = calls(seed, index, &blocks(seed, index));
        list.truncate(14);
        called.extend(list_equations(limit, row_memory.min(300), &list));
    }
    let damaged: Vec<String> = (0..states as u64)
        .map(|i| state_equation(seed, i))
        .collect();
    println!("{} jobs: {kinds:?}", compiled.len());
    println!("{lists} lists of calls, each of bank and book");
    let formed = damaged.iter().filter(|e| e.ends_with("true")).count();
    println!("{states} states, {formed} of them well formed");
    let (moved, kinds) = moves::equations(seed, moves);
    if moves > 0 {
        println!("{} moves: {kinds:?}", moved.len());
    }
    let mut names = write(folder, "Jobs", (COMPILER, ""), &compiled)?;
    names.extend(write(folder, "Lists", (BANK, ""), &called)?);
    names.extend(write(folder, "States", (BANK, ""), &damaged)?);
    let opened = (moves::HEAD, moves::OPENED);
    names.extend(write(folder, "Moves", opened, &moved)?);
    let modules: String = names.iter().map(|n| format!("pub mod {n}\n")).collect();
    fs::write(folder.join("proofs/Lib.antt"), modules)
}

fn main() -> ExitCode {
    let arguments: Vec<String> = env::args().skip(1).collect();
    let mut numbers: Vec<u64> = arguments.iter().skip(1).flat_map(|a| a.parse()).collect();
    if arguments.len() == 5 {
        numbers.push(0);
    }
    let (Some(folder), &[seed, jobs, lists, states, moves]) = (arguments.first(), &numbers[..])
    else {
        eprintln!("second_equations FOLDER SEED JOBS LISTS STATES [MOVES]");
        return ExitCode::from(2);
    };
    let counts = [jobs, lists, states, moves].map(|count| count as usize);
    match run(Path::new(folder), seed, counts) {
        Ok(()) => ExitCode::SUCCESS,
        Err(error) => {
            eprintln!("{error}");
            ExitCode::FAILURE
        }
    }
}
