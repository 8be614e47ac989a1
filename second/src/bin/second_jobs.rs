//! Prints generated jobs: lines of hex, the family names, or one job as the bytes the listing program reads.

use second::generate::{job, Family};
use second::job::Job;
use std::io::Write;
use std::process::ExitCode;

const USAGE: &str = "usage: second_jobs FAMILY SEED FIRST COUNT
       second_jobs --families
       second_jobs --raw FAMILY SEED INDEX";

fn hex(bytes: &[u8]) -> String {
    if bytes.is_empty() {
        return "-".to_string();
    }
    bytes.iter().map(|byte| format!("{byte:02x}")).collect()
}

fn line(job: &Job) -> String {
    let (n, m, k, l) = (job.inputs, job.outputs, job.cell_inputs, job.cell_outputs);
    format!("{n} {m} {k} {l} {} {}\n", hex(&job.order), hex(&job.sheet))
}

fn raw(job: &Job) -> Result<Vec<u8>, String> {
    let mut bytes = Vec::new();
    for number in [job.inputs, job.outputs, job.cell_inputs, job.cell_outputs] {
        let byte = u8::try_from(number).map_err(|_| format!("{number} does not fit a byte"))?;
        bytes.push(byte);
    }
    bytes.extend(&job.order);
    bytes.extend(&job.sheet);
    Ok(bytes)
}

fn family(name: &str) -> Result<Family, String> {
    Family::from_name(name).ok_or_else(|| format!("no family {name}"))
}

fn number(text: &str) -> Result<u64, String> {
    text.parse().map_err(|_| format!("not a number: {text}"))
}

/// Hands all output to `write`, piece by piece, until `write` answers false.
fn run(arguments: &[&str], write: &mut dyn FnMut(&[u8]) -> bool) -> Result<(), String> {
    match arguments {
        ["--families"] => {
            for family in Family::ALL {
                write(format!("{}\n", family.name()).as_bytes());
            }
        }
        ["--raw", name, seed, index] => {
            let (family, seed, index) = (family(name)?, number(seed)?, number(index)?);
            write(&raw(&job(family, seed, index))?);
        }
        [name, seed, first, count] => {
            let (family, seed) = (family(name)?, number(seed)?);
            let (first, count) = (number(first)?, number(count)?);
            let end = first.checked_add(count).ok_or("FIRST + COUNT too large")?;
            for index in first..end {
                if !write(line(&job(family, seed, index)).as_bytes()) {
                    break;
                }
            }
        }
        _ => return Err(USAGE.to_string()),
    }
    Ok(())
}

fn main() -> ExitCode {
    let given: Vec<String> = std::env::args_os()
        .skip(1)
        .map(|argument| argument.to_string_lossy().into_owned())
        .collect();
    let arguments: Vec<&str> = given.iter().map(String::as_str).collect();
    let mut out = std::io::BufWriter::new(std::io::stdout().lock());
    let mut written = true;
    let result = run(&arguments, &mut |bytes| {
        written &= out.write_all(bytes).is_ok();
        written
    });
    if let Err(message) = result {
        // Standard error may be closed; then there is nobody to tell.
        let _ = writeln!(std::io::stderr(), "second_jobs: {message}");
        return ExitCode::from(2);
    }
    if !written || out.flush().is_err() {
        return ExitCode::FAILURE;
    }
    ExitCode::SUCCESS
}
