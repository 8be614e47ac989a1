//! Reads n, m, K, L, the order and the sheet from standard input and prints the line that admits the block.

use second::{block_text, list};
use std::io::{self, Read, Write};
use std::process::ExitCode;

fn main() -> ExitCode {
    let mut input = Vec::new();
    if io::stdin().lock().read_to_end(&mut input).is_err() {
        return ExitCode::FAILURE;
    }
    let compile = list::compiler(std::env::args_os().nth(1));
    let text = block_text::printed(&list::split(&input), compile);
    match io::stdout().lock().write_all(text.as_bytes()) {
        Ok(()) => ExitCode::SUCCESS,
        Err(_) => ExitCode::FAILURE,
    }
}
