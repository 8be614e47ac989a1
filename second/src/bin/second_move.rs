//! Prints the list of bank calls on standard input with the rows of its blocks moved, as `second::move_text` says. Argument: `widen`
//! or `narrow`.

use second::call_lines::TEXT_BYTES;
use second::move_text::printed;
use second::moves::Way;
use std::io::{self, Read, Write};
use std::process::ExitCode;

fn main() -> ExitCode {
    let mut arguments = std::env::args_os().skip(1);
    let name = arguments.next().unwrap_or_default();
    let (Some(way), None) = (Way::from_name(&name.to_string_lossy()), arguments.next()) else {
        eprintln!("second_move widen|narrow");
        return ExitCode::from(2);
    };
    let mut text = Vec::new();
    // A byte over the limit is enough to tell.
    let mut input = io::stdin().lock().take(TEXT_BYTES as u64 + 1);
    if input.read_to_end(&mut text).is_err() {
        return ExitCode::FAILURE;
    }
    match io::stdout().lock().write_all(&printed(&text, way)) {
        Ok(()) => ExitCode::SUCCESS,
        Err(_) => ExitCode::FAILURE,
    }
}
