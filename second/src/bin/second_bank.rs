//! Runs the list of bank calls on standard input and prints a line for each, as `second::replay` says.

use second::call_lines::TEXT_BYTES;
use second::replay::printed;
use std::io::{self, Read, Write};

fn main() {
    let mut text = Vec::new();
    // A byte over the limit is enough to tell.
    let _ = io::stdin()
        .take(TEXT_BYTES as u64 + 1)
        .read_to_end(&mut text);
    // With nobody left to read the answers there is nobody to tell.
    let _ = io::stdout().write_all(printed(&text).as_bytes());
}
