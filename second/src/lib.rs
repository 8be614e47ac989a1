//! The second compiler: written from the scope document alone, to hold the proved one against.

pub mod bank;
pub mod block_text;
pub mod book;
pub mod call_lines;
pub mod cases;
pub mod fast;
pub mod generate;
pub mod job;
pub mod known;
pub mod list;
pub mod move_text;
pub mod moves;
pub mod panel;
pub mod plain;
pub mod replay;
pub mod run;
pub mod stored;
pub mod tally;
