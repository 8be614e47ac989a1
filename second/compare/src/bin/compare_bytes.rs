//! Prints what the linked archive compiles, so that two archives can be held against each other: run it with one and with
//! the other and compare the two outputs. `compare_bytes JOBS SEED` takes the jobs 0 to JOBS - 1 of each family and prints for
//! each a line
//!
//!     FAMILY INDEX REFUSAL DIGEST
//!
//! REFUSAL is 0 for an accepted job. DIGEST, sixteen digits in base 16, is made of every field of the answer, the twenty widths
//! and all of the node table, the record buffer and the row memory after the call. Each is lent long enough for any job, with
//! old contents that go by family, seed and index alone; so a byte that one archive keeps and the other writes shows too.

use proved::{compile, NODE_WORDS, ROW_BYTES, WIDTHS};
use second::generate::{job, Family, Random};
use std::io::{self, Write};
use std::process::ExitCode;

/// Two lists of as many numbers that differ in one have different digests.
struct Digest(u64);

impl Digest {
    fn number(&mut self, number: u64) {
        self.0 = (self.0 ^ number).wrapping_mul(0x9E37_79B9_7F4A_7C15);
        self.0 ^= self.0 >> 32;
    }

    /// Bytes in eights.
    fn bytes(&mut self, bytes: &[u8]) {
        for eight in bytes.chunks(8) {
            let number = eight.iter().rev().fold(0, |n, &b| n << 8 | u64::from(b));
            self.number(number);
        }
    }

    /// Words in fours.
    fn words(&mut self, words: &[u16]) {
        for four in words.chunks(4) {
            let number = four.iter().rev().fold(0, |n, &w| n << 16 | u64::from(w));
            self.number(number);
        }
    }
}

/// The memories lent.
struct Memories {
    nodes: Vec<u16>,
    records: Vec<u8>,
    rows: Vec<u8>,
    widths: [u16; WIDTHS],
}

impl Memories {
    fn fill(&mut self, random: &mut Random) {
        for four in self.nodes.chunks_mut(4).chain(self.widths.chunks_mut(4)) {
            let number = random.next();
            for (place, word) in four.iter_mut().enumerate() {
                *word = (number >> (16 * place)) as u16;
            }
        }
        for eight in self.records.chunks_mut(8).chain(self.rows.chunks_mut(8)) {
            let number = random.next().to_le_bytes();
            eight.copy_from_slice(&number[..eight.len()]);
        }
    }

    fn line(&mut self, family: Family, seed: u64, index: u64) -> String {
        self.fill(&mut Random::new(400 + family as u64, seed, index));
        let answer = compile(
            &job(family, seed, index),
            &mut self.nodes,
            &mut self.records,
            &mut self.rows,
            &mut self.widths,
        );
        let mut digest = Digest(0);
        digest.number(answer.refusal.into());
        digest.number(answer.nodes.into());
        digest.number(answer.cells.into());
        digest.number(answer.rows.into());
        digest.number(answer.bits.into());
        digest.words(&self.widths);
        digest.words(&self.nodes);
        digest.bytes(&self.records);
        digest.bytes(&self.rows);
        let (name, refusal) = (family.name(), answer.refusal);
        format!("{name} {index} {refusal} {:016x}", digest.0)
    }
}

fn run(jobs: u64, seed: u64) -> io::Result<()> {
    let mut memories = Memories {
        nodes: vec![0; NODE_WORDS],
        records: vec![0; 80],
        rows: vec![0; ROW_BYTES],
        widths: [0; WIDTHS],
    };
    let mut out = io::BufWriter::new(io::stdout().lock());
    for family in Family::ALL {
        for index in 0..jobs {
            writeln!(out, "{}", memories.line(family, seed, index))?;
        }
    }
    out.flush()
}

fn main() -> ExitCode {
    let arguments: Vec<String> = std::env::args().skip(1).collect();
    let numbers: Vec<u64> = arguments.iter().flat_map(|text| text.parse()).collect();
    let (2, &[jobs, seed]) = (arguments.len(), &numbers[..]) else {
        eprintln!("compare_bytes JOBS SEED");
        return ExitCode::from(2);
    };
    match run(jobs, seed) {
        Ok(()) => ExitCode::SUCCESS,
        Err(error) => {
            eprintln!("compare_bytes: {error}");
            ExitCode::FAILURE
        }
    }
}
