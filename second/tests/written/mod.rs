//! Small written jobs, and what both compilers make of them.

use second::job::{Answer, Job, Lent, Node};
use second::{fast, plain};

/// Memory enough for every job.
pub fn enough() -> Lent {
    Lent {
        nodes: vec![Node::default(); 10_240],
        records: vec![0x5A; 80],
        rows: vec![0xA5; 65_536],
    }
}

/// The answer and the memory after, the same by both compilers; a refusal changes nothing lent.
pub fn made(job: &Job) -> (Answer, Lent) {
    let before = enough();
    let compilers: [fn(&Job, &mut Lent) -> Answer; 2] = [plain::compile, fast::compile];
    let [one, other] = compilers.map(|compile| {
        let mut after = before.clone();
        (compile(job, &mut after), after)
    });
    assert_eq!(one.0, other.0, "{job:?}");
    assert!(one.1 == other.1, "lent memory differs: {job:?}");
    if matches!(one.0, Answer::Refused(_)) {
        assert!(one.1 == before, "a refusal changed lent memory: {job:?}");
    }
    one
}

/// The refusal, 0 for none.
pub fn refusal(job: &Job) -> u8 {
    match made(job).0 {
        Answer::Accepted(_) => 0,
        Answer::Refused(number) => number,
    }
}

/// A record: tested inputs, their values, outputs forced to 0, outputs forced to 1, byte 6.
pub type Line = (u16, u16, u8, u8, u8);

/// A job with cells large enough for any.
pub fn written(n: u64, m: u64, order: &[u8], lines: &[Line]) -> Job {
    let mut sheet = Vec::new();
    for &(mask, values, zeros, ones, kind) in lines {
        sheet.extend(mask.to_le_bytes());
        sheet.extend(values.to_le_bytes());
        sheet.extend([zeros, ones, kind, 0]);
    }
    Job {
        inputs: n,
        outputs: m,
        cell_inputs: 12,
        cell_outputs: 8,
        order: order.to_vec(),
        sheet,
    }
}
