//! What program `cascade_block` prints of a job: the line that admits its cascade, for a list of bank calls (docs/REPLAY.md).

use crate::call_lines::admit_line;
use crate::job::{Answer, Job, Lent};
use crate::list::enough;
use crate::stored::{RECORD_BYTES, ROW_BYTES};

/// The records and the rows as they are stored, or "refused N".
pub fn printed(job: &Job, compile: fn(&Job, &mut Lent) -> Answer) -> String {
    let mut lent = enough();
    match compile(job, &mut lent) {
        Answer::Refused(number) => format!("refused {number}\n"),
        Answer::Accepted(totals) => {
            let records = &lent.records[..RECORD_BYTES * job.order.len()];
            let rows = &lent.rows[..ROW_BYTES * totals.rows];
            admit_line(records, rows) + "\n"
        }
    }
}
