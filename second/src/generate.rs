//! The seeded generator: jobs by family, sheets in other arrangements, lent memories, blocks, cascades made by hand, such with one-byte
//! rows, periods with phases, and lists of bank calls, also as text.

mod arranged;
mod blocks;
mod calls;
mod cascades;
mod damaged;
mod dense;
mod dependence;
mod one_byte;
mod pending;
mod periods;
mod plain;
mod rails;
mod random;
mod scans;
mod sheet;
mod stop;
mod stop_faults;
mod texts;
mod wide;

pub use arranged::arranged;
pub use blocks::{block, compiled, compiled_with_totals, damage, row_bytes, StoredBlock};
pub use calls::calls;
pub use cascades::{cascade, known_but, longest_in_text, made, over_limit, Over, Rows, Shape};
pub use damaged::Fault;
pub use one_byte::{at_most, damage_one_byte, low_bytes, one_byte, Room};
pub use periods::{right_period, Period, LARGE, RIGHT, WRONG};
pub use random::Random;
pub use scans::{scans, Scans};
pub use texts::{
    bad_line, call_line, passed_over, period_spelt, respaced, respelt, text, BAD_LINES, BAD_MEMORY,
};

use crate::job::{Job, Lent, Node};
use plain::Free;
use sheet::Standing;

/// A kind of job. In all but those of `REFUSED` job and sheet are in order (no refusal 1 to 6).
/// The numbers drawn go by a family's place here, so a new one comes last.
#[derive(Clone, Copy, Debug, PartialEq, Eq)]
pub enum Family {
    /// n 1 to 5, m 1 to 4, most outputs forced for most words.
    SmallFewFree,
    /// The same sizes, most outputs free.
    SmallManyFree,
    /// The same sizes, few named inputs, outputs anywhere below those named for them.
    SmallOrders,
    /// Small jobs with one or two faults; the kinds of `Fault` come round with the index.
    SmallDamaged,
    /// n 6 to 9, m 2 to 6.
    Medium,
    /// One record with a full mask for each word, n 1 to 8, outputs at the bottom.
    FullRows,
    /// n 12, m 8, up to 256 records, most words forced.
    LimitFewFree,
    /// n 12, m 8, up to 256 records, most words free.
    LimitManyFree,
    /// 512 different columns at some height before its merge, and nowhere more.
    Columns512,
    /// 513 different columns at some height before its merge.
    Columns513,
    /// 500 to 520 different columns at some height before its merge, and nowhere more.
    ColumnsAround,
    /// K or L or both one too small for any cut list.
    Tight,
    /// K and L the least for which there is a cut list.
    Loose,
    /// One record with a full mask for each word, n 1 to 8, outputs anywhere below the inputs on which they depend.
    FullRowsAnywhere,
    /// Records that name inputs on which the output does not depend, n 1 to 8, outputs as in `FullRowsAnywhere`.
    NamedNotDependent,
    /// The sheets of the last two, n up to 12, with one output above an input on which it depends: refused with 6.
    DependentAbove,
    /// n 12, m 8, 256 records that name as in `NamedNotDependent`.
    LimitNamed,
    /// 512 different columns at some height before its merge, most pairs of them compatible, and a cover of many rounds.
    ColumnsDense,
    /// Stop records among ordinary ones, 10 to 50 % of all, n 1 to 8, m 1 to 6, outputs anywhere below the inputs on which they depend.
    StopSome,
    /// The same sizes, stop records alone.
    StopOnly,
    /// The sizes and sheets of `StopSome` with two records of one kind that clash, also where stop records cover both: refused with 5.
    StopClash,
    /// The sizes and sheets of `StopSome` with one fault, most often in a stop record: refused with 4 or 6.
    StopDamaged,
    /// n 12, m 8, 256 records, about a third of them stop records.
    LimitStop,
    /// Each cut list has a cut with 9 rails; with L 8, one job in ten, there is none.
    NineRails,
    /// Cells of up to 15 outputs, most of them over 8.
    ManyOutputs,
}

impl Family {
    /// Small jobs that the sheet layer accepts.
    pub const SMALL: [Family; 3] = [
        Family::SmallFewFree,
        Family::SmallManyFree,
        Family::SmallOrders,
    ];

    /// Jobs made to be refused by the sheet layer; a second fault may undo the first in `SmallDamaged`.
    pub const REFUSED: [Family; 4] = [
        Family::SmallDamaged,
        Family::DependentAbove,
        Family::StopClash,
        Family::StopDamaged,
    ];

    pub const ALL: [Family; 25] = [
        Family::SmallFewFree,
        Family::SmallManyFree,
        Family::SmallOrders,
        Family::SmallDamaged,
        Family::Medium,
        Family::FullRows,
        Family::LimitFewFree,
        Family::LimitManyFree,
        Family::Columns512,
        Family::Columns513,
        Family::ColumnsAround,
        Family::Tight,
        Family::Loose,
        Family::FullRowsAnywhere,
        Family::NamedNotDependent,
        Family::DependentAbove,
        Family::LimitNamed,
        Family::ColumnsDense,
        Family::StopSome,
        Family::StopOnly,
        Family::StopClash,
        Family::StopDamaged,
        Family::LimitStop,
        Family::NineRails,
        Family::ManyOutputs,
    ];

    pub fn name(self) -> &'static str {
        match self {
            Family::SmallFewFree => "small-few-free",
            Family::SmallManyFree => "small-many-free",
            Family::SmallOrders => "small-orders",
            Family::SmallDamaged => "small-damaged",
            Family::Medium => "medium",
            Family::FullRows => "full-rows",
            Family::LimitFewFree => "limit-few-free",
            Family::LimitManyFree => "limit-many-free",
            Family::Columns512 => "columns-512",
            Family::Columns513 => "columns-513",
            Family::ColumnsAround => "columns-around",
            Family::Tight => "tight",
            Family::Loose => "loose",
            Family::FullRowsAnywhere => "full-rows-anywhere",
            Family::NamedNotDependent => "named-not-dependent",
            Family::DependentAbove => "dependent-above",
            Family::LimitNamed => "limit-named",
            Family::ColumnsDense => "columns-dense",
            Family::StopSome => "stop-some",
            Family::StopOnly => "stop-only",
            Family::StopClash => "stop-clash",
            Family::StopDamaged => "stop-damaged",
            Family::LimitStop => "limit-stop",
            Family::NineRails => "nine-rails",
            Family::ManyOutputs => "many-outputs",
        }
    }

    pub fn from_name(name: &str) -> Option<Family> {
        Family::ALL.into_iter().find(|family| family.name() == name)
    }
}

/// The job of this family, seed and index: always the same one.
pub fn job(family: Family, seed: u64, index: u64) -> Job {
    let random = &mut Random::new(family as u64, seed, index);
    match family {
        Family::SmallFewFree => plain::small(random, Free::Few, None),
        Family::SmallManyFree => plain::small(random, Free::Many, None),
        Family::SmallOrders => {
            let free = random.pick(&[Free::Few, Free::Many]);
            plain::small(random, free, Some(Standing::Anywhere))
        }
        Family::SmallDamaged => damaged::damaged(random, index),
        Family::Medium => plain::medium(random),
        Family::FullRows => plain::full_rows(random),
        Family::LimitFewFree => plain::at_limits(random, Free::Few),
        Family::LimitManyFree => plain::at_limits(random, Free::Many),
        Family::Columns512 => wide::wide(random, 512),
        Family::Columns513 => wide::wide(random, 513),
        Family::ColumnsAround => {
            let columns = random.within(500, 520);
            wide::wide(random, columns)
        }
        Family::Tight => pending::pending(random, true),
        Family::Loose => pending::pending(random, false),
        Family::FullRowsAnywhere => dependence::full_rows_anywhere(random),
        Family::NamedNotDependent => dependence::named_not_dependent(random),
        Family::DependentAbove => dependence::dependent_above(random),
        Family::LimitNamed => dependence::limit_named(random),
        Family::ColumnsDense => dense::dense(random),
        Family::StopSome => stop::stop_some(random),
        Family::StopOnly => stop::stop_only(random),
        Family::StopClash => stop_faults::stop_clash(random, index),
        Family::StopDamaged => stop_faults::stop_damaged(random, index),
        Family::LimitStop => stop::limit_stop(random),
        Family::NineRails => rails::nine_rails(random),
        Family::ManyOutputs => rails::many_outputs(random),
    }
}

/// A length too short, often by one, exact, or too long.
fn length(random: &mut Random, needed: usize) -> usize {
    match random.below(10) {
        0 => needed.saturating_sub(1),
        1 => {
            let any = random.within(needed / 2, needed);
            random.pick(&[needed.saturating_sub(1), needed / 2, any])
        }
        2..=6 => needed,
        7 => needed + 1,
        _ => needed + random.within(1, 40),
    }
}

/// Memory to lend for a job that needs so many nodes, record bytes and row bytes, two a row: random old contents,
/// each of the three too short, exact or too long.
pub fn lent(job: &Job, seed: u64, index: u64, needed: (usize, usize, usize)) -> Lent {
    let stream = job
        .order
        .iter()
        .chain(&job.sheet)
        .fold(300u64, |sum, byte| {
            sum.wrapping_mul(257).wrapping_add(u64::from(*byte))
        });
    let random = &mut Random::new(stream, seed, index);
    let node_count = length(random, needed.0);
    let record_bytes = length(random, needed.1);
    let row_bytes = length(random, needed.2);
    Lent {
        nodes: (0..node_count)
            .map(|_| Node {
                height: random.word(),
                low: random.word(),
                high: random.word(),
            })
            .collect(),
        records: (0..record_bytes).map(|_| random.byte()).collect(),
        rows: (0..row_bytes).map(|_| random.byte()).collect(),
    }
}
