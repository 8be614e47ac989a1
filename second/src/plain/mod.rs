//! The literal compiler: every rule of the scope document as it is said, on a table of all words.

mod cover;
mod cuts;
mod function;
mod sheet;
mod written;

use crate::job::{Answer, Job, Lent, Node, Totals};
use cuts::{rails, sum, Cell, Cutting};

pub use cover::{compatible, Clique};
pub use function::{Columns, Function, FREE};
pub use written::nodes;

/// The most columns a height may have before its merge.
const MOST_COLUMNS: usize = 512;

/// What newcomers write. Used by tests only: a job on which a mistake shows tells that the tests
/// would catch it.
#[derive(Clone, Copy, Debug, PartialEq, Eq)]
pub enum Mistake {
    /// No mistake: the compiler as it is.
    None,
    /// Free outputs filled with 0 before merging.
    FreeAsZero,
    /// Compatibility tested on the next output only, that is the topmost one of the columns. Where
    /// members of such a clique disagree, the value of the one that joined first stays.
    NextOutputOnly,
    /// Cutting greedily at the longest cell.
    GreedyCut,
    /// Each width taken as its height comes up, before the merges from there down. (Taken after its
    /// own height's merge it is final: two products of the cover hold 0 and 1 at some place.)
    WidthsBeforeLaterMerges,
    /// Of all records that name an output for a word the last in the sheet decides.
    LaterDecides,
    /// 5 where a stop record and an ordinary one force an output both ways, too.
    ClashBetweenKinds,
    /// No 5 where a stop record names the output for the words at which two ordinary ones clash.
    CoveredClash,
    /// Of the records of a kind that match a word the last in the sheet alone counts.
    LastMatching,
    /// 5 between a record and the next one in the sheet alone.
    NextRecordOnly,
    /// A row's high byte first.
    HighByteFirst,
    /// A row's low byte alone, its other byte 0.
    LowByteAlone,
    /// 11 judged as if a row took one byte. Rows for which no room is left are dropped.
    MemoryInRows,
}

/// All that an accepted job makes, before it is written into lent memory.
struct Cascade {
    nodes: Vec<Node>,
    records: Vec<u8>,
    /// The values of the rows.
    rows: Vec<u16>,
    cells: usize,
    bits: usize,
    /// The widths at heights 0 to t - 1.
    widths: Vec<usize>,
}

/// Compiles the job into the memory lent. On a refusal nothing lent changes; on acceptance memory
/// past the written part is kept.
pub fn compile(job: &Job, lent: &mut Lent) -> Answer {
    compile_with(job, lent, Mistake::None)
}

/// `compile`, with a mistake made on purpose. Used by tests only.
pub fn compile_with(job: &Job, lent: &mut Lent, mistake: Mistake) -> Answer {
    let cascade = match build(job, mistake) {
        Ok(cascade) => cascade,
        Err(number) => return Answer::Refused(number),
    };
    let row_bytes = written::row_bytes(&cascade.rows, mistake);
    let row_room = match mistake {
        Mistake::MemoryInRows => cascade.rows.len(),
        _ => row_bytes.len(),
    };
    // 9: node table shorter than the nodes. 10: record buffer under 4 x t. 11: row memory short,
    // "counted as two bytes a row".
    if lent.nodes.len() < cascade.nodes.len() {
        return Answer::Refused(9);
    }
    if lent.records.len() < cascade.records.len() {
        return Answer::Refused(10);
    }
    if lent.rows.len() < row_room {
        return Answer::Refused(11);
    }
    lent.nodes[..cascade.nodes.len()].copy_from_slice(&cascade.nodes);
    lent.records[..cascade.records.len()].copy_from_slice(&cascade.records);
    for (byte, row_byte) in lent.rows.iter_mut().zip(row_bytes) {
        *byte = row_byte;
    }
    let mut widths = [0; 20];
    for (width, &w) in widths.iter_mut().zip(&cascade.widths) {
        *width = w as u16;
    }
    Answer::Accepted(Totals {
        nodes: cascade.nodes.len(),
        cells: cascade.cells,
        rows: cascade.rows.len(),
        bits: cascade.bits,
        widths,
    })
}

/// Refusals 1 to 8, or the cascade.
fn build(job: &Job, mistake: Mistake) -> Result<Cascade, u8> {
    let mut function = sheet::read_with(job, mistake)?;
    if mistake == Mistake::FreeAsZero {
        for value in function.lines.iter_mut().flatten() {
            *value = if *value == FREE { 0 } else { *value };
        }
    }
    let before = reduce(&mut function, mistake)?;

    // "Final widths are of the function after all merges."
    let top = function.top();
    let columns: Vec<Columns> = (0..=top).map(|h| function.columns(h)).collect();
    let widths: Vec<usize> = match mistake {
        Mistake::WidthsBeforeLaterMerges => before,
        _ => columns[..top].iter().map(Columns::width).collect(),
    };

    let mut rails: Vec<usize> = widths.iter().map(|&width| rails(width)).collect();
    rails.push(0); // "At t, none."
    let cutting = Cutting {
        function: &function,
        rails: &rails,
        most_inputs: job.cell_inputs as usize,
        most_outputs: job.cell_outputs as usize,
    };
    let cuts = match mistake {
        Mistake::GreedyCut => cutting.greedy(),
        _ => cutting.choose(),
    };
    let cuts = cuts.ok_or(8)?;
    let cells = cutting.cells(&cuts);
    Ok(Cascade {
        nodes: nodes(&function, &columns),
        records: written::records(&cutting, &cuts),
        rows: written::rows(&cutting, &columns, &cuts),
        cells: cells.len(),
        bits: sum(&cells, Cell::bits),
        widths,
    })
}

/// "For h from t-1 down to 1, on the function as it then stands": refusal 7, then the merge. Answers
/// the widths at heights 0 to t - 1, each taken before its merge.
fn reduce(function: &mut Function, mistake: Mistake) -> Result<Vec<usize>, u8> {
    let mut before = vec![1; function.top()];
    for height in (1..function.top()).rev() {
        before[height] = function.columns(height).width();
        // 7: over 512 columns at some height before its merge.
        if before[height] > MOST_COLUMNS {
            return Err(7);
        }
        cover::merge(function, height, mistake == Mistake::NextOutputOnly);
    }
    Ok(before)
}

/// The sheet's own function, and the same after all merges; or the refusal, 1 to 7.
pub fn functions(job: &Job) -> Result<[Function; 2], u8> {
    let own = sheet::read(job)?;
    let mut merged = own.clone();
    reduce(&mut merged, Mistake::None)?;
    Ok([own, merged])
}

/// The number of columns at each height from t-1 down, before its own merge, up to the first that is
/// over 512. None when the job is refused with 1 to 6.
pub fn widths_before_own_merges(job: &Job) -> Option<Vec<usize>> {
    let mut function = sheet::read(job).ok()?;
    let mut widths = Vec::new();
    for height in (1..function.top()).rev() {
        widths.push(function.columns(height).width());
        if widths.last() > Some(&MOST_COLUMNS) {
            break;
        }
        cover::merge(&mut function, height, false);
    }
    Some(widths)
}

/// The columns at each height from t-1 down to 1, before its own merge, and the cliques of their cover;
/// or the refusal, 1 to 7.
pub fn covers(job: &Job) -> Result<Vec<(Columns, Vec<Clique>)>, u8> {
    let mut function = sheet::read(job)?;
    let mut covers = Vec::new();
    for height in (1..function.top()).rev() {
        let columns = function.columns(height);
        if columns.width() > MOST_COLUMNS {
            return Err(7);
        }
        let cliques = cover::merge(&mut function, height, false);
        covers.push((columns, cliques));
    }
    Ok(covers)
}

/// The refusal 1 to 6, or the table of the sheet: m lines of 2^n values (0, 1, or 2 for free). Line k
/// is the k-th output met going down the order; at place x stands its value for the word whose
/// inputs, read down the order with the topmost most significant, are the number x.
pub fn table(job: &Job) -> Result<Vec<u8>, u8> {
    Ok(sheet::read(job)?.lines.concat())
}

/// The widths at heights t-1 to 0, in this order, of the sheet's own function, no merge made. None
/// when the job is refused with 1 to 6.
pub fn widths_before_merges(job: &Job) -> Option<Vec<usize>> {
    let function = sheet::read(job).ok()?;
    let heights = (0..function.top()).rev();
    Some(heights.map(|h| function.columns(h).width()).collect())
}
