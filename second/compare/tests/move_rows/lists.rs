//! Random lists of calls as text, with rows of either form.

use super::SEED;
use second::book::Call;
use second::call_lines::TEXT_BYTES;
use second::generate::{
    at_most, bad_line, block, call_line, calls, cascade, compiled, damage, damage_one_byte, job,
    low_bytes, made, passed_over, period_spelt, Family, Random, Rows, Shape, StoredBlock,
    BAD_MEMORY,
};
use second::moves::Way;

/// The most bytes of a list that is not too long: few lists come near the longest text, which other tests look at.
const SHORT: usize = 65_528;

/// What a list holds beside calls, remarks and empty lines.
#[derive(Clone, Copy, PartialEq, Eq)]
pub enum Kind {
    /// Nothing: every block can be moved, and the list moved is not too long.
    Movable,
    /// Blocks that can't, one list in four a line that can't be read, and some lists are too long.
    Any,
}

/// Well-formed blocks, with two-byte rows: compiled and made by hand, and more with at most 8 outputs a cell for lists that go up, with
/// sixteen for those that go back.
fn blocks(random: &mut Random, way: Way, index: u64) -> Vec<StoredBlock> {
    let most = random.pick(&[40, 200, 1_000, 8_192, 23_042]);
    let family = Family::ALL[index as usize % Family::ALL.len()];
    let jobs = [
        job(family, SEED, index),
        job(Family::SmallOrders, SEED, index),
    ];
    let made = [
        made(SEED, index),
        at_most(9, SEED, index),
        at_most(8, SEED, index),
    ];
    let few = (4 * index..4 * index + 4).map(|index| block(SEED, index));
    let more = (4 * index..4 * index + 4).map(|index| match way {
        Way::Widen => at_most(8, SEED, 6 * index),
        Way::Narrow => cascade(Shape::SixteenOutputs, Rows::Sparse, SEED, index),
    });
    let all = jobs.iter().filter_map(compiled).chain(made);
    let all = all.chain(few).chain(more);
    all.filter(|(_, rows)| rows.len() <= most).collect()
}

/// An admission's block in the form that goes this way, one in twenty in the other.
fn formed(random: &mut Random, way: Way, block: StoredBlock, whole: bool) -> StoredBlock {
    let (records, rows) = block;
    let other = random.percent(5);
    match way {
        Way::Widen if !other => {
            let low = (records, low_bytes(&rows));
            match whole && random.percent(15) {
                true => damage_one_byte(random.next(), 0, &low),
                false => low,
            }
        }
        Way::Narrow if other => (records, low_bytes(&rows)),
        // The list's own damage comes to some lists alone.
        Way::Narrow if whole && random.percent(5) => damage(random.next(), 0, &(records, rows)),
        _ => (records, rows),
    }
}

fn refused(way: Way, (records, rows): &StoredBlock) -> bool {
    let mut to_rows = vec![0; way.row_bytes(rows.len())];
    way.run(records, rows, &mut records.clone(), &mut to_rows) != 0
}

/// The call's line; None for an admission that a list of this kind doesn't have.
fn line_of(
    random: &mut Random,
    way: Way,
    kind: Kind,
    call: Call,
    blocks: &[StoredBlock],
) -> Option<String> {
    let Call::Admit {
        records,
        rows,
        period,
        phase,
    } = call
    else {
        return Some(call_line(&call, random.coin()));
    };
    let block = (records, rows);
    let whole = blocks.contains(&block);
    let (records, rows) = formed(random, way, block, whole);
    if kind == Kind::Movable && refused(way, &(records.clone(), rows.clone())) {
        return None;
    }
    let call = Call::admit_every(records, rows, (period, phase));
    Some(period_spelt(random, &call_line(&call, false)))
}

/// The lines of a list whose rows go this way; the first one's number is even going back. As the program spells them but for bad ones.
pub fn list(way: Way, kind: Kind, index: u64) -> Vec<Vec<u8>> {
    let random = &mut Random::new(20 + way as u64, SEED, index);
    let blocks = blocks(random, way, index);
    let (limit, memory, calls) = calls(SEED, index, &blocks);
    let (long, bad) = match kind {
        Kind::Movable => (false, false),
        Kind::Any => (random.percent(4), random.percent(25)),
    };
    let memory = memory.min(65_536) / 2;
    let first = match way {
        Way::Widen => format!("memory {memory}"),
        Way::Narrow => format!("memory {}", 2 * memory),
    };
    let mut lines = vec![first.into_bytes(), format!("bank {limit}").into_bytes()];
    for call in calls {
        while random.percent(10) {
            lines.push(passed_over(random));
        }
        if random.percent(3) {
            lines.push(
                random
                    .pick(&[&b"bank 0"[..], b"bank 00255", b"bank 65535"])
                    .to_vec(),
            );
        }
        let line = line_of(random, way, kind, call, &blocks);
        lines.extend(line.map(String::into_bytes));
    }
    if bad && random.percent(30) {
        lines[0] = random.pick(&BAD_MEMORY).to_vec();
    } else if bad {
        let place = random.within(1, lines.len());
        lines.insert(place, bad_line(random));
    }
    if long {
        lines.push(vec![b'#'; TEXT_BYTES]);
        return lines;
    }
    let mut length = 0;
    lines.retain(|line| {
        let longer = length + line.len() + 1;
        let fits = longer <= SHORT;
        length = if fits { longer } else { length };
        fits
    });
    lines
}
