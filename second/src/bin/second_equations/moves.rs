//! Moves of small cascades between one-byte rows and two-byte rows, as equations.

use super::bytes;
use second::generate::{
    at_most, block, compiled, damage, damage_one_byte, job, low_bytes, row_bytes, Family, Random,
    Room, StoredBlock,
};
use second::moves::Way;
use second::stored::cells;
use std::collections::BTreeMap;

pub const HEAD: &str = "use Rattle.stored_spec.specs.RowBytes.{rows_of}
use Rattle.stored_spec.specs.ReadWrite.{Written}
use Rattle.row_forms_spec.specs.Moves.{over_eight, move, widen, narrow}
";

/// What a proof unfolds beside the definitions of the other layers.
pub const OPENED: &str = " rows_of over_eight move widen narrow";

/// The answers: 0, 10, 11 and 12 each way, and 15 going back.
const KINDS: usize = 9;

/// Few enough records and rows, two bytes each, to compute with.
fn small((records, rows): &StoredBlock) -> bool {
    records.len() <= 48 && rows.len() <= 48
}

/// Two or three cells; the last but one has 5 to 12 outputs, 5 to 8 of them variables.
fn around_eight(random: &mut Random) -> StoredBlock {
    let outputs = random.permutation(8);
    let (upper, lower) = outputs.split_at(random.within(5, 8));
    let mut records = Vec::new();
    if random.coin() {
        records.extend([9, 1, random.below(3) as u8, 0]);
    }
    if random.coin() {
        records.extend([random.below(9) as u8, 0, 0, 0]);
    }
    records.extend(upper.iter().flat_map(|output| [128 + output, 0, 0, 0]));
    let last = records.len() - 4;
    (records[last + 1], records[last + 2]) = (1, random.below(5) as u8);
    let below = lower.first().map_or(10, |output| 128 + output);
    records.extend([below, 1, 0, 0]);
    let cells = cells(&records).expect("well formed");
    let rows: Vec<u16> = cells
        .iter()
        .flat_map(|cell| vec![((1u32 << cell.output_count()) - 1) as u16; cell.rows])
        .map(|most| random.value(most))
        .collect();
    (records, row_bytes(&rows))
}

/// A well-formed cascade with two-byte rows, made by hand or compiled.
fn cascade(random: &mut Random, seed: u64, index: u64) -> Option<StoredBlock> {
    let found = match index % 4 {
        0 => block(seed, index),
        1 => at_most(8, seed, 6 * index),
        2 => around_eight(random),
        _ => compiled(&job(Family::SmallOrders, seed, index))?,
    };
    small(&found).then_some(found)
}

/// The form that goes this way, one in four damaged, or the other form.
fn stored(random: &mut Random, way: Way, wide: StoredBlock) -> StoredBlock {
    let narrow = (wide.0.clone(), low_bytes(&wide.1));
    let (own, other) = match way {
        Way::Widen => (narrow, wide),
        Way::Narrow => (wide, narrow),
    };
    match (random.below(20), way) {
        (0, _) => other,
        (1..=5, Way::Widen) => damage_one_byte(random.next(), 0, &own),
        (1..=5, Way::Narrow) => damage(random.next(), 0, &own),
        _ => own,
    }
}

/// The equation over memories of any length, and the answer.
fn equation(random: &mut Random, way: Way, (records, rows): &StoredBlock) -> (String, u8) {
    let mut lent = |needed: usize| random.pick(&Room::ALL).memory(random, needed);
    let (mut to_records, mut to_rows) = (lent(records.len()), lent(way.row_bytes(rows.len())));
    let input = [records, rows, &to_records, &to_rows].map(|list| bytes(list));
    let answer = way.run(records, rows, &mut to_records, &mut to_rows);
    let equation = format!(
        "{} {}\n    ≡ record {{ answer = {answer}; records = {}; rows = {} }}",
        way.name(),
        input.join(" "),
        bytes(&to_records),
        bytes(&to_rows)
    );
    (equation, answer)
}

/// So many moves, the same number of each answer each way as far as it goes.
pub fn equations(seed: u64, wanted: usize) -> (Vec<String>, BTreeMap<String, usize>) {
    let (mut equations, mut kinds) = (Vec::new(), BTreeMap::<String, usize>::new());
    for index in 0..400_000 {
        if equations.len() == wanted {
            break;
        }
        let random = &mut Random::new(203, seed, index);
        let Some(wide) = cascade(random, seed, index) else {
            continue;
        };
        let way = random.pick(&Way::ALL);
        let stored = stored(random, way, wide);
        let (equation, answer) = equation(random, way, &stored);
        let count = kinds.entry(format!("{} {answer}", way.name())).or_default();
        if *count < wanted.div_ceil(KINDS) {
            *count += 1;
            equations.push(equation);
        }
    }
    (equations, kinds)
}
