//! Cascades made by hand: well formed, of several shapes, with rows of several kinds; and such that are over one limit alone.

use super::blocks::{block, row_bytes, StoredBlock};
use super::random::Random;
use crate::stored::{cells, Cell, FIRST_OUTPUT};

/// How the variables are cut into cells. Cells without inputs, cells without outputs and rail words that no word reaches are
/// common in all but `OneCell`.
#[derive(Clone, Copy, Debug, PartialEq, Eq)]
pub enum Shape {
    /// That of a `block`: 1 to 20 variables of any kind, up to 11 rails.
    Any,
    /// 12 to 20 variables, a cut below each, up to 12 rails.
    ManyCells,
    /// 12 inputs and 1 to 8 outputs.
    OneCell,
    /// All inputs, with cells of 8 upper rails and 4 inputs among others: 10,498 to 11,521 rows.
    EightRails,
    /// All outputs; the first cell has sixteen, of which 8 to 12 are rails.
    SixteenOutputs,
    /// As many rows as a well-formed cascade can have, 32,768, with 12 rails at most cuts.
    Largest,
}

impl Shape {
    pub const ALL: [Shape; 6] = [
        Shape::Any,
        Shape::ManyCells,
        Shape::OneCell,
        Shape::EightRails,
        Shape::SixteenOutputs,
        Shape::Largest,
    ];

    pub fn name(self) -> &'static str {
        match self {
            Shape::Any => "any",
            Shape::ManyCells => "many-cells",
            Shape::OneCell => "one-cell",
            Shape::EightRails => "eight-rails",
            Shape::SixteenOutputs => "sixteen-outputs",
            Shape::Largest => "largest",
        }
    }
}

/// What the rows are like.
#[derive(Clone, Copy, Debug, PartialEq, Eq)]
pub enum Rows {
    Random,
    /// Most rows are 0.
    Sparse,
    /// Some bits are the same in all rows of a cell.
    Constant,
    /// At each cut few rail words are reached, in pairs that differ in every rail. Some outputs are the same under all of
    /// these and differ under others: a rail by itself says nothing, all together say which.
    Coupled,
}

impl Rows {
    pub const ALL: [Rows; 4] = [Rows::Random, Rows::Sparse, Rows::Constant, Rows::Coupled];

    pub fn name(self) -> &'static str {
        match self {
            Rows::Random => "random",
            Rows::Sparse => "sparse",
            Rows::Constant => "constant",
            Rows::Coupled => "coupled",
        }
    }
}

/// The cascade of this shape, kind of rows, seed and index: always the same one.
pub fn cascade(shape: Shape, rows: Rows, seed: u64, index: u64) -> StoredBlock {
    let stream = 500 + 10 * shape as u64 + rows as u64;
    let random = &mut Random::new(stream, seed, index);
    let records = records_of(random, shape, seed, index);
    let rows = filled(random, &records, rows);
    (records, row_bytes(&rows))
}

/// Well-formed records of this shape.
pub(super) fn records_of(random: &mut Random, shape: Shape, seed: u64, index: u64) -> Vec<u8> {
    match shape {
        Shape::Any => block(seed, index).0,
        Shape::ManyCells => many_cells(random),
        Shape::OneCell => one_cell(random),
        Shape::EightRails => eight_rails(random),
        Shape::SixteenOutputs => sixteen_outputs(random),
        Shape::Largest => largest(random),
    }
}

/// The limit that a cascade is over.
#[derive(Clone, Copy, Debug, PartialEq, Eq)]
pub enum Over {
    /// 36,864 rows: a cell of 12 inputs, then eight of 12 rails and an output each.
    Rows,
    /// A cell of 17 outputs: 5 to 8 outputs and 9 to 12 rails.
    Outputs,
    /// A cell of 13 inputs: 12 rails and an input, or 13 rails.
    Inputs,
}

impl Over {
    pub const ALL: [Over; 3] = [Over::Rows, Over::Outputs, Over::Inputs];
}

/// A cascade that is well formed but for one limit.
pub fn over_limit(over: Over, seed: u64, index: u64) -> StoredBlock {
    let random = &mut Random::new(580 + over as u64, seed, index);
    let (inputs, outputs) = variables(random);
    let mut records = Vec::new();
    // Inputs and outputs of each cell.
    let shape = match over {
        Over::Rows => {
            cell(&mut records, &inputs, 12);
            for output in &outputs[..7] {
                cell(&mut records, &[*output], 12);
            }
            cell(&mut records, &outputs[7..], 0);
            [vec![(12, 12)], vec![(12, 13); 7], vec![(12, 1)]].concat()
        }
        Over::Outputs => {
            let (first, upper) = (random.within(1, 11), random.within(5, 8));
            let rails = 17 - upper;
            cell(
                &mut records,
                &[&inputs[..first], &outputs[..upper]].concat(),
                rails,
            );
            // The cell below has the outputs left, or an input.
            let below = [&outputs[upper..], &inputs[11..]].concat();
            cell(&mut records, &below[..1], 0);
            let output = usize::from(upper < 8);
            vec![(first, 17), (rails + 1 - output, output)]
        }
        Over::Inputs => {
            let rails = random.within(12, 13);
            cell(&mut records, &inputs[..2], rails);
            let below = [&inputs[2..15 - rails], &outputs[..2]].concat();
            cell(&mut records, &below, 0);
            vec![(2, rails), (13, 2)]
        }
    };
    let mut rows = Vec::new();
    for (inputs, outputs) in shape {
        // All sixteen bits, too, for 17 outputs.
        let most = ((1u32 << outputs) - 1) as u16;
        rows.extend((0..1 << inputs).map(|_| random.value(most)));
    }
    (records, row_bytes(&rows))
}

/// Shapes and kinds of rows come round with the index.
pub(super) fn kinds(index: u64) -> (Shape, Rows) {
    let (shapes, kinds) = (Shape::ALL.len() as u64, Rows::ALL.len() as u64);
    let shape = Shape::ALL[(index % shapes) as usize];
    (shape, Rows::ALL[(index / shapes % kinds) as usize])
}

/// The cascade of the shape and the kind of rows that come with the index.
pub fn made(seed: u64, index: u64) -> StoredBlock {
    let (shape, rows) = kinds(index);
    cascade(shape, rows, seed, index)
}

/// A mask of known inputs, all but so many of 0 to 11, with any bits above.
pub fn known_but(random: &mut Random, unknown: usize) -> u16 {
    let inputs = random.permutation(12);
    inputs[..unknown]
        .iter()
        .fold(random.word() | 0xFFF, |mask, input| mask & !(1 << input))
}

/// The inputs and the outputs, each in a random order.
fn variables(random: &mut Random) -> (Vec<u8>, Vec<u8>) {
    let outputs = random.permutation(8);
    let outputs = outputs.iter().map(|output| FIRST_OUTPUT + output);
    (random.permutation(12), outputs.collect())
}

/// The records of a cell with so many lower rails.
fn cell(records: &mut Vec<u8>, variables: &[u8], rails: usize) {
    for variable in variables {
        records.extend([*variable, 0, 0, 0]);
    }
    let last = records.len() - 4;
    records[last + 1] = 1;
    records[last + 2] = rails as u8;
}

fn many_cells(random: &mut Random) -> Vec<u8> {
    let (inputs, outputs) = variables(random);
    let mut variables = [inputs, outputs].concat();
    random.shuffle(&mut variables);
    variables.truncate(random.within(12, 20));
    let mut records = Vec::new();
    let (mut rows, mut rails) = (0, 0);
    for (place, variable) in variables.iter().enumerate() {
        rows += 1 << (rails + usize::from(*variable < FIRST_OUTPUT));
        let most = match variables.get(place + 1) {
            None => 0,
            Some(_) if rows > 16_384 => 8,
            Some(0..FIRST_OUTPUT) => 11,
            Some(_) => 12,
        };
        rails = random.within(most.min(1), most);
        cell(&mut records, &[*variable], rails);
    }
    records
}

fn one_cell(random: &mut Random) -> Vec<u8> {
    let (inputs, mut outputs) = variables(random);
    outputs.truncate(random.within(1, 8));
    let mut variables = [inputs, outputs].concat();
    random.shuffle(&mut variables);
    let mut records = Vec::new();
    cell(&mut records, &variables, 0);
    records
}

fn eight_rails(random: &mut Random) -> Vec<u8> {
    let (inputs, outputs) = variables(random);
    let mut outputs = &outputs[..];
    let mut records = Vec::new();
    if random.coin() {
        cell(&mut records, &outputs[..1], 7);
        outputs = &outputs[1..];
    }
    let mut rest = &inputs[..];
    for count in [1, 4, 4, 3] {
        cell(&mut records, &rest[..count], 8);
        rest = &rest[count..];
    }
    if random.coin() {
        cell(&mut records, outputs, 0);
    } else {
        for (left, output) in outputs.iter().enumerate().rev() {
            cell(&mut records, &[*output], if left == 0 { 0 } else { 7 });
        }
    }
    records
}

fn sixteen_outputs(random: &mut Random) -> Vec<u8> {
    let (inputs, outputs) = variables(random);
    let (upper, lower) = outputs.split_at(random.within(4, 8));
    let rails = 16 - upper.len();
    let (first, rest) = inputs.split_at(random.within(1, 11));
    let mut records = Vec::new();
    let mut variables = [first, upper].concat();
    random.shuffle(&mut variables);
    cell(&mut records, &variables, rails);
    // A cell has a variable.
    let least = usize::from(lower.is_empty());
    let count = random.within(least, rest.len().min(12 - rails));
    let mut variables = [&rest[..count], lower].concat();
    random.shuffle(&mut variables);
    cell(&mut records, &variables, 0);
    records
}

/// Eight cells of 4,096 rows each, or seven and two of half as many.
fn largest(random: &mut Random) -> Vec<u8> {
    let (inputs, outputs) = variables(random);
    let mut records = Vec::new();
    if random.coin() {
        cell(&mut records, &inputs, 12);
        for (left, output) in (0..7).rev().zip(&outputs) {
            cell(&mut records, &[*output], if left == 0 { 0 } else { 12 });
        }
    } else {
        cell(&mut records, &inputs[..11], 11);
        cell(&mut records, &[inputs[11], outputs[7]], 12);
        for (left, output) in (0..6).rev().zip(&outputs) {
            cell(&mut records, &[*output], if left == 0 { 11 } else { 12 });
        }
        cell(&mut records, &outputs[6..7], 0);
    }
    records
}

/// 31,744 rows: of well-formed cascades with fewer rows than the largest, whose 65,536 bytes no text holds, one of the longest.
pub fn longest_in_text(seed: u64, index: u64) -> StoredBlock {
    let random = &mut Random::new(592, seed, index);
    let (inputs, outputs) = variables(random);
    let mut records = Vec::new();
    cell(&mut records, &inputs, 12);
    for (output, rails) in outputs.iter().zip([12, 12, 12, 12, 12, 11, 10, 0]) {
        cell(&mut records, &[*output], rails);
    }
    let rows = filled(random, &records, Rows::Random);
    (records, row_bytes(&rows))
}

/// The bits of a cell's rows.
fn most(cell: &Cell) -> u16 {
    ((1u32 << cell.output_count()) - 1) as u16
}

/// Rows of this kind for well-formed records.
pub(super) fn filled(random: &mut Random, records: &[u8], rows: Rows) -> Vec<u16> {
    let mut filled = Vec::new();
    let mut reached = vec![0];
    for cell in cells(records).expect("well formed") {
        let most = most(&cell);
        let each = 0..cell.rows;
        match rows {
            Rows::Random => filled.extend(each.map(|_| random.value(most))),
            Rows::Sparse => filled.extend(each.map(|_| match random.percent(4) {
                true => random.value(most),
                false => 0,
            })),
            Rows::Constant => {
                let (held, values) = (random.word() | random.word(), random.value(most));
                filled.extend(each.map(|_| random.value(most) & !held | values & held));
            }
            Rows::Coupled => coupled(random, &cell, &mut reached, &mut filled),
        }
    }
    filled
}

/// The rows of a cell whose upper rail words are those reached; leaves the lower ones in their place.
fn coupled(random: &mut Random, cell: &Cell, reached: &mut Vec<u16>, rows: &mut Vec<u16>) {
    let most = most(cell);
    let rails = (1u16 << cell.lower_rails) - 1;
    let below: Vec<u16> = (0..random.within(1, 2))
        .map(|_| random.word() & rails)
        .flat_map(|word| [word, !word & rails])
        .collect();
    let held = (random.word() | random.word()) & most & !rails;
    let values = random.word() & held;
    for address in 0..cell.rows {
        let rail = (address >> cell.inputs.len()) as u16;
        let row = random.value(most);
        rows.push(if reached.contains(&rail) {
            row & !held & !rails | values | random.pick(&below)
        } else {
            row & !held | !values & held
        });
    }
    *reached = below;
}
