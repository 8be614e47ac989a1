//! The function as a table over all words, and its columns at a height.

use std::collections::HashMap;

/// The value d of an output.
pub const FREE: u8 = 2;

/// The outputs' values for every word. A word is written as its *place*: the inputs read down the
/// order, topmost most significant, as a number.
#[derive(Clone)]
pub struct Function {
    /// The variables, top first.
    order: Vec<u8>,
    /// For each output, going down the order, its value (0, 1 or `FREE`) at each place.
    pub lines: Vec<Vec<u8>>,
}

/// The different columns at a height, in number order: "by their smallest prefix, from 0".
pub struct Columns {
    /// The table of each column: the outputs going down the order, for each the values of the
    /// inputs below counted up.
    pub tables: Vec<Vec<u8>>,
    /// The smallest prefix of each column.
    pub smallest: Vec<usize>,
    /// The number of each prefix's column.
    pub of_prefix: Vec<usize>,
}

impl Columns {
    /// "The width at h is the number of different columns."
    pub fn width(&self) -> usize {
        self.tables.len()
    }
}

impl Function {
    pub fn new(order: &[u8], lines: Vec<Vec<u8>>) -> Function {
        let order = order.to_vec();
        Function { order, lines }
    }

    /// t = n + m, the height of the top variable.
    pub fn top(&self) -> usize {
        self.order.len()
    }

    /// The variable at a height from t to 1.
    pub fn variable(&self, height: usize) -> u8 {
        self.order[self.top() - height]
    }

    pub fn is_output(&self, height: usize) -> bool {
        self.variable(height) >= 128
    }

    /// How many inputs stand at heights from `upper` down to `lower` + 1.
    pub fn inputs_between(&self, upper: usize, lower: usize) -> usize {
        (lower + 1..=upper).filter(|&h| !self.is_output(h)).count()
    }

    /// How many outputs stand at heights from `upper` down to `lower` + 1.
    pub fn outputs_between(&self, upper: usize, lower: usize) -> usize {
        (lower + 1..=upper).filter(|&h| self.is_output(h)).count()
    }

    /// How many prefixes there are at a height: values of the inputs standing at heights over it.
    pub fn prefixes(&self, height: usize) -> usize {
        1 << self.inputs_between(self.top(), height)
    }

    /// The places that begin with a prefix at a height.
    fn places(&self, height: usize, prefix: usize) -> std::ops::Range<usize> {
        let below = self.inputs_between(height, 0);
        prefix << below..(prefix + 1) << below
    }

    /// "Its column is the table of 0, 1 or d that the outputs at heights h to 1 take for each value
    /// of the inputs there."
    fn column(&self, height: usize, prefix: usize) -> Vec<u8> {
        let above = self.outputs_between(self.top(), height);
        let lines = &self.lines[above..];
        let part = |line: &Vec<u8>| line[self.places(height, prefix)].to_vec();
        lines.iter().flat_map(part).collect()
    }

    /// Puts another table in the place of a prefix's column.
    pub fn replace_column(&mut self, height: usize, prefix: usize, table: &[u8]) {
        let above = self.outputs_between(self.top(), height);
        let places = self.places(height, prefix);
        let parts = table.chunks_exact(places.len());
        for (line, part) in self.lines[above..].iter_mut().zip(parts) {
            line[places.clone()].copy_from_slice(part);
        }
    }

    /// The columns at a height from t to 0; at 0 every prefix has the empty one, so the width is 1.
    pub fn columns(&self, height: usize) -> Columns {
        let mut numbers: HashMap<Vec<u8>, usize> = HashMap::new();
        let (mut tables, mut smallest, mut of_prefix) = (Vec::new(), Vec::new(), Vec::new());
        for prefix in 0..self.prefixes(height) {
            let table = self.column(height, prefix);
            let number = *numbers.entry(table.clone()).or_insert_with(|| {
                smallest.push(prefix);
                tables.push(table);
                smallest.len() - 1
            });
            of_prefix.push(number);
        }
        Columns {
            tables,
            smallest,
            of_prefix,
        }
    }

    /// The value of the output at a height for a prefix there. It does not rest on inputs below
    /// (refusal 6, and products keep it so), hence the first place that begins with the prefix.
    pub fn output(&self, height: usize, prefix: usize) -> u8 {
        let line = self.outputs_between(self.top(), height);
        self.lines[line][self.places(height, prefix).start]
    }
}
