//! Walks over the diagram, the comparison of two columns and the descent from cut to cut, against the node list, the columns'
//! tables and the rows of the second compiler. Diagrams are the final one, that of the sheet's own function, and one of that
//! function with a node for each prefix, where different nodes have the same column.

use proved::{
    compatible_columns, descent, reduce, same_columns, walk, Reached, NODE_WORDS, ROW_BYTES, WIDTHS,
};
use second::fast::Compiler;
use second::generate::{job, Family, Random};
use second::job::{Answer, Job, Lent, Node};
use second::plain::{compatible, functions, nodes, Columns, Function, FREE};

const SEED: u64 = 53;
/// Most nodes that words hold.
const MOST_NODES: usize = NODE_WORDS / 3;
/// Up to so many nodes at a height every pair is compared.
const ALL_PAIRS: usize = 40;

/// A function, its columns at heights 0 to t, and its diagram as nodes and as words.
struct Diagram<'a> {
    function: &'a Function,
    columns: Vec<Columns>,
    nodes: Vec<Node>,
    /// The number of the first node at each height over 0.
    first: Vec<u16>,
    order: &'a [u8],
    words: &'a [u16; NODE_WORDS],
}

/// What was compared.
#[derive(Debug, Default)]
struct Seen {
    diagrams: u64,
    walks: u64,
    walks_to_1: u64,
    pairs: u64,
    same: u64,
    /// Of pairs with different columns.
    compatible: u64,
    descents: u64,
    /// Jobs that got a cascade, and its rows.
    cascades: u64,
    rows: u64,
}

/// The columns with a node for each prefix.
fn for_each_prefix(columns: &Columns) -> Columns {
    let table = |&number: &usize| columns.tables[number].clone();
    Columns {
        tables: columns.of_prefix.iter().map(table).collect(),
        smallest: (0..columns.of_prefix.len()).collect(),
        of_prefix: (0..columns.of_prefix.len()).collect(),
    }
}

fn bit(bits: u32, height: usize) -> u8 {
    (bits >> (height - 1) & 1) as u8
}

impl<'a> Diagram<'a> {
    /// None where there are more nodes than words hold. Words past the nodes keep what they held.
    fn new(
        function: &'a Function,
        columns: Vec<Columns>,
        order: &'a [u8],
        words: &'a mut [u16; NODE_WORDS],
    ) -> Option<Diagram<'a>> {
        let mut first = vec![0; columns.len()];
        let mut next = 2;
        for height in (1..columns.len()).rev() {
            first[height] = next as u16;
            next += columns[height].width();
            if next > MOST_NODES + 2 {
                return None;
            }
        }
        let nodes = nodes(function, &columns);
        for (words, node) in words.chunks_exact_mut(3).zip(&nodes) {
            words.copy_from_slice(&[node.height, node.low, node.high]);
        }
        Some(Diagram {
            function,
            columns,
            nodes,
            first,
            order,
            words,
        })
    }

    fn top(&self) -> usize {
        self.function.top()
    }

    /// At height 0 constant 1 stands for every column.
    fn node(&self, height: usize, number: usize) -> u16 {
        match height {
            0 => 1,
            _ => self.first[height] + number as u16,
        }
    }

    /// Where a walk ends, by the node list.
    fn by_nodes(&self, bits: u32, mut node: u16) -> u16 {
        while node >= 2 {
            let Node { height, low, high } = self.nodes[usize::from(node) - 2];
            let one = bit(bits, usize::from(height)) == 1;
            node = if one { high } else { low };
        }
        node
    }

    /// The bits with each output below that the column forces at its value.
    fn forced(&self, mut bits: u32, height: usize, number: usize) -> u32 {
        let table = &self.columns[height].tables[number];
        let (outputs, inputs): (Vec<_>, Vec<_>) = (1..=height)
            .rev()
            .partition(|&h| self.function.is_output(h));
        let place = inputs
            .iter()
            .fold(0, |x, &h| x << 1 | usize::from(bit(bits, h)));
        for (&h, line) in outputs.iter().zip(table.chunks_exact(1 << inputs.len())) {
            if line[place] != FREE && line[place] != bit(bits, h) {
                bits ^= 1 << (h - 1);
            }
        }
        bits
    }

    /// Where a walk ends, by the column's table: at 1 where each output below has a value that is allowed for the inputs there.
    fn by_column(&self, bits: u32, height: usize, number: usize) -> u16 {
        u16::from(self.forced(bits, height, number) == bits)
    }

    fn check_walks(&self, random: &mut Random, seen: &mut Seen) {
        for height in 1..=self.top() {
            for number in 0..self.columns[height].width() {
                let node = self.node(height, number);
                let all = height <= 6;
                for index in 0..if all { 1 << height } else { 24 } {
                    // Bits above the height have no effect.
                    let any = random.next() as u32;
                    let bits = match (all, index % 2) {
                        (true, _) => any << height | index,
                        (false, 0) => any,
                        (false, _) => self.forced(any, height, number),
                    };
                    let end = walk(self.words, bits, height as u8, node);
                    assert_eq!(end, self.by_nodes(bits, node), "node {node}, {bits:b}");
                    let column = self.by_column(bits, height, number);
                    assert_eq!(end, column, "node {node}, {bits:b}");
                    seen.walks += 1;
                    seen.walks_to_1 += u64::from(end);
                }
            }
        }
    }

    fn check_pair(&self, height: usize, numbers: (usize, usize), seen: &mut Seen) {
        let tables = &self.columns[height].tables;
        let (one, other) = (&tables[numbers.0], &tables[numbers.1]);
        let v = self.node(height, numbers.0);
        let u = self.node(height, numbers.1);
        let same = same_columns(self.words, height as u8, v, u);
        assert_eq!(same, one == other, "same: height {height}, {v} and {u}");
        let may_merge = compatible_columns(self.words, height as u8, v, u);
        let by_tables = compatible(one, other);
        assert_eq!(may_merge, by_tables, "height {height}, {v} and {u}");
        seen.pairs += 1;
        seen.same += u64::from(same);
        seen.compatible += u64::from(may_merge && !same);
    }

    fn check_pairs(&self, random: &mut Random, seen: &mut Seen) {
        for height in 1..=self.top() {
            let width = self.columns[height].width();
            if width <= ALL_PAIRS {
                for pair in 0..width * width {
                    self.check_pair(height, (pair / width, pair % width), seen);
                }
                continue;
            }
            for _ in 0..ALL_PAIRS * 10 {
                let numbers = (random.below(width), random.below(width));
                self.check_pair(height, numbers, seen);
            }
            let number = random.below(width);
            self.check_pair(height, (number, number), seen);
        }
    }

    /// The node reached and the outputs met, by the columns' numbers and the outputs' values.
    fn by_function(&self, cuts: (usize, usize), number: usize, value: usize) -> Reached {
        let (top, bottom) = cuts;
        let count = self.function.inputs_between(top, bottom);
        let prefix = self.columns[top].smallest[number] << count | value;
        let mut outputs = 0;
        for height in (bottom + 1..=top).rev() {
            if self.function.is_output(height) {
                let below = self.function.inputs_between(height, bottom);
                let met = self.function.output(height, prefix >> below) == 1;
                outputs = outputs << 1 | u32::from(met);
            }
        }
        Reached {
            node: self.node(bottom, self.columns[bottom].of_prefix[prefix]),
            outputs,
        }
    }

    fn check_descents(&self, random: &mut Random, seen: &mut Seen) {
        for top in 1..=self.top() {
            let bottoms: Vec<usize> = match top {
                1..=6 => (0..=top).collect(),
                _ => (0..4).map(|_| random.below(top + 1)).collect(),
            };
            for bottom in bottoms {
                let count = self.function.inputs_between(top, bottom);
                for number in 0..self.columns[top].width() {
                    for index in 0..8.min(1 << count) {
                        let value = match count {
                            0..=3 => index,
                            _ => random.below(1 << count),
                        };
                        // Bits above the inputs have no effect.
                        let inputs = (random.below(16) << count | value) as u16;
                        let cuts = (top as u8, bottom as u8);
                        let node = self.node(top, number);
                        let to = descent(self.words, self.order, cuts, node, inputs, count as u8);
                        let expected = self.by_function((top, bottom), number, value);
                        assert_eq!(to, expected, "node {node}, cuts {cuts:?}, {inputs:b}");
                        seen.descents += 1;
                    }
                }
            }
        }
    }

    /// The rows of the job's cascade, if it gets one, by descents over the final diagram.
    fn check_rows(&self, job: &Job, compiler: &mut Compiler, lent: &mut Lent, seen: &mut Seen) {
        let Answer::Accepted(totals) = compiler.compile(job, lent) else {
            return;
        };
        let mut rows = lent.rows[..2 * totals.rows].chunks_exact(2);
        let (mut upper, mut upper_rails) = (self.top(), 0);
        for (place, record) in lent.records.chunks_exact(4).take(self.top()).enumerate() {
            if record[1] == 0 {
                continue;
            }
            let lower = self.top() - place - 1;
            let count = self.function.inputs_between(upper, lower);
            for address in 0..1 << (upper_rails + count) {
                let row = rows.next().expect("a row for each address");
                let (number, value) = (address >> count, address % (1 << count));
                if number >= self.columns[upper].width() {
                    continue;
                }
                let cuts = (upper as u8, lower as u8);
                let node = self.node(upper, number);
                let to = descent(
                    self.words,
                    self.order,
                    cuts,
                    node,
                    value as u16,
                    count as u8,
                );
                let lower_word = u32::from(to.node - self.node(lower, 0));
                let by_walk = to.outputs << record[2] | lower_word;
                let value = u32::from(row[0]) + 256 * u32::from(row[1]);
                assert_eq!(by_walk, value, "node {node}, cuts {cuts:?}: {job:?}");
                seen.rows += 1;
            }
            (upper, upper_rails) = (lower, usize::from(record[2]));
        }
        assert!(rows.next().is_none() && upper == 0);
        seen.cascades += 1;
    }

    fn check(&self, random: &mut Random, seen: &mut Seen) {
        self.check_walks(random, seen);
        self.check_pairs(random, seen);
        self.check_descents(random, seen);
        seen.diagrams += 1;
    }
}

/// Compares the three diagrams of so many jobs of a family; answers what was seen of each.
fn compare(family: Family, jobs: u64) -> [Seen; 3] {
    let mut seen = <[Seen; 3]>::default();
    let mut compiler = Compiler::new();
    let mut lent = Lent {
        nodes: vec![Node::default(); MOST_NODES],
        records: vec![0; 80],
        rows: vec![0; ROW_BYTES],
    };
    let random = &mut Random::new(77, SEED, family as u64);
    let mut words = [0; NODE_WORDS];
    words.fill_with(|| random.word());
    let mut widths = [0; WIDTHS];
    for index in 0..jobs {
        let job = job(family, SEED, index);
        let Ok([own, merged]) = functions(&job) else {
            continue;
        };
        let columns = |function: &Function| -> Vec<Columns> {
            (0..=function.top()).map(|h| function.columns(h)).collect()
        };
        // The words of the final diagram are the proved ones.
        assert_eq!(reduce(&job, &mut widths, &mut words).refusal, 0);
        let proved = words;
        if let Some(diagram) = Diagram::new(&merged, columns(&merged), &job.order, &mut words) {
            assert!(*diagram.words == proved, "the nodes differ: {job:?}");
            diagram.check(random, &mut seen[0]);
            diagram.check_rows(&job, &mut compiler, &mut lent, &mut seen[0]);
        }
        let unmerged = columns(&own);
        let each_prefix = unmerged.iter().map(for_each_prefix).collect();
        for (columns, seen) in [unmerged, each_prefix].into_iter().zip(&mut seen[1..]) {
            if let Some(diagram) = Diagram::new(&own, columns, &job.order, &mut words) {
                diagram.check(random, seen);
            }
        }
    }
    println!("{}: {jobs} jobs, final {:?}", family.name(), seen[0]);
    println!("    before merging {:?}", seen[1]);
    println!("    a node for each prefix {:?}", seen[2]);
    seen
}

#[test]
fn small() {
    let seen = Family::SMALL.map(|family| compare(family, 4_000));
    let cascades: u64 = seen.iter().map(|[last, ..]| last.cascades).sum();
    assert!(cascades >= 10_000, "{cascades} accepted jobs");
    for [last, before, each] in seen {
        // Merged columns are compatible with none but themselves.
        assert!(last.diagrams == 4_000 && last.compatible == 0, "{last:?}");
        assert!(before.compatible >= 1_000, "{before:?}");
        assert!(each.same >= 10_000 && each.same < each.pairs, "{each:?}");
    }
}

#[test]
fn larger() {
    for family in [Family::Medium, Family::FullRows, Family::Loose] {
        assert!(compare(family, 100)[0].cascades >= 30);
    }
    for family in [
        Family::LimitFewFree,
        Family::LimitManyFree,
        Family::Columns512,
        Family::NineRails,
    ] {
        assert!(compare(family, 15)[0].diagrams >= 10);
    }
    assert!(compare(Family::ManyOutputs, 40)[0].cascades >= 30);
}
