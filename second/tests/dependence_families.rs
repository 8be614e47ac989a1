//! The families whose sheets name inputs on which the output does not depend: what each promises; and over all families,
//! that 6 is given in fewer cases than by the inputs named.

mod forced;

use forced::forced;
use second::fast::Compiler;
use second::generate::{job, Family};
use second::job::{Answer, Job, Lent, Node};
use std::collections::BTreeSet;

/// The mask and the values of a record.
fn tested(record: &[u8]) -> (u16, u16) {
    let word = |at: usize| u16::from_le_bytes([record[at], record[at + 1]]);
    (word(0), word(2))
}

/// The pairs (output, input) with the output above the input.
fn above(job: &Job) -> Vec<(u8, u8)> {
    let mut pairs = Vec::new();
    for (place, &output) in job.order.iter().enumerate() {
        let inputs = job.order[place..].iter().filter(|&&v| v < 16);
        if (128..136).contains(&output) {
            pairs.extend(inputs.map(|&input| (output - 128, input)));
        }
    }
    pairs
}

/// By document 01 alone: an output stands above an input named for it.
fn above_named(job: &Job) -> bool {
    let named = |(output, input): (u8, u8)| {
        job.sheet.chunks_exact(8).any(|record| {
            (record[4] | record[5]) >> output & 1 == 1 && tested(record).0 >> input & 1 == 1
        })
    };
    above(job).into_iter().any(named)
}

/// For each output its value for each word, 2 for free.
fn values(job: &Job) -> Vec<Vec<u8>> {
    let mut lines = vec![Vec::new(); job.outputs as usize];
    for word in 0..1 << job.inputs {
        let (zeros, ones) = forced(&job.sheet, word);
        for (output, line) in lines.iter_mut().enumerate() {
            line.push(match (zeros >> output & 1, ones >> output & 1) {
                (1, _) => 0,
                (_, 1) => 1,
                _ => 2,
            });
        }
    }
    lines
}

/// By document 02, §1: an output stands above an input on which it depends.
fn above_dependent(job: &Job) -> bool {
    let values = values(job);
    above(job).into_iter().any(|(output, input)| {
        let line = &values[usize::from(output)];
        (0..line.len()).any(|word| line[word] != line[word ^ 1 << input])
    })
}

/// Gives each job's refusal, 0 for none.
fn refusals() -> impl FnMut(&Job) -> u8 {
    let mut compiler = Compiler::new();
    let mut lent = Lent {
        nodes: vec![Node::default(); 10_240],
        records: vec![0; 80],
        rows: vec![0; 65_536],
    };
    move |job| match compiler.compile(job, &mut lent) {
        Answer::Refused(number) => number,
        Answer::Accepted(_) => 0,
    }
}

#[test]
fn six_in_fewer_cases() {
    let mut refusal = refusals();
    let (mut given, mut no_longer, mut accepted) = (0, 0, 0);
    for family in Family::ALL {
        let jobs = match family {
            Family::LimitFewFree | Family::LimitManyFree | Family::LimitNamed => 300,
            Family::Columns512 | Family::Columns513 | Family::ColumnsAround => 200,
            Family::ColumnsDense => 200,
            Family::LimitStop | Family::NineRails => 300,
            _ => 4_000,
        };
        for index in 0..jobs {
            let job = job(family, 5, index);
            let number = refusal(&job);
            let before = above_named(&job);
            assert!(number != 6 || before, "{job:?}");
            if index % 8 == 0 && !(1..=5).contains(&number) {
                assert_eq!(number == 6, above_dependent(&job), "{job:?}");
            }
            given += usize::from(number == 6);
            no_longer += usize::from(before && !(1..=6).contains(&number));
            accepted += usize::from(before && number == 0);
        }
    }
    println!("{given} refused with 6, {no_longer} no longer, {accepted} of those accepted");
    assert!(given > 4_000 && no_longer > 4_000 && accepted > 3_000);
}

/// How many of these jobs have an output above an input named for it, none of them refused with 1 to 6.
fn many_named(family: Family, jobs: u64, check: impl Fn(&Job)) -> usize {
    let mut refusal = refusals();
    let mut count = 0;
    for index in 0..jobs {
        let job = job(family, 9, index);
        assert!(!(1..=6).contains(&refusal(&job)), "{job:?}");
        check(&job);
        count += usize::from(above_named(&job));
    }
    println!("{}: {count} of {jobs}", family.name());
    count
}

#[test]
fn full_rows_anywhere() {
    let mut inputs = [0; 9];
    for index in 0..800 {
        inputs[job(Family::FullRowsAnywhere, 9, index).inputs as usize] += 1;
    }
    assert!(inputs[1..].iter().all(|&count| count > 60), "{inputs:?}");
    let shuffled = std::cell::Cell::new(0);
    let full = |job: &Job| {
        let all: Vec<(u16, u16)> = job.sheet.chunks_exact(8).map(tested).collect();
        let words: Vec<u16> = (0..1 << job.inputs).collect();
        assert!(all.iter().all(|record| record.0 == words[words.len() - 1]));
        let mut found: Vec<u16> = all.iter().map(|record| record.1).collect();
        shuffled.set(shuffled.get() + usize::from(found != words));
        found.sort_unstable();
        assert_eq!(found, words);
    };
    assert!(many_named(Family::FullRowsAnywhere, 800, full) > 500);
    assert!((400..800).contains(&shuffled.get()));
}

#[test]
fn named_not_dependent() {
    assert!(many_named(Family::NamedNotDependent, 800, |_| ()) > 400);
    let at_the_limits = |job: &Job| {
        assert_eq!((job.inputs, job.outputs, job.sheet.len()), (12, 8, 2_048));
    };
    assert!(many_named(Family::LimitNamed, 60, at_the_limits) > 50);
}

/// What is met where an output above an input takes different values at two words that differ in the input alone.
#[test]
fn dependent_above() {
    let mut refusal = refusals();
    let mut inputs = [0; 13];
    // By the two values, where no other two are met.
    let mut only = [[0; 3]; 3];
    let (mut one_pair, mut one_place) = (0, 0);
    for index in 0..1_500 {
        let job = job(Family::DependentAbove, 9, index);
        assert_eq!(refusal(&job), 6, "{job:?}");
        inputs[job.inputs as usize] += 1;
        let mut met = BTreeSet::new();
        let (mut pairs, mut lone) = (0, false);
        let lines = values(&job);
        for (output, input) in above(&job) {
            let values = &lines[usize::from(output)];
            for (word, &value) in values.iter().enumerate() {
                let other = values[word ^ 1 << input];
                if value < other {
                    met.insert((value, other));
                    pairs += 1;
                    let count = |of: u8| values.iter().filter(|&&v| v == of).count();
                    lone |= count(value) == 1 || count(other) == 1;
                }
            }
        }
        if let (1, Some(&(value, other))) = (met.len(), met.first()) {
            only[usize::from(value)][usize::from(other)] += 1;
        }
        one_pair += usize::from(pairs == 1);
        one_place += usize::from(job.inputs == 12 && lone);
    }
    println!("n {inputs:?}, only {only:?}, {one_pair} with one pair, {one_place} one of 4,096");
    assert!(inputs[1..].iter().all(|&count| count > 30), "{inputs:?}");
    assert!(only[0][1] > 300 && only[0][2] > 300 && only[1][2] > 300);
    assert!(one_pair > 200 && one_place > 10);
}
