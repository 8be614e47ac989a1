//! The families with stop records: what each promises.

mod forced;

use forced::forced;
use second::fast::{self, Compiler};
use second::generate::{job, Family};
use second::job::{Answer, Job, Lent, Node};
use second::plain::{self, compile_with, Mistake};
use std::collections::BTreeMap;

const SEED: u64 = 9;

fn enough() -> Lent {
    Lent {
        nodes: vec![Node::default(); 10_240],
        records: vec![0x5A; 80],
        rows: vec![0xA5; 65_536],
    }
}

/// Gives each job's refusal, 0 for none.
fn refusals() -> impl FnMut(&Job) -> u8 {
    let mut compiler = Compiler::new();
    let mut lent = enough();
    move |job| match compiler.compile(job, &mut lent) {
        Answer::Refused(number) => number,
        Answer::Accepted(_) => 0,
    }
}

struct Record {
    mask: u16,
    values: u16,
    zeros: u8,
    ones: u8,
    stop: bool,
}

impl Record {
    fn outputs(&self) -> u8 {
        self.zeros | self.ones
    }

    fn matches(&self, word: u16) -> bool {
        word & self.mask == self.values
    }

    fn meets(&self, other: &Record) -> bool {
        (self.values ^ other.values) & self.mask & other.mask == 0
    }

    /// The outputs that one forces to 0 and the other to 1, where both match a word.
    fn opposed(&self, other: &Record) -> u8 {
        let opposed = self.zeros & other.ones | self.ones & other.zeros;
        if self.meets(other) {
            opposed
        } else {
            0
        }
    }
}

fn records(job: &Job) -> Vec<Record> {
    let record = |r: &[u8]| Record {
        mask: u16::from_le_bytes([r[0], r[1]]),
        values: u16::from_le_bytes([r[2], r[3]]),
        zeros: r[4],
        ones: r[5],
        stop: r[6] == 1,
    };
    job.sheet.chunks_exact(8).map(record).collect()
}

/// Whether some pair of an ordinary and a stop record is so.
fn some_pair(records: &[Record], so: impl Fn(&Record, &Record) -> bool) -> bool {
    let ordinary = || records.iter().filter(|r| !r.stop);
    let mut stops = records.iter().filter(|r| r.stop);
    stops.any(|stop| ordinary().any(|other| so(other, stop)))
}

/// The sheet without its stop records.
fn ordinary_alone(job: &Job) -> Vec<u8> {
    let ordinary = job.sheet.chunks_exact(8).filter(|r| r[6] == 0);
    ordinary.flatten().copied().collect()
}

/// For each output the inputs on which it depends, as a mask.
fn dependent(job: &Job, sheet: &[u8]) -> Vec<u16> {
    let values: Vec<(u8, u8)> = (0..1 << job.inputs).map(|w| forced(sheet, w)).collect();
    let mut masks = vec![0; job.outputs as usize];
    for input in 0..job.inputs {
        for (word, here) in values.iter().enumerate() {
            let there = values[word ^ 1 << input];
            let differ = (here.0 ^ there.0) | (here.1 ^ there.1);
            for (output, mask) in masks.iter_mut().enumerate() {
                *mask |= u16::from(differ >> output & 1) << input;
            }
        }
    }
    masks
}

/// An output stands above an input of its mask.
fn above(job: &Job, masks: &[u16]) -> bool {
    let mut seen = 0u16;
    job.order.iter().any(|&variable| {
        if variable < 128 {
            seen |= 1 << variable;
            return false;
        }
        masks[usize::from(variable - 128)] & !seen != 0
    })
}

/// Counts by name how many jobs are so.
#[derive(Default)]
struct Counts(BTreeMap<&'static str, usize>);

impl Counts {
    fn add(&mut self, name: &'static str, so: bool) {
        *self.0.entry(name).or_default() += usize::from(so);
    }

    fn all_over(&self, least: usize) {
        println!("{:?}", self.0);
        assert!(self.0.values().all(|&count| count > least), "{:?}", self.0);
    }
}

/// The sizes of these families: each number of inputs and outputs is met.
fn sizes(family: Family, jobs: u64) {
    let (mut inputs, mut outputs) = ([0; 9], [0; 7]);
    for index in 0..jobs {
        let job = job(family, SEED, index);
        inputs[job.inputs as usize] += 1;
        outputs[job.outputs as usize] += 1;
    }
    let least = jobs / 16;
    assert!(inputs[1..].iter().all(|&count| count > least), "{inputs:?}");
    assert!(outputs[1..].iter().all(|&count| count > least));
}

#[test]
fn stop_some() {
    sizes(Family::StopSome, 2_000);
    let mut refusal = refusals();
    let mut counts = Counts::default();
    for index in 0..2_000 {
        let job = job(Family::StopSome, SEED, index);
        let number = refusal(&job);
        assert!(matches!(number, 0 | 8), "{number}: {job:?}");
        let records = records(&job);
        let stops = records.iter().filter(|r| r.stop).count();
        assert!(10 * stops >= records.len() && 2 * stops <= records.len());
        counts.add("accepted", number == 0);
        counts.add("refused 8", number == 8);

        let first_ordinary = records.iter().position(|r| !r.stop).expect("one");
        let last_ordinary = records.iter().rposition(|r| !r.stop).expect("one");
        counts.add("stop first", first_ordinary > 0);
        counts.add("stop last", last_ordinary + 1 < records.len());
        let between = &records[first_ordinary..last_ordinary];
        counts.add("stop between", between.iter().any(|r| r.stop));

        let same = |o: &Record, s: &Record| o.zeros & s.zeros | o.ones & s.ones;
        counts.add("other way", some_pair(&records, |o, s| o.opposed(s) != 0));
        let same_way = |o: &Record, s: &Record| o.meets(s) && same(o, s) != 0;
        counts.add("same way", some_pair(&records, same_way));
        let other = |o: &Record, s: &Record| {
            let both_name = o.outputs() != 0 && s.outputs() != 0;
            o.meets(s) && both_name && o.outputs() & s.outputs() == 0
        };
        counts.add("other output", some_pair(&records, other));
        let nothing = |r: &Record| r.stop && r.outputs() == 0;
        counts.add("names nothing", records.iter().any(nothing));

        let (rule, alone) = (
            dependent(&job, &job.sheet),
            dependent(&job, &ordinary_alone(&job)),
        );
        let pairs = || rule.iter().zip(&alone);
        counts.add("hides", pairs().any(|(rule, alone)| alone & !rule != 0));
        counts.add("makes", pairs().any(|(rule, alone)| rule & !alone != 0));
        counts.add("hidden above", above(&job, &alone));
    }
    counts.all_over(200);
}

/// The same job with the mark of each record taken away.
fn unmarked(job: &Job) -> Job {
    let mut job = job.clone();
    for record in job.sheet.chunks_exact_mut(8) {
        record[6] = 0;
    }
    job
}

#[test]
fn stop_only_is_as_ordinary_only() {
    sizes(Family::StopOnly, 1_200);
    let mut counts = Counts::default();
    for index in 0..1_200 {
        let job = job(Family::StopOnly, SEED, index);
        assert!(!job.sheet.is_empty() && records(&job).iter().all(|r| r.stop));
        let unmarked = unmarked(&job);
        let made = |compile: fn(&Job, &mut Lent) -> Answer, job: &Job| {
            let mut lent = enough();
            (compile(job, &mut lent), lent)
        };
        let quick = made(fast::compile, &job);
        assert!(quick == made(fast::compile, &unmarked), "{job:?}");
        if index % 4 == 0 {
            assert!(quick == made(plain::compile, &job), "{job:?}");
            assert!(quick == made(plain::compile, &unmarked), "{job:?}");
        }
        counts.add("accepted", matches!(quick.0, Answer::Accepted(_)));
        counts.add("refused 8", quick.0 == Answer::Refused(8));
        let full = records(&job)
            .iter()
            .all(|r| r.mask == (1 << job.inputs) - 1);
        counts.add("full rows", full);
    }
    counts.all_over(60);
}

#[test]
fn stop_clash() {
    sizes(Family::StopClash, 2_000);
    let mut refusal = refusals();
    let mut counts = Counts::default();
    for index in 0..2_000 {
        let job = job(Family::StopClash, SEED, index);
        assert_eq!(refusal(&job), 5, "{job:?}");
        let records = records(&job);
        let named_by = |stop: bool, word: u16| {
            let matching = records.iter().filter(|r| r.stop == stop && r.matches(word));
            matching.fold((0, 0), |all, r| (all.0 | r.zeros, all.1 | r.ones))
        };
        // By word, the outputs at which ordinary records and at which stop records clash; whether each such place is named by
        // the other kind, and whether any is.
        let (mut ordinary, mut stop) = (false, false);
        let (mut covered, mut bare, mut beside) = (true, true, false);
        for word in 0..1 << job.inputs {
            let (o, s) = (named_by(false, word), named_by(true, word));
            let (in_ordinary, in_stop) = (o.0 & o.1, s.0 & s.1);
            ordinary |= in_ordinary != 0;
            stop |= in_stop != 0;
            covered &= in_ordinary & !(s.0 | s.1) == 0;
            bare &= in_ordinary & (s.0 | s.1) == 0;
            beside |= in_stop & (o.0 | o.1) != 0;
        }
        assert!(ordinary != stop);
        counts.add("ordinary, all covered", ordinary && covered);
        counts.add("ordinary, none covered", ordinary && bare);
        counts.add("ordinary, some covered", ordinary && !covered && !bare);
        counts.add("stop, none beside", stop && !beside);
        counts.add("stop, ordinary beside", stop && beside);
        counts.add("stop records alone", records.iter().all(|r| r.stop));
        let opposed = some_pair(&records, |o, s| o.opposed(s) != 0);
        counts.add("ordinary, kinds opposed", ordinary && opposed);
        counts.add("stop, kinds opposed", stop && opposed);
    }
    counts.all_over(25);
}

#[test]
fn stop_damaged() {
    sizes(Family::StopDamaged, 2_000);
    let mut refusal = refusals();
    let mut counts = Counts::default();
    for index in 0..4_000 {
        let job = job(Family::StopDamaged, SEED, index);
        let number = refusal(&job);
        assert_eq!(number, if index % 9 < 7 { 4 } else { 6 }, "{job:?}");
        if number == 6 {
            assert!(above(&job, &dependent(&job, &job.sheet)), "{job:?}");
            let alone = above(&job, &dependent(&job, &ordinary_alone(&job)));
            counts.add("6 by ordinary records too", alone);
            counts.add("6 by stop records alone", !alone);
            continue;
        }
        let is = |so: &dyn Fn(&[u8], &Record) -> bool| {
            let mut both = job.sheet.chunks_exact(8).zip(records(&job));
            both.any(|(bytes, record)| so(bytes, &record))
        };
        counts.add("byte 6 of 2", is(&|b, _| b[6] == 2));
        counts.add("byte 6 above 2, odd", is(&|b, _| b[6] > 2 && b[6] % 2 == 1));
        counts.add(
            "byte 6 above 2, even",
            is(&|b, _| b[6] > 2 && b[6] % 2 == 0),
        );
        counts.add("byte 7, stop", is(&|b, r| r.stop && b[7] != 0));
        counts.add("byte 7, ordinary", is(&|b, r| !r.stop && b[7] != 0));
        counts.add("value", is(&|_, r| r.stop && r.values & !r.mask != 0));
        counts.add("both ways", is(&|_, r| r.stop && r.zeros & r.ones != 0));
        let (n, m) = (job.inputs, job.outputs);
        counts.add("outside n", is(&|_, r| r.stop && r.mask >> n != 0));
        counts.add("outside m", is(&|_, r| r.stop && r.outputs() >> m != 0));
    }
    counts.all_over(50);
}

#[test]
fn limit_stop() {
    let mut refusal = refusals();
    let mut seen: BTreeMap<u8, u32> = BTreeMap::new();
    for index in 0..200 {
        let job = job(Family::LimitStop, SEED, index);
        assert_eq!((job.inputs, job.outputs, job.sheet.len()), (12, 8, 2_048));
        let records = records(&job);
        let stops = records.iter().filter(|r| r.stop).count();
        assert!((77..=94).contains(&stops), "{stops}");
        assert!(some_pair(&records, |o, s| o.opposed(s) != 0), "{index}");
        *seen.entry(refusal(&job)).or_default() += 1;
    }
    println!("{seen:?}");
    assert!(seen.keys().all(|number| matches!(number, 0 | 7 | 8)));
    assert!(seen[&0] > 120, "{seen:?}");
}

/// How many of these jobs are answered otherwise, or leave other memory, with a mistake made.
fn shows(family: Family, mistake: Mistake) -> usize {
    let differs = |index: &u64| {
        let job = job(family, SEED, *index);
        let [right, wrong] = [Mistake::None, mistake].map(|mistake| {
            let mut lent = enough();
            (compile_with(&job, &mut lent, mistake), lent)
        });
        right != wrong
    };
    (0..500).filter(differs).count()
}

#[test]
fn mistakes_show() {
    let later = shows(Family::StopSome, Mistake::LaterDecides);
    let between = shows(Family::StopSome, Mistake::ClashBetweenKinds);
    let covered = shows(Family::StopClash, Mistake::CoveredClash);
    println!("later {later}, between {between}, covered {covered}");
    assert!(later > 100 && between > 200 && covered > 80);
}
