//! What holds of every accepted job: emitted outputs are allowed, rails are the fewest, the stored form survives.

mod forced;

use forced::forced;
use second::generate::{compiled_with_totals, job, Family};
use second::job::{Job, Totals};
use second::stored;

const SEED: u64 = 2014;

/// Each output of the job is emitted, none else, and each value is allowed, for every word.
fn allowed(job: &Job, records: &[u8], rows: &[u8]) {
    for word in 0..1u16 << job.inputs {
        let emitted = stored::emit(records, rows, word).expect("well formed");
        let (zeros, ones) = forced(&job.sheet, word);
        for (output, value) in emitted.into_iter().enumerate() {
            assert_eq!(value.is_some(), (output as u64) < job.outputs);
            let forbidden = if value == Some(true) { zeros } else { ones };
            assert!(
                forbidden >> output & 1 == 0,
                "output {output}, word {word}: {job:?}"
            );
        }
    }
}

/// At each cut the rails hold every column number, and one fewer would not.
fn rails_are_fewest(totals: &Totals, records: &[u8]) {
    let top = records.len() / 4;
    for (place, record) in records.chunks_exact(4).enumerate() {
        if record[1] == 1 {
            let width = usize::from(totals.widths[top - 1 - place]);
            assert!(width <= 1 << record[2]);
            assert!(record[2] == 0 || width > 1 << (record[2] - 1));
        }
    }
}

fn survives(records: &[u8], rows: &[u8]) {
    assert!(stored::well_formed(records, rows));
    let cascade = stored::read(records, rows).expect("well formed");
    let (mut again, mut rows_again) = (vec![0; records.len()], vec![0; rows.len()]);
    stored::write(&cascade, &mut again, &mut rows_again).expect("room");
    assert!(again == records && rows_again == rows);
    assert_eq!(stored::read(&again, &rows_again), Ok(cascade));
}

fn check(family: Family, jobs: u64) {
    let mut accepted = 0;
    for index in 0..jobs {
        let job = job(family, SEED, index);
        if let Some((totals, (records, rows))) = compiled_with_totals(&job) {
            allowed(&job, &records, &rows);
            rails_are_fewest(&totals, &records);
            survives(&records, &rows);
            accepted += 1;
        }
    }
    println!("{}: {accepted} of {jobs} accepted", family.name());
    assert!(accepted > 0);
}

#[test]
fn small() {
    for family in Family::SMALL.into_iter().chain([Family::Loose]) {
        check(family, 2_000);
    }
}

#[test]
fn larger() {
    check(Family::Medium, 300);
    check(Family::FullRows, 300);
    check(Family::LimitFewFree, 25);
    check(Family::LimitManyFree, 25);
    check(Family::LimitNamed, 25);
    check(Family::FullRowsAnywhere, 300);
    check(Family::NamedNotDependent, 300);
    check(Family::ColumnsDense, 25);
    check(Family::LimitStop, 25);
    check(Family::StopSome, 2_000);
    check(Family::StopOnly, 500);
    check(Family::NineRails, 20);
    check(Family::ManyOutputs, 60);
}
