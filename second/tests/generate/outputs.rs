//! Cells of many outputs: what the families and the cascades made by hand promise.

use super::peak;
use second::generate::{block, cascade, compiled, job, Family, Rows, Shape};
use second::job::Job;
use second::stored;
use std::collections::BTreeSet;

/// The value of a row.
fn value(row: &[u8]) -> u16 {
    u16::from(row[0]) | u16::from(row[1]) << 8
}

/// Whether the job is accepted, and the most rails at a cut, the most outputs of a cell and the largest row of its cascade.
fn widest(job: &Job) -> Option<(usize, usize, u16)> {
    let (records, rows) = compiled(job)?;
    let cells = stored::cells(&records).expect("well formed");
    let rails = cells.iter().map(|cell| cell.lower_rails).max();
    let outputs = cells.iter().map(|cell| cell.output_count()).max();
    Some((rails?, outputs?, rows.chunks_exact(2).map(value).max()?))
}

#[test]
fn nine_rails_at_a_cut() {
    let (mut accepted, mut limits, mut full) = (0, BTreeSet::new(), 0);
    for index in 0..100 {
        let job = job(Family::NineRails, 1, index);
        let Some((rails, outputs, row)) = widest(&job) else {
            continue;
        };
        assert!(rails == 9 && outputs >= 9 && row >= 256, "{index}");
        accepted += 1;
        limits.insert(job.cell_outputs);
        if index < 12 {
            let columns = peak(&job);
            assert!((257..=512).contains(&columns), "{index}: {columns}");
            full += usize::from(columns == 512);
        }
    }
    assert!(accepted > 70 && full > 0, "{accepted} {full}");
    assert_eq!(limits, (9..=16).collect());
}

#[test]
fn many_outputs_of_a_cell() {
    let mut counts = BTreeSet::new();
    let (mut accepted, mut above) = (0, 0);
    for index in 0..400 {
        let Some((_, outputs, row)) = widest(&job(Family::ManyOutputs, 1, index)) else {
            continue;
        };
        accepted += 1;
        above += usize::from(row > 255);
        counts.insert(outputs);
    }
    assert!(accepted > 350 && above > 250, "{accepted} {above}");
    assert!((9..=15).all(|count| counts.contains(&count)), "{counts:?}");
}

#[test]
fn cell_limits_are_1_to_16() {
    let of = |family| (0..400).map(move |index| job(family, 3, index).cell_outputs);
    let medium: BTreeSet<u64> = of(Family::Medium).collect();
    assert_eq!(medium, (1..=16).collect());
    let damaged: BTreeSet<u64> = of(Family::SmallDamaged).collect();
    assert!(damaged.contains(&0) && damaged.contains(&17), "{damaged:?}");
}

#[test]
fn cascades_by_hand_are_as_said() {
    let (mut most, mut least) = (0, usize::MAX);
    let (mut no_inputs, mut no_outputs, mut eight_rails, mut not_reached) = (0, 0, 0, 0);
    let (mut twelve_rails, mut sixteen_outputs, mut highest) = (0, 0, 0);
    for (shape, rows) in Shape::ALL.map(|s| Rows::ALL.map(|r| (s, r))).concat() {
        for index in 0..100 {
            let (records, bytes) = cascade(shape, rows, 3, index);
            assert!(stored::well_formed(&records, &bytes), "{shape:?} {rows:?}");
            let cells = stored::cells(&records).expect("well formed");
            let inputs = cells.iter().map(|cell| cell.inputs.len()).sum::<usize>();
            match shape {
                Shape::Any => assert_eq!(records, block(3, index).0),
                Shape::ManyCells => {
                    assert!((12..=20).contains(&cells.len()) && records.len() == 4 * cells.len())
                }
                Shape::OneCell => assert_eq!((cells.len(), bytes.len()), (1, 2 * 4_096)),
                Shape::EightRails => {
                    assert_eq!(inputs, 12);
                    most = most.max(bytes.len() / 2);
                    least = least.min(bytes.len() / 2);
                }
                Shape::SixteenOutputs => assert_eq!(cells[0].output_count(), 16),
                Shape::Largest => assert_eq!((inputs, bytes.len()), (12, 2 * 32_768)),
            }
            twelve_rails += cells.iter().filter(|c| c.lower_rails == 12).count();
            sixteen_outputs += cells.iter().filter(|c| c.output_count() == 16).count();
            let mut rest = &bytes[..];
            for cell in &cells {
                let (own, after) = rest.split_at(2 * cell.rows);
                let full = ((1u32 << cell.output_count()) - 1) as u16;
                highest += usize::from(own.chunks_exact(2).any(|row| value(row) == full));
                rest = after;
            }
            no_inputs += cells.iter().filter(|c| c.inputs.is_empty()).count();
            no_outputs += cells.iter().filter(|c| c.outputs.is_empty()).count();
            eight_rails += cells.iter().filter(|c| c.lower_rails == 8).count();
            // The cell below the first has more rail words than the first has rows.
            not_reached += usize::from(cells[0].rows < 1 << cells[0].lower_rails);
        }
    }
    assert_eq!((least, most), (10_498, 11_521));
    let found = [no_inputs, no_outputs, eight_rails, not_reached];
    assert!(found.iter().all(|&count| count > 400), "{found:?}");
    let found = [twelve_rails, sixteen_outputs, highest];
    assert!(found.iter().all(|&count| count >= 400), "{found:?}");
}
