//! Damaged bank and scan states: 12 in the written cases and in no other, with nothing changed.

use super::{admitted, two, went, wider, A_RECORDS, A_ROWS, ONE};
use second::bank::{admit, latch, new_bank, step, Bank, Scan, Step};
use second::fast;
use second::generate::RIGHT;
use second::stored::cells;

/// A running scan with the second cell of the second block next.
fn midway() -> (Bank, Scan, Vec<u8>) {
    let (bank, mut scan, rows) = two(4);
    latch(&bank, &mut scan, [5; 8]).unwrap();
    for _ in 0..3 {
        step(&bank, &mut scan, &rows);
    }
    assert_eq!((scan.running, scan.block, scan.cell), (true, 1, 1));
    (bank, scan, rows)
}

type Change = Box<dyn Fn(&mut Bank, &mut Scan)>;

fn change(f: impl Fn(&mut Bank, &mut Scan) + 'static) -> Change {
    Box::new(f)
}

/// Every kind of damage to the bank, whether a scan runs or not.
fn bank_damages() -> Vec<Change> {
    let mut list = vec![];
    for limit in [0, 256, 257, 65_535] {
        list.push(change(move |bank, _| bank.limit = limit));
    }
    for limit in 1..4 {
        list.push(change(move |bank, _| bank.limit = limit));
    }
    // Places past the second hold no records; past the eighth there is none.
    for count in [3, 8, 9, 10, 255] {
        list.push(change(move |bank, _| bank.count = count));
    }
    list.push(change(|bank, _| {
        *bank = two(255).0;
        for place in 2..8 {
            bank.records[place] = bank.records[0];
            bank.lengths[place] = bank.lengths[0];
            bank.periods[place] = 1;
        }
        bank.count = 9;
    }));
    for place in 0..2 {
        for length in [0, 1, 5, 7, 20, 21, 63, 64, 128, 255] {
            list.push(change(move |bank, _| bank.lengths[place] = length));
        }
        let bytes = [
            (0, 12),
            (0, 127),
            (0, 136),
            (4, 0),
            (1, 2),
            (2, 1),
            (3, 1),
            (10, 12),
        ];
        let wrong = [
            (10, 17),
            (10, 255),
            (21, 0),
            (21, 2),
            (22, 1),
            (22, 255),
            (23, 255),
        ];
        for (byte, value) in bytes.into_iter().chain(wrong) {
            list.push(change(move |bank, _| bank.records[place][byte] = value));
        }
    }
    list.push(change(|bank, _| {
        bank.limit = 255;
        bank.count = 8;
        for place in 0..8 {
            bank.records[place][..48].copy_from_slice(&wider().0);
            bank.lengths[place] = 12;
            bank.periods[place] = 1;
        }
    }));
    // Scan numbers above 7, and wrong periods and phases of blocks held.
    for number in [8, 9, 15, 16, 128, 255] {
        list.push(change(move |_, scan| scan.number = number));
    }
    for place in 0..2 {
        for (period, phase) in [
            (0, 0),
            (3, 0),
            (5, 0),
            (7, 0),
            (9, 0),
            (16, 0),
            (255, 0),
            (1, 1),
            (2, 2),
            (4, 4),
            (8, 8),
            (8, 255),
        ] {
            list.push(change(move |bank, _| {
                (bank.periods[place], bank.phases[place]) = (period, phase);
            }));
        }
    }
    list
}

fn scan_damages() -> Vec<Change> {
    let mut list = vec![];
    for block in [2, 7, 8, 255] {
        list.push(change(move |_, scan| scan.block = block));
    }
    for cell in [2, 3, 20, 255] {
        list.push(change(move |_, scan| scan.cell = cell));
    }
    for rail in [4, 5, 256, 4_096, 32_768, 65_535] {
        list.push(change(move |_, scan| scan.rail = rail));
    }
    // No rails stand above a block's first cell.
    list.push(change(|_, scan| (scan.cell, scan.rail) = (0, 1)));
    list.push(change(|bank, _| bank.count = 1));
    list.push(change(|bank, _| bank.count = 0));
    // The block to be read isn't due in scan 0, nor in scans 2, 4 and 6.
    for (period, phase) in [(2, 1), (4, 1), (4, 2), (4, 3), (8, 1), (8, 7)] {
        list.push(change(move |bank, _| {
            (bank.periods[1], bank.phases[1]) = (period, phase);
        }));
    }
    for number in [0, 2, 4, 6] {
        list.push(change(move |bank, scan| {
            (bank.periods[1], bank.phases[1], scan.number) = (2, 1, number);
        }));
    }
    list
}

fn assert_refused(bank: &Bank, scan: &Scan, rows: &[u8]) {
    for length in [rows.len(), 0] {
        let mut held = (bank.clone(), scan.clone(), rows[..length].to_vec());
        let before = held.clone();
        assert_eq!(admitted(&mut held, &ONE.0, &ONE.1), Err(12));
        assert_eq!(admitted(&mut held, &[], &[]), Err(12));
        assert_eq!(latch(&held.0, &mut held.1, [3; 8]), Err(12));
        assert_eq!(step(&held.0, &mut held.1, &held.2), Step::Refused(12));
        let quick = fast::step::step(&held.0, &mut held.1, &held.2);
        assert_eq!(quick, Step::Refused(12));
        assert_eq!(held, before);
    }
}

#[test]
fn damaged_states_are_12() {
    let (bank, scan, rows) = midway();
    for damage in bank_damages() {
        for running in [true, false] {
            let (mut bank, mut scan) = (bank.clone(), scan.clone());
            scan.running = running;
            damage(&mut bank, &mut scan);
            assert_refused(&bank, &scan, &rows);
        }
    }
    for damage in scan_damages() {
        let (mut bank, mut scan) = (bank.clone(), scan.clone());
        damage(&mut bank, &mut scan);
        assert_refused(&bank, &scan, &rows);
        // Without reads left none of the three is looked at.
        scan.running = false;
        assert_eq!(step(&bank, &mut scan.clone(), &rows), Step::Idle);
        let words = [9; 8];
        assert_eq!(latch(&bank, &mut scan.clone(), words), Ok(()));
        bank.limit = 255;
        let mut held = (bank, scan, vec![0; 99]);
        assert_eq!(admitted(&mut held, &ONE.0, &ONE.1), Ok(()));
        assert_eq!(held.1, new_bank(1).unwrap().1);
    }
}

#[test]
fn untested_parts_have_no_effect() {
    let (mut bank, mut scan, mut rows) = midway();
    let (plain_bank, mut plain_scan) = (bank.clone(), scan.clone());
    bank.lengths[2..].fill(255);
    bank.records[2..].fill([255; 80]);
    bank.periods[2..].fill(3);
    bank.phases[2..].fill(255);
    bank.records[0][24..].fill(255);
    scan.words[2..].fill(0xffff);
    scan.words[1] |= 0xf000;
    scan.outputs[5] = [77; 8];
    scan.outputs[1] = [255; 8];
    // Held rows aren't tested, and bits above a cell's outputs are passed over.
    for row in rows.chunks_exact_mut(2) {
        (row[0], row[1]) = (row[0] | 0xfc, 0xff);
    }
    assert_eq!(step(&plain_bank, &mut plain_scan, &rows), went(1, 1));
    let mut stepped = scan.clone();
    assert_eq!(step(&bank, &mut stepped, &rows), went(1, 1));
    assert_eq!(stepped.outputs[1][..2], plain_scan.outputs[1][..2]);
    assert_eq!(plain_scan.outputs[1], midway_end().outputs[1]);
    assert_eq!(
        (&stepped.outputs[1][2..], stepped.outputs[5]),
        (&[255; 6][..], [77; 8])
    );
    assert_eq!((stepped.running, stepped.words), (false, scan.words));
    assert_eq!(latch(&bank, &mut scan.clone(), [3; 8]), Ok(()));
    // Only the new block's own record bytes are written.
    bank.limit = 5;
    rows.extend([0; 2]);
    assert_eq!(
        admit(&mut bank, &mut scan, &mut rows, &ONE.0, &ONE.1),
        Ok(())
    );
    assert_eq!((bank.lengths[2], &bank.records[2][..4]), (1, &ONE.0[..]));
    assert_eq!(bank.periods, [1, 1, 1, 3, 3, 3, 3, 3]);
    assert_eq!(bank.phases, [0, 0, 0, 255, 255, 255, 255, 255]);
    assert_eq!(
        (&bank.records[2][4..], bank.records[3]),
        (&[255; 76][..], [255; 80])
    );
    // A scan state that stands somewhere else inside the blocks held is no damage.
    for (block, cell, rail) in [(0, 0, 0), (0, 1, 3), (1, 0, 0), (1, 1, 0), (1, 1, 3)] {
        let (bank, mut scan, rows) = midway();
        (scan.block, scan.cell, scan.rail) = (block, cell, rail);
        assert_eq!(step(&bank, &mut scan, &rows), went(block, cell));
    }
}

fn midway_end() -> Scan {
    let (bank, mut scan, rows) = midway();
    assert_eq!(step(&bank, &mut scan, &rows), went(1, 1));
    scan
}

/// The written cases of 12, said once more.
fn plainly_damaged(bank: &Bank, scan: &Scan) -> bool {
    if bank.limit == 0 || bank.limit > 255 || bank.count > 8 {
        return true;
    }
    let mut blocks = vec![];
    for place in 0..usize::from(bank.count) {
        let length = usize::from(bank.lengths[place]);
        if length > 20 {
            return true;
        }
        match cells(&bank.records[place][..4 * length]) {
            Some(cells) => blocks.push(cells),
            None => return true,
        }
    }
    let periods = bank.periods.iter().zip(&bank.phases).take(blocks.len());
    for (period, phase) in periods {
        if ![1, 2, 4, 8].contains(period) || phase >= period {
            return true;
        }
    }
    let rows: usize = blocks.iter().flatten().map(|cell| cell.rows).sum();
    let due = |place: usize, scan: u8| scan % bank.periods[place] == bank.phases[place];
    for scan in 0..8 {
        let places = (0..blocks.len()).filter(|&place| due(place, scan));
        let count: usize = places.map(|place| blocks[place].len()).sum();
        if count > usize::from(bank.limit) {
            return true;
        }
    }
    let (block, cell) = (usize::from(scan.block), usize::from(scan.cell));
    let outside = || {
        block >= blocks.len()
            || cell >= blocks[block].len()
            || u32::from(scan.rail) >= 1 << blocks[block][cell].upper_rails
            || !due(block, scan.number)
    };
    rows > 32_768 || scan.number > 7 || scan.running && outside()
}

#[test]
fn random_damage() {
    let mut seed = 0x9e37_79b9_7f4a_7c15u64;
    let mut roll = |sides: u64| {
        seed ^= seed << 13;
        seed ^= seed >> 7;
        seed ^= seed << 17;
        (seed >> 11) % sides
    };
    let (mut good, mut bad) = (0, 0);
    for _ in 0..100_000 {
        let (mut bank, mut scan, rows) = midway();
        for _ in 0..1 + roll(3) {
            let byte = [0, 1, 2, 3, 4, 6, 8, 9, 128, 255][roll(10) as usize];
            let place = roll(8) as usize;
            match roll(12) {
                0 => bank.limit = [0, 2, 3, 4, 255, 256, 65_535][roll(7) as usize],
                1 => bank.count = byte,
                2 => bank.lengths[place] = byte,
                3 => bank.records[place % 2][roll(80) as usize] = byte,
                4 => scan.running = byte % 2 == 0,
                5 => scan.block = byte,
                6 => scan.cell = byte,
                7 => scan.rail = u16::from(byte) << roll(9),
                8 => scan.number = byte,
                9 => bank.periods[place % 2] = byte,
                10 => {
                    let (period, phase) = RIGHT[roll(15) as usize];
                    (bank.periods[place % 2], bank.phases[place % 2]) = (period as u8, phase as u8);
                }
                _ => scan.words[place] = roll(65_536) as u16,
            }
        }
        let length = [64, 32, 63, 0][roll(4) as usize].min(rows.len());
        if plainly_damaged(&bank, &scan) {
            assert_refused(&bank, &scan, &rows[..length]);
            bad += 1;
            continue;
        }
        good += 1;
        let before = scan.clone();
        let mut quick = scan.clone();
        let quick_answer = fast::step::step(&bank, &mut quick, &rows[..length]);
        let answer = step(&bank, &mut scan, &rows[..length]);
        assert_eq!((quick_answer, &quick), (answer, &scan));
        let held = bank.records.iter().zip(&bank.lengths);
        let need: usize = held
            .take(usize::from(bank.count))
            .flat_map(|(records, length)| cells(&records[..4 * usize::from(*length)]).unwrap())
            .map(|cell| 2 * cell.rows)
            .sum();
        let expected = match before.running {
            false => Step::Idle,
            true if length < need => Step::Refused(11),
            true => went(before.block, before.cell),
        };
        assert_eq!(answer, expected);
        assert_eq!(scan == before, !matches!(answer, Step::Went { .. }));
        assert_eq!(latch(&bank, &mut scan, [5; 8]), Ok(()));
        let mut room = vec![0; 80_000];
        let answer = admit(&mut bank, &mut scan, &mut room, &A_RECORDS, &A_ROWS);
        assert!(matches!(answer, Ok(()) | Err(14)));
    }
    assert!(good > 10_000 && bad > 10_000, "{good} {bad}");
}
