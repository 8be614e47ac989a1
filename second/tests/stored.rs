//! The stored form: case A's cascade, every single way of being not well formed, reading, writing, emitting. Values and numbers of
//! rows are in the folder beside.

#[path = "stored/rows.rs"]
mod rows;
#[path = "stored/shape.rs"]
mod shape;

use second::stored::{cells, emit, rail_words, read, well_formed, write, Cascade, Record};
use shape::plain_shape;

const A_RECORDS: [u8; 24] = [
    0x00, 0, 0, 0, 0x01, 0, 0, 0, 0x02, 1, 2, 0, 0x80, 0, 0, 0, 0x03, 0, 0, 0, 0x81, 1, 0, 0,
];
#[rustfmt::skip]
const A_ROWS: [u8; 32] = [
    0, 0, 1, 0, 2, 0, 2, 0, 0, 0, 3, 0, 2, 0, 2, 0,
    1, 0, 1, 0, 0, 0, 0, 0, 2, 0, 3, 0, 2, 0, 2, 0,
];

/// Table 1 of document 000, x1 most significant: y1 then y2, `d` for free.
const TABLE: [&str; 16] = [
    "d1", "d1", "00", "00", "dd", "dd", "10", "11", "01", "01", "10", "10", "1d", "1d", "d0", "d1",
];

fn records(list: &[(u8, u8, u8)]) -> Vec<u8> {
    list.iter().flat_map(|&(v, c, r)| [v, c, r, 0]).collect()
}

/// The bytes of rows.
fn bytes(rows: &[u16]) -> Vec<u8> {
    let pair = |row: &u16| [(row & 255) as u8, (row >> 8) as u8];
    rows.iter().flat_map(pair).collect()
}

struct Dice(u64);

impl Dice {
    fn roll(&mut self, sides: u64) -> u64 {
        self.0 ^= self.0 << 13;
        self.0 ^= self.0 >> 7;
        self.0 ^= self.0 << 17;
        (self.0 >> 11) % sides
    }
}

#[test]
fn cells_of_case_a() {
    let cells = cells(&A_RECORDS).unwrap();
    assert_eq!(cells.len(), 2);
    let [top, low] = &cells[..] else { panic!() };
    assert_eq!((top.top, top.length, top.rows, top.bits()), (0, 3, 8, 16));
    assert_eq!((top.upper_rails, top.lower_rails), (0, 2));
    assert_eq!(
        (&top.inputs[..], &top.outputs[..]),
        (&[0, 1, 2][..], &[][..])
    );
    assert_eq!((low.top, low.length, low.rows, low.bits()), (3, 3, 8, 16));
    assert_eq!((low.upper_rails, low.lower_rails), (2, 0));
    assert_eq!((&low.inputs[..], &low.outputs[..]), (&[3][..], &[0, 1][..]));
    assert_eq!(low.variables, [0x80, 3, 0x81]);
}

#[test]
fn case_a_survives_both_ways() {
    assert!(well_formed(&A_RECORDS, &A_ROWS));
    let cascade = read(&A_RECORDS, &A_ROWS).unwrap();
    let third = Record {
        variable: 2,
        cut: true,
        rails: 2,
    };
    assert_eq!((cascade.records.len(), cascade.records[2]), (6, third));
    let (mut stored, mut rows) = ([7; 30], [7; 35]);
    assert_eq!(write(&cascade, &mut stored, &mut rows), Ok(()));
    assert_eq!(
        (&stored[..24], &stored[24..]),
        (&A_RECORDS[..], &[7; 6][..])
    );
    assert_eq!((&rows[..32], &rows[32..]), (&A_ROWS[..], &[7; 3][..]));
    assert_eq!(read(&stored[..24], &rows[..32]), Ok(cascade));
}

#[test]
fn case_a_emits_table_1() {
    for word in 0..16u16 {
        let emitted = emit(&A_RECORDS, &A_ROWS, word).unwrap();
        // Input 0 is x1, the most significant in the table's order.
        let line = TABLE[usize::from(word.reverse_bits() >> 12)];
        for (output, value) in line.chars().enumerate() {
            match value {
                'd' => assert!(emitted[output].is_some()),
                _ => assert_eq!(emitted[output], Some(value == '1'), "word {word}"),
            }
        }
        assert_eq!(emitted[2..], [None; 6]);
        let address = usize::from((word & 7).reverse_bits() >> 13);
        let rails = rail_words(&A_RECORDS, &A_ROWS, word).unwrap();
        assert_eq!(rails, [u16::from(A_ROWS[2 * address]), 0]);
        assert_eq!(emit(&A_RECORDS, &A_ROWS, word | 0xfff0), Some(emitted));
    }
    assert_eq!(emit(&A_RECORDS, &A_ROWS[1..], 0), None);
    assert_eq!(rail_words(&A_RECORDS[4..], &A_ROWS, 0), None);
}

#[test]
fn small_cells() {
    // A cell without inputs has one row; one without outputs has rows 0.
    let no_inputs = records(&[(128, 1, 0), (0, 1, 0), (129, 0, 0), (1, 1, 0)]);
    assert!(well_formed(&no_inputs, &bytes(&[1, 0, 0, 0, 1])));
    let emitted = emit(&no_inputs, &bytes(&[1, 0, 0, 0, 1]), 2).unwrap();
    assert_eq!(emitted[..3], [Some(true), Some(true), None]);
    assert!(!well_formed(&no_inputs, &bytes(&[2, 0, 0, 0, 1])));
    assert!(!well_formed(&no_inputs, &bytes(&[1, 0, 1, 0, 1])));
    assert!(!well_formed(&no_inputs, &bytes(&[1, 0, 0, 0, 2])));
    // Eight outputs: every low byte will do, and no high byte but 0.
    let mut eight: Vec<_> = (128..136).map(|v| (v, 0, 0)).collect();
    eight[7].1 = 1;
    assert!(well_formed(&records(&eight), &[255, 0]));
    for wrong in [&[][..], &[255], &[255, 1], &[0, 1], &[255, 0, 0], &[0; 4]] {
        assert!(!well_formed(&records(&eight), wrong));
    }
    // All twenty variables.
    let mut all: Vec<_> = (0..12).chain(128..136).map(|v| (v, 0, 0)).collect();
    all[19].1 = 1;
    assert!(well_formed(&records(&all), &bytes(&[255; 4096])));
    // Rails alone can fill a cell.
    let full = records(&[(0, 1, 11), (1, 1, 12), (128, 1, 0)]);
    let rows = [[2_047; 2].as_slice(), &[4_095; 4_096], &[1; 4_096]].concat();
    assert!(well_formed(&full, &bytes(&rows)));
}

/// Record bytes that are not well formed whatever the rows.
fn bad_records() -> Vec<Vec<u8>> {
    let mut bad = vec![vec![], A_RECORDS[..23].to_vec(), A_RECORDS[..1].to_vec()];
    bad.push([&A_RECORDS[..], &[0]].concat());
    let mut change = |place: usize, values: &[u8]| {
        for &value in values {
            let mut bytes = A_RECORDS.to_vec();
            bytes[place] = value;
            bad.push(bytes);
        }
    };
    for record in 0..6 {
        change(4 * record + 1, &[2, 3, 128, 255]);
        change(4 * record + 3, &[1, 255]);
        // Variables of no kind, then those that stand elsewhere.
        change(4 * record, &[12, 13, 127, 136, 255]);
        for other in (0..6).filter(|other| *other != record) {
            change(4 * record, &[A_RECORDS[4 * other]]);
        }
    }
    for record in [0, 1, 3, 4] {
        change(4 * record + 2, &[1, 2, 255]);
    }
    change(4 * 5 + 1, &[0]);
    change(4 * 5 + 2, &[1, 8, 9, 16, 64, 255]);
    // Too many rails above a cell, or 17 and more outputs.
    change(4 * 2 + 2, &[12, 13, 16, 17, 63, 64, 65, 128, 255]);
    // Seventeen outputs: five variables and twelve rails, which the cell below could have.
    let mut many: Vec<_> = (128..133).map(|v| (v, 0, 0)).collect();
    many[4] = (132, 1, 12);
    many.push((133, 1, 0));
    bad.push(records(&many));
    // Thirteen inputs: eight rails and five variables, twelve and one, thirteen.
    let five = [(1, 0, 0), (2, 0, 0), (3, 0, 0), (4, 0, 0), (5, 1, 0)];
    bad.push(records(&[&[(0, 1, 8)], &five[..]].concat()));
    bad.push(records(&[(0, 1, 12), (1, 1, 0)]));
    bad.push(records(&[(0, 1, 13), (128, 1, 0)]));
    // Twenty-one records.
    let mut many: Vec<_> = (0..12)
        .chain(128..136)
        .chain([11])
        .map(|v| (v, 1, 0))
        .collect();
    bad.push(records(&many));
    many[20].0 = 12;
    bad.push(records(&many));
    bad
}

#[test]
fn each_way_of_being_not_well_formed_is_12() {
    for bytes in bad_records() {
        assert_eq!(cells(&bytes), None, "{bytes:?}");
        assert_eq!(read(&bytes, &A_ROWS), Err(12), "{bytes:?}");
        assert_eq!(emit(&bytes, &A_ROWS, 0), None);
    }
    for length in (0..70).filter(|length| *length != 32) {
        assert_eq!(read(&A_RECORDS, &[0; 70][..length]), Err(12));
    }
    for place in 0..32 {
        for value in 0..=255 {
            let mut rows = A_ROWS;
            rows[place] = value;
            let most = if place % 2 == 0 { 3 } else { 0 };
            assert_eq!(read(&A_RECORDS, &rows).is_ok(), value <= most);
        }
    }
}

#[test]
fn writing_refuses_12_then_10_then_11() {
    let good = read(&A_RECORDS, &A_ROWS).unwrap();
    let mut short = good.clone();
    short.rows.pop();
    let mut shorter = short.clone();
    shorter.rows.pop();
    let mut high = good.clone();
    high.rows[6] = 4;
    let mut higher = good.clone();
    higher.rows[7] = 1;
    let mut open = good.clone();
    open.records[5].cut = false;
    let mut rails = good.clone();
    rails.records[0].rails = 1;
    let empty = Cascade {
        records: vec![],
        rows: vec![],
    };
    let many = Cascade {
        records: vec![good.records[5]; 21],
        rows: vec![0; 42],
    };
    for bad in [
        &short, &shorter, &high, &higher, &open, &rails, &empty, &many,
    ] {
        for (record_bytes, row_bytes) in [(100, 100), (24, 0), (0, 32), (0, 0)] {
            let (mut stored, mut rows) = (vec![7; record_bytes], vec![7; row_bytes]);
            assert_eq!(write(bad, &mut stored, &mut rows), Err(12));
            assert_eq!((stored, rows), (vec![7; record_bytes], vec![7; row_bytes]));
        }
    }
    for (record_bytes, row_bytes, answer) in [
        (23, 32, Err(10)),
        (0, 100, Err(10)),
        (23, 31, Err(10)),
        (24, 16, Err(11)),
        (24, 31, Err(11)),
        (100, 0, Err(11)),
        (24, 32, Ok(())),
        (24, 33, Ok(())),
    ] {
        let (mut stored, mut rows) = (vec![7; record_bytes], vec![7; row_bytes]);
        assert_eq!(write(&good, &mut stored, &mut rows), answer);
        if answer.is_err() {
            assert_eq!((stored, rows), (vec![7; record_bytes], vec![7; row_bytes]));
        }
    }
}

fn random_records(dice: &mut Dice) -> Vec<u8> {
    let mut variables: Vec<u8> = (0..12).chain(128..136).collect();
    for i in (1..20).rev() {
        variables.swap(i, dice.roll(i as u64 + 1) as usize);
    }
    let t = 1 + dice.roll(20) as usize;
    let (cuts, most) = (1 + dice.roll(8), dice.roll(14));
    let mut list = vec![];
    for (place, &variable) in variables[..t].iter().enumerate() {
        let last = place + 1 == t;
        let cut = u8::from(last || dice.roll(cuts) == 0);
        let rails = if last || cut == 0 {
            0
        } else {
            dice.roll(most + 1) as u8
        };
        list.push((variable, cut, rails));
    }
    records(&list)
}

#[test]
fn random_records_agree_with_the_plain_rules() {
    let mut dice = Dice(0x1234_5678_9abc_def1);
    let (mut good, mut bad) = (0, 0);
    for _ in 0..100_000 {
        let mut bytes = random_records(&mut dice);
        for _ in 0..dice.roll(3) {
            let place = dice.roll(bytes.len() as u64) as usize;
            let values = [0, 1, 2, 4, 8, 11, 12, 16, 127, 128, 135, 136, 255];
            bytes[place] = values[dice.roll(13) as usize];
        }
        let shape = cells(&bytes).map(|cells| {
            let count = |cell: &second::stored::Cell| {
                assert_eq!(cell.rows, 1 << cell.input_count());
                (cell.input_count() as u32, cell.output_count() as u32)
            };
            cells.iter().map(count).collect::<Vec<_>>()
        });
        assert_eq!(shape, plain_shape(&bytes, 16), "{bytes:?}");
        *if shape.is_some() { &mut good } else { &mut bad } += 1;
    }
    assert!(good > 10_000 && bad > 10_000, "{good} {bad}");
}

#[test]
fn random_cascades_emit_what_the_row_bits_say() {
    let mut dice = Dice(99);
    let mut walked = 0;
    while walked < 2_000 {
        let bytes = random_records(&mut dice);
        let Some(shape) = plain_shape(&bytes, 16) else {
            continue;
        };
        let mut values = vec![];
        for &(inputs, outputs) in &shape {
            values.extend((0..1 << inputs).map(|_| dice.roll(1 << outputs) as u16));
        }
        let rows = self::bytes(&values);
        let word = dice.roll(65_536) as u16;
        let (mut expected, mut rails, mut words) = ([None; 8], String::new(), vec![]);
        let (mut first_row, mut record) = (0, 0);
        for &(inputs, outputs) in &shape {
            let (mut address, top) = (rails.clone(), record);
            while record == top || bytes[4 * record - 3] == 0 {
                let variable = bytes[4 * record];
                if variable < 12 {
                    address.push(if word & (1 << variable) != 0 {
                        '1'
                    } else {
                        '0'
                    });
                }
                record += 1;
            }
            let address = usize::from_str_radix(&format!("0{address}"), 2).unwrap();
            let row = format!(
                "{:0width$b}",
                values[first_row + address],
                width = outputs as usize
            );
            let mut bits = row.chars().take(outputs as usize);
            for cell_record in bytes[4 * top..4 * record].chunks(4).filter(|r| r[0] >= 128) {
                expected[usize::from(cell_record[0] - 128)] = Some(bits.next() == Some('1'));
            }
            rails = bits.collect();
            words.push(u16::from_str_radix(&format!("0{rails}"), 2).unwrap());
            first_row += 1 << inputs;
        }
        assert_eq!(emit(&bytes, &rows, word), Some(expected));
        assert_eq!(rail_words(&bytes, &rows, word), Some(words));
        let cascade = read(&bytes, &rows).unwrap();
        let (mut stored, mut row_memory) = (vec![9; bytes.len()], vec![9; rows.len()]);
        assert_eq!(write(&cascade, &mut stored, &mut row_memory), Ok(()));
        assert_eq!((stored, row_memory), (bytes, rows));
        walked += 1;
    }
}
