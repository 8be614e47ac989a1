//! Lists of calls as text: what `replay` and the program print, sentence by sentence of docs/REPLAY.md. Blanks and lines that can't be
//! read are in the folder beside, with the limits.

#[path = "replay/limits.rs"]
mod limits;
#[path = "replay/lines.rs"]
mod lines;

use second::generate::{
    block, call_line, calls, passed_over, period_spelt, respelt, scans, text, Random, Scans,
};
use second::replay::printed;
use second::run::output_of;

const PROGRAM: &str = env!("CARGO_BIN_EXE_second_bank");

/// Case A's block, twice two cells.
const BLOCK: &str = "000000000100000002010200800000000300000081010000 \
                     0000010002000200000003000200020001000100000000000200030002000200";

const MEMORY: &str = "memory N, where N is one to five digits and at most 65536";
const BANK: &str = "bank S, where S is one to five digits and at most 65535";
const ADMIT: &str = "admit RECORDS ROWS or admit RECORDS ROWS PERIOD PHASE, where RECORDS and ROWS are in base 16, two digits a byte \
                     and at most 65535 bytes, or - for none, and PERIOD and PHASE one to three digits and at most 255";
const LATCH: &str = "latch and eight words of four digits in base 16";
const STEP: &str = "step and nothing after it";
const OTHER: &str = "bank, admit, latch or step";

fn not_understood(place: usize, expected: &str) -> String {
    format!("line {place}: not understood, expected {expected}\n")
}

/// What both print.
fn both(text: &[u8]) -> String {
    let output = output_of(PROGRAM, &[], text);
    assert_eq!(output, printed(text));
    output
}

#[test]
fn a_whole_scan() {
    let text = format!(
        "memory 64\n# two blocks\nstep\n\nbank 4\nadmit {BLOCK}\nadmit {BLOCK}\nadmit {BLOCK}\nadmit - -\n\
         latch 000d fffD 0000 0000 0000 0000 0000 ffff\nstep\nstep\nstep\nstep\nstep\nbank 0\nbank 256\nbank 1\nstep"
    );
    let expected = "refused 12\nok\nok 0:........\nok 0:........ 1:........\n\
                    refused 14 0:........ 1:........\nrefused 12 0:........ 1:........\n\
                    ok 0:........ 1:........\nwent 0 0 0:........ 1:........\n\
                    went 0 1 0:10...... 1:........\nwent 1 0 0:10...... 1:........\n\
                    went 1 1 0:10...... 1:10......\nidle 0:10...... 1:10......\n\
                    refused 1 0:10...... 1:10......\nrefused 1 0:10...... 1:10......\nok\nidle\n";
    assert_eq!(both(text.as_bytes()), expected);
    assert_eq!(both(text.replace('\n', "\r\n").as_bytes()), expected);
    let wide = text.replace(' ', "\t  ").replace('\n', " \t\n\t");
    assert_eq!(both(wide.as_bytes()), expected);
    let capital = text.replace(BLOCK, &BLOCK.to_uppercase());
    assert_eq!(both(capital.as_bytes()), expected);
}

#[test]
fn no_bank_made() {
    let latch = format!("latch{}", " 0000".repeat(8));
    let text = format!("memory 64\nstep\nadmit {BLOCK}\nadmit - -\n{latch}\nbank 0\nstep\nbank 65535\nbank 255\nstep\n");
    let expected = "refused 12\n".repeat(4) + "refused 1\nrefused 12\nrefused 1\nok\nidle\n";
    assert_eq!(both(text.as_bytes()), expected);
}

/// A row is two bytes, low byte first: a cell with y1 to y8 and a rail, and one below it.
#[test]
fn rows_of_two_bytes() {
    let outputs: String = (0x80..0x88)
        .map(|output| match output {
            0x87 => "87010100".to_string(),
            _ => format!("{output:02x}000000"),
        })
        .collect();
    let text = format!(
        "memory 10\nbank 2\nadmit {outputs}00010000 02010000000000000000\nlatch{}\nstep\n",
        " 0000".repeat(8)
    );
    // 258 is 1 0000 0010 in base 2: y1 is the topmost bit, the rail the lowest.
    assert_eq!(
        both(text.as_bytes()),
        "ok\nok 0:........\nok 0:........\nwent 0 0 0:10000001\n"
    );
}

/// The block with period 2 and phase 1 is read in every other scan, and keeps its outputs in the scans between.
#[test]
fn slow_blocks() {
    let word = |word: &str| format!("latch{}\n", format!(" {word}").repeat(8));
    let (latch_d, latch_0) = (word("000d"), word("0000"));
    let text = format!(
        "memory 64\nbank 2\nadmit {BLOCK} 2 1\n{latch_d}step\n{latch_d}step\nstep\nstep\n{latch_0}step\nadmit {BLOCK} 3 0\n\
         admit {BLOCK} 2 2\nadmit {BLOCK} 4 3\nadmit {BLOCK}\n{latch_0}step\n{latch_d}{latch_d}{latch_0}step\n"
    );
    let expected = "ok\nok 0:........\nok 0:........\nidle 0:........\n\
                    ok 0:........\nwent 0 0 0:........\nwent 0 1 0:10......\nidle 0:10......\n\
                    ok 0:10......\nidle 0:10......\nrefused 16 0:10......\nrefused 16 0:10......\n\
                    refused 14 0:10......\nrefused 14 0:10......\n\
                    ok 0:........\nwent 0 0 0:........\nok 0:........\nok 0:........\nok 0:........\nidle 0:........\n";
    assert_eq!(both(text.as_bytes()), expected);
    // In scan 0 there is room for another one; the admission numbers the scans anew.
    let text = format!(
        "memory 64\nbank 2\nadmit {BLOCK} 002 01\n{latch_d}{latch_d}admit {BLOCK} 8 000\n{latch_d}step\nstep\nstep\n{latch_d}step\nstep\n"
    );
    let expected = "ok\nok 0:........\nok 0:........\nok 0:........\nok 0:........ 1:........\n\
                    ok 0:........ 1:........\nwent 1 0 0:........ 1:........\nwent 1 1 0:........ 1:10......\nidle 0:........ 1:10......\n\
                    ok 0:........ 1:10......\nwent 0 0 0:........ 1:10......\nwent 0 1 0:10...... 1:10......\n";
    assert_eq!(both(text.as_bytes()), expected);
}

/// A bank made anew holds no block.
#[test]
fn a_bank_made_anew() {
    let text = format!(
        "memory 64\nbank 255\nadmit {BLOCK}\nlatch{}\nstep\nstep\nbank 255\nlatch{0}\nstep\nadmit {BLOCK}\nlatch{0}\nstep\nstep\n",
        " 000d".repeat(8)
    );
    assert_eq!(
        both(text.as_bytes()),
        "ok\nok 0:........\nok 0:........\nwent 0 0 0:........\nwent 0 1 0:10......\n\
         ok\nok\nidle\nok 0:........\nok 0:........\nwent 0 0 0:........\nwent 0 1 0:10......\n"
    );
}

/// One line for each call, whatever blanks and whatever lines without a call stand between them.
#[test]
fn spellings_of_a_list() {
    let random = &mut Random::new(1, 31, 0);
    let (mut accepted, mut periods) = (0, 0);
    for index in 0..300 {
        let blocks: Vec<_> = (4 * index..4 * index + 4)
            .map(|place| block(31, place))
            .filter(|(_, rows)| rows.len() <= 1_000)
            .collect();
        let (limit, memory, list) = match index % 5 {
            0 => scans(Scans::ALL[index as usize / 5 % 4], 31, index, &blocks),
            _ => calls(31, index, &blocks),
        };
        let mut lines = vec![
            format!("memory {}", memory.min(65_536)).into_bytes(),
            format!("bank {limit}").into_bytes(),
        ];
        lines.extend(
            list.iter()
                .map(|call| call_line(call, random.coin()).into_bytes()),
        );
        let plain = both(&text(&lines));
        assert_eq!(plain.lines().count(), lines.len() - 1);
        accepted += plain.lines().filter(|line| line.starts_with("ok")).count();
        let mut more = Vec::new();
        for line in lines {
            more.push(line);
            while random.percent(20) {
                more.push(passed_over(random));
            }
        }
        for line in more.iter_mut().filter(|line| line.starts_with(b"admit ")) {
            let plain = String::from_utf8_lossy(line);
            let other = period_spelt(random, &plain).into_bytes();
            periods += usize::from(other != *line);
            *line = other;
        }
        let spelt = respelt(random, &more);
        assert_eq!(
            printed(&spelt),
            plain,
            "{}",
            String::from_utf8_lossy(&spelt)
        );
    }
    assert!(accepted > 500 && periods > 300, "{accepted} {periods}");
}
