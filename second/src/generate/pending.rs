//! Jobs of copied inputs, where the least K and L that admit a cut list are known by construction.

use super::random::Random;
use super::sheet::{bytes, Record};
use crate::job::Job;

/// Each of some outputs copies (or negates) an input of its own; other variables are free. The rails at a
/// height are then the inputs read above it whose output stands below, and when any list of cells
/// meets K and L the list of single-variable cells does too. `tight` asks for K or L one short.
pub fn pending(random: &mut Random, tight: bool) -> Job {
    loop {
        let copies = random.within(1, 8);
        let n = random.within(copies, (copies + 3).min(12));
        let m = random.within(copies, (copies + 2).min(8));
        let inputs = random.permutation(n);
        let outputs = random.permutation(m);
        let order = order(random, copies, &inputs, &outputs);
        let (least_inputs, least_outputs) = least_limits(&order, &inputs, &outputs, copies);
        let loose_inputs = least_inputs.max(2);
        let mut limits = (loose_inputs, least_outputs);
        if tight {
            let kind = random.below(3);
            if kind != 1 {
                limits.0 = least_inputs.saturating_sub(1);
            }
            if kind != 0 {
                limits.1 = least_outputs - 1;
            }
            if limits.0 < 2 || limits.1 < 1 {
                continue;
            }
            if kind == 0 {
                limits.1 = random.within(limits.1, 16);
            } else if kind == 1 {
                limits.0 = random.within(limits.0, 12);
            }
        }
        let mut records = Vec::new();
        for (input, output) in inputs.iter().zip(&outputs).take(copies) {
            let flip = random.coin();
            let mask = 1 << input;
            records.push(Record::new(mask, 0).forcing(*output, flip));
            records.push(Record::new(mask, mask).forcing(*output, !flip));
        }
        random.shuffle(&mut records);
        return Job {
            inputs: n as u64,
            outputs: m as u64,
            cell_inputs: limits.0 as u64,
            cell_outputs: limits.1 as u64,
            order,
            sheet: bytes(&records),
        };
    }
}

/// Copied inputs first come first served, each output at a random place below its input; free variables anywhere.
fn order(random: &mut Random, copies: usize, inputs: &[u8], outputs: &[u8]) -> Vec<u8> {
    let mut order: Vec<u8> = inputs[..copies].to_vec();
    let near = random.coin();
    for (place, output) in outputs.iter().enumerate().take(copies) {
        let input = order.iter().position(|v| *v == inputs[place]).unwrap_or(0);
        let last = order.len();
        let end = if near { last.min(input + 4) } else { last };
        order.insert(random.within(input + 1, end), 128 + output);
    }
    let free_outputs = outputs[copies..].iter().map(|output| 128 + output);
    for variable in inputs[copies..].iter().copied().chain(free_outputs) {
        order.insert(random.within(0, order.len()), variable);
    }
    order
}

/// The least K and L that let each variable be a cell of its own.
fn least_limits(order: &[u8], inputs: &[u8], outputs: &[u8], copies: usize) -> (usize, usize) {
    let (mut least_inputs, mut least_outputs) = (1, 1);
    let mut rails = 0;
    for variable in order {
        let upper = rails;
        if *variable < 128 {
            rails += usize::from(inputs[..copies].contains(variable));
            least_inputs = least_inputs.max(upper + 1);
            least_outputs = least_outputs.max(rails);
        } else {
            rails -= usize::from(outputs[..copies].contains(&(variable - 128)));
            least_inputs = least_inputs.max(upper);
            least_outputs = least_outputs.max(rails + 1);
        }
    }
    (least_inputs, least_outputs)
}
