//! Hand-written code over the nodes of a table: gaps, jumps to itself and outside; and code with faults.

use crate::oracle::code::{ASSIGN, GOTO, IFNOT};
use crate::oracle::table::{class_at, Class};
use crate::random::Random;

/// Code that keeps the rules.
pub fn code(random: &mut Random, table: &[u32]) -> Vec<u32> {
    let count = match random.below(30) {
        0 => 0,
        1 => 1024,
        2 => random.from(100, 1024),
        _ => random.from(1, 16),
    };
    let labels = rising_labels(random, count);
    let nodes = Expressions::of(table);
    let mut code = Vec::with_capacity(4 * count);
    for &label in &labels {
        let target = target(random, &labels, label);
        code.push(label);
        code.extend(instruction(random, &nodes, target));
    }
    code
}

/// Labels with gaps, from the bottom, the middle or up to the last one allowed.
fn rising_labels(random: &mut Random, count: usize) -> Vec<u32> {
    let tight = random.once_in(2);
    let mut labels = Vec::with_capacity(count);
    let mut next = random.pick(&[0, 0, 1, 1, 7, 1000]);
    for _ in 0..count {
        labels.push(next);
        next += if tight || !random.once_in(4) { 1 } else { random.from(1, 30) as u32 };
    }
    if let (true, Some(&last)) = (random.once_in(5), labels.last()) {
        let shift = 65_534 - last;
        labels.iter_mut().for_each(|label| *label += shift);
    }
    labels
}

/// A label of the code, the instruction's own, one near, or one outside.
fn target(random: &mut Random, labels: &[u32], own: u32) -> u32 {
    match random.below(12) {
        0 => own,
        1 => own + 1,
        2 => own.saturating_sub(1),
        3 => random.pick(&[0, 65_534, 65_535]),
        4 => random.below(65_536) as u32,
        _ => random.pick(labels),
    }
}

/// The nodes that instructions may name.
struct Expressions {
    arithmetic: Vec<u32>,
    boolean: Vec<u32>,
}

impl Expressions {
    fn of(table: &[u32]) -> Self {
        let nodes_of = |class| {
            let nodes = (0..table.len() / 4).filter(|&node| class_at(table, node) == Some(class));
            nodes.map(|node| node as u32).collect()
        };
        Expressions { arithmetic: nodes_of(Class::Arithmetic), boolean: nodes_of(Class::Boolean) }
    }
}

/// Operation, x and y. A table may lack nodes of a class; a goto is always possible.
fn instruction(random: &mut Random, nodes: &Expressions, target: u32) -> [u32; 3] {
    match random.below(4) {
        0 | 1 if !nodes.arithmetic.is_empty() => {
            [ASSIGN, random.pick(&[0, 1, 2, 3, 31]), random.pick(&nodes.arithmetic)]
        }
        2 if !nodes.boolean.is_empty() => [IFNOT, random.pick(&nodes.boolean), target],
        _ => [GOTO, 0, target],
    }
}

/// One to three faults. Now and then they happen to break no rule.
pub fn damage(random: &mut Random, table: &[u32], code: &mut Vec<u32>) {
    if code.is_empty() || random.once_in(10) {
        return change_word_count(random, code);
    }
    for _ in 0..random.from(1, 3) {
        let position = random.below(code.len() / 4);
        break_instruction(random, table, code, position);
    }
    if random.once_in(20) {
        change_word_count(random, code);
    }
}

fn change_word_count(random: &mut Random, code: &mut Vec<u32>) {
    let extra = random.from(1, 3);
    match random.below(3) {
        0 => code.resize(random.pick(&[4097, 4098, 4100, 5120]), 0),
        1 if code.len() >= 4 => code.truncate(code.len() - extra),
        _ => code.resize(code.len() + extra, 0),
    }
}

fn break_instruction(random: &mut Random, table: &[u32], code: &mut [u32], position: usize) {
    let nodes = (table.len() / 4) as u32;
    let before = if position == 0 { 0 } else { code[4 * position - 4] };
    let frame = &mut code[4 * position..4 * position + 4];
    let over = random.pick(&[65_536, 65_537, 1 << 20, u32::MAX]);
    match random.below(8) {
        0 => frame[0] = random.pick(&[65_535, over]),
        1 if position > 0 => frame[0] = before,
        2 if position > 0 => frame[0] = before.saturating_sub(1),
        3 => frame[1] = random.pick(&[0, 4, 256 + 1, u32::MAX]),
        // The other operations over the same words: a node of the wrong class, or a goto whose x is not 0.
        4 => frame[1] = frame[1] % 3 + 1,
        5 => {
            frame[2] = match frame[1] {
                ASSIGN => random.pick(&[32, 33, u32::MAX]),
                GOTO => random.pick(&[1, 5, u32::MAX]),
                _ => random.pick(&[0, nodes - 1, nodes, nodes + (1 << 30), u32::MAX]),
            }
        }
        6 => {
            frame[3] = match frame[1] {
                ASSIGN => random.pick(&[nodes - 1, nodes, nodes + (1 << 30), u32::MAX]),
                _ => over,
            }
        }
        _ => frame[2 + random.below(2)] = random.below(nodes as usize) as u32,
    }
}
