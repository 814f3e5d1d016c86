//! Tables with faults: one or several, at one node or at several, for each of the numbers 1 to 8. (Number 9 comes from
//! programs that are too deep.)

use crate::oracle::table::{class_of, words_used, Class, Word};
use crate::random::Random;

/// Where in a frame of this kind a word of the wanted sort stands.
fn slots(kind: u32, wanted: impl Fn(Word) -> bool) -> Vec<usize> {
    let used = words_used(kind).unwrap_or([Word::Number; 3]);
    (0..3).filter(|&i| wanted(used[i])).map(|i| i + 1).collect()
}

pub fn child_slots(kind: u32) -> Vec<usize> {
    slots(kind, |word| matches!(word, Word::Child(_)))
}

/// Up to four faults at nodes, and others.
pub fn damage(random: &mut Random, table: &mut Vec<u32>) {
    match random.below(8) {
        0..=2 => several_at_one_node(random, table),
        3..=5 => {
            for _ in 0..random.from(1, 4) {
                let number = random.from(2, 6);
                at_some_node(random, table, number);
            }
        }
        _ => {}
    }
    match random.below(12) {
        0 | 1 => end_in_expression(random, table),
        2..=4 => name_another(random, table),
        5 => forget_children(random, table),
        6 => name_often(random, table),
        _ => {}
    }
    if random.once_in(12) {
        change_word_count(random, table);
    }
}

fn several_at_one_node(random: &mut Random, table: &mut [u32]) {
    let lowest = random.from(2, 6);
    let Some(node) = at_some_node(random, table, lowest) else {
        return;
    };
    for number in lowest + 1..=6 {
        if random.once_in(2) {
            at_node(random, table, node, number);
        }
    }
}

/// Tries nodes until one takes a fault of this number. Each kind in the table has the same chance: the faults of a kind
/// that is rare, as the while, must occur often too.
fn at_some_node(random: &mut Random, table: &mut [u32], number: usize) -> Option<usize> {
    let mut kinds: Vec<u32> = table.chunks_exact(4).map(|frame| frame[0]).collect();
    kinds.sort_unstable();
    kinds.dedup();
    for _ in 0..20 {
        let kind = random.pick(&kinds);
        let nodes: Vec<usize> = (0..table.len() / 4).filter(|&node| table[4 * node] == kind).collect();
        let node = random.pick(&nodes);
        if at_node(random, table, node, number) {
            return Some(node);
        }
    }
    None
}

/// Gives the node a fault of this number, if its kind allows it.
fn at_node(random: &mut Random, table: &mut [u32], node: usize, number: usize) -> bool {
    let kind = table[4 * node];
    let places = match number {
        2 => vec![0],
        3 => slots(kind, |word| word == Word::Unused),
        4 => slots(kind, |word| word == Word::Variable),
        _ => child_slots(kind),
    };
    if places.is_empty() {
        return false;
    }
    let slot = random.pick(&places);
    let wrong = match number {
        2 => random.pick(&[0, 9, 15, 23, 31, 37, 64, 33 + 256, 0x2100_0000, u32::MAX]),
        3 => random.pick(&[1, 2, 31, 1 << 31, u32::MAX]),
        4 => random.pick(&[32, 33, 64, 256, 1 << 31, u32::MAX]),
        5 => random.pick(&[node as u32, node as u32 + 1, node as u32 + (1 << 30), 1024, u32::MAX]),
        _ => match lower_node_of_wrong_class(random, table, node, slot) {
            Some(child) => child,
            None => return false,
        },
    };
    table[4 * node + slot] = wrong;
    true
}

fn lower_node_of_wrong_class(random: &mut Random, table: &[u32], node: usize, slot: usize) -> Option<u32> {
    let right = class_wanted(table, node, slot);
    let wrong: Vec<usize> = (0..node).filter(|&child| class_of(table[4 * child]) != right).collect();
    (!wrong.is_empty()).then(|| random.pick(&wrong) as u32)
}

fn class_wanted(table: &[u32], node: usize, slot: usize) -> Option<Class> {
    match words_used(table[4 * node])?[slot - 1] {
        Word::Child(class) => Some(class),
        _ => None,
    }
}

/// Number 7: another node after the root, or the table cut short.
fn end_in_expression(random: &mut Random, table: &mut Vec<u32>) {
    if random.once_in(2) {
        table.extend(random.pick(&[[1, 7, 0, 0], [2, 31, 0, 0], [16, 0, 0, 0]]));
    } else {
        let nodes = random.from(1, table.len() / 4);
        table.truncate(4 * nodes);
    }
}

/// Number 8: a child word names another lower node of the same class, so that one node has two parents, or one parent
/// twice, and another node has none.
fn name_another(random: &mut Random, table: &mut [u32]) {
    for _ in 0..20 {
        let node = random.below(table.len() / 4);
        let places = child_slots(table[4 * node]);
        if places.is_empty() {
            continue;
        }
        let slot = random.pick(&places);
        let right = class_wanted(table, node, slot);
        let others: Vec<usize> = (0..node).filter(|&other| class_of(table[4 * other]) == right).collect();
        if others.len() > 1 {
            table[4 * node + slot] = random.pick(&others) as u32;
            return;
        }
    }
}

/// Number 8 at any node of a large table: one node is named once, twice or three times more, in the place of others, which nobody
/// names then. Now and then only children above it lose their name, so that it is the lowest of all.
pub fn name_often(random: &mut Random, table: &mut [u32]) {
    let last = table.len() / 4 - 1;
    let target = if random.once_in(3) { last - random.below(last.min(40) + 1) } else { random.below(last + 1) };
    let lowest = random.once_in(2);
    let mut words: Vec<usize> = (target + 1..=last)
        .flat_map(|node| child_slots(table[4 * node]).into_iter().map(move |slot| 4 * node + slot))
        .filter(|&word| class_wanted(table, word / 4, word % 4) == class_of(table[4 * target]))
        .filter(|&word| !lowest || table[word] as usize > target)
        .collect();
    for _ in 0..random.from(1, 3) {
        if !words.is_empty() {
            table[words.swap_remove(random.below(words.len()))] = target as u32;
        }
    }
}

/// Number 8 again: a node becomes a leaf, and nobody names the children that it had.
fn forget_children(random: &mut Random, table: &mut [u32]) {
    let node = random.below(table.len() / 4);
    let leaf = match class_of(table[4 * node]) {
        Some(Class::Arithmetic) => [1, 5, 0, 0],
        Some(Class::Boolean) => [17, 0, 0, 0],
        Some(Class::Statement) => [32, 0, 0, 0],
        None => return,
    };
    table[4 * node..4 * node + 4].copy_from_slice(&leaf);
}

/// Number 1.
fn change_word_count(random: &mut Random, table: &mut Vec<u32>) {
    let extra = random.from(1, 3);
    match random.below(4) {
        0 => table.clear(),
        1 => table.truncate(table.len() - extra),
        2 => table.resize(table.len() + extra, 0),
        _ => table.resize(random.pick(&[4097, 4098, 4099, 4100, 5000]), 0),
    }
}
