//! Random inputs: some keep document 01's rules, some break them on purpose, many stand at its limits.

pub mod codes;
pub mod damage;
pub mod programs;
pub mod rules;
pub mod texts;

use crate::oracle::table::{children, VARIABLES};
use crate::random::Random;

/// A value: mostly small, often at a limit of 32 or 16 bits, sometimes anything.
pub fn value(random: &mut Random) -> i32 {
    const LIMITS: [i32; 12] =
        [i32::MIN, i32::MIN + 1, i32::MAX, i32::MAX - 1, -1, 0, 1, 46_341, -46_341, 65_535, 65_536, -65_536];
    match random.below(10) {
        0..=5 => random.from(0, 15) as i32 - 5,
        6..=8 => random.pick(&LIMITS),
        _ => random.word() as i32,
    }
}

pub fn store(random: &mut Random) -> Vec<i32> {
    let flat = random.once_in(6);
    (0..VARIABLES).map(|_| if flat { 0 } else { value(random) }).collect()
}

/// The stores of so many crews, back to back.
pub fn stores(random: &mut Random, crews: usize) -> Vec<i32> {
    (0..crews).flat_map(|_| store(random)).collect()
}

pub fn store_of_wrong_length(random: &mut Random) -> Vec<i32> {
    let length = random.pick(&[0, 1, 31, 33, 64]);
    (0..length).map(|_| value(random)).collect()
}

/// Room with something in it, so that a word altered without need shows.
pub fn room(random: &mut Random, length: usize) -> Vec<u32> {
    (0..length).map(|_| random.word()).collect()
}

pub fn byte_room(random: &mut Random, length: usize) -> Vec<u8> {
    (0..length).map(|_| random.word() as u8).collect()
}

/// A length near the one needed: exact, one too few, one too many, more, or fewer.
pub fn near(random: &mut Random, needed: usize) -> usize {
    match random.below(6) {
        0 | 1 => needed,
        2 => needed.saturating_sub(1),
        3 => needed + 1,
        4 => needed + random.below(80),
        _ => needed - random.below(needed + 1),
    }
}

/// The same program with its nodes in another order: children still lower, the root still last.
pub fn shuffle(random: &mut Random, table: &[u32]) -> Vec<u32> {
    let count = table.len() / 4;
    let mut parent = vec![None; count];
    for node in 0..count {
        for &child in children(table, node) {
            parent[child as usize] = Some(node);
        }
    }
    // How many children of a node have no number yet.
    let mut waiting: Vec<usize> = (0..count).map(|node| children(table, node).len()).collect();
    let mut ready: Vec<usize> = (0..count).filter(|&node| waiting[node] == 0).collect();
    let mut new_number = vec![0; count];
    let mut shuffled = Vec::with_capacity(table.len());
    while !ready.is_empty() {
        let node = ready.swap_remove(random.below(ready.len()));
        new_number[node] = shuffled.len() / 4;
        shuffled.extend(renumbered(table, node, &new_number));
        if let Some(parent) = parent[node] {
            waiting[parent] -= 1;
            if waiting[parent] == 0 {
                ready.push(parent);
            }
        }
    }
    shuffled
}

/// The frame of a node with its children's new numbers.
fn renumbered(table: &[u32], node: usize, new_number: &[usize]) -> [u32; 4] {
    let mut frame = crate::oracle::table::frame(table, node);
    for slot in damage::child_slots(frame[0]) {
        frame[slot] = new_number[frame[slot] as usize] as u32;
    }
    frame
}
