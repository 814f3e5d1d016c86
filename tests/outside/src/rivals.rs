//! Which grounds for a refusal an input gives beside the one that is told. The order of the refusals is tested only
//! where two grounds compete, so the program counts how often each pair did.

use crate::case::{Call, Case};
use crate::oracle::answer::Refusal;
use crate::oracle::code::LAST_TARGET;
use crate::oracle::table::{self, class_at, class_of, frame, words_used, Class, Word, VARIABLES};
use crate::oracle::{self, depot, rule, text};

#[derive(Clone, Copy, Debug, PartialEq, Eq, PartialOrd, Ord)]
pub enum Where {
    SameNode,
    LaterNode,
    Elsewhere,
    /// Elsewhere, in a depot. Counted apart: that a code run keeps the order says nothing of a depot.
    InDepot,
    /// In a typed rule, where the order is another.
    InRule,
}

/// The grounds that lost against the refusal told, with where they stand to it.
pub fn rivals(case: &Case, told: Refusal) -> Vec<(Where, u32)> {
    let at_node = |ground: &Refusal| (2..=6).contains(&ground.number);
    let losers = grounds(case).into_iter().filter(|ground| *ground != told);
    losers
        .map(|ground| match at_node(&ground) && at_node(&told) {
            true if ground.place == told.place => (Where::SameNode, ground.number),
            true => (Where::LaterNode, ground.number),
            false if case.call() == Call::RunDepot => (Where::InDepot, ground.number),
            false if case.call() == Call::ReadRule => (Where::InRule, ground.number),
            false => (Where::Elsewhere, ground.number),
        })
        .collect()
}

/// All grounds, in no order that matters.
fn grounds(case: &Case) -> Vec<Refusal> {
    match case {
        Case::Check { table } => table_grounds(table),
        Case::Compile { table, start, room } => {
            let mut grounds = table_grounds(table);
            if grounds.is_empty() {
                let instructions = oracle::compile(table, 0, &mut [0; 4096])[4];
                add(&mut grounds, u64::from(*start) + u64::from(instructions) > LAST_TARGET.into(), 11, 0);
                add(&mut grounds, room.len() < 4 * instructions as usize, 12, 0);
            } else {
                add(&mut grounds, *start > LAST_TARGET, 11, 0);
            }
            grounds
        }
        Case::RunSource { table, store, .. } => {
            let mut grounds = table_grounds(table);
            add(&mut grounds, store.len() != VARIABLES, 10, 0);
            grounds
        }
        Case::RunCode { table, code, start, store, .. } => {
            let mut grounds = table_grounds(table);
            add(&mut grounds, store.len() != VARIABLES, 10, 0);
            add(&mut grounds, *start > LAST_TARGET, 11, 0);
            grounds.extend(oracle::code::check(table, code).err());
            grounds
        }
        Case::RunDepot { table, code, start, stores, room, .. } => {
            let mut grounds = table_grounds(table);
            add(&mut grounds, depot::bad_length(stores), 10, 0);
            add(&mut grounds, *start > LAST_TARGET, 11, 0);
            grounds.extend(oracle::code::check(table, code).err());
            add(&mut grounds, depot::room_too_small(stores, room), 16, 0);
            grounds
        }
        Case::ReadText { text, room } => {
            let mut grounds: Vec<Refusal> = text::read(text, &mut [0; 4096]).err().into_iter().collect();
            add(&mut grounds, room.len() < 4 * (text.len() / text::LINE), 15, 0);
            grounds
        }
        Case::WriteText { words, room } => {
            let mut grounds: Vec<Refusal> = text::write(words, &mut [0; 33 * 1024]).err().into_iter().collect();
            add(&mut grounds, room.len() < text::LINE * (words.len() / 4), 15, 0);
            grounds
        }
        Case::ReadRule { text, room } => {
            // In a text that is not in the grammar, the nodes before the place count.
            let nodes = rule::nodes_of(text);
            let mut grounds: Vec<Refusal> = rule::parse(text).err().into_iter().collect();
            add(&mut grounds, nodes.len() > 4 * table::MOST_NODES, 1, 0);
            add(&mut grounds, table::depth(&nodes) > table::MOST_DEPTH, 9, 0);
            add(&mut grounds, room.len() < nodes.len(), 15, 0);
            grounds
        }
    }
}

fn add(grounds: &mut Vec<Refusal>, given: bool, number: u32, place: usize) {
    if given {
        grounds.push(Refusal { number, place });
    }
}

fn table_grounds(table: &[u32]) -> Vec<Refusal> {
    let mut grounds = Vec::new();
    if table::bad_word_count(table) {
        add(&mut grounds, true, 1, 0);
        return grounds;
    }
    let count = table.len() / 4;
    for node in 0..count {
        let [kind, words @ ..] = frame(table, node);
        let Some(used) = words_used(kind) else {
            add(&mut grounds, true, 2, node);
            continue;
        };
        add(&mut grounds, table::unused_word_set(used, words), 3, node);
        add(&mut grounds, table::variable_too_high(used, words), 4, node);
        add(&mut grounds, table::child_not_below(used, words, node), 5, node);
        add(&mut grounds, lower_child_of_wrong_class(table, node, used, words), 6, node);
    }
    let root = count - 1;
    add(&mut grounds, class_at(table, root) != Some(Class::Statement), 7, root);
    let sound = without_bad_children(table);
    if let Some(node) = table::lowest_not_child_once(&sound) {
        add(&mut grounds, true, 8, node);
    }
    add(&mut grounds, table::depth(&sound) > table::MOST_DEPTH, 9, 0);
    grounds
}

/// Names and depth can be counted only along children that are below their parents: a node with others gets a kind that
/// has just its good children.
fn without_bad_children(table: &[u32]) -> Vec<u32> {
    let mut sound = table.to_vec();
    for node in 0..table.len() / 4 {
        let children = table::children(table, node);
        let good: Vec<u32> = children.iter().copied().filter(|&child| (child as usize) < node).collect();
        let frame = match good[..] {
            _ if good.len() == children.len() => continue,
            [p, q] => [34, p, q, 0],
            [p] => [21, p, 0, 0],
            _ => [32, 0, 0, 0],
        };
        sound[4 * node..4 * node + 4].copy_from_slice(&frame);
    }
    sound
}

/// A child that is not below its parent is a ground for 5 only.
fn lower_child_of_wrong_class(table: &[u32], node: usize, used: [Word; 3], words: [u32; 3]) -> bool {
    (0..3).any(|i| match used[i] {
        Word::Child(class) => (words[i] as usize) < node && class_of(table[4 * words[i] as usize]) != Some(class),
        _ => false,
    })
}
