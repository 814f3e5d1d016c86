//! "The table": its check, refusals 1 to 9, and its nodes as a type.

use super::answer::{refuse, Refusal};

pub const MOST_NODES: usize = 1024;
pub const MOST_DEPTH: u32 = 256;
pub const VARIABLES: usize = 32;

#[derive(Clone, Copy, Debug, PartialEq, Eq)]
pub enum Class {
    Arithmetic,
    Boolean,
    Statement,
}

/// What a kind does with one of its words p, q, r.
#[derive(Clone, Copy, Debug, PartialEq, Eq)]
pub enum Word {
    Unused,
    Number,
    Variable,
    Child(Class),
}

/// The column "Words used" of the document; nothing for an unknown kind.
pub fn words_used(kind: u32) -> Option<[Word; 3]> {
    use Word::{Number, Unused, Variable};
    const A: Word = Word::Child(Class::Arithmetic);
    const B: Word = Word::Child(Class::Boolean);
    const S: Word = Word::Child(Class::Statement);
    Some(match kind {
        1 => [Number, Unused, Unused],
        2 => [Variable, Unused, Unused],
        3..=7 => [A, A, Unused],
        8 => [B, A, A],
        16 | 17 => [Unused, Unused, Unused],
        18..=20 => [A, A, Unused],
        21 => [B, Unused, Unused],
        22 => [B, B, Unused],
        32 => [Unused, Unused, Unused],
        33 => [Variable, A, Unused],
        34 => [S, S, Unused],
        35 => [B, S, S],
        36 => [B, S, Unused],
        _ => return None,
    })
}

pub fn class_of(kind: u32) -> Option<Class> {
    match kind {
        1..=8 => Some(Class::Arithmetic),
        16..=22 => Some(Class::Boolean),
        32..=36 => Some(Class::Statement),
        _ => None,
    }
}

/// Kind, p, q, r of a node.
pub fn frame(table: &[u32], node: usize) -> [u32; 4] {
    [table[4 * node], table[4 * node + 1], table[4 * node + 2], table[4 * node + 3]]
}

/// The class of a node, where the table has it and its kind is known.
pub fn class_at(table: &[u32], node: usize) -> Option<Class> {
    class_of(*table.get(4 * node)?)
}

pub fn check(table: &[u32]) -> Result<(), Refusal> {
    if bad_word_count(table) {
        return refuse(1, 0);
    }
    let count = table.len() / 4;
    for node in 0..count {
        check_node(table, node)?;
    }
    let root = count - 1;
    if class_at(table, root) != Some(Class::Statement) {
        return refuse(7, root);
    }
    if let Some(node) = lowest_not_child_once(table) {
        return refuse(8, node);
    }
    if depth(table) > MOST_DEPTH {
        return refuse(9, 0);
    }
    Ok(())
}

pub fn bad_word_count(table: &[u32]) -> bool {
    !table.len().is_multiple_of(4) || table.is_empty() || table.len() > 4 * MOST_NODES
}

/// Numbers 2 to 6, "the lowest number at a node first".
fn check_node(table: &[u32], node: usize) -> Result<(), Refusal> {
    let [kind, words @ ..] = frame(table, node);
    let Some(used) = words_used(kind) else {
        return refuse(2, node);
    };
    if unused_word_set(used, words) {
        return refuse(3, node);
    }
    if variable_too_high(used, words) {
        return refuse(4, node);
    }
    if child_not_below(used, words, node) {
        return refuse(5, node);
    }
    if child_of_wrong_class(used, words, table) {
        return refuse(6, node);
    }
    Ok(())
}

pub fn unused_word_set(used: [Word; 3], words: [u32; 3]) -> bool {
    (0..3).any(|i| used[i] == Word::Unused && words[i] != 0)
}

pub fn variable_too_high(used: [Word; 3], words: [u32; 3]) -> bool {
    (0..3).any(|i| used[i] == Word::Variable && words[i] as usize >= VARIABLES)
}

pub fn child_not_below(used: [Word; 3], words: [u32; 3], parent: usize) -> bool {
    (0..3).any(|i| matches!(used[i], Word::Child(_)) && words[i] as usize >= parent)
}

pub fn child_of_wrong_class(used: [Word; 3], words: [u32; 3], table: &[u32]) -> bool {
    (0..3).any(|i| match used[i] {
        Word::Child(class) => class_at(table, words[i] as usize) != Some(class),
        _ => false,
    })
}

/// The children of a node as its words name them. In every kind they stand side by side.
pub fn children(table: &[u32], node: usize) -> &[u32] {
    let frame = &table[4 * node..4 * node + 4];
    match frame[0] {
        3..=7 | 18..=20 | 22 | 34 | 36 => &frame[1..3],
        8 | 35 => &frame[1..4],
        21 => &frame[1..2],
        33 => &frame[2..3],
        _ => &[],
    }
}

/// "Every node but the root is a child exactly once (named twice by one parent counts as twice)."
pub fn lowest_not_child_once(table: &[u32]) -> Option<usize> {
    let count = table.len() / 4;
    let mut named = vec![0; count];
    for node in 0..count {
        for &child in children(table, node) {
            named[child as usize] += 1;
        }
    }
    (0..count - 1).find(|&node| named[node] != 1)
}

/// The greatest depth of a node: "1 for a node without children, otherwise one more than its deepest child".
pub fn depth(table: &[u32]) -> u32 {
    let count = table.len() / 4;
    let mut depths = vec![0; count];
    for node in 0..count {
        let below = children(table, node).iter().map(|&child| depths[child as usize]);
        depths[node] = 1 + below.max().unwrap_or(0);
    }
    depths.into_iter().max().unwrap_or(0)
}

/// A node of an accepted table. Children are node numbers.
#[derive(Clone, Copy, Debug)]
pub enum Node {
    Number(i32),
    Variable(usize),
    Sum(usize, usize),
    Difference(usize, usize),
    Product(usize, usize),
    Quotient(usize, usize),
    Remainder(usize, usize),
    Choose(usize, usize, usize),
    True,
    False,
    Equal(usize, usize),
    AtMost(usize, usize),
    Less(usize, usize),
    Not(usize),
    And(usize, usize),
    Skip,
    Assign(usize, usize),
    Sequence(usize, usize),
    If(usize, usize, usize),
    While(usize, usize),
}

/// The nodes of a table that passes its check.
pub fn accepted(table: &[u32]) -> Result<Vec<Node>, Refusal> {
    check(table)?;
    Ok(table.chunks_exact(4).map(decode).collect())
}

fn decode(frame: &[u32]) -> Node {
    let [p, q, r] = [frame[1] as usize, frame[2] as usize, frame[3] as usize];
    match frame[0] {
        1 => Node::Number(frame[1] as i32),
        2 => Node::Variable(p),
        3 => Node::Sum(p, q),
        4 => Node::Difference(p, q),
        5 => Node::Product(p, q),
        6 => Node::Quotient(p, q),
        7 => Node::Remainder(p, q),
        8 => Node::Choose(p, q, r),
        16 => Node::True,
        17 => Node::False,
        18 => Node::Equal(p, q),
        19 => Node::AtMost(p, q),
        20 => Node::Less(p, q),
        21 => Node::Not(p),
        22 => Node::And(p, q),
        32 => Node::Skip,
        33 => Node::Assign(p, q),
        34 => Node::Sequence(p, q),
        35 => Node::If(p, q, r),
        36 => Node::While(p, q),
        _ => unreachable!("the check refuses unknown kinds"),
    }
}
