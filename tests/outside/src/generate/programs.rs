//! Random programs: small ones of every kind, deep ones, wide ones.

use super::value;
use crate::oracle::table::Class;
use crate::random::Random;
use crate::trees::{self, *};

const OPERATIONS: [u32; 5] = [SUM, DIFFERENCE, PRODUCT, QUOTIENT, REMAINDER];
const COMPARISONS: [u32; 3] = [EQUAL, AT_MOST, LESS];

/// Few variables, so that statements meddle with each other; the highest one now and then.
fn some_variable(random: &mut Random) -> u32 {
    match random.below(8) {
        0 => random.below(32) as u32,
        1 => 31,
        _ => random.below(4) as u32,
    }
}

/// Parts of `total`, each at least 1.
fn split(random: &mut Random, total: usize, parts: usize) -> Vec<usize> {
    let mut sizes = vec![1; parts];
    for _ in parts..total {
        sizes[random.below(parts)] += 1;
    }
    // An uneven split now and then, for trees that lean.
    if random.once_in(3) {
        let all: usize = sizes.iter().sum();
        sizes = vec![1; parts];
        sizes[random.below(parts)] += all - parts;
    }
    sizes
}

/// An arithmetic tree of at most `size` nodes.
pub fn arithmetic(random: &mut Random, size: usize) -> Tree {
    if size >= 4 && random.once_in(4) {
        let sizes = split(random, size - 1, 3);
        return choose(boolean(random, sizes[0]), arithmetic(random, sizes[1]), arithmetic(random, sizes[2]));
    }
    if size >= 3 {
        let sizes = split(random, size - 1, 2);
        let kind = random.pick(&OPERATIONS);
        return operation(kind, arithmetic(random, sizes[0]), arithmetic(random, sizes[1]));
    }
    leaf(random, Class::Arithmetic)
}

/// A boolean tree of at most `size` nodes.
pub fn boolean(random: &mut Random, size: usize) -> Tree {
    match size {
        0 | 1 => leaf(random, Class::Boolean),
        2 => not(leaf(random, Class::Boolean)),
        _ => {
            let sizes = split(random, size - 1, 2);
            match random.below(6) {
                0 => not(boolean(random, size - 1)),
                1 => and(boolean(random, sizes[0]), boolean(random, sizes[1])),
                _ => {
                    let kind = random.pick(&COMPARISONS);
                    comparison(kind, arithmetic(random, sizes[0]), arithmetic(random, sizes[1]))
                }
            }
        }
    }
}

/// A statement of at most `size` nodes. Empty branches and bodies are frequent.
pub fn statement(random: &mut Random, size: usize) -> Tree {
    if size < 2 {
        return skip();
    }
    if size >= 10 && random.once_in(3) {
        return counted_loop(random, size);
    }
    match random.below(8) {
        0 | 1 => assign(some_variable(random), arithmetic(random, size - 1)),
        2 if size >= 3 => {
            let sizes = split(random, size - 1, 2);
            while_do(boolean(random, sizes[0]), statement(random, sizes[1]))
        }
        3 | 4 if size >= 4 => {
            let sizes = split(random, size - 1, 3);
            let test = boolean(random, sizes[0]);
            match random.below(4) {
                0 => if_else(test, skip(), statement(random, sizes[2])),
                1 => if_else(test, statement(random, sizes[1]), skip()),
                _ => if_else(test, statement(random, sizes[1]), statement(random, sizes[2])),
            }
        }
        5..=7 if size >= 3 => {
            let sizes = split(random, size - 1, 2);
            sequence(statement(random, sizes[0]), statement(random, sizes[1]))
        }
        _ => assign(some_variable(random), leaf(random, Class::Arithmetic)),
    }
}

/// "while 0 < v do (...; v := v - step)": a loop that mostly ends. It has nine nodes beside its inner statement.
fn counted_loop(random: &mut Random, size: usize) -> Tree {
    let counter = some_variable(random);
    let step = random.pick(&[1, 1, 2, 60, 700_000_000]);
    let count_down = assign(counter, operation(DIFFERENCE, variable(counter), number(step)));
    let body = sequence(statement(random, size - 9), count_down);
    while_do(comparison(LESS, number(0), variable(counter)), body)
}

fn leaf(random: &mut Random, class: Class) -> Tree {
    match class {
        Class::Arithmetic if random.once_in(2) => number(value(random)),
        Class::Arithmetic => trees::variable(some_variable(random)),
        Class::Boolean => truth(random.once_in(2)),
        Class::Statement => skip(),
    }
}

/// A tree of exactly this depth: one long path, of random kinds, with leaves beside it.
pub fn deep(random: &mut Random, class: Class, depth: usize) -> Tree {
    if depth == 1 {
        return leaf(random, class);
    }
    match class {
        Class::Arithmetic => deep_arithmetic(random, depth),
        Class::Boolean => deep_boolean(random, depth),
        Class::Statement => deep_statement(random, depth),
    }
}

fn deep_arithmetic(random: &mut Random, depth: usize) -> Tree {
    let kind = random.pick(&OPERATIONS);
    let beside = leaf(random, Class::Arithmetic);
    match random.below(6) {
        0 | 1 => operation(kind, deep(random, Class::Arithmetic, depth - 1), beside),
        2 | 3 => operation(kind, beside, deep(random, Class::Arithmetic, depth - 1)),
        4 => {
            let test = leaf(random, Class::Boolean);
            choose(test, deep(random, Class::Arithmetic, depth - 1), beside)
        }
        _ => {
            let other = leaf(random, Class::Arithmetic);
            choose(deep(random, Class::Boolean, depth - 1), other, beside)
        }
    }
}

fn deep_boolean(random: &mut Random, depth: usize) -> Tree {
    match random.below(6) {
        0 | 1 => not(deep(random, Class::Boolean, depth - 1)),
        2 => and(leaf(random, Class::Boolean), deep(random, Class::Boolean, depth - 1)),
        3 => and(deep(random, Class::Boolean, depth - 1), leaf(random, Class::Boolean)),
        _ => {
            let kind = random.pick(&COMPARISONS);
            let beside = leaf(random, Class::Arithmetic);
            comparison(kind, beside, deep(random, Class::Arithmetic, depth - 1))
        }
    }
}

/// Mostly through statements; a path that enters an expression stays there.
fn deep_statement(random: &mut Random, depth: usize) -> Tree {
    let beside = statement(random, 2);
    let test = leaf(random, Class::Boolean);
    if random.once_in(200) {
        return assign(some_variable(random), deep(random, Class::Arithmetic, depth - 1));
    }
    if random.once_in(200) {
        return if_else(deep(random, Class::Boolean, depth - 1), beside, skip());
    }
    let inner = deep(random, Class::Statement, depth - 1);
    match random.below(10) {
        0..=2 => sequence(inner, beside),
        3..=6 => sequence(beside, inner),
        7 => if_else(test, inner, beside),
        8 => if_else(test, skip(), inner),
        _ => while_do(test, inner),
    }
}

/// A statement of this depth with shallow ones beside its path, so many that it has about `nodes` nodes.
pub fn deep_and_wide(random: &mut Random, depth: usize, nodes: usize) -> Tree {
    let path = deep(random, Class::Statement, depth - 1);
    let beside = wide(random, nodes.saturating_sub(path.nodes() + 1).max(3));
    if random.once_in(2) {
        sequence(path, beside)
    } else {
        sequence(beside, path)
    }
}

/// A shallow statement of exactly this many nodes, at least 3.
pub fn wide(random: &mut Random, nodes: usize) -> Tree {
    sequence_of(pieces(random, nodes, 10))
}

/// Statements of at most `most` nodes each; with the sequences that join them they have exactly this many nodes.
pub fn pieces(random: &mut Random, nodes: usize, most: usize) -> Vec<Tree> {
    let mut pieces = vec![skip()];
    let mut left = nodes - 1;
    while left > 0 {
        // Each piece costs its nodes and one more for the sequence that joins it.
        let piece = if left > most + 2 {
            let size = random.from(1, most);
            statement(random, size)
        } else if left.is_multiple_of(2) {
            skip()
        } else {
            assign(some_variable(random), leaf(random, Class::Arithmetic))
        };
        left -= piece.nodes() + 1;
        pieces.push(piece);
    }
    pieces
}
