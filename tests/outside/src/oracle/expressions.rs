//! The value of an arithmetic or a boolean node in a store.

use super::answer::{refuse, Refusal};
use super::table::{Node, VARIABLES};
use super::values::{difference, product, quotient, remainder, sum};

pub type Store = [i32; VARIABLES];

/// The lent values as a store; refused 10 where they are not 32.
pub fn store(values: &mut [i32]) -> Result<&mut Store, Refusal> {
    match values.try_into() {
        Ok(store) => Ok(store),
        Err(_) => refuse(10, 0),
    }
}

pub fn arithmetic(nodes: &[Node], node: usize, store: &Store) -> i32 {
    let value = |child| arithmetic(nodes, child, store);
    match nodes[node] {
        Node::Number(number) => number,
        Node::Variable(variable) => store[variable],
        Node::Sum(p, q) => sum(value(p), value(q)),
        Node::Difference(p, q) => difference(value(p), value(q)),
        Node::Product(p, q) => product(value(p), value(q)),
        Node::Quotient(p, q) => quotient(value(p), value(q)),
        Node::Remainder(p, q) => remainder(value(p), value(q)),
        Node::Choose(p, q, r) => {
            if boolean(nodes, p, store) {
                value(q)
            } else {
                value(r)
            }
        }
        _ => unreachable!("the check refuses children of the wrong class"),
    }
}

pub fn boolean(nodes: &[Node], node: usize, store: &Store) -> bool {
    let value = |child| arithmetic(nodes, child, store);
    match nodes[node] {
        Node::True => true,
        Node::False => false,
        Node::Equal(p, q) => value(p) == value(q),
        Node::AtMost(p, q) => value(p) <= value(q),
        Node::Less(p, q) => value(p) < value(q),
        Node::Not(p) => !boolean(nodes, p, store),
        Node::And(p, q) => boolean(nodes, p, store) && boolean(nodes, q, store),
        _ => unreachable!("the check refuses children of the wrong class"),
    }
}
