//! "While runs and their count."

use super::answer::{finished, out_of_fuel, Answer, Refusal};
use super::expressions::{arithmetic, boolean, store, Store};
use super::table::{accepted, Node};

pub fn run(table: &[u32], values: &mut [i32], fuel: u32) -> Result<Answer, Refusal> {
    let nodes = accepted(table)?;
    let store = store(values)?;
    let root = nodes.len() - 1;
    let mut run = Run { nodes: &nodes, store, left: fuel };
    Ok(match run.statement(root) {
        Ok(()) => finished(0, fuel - run.left),
        Err(Spent) => out_of_fuel(0, fuel),
    })
}

/// The run owes a unit that the fuel does not cover.
struct Spent;

struct Run<'a> {
    nodes: &'a [Node],
    store: &'a mut Store,
    left: u32,
}

impl Run<'_> {
    fn unit(&mut self) -> Result<(), Spent> {
        if self.left == 0 {
            return Err(Spent);
        }
        self.left -= 1;
        Ok(())
    }

    fn holds(&self, test: usize) -> bool {
        boolean(self.nodes, test, self.store)
    }

    fn statement(&mut self, node: usize) -> Result<(), Spent> {
        match self.nodes[node] {
            Node::Skip => Ok(()),
            Node::Assign(variable, expression) => {
                self.unit()?;
                self.store[variable] = arithmetic(self.nodes, expression, self.store);
                Ok(())
            }
            Node::Sequence(first, second) => {
                self.statement(first)?;
                self.statement(second)
            }
            Node::If(test, yes, no) => {
                self.unit()?;
                if self.holds(test) {
                    self.statement(yes)?;
                    self.unit()
                } else {
                    self.statement(no)
                }
            }
            Node::While(test, body) => loop {
                self.unit()?;
                if !self.holds(test) {
                    return Ok(());
                }
                self.statement(body)?;
                self.unit()?;
            },
            _ => unreachable!("the check refuses children of the wrong class"),
        }
    }
}
