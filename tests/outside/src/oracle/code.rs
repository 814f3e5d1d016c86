//! "Code and its steps": its rules, refusal 13, and its run.

use super::answer::{finished, out_of_fuel, refuse, Answer, Refusal};
use super::expressions::{arithmetic, boolean, store, Store};
use super::table::{accepted, class_at, Class, Node, VARIABLES};

pub const ASSIGN: u32 = 1;
pub const GOTO: u32 = 2;
pub const IFNOT: u32 = 3;

pub const MOST_INSTRUCTIONS: usize = 1024;
pub const LAST_LABEL: u32 = 65_534;
pub const LAST_TARGET: u32 = 65_535;

pub struct Instruction {
    label: u32,
    operation: Operation,
}

enum Operation {
    Assign { variable: usize, expression: usize },
    Goto { target: u32 },
    IfNot { test: usize, target: u32 },
}

pub fn run(table: &[u32], code: &[u32], start: u32, values: &mut [i32], fuel: u32) -> Result<Answer, Refusal> {
    let nodes = accepted(table)?;
    let store = store(values)?;
    if start > LAST_TARGET {
        return refuse(11, 0);
    }
    let code = decode(table, code)?;
    Ok(Program::new(nodes, code).run(start, store, fuel))
}

/// The nodes of an accepted table and code over them that keeps the rules: what all stores that are run have in common.
pub struct Program {
    nodes: Vec<Node>,
    code: Vec<Instruction>,
    /// For each label up to the last one, the position of the instruction that bears it.
    positions: Vec<Option<u16>>,
}

impl Program {
    pub fn new(nodes: Vec<Node>, code: Vec<Instruction>) -> Self {
        let positions = positions(&code);
        Program { nodes, code, positions }
    }

    /// Finished or out of fuel.
    pub fn run(&self, start: u32, store: &mut Store, fuel: u32) -> Answer {
        let mut label = start;
        let mut steps = 0;
        loop {
            // "A label that no instruction bears is a finish, tested before fuel."
            let Some(&Some(position)) = self.positions.get(label as usize) else {
                return finished(label, steps);
            };
            if steps == fuel {
                return out_of_fuel(label, steps);
            }
            label = match self.code[position as usize].operation {
                Operation::Assign { variable, expression } => {
                    store[variable] = arithmetic(&self.nodes, expression, store);
                    label + 1
                }
                Operation::Goto { target } => target,
                Operation::IfNot { test, .. } if boolean(&self.nodes, test, store) => label + 1,
                Operation::IfNot { target, .. } => target,
            };
            steps += 1;
        }
    }
}

fn positions(code: &[Instruction]) -> Vec<Option<u16>> {
    let labels = code.last().map_or(0, |last| last.label as usize + 1);
    let mut positions = vec![None; labels];
    for (position, instruction) in code.iter().enumerate() {
        positions[instruction.label as usize] = Some(position as u16);
    }
    positions
}

pub fn check(table: &[u32], code: &[u32]) -> Result<(), Refusal> {
    decode(table, code).map(|_| ())
}

/// The instructions of `code` over the nodes of `table`. After the word count, the first instruction that breaks any
/// rule is the place, counted from 0.
pub fn decode(table: &[u32], code: &[u32]) -> Result<Vec<Instruction>, Refusal> {
    if !code.len().is_multiple_of(4) || code.len() > 4 * MOST_INSTRUCTIONS {
        return refuse(13, 0);
    }
    let mut instructions: Vec<Instruction> = Vec::with_capacity(code.len() / 4);
    for (position, frame) in code.chunks_exact(4).enumerate() {
        let label = frame[0];
        let rises = instructions.last().is_none_or(|before| before.label < label);
        match operation(table, frame) {
            Some(operation) if label <= LAST_LABEL && rises => instructions.push(Instruction { label, operation }),
            _ => return refuse(13, position),
        }
    }
    Ok(instructions)
}

/// Operation, x and y of an instruction, where they keep the rules.
fn operation(table: &[u32], frame: &[u32]) -> Option<Operation> {
    let [x, y] = [frame[2], frame[3]];
    let is = |node: u32, class| class_at(table, node as usize) == Some(class);
    match frame[1] {
        ASSIGN if (x as usize) < VARIABLES && is(y, Class::Arithmetic) => {
            Some(Operation::Assign { variable: x as usize, expression: y as usize })
        }
        GOTO if x == 0 && y <= LAST_TARGET => Some(Operation::Goto { target: y }),
        IFNOT if is(x, Class::Boolean) && y <= LAST_TARGET => Some(Operation::IfNot { test: x as usize, target: y }),
        _ => None,
    }
}
