//! "Compilation at start label s (e is the end label)."

use super::answer::{done, refuse, Answer, Refusal};
use super::code::{ASSIGN, GOTO, IFNOT, LAST_TARGET};
use super::table::{accepted, Node};

pub fn compile(table: &[u32], start: u32, room: &mut [u32]) -> Result<Answer, Refusal> {
    let nodes = accepted(table)?;
    if start > LAST_TARGET {
        return refuse(11, 0);
    }
    let mut code = Vec::new();
    let end = statement(&nodes, nodes.len() - 1, start, &mut code);
    if end > LAST_TARGET {
        return refuse(11, 0);
    }
    if room.len() < 4 * code.len() {
        return refuse(12, 0);
    }
    for (frame, instruction) in room.chunks_exact_mut(4).zip(&code) {
        frame.copy_from_slice(instruction);
    }
    Ok(done(end, code.len() as u32))
}

/// Appends the code of a statement at `start` and gives its end label. Targets ahead are filled in once they are known.
fn statement(nodes: &[Node], node: usize, start: u32, code: &mut Vec<[u32; 4]>) -> u32 {
    match nodes[node] {
        Node::Skip => start,
        Node::Assign(variable, expression) => {
            code.push([start, ASSIGN, variable as u32, expression as u32]);
            start + 1
        }
        Node::Sequence(first, second) => {
            let middle = statement(nodes, first, start, code);
            statement(nodes, second, middle, code)
        }
        Node::If(test, yes, no) => {
            let ifnot = code.len();
            code.push([start, IFNOT, test as u32, 0]);
            let middle = statement(nodes, yes, start + 1, code);
            let goto = code.len();
            code.push([middle, GOTO, 0, 0]);
            let end = statement(nodes, no, middle + 1, code);
            code[ifnot][3] = middle + 1;
            code[goto][3] = end;
            end
        }
        Node::While(test, body) => {
            let ifnot = code.len();
            code.push([start, IFNOT, test as u32, 0]);
            let middle = statement(nodes, body, start + 1, code);
            code.push([middle, GOTO, 0, start]);
            code[ifnot][3] = middle + 1;
            middle + 1
        }
        _ => unreachable!("the check refuses children of the wrong class"),
    }
}
