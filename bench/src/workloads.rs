//! What is run: four programs, hand-written code, depots of them, and the inputs for checking, compiling, text and typed rules.

use outside::oracle;
use outside::oracle::answer::DONE;
use outside::oracle::rule::MOST_NESTED;
use outside::oracle::table::{depth, MOST_DEPTH};
use outside::trees::*;
use outside::worked::loop_program;

pub struct Program {
    pub name: &'static str,
    pub table: Vec<u32>,
    /// Its code at label 1, compiled or written by hand.
    pub code: Vec<u32>,
    pub by_hand: bool,
    /// The first value of v0; all other variables begin at 0.
    pub from: i32,
    /// The same program in Lua, under bench/lua.
    pub lua: Option<&'static str>,
}

pub fn programs() -> Vec<Program> {
    vec![
        the_loop(1_500_000),
        choosing(10_000),
        compiled("a dozen ifs with empty branches", empty_branches(), 4_000, "ifs.lua"),
        gaps(),
        compiled("quotient and remainder before and after midnight", midnight(), 20_000, "midnight.lua"),
    ]
}

fn the_loop(from: i32) -> Program {
    compiled("the loop of document 01", loop_program(), from, "loop.lua")
}

fn choosing(from: i32) -> Program {
    compiled("choose, quotient and remainder", expressions(), from, "expressions.lua")
}

/// A full depot.
pub const CREWS: usize = oracle::depot::MOST_CREWS;

/// Crews under one program.
pub struct Depot {
    pub program: Program,
    /// Each crew spends all of it: some finish with it, others are out of fuel.
    pub fuel: u32,
}

/// Each program with little fuel, where the checks weigh most, and with more.
pub fn depots() -> [Depot; 4] {
    [
        Depot { program: the_loop(150), fuel: 13 },
        Depot { program: the_loop(2_970), fuel: 201 },
        Depot { program: choosing(3), fuel: 16 },
        Depot { program: choosing(40), fuel: 201 },
    ]
}

impl Depot {
    /// The stores of all crews, back to back. v0 begins at one of `apart` numbers, from the program's own on: with 1 the crews
    /// are alike.
    pub fn stores(&self, apart: i32) -> Vec<i32> {
        let mut stores = vec![0; 32 * CREWS];
        for (crew, store) in stores.chunks_exact_mut(32).enumerate() {
            store[0] = self.program.from + crew as i32 % apart;
        }
        stores
    }
}

fn compiled(name: &'static str, tree: Tree, from: i32, lua: &'static str) -> Program {
    let table = tree.table();
    let code = code_of(&table);
    Program { name, table, code, by_hand: false, from, lua: Some(lua) }
}

fn code_of(table: &[u32]) -> Vec<u32> {
    let mut code = vec![0; 4096];
    let answer = oracle::compile(table, 1, &mut code);
    code.truncate(4 * answer[4] as usize);
    code
}

/// "while 0 < v0 do (body; v0 := v0 - 1)".
fn down_to_zero(mut body: Vec<Tree>) -> Tree {
    body.push(assign(0, operation(DIFFERENCE, variable(0), number(1))));
    while_do(comparison(LESS, number(0), variable(0)), sequence_of(body))
}

/// Values stay from 0 to 10006, so that it measures the same under any rule of rounding.
fn expressions() -> Tree {
    let by = |kind, left, right: i32| operation(kind, left, number(right));
    // v1 := (choose v0 mod 3 = 0: v1 + v0 / 7, else v1 * 3 + v0 mod 5) mod 10007
    let first = assign(
        1,
        by(
            REMAINDER,
            choose(
                comparison(EQUAL, by(REMAINDER, variable(0), 3), number(0)),
                operation(SUM, variable(1), by(QUOTIENT, variable(0), 7)),
                operation(SUM, by(PRODUCT, variable(1), 3), by(REMAINDER, variable(0), 5)),
            ),
            10007,
        ),
    );
    // v2 := (choose v1 <= v2: v2 / 2 + v0 mod 11, else v2 + v1 / 3) mod 1009
    let second = assign(
        2,
        by(
            REMAINDER,
            choose(
                comparison(AT_MOST, variable(1), variable(2)),
                operation(SUM, by(QUOTIENT, variable(2), 2), by(REMAINDER, variable(0), 11)),
                operation(SUM, variable(2), by(QUOTIENT, variable(1), 3)),
            ),
            1009,
        ),
    );
    down_to_zero(vec![first, second])
}

/// Minutes from 10,000 after midnight to 9,999 before: half of the dividends are negative, and so is one of the divisors.
fn midnight() -> Tree {
    let add =
        |to, kind, right: i32| assign(to, operation(SUM, variable(to), operation(kind, variable(3), number(right))));
    // v3 := v0 - 10000; v1 := v1 + v3 / 60; v2 := v2 + v3 mod -60
    let minute = assign(3, operation(DIFFERENCE, variable(0), number(10_000)));
    down_to_zero(vec![minute, add(1, QUOTIENT, 60), add(2, REMAINDER, -60)])
}

/// For i from 1 to 12: "if v0 mod (i + 1) = 0", with an empty then branch for odd i and an empty else branch for even i;
/// the other branch is "vi := vi + 1".
fn empty_branches() -> Tree {
    let ifs = (1..=12).map(|i| {
        let test = comparison(EQUAL, operation(REMAINDER, variable(0), number(i + 1)), number(0));
        let count = assign(i as u32, operation(SUM, variable(i as u32), number(1)));
        match i % 2 {
            1 => if_else(test, skip(), count),
            _ => if_else(test, count, skip()),
        }
    });
    down_to_zero(ifs.collect())
}

/// The loop of document 01 with its instructions far apart: assigns lead to a goto, gotos leap over the gaps.
fn gaps() -> Program {
    let table = loop_program().table();
    #[rustfmt::skip]
    let code = vec![
        1, 3, 2, 60000,
        2, 2, 0, 500,
        500, 1, 0, 5,
        501, 2, 0, 40000,
        40000, 1, 1, 9,
        40001, 2, 0, 1,
    ];
    Program { name: "hand-written code with gaps", table, code, by_hand: true, from: 1_500_000, lua: None }
}

/// A program of exactly 1,000 nodes: 99 ifs of nine nodes, an assign of two and four skips, with 103 sequences.
pub fn table_of_1000_nodes() -> Vec<u32> {
    let if_of_nine = |i: u32| {
        let test = comparison(LESS, variable(i % 32), number(5));
        let count = assign(i % 32, operation(SUM, variable(i % 32), number(1)));
        if_else(test, count, skip())
    };
    let mut pieces: Vec<Tree> = (0..99).map(if_of_nine).collect();
    pieces.push(assign(0, number(1)));
    pieces.extend((0..4).map(|_| skip()));
    let table = sequence_of(pieces).table();
    assert_eq!(table.len(), 4 * 1000);
    table
}

/// A program of exactly 1,000 nodes, as deep as may be: 255 assigns, 118 of them with a sum, in sequences one under the other.
pub fn deepest_table_of_1000_nodes() -> Vec<u32> {
    let piece = |i: u32| match i {
        0..118 => assign(i % 32, operation(SUM, variable(i % 32), number(1))),
        _ => assign(i % 32, number(1)),
    };
    let tree = (0..255).map(piece).rev().reduce(|rest, piece| sequence(piece, rest)).unwrap();
    let table = tree.table();
    assert!(table.len() == 4 * 1000 && depth(&table) == MOST_DEPTH);
    table
}

/// The table of "v0 := v0 + 1": node 2 is the sum.
pub fn table_of_one_assign() -> Vec<u32> {
    assign(0, operation(SUM, variable(0), number(1))).table()
}

/// Assigns one after the other, and a goto back to the first.
pub fn code_in_line(instructions: u32) -> Vec<u32> {
    code_of_assigns(instructions, 2)
}

fn code_of_assigns(instructions: u32, expression: u32) -> Vec<u32> {
    let assigns = (0..instructions - 1).flat_map(|label| [label, 1, 0, expression]);
    assigns.chain([instructions - 1, 2, 0, 0]).collect()
}

/// A full table with one assign, whose expression has 1,023 nodes: 256 remainders, summed up.
pub fn largest_assign() -> (Vec<u32>, Vec<u32>) {
    fn summed(terms: u32) -> Tree {
        match terms {
            1 => operation(REMAINDER, variable(0), number(7)),
            _ => operation(SUM, summed(terms / 2), summed(terms / 2)),
        }
    }
    let table = assign(0, summed(256)).table();
    assert_eq!(table.len(), 4 * 1024);
    (table, code_of_assigns(1000, 1022))
}

/// Gotos only: each leaps about three fifths of the code ahead and round, so that one after the other is reached.
pub fn code_of_leaps(instructions: u32) -> Vec<u32> {
    let leap = instructions * 3 / 5 + 1;
    (0..instructions).flat_map(|label| [label, 2, 0, (label + leap) % instructions]).collect()
}

/// A rule as planners type it, of exactly 1,000 nodes: 22 times three statements, 45 nodes with their sequences, and an
/// assign of ten at the end.
pub fn typed_rule() -> Vec<u8> {
    let piece = |i: u32| {
        let [a, b, c, d] = [i % 8, 8 + i % 8, 16 + i % 8, 24 + i % 8];
        format!(
            "v{a} := v{b} / 60 * 60 + {};\n\
             if 0 < v{a} and not v{b} = 30 then\n  v{c} := (v{a} + v{b}) * 2 - 15\n\
             else\n  v{c} := choose(v{a} <= v{b}, v{a} % 60, 45)\nend;\n\
             while {} < v{d} do\n  v{d} := v{d} - 60\nend;\n",
            7 * i,
            120 * i
        )
    };
    let mut text: String = (0..22).map(piece).collect();
    text.push_str("v31 := (v0 + 1) * 60 + v1 - 5\n");
    assert_eq!(nodes_of(&text), 1000);
    text.into()
}

/// A typed rule of as many levels as there may be: seven statements, in each a while, an if, 13 chooses and 241 brackets of both
/// kinds.
pub fn deepest_typed_rule() -> Vec<u8> {
    let deepest = deep_arithmetic(MOST_NESTED - 2);
    let piece = |i: u32| format!("while v{i} < 3 do if true then v{i} := {deepest} else skip end end");
    let text = (0..7).map(piece).collect::<Vec<String>>().join(";\n");
    assert!(nodes_of(&text) <= 1000);
    text.into()
}

/// Mostly brackets, which make no nodes: a choose, with square brackets inside, and a sum in every twenty levels.
fn deep_arithmetic(levels: u32) -> String {
    match levels {
        0 => "v1".into(),
        1 => "(v1)".into(),
        _ => match levels % 20 {
            9 => format!("(v2 + {})", deep_arithmetic(levels - 1)),
            14 => format!("choose([v0 < {}] and true, v1, 2)", deep_arithmetic(levels - 2)),
            _ => format!("({})", deep_arithmetic(levels - 1)),
        },
    }
}

fn nodes_of(text: &str) -> usize {
    let answer = oracle::read_rule(text.as_bytes(), &mut [0; 4096]);
    assert_eq!(answer[0], DONE, "{answer:?}");
    answer[4] as usize / 4
}
