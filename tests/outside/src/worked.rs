//! The worked runs of document 01, with their answers as the document gives them, and depots and typed rules worked out by
//! hand. The oracle must give them too.

mod rules;

use crate::case::{Buffer, Case, Outcome};
use crate::oracle::answer::{done, finished, out_of_fuel, refused, Answer, Refusal};
use crate::trees::*;

pub struct Worked {
    pub name: String,
    pub case: Case,
    pub outcome: Outcome,
}

/// "while 0 < v0 do (v0 := v0 - 60; v1 := v1 + 1)", as the document's listing gives it.
pub const LOOP_TEXT: &str = "\
00000001000000000000000000000000
00000002000000000000000000000000
00000014000000000000000100000000
00000002000000000000000000000000
000000010000003c0000000000000000
00000004000000030000000400000000
00000021000000000000000500000000
00000002000000010000000000000000
00000001000000010000000000000000
00000003000000070000000800000000
00000021000000010000000900000000
00000022000000060000000a00000000
00000024000000020000000b00000000
";

/// Its whole output.
pub const LOOP_CODE_TEXT: &str = "\
00000001000000030000000200000005
00000002000000010000000000000005
00000003000000010000000100000009
00000004000000020000000000000001
";

pub const LOOP_CODE: [u32; 16] = [1, 3, 2, 5, 2, 1, 0, 5, 3, 1, 1, 9, 4, 2, 0, 1];

/// The same program built from its parts.
pub fn loop_program() -> Tree {
    let less = assign(0, operation(DIFFERENCE, variable(0), number(60)));
    let more = assign(1, operation(SUM, variable(1), number(1)));
    while_do(comparison(LESS, number(0), variable(0)), sequence(less, more))
}

pub fn all() -> Vec<Worked> {
    let mut all = Vec::new();
    all.extend(skips());
    all.extend(listing());
    all.extend(loop_runs());
    all.extend(empty_branches());
    all.extend(values());
    all.extend(limits());
    all.extend(depots());
    all.extend(rules::all());
    all
}

fn skips() -> Vec<Worked> {
    let table = skip().table();
    let two = sequence(skip(), skip()).table();
    vec![
        compiled("skip at 7", &table, 7, &[], done(7, 0)),
        ran("skip at 7, fuel 0", &table, &[], 7, &[], 0, finished(7, 0), &[]),
        ran_source("skip, fuel 0", &table, &[], 0, finished(0, 0), &[]),
        compiled("skip; skip", &two, 7, &[], done(7, 0)),
    ]
}

fn listing() -> Vec<Worked> {
    let table = loop_program().table();
    let read = |name, text: &str, words: &[u32]| {
        let case = Case::ReadText { text: text.into(), room: vec![9; words.len()] };
        worked(name, case, done(0, words.len() as u32), Buffer::Words(words.to_vec()))
    };
    let write = |name, words: &[u32], text: &str| {
        let case = Case::WriteText { words: words.to_vec(), room: vec![9; text.len()] };
        worked(name, case, done(0, text.len() as u32), Buffer::Bytes(text.into()))
    };
    vec![
        read("the listing's input", LOOP_TEXT, &table),
        write("the listing's input, written", &table, LOOP_TEXT),
        compiled("the listing", &table, 1, &LOOP_CODE, done(5, 4)),
        write("the listing's output", &LOOP_CODE, LOOP_CODE_TEXT),
        read("the listing's output, read", LOOP_CODE_TEXT, &LOOP_CODE),
    ]
}

fn loop_runs() -> Vec<Worked> {
    let table = loop_program().table();
    let code = &LOOP_CODE;
    vec![
        ran("the loop, fuel 13", &table, code, 1, &[150], 13, finished(5, 13), &[-30, 3]),
        ran("the loop, fuel 12", &table, code, 1, &[150], 12, out_of_fuel(1, 12), &[-30, 3]),
        ran("the loop from 0, fuel 1", &table, code, 1, &[0], 1, finished(5, 1), &[0]),
        ran("the loop from 0, fuel 0", &table, code, 1, &[0], 0, out_of_fuel(1, 0), &[0]),
        ran_source("the loop's source, fuel 13", &table, &[150], 13, finished(0, 13), &[-30, 3]),
        ran_source("the loop's source, fuel 12", &table, &[150], 12, out_of_fuel(0, 12), &[-30, 3]),
        ran_source("the loop's source from 0, fuel 1", &table, &[0], 1, finished(0, 1), &[0]),
        ran_source("the loop's source from 0, fuel 0", &table, &[0], 0, out_of_fuel(0, 0), &[0]),
        ran("4: goto 4", &table, &[4, 2, 0, 4], 4, &[], 9, out_of_fuel(4, 9), &[]),
    ]
}

fn empty_branches() -> Vec<Worked> {
    let set = || assign(1, number(1));
    // Nodes 0 to 2 are the test; skip, the number and the assign follow in the order of the branches.
    let then_skip = if_else(comparison(EQUAL, variable(0), number(0)), skip(), set()).table();
    let then_code = [10, 3, 2, 12, 11, 2, 0, 13, 12, 1, 1, 4];
    let else_skip = if_else(comparison(LESS, number(0), variable(0)), set(), skip()).table();
    let else_code = [10, 3, 2, 13, 11, 1, 1, 3, 12, 2, 0, 13];
    vec![
        compiled("empty then", &then_skip, 10, &then_code, done(13, 3)),
        ran("empty then, from 0", &then_skip, &then_code, 10, &[0], 2, finished(13, 2), &[0]),
        ran("empty then, from 5", &then_skip, &then_code, 10, &[5], 2, finished(13, 2), &[5, 1]),
        compiled("empty else", &else_skip, 10, &else_code, done(13, 3)),
        ran("empty else, from 5", &else_skip, &else_code, 10, &[5], 3, finished(13, 3), &[5, 1]),
        ran("empty else, from 0", &else_skip, &else_code, 10, &[0], 3, finished(13, 1), &[0]),
    ]
}

fn values() -> Vec<Worked> {
    let value = |name, kind, left, right, result| {
        let table = assign(0, operation(kind, number(left), number(right))).table();
        ran_source(name, &table, &[99], 1, finished(0, 1), &[result])
    };
    vec![
        value("2147483647 + 1", SUM, 2147483647, 1, -2147483648),
        value("65536 * 65536", PRODUCT, 65536, 65536, 0),
        value("-30 by 60", QUOTIENT, -30, 60, -1),
        value("-30 by 60, remainder", REMAINDER, -30, 60, 30),
        value("30 by -60", QUOTIENT, 30, -60, -1),
        value("30 by -60, remainder", REMAINDER, 30, -60, -30),
        value("7 by 0", QUOTIENT, 7, 0, 0),
        value("7 by 0, remainder", REMAINDER, 7, 0, 7),
        value("-2147483648 by -1", QUOTIENT, -2147483648, -1, -2147483648),
        value("-2147483648 by -1, remainder", REMAINDER, -2147483648, -1, 0),
    ]
}

fn limits() -> Vec<Worked> {
    let one = assign(0, number(5)).table();
    let refusal = |number, place| refused(Refusal { number, place });
    vec![
        compiled("one assign at 65534", &one, 65_534, &[65_534, 1, 0, 0], done(65_535, 1)),
        compiled("one assign at 65535", &one, 65_535, &[], refusal(11, 0)),
        compiled("skip at 65535", &skip().table(), 65_535, &[], done(65_535, 0)),
        checked("a child named twice", &[32, 0, 0, 0, 34, 0, 0, 0], refusal(8, 0)),
        checked("depth 256", &chain(256), done(0, 0)),
        checked("depth 257", &chain(257), refusal(9, 0)),
    ]
}

/// A pass of the loop takes four steps, the last test one: from 150 three passes, from 60 one, from 0 none, and from 1000
/// more than the fuel allows. Each crew has the whole fuel.
fn depots() -> Vec<Worked> {
    let crews: &[&[i32]] = &[&[150], &[1000, 7], &[0], &[60, -1]];
    let fuel_13: &[&[i32]] = &[&[-30, 3], &[820, 10], &[0], &[0, 0]];
    let fuel_4: &[&[i32]] = &[&[90, 1], &[940, 8], &[0], &[0, 0]];
    let rows_13 = [0, 5, 13, 1, 2, 13, 0, 5, 1, 0, 5, 5];
    let rows_4 = [1, 1, 4, 1, 1, 4, 0, 5, 1, 1, 1, 4];
    let too_many = &[crews[0]; 513];
    let refusal = |number| refused(Refusal { number, place: 0 });
    vec![
        depot("four crews, fuel 13", &LOOP_CODE, 1, crews, 13, &rows_13, done(0, 0), fuel_13),
        depot("four crews, fuel 4", &LOOP_CODE, 1, crews, 4, &rows_4, done(0, 0), fuel_4),
        depot("four crews at a label outside", &LOOP_CODE, 7, crews, 0, &[0, 7, 0].repeat(4), done(0, 0), crews),
        depot("no crews", &LOOP_CODE, 1, &[], 13, &[], done(0, 0), &[]),
        depot("no crews, code that breaks the rules", &[4, 2, 1, 4], 4, &[], 13, &[], refusal(13), &[]),
        depot("no crews at 65536", &LOOP_CODE, 65_536, &[], 13, &[], refusal(11), &[]),
        depot("513 crews", &LOOP_CODE, 1, too_many, 13, &[], refusal(10), too_many),
        depot("one crew, two words of room", &LOOP_CODE, 1, &crews[..1], 13, &[], refusal(16), &crews[..1]),
    ]
}

/// The table of nested sequences of exactly this depth.
fn chain(depth: usize) -> Vec<u32> {
    let mut tree = skip();
    for _ in 1..depth {
        tree = sequence(tree, skip());
    }
    tree.table()
}

fn worked(name: &str, case: Case, answer: Answer, after: Buffer) -> Worked {
    Worked { name: name.into(), case, outcome: Outcome { answer, after } }
}

fn checked(name: &str, table: &[u32], answer: Answer) -> Worked {
    worked(name, Case::Check { table: table.to_vec() }, answer, Buffer::None)
}

/// The room has two words more than the code needs; they stay as they are.
fn compiled(name: &str, table: &[u32], start: u32, code: &[u32], answer: Answer) -> Worked {
    let room = vec![9; code.len() + 2];
    let mut after = room.clone();
    after[..code.len()].copy_from_slice(code);
    worked(name, Case::Compile { table: table.to_vec(), start, room }, answer, Buffer::Words(after))
}

fn ran_source(name: &str, table: &[u32], before: &[i32], fuel: u32, answer: Answer, after: &[i32]) -> Worked {
    let case = Case::RunSource { table: table.to_vec(), store: store(before), fuel };
    worked(name, case, answer, Buffer::Values(store(after)))
}

#[allow(clippy::too_many_arguments)]
fn ran(
    name: &str,
    table: &[u32],
    code: &[u32],
    start: u32,
    before: &[i32],
    fuel: u32,
    answer: Answer,
    after: &[i32],
) -> Worked {
    let case = Case::RunCode { table: table.to_vec(), code: code.to_vec(), start, store: store(before), fuel };
    worked(name, case, answer, Buffer::Values(store(after)))
}

/// The loop's table. The room has two words more than the rows need; they stay as they are.
#[allow(clippy::too_many_arguments)]
fn depot(
    name: &str,
    code: &[u32],
    start: u32,
    before: &[&[i32]],
    fuel: u32,
    rows: &[u32],
    answer: Answer,
    after: &[&[i32]],
) -> Worked {
    let stores = |crews: &[&[i32]]| crews.iter().flat_map(|first| store(first)).collect();
    let room = [rows, &[9, 9]].concat();
    let case = Case::RunDepot {
        table: loop_program().table(),
        code: code.to_vec(),
        start,
        stores: stores(before),
        fuel,
        room: vec![9; room.len()],
    };
    worked(name, case, answer, Buffer::Depot { stores: stores(after), room })
}

/// A store that begins with these values; the rest are 0.
fn store(first: &[i32]) -> Vec<i32> {
    let mut store = vec![0; 32];
    store[..first.len()].copy_from_slice(first);
    store
}
