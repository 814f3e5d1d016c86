//! Typed rules worked out by hand: tables by the request's grouping and order, and places to the byte.

use super::{loop_program, worked, Worked};
use crate::case::{Buffer, Case};
use crate::oracle::answer::{done, refused, Refusal};
use crate::trees::*;

pub fn all() -> Vec<Worked> {
    let mut all = Vec::new();
    all.extend(statements());
    all.extend(arithmetic());
    all.extend(booleans());
    all.extend(places_in_words());
    all.extend(places());
    all.extend(levels());
    all.extend(limits());
    all
}

fn statements() -> Vec<Worked> {
    let by_60 = "while 0 < v0 do v0 := v0 - 60; v1 := v1 + 1 end";
    let by_60_close = "while 0<v0 do v0:=v0-60;v1:=v1+1 end";
    let by_60_wide = "\n while  0 < v0\ndo v0 := v0 - 60 ;\nv1 := v1 + 1 end \n";
    let then_skip = if_else(comparison(EQUAL, variable(0), number(0)), skip(), assign(1, number(1)));
    let set = |i| assign(i, number(i as i32));
    vec![
        reads("skip", "skip", &skip()),
        reads("the loop, typed", by_60, &loop_program()),
        reads("the loop, typed without blanks", by_60_close, &loop_program()),
        reads("the loop, typed with many", by_60_wide, &loop_program()),
        reads("an if, typed", "if v0 = 0 then skip else v1 := 1 end", &then_skip),
        reads("a row groups to the right", "v1:=1; v2:=2; v3:=3", &sequence(set(1), sequence(set(2), set(3)))),
        reads_words(
            "its nodes",
            "skip; skip; skip",
            &[[32, 0, 0, 0], [32, 0, 0, 0], [32, 0, 0, 0], [34, 1, 2, 0], [34, 0, 3, 0]],
        ),
    ]
}

fn arithmetic() -> Vec<Worked> {
    let of = |kind, left, right| operation(kind, left, right);
    let n = number;
    let reads = |text, value| reads(text, text, &assign(7, value));
    vec![
        reads("v7 := 1 - 2 - 3", of(DIFFERENCE, of(DIFFERENCE, n(1), n(2)), n(3))),
        reads("v7 := 1 - (2 - 3)", of(DIFFERENCE, n(1), of(DIFFERENCE, n(2), n(3)))),
        reads("v7 := 1 + 2 * 3", of(SUM, n(1), of(PRODUCT, n(2), n(3)))),
        reads("v7 := 1 * 2 + 3", of(SUM, of(PRODUCT, n(1), n(2)), n(3))),
        reads("v7 := (1 + 2) * 3", of(PRODUCT, of(SUM, n(1), n(2)), n(3))),
        reads("v7 := 9 / 2 % 5 * 3", of(PRODUCT, of(REMAINDER, of(QUOTIENT, n(9), n(2)), n(5)), n(3))),
        reads("v7 := ((v31))", variable(31)),
        reads("v7 := 2147483647", n(2_147_483_647)),
        reads("v7 := 0", n(0)),
        reads("v7 := choose(v1 <= 2, 3, 4)", choose(comparison(AT_MOST, variable(1), n(2)), n(3), n(4))),
    ]
}

fn booleans() -> Vec<Worked> {
    let reads = |name, test: &str, tree| reads(name, &format!("while {test} do skip end"), &while_do(tree, skip()));
    let is_1 = || comparison(EQUAL, variable(0), number(1));
    let less = || comparison(LESS, number(1), number(2));
    vec![
        reads("and groups to the left", "true and false and true", and(and(truth(true), truth(false)), truth(true))),
        reads("and in brackets", "true and [false and true]", and(truth(true), and(truth(false), truth(true)))),
        reads("not before an equality", "not v0 = 1", not(is_1())),
        reads("not before an and", "not true and false", and(not(truth(true)), truth(false))),
        reads("not of an and", "not [true and false]", not(and(truth(true), truth(false)))),
        reads("not of a not", "not [not true]", not(not(truth(true)))),
        reads("and between brackets", "[1<2]and[v0=1]", and(less(), is_1())),
        reads("not before round brackets", "not(v0)=1", not(is_1())),
    ]
}

fn places_in_words() -> Vec<Worked> {
    vec![
        stops("skipx", 4),
        stops("Skip", 0),
        stops("skIp", 2),
        stops("skip skip", 5),
        stops("v32 := 1", 2),
        stops("v01 := 1", 2),
        stops("v310 := 1", 3),
        stops("v := 1", 1),
        stops("v0 := v40", 8),
        stops("v0 := 01", 7),
        stops("v0 := 00", 7),
        stops("v0 := 2147483648", 15),
        stops("v0 := 21474836470", 16),
        stops("v0 := 4294967296", 15),
        stops("v0 := 1x", 7),
        stops("v0 := -1", 6),
        stops("v0 := choos(true, 1, 2)", 11),
        stops("iftrue then skip else skip end", 2),
        stops("if1 < 2 then skip else skip end", 2),
        stops("if v0=v1and true then skip else skip end", 8),
        stops("if notv0 = 1 then skip else skip end", 6),
        stops("if true end", 8),
        stops("if true then skip end", 19),
        stops("while true do skip else", 20),
        stops("while true then", 11),
    ]
}

fn places() -> Vec<Worked> {
    vec![
        stops("", 0),
        stops(" \n ", 3),
        stops(";", 0),
        stops("skip;", 5),
        stops("skip; ", 6),
        stops("skip;;skip", 5),
        stops("\tskip", 0),
        stops("skip\r\n", 4),
        stops("skip \0", 5),
        stops("v0", 2),
        stops("v0 = 1", 3),
        stops("v0 : = 1", 4),
        stops("v0 := 1 +", 9),
        stops("v0 := 1 < 2", 8),
        stops("v0 := (1 < 2)", 9),
        stops("v0 := ()", 7),
        stops("v0 := [1]", 6),
        stops("v0 := 1)", 7),
        stops("v0 := choose [true, 1, 2]", 13),
        stops("v0 := choose(true, 1)", 20),
        stops("while not not true do skip end", 10),
        stops("while (true) do skip end", 7),
        stops("while [v0] do skip end", 9),
        stops("while v0 do skip end", 9),
        stops("while v0 < = 1 do skip end", 11),
        stops("while v0 =< 1 do skip end", 10),
        stops("while v0 == 1 do skip end", 10),
        stops("while 1 < 2 < 3 do skip end", 12),
        stops("while true = true do skip end", 11),
        stops("while true do end", 14),
        stops("while true do skip; end", 20),
    ]
}

/// A choose and its brackets are one level; the test of an if or a while is inside it. Only brackets make no nodes.
fn levels() -> Vec<Worked> {
    let around = |before: &str, inner: &str, after: &str, levels| {
        [before.repeat(levels), inner.into(), after.repeat(levels)].concat()
    };
    let round = |levels| format!("v0:={}", around("(", "1", ")", levels));
    let square = |levels| format!("while {} do skip end", around("[", "true", "]", levels));
    let tested = |levels| format!("if {} then skip else skip end", around("[", "true", "]", levels));
    let chosen = |levels| format!("v0:={}", around("choose(true,", "1", ",2)", levels));
    let whiles = |levels| around("while true do ", "skip", " end", levels);
    vec![
        reads("256 round brackets", &round(256), &assign(0, number(1))),
        stops_at("257 round brackets", &round(257), 4 + 256),
        reads("a while's test in 255 brackets", &square(255), &while_do(truth(true), skip())),
        stops_at("a while's test in 256 brackets", &square(256), 6 + 255),
        reads("an if's test in 255 brackets", &tested(255), &if_else(truth(true), skip(), skip())),
        stops_at("an if's test in 256 brackets", &tested(256), 3 + 255),
        tells("256 chooses", &chosen(256), 9, 0),
        stops_at("257 chooses", &chosen(257), 4 + 12 * 256),
        tells("256 whiles", &whiles(256), 9, 0),
        stops_at("257 whiles", &whiles(257), 14 * 256),
        reads(
            "256 levels, and again",
            &format!("{};{}", round(256), round(256)),
            &sequence(assign(0, number(1)), assign(0, number(1))),
        ),
    ]
}

/// A sum of n ones has 2 n - 1 nodes and depth n; the assign of it one more of both.
fn limits() -> Vec<Worked> {
    let ones = |n| format!("v0:={}", vec!["1"; n].join("+"));
    let sum = |n| assign(0, (1..n).fold(number(1), |left, _| operation(SUM, left, number(1))));
    // Four times 254 nodes, each with a sequence, and more.
    let four_and = |last: &str| format!("{0};{0};{0};{0};{last}", ones(127));
    let and = |rest| sequence(sum(127), rest);
    let full = and(and(and(and(assign(1, operation(SUM, variable(2), number(3)))))));
    vec![
        reads("depth 256", &ones(255), &sum(255)),
        tells("depth 257", &ones(256), 9, 0),
        reads("1,024 nodes", &four_and("v1:=v2+3"), &full),
        tells("1,025 nodes", &four_and("skip;skip;skip"), 1, 0),
        tells("too many nodes and too deep", &ones(513), 1, 0),
        stops_at("too many nodes and not in the grammar", &(ones(513) + "+"), 4 + 2 * 513),
        stops_at("too deep and not in the grammar", &(ones(256) + ";"), 4 + 2 * 256),
        tells("three words of room", "skip", 15, 0),
    ]
}

/// The rule has the table of this tree, in a room that just fits.
fn reads(name: &str, text: &str, tree: &Tree) -> Worked {
    reads_table(name, text, tree.table())
}

fn reads_words(name: &str, text: &str, nodes: &[[u32; 4]]) -> Worked {
    reads_table(name, text, nodes.concat())
}

fn reads_table(name: &str, text: &str, table: Vec<u32>) -> Worked {
    let case = Case::ReadRule { text: text.into(), room: vec![9; table.len()] };
    worked(name, case, done(0, table.len() as u32), Buffer::Words(table))
}

fn stops(text: &str, place: usize) -> Worked {
    stops_at(text, text, place)
}

fn stops_at(name: &str, text: &str, place: usize) -> Worked {
    tells(name, text, 17, place)
}

/// The rule is refused, in a room that is too small as well.
fn tells(name: &str, text: &str, number: u32, place: usize) -> Worked {
    let room = vec![9; 3];
    let case = Case::ReadRule { text: text.into(), room: room.clone() };
    worked(name, case, refused(Refusal { number, place }), Buffer::Words(room))
}
