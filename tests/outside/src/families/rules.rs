//! Typed rules: such as are in the grammar, such as are just not, and such as are at its limits.

use super::small_program;
use crate::case::Case;
use crate::generate::rules::{damage_byte, damage_token, text, to_the_edge, typed, Typed};
use crate::generate::*;
use crate::oracle::rule::{self, nodes_of};
use crate::oracle::table::Class;
use crate::random::Random;
use crate::trees::Tree;

/// A text with room of the words needed or about that many; for a text out of the grammar, those of its beginning.
fn reading(random: &mut Random, text: Vec<u8>) -> Case {
    let needed = nodes_of(&text).len();
    let length = if random.once_in(3) { 4096 } else { near(random, needed) };
    Case::ReadRule { text, room: room(random, length) }
}

fn small_rule(random: &mut Random) -> Typed {
    let program = small_program(random);
    typed(random, &program)
}

/// The same rule with other blanks, and in other rooms.
pub fn typed_rules(random: &mut Random) -> Vec<Case> {
    let rule = small_rule(random);
    (0..4)
        .map(|_| {
            let text = text(random, &rule.tokens);
            reading(random, text)
        })
        .collect()
}

/// Cut after every byte; a long one after some of them.
pub fn cut_rules(random: &mut Random) -> Vec<Case> {
    let size = random.from(1, 12);
    let program = programs::statement(random, size);
    let tokens = typed(random, &program).tokens;
    let whole = text(random, &tokens);
    let cuts: Vec<usize> = match whole.len() {
        0..=48 => (0..whole.len()).collect(),
        _ => (0..32).map(|_| random.below(whole.len())).collect(),
    };
    cuts.into_iter().map(|cut| reading(random, whole[..cut].to_vec())).collect()
}

/// A byte or two are wrong.
pub fn rules_with_bad_bytes(random: &mut Random) -> Vec<Case> {
    let tokens = small_rule(random).tokens;
    let whole = text(random, &tokens);
    (0..8)
        .map(|_| {
            let mut text = whole.clone();
            for _ in 0..random.pick(&[1, 1, 1, 2]) {
                damage_byte(random, &mut text);
            }
            reading(random, text)
        })
        .collect()
}

/// A token or two are wrong.
pub fn rules_with_bad_tokens(random: &mut Random) -> Vec<Case> {
    let rule = small_rule(random);
    (0..8)
        .map(|_| {
            let mut tokens = rule.tokens.clone();
            for _ in 0..random.pick(&[1, 1, 1, 2]) {
                if !tokens.is_empty() {
                    damage_token(random, &mut tokens);
                }
            }
            let text = text(random, &tokens);
            reading(random, text)
        })
        .collect()
}

/// Numbers and variables at their limits.
pub fn numbers_at_the_edge(random: &mut Random) -> Vec<Case> {
    let rule = small_rule(random);
    (0..4)
        .map(|_| {
            let mut tokens = rule.tokens.clone();
            to_the_edge(random, &mut tokens);
            let text = text(random, &tokens);
            reading(random, text)
        })
        .collect()
}

/// About 256 levels, of one kind or of all; some with a fault, which may be in the middle.
pub fn nested_rules(random: &mut Random) -> Vec<Case> {
    let levels = random.from(254, 258);
    let outermost = random.pick(&[0, 0, 1, 2, 10, 100, levels]);
    let kinds = random.pick(&[
        &[Level::Round][..],
        &[Level::Square],
        &[Level::Choose],
        &[Level::Round, Level::Square, Level::Choose],
        &[Level::Round, Level::Round, Level::Round, Level::Round, Level::Square, Level::Square, Level::Choose],
    ]);
    let whole = nested(random, kinds, levels - outermost, outermost);
    let mut faulty = whole.clone();
    damage_byte(random, &mut faulty);
    vec![reading(random, whole), reading(random, faulty)]
}

/// A level of an expression.
#[derive(Clone, Copy)]
enum Level {
    Round,
    Square,
    Choose,
}

/// So many levels of these kinds about something small, and so many ifs and whiles about them. Where there are none of these, a
/// boolean gets one level more, which makes it an arithmetic.
fn nested(random: &mut Random, kinds: &[Level], levels: usize, statements: usize) -> Vec<u8> {
    let mut part = match levels {
        0 => ("skip".to_string(), Class::Statement),
        _ => ("v1".to_string(), Class::Arithmetic),
    };
    for _ in 0..levels {
        let kind = random.pick(kinds);
        part = wrapped(random, kind, part);
    }
    for _ in 0..statements {
        part = (in_statement(random, part), Class::Statement);
    }
    match part {
        (text, Class::Arithmetic) => format!("v2:={text}").into(),
        (text, Class::Boolean) => format!("v2 := choose({text}, 1, 2)").into(),
        (text, Class::Statement) => text.into(),
    }
}

/// One level more about an expression. Round brackets cannot hold a boolean: a choose can.
fn wrapped(random: &mut Random, level: Level, (text, class): (String, Class)) -> (String, Class) {
    match (level, class) {
        (Level::Square, _) => {
            let test = if class == Class::Boolean { text } else { format!("v0<{text}") };
            let inside = match random.below(12) {
                0 => format!("not {test}"),
                1 => format!(" true and {test} "),
                2 => format!("{test} and false"),
                _ => test,
            };
            (format!("[{inside}]"), Class::Boolean)
        }
        (_, Class::Boolean) => (format!("choose({text},1,2)"), Class::Arithmetic),
        (Level::Round, _) => {
            let inside = match random.below(12) {
                0 => format!(" {text}\n"),
                1 => format!("{text}*2"),
                2 => format!("1-{text}"),
                _ => text,
            };
            (format!("({inside})"), Class::Arithmetic)
        }
        (Level::Choose, _) => {
            let chosen = match random.below(3) {
                0 => format!("choose(true,{text},0)"),
                1 => format!("choose (false, 1, {text})"),
                _ => format!("choose({text} = 0, 1, v3)"),
            };
            (chosen, Class::Arithmetic)
        }
    }
}

/// An if or a while about a part, which may be its test.
fn in_statement(random: &mut Random, (text, class): (String, Class)) -> String {
    match (class, random.once_in(2)) {
        (Class::Boolean, true) => format!("if {text} then skip else skip end"),
        (Class::Boolean, false) => format!("while {text} do skip end"),
        (Class::Arithmetic, true) => format!("if {text}<=1 then skip else v0:=1 end"),
        (Class::Arithmetic, false) => format!("while true do v4 := {text} end"),
        (Class::Statement, true) => match random.below(3) {
            0 => format!("if true then {text} else skip end"),
            1 => format!("if true then skip;skip else {text} end"),
            _ => format!("if v0=v1 then {text};skip else skip end"),
        },
        (Class::Statement, false) => format!("while true do {text} end"),
    }
}

/// About 1,024 nodes, and not too deep.
fn many_nodes(random: &mut Random) -> Vec<u8> {
    let nodes = random.from(1021, 1027);
    let pieces = programs::pieces(random, nodes, 40);
    let tokens = typed_row(random, &pieces);
    text(random, &tokens)
}

fn typed_row(random: &mut Random, statements: &[Tree]) -> Vec<String> {
    let mut tokens = vec![];
    for (i, statement) in statements.iter().enumerate() {
        if i > 0 {
            tokens.push(";".to_string());
        }
        tokens.extend(typed(random, statement).tokens);
    }
    tokens
}

/// About 256 deep: a row, a chain of operators, levels that make nodes, or a path of all kinds. A long row or chain has too many
/// nodes as well.
fn deep_text(random: &mut Random) -> Vec<u8> {
    let many = random.pick(&[253, 254, 255, 255, 256, 256, 257, 258, 520, 1100]);
    match random.below(9) {
        0 => vec!["skip"; many].join(";").into(),
        1 => format!("v0:={}", vec!["v1"; many].join(random.pick(&["+", "-", " - "]))).into(),
        2 => format!("v0:={}", vec!["1"; many].join(random.pick(&["*", "/", "%"]))).into(),
        3 => format!("while {} do skip end", vec!["true"; many].join(" and ")).into(),
        4 => nested(random, &[Level::Choose], many.min(256), 0),
        5 => nested(random, &[], 0, many.min(256)),
        _ => {
            let depth = random.from(253, 259);
            let program = programs::deep(random, Class::Statement, depth);
            let tokens = typed(random, &program).tokens;
            text(random, &tokens)
        }
    }
}

pub fn rules_of_many_nodes(random: &mut Random) -> Vec<Case> {
    let text = many_nodes(random);
    vec![reading(random, text)]
}

pub fn deep_rules(random: &mut Random) -> Vec<Case> {
    let text = deep_text(random);
    vec![reading(random, text)]
}

/// Too many nodes, too deep, out of the grammar at the end, too little room: any of these together.
pub fn rules_bad_in_several_ways(random: &mut Random) -> Vec<Case> {
    let mut text = match random.below(3) {
        0 => many_nodes(random),
        1 => deep_text(random),
        _ => [deep_text(random), b";".to_vec(), many_nodes(random)].concat(),
    };
    match random.below(4) {
        0 => text.push(random.pick(b";x)]0\t\r")),
        1 => text.truncate(text.len() - random.from(1, 5)),
        _ => {}
    }
    let length = random.pick(&[0, 1, 100, 4095, 4096, 8192]);
    vec![Case::ReadRule { text, room: room(random, length) }]
}

/// The bytes of the grammar's texts, letters as often as words have them.
const USUAL: &[u8] = b"skipvifthenlsdwhilechosetrufandot0123456789;:=<+-*/%()[], \n";

/// Bytes of any kind, bytes that occur in rules, blanks, nothing.
pub fn any_bytes(random: &mut Random) -> Vec<Case> {
    let length = random.below(30);
    let text = match random.below(4) {
        0 => (0..length).map(|_| random.word() as u8).collect(),
        1 => (0..length).map(|_| random.pick(b" \n")).collect(),
        2 => [b"skip ".to_vec(), byte_room(random, 1), b"skip".to_vec()].concat(),
        _ => (0..length).map(|_| random.pick(USUAL)).collect(),
    };
    vec![reading(random, text)]
}

/// A text that grows byte by byte, each one with which some text of the grammar goes on; and some of its beginnings with any
/// byte behind.
pub fn growing_rules(random: &mut Random) -> Vec<Case> {
    let mut text: Vec<u8> = vec![];
    let mut cases = vec![];
    for _ in 0..random.from(1, 400) {
        let byte = random.pick(USUAL);
        text.push(byte);
        if !begins_a_rule(&text) {
            text.pop();
        } else if random.once_in(4) {
            let other = [&text[..], &[random.pick(USUAL)]].concat();
            cases.push(reading(random, other));
        }
    }
    cases.push(reading(random, text));
    cases
}

fn begins_a_rule(text: &[u8]) -> bool {
    match rule::parse(text) {
        Err(stopped) => stopped.place == text.len(),
        Ok(_) => true,
    }
}

/// Megabytes of blanks, of one word, of open brackets, of statements. Tried once.
pub fn long_rules() -> Vec<Case> {
    const LONG: usize = 3_000_000;
    let many = |byte: u8| vec![byte; LONG];
    let texts = [
        [b"v0 :=".to_vec(), many(b' '), b"1 + 2".to_vec()].concat(),
        [many(b'\n'), b"skip;".to_vec(), many(b' '), b"skip".to_vec(), many(b'\n')].concat(),
        [b"skip;".to_vec(), many(b' ')].concat(),
        [b"skip".to_vec(), many(b' '), b"\t".to_vec()].concat(),
        [b"v0 := 1".to_vec(), many(b'0')].concat(),
        [b"skip".to_vec(), many(b'p')].concat(),
        [b"v0 := ".to_vec(), many(b'(')].concat(),
        b"skip;".repeat(LONG / 5),
        [b"skip;".repeat(LONG / 5), b"skip".to_vec()].concat(),
        // 65,537 nodes, a number that is 1 in 16 bits.
        [b"skip;".repeat(32_768), b"skip".to_vec()].concat(),
        [b"v0 := 1".to_vec(), b"+1".repeat(LONG / 2)].concat(),
        [b"while true".to_vec(), b" and true".repeat(LONG / 9), b" do skip end".to_vec()].concat(),
    ];
    texts.into_iter().map(|text| Case::ReadRule { text, room: vec![9; 12] }).collect()
}
