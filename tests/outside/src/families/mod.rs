//! What is tried: each family makes some random cases on one theme.

mod depots;
mod rules;

use crate::case::Case;
use crate::generate::*;
use crate::oracle;
use crate::oracle::answer::{Answer, DONE, FINISHED};
use crate::oracle::code::{ASSIGN, LAST_TARGET};
use crate::oracle::table::Class;
use crate::random::Random;
use crate::trees::Tree;
use crate::worked::{loop_program, LOOP_CODE};

pub use rules::long_rules;

pub type Family = fn(&mut Random) -> Vec<Case>;

/// One round of families; the program goes round until it has its cases.
pub const ROUND: &[Family] = &[
    small_programs,
    small_programs,
    small_programs,
    damaged_tables,
    damaged_tables,
    damaged_tables,
    damaged_tables,
    damaged_tables,
    damaged_tables,
    deep_programs,
    deep_damaged_tables,
    deep_and_wide_tables,
    wide_programs,
    wide_damaged_tables,
    hand_written_code,
    hand_written_code,
    damaged_code,
    damaged_code,
    several_bad_inputs,
    several_bad_inputs,
    several_bad_inputs,
    depots::depots,
    depots::depots,
    depots::damaged_depots,
    depots::damaged_depots,
    depots::several_bad_inputs,
    depots::several_bad_inputs,
    depots::several_bad_inputs,
    depots::several_bad_inputs,
    depots::several_bad_inputs,
    depots::several_bad_inputs,
    reading,
    reading,
    writing,
    writing,
    rules::typed_rules,
    rules::cut_rules,
    rules::rules_with_bad_bytes,
    rules::rules_with_bad_tokens,
    rules::numbers_at_the_edge,
    rules::nested_rules,
    rules::rules_of_many_nodes,
    rules::deep_rules,
    rules::rules_bad_in_several_ways,
    rules::any_bytes,
    rules::growing_rules,
];

/// No run in a trial goes on longer than this; longer ones are out of fuel.
const TRIAL_FUEL: u32 = 2000;

fn small_program(random: &mut Random) -> Tree {
    let size = match random.below(10) {
        0 => random.from(60, 300),
        1 | 2 => random.from(1, 5),
        _ => random.from(6, 40),
    };
    programs::statement(random, size)
}

/// The table of a program, in one order or another.
fn numbered(random: &mut Random, tree: &Tree) -> Vec<u32> {
    let table = tree.table();
    if random.once_in(2) {
        table
    } else {
        shuffle(random, &table)
    }
}

fn small_table(random: &mut Random) -> Vec<u32> {
    let tree = small_program(random);
    numbered(random, &tree)
}

fn small_programs(random: &mut Random) -> Vec<Case> {
    let table = small_table(random);
    let mut cases = all_calls(random, &table);
    cases.extend(text_both_ways(random, &table));
    cases
}

/// About the greatest depth: the path runs through statements, tests and expressions, or the whole is an expression.
fn deep_programs(random: &mut Random) -> Vec<Case> {
    let depth = random.from(253, 259);
    let class = random.pick(&[Class::Statement, Class::Statement, Class::Statement, Class::Arithmetic, Class::Boolean]);
    let tree = programs::deep(random, class, depth);
    let table = numbered(random, &tree);
    all_calls(random, &table)
}

/// Too deep, and something else as well.
fn deep_damaged_tables(random: &mut Random) -> Vec<Case> {
    let tree = programs::deep(random, Class::Statement, 257);
    let table = numbered(random, &tree);
    four_damaged(random, &table, damage::damage)
}

/// Checks of four copies of a table, each damaged in its own way.
fn four_damaged(random: &mut Random, table: &[u32], damage: fn(&mut Random, &mut Vec<u32>)) -> Vec<Case> {
    let mut damaged = || {
        let mut table = table.to_vec();
        damage(random, &mut table);
        Case::Check { table }
    };
    vec![damaged(), damaged(), damaged(), damaged()]
}

/// About the greatest number of nodes.
fn wide_programs(random: &mut Random) -> Vec<Case> {
    let nodes = random.from(1018, 1026);
    let tree = programs::wide(random, nodes);
    let table = numbered(random, &tree);
    all_calls(random, &table)
}

/// As many nodes as there may be, in levels about as many as there may be.
fn deep_and_wide_tables(random: &mut Random) -> Vec<Case> {
    let mut table = || {
        let depth = random.from(254, 258);
        let tree = programs::deep_and_wide(random, depth, 1024);
        Case::Check { table: shuffle(random, &tree.table()) }
    };
    vec![table(), table()]
}

/// Nodes named too often or not at all, in tables so large that they fill many words of marks.
fn wide_damaged_tables(random: &mut Random) -> Vec<Case> {
    let nodes = random.pick(&[1024, 1024, 1000, 512, 64, 33, 32, 31]);
    let tree = programs::wide(random, nodes);
    let table = numbered(random, &tree);
    four_damaged(random, &table, |random, table| damage::name_often(random, table))
}

/// The check, compilation and both runs of one table, whether it is accepted or not.
fn all_calls(random: &mut Random, table: &[u32]) -> Vec<Case> {
    let mut cases = vec![Case::Check { table: table.to_vec() }];
    cases.extend(compilations(random, table));
    cases.extend(source_runs(random, table));
    cases.extend(compiled_runs(random, table));
    cases
}

/// The code of a table at `start`; empty if it is refused.
fn compiled(table: &[u32], start: u32) -> Vec<u32> {
    let mut room = vec![0; 4096];
    let answer = oracle::compile(table, start, &mut room);
    room.truncate(if answer[0] == DONE { 4 * answer[4] as usize } else { 0 });
    room
}

fn compilations(random: &mut Random, table: &[u32]) -> Vec<Case> {
    let words = compiled(table, 1).len();
    let last_start = LAST_TARGET - words as u32 / 4;
    let starts = [0, 1, last_start, last_start, last_start + 1, 65_534, 65_535, 65_536, u32::MAX];
    (0..3)
        .map(|_| {
            let start = if random.once_in(3) { random.below(60_000) as u32 } else { random.pick(&starts) };
            let length = near(random, words);
            Case::Compile { table: table.to_vec(), start, room: room(random, length) }
        })
        .collect()
}

/// Fuels about what a run needs, if it ends within the trial: part of it, one too few, exactly enough, more. All the fuel
/// there is goes only to a run that cannot loop: a wrong one would go on for minutes.
fn fuels(random: &mut Random, trial: Answer, can_loop: bool) -> Vec<u32> {
    let steps = trial[4];
    if trial[0] == FINISHED {
        let part = random.below(steps as usize + 1) as u32;
        let more = if can_loop { steps + 100_000 } else { u32::MAX };
        vec![part, steps.saturating_sub(1), steps, random.pick(&[0, steps + 1, more])]
    } else {
        vec![random.below(TRIAL_FUEL as usize) as u32, random.below(20) as u32]
    }
}

fn source_runs(random: &mut Random, table: &[u32]) -> Vec<Case> {
    let store = store(random);
    let trial = oracle::run_source(table, &mut store.clone(), TRIAL_FUEL);
    let can_loop = table.iter().step_by(4).any(|&kind| kind == 36);
    let run = |fuel| Case::RunSource { table: table.to_vec(), store: store.clone(), fuel };
    fuels(random, trial, can_loop).into_iter().map(run).collect()
}

fn compiled_runs(random: &mut Random, table: &[u32]) -> Vec<Case> {
    let anywhere = random.below(LAST_TARGET as usize - 1024) as u32;
    let start = random.pick(&[0, 1, 7, anywhere]);
    let code = compiled(table, start);
    code_runs(random, table, &code, start)
}

fn code_runs(random: &mut Random, table: &[u32], code: &[u32], start: u32) -> Vec<Case> {
    let store = store(random);
    let trial = oracle::run_code(table, code, start, &mut store.clone(), TRIAL_FUEL);
    let (table, code) = (table.to_vec(), code.to_vec());
    let run = |fuel| Case::RunCode { table: table.clone(), code: code.clone(), start, store: store.clone(), fuel };
    fuels(random, trial, can_loop(&code)).into_iter().map(run).collect()
}

/// Some instruction jumps back.
fn can_loop(code: &[u32]) -> bool {
    code.chunks_exact(4).any(|frame| frame[1] != ASSIGN && frame[3] <= frame[0])
}

/// A label of the code, or one beside it, or one at the limit.
fn any_start(random: &mut Random, code: &[u32]) -> u32 {
    match random.below(10) {
        0 => random.pick(&[0, 65_534, 65_535]),
        1 => random.below(65_536) as u32,
        2 => random.pick(&[65_536, 65_537, u32::MAX]),
        _ if code.is_empty() => 1,
        3 => code[4 * random.below(code.len() / 4)] + 1,
        4 | 5 => code[4 * random.below(code.len() / 4)],
        _ => code[0],
    }
}

/// Compiled at label 1, or hand-written.
fn some_code(random: &mut Random, table: &[u32]) -> Vec<u32> {
    if random.once_in(2) {
        compiled(table, 1)
    } else {
        codes::code(random, table)
    }
}

fn hand_written_code(random: &mut Random) -> Vec<Case> {
    let table = small_table(random);
    let code = codes::code(random, &table);
    let start = any_start(random, &code);
    code_runs(random, &table, &code, start)
}

/// Also the compiled code with faults.
fn damaged_code(random: &mut Random) -> Vec<Case> {
    let table = small_table(random);
    let mut code = some_code(random, &table);
    codes::damage(random, &table, &mut code);
    // The rules may happen to be kept and the code to loop, so the fuel is small.
    let fuel = random.below(50) as u32;
    vec![Case::RunCode { table, code, start: random.pick(&[0, 1, 65_535]), store: store(random), fuel }]
}

/// Check and, for some, another call that takes a table.
fn damaged_tables(random: &mut Random) -> Vec<Case> {
    let mut table = small_table(random);
    damage::damage(random, &mut table);
    let fuel = random.below(50) as u32;
    let other = match random.below(6) {
        0 => Case::Compile { table: table.clone(), start: 1, room: room(random, 1200) },
        1 => Case::RunSource { table: table.clone(), store: store(random), fuel },
        2 => Case::RunCode { table: table.clone(), code: vec![], start: 1, store: store(random), fuel },
        _ => return vec![Case::Check { table }],
    };
    vec![Case::Check { table }, other]
}

/// A table and code over it, of which either or both may be bad.
fn bad_table_and_code(random: &mut Random) -> (Vec<u32>, Vec<u32>) {
    let mut table = if random.once_in(8) {
        let depth = random.from(256, 258);
        programs::deep(random, Class::Statement, depth).table()
    } else {
        small_table(random)
    };
    let mut code = some_code(random, &table);
    if random.once_in(2) {
        codes::damage(random, &table, &mut code);
    }
    if random.once_in(2) {
        damage::damage(random, &mut table);
    }
    (table, code)
}

fn start_perhaps_over(random: &mut Random) -> u32 {
    if random.once_in(2) {
        random.pick(&[65_536, 65_537, u32::MAX])
    } else {
        1
    }
}

/// Any of table, store, start label, code and room may be bad, so that refusals of different inputs compete.
fn several_bad_inputs(random: &mut Random) -> Vec<Case> {
    let (table, code) = bad_table_and_code(random);
    let start = start_perhaps_over(random);
    let store = if random.once_in(2) { store_of_wrong_length(random) } else { store(random) };
    let length = random.below(40);
    let fuel = random.below(50) as u32;
    vec![
        Case::Compile { table: table.clone(), start, room: room(random, length) },
        Case::RunSource { table: table.clone(), store: store.clone(), fuel },
        Case::RunCode { table, code, start, store, fuel },
    ]
}

/// The loop of document 01, also in a depot, and a jump to itself, with counts beyond 16 bits. Tried once.
pub fn long_runs() -> Vec<Case> {
    let table = loop_program().table();
    let mut store = vec![0; 32];
    store[0] = 12_000_000;
    let passes = 200_000;
    let steps = 4 * passes + 1;
    let mut cases = Vec::new();
    for fuel in [steps - 1, steps, u32::MAX] {
        cases.push(Case::RunSource { table: table.clone(), store: store.clone(), fuel });
        let code = LOOP_CODE.to_vec();
        cases.push(Case::RunCode { table: table.clone(), code, start: 1, store: store.clone(), fuel });
    }
    let goto = vec![4, 2, 0, 4];
    cases.push(Case::RunCode { table: table.clone(), code: goto, start: 4, store: store.clone(), fuel: 1_000_003 });
    // The first crew is out of fuel at its last test, the second finishes.
    let stores = [store, vec![0; 32]].concat();
    cases.push(Case::RunDepot { table, code: LOOP_CODE.to_vec(), start: 1, stores, fuel: steps - 1, room: vec![9; 6] });
    cases
}

/// What is written and what is read back.
fn text_both_ways(random: &mut Random, words: &[u32]) -> Vec<Case> {
    let text = texts::text(words);
    let (bytes, count) = (near(random, text.len()), near(random, words.len()));
    vec![
        Case::WriteText { words: words.to_vec(), room: byte_room(random, bytes) },
        Case::ReadText { text, room: room(random, count) },
    ]
}

fn reading(random: &mut Random) -> Vec<Case> {
    let frames = texts::frames(random);
    let words = texts::words(random, 4 * frames);
    let mut text = texts::text(&words);
    for _ in 0..random.pick(&[0, 1, 1, 1, 2]) {
        texts::damage(random, &mut text);
    }
    let length = near(random, words.len());
    vec![Case::ReadText { text, room: room(random, length) }]
}

fn writing(random: &mut Random) -> Vec<Case> {
    let frames = texts::frames(random);
    let count = 4 * frames + if random.once_in(3) { random.from(1, 3) } else { 0 };
    let length = near(random, 33 * frames);
    vec![Case::WriteText { words: texts::words(random, count), room: byte_room(random, length) }]
}
