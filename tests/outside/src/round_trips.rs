//! What must hold between calls: text written is read back, compiled code follows its source, a depot is its crews run one
//! by one, and a typed rule is its program.

use crate::calls::Calls;
use crate::case::Case;
use crate::generate::{codes, programs, rules, shuffle, store, stores, texts};
use crate::guarded::Guarded;
use crate::oracle::answer::{DONE, FINISHED, REFUSED};
use crate::oracle::depot::ROW;
use crate::oracle::table::VARIABLES;
use crate::random::Random;

/// Words, their text, and the same words again; or what went wrong.
pub fn text_is_read_back(calls: &Calls, random: &mut Random) -> Result<(), String> {
    let frames = texts::frames(random).min(1024);
    let words = texts::words(random, 4 * frames);
    let mut guarded = Guarded::new(calls, frames);
    let (written, text) = guarded.write_text(&words, &vec![0; 33 * frames]);
    let (read, back) = guarded.read_text(&text, &vec![0; 4 * frames]);
    if (written[0], read[0], &back) == (DONE, DONE, &words) && guarded.trespasses().is_empty() {
        return Ok(());
    }
    Err(format!("words are not read back from their text: {}", Case::WriteText { words, room: text }))
}

/// The run of the compiled code and the run of its source: same verdict, same count, same store, and a finish at the
/// end label.
pub fn code_follows_source(calls: &Calls, random: &mut Random) -> Result<(), String> {
    let size = random.from(1, 60);
    let tree = programs::statement(random, size);
    let table = shuffle(random, &tree.table());
    let store = store(random);
    let (start, fuel) = (random.below(60_000) as u32, random.below(300) as u32);

    let mut guarded = Guarded::new(calls, size);
    let (follows, code) = runs_agree(&mut guarded, &table, start, &store, fuel);
    if follows && guarded.trespasses().is_empty() {
        return Ok(());
    }
    Err(format!("compiled code does not follow its source: {}", Case::RunCode { table, code, start, store, fuel }))
}

/// Whether the table is compiled and both its runs end alike; with its code.
fn runs_agree(guarded: &mut Guarded, table: &[u32], start: u32, store: &[i32], fuel: u32) -> (bool, Vec<u32>) {
    let (compiled, mut code) = guarded.compile(table, start, &[0; 4096]);
    code.truncate(4 * compiled[4] as usize);
    let (ran, by_code) = guarded.run_code(table, &code, start, store, fuel);
    let (evaluated, by_source) = guarded.run_source(table, store, fuel);
    let runs_agree = (ran[0], ran[4], by_code) == (evaluated[0], evaluated[4], by_source);
    let ends_agree = ran[0] != FINISHED || ran[3] == compiled[3];
    (compiled[0] == DONE && runs_agree && ends_agree, code)
}

/// The table of a rule is that of the program it was typed from; it passes the check, and both its runs end alike.
pub fn rule_is_its_program(calls: &Calls, random: &mut Random) -> Result<(), String> {
    let size = random.from(1, 60);
    let program = programs::statement(random, size);
    let typed = rules::typed(random, &program);
    let text = rules::text(random, &typed.tokens);
    let store = store(random);
    let (start, fuel) = (random.below(60_000) as u32, random.below(300) as u32);

    let mut guarded = Guarded::new(calls, size);
    let room = vec![0; typed.table.len()];
    let (read, table) = guarded.read_rule(&text, &room);
    let checked = guarded.check(&table);
    let (runs, _) = runs_agree(&mut guarded, &table, start, &store, fuel);
    if (read[0], &table, checked[0]) == (DONE, &typed.table, DONE) && runs && guarded.trespasses().is_empty() {
        return Ok(());
    }
    Err(format!("a typed rule is not its program: {}", Case::ReadRule { text, room }))
}

/// "The whole must equal the crews run one by one": the same stores, and in the room what the runs answered.
pub fn depot_is_its_crews(calls: &Calls, random: &mut Random) -> Result<(), String> {
    let (size, crews) = (random.from(1, 60), random.from(1, 6));
    let tree = programs::statement(random, size);
    let table = shuffle(random, &tree.table());
    let (stores, fuel) = (stores(random, crews), random.below(80) as u32);
    let room = vec![0; ROW * crews];

    let mut guarded = Guarded::new(calls, size);
    let code = if random.once_in(2) { compiled(&mut guarded, &table) } else { codes::code(random, &table) };
    let start = if code.is_empty() { 1 } else { code[4 * random.below(code.len() / 4)] };
    let (answer, together, told) = guarded.run_depot(&table, &code, start, &stores, fuel, &room);
    let (mut one_by_one, mut rows) = (vec![], vec![]);
    for store in stores.chunks_exact(VARIABLES) {
        let (ran, after) = guarded.run_code(&table, &code, start, store, fuel);
        one_by_one.extend(after);
        // An answer has 1 and 2 for finished and out of fuel, the room has 0 and 1.
        rows.extend([ran[0].wrapping_sub(FINISHED), ran[3], ran[4]]);
    }

    if (answer[0], together, told) == (DONE, one_by_one, rows) && guarded.trespasses().is_empty() {
        return Ok(());
    }
    let case = Case::RunDepot { table, code, start, stores, fuel, room };
    Err(format!("a depot is not its crews run one by one: {case}"))
}

/// "Place the length of its longest beginning that also begins a text of the grammar": that beginning can be completed to such a
/// text, and one byte more cannot, whatever follows.
pub fn place_is_the_longest_beginning(calls: &Calls, random: &mut Random) -> Result<(), String> {
    let size = random.from(1, 30);
    let program = programs::statement(random, size);
    let tokens = rules::typed(random, &program).tokens;
    let mut text = rules::text(random, &tokens);
    rules::damage_byte(random, &mut text);

    let mut guarded = Guarded::new(calls, size);
    let Some(place) = stop(&mut guarded, &text) else {
        return Ok(());
    };
    let too_long = text.get(..place + 1).is_none_or(|beginning| {
        let any_end = [beginning, &rules::text(random, &tokens)].concat();
        stop(&mut guarded, beginning) == Some(place) && stop(&mut guarded, &any_end) == Some(place)
    });
    if place <= text.len() && too_long && completed(&mut guarded, &text[..place]) && guarded.trespasses().is_empty() {
        return Ok(());
    }
    Err(format!("{place} is not the longest beginning: {}", Case::ReadRule { text, room: vec![] }))
}

/// The place of 17, where that is told.
fn stop(guarded: &mut Guarded, text: &[u8]) -> Option<usize> {
    let (answer, _) = guarded.read_rule(text, &[]);
    (answer[..2] == [REFUSED, 17]).then_some(answer[2] as usize)
}

/// How a text may go on: what closes something, then what must stand somewhere, then a letter of a word.
#[rustfmt::skip]
const ENDINGS: [&str; 33] = [
    ")", "]", ",1,1)", ",1)", "<1", " end", " else skip end", " do skip end", " then skip else skip end",
    " skip", " 1", " true", ":=1", "(true,1,1)", "0", "=",
    "a", "c", "d", "e", "f", "h", "i", "k", "l", "n", "o", "p", "r", "s", "t", "u", "w",
];

/// Whether the text is one of the grammar after some of these, each put where it still begins one.
fn completed(guarded: &mut Guarded, beginning: &[u8]) -> bool {
    let mut text = beginning.to_vec();
    for _ in 0..500 {
        if stop(guarded, &text).is_none() {
            return true;
        }
        let mut longer = ENDINGS.iter().map(|ending| [&text[..], ending.as_bytes()].concat());
        let begins_one = |longer: &Vec<u8>| stop(guarded, longer).is_none_or(|place| place == longer.len());
        match longer.find(begins_one) {
            Some(longer) => text = longer,
            None => return false,
        }
    }
    false
}

/// The code at label 1, by the tested calls.
fn compiled(guarded: &mut Guarded, table: &[u32]) -> Vec<u32> {
    let (answer, mut code) = guarded.compile(table, 1, &[0; 4096]);
    code.truncate(4 * answer[4] as usize);
    code
}
