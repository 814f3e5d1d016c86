//! The harness tested: the oracle passes against itself, each mutant of the oracle is found out, and so is each call
//! that touches memory it must not touch.

use outside::calls::{subject, Calls};
use outside::compare::{compare, Plan};
use outside::oracle;

// A mutant is a whole oracle, of which only the eight calls are used.
#[allow(unused)]
mod mutants {
    use outside::calls::Calls;
    include!(concat!(env!("OUT_DIR"), "/mutants/all.rs"));
}

/// Finds every mutant, and covers all that ought to occur, with any of the seeds 1 to 8.
const COUNT: usize = 24_000;

/// Until the first family with a failure.
fn is_found_out(calls: &Calls) -> bool {
    compare(calls, &Plan { seed: 1, count: COUNT, patience: 1, trace: false }).failed > 0
}

#[test]
fn the_oracle_agrees_with_itself_and_all_is_covered() {
    let report = compare(&subject(), &Plan { seed: 1, count: COUNT, patience: 1, trace: false });
    assert_eq!(report.failed, 0, "{:?}", report.shown);
    assert_eq!(report.tally.complaints(COUNT / 2000), Vec::<String>::new());
}

#[test]
fn each_mutant_is_found_out() {
    // Mutants that accept what they should refuse may panic later; that is a failure like any other.
    std::panic::set_hook(Box::new(|_| {}));
    let missed: Vec<&str> =
        mutants::all().into_iter().filter(|(_, calls)| !is_found_out(calls)).map(|(says, _)| says).collect();
    drop(std::panic::take_hook());
    assert_eq!(missed, Vec::<&str>::new());
}

#[test]
fn a_word_written_after_the_room_is_found_out() {
    unsafe extern "C" fn compile(
        table: *const u32,
        len: usize,
        start: u32,
        room: *mut u32,
        room_len: usize,
        answer: *mut u32,
    ) {
        (subject().compile)(table, len, start, room, room_len, answer);
        room.add(room_len).write(7);
    }
    assert!(is_found_out(&Calls { compile, ..subject() }));
}

#[test]
fn a_value_written_after_the_stores_is_found_out() {
    #[allow(clippy::too_many_arguments)]
    unsafe extern "C" fn run_depot(
        table: *const u32,
        len: usize,
        code: *const u32,
        code_len: usize,
        start: u32,
        stores: *mut i32,
        stores_len: usize,
        fuel: u32,
        room: *mut u32,
        room_len: usize,
        answer: *mut u32,
    ) {
        (subject().run_depot)(table, len, code, code_len, start, stores, stores_len, fuel, room, room_len, answer);
        stores.add(stores_len).write(7);
    }
    assert!(is_found_out(&Calls { run_depot, ..subject() }));
}

#[test]
fn a_byte_written_before_the_room_is_found_out() {
    unsafe extern "C" fn write_text(words: *const u32, len: usize, room: *mut u8, room_len: usize, answer: *mut u32) {
        (subject().write_text)(words, len, room, room_len, answer);
        room.sub(1).write(b'7');
    }
    assert!(is_found_out(&Calls { write_text, ..subject() }));
}

#[test]
fn a_table_that_is_altered_is_found_out() {
    unsafe extern "C" fn check(table: *const u32, len: usize, answer: *mut u32) {
        (subject().check)(table, len, answer);
        if len > 40 {
            table.cast_mut().add(40).write(table.add(40).read() ^ 1);
        }
    }
    assert!(is_found_out(&Calls { check, ..subject() }));
}

#[test]
fn a_byte_read_after_the_text_is_found_out() {
    // Takes the byte after the text for its last newline.
    unsafe extern "C" fn read_text(text: *const u8, len: usize, room: *mut u32, room_len: usize, answer: *mut u32) {
        let beyond = usize::from(len % 33 == 32);
        (subject().read_text)(text, len + beyond, room, room_len, answer);
    }
    assert!(is_found_out(&Calls { read_text, ..subject() }));
}

#[test]
fn a_word_written_after_the_room_of_a_rule_is_found_out() {
    unsafe extern "C" fn read_rule(text: *const u8, len: usize, room: *mut u32, room_len: usize, answer: *mut u32) {
        (subject().read_rule)(text, len, room, room_len, answer);
        room.add(room_len).write(7);
    }
    assert!(is_found_out(&Calls { read_rule, ..subject() }));
}

#[test]
fn a_byte_read_after_the_rule_is_found_out() {
    // Takes the byte after the text for a part of its last word, or for a blank.
    unsafe extern "C" fn read_rule(text: *const u8, len: usize, room: *mut u32, room_len: usize, answer: *mut u32) {
        (subject().read_rule)(text, len + 1, room, room_len, answer);
    }
    assert!(is_found_out(&Calls { read_rule, ..subject() }));
}

#[test]
fn an_answer_word_left_as_it_was_is_found_out() {
    unsafe extern "C" fn run_source(
        table: *const u32,
        len: usize,
        store: *mut i32,
        store_len: usize,
        fuel: u32,
        answer: *mut u32,
    ) {
        let last = answer.add(7).read();
        (subject().run_source)(table, len, store, store_len, fuel, answer);
        answer.add(7).write(last);
    }
    assert!(is_found_out(&Calls { run_source, ..subject() }));
}

#[test]
fn the_oracle_gives_the_worked_runs() {
    for worked in outside::worked::all() {
        assert!(worked.case.by_oracle() == worked.outcome, "{}", worked.name);
    }
    assert_eq!(oracle::check(&outside::worked::loop_program().table()), [0; 8]);
}
