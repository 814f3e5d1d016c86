//! Document 01 and requests A1, A2 and A4 in plain Rust, written from their text alone.
//!
//! The eight calls take what the calls of the C boundary take and give the eight words of the answer. A buffer that the
//! call may alter comes as `&mut`; after a refusal it is as it was. Nothing here is tuned: it says what the right answer
//! is, and the benchmark sets the proved library beside it.

pub mod answer;
pub mod code;
pub mod compile;
pub mod depot;
pub mod expressions;
pub mod rule;
pub mod source;
pub mod table;
pub mod text;
pub mod values;

use answer::{refused, Answer};

/// The table check: done, or refused 1 to 9.
pub fn check(table: &[u32]) -> Answer {
    match table::check(table) {
        Ok(()) => answer::done(0, 0),
        Err(refusal) => refused(refusal),
    }
}

/// Compilation at `start` into `room`: done with end label and instruction count, or refused 1 to 9, 11, 12.
pub fn compile(table: &[u32], start: u32, room: &mut [u32]) -> Answer {
    compile::compile(table, start, room).unwrap_or_else(refused)
}

/// A source run: finished or out of fuel with its units, or refused 1 to 10.
pub fn run_source(table: &[u32], store: &mut [i32], fuel: u32) -> Answer {
    source::run(table, store, fuel).unwrap_or_else(refused)
}

/// A code run from `start`: finished or out of fuel with label and steps, or refused 1 to 11, 13.
pub fn run_code(table: &[u32], code: &[u32], start: u32, store: &mut [i32], fuel: u32) -> Answer {
    code::run(table, code, start, store, fuel).unwrap_or_else(refused)
}

/// A code run from `start` for each crew, the whole fuel for each; `room` gets verdict, label and steps of every crew:
/// done, or refused 1 to 11, 13, 16.
pub fn run_depot(table: &[u32], code: &[u32], start: u32, stores: &mut [i32], fuel: u32, room: &mut [u32]) -> Answer {
    depot::run(table, code, start, stores, fuel, room).unwrap_or_else(refused)
}

/// Text to words: done with the number of words, or refused 14, 15.
pub fn read_text(text: &[u8], room: &mut [u32]) -> Answer {
    text::read(text, room).unwrap_or_else(refused)
}

/// Words to text: done with the number of bytes, or refused 14, 15.
pub fn write_text(words: &[u32], room: &mut [u8]) -> Answer {
    text::write(words, room).unwrap_or_else(refused)
}

/// A typed rule to the words of its table: done with the number of words, or refused 17, then as the check refuses that
/// table, then 15.
pub fn read_rule(text: &[u8], room: &mut [u32]) -> Answer {
    rule::read(text, room).unwrap_or_else(refused)
}
