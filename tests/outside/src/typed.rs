//! What a typed rule that was tried is an example of, so that the program can tell what none was.

use crate::case::Outcome;
use crate::oracle::answer::{DONE, REFUSED};
use crate::oracle::rule::MOST_NESTED;
use crate::oracle::table::{depth, MOST_DEPTH, MOST_NODES};

/// What some of the typed rules ought to have.
pub const RULES: [&str; 8] = [
    "1,024 nodes",
    "depth 256",
    "256 levels",
    "a room that just fits",
    "a room one word short",
    "a place before a 257th level",
    "a place at the end",
    "a place after 1,000,000 bytes",
];

/// Which of these it has; the first four only where it is done.
pub fn examples(text: &[u8], room: &[u32], table: &[u32], outcome: &Outcome) -> [bool; RULES.len()] {
    let [verdict, number, place, ..] = outcome.answer;
    let (done, place) = (verdict == DONE, place as usize);
    let stopped = verdict == REFUSED && number == 17;
    [
        done && table.len() == 4 * MOST_NODES,
        done && depth(table) == MOST_DEPTH,
        done && levels(text).most == MOST_NESTED,
        done && room.len() == table.len(),
        number == 15 && room.len() + 1 == table.len(),
        stopped && before_a_level_too_many(text, place),
        stopped && place == text.len(),
        stopped && place > 1_000_000,
    ]
}

fn before_a_level_too_many(text: &[u8], place: usize) -> bool {
    let opens = text.get(place).is_some_and(|byte| b"([ciw".contains(byte));
    opens && levels(&text[..place]).open == MOST_NESTED
}

struct Levels {
    open: u32,
    most: u32,
}

/// How many brackets, ifs and whiles are open at the end of a text, and the most that were: a choose is its bracket. The text
/// is in the grammar, or the beginning of one that is.
fn levels(text: &[u8]) -> Levels {
    let mut levels = Levels { open: 0, most: 0 };
    for run in text.chunk_by(|a, b| a.is_ascii_alphanumeric() && b.is_ascii_alphanumeric()) {
        match run {
            b"(" | b"[" | b"if" | b"while" => levels.open += 1,
            b")" | b"]" | b"end" => levels.open -= 1,
            _ => {}
        }
        levels.most = levels.most.max(levels.open);
    }
    levels
}
