//! Text that keeps the rules, and text that breaks them by a byte.

use crate::oracle;
use crate::oracle::text::{LINE, MOST_FRAMES};
use crate::random::Random;

/// How many frames: few mostly, sometimes about the limit.
pub fn frames(random: &mut Random) -> usize {
    match random.below(16) {
        0 => 0,
        1 | 2 => random.pick(&[1023, 1024, 1024, 1025, 1025, 1026]),
        3 => random.from(20, 200),
        _ => random.from(1, 6),
    }
}

/// Words whose digits are all different ones, and words of few digits.
pub fn words(random: &mut Random, count: usize) -> Vec<u32> {
    (0..count)
        .map(|_| match random.below(4) {
            0 => random.below(40) as u32,
            1 => random.pick(&[0, u32::MAX, 0x0123_4567, 0x89ab_cdef, 0xabcd_efab]),
            _ => random.word(),
        })
        .collect()
}

/// The text of any number of frames, also of more than may be read.
pub fn text(words: &[u32]) -> Vec<u8> {
    let mut text = Vec::new();
    for frame in words.chunks_exact(4) {
        let mut line = [0; LINE];
        oracle::write_text(frame, &mut line);
        text.extend(line);
    }
    text
}

/// One fault, anywhere in the text.
pub fn damage(random: &mut Random, text: &mut Vec<u8>) {
    const STRAY: &[u8] = b"g`/:@AFG \r\n\t\0\x80\xffx";
    // At the end of a text that is full or too long, so that the first fault is often the one past the limit.
    let full = text.len() >= LINE * MOST_FRAMES;
    if text.is_empty() || random.once_in(if full { 2 } else { 6 }) {
        let stray = random.pick(STRAY);
        let count = random.from(1, 3);
        return text.resize(text.len() + count, stray);
    }
    let place = random.below(text.len());
    let line_start = place - place % LINE;
    let line_end = (line_start + LINE - 1).min(text.len() - 1);
    match random.below(10) {
        0 => upper_case(random, text),
        // Twice: a reader that takes the byte after the text for the last newline is found out only if that byte is one.
        1 | 2 => text.truncate(text.len() - 1),
        3 => text.truncate(place),
        4 => {
            text.remove(place);
        }
        5 => text.insert(place, random.pick(b"0a\n \r")),
        6 => text[line_end] = random.pick(b"\r 0\x0b\0"),
        7 => text.insert(line_start, b'\n'),
        8 => text.insert(line_end, b'\r'),
        _ => text[place] = random.pick(STRAY),
    }
}

/// One of the digits a to f, if there are any, as a capital.
fn upper_case(random: &mut Random, text: &mut [u8]) {
    let letters: Vec<usize> = (0..text.len()).filter(|&i| text[i].is_ascii_lowercase()).collect();
    if !letters.is_empty() {
        text[random.pick(&letters)].make_ascii_uppercase();
    }
}
