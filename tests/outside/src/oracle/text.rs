//! "Text": one frame a line, four words of eight lower-case hexadecimal digits, and a newline.

use super::answer::{done, refuse, Answer, Refusal};

pub const MOST_FRAMES: usize = 1024;
pub const LINE: usize = 33;

pub fn read(text: &[u8], room: &mut [u32]) -> Result<Answer, Refusal> {
    let mut words = Vec::new();
    for (number, line) in text.chunks(LINE).enumerate() {
        match frame(line) {
            Some(frame) if number < MOST_FRAMES => words.extend(frame),
            _ => return refuse(14, number),
        }
    }
    if room.len() < words.len() {
        return refuse(15, 0);
    }
    room[..words.len()].copy_from_slice(&words);
    Ok(done(0, words.len() as u32))
}

/// The four words of a line of 32 digits and a newline.
fn frame(line: &[u8]) -> Option<[u32; 4]> {
    if line.len() != LINE || line[LINE - 1] != b'\n' {
        return None;
    }
    let mut frame = [0; 4];
    for (word, digits) in frame.iter_mut().zip(line.chunks_exact(8)) {
        for &byte in digits {
            *word = *word << 4 | digit(byte)?;
        }
    }
    Some(frame)
}

fn digit(byte: u8) -> Option<u32> {
    match byte {
        b'0'..=b'9' => Some(u32::from(byte - b'0')),
        b'a'..=b'f' => Some(u32::from(byte - b'a') + 10),
        _ => None,
    }
}

pub fn write(words: &[u32], room: &mut [u8]) -> Result<Answer, Refusal> {
    let frames = words.len() / 4;
    if !words.len().is_multiple_of(4) || words.len() > 4 * MOST_FRAMES {
        return refuse(14, frames.min(MOST_FRAMES));
    }
    let bytes = LINE * frames;
    if room.len() < bytes {
        return refuse(15, 0);
    }
    for (line, frame) in room.chunks_exact_mut(LINE).zip(words.chunks_exact(4)) {
        for (digits, &word) in line.chunks_exact_mut(8).zip(frame) {
            put_digits(digits, word);
        }
        line[LINE - 1] = b'\n';
    }
    Ok(done(0, bytes as u32))
}

/// Eight digits, highest first.
fn put_digits(digits: &mut [u8], word: u32) {
    for (i, digit) in digits.iter_mut().enumerate() {
        *digit = b"0123456789abcdef"[(word >> (28 - 4 * i)) as usize & 15];
    }
}
