//! Verdicts and refusals, and how the eight words of an answer hold them.

/// Verdict, number, place, label, amount, then three words that the base leaves 0.
pub type Answer = [u32; 8];

pub const DONE: u32 = 0;
pub const FINISHED: u32 = 1;
pub const OUT_OF_FUEL: u32 = 2;
pub const REFUSED: u32 = 3;

/// "A refusal carries its number and its place."
#[derive(Clone, Copy, Debug, PartialEq, Eq)]
pub struct Refusal {
    pub number: u32,
    pub place: usize,
}

pub fn refuse<T>(number: u32, place: usize) -> Result<T, Refusal> {
    Err(Refusal { number, place })
}

/// A place is a word: one past the last, in a text so long, is told as the last.
pub fn refused(refusal: Refusal) -> Answer {
    let place = u32::try_from(refusal.place).unwrap_or(u32::MAX);
    [REFUSED, refusal.number, place, 0, 0, 0, 0, 0]
}

pub fn done(label: u32, amount: u32) -> Answer {
    [DONE, 0, 0, label, amount, 0, 0, 0]
}

pub fn finished(label: u32, steps: u32) -> Answer {
    [FINISHED, 0, 0, label, steps, 0, 0, 0]
}

pub fn out_of_fuel(label: u32, steps: u32) -> Answer {
    [OUT_OF_FUEL, 0, 0, label, steps, 0, 0, 0]
}
