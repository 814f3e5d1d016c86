//! The static library of Rillgiggle, seen from outside: a plain implementation of document 01 and its requests (`oracle`),
//! the calls of the C boundary (`calls`, and `guarded` over lent memory that is watched), random inputs, and their
//! comparison.

pub mod calls;
pub mod case;
pub mod compare;
pub mod families;
pub mod generate;
pub mod guarded;
pub mod oracle;
pub mod random;
pub mod rivals;
pub mod round_trips;
pub mod tally;
pub mod trees;
pub mod typed;
pub mod worked;
