//! Request A1, "a depot in one call": the stores of up to 512 crews, back to back, each run through the same code.

use super::answer::{done, refuse, Answer, Refusal, OUT_OF_FUEL};
use super::code::{decode, Program, LAST_TARGET};
use super::table::{accepted, VARIABLES};

pub const MOST_CREWS: usize = 512;

/// "Three words a crew: verdict, label, steps."
pub const ROW: usize = 3;

pub fn run(
    table: &[u32],
    code: &[u32],
    start: u32,
    stores: &mut [i32],
    fuel: u32,
    room: &mut [u32],
) -> Result<Answer, Refusal> {
    let nodes = accepted(table)?;
    if bad_length(stores) {
        return refuse(10, 0);
    }
    if start > LAST_TARGET {
        return refuse(11, 0);
    }
    let code = decode(table, code)?;
    if room_too_small(stores, room) {
        return refuse(16, 0);
    }
    let program = Program::new(nodes, code);
    let (stores, _) = stores.as_chunks_mut();
    let (rows, _) = room.as_chunks_mut();
    for (store, row) in stores.iter_mut().zip(rows) {
        *row = row_of(program.run(start, store, fuel));
    }
    Ok(done(0, 0))
}

/// "A length that isn't a multiple of 32 or exceeds 16,384."
pub fn bad_length(stores: &[i32]) -> bool {
    !stores.len().is_multiple_of(VARIABLES) || stores.len() > VARIABLES * MOST_CREWS
}

/// "Answer room under three words a crew", for the crews whose stores are whole.
pub fn room_too_small(stores: &[i32], room: &[u32]) -> bool {
    room.len() < ROW * (stores.len() / VARIABLES)
}

/// "Verdict is 0 (finished) or 1 (out of fuel)."
fn row_of(run: Answer) -> [u32; ROW] {
    let [verdict, _, _, label, steps, ..] = run;
    [u32::from(verdict == OUT_OF_FUEL), label, steps]
}
