//! Depots: the stores of many crews in one call.

use super::{any_start, bad_table_and_code, can_loop, small_table, some_code, start_perhaps_over};
use crate::case::Case;
use crate::generate::*;
use crate::oracle;
use crate::oracle::depot::{MOST_CREWS, ROW};
use crate::oracle::table::VARIABLES;
use crate::random::Random;
use crate::worked::{loop_program, LOOP_CODE};

/// No crew of a trial goes on longer than this. There may be 512 of them.
const TRIAL_FUEL: u32 = 200;

/// Of compiled and of hand-written code, at fuels that some crews can do with and others cannot.
pub fn depots(random: &mut Random) -> Vec<Case> {
    let (table, code, start) = rule(random);
    let crews = some_crews(random);
    let stores = stores_of_any_length(random, crews);
    let fuels = fuels(random, &table, &code, start, &stores);
    let depot = |fuel| {
        let (table, code, stores) = (table.clone(), code.clone(), stores.clone());
        Case::RunDepot { table, code, start, stores, fuel, room: some_room(random, crews) }
    };
    fuels.into_iter().map(depot).collect()
}

/// Table, code and start label. The loop of document 01 goes on for longer or shorter, as each store has it.
fn rule(random: &mut Random) -> (Vec<u32>, Vec<u32>, u32) {
    let (table, code) = if random.once_in(3) {
        (loop_program().table(), LOOP_CODE.to_vec())
    } else {
        let table = small_table(random);
        let code = some_code(random, &table);
        (table, code)
    };
    let start = any_start(random, &code);
    (table, code, start)
}

/// None, one, a few; now and then as many as there may be, or one more.
fn some_crews(random: &mut Random) -> usize {
    match random.below(16) {
        0 => MOST_CREWS,
        1 if random.once_in(2) => MOST_CREWS + 1,
        2 | 3 => 0,
        4 | 5 => 1,
        6..=8 => 2,
        _ => random.from(3, 10),
    }
}

/// The stores of so many crews, and now and then one value too few or too many.
fn stores_of_any_length(random: &mut Random, crews: usize) -> Vec<i32> {
    let mut stores = stores(random, crews);
    match random.below(20) {
        0 => stores.push(value(random)),
        1 => {
            stores.pop();
        }
        _ => {}
    }
    stores
}

/// Room of the words needed or about that many, or none.
fn some_room(random: &mut Random, crews: usize) -> Vec<u32> {
    let length = match random.below(20) {
        0 => 0,
        1..=8 => ROW * crews,
        _ => near(random, ROW * crews),
    };
    room(random, length)
}

/// What one of the crews needs to finish, and what may be less than others need. All the fuel there is goes only to code
/// that cannot loop.
fn fuels(random: &mut Random, table: &[u32], code: &[u32], start: u32, stores: &[i32]) -> [u32; 2] {
    let mut rows = vec![0; ROW * (stores.len() / VARIABLES)];
    oracle::run_depot(table, code, start, &mut stores.to_vec(), TRIAL_FUEL, &mut rows);
    let finished: Vec<u32> = rows.chunks_exact(ROW).filter(|row| row[0] == 0).map(|row| row[2]).collect();
    let any = random.below(40) as u32;
    if finished.is_empty() {
        return [any, random.below(4) as u32];
    }
    // The lesser of two, so that others are the more likely to need more.
    let steps = random.pick(&finished).min(random.pick(&finished));
    let more = if can_loop(code) { TRIAL_FUEL } else { u32::MAX };
    [steps, random.pick(&[steps.saturating_sub(1), any, more])]
}

/// The table or the code has faults; often there are no crews, which changes nothing.
pub fn damaged_depots(random: &mut Random) -> Vec<Case> {
    let mut table = small_table(random);
    let mut code = some_code(random, &table);
    if random.once_in(2) {
        codes::damage(random, &table, &mut code);
    } else {
        damage::damage(random, &mut table);
    }
    let crews = random.below(3);
    let start = random.pick(&[0, 1, 65_535]);
    let fuel = random.below(50) as u32;
    vec![Case::RunDepot { table, code, start, stores: stores(random, crews), fuel, room: room(random, ROW * crews) }]
}

/// Any of table, stores, start label, code and room may be bad, so that refusals of different inputs compete.
pub fn several_bad_inputs(random: &mut Random) -> Vec<Case> {
    let (table, code) = bad_table_and_code(random);
    let start = start_perhaps_over(random);
    let crews = random.below(4);
    let stores = if random.once_in(2) { stores_of_wrong_length(random) } else { stores(random, crews) };
    let needed = ROW * (stores.len() / VARIABLES);
    let length = if random.once_in(3) { needed } else { random.below(needed + 1) };
    let fuel = random.below(50) as u32;
    vec![Case::RunDepot { table, code, start, stores, fuel, room: room(random, length) }]
}

/// One value beside whole stores, or now and then a crew too many.
fn stores_of_wrong_length(random: &mut Random) -> Vec<i32> {
    if random.once_in(20) {
        return stores(random, MOST_CREWS + 1);
    }
    let length = random.pick(&[31, 33, 63, 65, 97]);
    (0..length).map(|_| value(random)).collect()
}
