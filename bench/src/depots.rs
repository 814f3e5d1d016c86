//! The cost of a crew: a depot in one call, beside the same crews by one code run each.

use crate::measure::{in_turn, timed};
use crate::ours::Ours;
use crate::workloads::{self, Depot, CREWS};
use outside::oracle;
use outside::oracle::answer::{done, Answer, OUT_OF_FUEL};
use std::hint::black_box;
use std::time::Duration;

/// How many values of v0 the crews begin with: more than one, so that they do not all take the same way.
const APART: i32 = 30;

/// The stores of all crews, and the three words of each.
type Buffers = (Vec<i32>, Vec<u32>);

pub fn depots(ours: &Ours) {
    println!(
        "\n| Depot | Crews | Steps a crew | Ours, one call, ns/crew | Ours, a call each, ns/crew | One call/a call each \
         | Plain Rust, one call, ns/crew | Ours/plain |"
    );
    println!("|---|---:|---:|---:|---:|---:|---:|---:|");
    for depot in workloads::depots() {
        let [one, each, plain] = times(ours, &depot);
        println!(
            "| {} | {CREWS} | {} | {one:.2} | {each:.2} | {:.2} | {plain:.2} | {:.2} |",
            depot.program.name,
            depot.fuel,
            one / each,
            one / plain
        );
    }
}

/// Nanoseconds a crew: ours in one call, ours by a call each, plain Rust in one call.
fn times(ours: &Ours, depot: &Depot) -> [f64; 3] {
    let (table, code, fuel) = (&depot.program.table, &depot.program.code, depot.fuel);
    let before = (depot.stores(APART), vec![1; 3 * CREWS]);
    let after = expected(depot, before.clone());
    in_turn(
        CREWS as u64,
        [
            &mut || run(&before, &after, |stores, room| ours.run_depot(table, code, 1, stores, fuel, room)),
            &mut || {
                run(&before, &after, |stores, room| {
                    one_by_one(stores, room, |store| ours.run_code(table, code, 1, store, fuel))
                })
            },
            &mut || run(&before, &after, |stores, room| oracle::run_depot(table, code, 1, stores, fuel, room)),
        ],
    )
}

/// What is to come of the buffers, by the oracle's code runs.
fn expected(depot: &Depot, (mut stores, mut room): Buffers) -> Buffers {
    let Depot { program, fuel } = depot;
    one_by_one(&mut stores, &mut room, |store| {
        let answer = oracle::run_code(&program.table, &program.code, 1, store, *fuel);
        assert_eq!(answer[4], *fuel, "each crew is to spend its fuel");
        answer
    });
    (stores, room)
}

/// The words of each crew are kept, as a depot keeps them.
fn one_by_one(stores: &mut [i32], room: &mut [u32], mut run: impl FnMut(&mut [i32]) -> Answer) -> Answer {
    for (store, row) in stores.chunks_exact_mut(32).zip(room.chunks_exact_mut(3)) {
        let [verdict, _, _, label, steps, ..] = run(store);
        row.copy_from_slice(&[u32::from(verdict == OUT_OF_FUEL), label, steps]);
    }
    done(0, 0)
}

/// The time of all crews. They must end as expected: a wrong depot's time says nothing.
fn run(before: &Buffers, after: &Buffers, run: impl FnOnce(&mut [i32], &mut [u32]) -> Answer) -> Duration {
    let mut buffers = before.clone();
    let (stores, room) = black_box(&mut buffers);
    let (time, answer) = timed(|| run(stores, room));
    assert_eq!(answer, done(0, 0));
    assert!(buffers == *after);
    time
}
