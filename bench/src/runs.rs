//! The cost of a step: code runs and source runs, and code of growing length.

use crate::lua;
use crate::measure::{columns, side_by_side, timed, Pair};
use crate::ours::Ours;
use crate::workloads::{self, Program};
use outside::oracle;
use outside::oracle::answer::{Answer, FINISHED, OUT_OF_FUEL};
use std::hint::black_box;
use std::time::Duration;

type Store = [i32; 32];

pub fn programs(ours: &Ours) {
    println!("\n| Run | Steps | Ours, ns/step | Plain Rust, ns/step | Ours/plain | Lua 5.4, ns/step |");
    println!("|---|---:|---:|---:|---:|---:|");
    for program in workloads::programs() {
        let (steps, store) = expected(&program);
        let lua = lua_column(&program, steps, &store);
        let pair = code_run(ours, &program, steps);
        println!("| {}: code run | {steps} | {} | {lua} |", program.name, columns(pair));
        if !program.by_hand {
            let pair = source_run(ours, &program, steps);
            println!("| {}: source run | {steps} | {} | {lua} |", program.name, columns(pair));
        }
    }
}

pub fn first_store(program: &Program) -> Store {
    let mut store = [0; 32];
    store[0] = program.from;
    store
}

/// Steps and last store, by the oracle.
fn expected(program: &Program) -> (u32, Store) {
    let mut store = first_store(program);
    let answer = oracle::run_code(&program.table, &program.code, 1, &mut store, u32::MAX);
    assert_eq!(answer[0], FINISHED);
    (answer[4], store)
}

fn code_run(ours: &Ours, program: &Program, steps: u32) -> Pair {
    let (table, code, store) = (&program.table, &program.code, first_store(program));
    let finish = (FINISHED, steps);
    side_by_side(
        steps.into(),
        || run(store, finish, |store| ours.run_code(table, code, 1, store, u32::MAX)),
        || run(store, finish, |store| oracle::run_code(table, code, 1, store, u32::MAX)),
    )
}

fn source_run(ours: &Ours, program: &Program, steps: u32) -> Pair {
    let (table, store) = (&program.table, first_store(program));
    let finish = (FINISHED, steps);
    side_by_side(
        steps.into(),
        || run(store, finish, |store| ours.run_source(table, store, u32::MAX)),
        || run(store, finish, |store| oracle::run_source(table, store, u32::MAX)),
    )
}

/// The time of one run. It must end as expected: a wrong run's time says nothing.
fn run(mut store: Store, (verdict, steps): (u32, u32), run: impl FnOnce(&mut Store) -> Answer) -> Duration {
    let (time, answer) = timed(|| run(black_box(&mut store)));
    assert_eq!((answer[0], answer[4]), (verdict, steps));
    time
}

fn lua_column(program: &Program, steps: u32, store: &Store) -> String {
    match program.lua {
        None => "-".into(),
        Some(_) if !lua::installed() => "not installed".into(),
        Some(script) => match lua::least_seconds(script, program.from, store) {
            Ok(seconds) => format!("{:.2}", seconds * 1e9 / f64::from(steps)),
            Err(fault) => format!("failed: {}", fault.trim()),
        },
    }
}

/// Runs that go round their code until the fuel is spent.
pub fn code_lengths(ours: &Ours) {
    const FUEL: u32 = 100_000;
    let table = workloads::table_of_one_assign();
    println!("\n| Code run | Instructions | Ours, ns/step | Plain Rust, ns/step | Ours/plain |");
    println!("|---|---:|---:|---:|---:|");
    for (name, code_of) in [
        ("assigns in line", workloads::code_in_line as fn(u32) -> Vec<u32>),
        ("gotos that leap about", workloads::code_of_leaps),
    ] {
        for instructions in [10, 100, 1000] {
            let code = code_of(instructions);
            let spent = (OUT_OF_FUEL, FUEL);
            let pair = side_by_side(
                FUEL.into(),
                || run([0; 32], spent, |store| ours.run_code(&table, &code, 0, store, FUEL)),
                || run([0; 32], spent, |store| oracle::run_code(&table, &code, 0, store, FUEL)),
            );
            println!("| {name} | {instructions} | {} |", columns(pair));
        }
    }
}

/// What a step can cost at most: each evaluates an expression that fills the table.
pub fn largest_step(ours: &Ours) {
    const FUEL: u32 = 999;
    let (table, code) = workloads::largest_assign();
    let spent = (OUT_OF_FUEL, FUEL);
    let pair = side_by_side(
        FUEL.into(),
        || run([1; 32], spent, |store| ours.run_code(&table, &code, 0, store, FUEL)),
        || run([1; 32], spent, |store| oracle::run_code(&table, &code, 0, store, FUEL)),
    );
    println!("\n| Code run | Ours, ns/step | Plain Rust, ns/step | Ours/plain |");
    println!("|---|---:|---:|---:|");
    println!("| assigns of 1,023 expression nodes | {} |", columns(pair));
}
