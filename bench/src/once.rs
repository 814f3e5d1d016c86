//! One call and nothing else, for a tool that counts instructions: `bench ours a-code`, `bench plain read`.
//! It prints what the count is to be divided by: the steps of a run, the crews of a depot, or 1.

use crate::calls::parse_rule;
use crate::ours::Ours;
use crate::runs::first_store;
use crate::workloads::{deepest_table_of_1000_nodes, deepest_typed_rule, depots, programs};
use crate::workloads::{table_of_1000_nodes, typed_rule, CREWS};
use outside::oracle;
use outside::oracle::answer::{Answer, REFUSED};
use std::hint::black_box;

pub fn once(ours: &Ours, side: &str, row: &str) {
    assert!(side == "ours" || side == "plain", "the side is ours or plain");
    let ours = (side == "ours").then_some(ours);
    match row.split_once('-') {
        Some(("depot", row)) => println!("{}", depot(ours, row)),
        None | Some(("check" | "read", _)) => {
            call(ours, row);
            println!("1");
        }
        Some((program, engine)) => println!("{}", run(ours, program, engine)[4]),
    }
}

/// What is counted. Never inlined, so that the tool finds it by its name.
#[inline(never)]
fn counted(call: impl FnOnce() -> Answer) -> Answer {
    black_box(call())
}

fn run(ours: Option<&Ours>, program: &str, engine: &str) -> Answer {
    let index =
        ["a", "b", "c", "d", "e"].iter().position(|name| *name == program).expect("the program is one of a to e");
    let program = &programs()[index];
    let (table, code, mut store) = (&program.table, &program.code, first_store(program));
    match (ours, engine) {
        (Some(ours), "code") => counted(|| ours.run_code(table, code, 1, &mut store, u32::MAX)),
        (Some(ours), "source") => counted(|| ours.run_source(table, &mut store, u32::MAX)),
        (None, "code") => counted(|| oracle::run_code(table, code, 1, &mut store, u32::MAX)),
        (None, "source") => counted(|| oracle::run_source(table, &mut store, u32::MAX)),
        _ => panic!("the engine is code or source"),
    }
}

/// Crews alike, with little fuel: `a` is all of them in one call, `a-none` the same call with no crews, of which the checks
/// are left, and `a-alone` one crew by a code run.
fn depot(ours: Option<&Ours>, row: &str) -> usize {
    let (program, crews) = row.split_once('-').unwrap_or((row, "all"));
    let [a, _, b, _] = depots();
    let depot = match program {
        "a" => a,
        "b" => b,
        _ => panic!("the depot is a or b"),
    };
    let (table, code, fuel) = (&depot.program.table, &depot.program.code, depot.fuel);
    let (mut stores, mut room) = (depot.stores(1), vec![1; 3 * CREWS]);
    let answer = match (ours, crews) {
        (Some(ours), "all") => counted(|| ours.run_depot(table, code, 1, &mut stores, fuel, &mut room)),
        (Some(ours), "none") => counted(|| ours.run_depot(table, code, 1, &mut [], fuel, &mut [])),
        (Some(ours), "alone") => counted(|| ours.run_code(table, code, 1, &mut stores[..32], fuel)),
        (None, "all") => counted(|| oracle::run_depot(table, code, 1, &mut stores, fuel, &mut room)),
        (None, "none") => counted(|| oracle::run_depot(table, code, 1, &mut [], fuel, &mut [])),
        (None, "alone") => counted(|| oracle::run_code(table, code, 1, &mut stores[..32], fuel)),
        _ => panic!("a depot's crews are none or alone, or all where nothing is said"),
    };
    assert_ne!(answer[0], REFUSED);
    if crews == "all" {
        CREWS
    } else {
        1
    }
}

fn call(ours: Option<&Ours>, row: &str) -> Answer {
    let (table, deepest) = (table_of_1000_nodes(), deepest_table_of_1000_nodes());
    let mut text = vec![1; 33 * 1000];
    oracle::write_text(&table, &mut text);
    let (rule, deepest_rule) = (typed_rule(), deepest_typed_rule());
    let (mut words, mut bytes) = (vec![1; 4096], vec![1; 33 * 1024]);
    match (ours, row) {
        (Some(ours), "check") => counted(|| ours.check(&table)),
        (Some(ours), "check-deep") => counted(|| ours.check(&deepest)),
        (Some(ours), "compile") => counted(|| ours.compile(&table, 1, &mut words)),
        (Some(ours), "read") => counted(|| ours.read_text(&text, &mut words)),
        (Some(ours), "write") => counted(|| ours.write_text(&table, &mut bytes)),
        (Some(ours), "read-rule" | "read-rule-parser") => counted(|| ours.read_rule(&rule, &mut words)),
        (Some(ours), "read-rule-deep" | "read-rule-deep-parser") => {
            counted(|| ours.read_rule(&deepest_rule, &mut words))
        }
        (None, "check") => counted(|| oracle::check(&table)),
        (None, "check-deep") => counted(|| oracle::check(&deepest)),
        (None, "compile") => counted(|| oracle::compile(&table, 1, &mut words)),
        (None, "read") => counted(|| oracle::read_text(&text, &mut words)),
        (None, "write") => counted(|| oracle::write_text(&table, &mut bytes)),
        (None, "read-rule") => counted(|| oracle::read_rule(&rule, &mut words)),
        (None, "read-rule-parser") => counted(|| parse_rule(&rule, &mut words)),
        (None, "read-rule-deep") => counted(|| oracle::read_rule(&deepest_rule, &mut words)),
        (None, "read-rule-deep-parser") => counted(|| parse_rule(&deepest_rule, &mut words)),
        _ => panic!(
            "the row is a run, as a-code, a depot, as depot-a, or check, check-deep, compile, read, write, read-rule, \
             read-rule-parser, read-rule-deep or read-rule-deep-parser"
        ),
    }
}
