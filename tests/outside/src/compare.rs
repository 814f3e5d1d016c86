//! The comparison: worked runs, random cases and round trips, counted.

use crate::calls::Calls;
use crate::case::{Case, Outcome};
use crate::families::{long_rules, long_runs, ROUND};
use crate::random::Random;
use crate::round_trips::*;
use crate::tally::Tally;
use crate::worked;

/// How many failures are kept in full.
const SHOWN: usize = 3;

pub struct Plan {
    pub seed: u64,
    /// Random cases; the last round is completed.
    pub count: usize,
    /// After so many failures the comparison stops: it tries no further family.
    pub patience: usize,
    /// Whether each case is named before it is tried, to find one that never returns.
    pub trace: bool,
}

#[derive(Default)]
pub struct Report {
    pub passed: usize,
    pub failed: usize,
    pub shown: Vec<String>,
    pub tally: Tally,
}

pub fn compare(calls: &Calls, plan: &Plan) -> Report {
    let mut report = Report::default();
    for worked in worked::all() {
        let judged = judge(calls, &worked.case, &worked.outcome, 0);
        report.record(judged.map_err(|fault| format!("worked run \"{}\": {fault}", worked.name)));
    }
    let mut random = Random::new(plan.seed);
    while report.tally.cases() < plan.count {
        for family in ROUND {
            if report.failed >= plan.patience {
                return report;
            }
            report.try_all(calls, plan, family(&mut random));
        }
        report.record(text_is_read_back(calls, &mut random));
        report.record(code_follows_source(calls, &mut random));
        report.record(depot_is_its_crews(calls, &mut random));
        report.record(rule_is_its_program(calls, &mut random));
        report.record(place_is_the_longest_beginning(calls, &mut random));
    }
    if report.failed < plan.patience {
        report.try_all(calls, plan, long_runs());
        report.try_all(calls, plan, long_rules());
    }
    report
}

/// Whether the tested calls give the outcome expected; otherwise the case and both answers.
fn judge(calls: &Calls, case: &Case, expected: &Outcome, turn: usize) -> Result<(), String> {
    let (got, trespasses) = case.by(calls, turn);
    if got == *expected && trespasses.is_empty() {
        return Ok(());
    }
    let mut fault = format!("{case}  expected {:x?}\n  got      {:x?}\n", expected.answer, got.answer);
    for line in expected.after.differences(&got.after).iter().chain(&trespasses) {
        fault += &format!("  {line}\n");
    }
    Err(fault)
}

impl Report {
    fn try_all(&mut self, calls: &Calls, plan: &Plan, cases: Vec<Case>) {
        for case in cases {
            let expected = case.by_oracle();
            self.tally.count(&case, &expected);
            let number = self.tally.cases();
            if plan.trace {
                eprintln!("case {number}: {}", case.call().name());
            }
            let judged = judge(calls, &case, &expected, number);
            self.record(judged.map_err(|fault| format!("case {number}: {fault}")));
        }
    }

    fn record(&mut self, judged: Result<(), String>) {
        match judged {
            Ok(()) => self.passed += 1,
            Err(fault) => self.fail(fault),
        }
    }

    pub fn fail(&mut self, fault: String) {
        self.failed += 1;
        if self.shown.len() < SHOWN {
            self.shown.push(fault);
        }
    }
}
