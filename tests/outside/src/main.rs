//! Compares the library with the oracle: `outside [--seed N] [--count N] [--trace]`.

use outside::calls::{subject, SUBJECT};
use outside::compare::{compare, Plan, Report};
use std::process::ExitCode;

const USAGE: &str = "usage: outside [--seed N] [--count N] [--trace]";

fn main() -> ExitCode {
    let plan = match plan(std::env::args().skip(1)) {
        Ok(plan) => plan,
        Err(fault) => {
            eprintln!("{fault}\n{USAGE}");
            return ExitCode::from(2);
        }
    };
    println!("Tested: {SUBJECT}. Seed {}, at least {} random cases.\n", plan.seed, plan.count);
    let mut report = compare(&subject(), &plan);
    print!("{}", report.tally);
    complain(&mut report, plan.count);
    for fault in &report.shown {
        println!("\nFAILED {fault}");
    }
    println!("\n{} passed, {} failed", report.passed, report.failed);
    ExitCode::from(u8::from(report.failed > 0))
}

fn plan(mut words: impl Iterator<Item = String>) -> Result<Plan, String> {
    let mut plan = Plan { seed: 1, count: 90_000, patience: usize::MAX, trace: false };
    while let Some(word) = words.next() {
        let mut number = || match words.next().map(|number| number.parse()) {
            Some(Ok(number)) => Ok(number),
            _ => Err(format!("{word} needs a number")),
        };
        match word.as_str() {
            "--seed" => plan.seed = number()?,
            "--count" => plan.count = number()? as usize,
            "--trace" => plan.trace = true,
            _ => return Err(format!("unknown word {word}")),
        }
    }
    Ok(plan)
}

/// An answer that no case gave, or few, leaves something untested: that is a failure too. A short comparison cannot be
/// held to it.
fn complain(report: &mut Report, count: usize) {
    if count < 20_000 {
        println!("\nFewer than 20000 cases: what they cover is not judged.");
        return;
    }
    for complaint in report.tally.complaints(count / 2000) {
        println!("\nNOT COVERED {complaint}");
        report.failed += 1;
    }
}
