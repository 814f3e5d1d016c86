//! Prints, as markdown, what a step, a crew or a call costs: ours beside plain Rust (the oracle of tests/outside), and Lua.

mod calls;
mod depots;
mod lua;
mod measure;
mod once;
mod ours;
mod runs;
mod workloads;

use ours::Ours;

fn main() {
    let ours = Ours::new();
    let words: Vec<String> = std::env::args().skip(1).collect();
    if let [side, row] = &words[..] {
        return once::once(&ours, side, row);
    }
    println!("Ours: {}. Plain Rust: the oracle of tests/outside.\n", outside::calls::SUBJECT);
    println!("- {}", measure::METHOD);
    println!(
        "- buffers were filled once before the first call, so that their pages are in memory, and not cleared again"
    );
    println!("- the store was set before each run, and all stores before each depot, outside the timing");
    println!("- the time of a run or a depot includes the check of its table and code");
    if !lua::installed() {
        println!("- Lua 5.4: not installed");
    }
    runs::programs(&ours);
    runs::code_lengths(&ours);
    runs::largest_step(&ours);
    depots::depots(&ours);
    calls::calls(&ours);
}
