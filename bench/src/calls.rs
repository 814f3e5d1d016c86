//! The cost of a call that does not run anything: check, compilation, text, typed rules.

use crate::measure::{columns, in_turn, side_by_side, timed, Pair};
use crate::ours::Ours;
use crate::workloads::{deepest_table_of_1000_nodes, deepest_typed_rule, table_of_1000_nodes, typed_rule};
use outside::oracle;
use outside::oracle::answer::{done, refused, Answer, DONE};
use std::hint::black_box;
use std::time::Duration;

/// Calls timed together.
const CALLS: u64 = 20;

pub fn calls(ours: &Ours) {
    let (table, deepest) = (table_of_1000_nodes(), deepest_table_of_1000_nodes());
    let mut text = vec![1; 33 * 1000];
    oracle::write_text(&table, &mut text);
    // Each side has its own rooms.
    let (mut words, mut plain_words) = (vec![1; 4096], vec![1; 4096]);
    let (mut bytes, mut plain_bytes) = (vec![1; 33 * 1024], vec![1; 33 * 1024]);

    println!("\n| Call | Ours, ns/call | Plain Rust, ns/call | Ours/plain |");
    println!("|---|---:|---:|---:|");
    let row = |name, pair| println!("| {name} | {} |", columns(pair));
    row("check of 1,000 nodes", {
        side_by_side(CALLS, || repeat(|| ours.check(&table)), || repeat(|| oracle::check(&table)))
    });
    row("check of 1,000 nodes, 256 deep", {
        side_by_side(CALLS, || repeat(|| ours.check(&deepest)), || repeat(|| oracle::check(&deepest)))
    });
    row("compilation of 1,000 nodes", {
        side_by_side(
            CALLS,
            || repeat(|| ours.compile(&table, 1, &mut words)),
            || repeat(|| oracle::compile(&table, 1, &mut plain_words)),
        )
    });
    row("reading text of 1,000 frames", {
        side_by_side(
            CALLS,
            || repeat(|| ours.read_text(&text, &mut words)),
            || repeat(|| oracle::read_text(&text, &mut plain_words)),
        )
    });
    row("writing text of 1,000 frames", {
        side_by_side(
            CALLS,
            || repeat(|| ours.write_text(&table, &mut bytes)),
            || repeat(|| oracle::write_text(&table, &mut plain_bytes)),
        )
    });
    assert!(words == plain_words && bytes == plain_bytes);
    let mut parsed_words = words.clone();
    for (name, rule) in [
        ("reading a typed rule of 1,000 nodes", typed_rule()),
        ("reading a typed rule, 256 levels of brackets", deepest_typed_rule()),
    ] {
        let [ours, plain, parser] = in_turn(
            CALLS,
            [
                &mut || repeat(|| ours.read_rule(&rule, &mut words)),
                &mut || repeat(|| oracle::read_rule(&rule, &mut plain_words)),
                &mut || repeat(|| parse_rule(&rule, &mut parsed_words)),
            ],
        );
        println!("| {name} | {} |", columns(Pair { ours, plain }));
        println!("| the same, beside the parser alone | {} |", columns(Pair { ours, plain: parser }));
        assert!(words == plain_words && words == parsed_words);
    }
}

/// The oracle's parser alone: the same words in the room, and no check of the table that they make.
pub fn parse_rule(text: &[u8], room: &mut [u32]) -> Answer {
    match oracle::rule::parse(text) {
        Ok(table) => {
            room[..table.len()].copy_from_slice(&table);
            done(0, table.len() as u32)
        }
        Err(refusal) => refused(refusal),
    }
}

/// The time of all the calls together. Each answer is looked at, so that no call can be left out.
fn repeat(mut call: impl FnMut() -> Answer) -> Duration {
    let (time, ()) = timed(|| {
        for _ in 0..CALLS {
            assert_eq!(black_box(call())[0], DONE);
        }
    });
    time
}
