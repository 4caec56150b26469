//! Tests of the tools. A check takes a seed and a number of cases; the mutations run the same checks.

mod explanations;
mod markers;
mod mutations;
mod numbers;
mod openings;
mod outcomes;
mod pictures;
mod text_faults;
mod texts;

use jidlekuvo_reference::compare::settings::{cases, seed};
use jidlekuvo_reference::generate::{inputs, plans, Random};
use jidlekuvo_reference::plan_file::encode;

/// A check of so many cases from a seed on.
pub type Check = fn(u64, usize) -> Result<(), String>;

pub const CHECKS: &[(&str, Check)] = &[
    ("text there and back", texts::round_trip),
    ("refusals in words", explanations::refusals),
    ("findings", explanations::findings),
    ("refused openings in words", openings::refusals),
    ("outcomes by name", outcomes::outcome_names),
    ("lacked outcomes in words", outcomes::lacked),
    ("pictures and traces", pictures::drawn),
];

fn run(check: Check, default: usize) {
    check(seed(), cases(default)).unwrap_or_else(|why| panic!("{why}"));
}

/// A file that is accepted, damaged, or breaks a rule.
fn any_file(random: &mut Random) -> Vec<u8> {
    inputs::plan_file(random)
}

#[test]
fn texts_come_back() {
    run(texts::round_trip, 10_000);
}

#[test]
fn the_largest_plans_come_back() {
    texts::comes_back(&encode(&plans::largest_plan())).unwrap();
    texts::comes_back(&encode(&plans::longest_readable_plan())).unwrap();
}

#[test]
fn refusals_are_explained() {
    run(explanations::refusals, 12_000);
}

#[test]
fn findings_name_what_is_there() {
    run(explanations::findings, 300);
}

#[test]
fn refused_openings_are_explained() {
    run(openings::refusals, 6_000);
}

#[test]
fn outcomes_go_by_name() {
    run(outcomes::outcome_names, 300);
}

#[test]
fn lacked_outcomes_are_told() {
    run(outcomes::lacked, 300);
}

#[test]
fn pictures_have_the_rows_of_the_table() {
    run(pictures::drawn, 150);
}
