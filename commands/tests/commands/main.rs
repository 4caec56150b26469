//! `./judge`, `./timetable` and `./release` as a user meets them: exit status, standard output and standard error, word for
//! word. Each row is a check, and each has ways to break the commands that this very check must notice.

#![cfg(all(feature = "proved", feature = "quick", feature = "toggles"))]

mod answers;
mod asking;
mod input;
mod output;
mod places;
mod plans;
mod release;
mod rows;
mod set_up;

use jidlekuvo_commands::toggles::ALL;
use places::Mutation::{None, Toggle};
use rows::{Row, ROWS};
use std::sync::atomic::{AtomicUsize, Ordering};
use std::sync::Mutex;
use std::thread;

fn holds(name: &str) {
    let row = ROWS.iter().find(|row| row.0 == name).expect("there is such a row");
    row.1(None).unwrap_or_else(|why| panic!("{name}: {why}"));
}

#[test]
fn a_first_set_up_shows_each_crate() {
    holds("a line for each crate");
}

#[test]
fn a_proof_that_fails_is_told_with_its_log() {
    holds("a proof that fails");
}

#[test]
fn judge_is_built_of_a_small_package() {
    holds("a small package");
}

#[test]
fn the_largest_plan_and_3000_outcomes_take_under_a_second() {
    holds("speed");
}

#[test]
fn output_that_fails_is_told_and_gives_2() {
    holds("output that fails");
    holds("output that fails, of the scripts");
}

#[test]
fn rows_go_out_as_they_settle() {
    holds("rows as they settle");
}

#[test]
fn a_reader_that_closes_ends_command_and_program() {
    holds("a reader that closes");
}

#[test]
fn a_table_that_is_not_whole_is_told() {
    holds("whole tables");
}

#[test]
fn text_that_is_not_hexadecimal_is_told_with_line_and_column() {
    holds("hexadecimal");
}

#[test]
fn a_longer_file_than_any_plan_has_one_answer() {
    holds("long files");
}

#[test]
fn input_without_an_end_is_answered() {
    holds("input without an end");
}

#[test]
fn standard_input_and_pipes_are_plans() {
    holds("standard input and pipes");
}

#[test]
fn usage_and_wrong_words_are_told() {
    holds("words");
}

#[test]
fn without_rt_or_cargo_it_is_told_what_is_missing() {
    holds("missing tools");
}

#[test]
fn what_has_changed_is_built_anew() {
    holds("a crate that has changed");
}

#[test]
fn two_commands_at_once_set_up_once() {
    holds("two at once");
}

#[test]
fn quick_answers_by_the_rust_build_and_says_so() {
    holds("--quick");
}

#[test]
fn the_program_runs_with_no_proof() {
    holds("with no proof");
}

#[test]
fn packages_and_readme_name_their_versions() {
    holds("versions");
}

#[test]
fn a_release_needs_a_green_test_of_a_clean_tree() {
    holds("a release that is refused");
}

#[test]
fn a_release_is_packed_alike_twice_and_runs_elsewhere() {
    holds("a release that is packed");
}

#[test]
fn the_commands_of_this_repository_answer() {
    set_up::this_repository(None).unwrap_or_else(|why| panic!("{why}"));
}

#[test]
fn every_mutation_is_noticed_by_its_row() {
    let all: Vec<_> =
        ROWS.iter().flat_map(|row| row.2.iter().map(move |mutation| (row, *mutation))).collect();
    let (next, missed) = (AtomicUsize::new(0), Mutex::new(Vec::new()));
    // most of the time is waiting
    thread::scope(|scope| {
        for _ in 0..4 {
            scope.spawn(|| {
                while let Some((Row(name, check, _), mutation)) =
                    all.get(next.fetch_add(1, Ordering::Relaxed))
                {
                    match check(*mutation) {
                        Err(_) => println!("noticed by {name}: {mutation:?}"),
                        Ok(()) => missed.lock().unwrap().push(format!("{name}: {mutation:?}")),
                    }
                }
            });
        }
    });
    let missed = missed.into_inner().unwrap();
    assert!(missed.is_empty(), "not noticed: {missed:#?}");
    let is_tried = |name: &str| all.iter().any(|(_, mutation)| matches!(mutation, Toggle(n) if *n == name));
    assert!(ALL.iter().all(|(_, name, _)| is_tried(name)), "a toggle that no row tries");
}
