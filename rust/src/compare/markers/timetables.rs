//! Timetables of words that pass markers.

use super::{of_word, passes_an_event, Kinds, AGAIN, IN_THE_FIRST_PATH, SEVERAL_IN_A_PATH};
use crate::plan_file::{Plan, Transition};

const ENDS: &str = "end after it";
const ENDS_AT_ONCE: &str = "end after it, no outcome read";
const WAITS: &str = "waits after it";
const LACKS: &str = "55 after it";

/// What timetables must show.
pub const OF_TIMETABLES: &[&str] =
    &[IN_THE_FIRST_PATH, SEVERAL_IN_A_PATH, AGAIN, ENDS, ENDS_AT_ONCE, WAITS, LACKS];

/// The word of some outcomes, and how its list ends.
fn word(plan: &Plan, outcomes: &[u8]) -> (Vec<Transition>, &'static str) {
    let mut word: Vec<Transition> = vec![];
    let mut left = outcomes.iter();
    loop {
        let state = word.last().map_or(plan.automaton.initial, |way| way.to);
        let ways = plan.automaton.ways_out(state);
        let next = match ways[..] {
            [] if left.len() == outcomes.len() => return (word, ENDS_AT_ONCE),
            [] => return (word, ENDS),
            [only] => only,
            _ => {
                let Some(&outcome) = left.next() else { return (word, WAITS) };
                let is_told = |way: &&Transition| way.input.is_some_and(|(_, o)| o == outcome);
                let Some(way) = ways.iter().find(is_told) else { return (word, LACKS) };
                *way
            }
        };
        word.push(next);
    }
}

/// What the list of an accepted plan shows.
pub fn of_timetable(plan: &Plan, outcomes: &[u8]) -> Kinds {
    let (word, end) = word(plan, outcomes);
    let passes = word.iter().any(|way| passes_an_event(plan, way));
    of_word(plan, &word).into_iter().chain(passes.then_some(end)).collect()
}
