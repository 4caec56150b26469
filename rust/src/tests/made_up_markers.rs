//! Markers in runs that no opening made: what a state does goes by its ways out, and nothing is loaded
//! after a marker's report.

use super::markers::{carried, opening};
use crate::compare::hits::Hits;
use crate::compare::markers::{count, of_calls, too_few, OF_MADE_UP};
use crate::compare::settings::{self, run_cases};
use crate::generate::made_up::marker_case;
use crate::made_up::replies;
use crate::plan_file::Transition;
use crate::run::{Reply, Run};
use crate::toggles::{with_broken, Broken};
use std::sync::Arc;

/// Node 2 of position 0 is a marker, node 3 a decision, with two outcomes.
const MARKED: (u64, u8) = (0, 2);
const DECIDED: (u64, u8) = (0, 3);

/// The run waits at state 1 for the decision; both events are started, and nothing else is in the window.
fn waiting() -> Run {
    let (_, mut run) = Run::open(&opening(&carried()));
    run.window.retain(|entry| entry.time.node > 1);
    run.window.iter_mut().for_each(|entry| entry.started = true);
    run
}

fn with_ways(mut run: Run, ways: &[(u8, u8, (u8, u8))]) -> Run {
    let way = |&(from, to, input): &_| Transition { from, to, input: Some(input), activity: None };
    Arc::make_mut(&mut run.plan).automaton.transitions = ways.iter().map(way).collect();
    run
}

/// The run after the report of an event, which is taken.
fn told(run: Run, (position, node): (u64, u8), outcome: u8) -> Result<Run, String> {
    match run.outcome(10, position as u32, node, outcome) {
        (Reply::Taken, after) => Ok(after),
        (reply, _) => Err(format!("the outcome of node {node}: {reply:?}")),
    }
}

fn holds(what: &str, is_so: bool) -> Result<(), String> {
    is_so.then_some(()).ok_or(what.to_string())
}

/// The decision's outcome is there, but its path is not loaded: a marker's report loads nothing.
fn report_loads_nothing() -> Result<(), String> {
    let mut run = waiting();
    run.outcomes.insert(DECIDED, 1);
    let after = told(run, MARKED, 0)?;
    let is_as_it_was = after.state == 1 && after.next_position == 1 && after.outcomes.len() == 1;
    holds("a marker's report loads nothing", is_as_it_was && after.window.len() == 1)
}

/// Two ways out for the marker: its report does not end the waiting, and another event's loads a path only
/// where the run has the marker's outcome.
fn several_ways_for_a_marker() -> Result<(), String> {
    let mut run = with_ways(waiting(), &[(1, 2, (0, 0)), (1, 3, (0, 0))]);
    let after = told(told(run.clone(), MARKED, 0)?, DECIDED, 0)?;
    holds("it waits for ever", after.state == 1 && after.outcomes.len() == 1 && after.window.is_empty())?;
    run.outcomes.insert(MARKED, 0);
    let after = told(run, DECIDED, 0)?;
    holds("it goes by the first way", after.state == 2 && after.next_position == 2)
}

/// By its ways out: one for an event of two outcomes, of which none is pending. Nothing is held back.
fn one_way_for_a_decision() -> Result<(), String> {
    let run = with_ways(waiting(), &[(1, 2, (1, 0)), (1, 2, (1, 1)), (2, 3, (1, 1))]);
    let held = run.moment.pending[1][0].completion;
    let after = told(run, DECIDED, 0)?;
    holds("it goes on", after.state == 3 && after.next_position == 3 && after.moment.pending[1].is_empty())?;
    holds("only the decision holds back", after.moment.availabilities == [held])
}

/// A path that processes for ever is ended after 64 transitions.
fn endless_processing() -> Result<(), String> {
    let run = with_ways(waiting(), &[(1, 2, (1, 0)), (1, 2, (1, 1)), (2, 2, (0, 0))]);
    let after = told(run, DECIDED, 0)?;
    holds("64 transitions", after.state == 2 && after.next_position == 1 + 64)?;
    holds("the marker is processed", after.moment.pending[0].is_empty())
}

pub fn made_up_markers() -> Result<(), String> {
    report_loads_nothing()?;
    several_ways_for_a_marker()?;
    one_way_for_a_decision()?;
    endless_processing()
}

#[test]
fn states_of_made_up_plans_go_by_their_ways_out() {
    made_up_markers().unwrap();
    let by: [(Broken, fn() -> Result<(), String>); 5] = [
        (Broken::MarkerLoads, report_loads_nothing),
        (Broken::MarkerKept, several_ways_for_a_marker),
        (Broken::WaitsByOutcomes, one_way_for_a_decision),
        (Broken::EndsWithoutPending, one_way_for_a_decision),
        (Broken::EndlessOneLonger, endless_processing),
    ];
    for (toggle, check) in by {
        assert!(with_broken(toggle, check).is_err(), "{toggle:?}");
    }
}

/// Builds that answer otherwise must be told apart by the two calls of a generated made-up run.
const TOLD_APART: &[(Broken, usize)] = &[
    (Broken::MarkerLoads, 100),
    (Broken::MarkerKept, 10),
    (Broken::WaitsByOutcomes, 20),
    (Broken::EndsWithoutPending, 5),
    (Broken::EndlessOneLonger, 2),
];

#[test]
fn generated_made_up_runs_show_markers() {
    let mut hits = Hits::default();
    let cases = settings::cases(4_000);
    let all = run_cases(settings::seed(), cases, |random| {
        let (run, calls) = marker_case(random);
        let wanted = replies(&run, calls);
        count(&of_calls(&run, calls), &mut hits);
        let is_told_apart = |toggle| with_broken(toggle, || replies(&run, calls)) != wanted;
        let apart = TOLD_APART.iter().filter(|(toggle, _)| is_told_apart(*toggle));
        apart.for_each(|(toggle, _)| hits.hit(format!("told apart: {toggle:?}")));
        Ok(())
    });
    all.unwrap_or_else(|what| panic!("{what}"));
    hits.print("made-up runs with markers");
    let few = too_few(&hits, OF_MADE_UP, cases, 250);
    assert!(settings::is_by_hand() || few.is_empty(), "too few: {few:?}");
    for (toggle, least) in TOLD_APART {
        let found = hits.count(&format!("told apart: {toggle:?}"));
        let is_enough = settings::is_by_hand() || cfg!(debug_assertions) || found >= *least;
        assert!(is_enough, "{toggle:?} is told apart by {found} runs, at least {least} are wanted");
    }
}
