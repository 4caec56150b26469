//! Runs that no opening made: runs that openings and calls produced, with stored values pushed to a
//! limit or one past it, or with markers as no opening gives them, and two calls of each.

mod of_markers;
mod of_plans;
mod of_runs;

pub use of_markers::case as marker_case;
pub use of_plans::OF_PLANS;
pub use of_runs::OF_RUNS;

use super::hosts::{self, HOSTS};
use super::openings::opening;
use super::plan_t;
use super::Random;
use crate::activity_rules::before;
use crate::made_up::limits::Limits;
use crate::plan_file::{Automaton, Kind};
use crate::run::{Call, Entry, Opening, Request, Run};
use crate::specified_times::incremental::shapes;
use std::collections::{BTreeMap, BTreeSet};
use std::sync::Arc;

/// A limit's name, as in `made_up/limits.rs`, and what sets a stored value to it (`past` is 0) or one
/// past it (1). Where the run has no such value, nothing is pushed.
pub type Push = (&'static str, fn(&mut Random, &mut Run, u8) -> Option<()>);

/// How many entries of a made-up window may be changed to tie.
const TIED: usize = 12;

/// The last number that names one of so many, or the one past it.
fn last(count: usize, past: u8) -> Option<u8> {
    (count as u8).checked_sub(1)?.checked_add(past)
}

fn any<'a, T>(random: &mut Random, of: &'a mut [T]) -> Option<&'a mut T> {
    let place = random.below(of.len());
    of.get_mut(place)
}

/// A run after some calls of some host.
fn run_of_a_host(random: &mut Random, opening: &Opening) -> Run {
    let host = random.pick(&HOSTS);
    let calls = hosts::calls(random, opening, host, 16);
    let some = random.below(calls.len() + 1);
    let (_, run) = Run::open(opening);
    calls[..some].iter().fold(run, |run, &call| run.call(call).1)
}

/// What a state does whose transitions carry different events, or only some of them one, is left open.
fn is_clear(automaton: &Automaton) -> bool {
    (0..automaton.states).all(|state| {
        let ways = automaton.ways_out(state);
        let event = |n: usize| ways.get(n).and_then(|way| way.input).map(|(event, _)| event);
        (1..ways.len()).all(|n| event(n) == event(0))
    })
}

fn are_different<T: Ord>(items: impl Iterator<Item = T>) -> bool {
    let mut seen = BTreeSet::new();
    items.into_iter().all(|item| seen.insert(item))
}

/// Whether entries of one identity have the same times. "The one at the lowest place is taken" then.
fn are_alike(window: &[Entry]) -> bool {
    let mut times = BTreeMap::new();
    window.iter().map(|entry| entry.time).all(|time| {
        let here = (time.start, time.completion);
        *times.entry((time.position, time.node)).or_insert(here) == here
    })
}

/// Whether two entries have one identity.
pub fn has_twins(run: &Run) -> bool {
    !are_different(run.window.iter().map(|entry| (entry.time.position, entry.time.node)))
}

/// Whether the papers and the decisions say what such a run answers: no node with two times, no
/// instance twice, no activity with a cycle, no state with two minds.
fn is_told(run: &Run) -> bool {
    let pending = run.moment.pending.iter().flatten();
    are_alike(&run.window)
        && are_different(pending.map(|instance| (instance.position, instance.node)))
        && run.plan.activities.iter().all(|activity| {
            let before = before(activity);
            (0..activity.len()).all(|node| !before[node][node])
        })
        && is_clear(&run.plan.automaton)
}

/// Pushes a value of some limit. One within the limits whose answers would be untold is taken back.
fn pushed(random: &mut Random, run: Run, past: u8) -> Run {
    let table = if random.one_in(2) { OF_PLANS } else { OF_RUNS };
    let (_, push) = random.pick(table);
    let mut tried = run.clone();
    if push(random, &mut tried, past).is_none() {
        return run;
    }
    if !Limits::of(&tried).are_kept() {
        return tried;
    }
    if !is_told(&tried) {
        return run;
    }
    tried.shapes = Arc::new(shapes(&tried.plan));
    tried
}

/// One more entry of a node that the window holds, of any activity that has such a node, at a free
/// place before, among or behind the others.
fn with_a_twin(random: &mut Random, mut run: Run) -> Run {
    if run.window.is_empty() || run.window.len() == Run::WINDOW {
        return run;
    }
    let mut twin = random.pick(&run.window);
    let activity = random.below(run.plan.activities.len());
    if run.plan.activities.get(activity).is_some_and(|nodes| nodes.len() > twin.time.node as usize) {
        twin.time.activity = activity as u8;
    }
    twin.started = random.one_in(2);
    let most = run.window.last().map_or(0, |entry| entry.place) + 1;
    let is_held = |place: &usize| run.window.iter().any(|entry| entry.place == *place);
    let free: Vec<usize> = (0..Run::WINDOW.min(most + 1)).filter(|place| !is_held(place)).collect();
    twin.place = random.pick(&free);
    run.window.push(twin);
    run.window.sort_by_key(|entry| entry.place);
    run
}

/// Some entries start or complete with another one, started or not, or name another node of their activity, a
/// claim or a release as well.
fn with_ties(random: &mut Random, run: Run) -> Run {
    if run.window.is_empty() {
        return run;
    }
    let mut tied = run.clone();
    let other = random.pick(&run.window).time;
    for entry in tied.window.iter_mut().take(TIED) {
        if random.one_in(2) {
            entry.time.start = other.start;
        }
        if random.one_in(2) {
            entry.time.completion = other.completion;
        }
        entry.started = random.one_in(3);
        if random.one_in(4) {
            let nodes = run.plan.activities.get(entry.time.activity as usize).map_or(1, Vec::len);
            entry.time.node = random.below(nodes) as u8;
        }
    }
    match is_told(&tied) {
        true => tied,
        false => run,
    }
}

/// A made-up run: up to two values stand at a limit, and at most one is one past it.
fn run(random: &mut Random) -> Run {
    let opening = opening(random);
    let mut run = run_of_a_host(random, &opening);
    for _ in 0..random.below(3) {
        run = pushed(random, run, 0);
    }
    if random.one_in(3) {
        run.stop = None;
    }
    if random.one_in(3) {
        run = with_ties(random, run);
    }
    if random.one_in(8) {
        run = with_a_twin(random, run);
    }
    if random.one_in(40) {
        run.last_reading = random.pick(&[0, u64::MAX, run.psi]);
    }
    match random.one_in(2) {
        true => pushed(random, run, 1),
        false => run,
    }
}

/// A reading around the moments that matter.
fn reading(random: &mut Random, run: &Run) -> u64 {
    let last = run.last_reading;
    let clock = |time: u64| run.psi.saturating_add(time);
    let near = random.pick(&[0, 0, 1, 1, 2, run.slack, run.slack.saturating_add(1)]);
    let at = match (random.below(8), run.window.is_empty()) {
        (0..=3, false) => clock(random.pick(&run.window).time.start).saturating_add(near),
        (4, false) => clock(random.pick(&run.window).time.completion).saturating_add(near).saturating_sub(1),
        (5, _) => return last.saturating_sub(near),
        (6, _) if random.one_in(20) => u64::MAX,
        _ => last,
    };
    if random.one_in(20) {
        at
    } else {
        at.max(last)
    }
}

/// A call: an ask, a fitting report, or any report of an entry.
fn call(random: &mut Random, run: &Run) -> Call {
    let reading = reading(random, run);
    let started: Vec<_> = run.window.iter().filter(|entry| entry.started).collect();
    let entry = match (random.one_in(3), started.is_empty()) {
        (_, true) | (true, _) => run.window.get(random.below(run.window.len())),
        _ => Some(started[random.below(started.len())]),
    };
    let (position, node) = entry.map_or((0, 0), |entry| (entry.time.position as u32, entry.time.node));
    let node = if random.one_in(30) { node ^ 1 } else { node };
    let outcome = random.pick(&[0, 0, 0, 1, 1, 2, 7, 8]);
    let nodes = entry.and_then(|entry| run.plan.activities.get(entry.time.activity as usize));
    let is_event = nodes.and_then(|n| n.get(node as usize)).is_some_and(|n| matches!(n.kind, Kind::Event(_)));
    let request = match (random.below(10), is_event) {
        (0..=3, _) => Request::Ask,
        (4, false) | (5..=9, true) => Request::Outcome { position, node, outcome },
        _ => Request::Completion { position, node },
    };
    Call { reading, request }
}

/// Two calls, the second made for the run after the first.
fn calls(random: &mut Random, run: &Run) -> [Call; 2] {
    let first = call(random, run);
    let (_, after) = run.clone().call(first);
    [first, call(random, &after)]
}

/// A made-up run and two calls of it; one in six is about markers.
pub fn case(random: &mut Random) -> (Run, [Call; 2]) {
    if random.one_in(6) {
        return marker_case(random);
    }
    let run = run(random);
    let calls = calls(random, &run);
    (run, calls)
}

/// Two runs of T that hold the same two entries, each where the other run has the other one: the event
/// that is awaited, and a started node of the path that its outcome loads. The two calls report both.
pub fn loaded_again() -> ([Run; 2], [Call; 2]) {
    let opening = Opening { plan: plan_t(), psi: 0, slack: 500, availabilities: vec![0, 0] };
    let (_, mut run) = Run::open(&opening);
    run.window.retain(|entry| entry.time.node == 4);
    run.window[0].started = true;
    let event = run.window[0];
    let report = |request| Call { reading: 10, request };
    let outcome = report(Request::Outcome { position: 0, node: 4, outcome: 1 });
    let loaded = Entry { started: true, ..run.clone().call(outcome).1.window[0] };
    let (position, node) = (loaded.time.position as u32, loaded.time.node);
    let holding = |entries: [Entry; 2]| {
        let placed = entries.into_iter().enumerate().map(|(place, entry)| Entry { place, ..entry });
        Run { window: placed.collect(), ..run.clone() }
    };
    let runs = [holding([loaded, event]), holding([event, loaded])];
    (runs, [outcome, report(Request::Completion { position, node })])
}
