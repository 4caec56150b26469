//! Runs with markers as no opening gives them: decided paths that are not loaded, several ways out for one
//! marker, only one for an event of several outcomes, markers processed that are not pending.

use super::{any, is_told, run_of_a_host};
use crate::generate::openings::marker_opening;
use crate::generate::Random;
use crate::plan_file::{Automaton, Kind, Plan, Transition};
use crate::run::{Call, Entry, Request, Run};
use crate::LAST_POSITION;
use std::sync::Arc;

type Change = fn(&mut Random, &mut Run) -> Option<()>;

const CHANGES: [Change; 5] = [decided, branched, of_several_outcomes, not_pending, endless];

fn automaton(run: &mut Run) -> &mut Automaton {
    &mut Arc::make_mut(&mut run.plan).automaton
}

fn any_marker(random: &mut Random, plan: &Plan) -> Option<u8> {
    let mut markers: Vec<u8> = (0..plan.events.len() as u8).filter(|&e| plan.is_marker(e)).collect();
    any(random, &mut markers).copied()
}

/// The awaited outcome is there.
fn decided(random: &mut Random, run: &mut Run) -> Option<()> {
    let event = run.plan.automaton.awaited_event(run.state)?;
    let outcome = random.below(run.plan.events[event as usize] as usize) as u8;
    let oldest = run.moment.pending[event as usize].front()?;
    run.outcomes.insert((oldest.position, oldest.node), outcome);
    Some(())
}

/// The run stands at a state whose only way out, for a marker whose oldest instance is in the window, is
/// there again. The outcome of that instance may be there too; other markers leave the window.
fn branched(random: &mut Random, run: &mut Run) -> Option<()> {
    let is_held = |node| run.window.iter().any(|entry| (entry.time.position, entry.time.node) == node);
    let held = |way: &Transition| {
        let (event, _) = way.input.filter(|&(event, _)| run.plan.is_marker(event))?;
        let oldest = run.moment.pending[event as usize].front()?;
        Some((*way, (oldest.position, oldest.node))).filter(|(_, node)| is_held(*node))
    };
    let mut ways: Vec<_> = run.plan.automaton.transitions.iter().filter_map(held).collect();
    let (way, oldest) = *any(random, &mut ways)?;
    let plan = run.plan.clone();
    run.window.retain(|entry| {
        let is_marker = matches!(kind(&plan, entry), Kind::Event(event) if plan.is_marker(event));
        !is_marker || (entry.time.position, entry.time.node) == oldest
    });
    automaton(run).transitions.push(way);
    run.state = way.from;
    if random.one_in(3) {
        run.outcomes.insert(oldest, 0);
    }
    Some(())
}

/// A marker has more outcomes, and the states that process it still one way out.
fn of_several_outcomes(random: &mut Random, run: &mut Run) -> Option<()> {
    let marker = any_marker(random, &run.plan)?;
    Arc::make_mut(&mut run.plan).events[marker as usize] = random.between(2, 8) as u8;
    Some(())
}

fn not_pending(random: &mut Random, run: &mut Run) -> Option<()> {
    let marker = any_marker(random, &run.plan)?;
    let pending = std::mem::take(&mut run.moment.pending[marker as usize]);
    run.outcomes.retain(|node, _| !pending.iter().any(|i| (i.position, i.node) == *node));
    Some(())
}

/// The ways out of the run's state lead to one that processes a marker for ever.
fn endless(random: &mut Random, run: &mut Run) -> Option<()> {
    let marker = any_marker(random, &run.plan)?;
    let activity = match random.one_in(4) {
        true => None,
        false => Some(random.below(run.plan.activities.len()) as u8),
    };
    let (from, states) = (run.state, run.plan.automaton.states);
    let to = (from + random.between(1, states.max(2) as usize - 1) as u8) % states;
    let automaton = automaton(run);
    automaton.transitions.retain(|way| way.from != to);
    automaton.transitions.iter_mut().filter(|way| way.from == from).for_each(|way| way.to = to);
    automaton.transitions.push(Transition { from: to, to, input: Some((marker, 0)), activity });
    Some(())
}

fn kind(plan: &Plan, entry: &Entry) -> Kind {
    plan.activities[entry.time.activity as usize][entry.time.node as usize].kind
}

/// Events in the window are started, so that they can be reported.
fn start_events(random: &mut Random, run: &mut Run) {
    for index in 0..run.window.len() {
        if matches!(kind(&run.plan, &run.window[index]), Kind::Event(_)) && !random.one_in(4) {
            run.window[index].started = true;
        }
    }
}

/// A run with markers after some calls of some host, then changed. Where it has no position left, a path that
/// is loaded is 44.
fn run(random: &mut Random) -> Run {
    let mut opening = marker_opening(random);
    opening.availabilities.fill(0);
    let mut run = run_of_a_host(random, &opening);
    run.stop = None;
    start_events(random, &mut run);
    if random.one_in(2) {
        run.next_position = LAST_POSITION + 1;
    }
    let change = random.pick(&CHANGES);
    let mut changed = run.clone();
    match change(random, &mut changed) {
        Some(()) if is_told(&changed) => changed,
        _ => run,
    }
}

/// The outcome of an event that is started, a marker or not.
fn report(random: &mut Random, run: &Run, is_of_a_marker: bool) -> Option<Request> {
    let events = run.window.iter().filter(|entry| entry.started).filter_map(|entry| {
        let Kind::Event(event) = kind(&run.plan, entry) else { return None };
        let outcomes = run.plan.events[event as usize] as usize;
        let is_such = run.plan.is_marker(event) == is_of_a_marker;
        is_such.then_some((entry.time.position as u32, entry.time.node, outcomes))
    });
    let (position, node, outcomes) = *any(random, &mut events.collect::<Vec<_>>())?;
    Some(Request::Outcome { position, node, outcome: random.below(outcomes) as u8 })
}

/// Whether the last node that is loaded is there, or one of a position that is not.
fn look_for_the_last(random: &mut Random, run: &Run) -> Request {
    let last = run.window.iter().map(|entry| (entry.time.position as u32, entry.time.node)).max();
    let (position, node) = last.unwrap_or((0, 0));
    let is_past = random.one_in(2);
    Request::Completion { position: if is_past { run.next_position as u32 } else { position }, node }
}

/// A made-up run; an event is reported, and then another, or it is seen what was loaded.
pub fn case(random: &mut Random) -> (Run, [Call; 2]) {
    let run = run(random);
    let (reading, is_of_a_marker) = (run.last_reading, random.one_in(2));
    let first = report(random, &run, is_of_a_marker);
    let first = Call { reading, request: first.unwrap_or(Request::Ask) };
    let (_, after) = run.clone().call(first);
    let request = match random.below(4) {
        0 | 1 => report(random, &after, !is_of_a_marker).unwrap_or(Request::Ask),
        2 => look_for_the_last(random, &after),
        _ => Request::Ask,
    };
    (run, [first, Call { reading, request }])
}
