//! The limits of a plan: one push for each.

use super::{any, last, Push};
use crate::generate::Random;
use crate::plan_file::*;
use crate::run::Run;
use std::sync::Arc;

fn plan(run: &mut Run) -> &mut Plan {
    Arc::make_mut(&mut run.plan)
}

/// A node of the plan that passes a test.
fn any_node<'a>(random: &mut Random, plan: &'a mut Plan, test: fn(&Node) -> bool) -> Option<&'a mut Node> {
    let mut nodes: Vec<&mut Node> = plan.activities.iter_mut().flatten().filter(|n| test(n)).collect();
    let place = random.below(nodes.len());
    (!nodes.is_empty()).then(|| nodes.swap_remove(place))
}

fn any_way<'a>(
    random: &mut Random,
    plan: &'a mut Plan,
    test: fn(&Transition) -> bool,
) -> Option<&'a mut Transition> {
    let mut ways: Vec<&mut Transition> = plan.automaton.transitions.iter_mut().filter(|t| test(t)).collect();
    let place = random.below(ways.len());
    (!ways.is_empty()).then(|| ways.swap_remove(place))
}

/// A new activity of so many nodes that no transition emits.
fn spare_activity(plan: &mut Plan, nodes: usize) -> Option<()> {
    let kind = match (plan.resources, plan.events.len()) {
        (0, 0) => return None,
        (0, _) => Kind::Event(0),
        _ => Kind::Claim(0),
    };
    let node = Node { kind, duration: 0, predecessors: vec![] };
    ((plan.activities.len() as u64) < MOST_ACTIVITIES).then(|| plan.activities.push(vec![node; nodes]))
}

/// An event with so many outcomes only; what names another outcome of it goes.
fn outcomes_of(random: &mut Random, run: &mut Run, outcomes: u8) -> Option<()> {
    let event = random.below(run.plan.events.len());
    let pending = run.moment.pending.get(event)?;
    pending.iter().for_each(|instance| {
        run.outcomes.remove(&(instance.position, instance.node));
    });
    let plan = plan(run);
    plan.events[event] = outcomes;
    let names = |t: &Transition| t.input.is_some_and(|(e, o)| e as usize == event && o >= outcomes);
    plan.automaton.transitions.retain(|t| !names(t));
    Some(())
}

pub const OF_PLANS: &[Push] = &[
    ("resource count", |_, run, past| {
        let count = MOST_RESOURCES as u8 + past;
        plan(run).resources = count;
        run.moment.availabilities.resize(count as usize, 0);
        Some(())
    }),
    ("peripheral count", |_, run, past| {
        let resource = last(run.plan.resources as usize, 0)?;
        plan(run).peripherals.resize(MOST_PERIPHERALS as usize + past as usize, resource);
        Some(())
    }),
    ("resource of a peripheral", |random, run, past| {
        let resource = last(run.plan.resources as usize, past)?;
        *any(random, &mut plan(run).peripherals)? = resource;
        Some(())
    }),
    ("event count", |_, run, past| {
        let count = MOST_EVENTS as usize + past as usize;
        plan(run).events.resize(count, 1);
        run.moment.last_completions.resize(count, 0);
        run.moment.pending.resize(count, Default::default());
        Some(())
    }),
    ("outcome count, least", |random, run, past| outcomes_of(random, run, 1 - past)),
    ("outcome count, most", |random, run, past| outcomes_of(random, run, MOST_OUTCOMES as u8 + past)),
    ("activity count", |_, run, past| {
        let plan = plan(run);
        let first = plan.activities.first()?.clone();
        plan.activities.resize(MOST_ACTIVITIES as usize + past as usize, first);
        Some(())
    }),
    ("node count, least", |_, run, past| spare_activity(plan(run), 1 - past as usize)),
    ("node count, most", |_, run, past| spare_activity(plan(run), MOST_NODES as usize + past as usize)),
    ("peripheral of an action", |random, run, past| {
        let new = last(run.plan.peripherals.len(), past)?;
        let node = any_node(random, plan(run), |n| matches!(n.kind, Kind::Action { .. }))?;
        if let Kind::Action { peripheral, .. } = &mut node.kind {
            *peripheral = new;
        }
        Some(())
    }),
    ("resource of a claim", |random, run, past| {
        let resource = last(run.plan.resources as usize, past)?;
        any_node(random, plan(run), |n| matches!(n.kind, Kind::Claim(_)))?.kind = Kind::Claim(resource);
        Some(())
    }),
    ("resource of a release", |random, run, past| {
        let resource = last(run.plan.resources as usize, past)?;
        any_node(random, plan(run), |n| matches!(n.kind, Kind::Release(_)))?.kind = Kind::Release(resource);
        Some(())
    }),
    ("event of a node", |random, run, past| {
        let event = last(run.plan.events.len(), past)?;
        any_node(random, plan(run), |n| matches!(n.kind, Kind::Event(_)))?.kind = Kind::Event(event);
        Some(())
    }),
    ("duration", |random, run, past| {
        any_node(random, plan(run), |_| true)?.duration = LONGEST_DURATION as u32 + past as u32;
        Some(())
    }),
    ("predecessor count", |random, run, past| {
        let node = any_node(random, plan(run), |n| !n.predecessors.is_empty())?;
        let again = node.predecessors[0];
        node.predecessors.resize(MOST_PREDECESSORS as usize + past as usize, again);
        Some(())
    }),
    ("predecessor", |random, run, past| {
        let activity = any(random, &mut plan(run).activities)?;
        let new = last(activity.len(), past)?;
        let node = any(random, activity)?;
        *any(random, &mut node.predecessors)? = new;
        Some(())
    }),
    ("state count, least", |_, run, past| {
        let automaton = &mut plan(run).automaton;
        *automaton = Automaton { states: 1 - past, initial: 0, finals: 0, transitions: vec![] };
        run.state = 0;
        Some(())
    }),
    ("state count, most", |_, run, past| {
        plan(run).automaton.states = MOST_STATES as u8 + past;
        Some(())
    }),
    ("initial state", |_, run, past| {
        let automaton = &mut plan(run).automaton;
        automaton.initial = last(automaton.states as usize, past)?;
        Some(())
    }),
    ("final bit", |_, run, past| {
        let automaton = &mut plan(run).automaton;
        let state = last(automaton.states as usize, past)?;
        automaton.finals |= 1u64.checked_shl(state as u32)?;
        Some(())
    }),
    ("transition count", |random, run, past| {
        let transitions = &mut plan(run).automaton.transitions;
        let again = *any(random, transitions)?;
        transitions.resize(MOST_TRANSITIONS as usize + past as usize, again);
        Some(())
    }),
    ("from-state", |random, run, past| {
        let state = last(run.plan.automaton.states as usize, past)?;
        any_way(random, plan(run), |_| true)?.from = state;
        Some(())
    }),
    ("to-state", |random, run, past| {
        let state = last(run.plan.automaton.states as usize, past)?;
        any_way(random, plan(run), |_| true)?.to = state;
        Some(())
    }),
    ("event of an input", |random, run, past| {
        let event = last(run.plan.events.len(), past)?;
        any_way(random, plan(run), |t| t.input.is_some())?.input = Some((event, 0));
        Some(())
    }),
    ("outcome of an input", |random, run, past| {
        let outcomes = run.plan.events.clone();
        let way = any_way(random, plan(run), |t| t.input.is_some())?;
        let (event, outcome) = way.input.as_mut()?;
        *outcome = last(*outcomes.get(*event as usize)? as usize, past)?;
        Some(())
    }),
    ("activity of an output", |random, run, past| {
        let activity = last(run.plan.activities.len(), past)?;
        any_way(random, plan(run), |_| true)?.activity = Some(activity);
        Some(())
    }),
];
