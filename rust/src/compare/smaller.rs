//! Shrinking that knows what the bytes mean: a plan loses activities, nodes, transitions and states
//! as a whole, a list loses calls, questions or messages. What remains is shrunk as bytes.

use super::shrink::shrink;
use crate::drive;
use crate::link;
use crate::plan_file::{encode, read, Kind, Plan, Transition};
use crate::run::Opening;
use crate::timetable::split;

/// How many plans one shrinking may try.
const TRIES: usize = 3_000;

fn without_activity(plan: &Plan, gone: usize) -> Plan {
    let mut plan = plan.clone();
    plan.activities.remove(gone);
    for way in &mut plan.automaton.transitions {
        way.activity = match way.activity {
            Some(a) if a as usize == gone => None,
            Some(a) if a as usize > gone => Some(a - 1),
            other => other,
        };
    }
    plan
}

fn without_node(plan: &Plan, activity: usize, gone: usize) -> Plan {
    let mut plan = plan.clone();
    let nodes = &mut plan.activities[activity];
    nodes.remove(gone);
    for node in nodes {
        node.predecessors.retain(|&p| p as usize != gone);
        node.predecessors.iter_mut().filter(|p| **p as usize > gone).for_each(|p| *p -= 1);
    }
    plan
}

/// A transition that processes nothing is passed over: who led to its state leads on, and the
/// state goes.
fn passing_over(plan: &Plan, gone: &Transition) -> Plan {
    let mut plan = plan.clone();
    if gone.from == gone.to {
        return plan;
    }
    let automaton = &mut plan.automaton;
    automaton.transitions.iter_mut().filter(|way| way.to == gone.from).for_each(|way| way.to = gone.to);
    if automaton.initial == gone.from {
        automaton.initial = gone.to;
    }
    without_state(&plan, gone.from)
}

/// The state and all that leads to it or from it goes; later states move up.
fn without_state(plan: &Plan, gone: u8) -> Plan {
    let mut plan = plan.clone();
    let automaton = &mut plan.automaton;
    let moved = |state: u8| if state > gone { state - 1 } else { state };
    automaton.transitions.retain(|way| way.from != gone && way.to != gone);
    automaton.transitions.iter_mut().for_each(|way| {
        way.from = moved(way.from);
        way.to = moved(way.to);
    });
    let below = automaton.finals & ((1 << gone) - 1);
    automaton.finals = below | automaton.finals >> gone >> 1 << gone;
    automaton.initial = moved(automaton.initial);
    automaton.states -= 1;
    plan
}

/// Without its last resource, peripheral or event, if nothing names it (reading tells).
fn without_last(plan: &Plan) -> Vec<Plan> {
    let mut resource = plan.clone();
    resource.resources = resource.resources.saturating_sub(1);
    let mut peripheral = plan.clone();
    peripheral.peripherals.pop();
    let mut event = plan.clone();
    event.events.pop();
    vec![resource, peripheral, event]
}

/// Every plan that is one step smaller and can still be read.
fn smaller(plan: &Plan) -> Vec<Plan> {
    let mut found: Vec<Plan> = (0..plan.activities.len()).map(|a| without_activity(plan, a)).collect();
    let ways = &plan.automaton.transitions;
    found.extend(ways.iter().filter(|way| way.input.is_none()).map(|way| passing_over(plan, way)));
    let states = (0..plan.automaton.states).filter(|&s| s != plan.automaton.initial);
    found.extend(states.map(|state| without_state(plan, state)));
    for (a, nodes) in plan.activities.iter().enumerate() {
        found.extend((0..nodes.len()).map(|n| without_node(plan, a, n)));
    }
    for at in 0..ways.len() {
        let mut less = plan.clone();
        less.automaton.transitions.remove(at);
        found.push(less);
    }
    found.extend(without_last(plan));
    found.retain(|less| less != plan && !has_strays(less));
    found
}

/// Whether something names what is gone.
fn has_strays(plan: &Plan) -> bool {
    let empty = plan.activities.iter().any(|nodes| nodes.is_empty());
    let resource = |kind: &Kind| matches!(kind, Kind::Claim(r) | Kind::Release(r) if *r >= plan.resources);
    empty
        || plan.activities.iter().flatten().any(|node| resource(&node.kind))
        || read(&encode(plan)).as_ref() != Ok(plan)
}

/// The smallest plan found that still fails.
fn shrink_plan(plan: Plan, mut fails: impl FnMut(&Plan) -> bool) -> Plan {
    let mut best = plan;
    let mut tries = 0;
    while tries < TRIES {
        let next = smaller(&best).into_iter().find(|less| {
            tries += 1;
            tries < TRIES && fails(less)
        });
        match next {
            Some(less) => best = less,
            None => break,
        }
    }
    best
}

/// The smallest plan file found that still fails.
pub fn smallest_file(bytes: &[u8], mut fails: impl FnMut(&[u8]) -> bool) -> Vec<u8> {
    let best = match read(bytes) {
        Ok(plan) => encode(&shrink_plan(plan, |less| fails(&encode(less)))),
        Err(_) => bytes.to_vec(),
    };
    shrink(&best, fails)
}

/// The smallest input of *timetable* found that still fails.
pub fn smallest_timetable(input: &[u8], mut fails: impl FnMut(&[u8]) -> bool) -> Vec<u8> {
    let joined =
        |plan: &[u8], outcomes: &[u8]| [&(plan.len() as u16).to_le_bytes()[..], plan, outcomes].concat();
    let parts = split(input).ok().and_then(|(bytes, outcomes)| Some((read(bytes).ok()?, outcomes)));
    let Some((plan, outcomes)) = parts else { return shrink(input, fails) };
    let outcomes = shrink(outcomes, |fewer| fails(&joined(&encode(&plan), fewer)));
    let plan = shrink_plan(plan, |less| fails(&joined(&encode(less), &outcomes)));
    let outcomes = shrink(&outcomes, |fewer| fails(&joined(&encode(&plan), fewer)));
    joined(&encode(&plan), &outcomes)
}

/// The opening with another plan, and as many availabilities as it has resources.
fn with_plan(opening: &Opening, plan: &Plan) -> Opening {
    let mut availabilities = opening.availabilities.clone();
    availabilities.truncate(plan.resources as usize);
    Opening { plan: encode(plan), availabilities, ..opening.clone() }
}

fn without_items<Item: Clone>(items: Vec<Item>, mut fails: impl FnMut(&[Item]) -> bool) -> Vec<Item> {
    let mut best = items;
    let mut at = best.len();
    while at > 0 {
        at -= 1;
        let mut fewer = best.clone();
        fewer.remove(at);
        if fails(&fewer) {
            best = fewer;
        }
    }
    best
}

/// The smallest opening and list of what follows it that still fail, in some form as bytes.
fn smallest_list<Item: Clone>(
    mut opening: Opening,
    items: Vec<Item>,
    encode: impl Fn(&Opening, &[Item]) -> Vec<u8>,
    mut fails: impl FnMut(&[u8]) -> bool,
) -> Vec<u8> {
    let items = without_items(items, |fewer| fails(&encode(&opening, fewer)));
    if let Ok(plan) = read(&opening.plan) {
        let plan = shrink_plan(plan, |less| fails(&encode(&with_plan(&opening, less), &items)));
        let smaller = with_plan(&opening, &plan);
        if fails(&encode(&smaller, &items)) {
            opening = smaller;
        }
    }
    let items = without_items(items, |fewer| fails(&encode(&opening, fewer)));
    encode(&opening, &items)
}

/// The smallest opening and call list found that still fails.
pub fn smallest_call_list(input: &[u8], mut fails: impl FnMut(&[u8]) -> bool) -> Vec<u8> {
    match drive::decode(input) {
        Some((opening, parts)) if fails(&drive::encode(&opening, &parts)) => {
            smallest_list(opening, parts, drive::encode, fails)
        }
        _ => shrink(input, fails),
    }
}

/// The smallest opening and list of messages found that still fails.
pub fn smallest_message_list(input: &[u8], mut fails: impl FnMut(&[u8]) -> bool) -> Vec<u8> {
    let Some((opening, messages)) = link::decode(input) else { return shrink(input, fails) };
    let messages: Vec<Vec<u8>> = messages.into_iter().map(<[u8]>::to_vec).collect();
    match fails(&link::encode(&opening, &messages)) {
        true => smallest_list(opening, messages, link::encode, fails),
        false => shrink(input, fails),
    }
}
