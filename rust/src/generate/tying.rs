//! Plans whose nodes tie: each activity has a resource of its own; some of its nodes start when that is
//! available, and now and then others when these are complete. Peripherals stand in another order than
//! positions and nodes.

use super::activity::renumbered;
use super::Random;
use crate::plan_file::{Activity, Automaton, Kind, Node, Plan, Transition};

/// What the activities of a plan hold: a tie is decided by what its first two nodes are.
#[derive(Clone, Copy, PartialEq, Eq)]
enum Holds {
    Actions,
    /// Actions and events.
    Both,
    /// Both, but only one activity has actions, one at a time.
    OneAction,
    Events,
}

const RESOURCES: usize = 3;
/// Events of each activity: no two activities share one, since the nodes of one event are ordered.
const EVENTS: usize = 2;

fn actions(random: &mut Random, plan: &Plan, resource: u8) -> Vec<Kind> {
    let is_of_it = |p: &u8| plan.peripherals[*p as usize] == resource;
    let mut peripherals: Vec<u8> = (0..plan.peripherals.len() as u8).filter(is_of_it).collect();
    random.shuffle(&mut peripherals);
    peripherals.truncate(random.between(1, 2));
    peripherals.into_iter().map(|peripheral| Kind::Action { number: peripheral ^ 5, peripheral }).collect()
}

fn events(random: &mut Random, resource: u8) -> Vec<Kind> {
    let first = EVENTS * resource as usize;
    (first..first + random.between(1, EVENTS)).map(|event| Kind::Event(event as u8)).collect()
}

/// Nodes that start together.
fn together(random: &mut Random, plan: &Plan, resource: u8, holds: Holds) -> Vec<Kind> {
    let mut kinds = vec![];
    if holds != Holds::Actions {
        kinds.extend(events(random, resource));
    }
    match holds {
        Holds::Actions | Holds::Both => kinds.extend(actions(random, plan, resource)),
        Holds::OneAction if resource == 1 => kinds.extend(actions(random, plan, resource).first()),
        _ => {}
    }
    random.shuffle(&mut kinds);
    kinds
}

fn activity(random: &mut Random, plan: &Plan, resource: u8, holds: Holds) -> Activity {
    let mut nodes = vec![Node { kind: Kind::Claim(resource), duration: 0, predecessors: vec![] }];
    let mut latest = vec![0];
    for _ in 0..random.between(1, 2) {
        let kinds = together(random, plan, resource, holds);
        let from = nodes.len() as u8;
        nodes.extend(kinds.into_iter().map(|kind| {
            let duration = random.pick(&[2_000, 2_000, 2_000, 3_000]);
            Node { kind, duration, predecessors: latest.clone() }
        }));
        latest = (from..nodes.len() as u8).collect();
    }
    nodes.push(Node { kind: Kind::Release(resource), duration: 0, predecessors: latest });
    renumbered(nodes, random)
}

fn emitted(activity: &Activity) -> impl Iterator<Item = u8> + '_ {
    activity.iter().filter_map(|node| match node.kind {
        Kind::Event(event) => Some(event),
        _ => None,
    })
}

/// One way after the other, by the event that it processes and its activity: rounds of all activities in any
/// order, each with whatever they emit processed after them.
fn ways(random: &mut Random, plan: &Plan) -> Vec<(Option<u8>, Option<u8>)> {
    let mut ways = vec![];
    for _ in 0..random.between(1, 3) {
        let mut order: Vec<u8> = (0..plan.activities.len() as u8).collect();
        random.shuffle(&mut order);
        ways.extend(order.into_iter().map(|activity| (None, Some(activity))));
        let mut pending: Vec<u8> = plan.activities.iter().flat_map(emitted).collect();
        random.shuffle(&mut pending);
        ways.extend(pending.into_iter().map(|event| (Some(event), None)));
    }
    ways
}

/// A state for each way; all outcomes of an event lead on alike.
pub(super) fn in_a_row(plan: &Plan, ways: &[(Option<u8>, Option<u8>)]) -> Automaton {
    let mut transitions = vec![];
    for (from, &(event, activity)) in (0u8..).zip(ways) {
        let way = |input| Transition { from, to: from + 1, input, activity };
        match event {
            None => transitions.push(way(None)),
            Some(event) => {
                let outcomes = 0..plan.events[event as usize];
                transitions.extend(outcomes.map(|outcome| way(Some((event, outcome)))));
            }
        }
    }
    let last = ways.len() as u8;
    Automaton { states: last + 1, initial: 0, finals: 1 << last, transitions }
}

/// An accepted plan whose nodes tie in start, and often in completion.
pub fn tying_plan(random: &mut Random) -> Plan {
    // Peripheral 63 is the last before the events.
    let peripherals = random.pick(&[6, 6, 9, 64]);
    let mut plan = Plan { resources: RESOURCES as u8, ..Plan::default() };
    plan.peripherals = (0..peripherals).map(|n| (n % RESOURCES) as u8).collect();
    random.shuffle(&mut plan.peripherals);
    plan.events = (0..RESOURCES * EVENTS).map(|_| random.between(1, 2) as u8).collect();
    let holds = [Holds::Actions, Holds::Both, Holds::OneAction, Holds::OneAction];
    let holds = if random.one_in(2) { Holds::Events } else { random.pick(&holds) };
    for resource in 0..plan.resources {
        let activity = activity(random, &plan, resource, holds);
        plan.activities.push(activity);
    }
    let ways = ways(random, &plan);
    plan.automaton = in_a_row(&plan, &ways);
    plan
}
