//! The rules of "The plan file" about a plan that is already in hand.

use super::*;

fn within(value: usize, least: u64, most: u64) -> bool {
    value as u64 >= least && value as u64 <= most
}

/// Whether a plan keeps every rule of the section "The plan file". (What an activity or the
/// automaton must satisfy is another section.)
pub fn meets_file_rules(plan: &Plan) -> bool {
    is_in_limits(plan) && plan.activities.iter().flatten().all(is_writable)
}

/// Whether every count, number and duration of a plan lies within the limits of that section.
pub fn is_in_limits(plan: &Plan) -> bool {
    sections_meet(plan)
        && plan.activities.iter().all(|activity| activity_meets(plan, activity))
        && automaton_meets(plan)
}

/// The two rules that are no limits: claims and releases have no duration, and predecessors are
/// "strictly rising".
fn is_writable(node: &Node) -> bool {
    (node.is_executed() || node.duration == 0) && node.predecessors.windows(2).all(|pair| pair[0] < pair[1])
}

fn sections_meet(plan: &Plan) -> bool {
    plan.resources as u64 <= MOST_RESOURCES
        && within(plan.peripherals.len(), 0, MOST_PERIPHERALS)
        && plan.peripherals.iter().all(|&resource| resource < plan.resources)
        && within(plan.events.len(), 0, MOST_EVENTS)
        && plan.events.iter().all(|&outcomes| within(outcomes as usize, 1, MOST_OUTCOMES))
        && within(plan.activities.len(), 0, MOST_ACTIVITIES)
}

fn activity_meets(plan: &Plan, activity: &Activity) -> bool {
    within(activity.len(), 1, MOST_NODES)
        && activity.iter().all(|node| node_meets(plan, node, activity.len()))
}

fn node_meets(plan: &Plan, node: &Node, nodes: usize) -> bool {
    let named = match node.kind {
        Kind::Action { peripheral, .. } => (peripheral as usize) < plan.peripherals.len(),
        Kind::Claim(resource) | Kind::Release(resource) => resource < plan.resources,
        Kind::Event(event) => (event as usize) < plan.events.len(),
    };
    named
        && node.duration as u64 <= LONGEST_DURATION
        && within(node.predecessors.len(), 0, MOST_PREDECESSORS)
        && node.predecessors.iter().all(|&p| (p as usize) < nodes)
}

fn automaton_meets(plan: &Plan) -> bool {
    let automaton = &plan.automaton;
    within(automaton.states as usize, 1, MOST_STATES)
        && automaton.initial < automaton.states
        && (automaton.states..64).all(|state| !automaton.is_final(state))
        && within(automaton.transitions.len(), 0, MOST_TRANSITIONS)
        && automaton.transitions.iter().all(|t| transition_meets(plan, t))
}

fn transition_meets(plan: &Plan, transition: &Transition) -> bool {
    let states = plan.automaton.states;
    let input = transition.input.is_none_or(|(event, outcome)| {
        plan.events.get(event as usize).is_some_and(|&outcomes| outcome < outcomes)
    });
    let activity = transition.activity.is_none_or(|a| (a as usize) < plan.activities.len());
    transition.from < states && transition.to < states && input && activity
}
