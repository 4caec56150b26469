//! 21 to 24: the transitions, the outcome or the states that break the rule.

use super::Finding;
use crate::toggles::{broken, Broken};
use jidlekuvo_reference::plan_file::{Plan, Transition};

pub fn find(plan: &Plan, state: u8, number: u8) -> Option<Finding> {
    match number {
        21 => ways_out(plan, state).next().map(|way| Finding::WayOut { way }),
        22 => branch(plan, state),
        23 => missing(plan, state),
        _ => Some(Finding::Stuck { states: stuck(plan) }),
    }
}

/// The numbers of the transitions that leave a state.
fn ways_out(plan: &Plan, state: u8) -> impl Iterator<Item = usize> + '_ {
    let leaves = move |&t: &usize| plan.automaton.transitions[t].from == state;
    (0..plan.automaton.transitions.len()).filter(leaves)
}

fn branch(plan: &Plan, state: u8) -> Option<Finding> {
    let ways: Vec<usize> = ways_out(plan, state).collect();
    let transition = |way: usize| plan.automaton.transitions[way];
    let pairs =
        ways.iter().enumerate().flat_map(|(i, &one)| ways[i + 1..].iter().map(move |&other| (one, other)));
    let (one, other) = pairs.into_iter().find(|&(a, b)| !is_branch(transition(a), transition(b)))?;
    Some(Finding::Branch { one, other })
}

/// "Two transitions of a state process the same event with different outcomes".
fn is_branch(one: Transition, other: Transition) -> bool {
    matches!((one.input, other.input), (Some((e, o)), Some((f, q))) if e == f && o != q)
}

fn missing(plan: &Plan, state: u8) -> Option<Finding> {
    let event = match broken(Broken::OneWayOutIsComplete) {
        true => plan.automaton.awaited_event(state)?,
        false => plan.automaton.processed_event(state)?,
    };
    let has = |outcome: &u8| {
        ways_out(plan, state).any(|way| plan.automaton.transitions[way].input == Some((event, *outcome)))
    };
    let outcome = (0..plan.events[event as usize]).find(|outcome| !has(outcome))?;
    Some(Finding::MissingOutcome { state, event, outcome })
}

/// The states from which no final one is reached, by going back from the final ones.
fn stuck(plan: &Plan) -> Vec<u8> {
    let automaton = &plan.automaton;
    let mut leads: Vec<bool> = (0..automaton.states).map(|state| automaton.is_final(state)).collect();
    let mut grown = true;
    while grown {
        grown = false;
        for way in &automaton.transitions {
            let is_new = leads[way.to as usize] && !leads[way.from as usize];
            leads[way.from as usize] |= is_new;
            grown |= is_new;
        }
    }
    (0..automaton.states).filter(|&state| !leads[state as usize]).collect()
}
