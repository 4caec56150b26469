//! "What the automaton must satisfy", numbers 21 to 26.

use crate::plan_file::{Kind, Plan, Transition};
use crate::toggles::{broken, Broken};
use crate::Fault;
use std::collections::VecDeque;

/// How many instances of each event are pending.
type Counts = Vec<i64>;

/// "Then the automaton, each number over all states before the next, place = lowest state at
/// fault"; 25 and 26 have place 0.
pub fn judge_automaton(plan: &Plan) -> Result<(), Fault> {
    let rules: [(u8, fn(&Plan, u8) -> bool); 4] = [
        (21, final_with_a_way_out),
        (22, forbidden_branch),
        (23, missing_outcome),
        (24, no_path_to_a_final_state),
    ];
    for (number, at_fault) in rules {
        let mut states = (0..plan.automaton.states).filter(|&state| at_fault(plan, state));
        let named = if broken(Broken::HighestStateNamed) { states.next_back() } else { states.next() };
        if let Some(state) = named {
            return Err(Fault::new(number, state as usize));
        }
    }
    judge_pending(plan)
}

/// 21: "Final states have no way out."
fn final_with_a_way_out(plan: &Plan, state: u8) -> bool {
    plan.automaton.is_final(state) && !plan.automaton.ways_out(state).is_empty()
}

/// 22: "Two transitions of a state process the same event with different outcomes (Def. 4)."
/// The same transition listed twice is two transitions.
fn forbidden_branch(plan: &Plan, state: u8) -> bool {
    let ways = plan.automaton.ways_out(state);
    (0..ways.len()).any(|i| {
        (0..i).any(|j| match (ways[i].input, ways[j].input) {
            (Some((event, outcome)), Some((other, its))) => event != other || outcome == its,
            _ => true,
        })
    })
}

/// 23: "A state that processes an event has one transition for each outcome of it (Def. 5, here
/// for unbranched states too)."
fn missing_outcome(plan: &Plan, state: u8) -> bool {
    let ways = plan.automaton.ways_out(state);
    if broken(Broken::OneWayOutIsComplete) && ways.len() < 2 {
        return false;
    }
    let Some(event) = plan.automaton.processed_event(state) else { return false };
    (0..plan.events[event as usize]).any(|outcome| !ways.iter().any(|t| t.input == Some((event, outcome))))
}

/// A shortest path from a state to a final one.
fn path_to_a_final_state(plan: &Plan, state: u8) -> Option<Vec<Transition>> {
    let mut seen = vec![state];
    let mut queue = VecDeque::from([(state, Vec::new())]);
    while let Some((at, path)) = queue.pop_front() {
        if plan.automaton.is_final(at) {
            return Some(path);
        }
        for way in plan.automaton.ways_out(at) {
            if !seen.contains(&way.to) {
                seen.push(way.to);
                let mut longer = path.clone();
                longer.push(way);
                queue.push_back((way.to, longer));
            }
        }
    }
    None
}

/// 24: "Every state has a path to a final one."
fn no_path_to_a_final_state(plan: &Plan, state: u8) -> bool {
    if broken(Broken::UnreachableMayStick) && !is_reachable(plan, state) {
        return false;
    }
    path_to_a_final_state(plan, state).is_none()
}

fn is_reachable(plan: &Plan, state: u8) -> bool {
    let mut seen = vec![plan.automaton.initial];
    let mut next = 0;
    while next < seen.len() {
        for way in plan.automaton.ways_out(seen[next]) {
            if !seen.contains(&way.to) {
                seen.push(way.to);
            }
        }
        next += 1;
    }
    seen.contains(&state)
}

/// How many nodes of each event the transition's activity has.
fn emissions(plan: &Plan, transition: &Transition) -> Counts {
    let mut emitted = vec![0; plan.events.len()];
    let Some(activity) = transition.activity else { return emitted };
    for node in &plan.activities[activity as usize] {
        if let Kind::Event(event) = node.kind {
            emitted[event as usize] += 1;
        }
    }
    emitted
}

/// "A transition processes first, then emits." None: an event is processed that is not pending.
fn after(plan: &Plan, counts: &Counts, transition: &Transition) -> Option<Counts> {
    let mut counts = counts.clone();
    let emitted = emissions(plan, transition);
    let emits_first = broken(Broken::EmitsBeforeProcessing);
    if let Some((event, _)) = transition.input {
        let event = event as usize;
        let early = if emits_first { emitted[event] } else { 0 };
        if counts[event] + early == 0 {
            return None;
        }
        counts[event] -= 1;
    }
    for (count, more) in counts.iter_mut().zip(emitted) {
        *count += more;
    }
    Some(counts)
}

/// Whether the path, begun with these counts, processes an event that is not pending or ends in
/// its final state with something left.
fn breaks_twenty_five(plan: &Plan, counts: &Counts, path: &[Transition]) -> bool {
    let end = path.iter().try_fold(counts.clone(), |counts, t| after(plan, &counts, t));
    end.is_none_or(|left| left.iter().any(|&count| count != 0))
}

/// 25 and 26, "along every path from the initial state", by walking states together with counts.
///
/// 24 holds here. So where a state is met with two different counts, one path from it to a final
/// state, walked with both, breaks 25 with at least one of them: both walks change the counts
/// alike and cannot both end with nothing left. The walk is therefore finite.
fn judge_pending(plan: &Plan) -> Result<(), Fault> {
    let initial = plan.automaton.initial;
    let mut found: Vec<Option<Counts>> = vec![None; plan.automaton.states as usize];
    found[initial as usize] = Some(vec![0; plan.events.len()]);
    let mut waiting = VecDeque::from([initial]);
    let mut too_many = false;
    while let Some(state) = waiting.pop_front() {
        let counts = found[state as usize].clone().expect("a met state has counts");
        let most = if broken(Broken::NinePending) { 9 } else { 8 };
        too_many |= counts.iter().any(|&count| count > most);
        if too_many && broken(Broken::TwentySixFirst) {
            return Err(Fault::new(26, 0));
        }
        if plan.automaton.is_final(state) && counts.iter().any(|&count| count != 0) {
            return Err(Fault::new(25, 0));
        }
        for way in plan.automaton.ways_out(state) {
            let Some(next) = after(plan, &counts, &way) else { return Err(Fault::new(25, 0)) };
            let met = found[way.to as usize].clone();
            match met {
                None => {
                    found[way.to as usize] = Some(next);
                    waiting.push_back(way.to);
                }
                Some(other) if other != next => return Err(two_counts(plan, way.to, &other, &next)),
                Some(_) => {}
            }
        }
    }
    if too_many {
        return Err(Fault::new(26, 0));
    }
    Ok(())
}

/// 25, with the path that shows it.
fn two_counts(plan: &Plan, state: u8, one: &Counts, other: &Counts) -> Fault {
    let path = path_to_a_final_state(plan, state).expect("24 holds");
    assert!(breaks_twenty_five(plan, one, &path) || breaks_twenty_five(plan, other, &path));
    Fault::new(25, 0)
}
