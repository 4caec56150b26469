//! Whole inputs for the comparisons: plan files, timetable inputs, openings with their calls.

use super::hosts::{calls, Host, HOSTS};
use super::layout::Layout;
use super::markers::marker_plan;
use super::openings::{marker_opening, opening, tying_opening};
use super::{damage, plans, templates, Random};
use crate::plan_file::{encode, Plan, Transition};
use crate::run::Opening;
use crate::{drive, verdict};

/// A plan file: accepted, damaged in a known way, breaking a rule, or damaged blindly.
pub fn plan_file(random: &mut Random) -> Vec<u8> {
    match random.below(10) {
        0 | 1 => encode(&plans::any_plan(random)),
        2 | 3 => {
            let layout = Layout::of(&plans::any_plan(random));
            damage::damaged_field(random, &layout).bytes
        }
        4 => encode(&templates::faulty_activity_plan(random).0),
        5 => encode(&templates::faulty_automaton_plan(random).0),
        6 => counting(random),
        7 => (0..random.below(40)).map(|_| random.next() as u8).collect(),
        _ => {
            let bytes = encode(&plans::any_plan(random));
            damage::damaged_blindly(random, &bytes)
        }
    }
}

fn counting(random: &mut Random) -> Vec<u8> {
    if random.one_in(2) {
        let unbalanced = templates::unbalanced_plan(random);
        return unbalanced.map_or(vec![], |(plan, _)| encode(&plan));
    }
    let emitted = random.between(6, 10);
    let again = random.below(3);
    let off = random.pick(&[0, 0, 0, 1]);
    encode(&templates::counting_plan(emitted, again, emitted + again - off))
}

/// The states that can be reached from each state, the state itself only by a cycle.
fn reached(plan: &Plan) -> Vec<Vec<bool>> {
    let states = plan.automaton.states as usize;
    let mut reached = vec![vec![false; states]; states];
    for way in &plan.automaton.transitions {
        reached[way.from as usize][way.to as usize] = true;
    }
    for link in 0..states {
        let from_link = reached[link].clone();
        for from in reached.iter_mut().filter(|from| from[link]) {
            from.iter_mut().zip(&from_link).for_each(|(known, &new)| *known |= new);
        }
    }
    reached
}

/// Outcome bytes for a plan: good ones mostly, in any number. They keep to cycles where there are
/// any, so that words grow long; a few spare ones follow the end.
pub fn outcomes(random: &mut Random, plan: &Plan, most: usize) -> Vec<u8> {
    let reached = reached(plan);
    let is_long = most > 100;
    let bad_in = if is_long { 100_000 } else { random.pick(&[6, 60, 100_000]) };
    let leaves_in = if is_long { 100_000 } else { random.pick(&[2, 4, 100_000]) };
    let wanted = random.below(most + 1);
    let mut outcomes = Vec::new();
    let mut state = plan.automaton.initial;
    while outcomes.len() < wanted {
        let ways = plan.automaton.ways_out(state);
        if ways.is_empty() {
            outcomes.extend((0..random.below(3)).map(|_| random.next() as u8));
            break;
        }
        let returns = |way: &Transition| reached[way.to as usize][state as usize];
        let cycles: Vec<Transition> = ways.iter().copied().filter(returns).collect();
        let way = match cycles.is_empty() || random.one_in(leaves_in) {
            true => random.pick(&ways),
            false => random.pick(&cycles),
        };
        if let Some((_, outcome)) = way.input.filter(|_| ways.len() > 1) {
            outcomes.push(if random.one_in(bad_in) { random.next() as u8 % 9 } else { outcome });
        }
        state = way.to;
    }
    outcomes
}

/// An input of *timetable*: mostly a good plan with outcomes, otherwise damaged or cut.
pub fn timetable(random: &mut Random, most: usize) -> Vec<u8> {
    let plan = match random.below(12) {
        0 | 1 => plan_file(random),
        2 => encode(&marker_plan(random)),
        _ => encode(&plans::any_plan(random)),
    };
    let outcomes = match verdict::judge(&plan) {
        Ok(plan) => outcomes(random, &plan, most),
        Err(_) => vec![0; random.below(3)],
    };
    let mut input = [&(plan.len() as u16).to_le_bytes()[..], &plan, &outcomes].concat();
    match random.below(20) {
        0 => input.truncate(random.below(input.len() + 1)),
        1 => input[random.below(2)] ^= 1 << random.below(8),
        _ => {}
    }
    input
}

/// An opening and the calls of some host, as bytes. A few inputs end inside a call.
pub fn call_list(random: &mut Random) -> Vec<u8> {
    let host = random.pick(&HOSTS);
    call_list_of(random, host)
}

/// Two in three of the hosts that are late or overdue are so where nodes tie; half of the others that are
/// overdue, and one in three whose reports are nonsense, meet markers.
pub fn opening_for(random: &mut Random, host: Host) -> Opening {
    match host {
        Host::Late | Host::Overdue if !random.one_in(3) => tying_opening(random),
        Host::Overdue if random.one_in(2) => marker_opening(random),
        Host::Nonsense if random.one_in(3) => marker_opening(random),
        _ => opening(random),
    }
}

/// The same for one kind of host.
pub fn call_list_of(random: &mut Random, host: Host) -> Vec<u8> {
    let opening = opening_for(random, host);
    let most = random.pick(&[20, 60, 60, 120]);
    let calls = calls(random, &opening, host, most);
    let mut input = drive::encode_calls(&opening, &calls);
    if random.one_in(50) {
        input.truncate(random.below(input.len() + 1));
    }
    input
}
