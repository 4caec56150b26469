//! Plans that break a rule of the activities or of the automaton on purpose, with the number and
//! place that must come out, pairs of faults whose order decides included.

use super::activity::Durations;
use super::plans::{plan, Style};
use super::Random;
use crate::plan_file::{Activity, Kind, Node, Plan, Transition};
use crate::Fault;

fn node(kind: Kind, predecessors: &[u8]) -> Node {
    let duration = if matches!(kind, Kind::Claim(_) | Kind::Release(_)) { 0 } else { 1000 };
    Node { kind, duration, predecessors: predecessors.to_vec() }
}

/// Activities that break exactly one rule. They use resources r and r + 1, the peripherals of
/// the same numbers, and event e.
fn faulty_activities(r: u8, e: u8) -> Vec<(u8, Activity)> {
    let (claim, release) = (|p: &[u8]| node(Kind::Claim(r), p), |p: &[u8]| node(Kind::Release(r), p));
    let (claim2, release2) =
        (|p: &[u8]| node(Kind::Claim(r + 1), p), |p: &[u8]| node(Kind::Release(r + 1), p));
    let action = |p: &[u8]| node(Kind::Action { number: 9, peripheral: r }, p);
    let action2 = |p: &[u8]| node(Kind::Action { number: 9, peripheral: r + 1 }, p);
    let event = |p: &[u8]| node(Kind::Event(e), p);
    vec![
        (11, vec![claim(&[]), action(&[0, 1]), release(&[1])]),
        (11, vec![claim(&[]), action(&[0, 2]), action(&[1]), release(&[2])]),
        (11, vec![claim(&[]), event(&[3]), event(&[1]), event(&[2]), release(&[0])]),
        (12, vec![claim(&[]), action(&[0]), action(&[0]), release(&[1, 2])]),
        (13, vec![claim(&[]), claim(&[]), release(&[0, 1])]),
        (13, vec![claim(&[]), release(&[0]), release(&[0])]),
        (14, vec![claim(&[]), action(&[]), release(&[0, 1])]),
        (14, vec![claim(&[]), action(&[0]), release(&[0])]),
        (14, vec![claim(&[]), claim2(&[]), action(&[1]), release(&[0, 2]), release2(&[1, 2])]),
        (14, vec![claim(&[]), claim2(&[]), action(&[0, 1]), release(&[0]), release2(&[1, 2])]),
        (14, vec![claim(&[]), action2(&[0]), release(&[1])]),
        (15, vec![claim(&[]), release(&[])]),
        (15, vec![claim(&[])]),
        (15, vec![release(&[])]),
        (15, vec![claim(&[]), claim2(&[]), release(&[1]), release2(&[0])]),
        (16, vec![claim(&[]), claim2(&[0]), release(&[0]), release2(&[1])]),
        (16, vec![claim(&[]), claim2(&[]), release(&[0]), release2(&[1, 2])]),
        (16, vec![claim(&[]), release(&[0]), event(&[1])]),
        (17, vec![claim(&[]), event(&[]), release(&[0])]),
        (17, vec![claim(&[]), event(&[]), event(&[1]), release(&[0, 2])]),
        (18, vec![claim(&[]), event(&[0]), event(&[0]), release(&[0])]),
        (18, vec![claim(&[]), action(&[0]), event(&[1]), event(&[1]), release(&[2, 3])]),
    ]
}

/// Two activities side by side in one: the lower number decides.
fn side_by_side(one: &Activity, other: &Activity) -> Activity {
    let shift = one.len() as u8;
    let moved = |node: &Node| {
        let predecessors = node.predecessors.iter().map(|p| p + shift).collect();
        Node { predecessors, ..node.clone() }
    };
    one.iter().cloned().chain(other.iter().map(moved)).collect()
}

/// A plan with resources, peripherals and events enough for the templates.
fn roomy_plan(random: &mut Random) -> Plan {
    loop {
        let mut style = Style::small(Durations::Tying);
        style.resources = 5;
        let found = plan(random, style);
        if found.resources >= 4 && found.events.len() >= 2 && found.activities.len() >= 2 {
            return found;
        }
    }
}

/// A plan with one or more faulty activities and the verdict on it.
pub fn faulty_activity_plan(random: &mut Random) -> (Plan, Fault) {
    let mut plan = roomy_plan(random);
    // The templates want peripheral n on resource n. Those the plan has keep their resource.
    let base = plan.peripherals.len() as u8;
    plan.peripherals.extend(0..4);
    let with_base = |activity: &Activity| -> Activity {
        let mut activity = activity.clone();
        for node in &mut activity {
            if let Kind::Action { peripheral, .. } = &mut node.kind {
                *peripheral += base;
            }
        }
        activity
    };
    let (number, one) = random_template(random, 0, 0);
    let place = random.below(plan.activities.len());
    plan.activities[place] = with_base(&one);
    let mut fault = Fault::new(number, place);
    if random.one_in(2) {
        let (second, other) = random_template(random, 2, 1);
        let elsewhere = random.below(plan.activities.len());
        if elsewhere == place {
            plan.activities[place] = with_base(&side_by_side(&one, &other));
            fault.number = number.min(second);
        } else {
            plan.activities[elsewhere] = with_base(&other);
            if elsewhere < place {
                fault = Fault::new(second, elsewhere);
            }
        }
    }
    (plan, fault)
}

fn random_template(random: &mut Random, r: u8, e: u8) -> (u8, Activity) {
    let mut all = faulty_activities(r, e);
    let at = random.below(all.len());
    all.swap_remove(at)
}

/// Breaks one rule of an accepted plan's automaton; None where the plan has no room for it.
/// The answer is the number and the state (0 for 25).
fn break_automaton(random: &mut Random, plan: &mut Plan, number: u8) -> Option<Fault> {
    let automaton = &mut plan.automaton;
    let plain = |from, to| Transition { from, to, input: None, activity: None };
    let at = random.below(automaton.transitions.len());
    let states = automaton.states;
    match number {
        21 => {
            let finals: Vec<u8> = (0..states).filter(|&s| automaton.is_final(s)).collect();
            let state = random.pick(&finals);
            automaton.transitions.push(plain(state, random.below(states as usize) as u8));
            Some(Fault::new(21, state as usize))
        }
        22 => {
            let way = *automaton.transitions.get(at)?;
            let twin = if random.one_in(2) { way } else { plain(way.from, way.to) };
            automaton.transitions.push(twin);
            Some(Fault::new(22, way.from as usize))
        }
        23 => {
            let way = *automaton.transitions.get(at)?;
            let (event, _) = way.input?;
            if plan.events[event as usize] < 2 {
                return None;
            }
            automaton.transitions.remove(at);
            Some(Fault::new(23, way.from as usize))
        }
        24 if states < 63 => {
            automaton.states += 1 + random.below(2) as u8;
            (states..automaton.states).for_each(|s| automaton.transitions.push(plain(s, s)));
            Some(Fault::new(24, states as usize))
        }
        _ => None,
    }
}

/// A plan whose automaton breaks one rule of 21 to 24, or two, and the verdict on it.
pub fn faulty_automaton_plan(random: &mut Random) -> (Plan, Fault) {
    loop {
        let mut plan = roomy_plan(random);
        if plan.automaton.transitions.is_empty() {
            continue;
        }
        let number = random.between(21, 24) as u8;
        let Some(fault) = break_automaton(random, &mut plan, number) else { continue };
        if plan.automaton.transitions.len() > 250 {
            continue;
        }
        if random.one_in(2) {
            return (plan, fault);
        }
        // A second fault of the same or of another number. Taking a transition away (23) can
        // cut a path (24) or mend a branch (22), so it goes with 21 only.
        let second = random.between(21, 24) as u8;
        if (number == 23 || second == 23) && number != 21 && second != 21 {
            return (plan, fault);
        }
        return match break_automaton(random, &mut plan, second) {
            Some(other) => (plan, fault.min(other)),
            None => (plan, fault),
        };
    }
}

/// One activity emits `emitted` of an event, which the automaton then processes `processed` times;
/// the outcome transition before last emits `again` more.
pub fn counting_plan(emitted: usize, again: usize, processed: usize) -> Plan {
    let chain = |events: usize| -> Activity {
        let mut nodes = vec![node(Kind::Claim(0), &[])];
        (0..events as u8).for_each(|n| nodes.push(node(Kind::Event(0), &[n])));
        nodes.push(node(Kind::Release(0), &[events as u8]));
        nodes
    };
    let mut plan =
        Plan { resources: 1, events: vec![1], activities: vec![chain(emitted)], ..Plan::default() };
    if again > 0 {
        plan.activities.push(chain(again));
    }
    let way =
        |from: usize, input, activity| Transition { from: from as u8, to: from as u8 + 1, input, activity };
    plan.automaton.transitions.push(way(0, None, Some(0)));
    for n in 1..=processed {
        let activity = if n == 1 && again > 0 { Some(1) } else { None };
        plan.automaton.transitions.push(way(n, Some((0, 0)), activity));
    }
    plan.automaton.states = processed as u8 + 2;
    plan.automaton.finals = 1 << (processed + 1);
    plan
}

/// An accepted plan with a transition that emits more or less than it did: 25, wherever it is,
/// because every generated state but the unreachable ones lies on a path to a final state.
pub fn unbalanced_plan(random: &mut Random) -> Option<(Plan, Fault)> {
    let mut plan = roomy_plan(random);
    let emitting =
        |plan: &Plan, a: u8| plan.activities[a as usize].iter().any(|n| matches!(n.kind, Kind::Event(_)));
    let reachable = reachable(&plan);
    let wanted: Vec<usize> = (0..plan.automaton.transitions.len())
        .filter(|&t| {
            let way = plan.automaton.transitions[t];
            reachable[way.from as usize] && way.activity.is_some_and(|a| emitting(&plan, a))
        })
        .collect();
    if wanted.is_empty() {
        return None;
    }
    plan.automaton.transitions[random.pick(&wanted)].activity = None;
    Some((plan, Fault::new(25, 0)))
}

fn reachable(plan: &Plan) -> Vec<bool> {
    let mut seen = vec![false; plan.automaton.states as usize];
    let mut to_visit = vec![plan.automaton.initial];
    while let Some(state) = to_visit.pop() {
        if !seen[state as usize] {
            seen[state as usize] = true;
            to_visit.extend(plan.automaton.ways_out(state).iter().map(|t| t.to));
        }
    }
    seen
}
