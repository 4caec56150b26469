//! Random plans that are accepted, of every shape.

use super::activity::{activity, Durations};
use super::automaton::{automaton, Size};
use super::Random;
use crate::plan_file::{Automaton, Kind, Node, Plan, Transition};

/// What a plan is to look like; each number is a most.
#[derive(Clone, Copy, Debug)]
pub struct Style {
    pub resources: usize,
    pub peripherals: usize,
    pub events: usize,
    pub outcomes: usize,
    pub activities: usize,
    pub nodes: usize,
    /// Event nodes of one activity.
    pub emissions: usize,
    pub size: Size,
    pub durations: Durations,
}

impl Style {
    pub fn small(durations: Durations) -> Style {
        let size = Size { states: 8, pending: 3, pending_in_all: 5 };
        Style {
            resources: 3,
            peripherals: 4,
            events: 3,
            outcomes: 3,
            activities: 5,
            nodes: 9,
            emissions: 2,
            size,
            durations,
        }
    }

    pub fn typical(durations: Durations) -> Style {
        let size = Size { states: 20, pending: 4, pending_in_all: 8 };
        Style {
            resources: 6,
            peripherals: 12,
            outcomes: 8,
            activities: 10,
            nodes: 14,
            size,
            ..Style::small(durations)
        }
    }

    /// Many instances of few events pending at once.
    pub fn pending(durations: Durations) -> Style {
        let size = Size { states: 24, pending: 8, pending_in_all: 12 };
        Style { events: 2, outcomes: 2, emissions: 5, nodes: 12, size, ..Style::small(durations) }
    }

    pub fn large(durations: Durations) -> Style {
        let size = Size { states: 40, pending: 5, pending_in_all: 10 };
        Style {
            resources: 16,
            peripherals: 64,
            events: 16,
            outcomes: 8,
            activities: 32,
            nodes: 64,
            emissions: 3,
            size,
            durations,
        }
    }
}

/// A style at random; large ones are rare because they take long.
pub fn any_style(random: &mut Random) -> Style {
    let durations = random.pick(&[Durations::Tying, Durations::Tying, Durations::Any, Durations::WithZeros]);
    match random.below(40) {
        0 => Style::large(durations),
        1..=6 => Style::typical(durations),
        7..=14 => Style::pending(durations),
        _ => Style::small(durations),
    }
}

/// Any accepted plan.
pub fn any_plan(random: &mut Random) -> Plan {
    if random.one_in(20) {
        return bare_plan(random);
    }
    let style = any_style(random);
    plan(random, style)
}

/// A plan of the style.
pub fn plan(random: &mut Random, style: Style) -> Plan {
    let mut plan = Plan { resources: random.between(1, style.resources) as u8, ..Plan::default() };
    let peripherals = random.between(0, style.peripherals);
    plan.peripherals = (0..peripherals).map(|_| random.below(plan.resources as usize) as u8).collect();
    let events = random.between(0, style.events);
    plan.events = (0..events).map(|_| random.between(1, style.outcomes) as u8).collect();
    for _ in 0..random.between(1, style.activities) {
        let emissions = emissions(random, events, style.emissions);
        let most = random.between(2, style.nodes);
        plan.activities.push(activity(random, &plan, style.durations, most, &emissions));
    }
    let mut size = style.size;
    loop {
        if let Some(automaton) = automaton(random, &plan, size) {
            plan.automaton = automaton;
            return plan;
        }
        size.states = size.states.saturating_sub(3).max(1);
        size.pending_in_all = size.pending_in_all.saturating_sub(1).max(1);
    }
}

/// Which events one activity emits: none, a few, or several of one.
fn emissions(random: &mut Random, events: usize, most: usize) -> Vec<u8> {
    if events == 0 || random.one_in(3) {
        return vec![];
    }
    let one = random.below(events) as u8;
    let several = random.one_in(3);
    (0..random.between(1, most)).map(|_| if several { one } else { random.below(events) as u8 }).collect()
}

/// A plan without resources: nothing can be executed, and no event can be emitted.
pub fn bare_plan(random: &mut Random) -> Plan {
    let events = random.below(3);
    let mut plan =
        Plan { events: (0..events).map(|_| random.between(1, 8) as u8).collect(), ..Plan::default() };
    let size = Size { states: random.between(1, 10), pending: 0, pending_in_all: 0 };
    loop {
        if let Some(automaton) = automaton(random, &plan, size) {
            plan.automaton = automaton;
            return plan;
        }
    }
}

fn node(kind: Kind, duration: u32, predecessors: Vec<u8>) -> Node {
    Node { kind, duration, predecessors }
}

/// A chain of executed nodes between claim and release of a resource, each with up to eight
/// predecessors: the densest accepted activity.
pub fn dense_activity(resource: u8, executed: &[(Kind, u32)]) -> Vec<Node> {
    let mut nodes = vec![node(Kind::Claim(resource), 0, vec![])];
    for &(kind, duration) in executed {
        let at = nodes.len() as u8;
        nodes.push(node(kind, duration, (at.saturating_sub(8)..at).collect()));
    }
    let at = nodes.len() as u8;
    nodes.push(node(Kind::Release(resource), 0, (at.saturating_sub(8)..at).collect()));
    nodes
}

fn plain(from: u8, to: u8, activity: Option<u8>) -> Transition {
    Transition { from, to, input: None, activity }
}

/// The largest accepted plan this build knows: 32 dense activities of 64 nodes, 64 states and 252
/// transitions. Every waiting state has eight ways out.
pub fn largest_plan() -> Plan {
    let action = |n: usize| (Kind::Action { number: n as u8, peripheral: (n % 64) as u8 }, 60_000_000);
    let mut plan = Plan { resources: 16, peripherals: vec![0; 64], events: vec![8; 16], ..Plan::default() };
    for a in 0..32u8 {
        let mut executed: Vec<(Kind, u32)> = (0..62).map(action).collect();
        if a < 16 {
            executed[61] = (Kind::Event(a), 60_000_000);
        }
        plan.activities.push(dense_activity(0, &executed));
    }
    let mut automaton = Automaton { states: 64, initial: 0, finals: 1 << 63, transitions: vec![] };
    for pair in 0..27u8 {
        let (from, event) = (2 * pair, pair % 16);
        automaton.transitions.push(plain(from, from + 1, Some(event)));
        automaton.transitions.extend((0..8).map(|outcome| Transition {
            from: from + 1,
            to: from + 2,
            input: Some((event, outcome)),
            activity: Some(16 + event),
        }));
    }
    automaton.transitions.extend((54..63).map(|s| plain(s, s + 1, Some(31))));
    plan.automaton = automaton;
    plan
}

/// The longest plan that can be read, 34,433 bytes; its activities are cyclic.
pub fn longest_readable_plan() -> Plan {
    let mut plan = largest_plan();
    let kind = Kind::Action { number: 7, peripheral: 63 };
    plan.activities = vec![vec![node(kind, 60_000_000, (0..8).collect()); 64]; 32];
    let way = Transition { from: 0, to: 1, input: Some((0, 7)), activity: Some(31) };
    plan.automaton.transitions = vec![way; 256];
    plan
}

/// Both outcomes of event 0 lead on alike, to the next state.
fn decided(from: u8, activity: Option<u8>) -> impl Iterator<Item = Transition> {
    (0..2).map(move |outcome| Transition { from, to: from + 1, input: Some((0, outcome)), activity })
}

/// A plan whose first path has one event and `first` further nodes that stay in the window while
/// the event is awaited, and whose second path has `second` nodes.
pub fn wide_plan(first: usize, second: usize) -> Plan {
    let action = |peripheral: u8| (Kind::Action { number: 0, peripheral }, 60_000_000u32);
    let mut plan = Plan {
        resources: 2,
        peripherals: vec![0, 1],
        events: vec![2],
        activities: vec![dense_activity(0, &[(Kind::Event(0), 2_000)])],
        ..Plan::default()
    };
    let mut transitions = vec![plain(0, 1, Some(0))];
    let mut state = 1;
    for (nodes, peripheral) in [(first, 1), (second, 0)] {
        let mut left = nodes;
        while left > 0 {
            let here = left.min(62);
            left -= here;
            plan.activities.push(dense_activity(peripheral, &vec![action(peripheral); here]));
            let activity = Some(plan.activities.len() as u8 - 1);
            transitions.push(plain(state, state + 1, activity));
            state += 1;
        }
        if peripheral == 1 {
            transitions.extend(decided(state, None));
            state += 1;
        }
    }
    plan.automaton = Automaton { states: state + 1, initial: 0, finals: 1 << state, transitions };
    plan
}

/// A plan whose first path has one event, and whose second path has a transition with so many actions
/// for each of `sizes`, each at most 62: the first processes the event.
pub fn loading_plan(sizes: &[usize]) -> Plan {
    let action = (Kind::Action { number: 0, peripheral: 0 }, 60_000_000u32);
    let mut plan = Plan {
        resources: 1,
        peripherals: vec![0],
        events: vec![2],
        activities: vec![dense_activity(0, &[(Kind::Event(0), 2_000)])],
        ..Plan::default()
    };
    plan.activities.extend(sizes.iter().map(|&size| dense_activity(0, &vec![action; size])));
    let last = plan.activities.len() as u8;
    let mut transitions = vec![plain(0, 1, Some(0))];
    transitions.extend(decided(1, Some(1)));
    transitions.extend((2..last).map(|a| plain(a, a + 1, Some(a))));
    plan.automaton = Automaton { states: last + 1, initial: 0, finals: 1 << last, transitions };
    plan
}
