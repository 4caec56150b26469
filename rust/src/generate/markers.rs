//! Plans with markers, events of one outcome: processed in the path that emits them or in a later one,
//! several of one pending, in loops that a decision leaves; and plans with a path too long for the window.

use super::activity::renumbered;
use super::plans::dense_activity;
use super::tying::in_a_row;
use super::Random;
use crate::plan_file::{Activity, Kind, Node, Plan, Transition};

/// The event that decides; the others are markers.
const DECISION: u8 = 1;
const MARKERS: [u8; 2] = [0, 2];
const RESOURCES: u8 = 2;

struct Draft<'a> {
    random: &'a mut Random,
    plan: Plan,
    /// The last state, which has no way out yet.
    state: u8,
    /// Whether a decision comes before it.
    is_decided: bool,
}

impl Draft<'_> {
    /// The last resource is seldom needed before a decision: where it is far away, 44 comes at a call.
    fn resource(&mut self) -> u8 {
        match self.is_decided || self.random.one_in(4) {
            true => self.random.below(RESOURCES as usize) as u8,
            false => 0,
        }
    }

    /// An action and the events. The release waits for the action, seldom for an event, so that a marker
    /// may complete long after its resource is available.
    fn activity(&mut self, events: &[u8]) -> Option<u8> {
        let resource = self.resource();
        let action = Kind::Action { number: 0, peripheral: resource };
        let mut nodes: Vec<Node> = vec![];
        let mut add = |kind, duration, predecessors| nodes.push(Node { kind, duration, predecessors });
        add(Kind::Claim(resource), 0, vec![]);
        add(action, 1_000 * self.random.between(1, 3) as u32, vec![0]);
        for (at, &event) in events.iter().enumerate() {
            let before = events[..at].iter().rposition(|&other| other == event).map(|n| n as u8 + 2);
            let first = self.random.below(2) as u8;
            let predecessors = [first].into_iter().chain(before).collect();
            add(Kind::Event(event), 1_000 * self.random.between(1, 5) as u32, predecessors);
        }
        let last = self.random.one_in(3).then_some(events.len() as u8 + 1).filter(|&last| last > 1);
        add(Kind::Release(resource), 0, [1].into_iter().chain(last).collect());
        self.plan.activities.push(renumbered(nodes, self.random));
        Some(self.plan.activities.len() as u8 - 1)
    }

    fn silent_activity(&mut self) -> Option<u8> {
        match self.random.one_in(3) {
            true => None,
            false => self.activity(&[]),
        }
    }

    fn way(&mut self, to: u8, input: Option<(u8, u8)>, activity: Option<u8>) {
        self.plan.automaton.transitions.push(Transition { from: self.state, to, input, activity });
    }

    fn emit(&mut self, events: &[u8]) {
        let activity = self.activity(events);
        self.way(self.state + 1, None, activity);
        self.state += 1;
    }

    fn process(&mut self, event: u8) {
        self.is_decided |= event == DECISION;
        for outcome in 0..self.plan.events[event as usize] {
            let activity = self.silent_activity();
            self.way(self.state + 1, Some((event, outcome)), activity);
        }
        self.state += 1;
    }

    /// The decision goes on by its first outcome and back to a state by the others.
    fn decide_or_return(&mut self, back: u8) {
        self.is_decided = true;
        for outcome in 0..self.plan.events[DECISION as usize] {
            let activity = self.silent_activity();
            let to = if outcome > 0 { back } else { self.state + 1 };
            self.way(to, Some((DECISION, outcome)), activity);
        }
        self.state += 1;
    }

    fn markers(&mut self, most: usize) -> Vec<u8> {
        let one = self.random.pick(&MARKERS);
        let is_one = self.random.one_in(2);
        let many = self.random.between(1, most);
        (0..many).map(|_| if is_one { one } else { self.random.pick(&MARKERS) }).collect()
    }

    /// Emits some markers and perhaps a decision, then processes them all.
    fn stretch(&mut self) {
        let start = self.state;
        let mut order = self.markers(3);
        let (decides, returns) = (!self.random.one_in(4), self.random.one_in(2));
        let mut emitted = order.clone();
        if decides {
            emitted.push(DECISION);
            self.random.shuffle(&mut emitted);
        }
        self.emit(&emitted);
        self.random.shuffle(&mut order);
        if decides && !returns {
            order.insert(self.random.below(order.len() + 1), DECISION);
        }
        order.into_iter().for_each(|event| self.process(event));
        if decides && returns {
            self.decide_or_return(start);
        }
    }
}

/// An accepted plan of a few stretches. Some markers may be pending from before the first to after the
/// last, so that each stretch processes those of the one before.
pub fn marker_plan(random: &mut Random) -> Plan {
    let mut events = vec![1; MARKERS.len() + 1];
    events[DECISION as usize] = random.between(2, 3) as u8;
    let peripherals = (0..RESOURCES).collect();
    let plan = Plan { resources: RESOURCES, peripherals, events, ..Plan::default() };
    let mut draft = Draft { random, plan, state: 0, is_decided: false };
    let carried = if draft.random.one_in(2) { draft.markers(2) } else { vec![] };
    if !carried.is_empty() {
        draft.emit(&carried);
    }
    for _ in 0..draft.random.between(1, 3) {
        draft.stretch();
    }
    carried.into_iter().for_each(|marker| draft.process(marker));
    let Draft { mut plan, state, .. } = draft;
    plan.automaton.states = state + 1;
    plan.automaton.finals = 1 << state;
    plan
}

/// A path with a stretch of so many nodes, from 1 to 62, for each of `sizes`; each but the last ends with
/// a marker, which the next one processes. Where it is decided, both outcomes of an event load it.
pub fn marked_path(sizes: &[usize], is_decided: bool) -> Plan {
    let (decision, marker) = ((Kind::Event(1), 2_000), (Kind::Event(0), 2_000));
    let mut plan = Plan { resources: 1, peripherals: vec![0], events: vec![1, 2], ..Plan::default() };
    let mut ways = vec![];
    if is_decided {
        ways.push((None, number_of(&mut plan, dense_activity(0, &[decision]))));
    }
    for (n, &size) in sizes.iter().enumerate() {
        let mut executed = vec![(Kind::Action { number: 0, peripheral: 0 }, 2_000); size];
        if n + 1 < sizes.len() {
            executed[size - 1] = marker;
        }
        let activity = number_of(&mut plan, dense_activity(0, &executed));
        ways.push((if n > 0 { Some(0) } else { is_decided.then_some(1) }, activity));
    }
    plan.automaton = in_a_row(&plan, &ways);
    plan
}

/// The number of an activity, which is added where the plan has none like it.
fn number_of(plan: &mut Plan, activity: Activity) -> Option<u8> {
    let known = plan.activities.iter().position(|other| *other == activity);
    if known.is_none() {
        plan.activities.push(activity);
    }
    Some(known.unwrap_or(plan.activities.len() - 1) as u8)
}

/// The window fits each stretch of the path, but mostly not the whole of it.
pub fn long_plan(random: &mut Random) -> Plan {
    let nodes = match random.one_in(16) {
        true => random.between(510, 512),
        false => random.between(513, 516),
    };
    let stretches = [61; 8];
    let last = nodes - stretches.iter().sum::<usize>();
    marked_path(&[&stretches[..], &[last]].concat(), random.one_in(2))
}
