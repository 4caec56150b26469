//! Random automata that keep rules 21 to 26 by construction: every state has its pending counts,
//! and a transition only leads to a state with the counts it leaves.

use super::Random;
use crate::plan_file::{Automaton, Kind, Plan, Transition};
use std::collections::{BTreeMap, VecDeque};

type Counts = Vec<u8>;

/// How large an automaton is wanted.
#[derive(Clone, Copy, Debug)]
pub struct Size {
    pub states: usize,
    /// Most pending instances of one event, and of all together.
    pub pending: u8,
    pub pending_in_all: u8,
}

struct Builder<'a> {
    plan: &'a Plan,
    random: &'a mut Random,
    size: Size,
    emissions: Vec<Counts>,
    counts: Vec<Counts>,
    finals: Vec<bool>,
    transitions: Vec<Transition>,
    /// A state for each counts from which everything pending is processed and nothing emitted.
    drains: BTreeMap<Counts, u8>,
    open: VecDeque<u8>,
}

fn emissions(plan: &Plan) -> Vec<Counts> {
    let count = |activity: &Vec<crate::plan_file::Node>| {
        let mut counts = vec![0; plan.events.len()];
        for node in activity {
            if let Kind::Event(event) = node.kind {
                counts[event as usize] += 1;
            }
        }
        counts
    };
    plan.activities.iter().map(count).collect()
}

impl Builder<'_> {
    fn new_state(&mut self, counts: Counts) -> u8 {
        self.counts.push(counts);
        self.finals.push(false);
        (self.counts.len() - 1).min(255) as u8
    }

    /// The empty activity or one that emits nothing.
    fn silent(&mut self) -> Option<u8> {
        let silent: Vec<u8> = (0..self.emissions.len() as u8)
            .filter(|&a| self.emissions[a as usize].iter().all(|&c| c == 0))
            .collect();
        match silent.is_empty() || self.random.one_in(2) {
            true => None,
            false => Some(self.random.pick(&silent)),
        }
    }

    fn drain(&mut self, counts: Counts) -> u8 {
        if let Some(&state) = self.drains.get(&counts) {
            return state;
        }
        let state = self.new_state(counts.clone());
        self.drains.insert(counts.clone(), state);
        let pending: Vec<usize> = (0..counts.len()).filter(|&e| counts[e] > 0).collect();
        if pending.is_empty() {
            self.finals[state as usize] = true;
            return state;
        }
        let event = self.random.pick(&pending);
        let mut rest = counts;
        rest[event] -= 1;
        let to = self.drain(rest);
        for outcome in 0..self.plan.events[event] {
            let activity = self.silent();
            let input = Some((event as u8, outcome));
            self.transitions.push(Transition { from: state, to, input, activity });
        }
        state
    }

    fn fits(&self, counts: &Counts) -> bool {
        let in_all: usize = counts.iter().map(|&c| c as usize).sum();
        counts.iter().all(|&c| c <= self.size.pending) && in_all <= self.size.pending_in_all as usize
    }

    /// An activity that may follow, with the counts after it.
    fn step(&mut self, counts: &Counts) -> (Option<u8>, Counts) {
        for _ in 0..4 {
            if self.emissions.is_empty() {
                break;
            }
            let activity = self.random.below(self.emissions.len());
            let emitted = &self.emissions[activity];
            let after: Counts = counts.iter().zip(emitted).map(|(&a, &b)| a.saturating_add(b)).collect();
            if self.fits(&after) {
                return (Some(activity as u8), after);
            }
        }
        (self.silent(), counts.clone())
    }

    /// A state with these counts. A sure one leads on to a final state whatever comes later.
    fn target(&mut self, counts: Counts, sure: bool) -> u8 {
        let same: Vec<u8> =
            (0..self.counts.len() as u8).filter(|&s| self.counts[s as usize] == counts).collect();
        if !sure && !same.is_empty() && self.random.one_in(2) {
            return self.random.pick(&same);
        }
        if self.counts.len() < self.size.states {
            let state = self.new_state(counts);
            self.open.push_back(state);
            return state;
        }
        self.drain(counts)
    }

    fn expand(&mut self, state: u8) {
        let counts = self.counts[state as usize].clone();
        let pending: Vec<usize> = (0..counts.len()).filter(|&e| counts[e] > 0).collect();
        if pending.is_empty() && state != 0 && self.random.one_in(4) {
            self.finals[state as usize] = true;
            return;
        }
        if pending.is_empty() || self.random.one_in(3) {
            let (activity, after) = self.step(&counts);
            let to = self.target(after, true);
            self.transitions.push(Transition { from: state, to, input: None, activity });
            return;
        }
        let event = self.random.pick(&pending);
        let mut rest = counts;
        rest[event] -= 1;
        let outcomes = self.plan.events[event];
        let sure = self.random.below(outcomes as usize) as u8;
        for outcome in 0..outcomes {
            let (activity, after) = self.step(&rest);
            let to = self.target(after, outcome == sure);
            let input = Some((event as u8, outcome));
            self.transitions.push(Transition { from: state, to, input, activity });
        }
    }

    /// States that no path from the initial one meets keep 21 to 24 all the same.
    fn add_unreachable(&mut self) {
        let known = self.counts.len();
        let state = self.new_state(vec![0; self.plan.events.len()]);
        let activity = |random: &mut Random, plan: &Plan| match random.one_in(2) {
            true => None,
            false => (!plan.activities.is_empty()).then(|| random.below(plan.activities.len()) as u8),
        };
        match self.random.below(3) {
            0 => self.finals[state as usize] = true,
            1 if !self.plan.events.is_empty() => {
                let event = self.random.below(self.plan.events.len());
                for outcome in 0..self.plan.events[event] {
                    let to = self.random.below(known) as u8;
                    let activity = activity(self.random, self.plan);
                    let input = Some((event as u8, outcome));
                    self.transitions.push(Transition { from: state, to, input, activity });
                }
            }
            _ => {
                let to = self.random.below(known) as u8;
                let activity = activity(self.random, self.plan);
                self.transitions.push(Transition { from: state, to, input: None, activity });
            }
        }
    }

    /// The automaton with its states renumbered and its transitions in any order.
    fn finish(mut self) -> Option<Automaton> {
        let states = self.counts.len();
        if states > 64 || self.transitions.len() > 256 {
            return None;
        }
        let mut number: Vec<u8> = (0..states as u8).collect();
        if self.random.one_in(2) {
            self.random.shuffle(&mut number);
            self.random.shuffle(&mut self.transitions);
        }
        for transition in &mut self.transitions {
            transition.from = number[transition.from as usize];
            transition.to = number[transition.to as usize];
        }
        let finals = (0..states).filter(|&s| self.finals[s]).fold(0, |bits, s| bits | 1 << number[s]);
        Some(Automaton { states: states as u8, initial: number[0], finals, transitions: self.transitions })
    }
}

/// A random automaton over the plan's activities, or none if it grew past the limits.
pub fn automaton(random: &mut Random, plan: &Plan, size: Size) -> Option<Automaton> {
    let mut builder = Builder {
        plan,
        size,
        emissions: emissions(plan),
        counts: vec![],
        finals: vec![],
        transitions: vec![],
        drains: BTreeMap::new(),
        open: VecDeque::new(),
        random,
    };
    let initial = builder.new_state(vec![0; plan.events.len()]);
    builder.open.push_back(initial);
    while let Some(state) = builder.open.pop_front() {
        builder.expand(state);
        if builder.counts.len() > 64 || builder.transitions.len() > 256 {
            return None;
        }
    }
    let extra = if builder.random.one_in(4) { builder.random.between(1, 3) } else { 0 };
    for _ in 0..extra {
        builder.add_unreachable();
    }
    builder.finish()
}
