//! Every limit of a stored count, number or time (number 50), and which of them a run's values
//! stand at or lie past. Written beside `run/limits.rs`, value by value, to be counted by.

use crate::plan_file::*;
use crate::run::{Run, Stop};
use crate::specified_times::incremental::MOST_PENDING;
use crate::{HORIZON, LAST_POSITION};
use std::collections::BTreeSet;

/// The limits by name: those at which a value stands, and those which a value passes, each time
/// with whether it is one past.
#[derive(Clone, Debug, Default)]
pub struct Limits {
    pub at: BTreeSet<&'static str>,
    past: Vec<(&'static str, bool)>,
}

impl Limits {
    pub fn of(run: &Run) -> Limits {
        let mut limits = Limits::default();
        limits.sections(&run.plan);
        limits.automaton(&run.plan);
        run.plan.activities.iter().for_each(|activity| limits.activity(&run.plan, activity));
        limits.moment(run);
        limits.window(run);
        run.stop.iter().for_each(|&stop| limits.stop(stop));
        limits
    }

    pub fn are_kept(&self) -> bool {
        self.past.is_empty()
    }

    /// The one limit that is passed, by one. A plan without states is past two more of its own.
    pub fn only_past(&self) -> Option<&'static str> {
        let no_states = self.past.iter().any(|(what, _)| *what == "state count, least");
        let follows = |what: &str| no_states && matches!(what, "initial state" | "state");
        let mut past = self.past.iter().filter(|(what, _)| !follows(what));
        match (past.next(), past.next()) {
            (Some(&(what, true)), None) => Some(what),
            _ => None,
        }
    }

    fn most(&mut self, what: &'static str, value: u64, most: u64) {
        if value == most {
            self.at.insert(what);
        }
        if value > most {
            self.past.push((what, value == most + 1));
        }
    }

    /// A number that must name one of so many.
    fn names(&mut self, what: &'static str, value: u8, count: usize) {
        let (value, count) = (value as u64, count as u64);
        if value + 1 == count {
            self.at.insert(what);
        }
        if value >= count {
            self.past.push((what, value == count));
        }
    }

    fn at_least_1(&mut self, what: &'static str, value: u64) {
        if value == 1 {
            self.at.insert(what);
        }
        if value < 1 {
            self.past.push((what, true));
        }
    }

    fn sections(&mut self, plan: &Plan) {
        self.most("resource count", plan.resources as u64, MOST_RESOURCES);
        self.most("peripheral count", plan.peripherals.len() as u64, MOST_PERIPHERALS);
        for &resource in &plan.peripherals {
            self.names("resource of a peripheral", resource, plan.resources as usize);
        }
        self.most("event count", plan.events.len() as u64, MOST_EVENTS);
        for &outcomes in &plan.events {
            self.at_least_1("outcome count, least", outcomes as u64);
            self.most("outcome count, most", outcomes as u64, MOST_OUTCOMES);
        }
        self.most("activity count", plan.activities.len() as u64, MOST_ACTIVITIES);
    }

    fn activity(&mut self, plan: &Plan, activity: &Activity) {
        self.at_least_1("node count, least", activity.len() as u64);
        self.most("node count, most", activity.len() as u64, MOST_NODES);
        for node in activity {
            match node.kind {
                Kind::Action { peripheral, .. } => {
                    self.names("peripheral of an action", peripheral, plan.peripherals.len());
                }
                Kind::Claim(resource) => self.names("resource of a claim", resource, plan.resources as usize),
                Kind::Release(resource) => {
                    self.names("resource of a release", resource, plan.resources as usize);
                }
                Kind::Event(event) => self.names("event of a node", event, plan.events.len()),
            }
            self.most("duration", node.duration as u64, LONGEST_DURATION);
            self.most("predecessor count", node.predecessors.len() as u64, MOST_PREDECESSORS);
            node.predecessors.iter().for_each(|&p| self.names("predecessor", p, activity.len()));
        }
    }

    fn automaton(&mut self, plan: &Plan) {
        let automaton = &plan.automaton;
        let states = automaton.states as usize;
        self.at_least_1("state count, least", states as u64);
        self.most("state count, most", states as u64, MOST_STATES);
        self.names("initial state", automaton.initial, states);
        (0..64).filter(|&state| automaton.is_final(state)).for_each(|s| self.names("final bit", s, states));
        self.most("transition count", automaton.transitions.len() as u64, MOST_TRANSITIONS);
        for way in &automaton.transitions {
            self.names("from-state", way.from, states);
            self.names("to-state", way.to, states);
            if let Some((event, outcome)) = way.input {
                self.names("event of an input", event, plan.events.len());
                let outcomes = plan.events.get(event as usize);
                outcomes.iter().for_each(|&&n| self.names("outcome of an input", outcome, n as usize));
            }
            let activity = way.activity.iter();
            activity.for_each(|&a| self.names("activity of an output", a, plan.activities.len()));
        }
    }

    fn moment(&mut self, run: &Run) {
        self.most("psi", run.psi, HORIZON);
        self.at_least_1("slack, least", run.slack);
        self.most("slack, most", run.slack, Run::MOST_SLACK);
        let moment = &run.moment;
        moment.availabilities.iter().for_each(|&time| self.most("availability", time, HORIZON));
        moment.last_completions.iter().for_each(|&time| self.most("last completion", time, HORIZON));
        for (event, pending) in moment.pending.iter().enumerate() {
            self.most("pending count", pending.len() as u64, MOST_PENDING as u64);
            for instance in pending {
                self.most("position of an instance", instance.position, LAST_POSITION);
                self.names("node of an instance", instance.node, MOST_NODES as usize);
                self.most("completion of an instance", instance.completion, HORIZON);
                let told = run.outcomes.get(&(instance.position, instance.node));
                let outcomes = run.plan.events[event] as usize;
                told.iter().for_each(|&&o| self.names("outcome told of an instance", o, outcomes));
            }
        }
        self.most("next position", run.next_position, LAST_POSITION + 1);
        self.names("state", run.state, run.plan.automaton.states as usize);
    }

    fn window(&mut self, run: &Run) {
        for entry in &run.window {
            let time = entry.time;
            self.most("position of an entry", time.position, LAST_POSITION);
            self.names("activity of an entry", time.activity, run.plan.activities.len());
            let activity = run.plan.activities.get(time.activity as usize);
            activity.iter().for_each(|nodes| self.names("node of an entry", time.node, nodes.len()));
            self.most("start of an entry", time.start, HORIZON);
            self.most("completion of an entry", time.completion, HORIZON);
        }
    }

    fn stop(&mut self, stop: Stop) {
        let Some((position, node)) = stop.node else { return };
        let (of_position, of_node) = match stop.number {
            41 => ("position of stop 41", "node of stop 41"),
            _ => ("position of stop 42", "node of stop 42"),
        };
        self.most(of_position, position as u64, LAST_POSITION);
        self.names(of_node, node, MOST_NODES as usize);
    }
}
