//! The word that a log tells, and its combined activity.
//!
//! "The word is the transitions taken from the initial state: at a waiting state that of the
//! outcome reported for the event's oldest unprocessed instance, elsewhere the only one, as long
//! as there is one."

use crate::plan_file::{Plan, Transition};
use crate::specified_times::{Combined, NodeTime};
use std::collections::BTreeMap;

/// Position and node.
pub type Identity = (u64, u8);

#[derive(Clone)]
pub struct Told<'a> {
    pub plan: &'a Plan,
    pub state: u8,
    pub word: Vec<Transition>,
    pub combined: Combined,
    /// How many instances of each event the word has processed.
    processed: Vec<usize>,
    outcomes: BTreeMap<Identity, u8>,
}

impl<'a> Told<'a> {
    pub fn nothing(plan: &'a Plan) -> Told<'a> {
        Told {
            plan,
            state: plan.automaton.initial,
            word: Vec::new(),
            combined: Combined::of_the_empty_word(plan),
            processed: vec![0; plan.events.len()],
            outcomes: BTreeMap::new(),
        }
    }

    pub fn hear(&mut self, of: Identity, outcome: u8) {
        self.outcomes.insert(of, outcome);
    }

    pub fn waits(&self) -> bool {
        self.plan.automaton.ways_out(self.state).len() > 1
    }

    pub fn has_ended(&self) -> bool {
        self.plan.automaton.is_final(self.state)
    }

    /// The outcome told for the oldest unprocessed instance of an event.
    fn outcome_of_oldest(&self, event: u8) -> Option<u8> {
        let oldest = self.combined.instance(event, self.processed[event as usize] + 1)?;
        let (position, _, node) = self.combined.members[oldest].origin?;
        self.outcomes.get(&(position, node)).copied()
    }

    /// The transition with which the word goes on, if it does.
    pub fn next(&self) -> Option<Transition> {
        let ways = self.plan.automaton.ways_out(self.state);
        if let [only] = ways[..] {
            return Some(only);
        }
        let (event, _) = ways.first()?.input?;
        let outcome = self.outcome_of_oldest(event)?;
        ways.into_iter().find(|t| t.input == Some((event, outcome)))
    }

    /// The word grown by its next transition.
    pub fn grow(&mut self) -> bool {
        let Some(way) = self.next() else { return false };
        let k = way.input.map_or(0, |(event, _)| {
            self.processed[event as usize] += 1;
            self.processed[event as usize]
        });
        self.combined = self.combined.grown(self.plan, &way, self.word.len() as u64, k);
        self.state = way.to;
        self.word.push(way);
        true
    }

    /// The word as far as it goes.
    pub fn grow_all(&mut self) -> bool {
        let before = self.word.len();
        while self.grow() {}
        self.word.len() > before
    }

    pub fn executed(&self, availabilities: &[u64]) -> Vec<NodeTime> {
        self.combined.executed(availabilities)
    }
}
