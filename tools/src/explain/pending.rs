//! 25 and 26: a shortest word to the fault.
//!
//! Each event is counted alone. A shortest word over all of them breaks nothing before its end: a fault of another
//! event on the way would end a shorter word.

use super::{Finding, Pending};
use crate::toggles::{broken, Broken};
use jidlekuvo_reference::plan_file::{Kind, Plan};
use std::collections::{HashSet, VecDeque};

/// "There is one of at most 127 transitions": over 63 to where two counts meet, and 63 to a final state.
pub const LONGEST_WORD: usize = 127;

/// A count of as many never falls to 0 within a longest word, so that larger ones need not be told apart.
const MANY: usize = LONGEST_WORD + 1;

/// Of words as short the one that asks too early: a step processes before anything can be left.
pub fn find(plan: &Plan, number: u8) -> Option<Finding> {
    let words = (0..plan.events.len() as u8).filter_map(|event| Search::new(plan, event, number).word());
    let (mut transitions, event, end) =
        words.min_by_key(|(transitions, _, end)| (transitions.len(), *end != Pending::Unsensed))?;
    if broken(Broken::WordOneShort) {
        transitions.pop();
    }
    Some(Finding::Word { transitions, event, end })
}

/// A state with a count, and the step that led there.
struct Met {
    state: u8,
    count: usize,
    length: usize,
    from: usize,
    way: usize,
}

struct Search<'a> {
    plan: &'a Plan,
    event: u8,
    number: u8,
    /// How many nodes of the event each transition's activity has.
    emits: Vec<usize>,
}

impl<'a> Search<'a> {
    fn new(plan: &'a Plan, event: u8, number: u8) -> Search<'a> {
        let of = |activity: u8| {
            let nodes = plan.activities[activity as usize].iter();
            nodes.filter(|node| node.kind == Kind::Event(event)).count()
        };
        let emits = plan.automaton.transitions.iter().map(|way| way.activity.map_or(0, of)).collect();
        Search { plan, event, number, emits }
    }

    /// How the step ends a word, or the count after it.
    fn step(&self, count: usize, way: usize) -> Result<usize, Pending> {
        let transition = self.plan.automaton.transitions[way];
        let processes = transition.input.is_some_and(|(event, _)| event == self.event);
        if processes && count == 0 {
            return Err(Pending::Unsensed);
        }
        let count = (count - processes as usize + self.emits[way]).min(MANY);
        match self.number {
            25 if self.plan.automaton.is_final(transition.to) && count > 0 => Err(Pending::LeftOver),
            26 if count > 8 => Err(Pending::TooMany),
            _ => Ok(count),
        }
    }

    /// The shortest word by width first search over states with counts.
    fn word(&self) -> Option<(Vec<usize>, u8, Pending)> {
        let initial = self.plan.automaton.initial;
        let mut seen = HashSet::from([(initial, 0)]);
        let mut met = vec![Met { state: initial, count: 0, length: 0, from: 0, way: 0 }];
        let mut waiting = VecDeque::from([0]);
        while let Some(at) = waiting.pop_front() {
            let (state, count, length) = (met[at].state, met[at].count, met[at].length);
            for (way, transition) in self.plan.automaton.transitions.iter().enumerate() {
                if transition.from != state || length == LONGEST_WORD {
                    continue;
                }
                match self.step(count, way) {
                    Err(end) if self.number == 26 && end != Pending::TooMany => return None,
                    Err(end) => return Some((word_to(&met, at, way), self.event, end)),
                    Ok(count) if seen.insert((transition.to, count)) => {
                        waiting.push_back(met.len());
                        met.push(Met { state: transition.to, count, length: length + 1, from: at, way });
                    }
                    Ok(_) => {}
                }
            }
        }
        None
    }
}

/// The steps to a place that was met, and one more.
fn word_to(met: &[Met], mut at: usize, last: usize) -> Vec<usize> {
    let mut word = vec![last];
    while at != 0 {
        word.push(met[at].way);
        at = met[at].from;
    }
    word.reverse();
    word
}
