//! 55 and 44 of a timetable: the outcome that the event lacks; the position whose completions pass 10^15.

use crate::names::{Names, Space};
use crate::toggles::{broken, Broken};
use jidlekuvo_reference::plan_file::{Plan, Transition};
use jidlekuvo_reference::{Fault, HORIZON};

/// Walks a plan by outcomes as a timetable does.
pub struct Walk<'a> {
    plan: &'a Plan,
    pub state: u8,
}

impl<'a> Walk<'a> {
    pub fn new(plan: &'a Plan) -> Walk<'a> {
        Walk { plan, state: plan.automaton.initial }
    }

    pub fn awaited(&self) -> Option<u8> {
        match broken(Broken::WalkWaitsAtMarkers) {
            true => self.plan.automaton.processed_event(self.state),
            false => self.plan.automaton.awaited_event(self.state),
        }
    }

    /// Takes the next transition: that of the outcome where the state waits, elsewhere the only one, whatever it
    /// processes. None where there is none.
    pub fn take(&mut self, outcome: Option<u8>) -> Option<usize> {
        let transitions = &self.plan.automaton.transitions;
        let awaited = self.awaited();
        let is_next = |way: &Transition| awaited.is_none() || way.input == awaited.zip(outcome);
        let way = transitions.iter().position(|way| way.from == self.state && is_next(way))?;
        self.state = transitions[way].to;
        Some(way)
    }

    /// Goes on to the next state that waits or ends, for as many steps as there are states at most.
    pub fn settle(&mut self) -> Option<u8> {
        for _ in 0..=self.plan.automaton.states {
            if self.awaited().is_some() || self.take(None).is_none() {
                break;
            }
        }
        self.awaited()
    }
}

/// The sentence for the line `refused` that closes a table; `latest` is the latest end of the rows before it.
pub fn explain(plan: &Plan, names: &Names, outcomes: &[u8], latest: u64, fault: Fault) -> Option<String> {
    match fault.number {
        55 => lacking(plan, names, outcomes, fault.place as usize),
        44 => far(plan, names, outcomes, latest, fault.place),
        _ => None,
    }
}

fn lacking(plan: &Plan, names: &Names, outcomes: &[u8], index: usize) -> Option<String> {
    let mut walk = Walk::new(plan);
    let mut event = walk.settle()?;
    for &outcome in &outcomes[..index.min(outcomes.len())] {
        walk.take(Some(outcome))?;
        event = walk.settle()?;
    }
    let value = *outcomes.get(index)?;
    if !is_lacking(plan, outcomes, index, walk.state, event) {
        return None;
    }
    let named = |o: u8| format!("{o} {}", names.of(Space::Outcome(event), o as usize));
    let known: Vec<String> = (0..plan.events[event as usize]).map(named).collect();
    let (state, event) =
        (names.of(Space::State, walk.state as usize), names.of(Space::Event, event as usize));
    Some(format!(
        "outcome {index} is {value}; state {state} waits for {event}, which has {}",
        known.join(", ")
    ))
}

/// The check: the transitions taken lead to the state, which waits for the event; the event lacks the outcome.
fn is_lacking(plan: &Plan, outcomes: &[u8], index: usize, state: u8, event: u8) -> bool {
    let mut at = plan.automaton.initial;
    let mut read = 0;
    for _ in 0..(index + 1) * 65 {
        let ways = plan.automaton.ways_out(at);
        let next = match ways.first() {
            Some(way) if ways.len() == 1 => way.to,
            Some(_) if read < index => {
                let Some(way) = ways.iter().find(|way| way.input.is_some_and(|(_, o)| o == outcomes[read]))
                else {
                    return false;
                };
                read += 1;
                way.to
            }
            Some(way) => {
                let awaits = at == state && way.input.is_some_and(|(e, _)| e == event);
                return awaits && outcomes[index] >= plan.events[event as usize];
            }
            None => return false,
        };
        at = next;
    }
    false
}

/// "44, place = the position": the activity there and the most that its nodes can add to the latest end so far.
fn far(plan: &Plan, names: &Names, outcomes: &[u8], latest: u64, position: u64) -> Option<String> {
    let mut walk = Walk::new(plan);
    let mut left = outcomes.iter();
    let mut way = None;
    for _ in 0..=position {
        let outcome = walk.awaited().and_then(|_| left.next().copied());
        way = Some(walk.take(outcome)?);
    }
    let activity = plan.automaton.transitions[way?].activity?;
    let adds: u64 = plan.activities[activity as usize].iter().map(|node| node.duration as u64).sum();
    let name = names.of(Space::Activity, activity as usize);
    let above = format!("position {position}, activity {name}: a completion would lie above {HORIZON}");
    (latest + adds > HORIZON).then(|| format!("{above}; the latest before it is {latest}"))
}
