//! "Paths are loaded up to a waiting or final state; the next is loaded in the call that reports
//! the awaited outcome, and further ones while their outcomes are already reported."

use super::{Entry, Run};
use crate::plan_file::Transition;
use crate::specified_times::incremental::Instance;
use crate::specified_times::NodeTime;
use crate::toggles::{broken, Broken};
use crate::{HORIZON, LAST_POSITION};

impl Run {
    /// The event that the run's state waits for.
    fn awaited_event(&self) -> Option<u8> {
        let automaton = &self.plan.automaton;
        if broken(Broken::WaitsAtMarkers) {
            return automaton.processed_event(self.state);
        }
        if broken(Broken::WaitsByOutcomes) {
            return automaton.processed_event(self.state).filter(|&event| !self.plan.is_marker(event));
        }
        automaton.awaited_event(self.state)
    }

    /// At a waiting state the transition of the outcome reported for the event's oldest
    /// unprocessed instance, if it is reported.
    fn decided_transition(&self) -> Option<Transition> {
        let event = self.awaited_event()?;
        let mut oldest = self.moment.oldest(event)?;
        if broken(Broken::NewestOutcomeFirst) {
            let told = |i: &&Instance| self.outcomes.contains_key(&(i.position, i.node));
            oldest = *self.moment.pending[event as usize].iter().rfind(told)?;
        }
        let outcome = *self.outcomes.get(&(oldest.position, oldest.node))?;
        let ways = self.plan.automaton.ways_out(self.state);
        ways.into_iter().find(|t| t.input == Some((event, outcome)))
    }

    /// The only transition of a state that does not wait, whatever it processes.
    fn only_transition(&self) -> Option<Transition> {
        if self.awaited_event().is_some() {
            return None;
        }
        let way = self.plan.automaton.ways_out(self.state).first().copied()?;
        let lacks = |(event, _)| self.moment.oldest(event).is_none();
        match broken(Broken::EndsWithoutPending) && way.input.is_some_and(lacks) {
            true => None,
            false => Some(way),
        }
    }

    /// Takes one transition, whatever its times are; its nodes go onto the path. Gives the largest
    /// time.
    fn take(&mut self, way: &Transition, path: &mut Vec<NodeTime>) -> u64 {
        if let Some((event, _)) = way.input {
            if let Some(oldest) = self.moment.oldest(event) {
                self.outcomes.remove(&(oldest.position, oldest.node));
            }
        }
        let passed = self.moment.pass(&self.plan, &self.shapes, way, self.next_position);
        path.extend(passed.times);
        self.moment = passed.moment;
        self.state = way.to;
        self.next_position += 1;
        passed.latest
    }

    /// "the nodes of a new path, by position and then node, take the lowest free places"; those that
    /// are there keep theirs.
    fn place(&mut self, mut path: Vec<NodeTime>) {
        path.sort_by_key(|time| (time.position, time.node));
        let mut is_free = [true; Run::WINDOW];
        self.window.iter().for_each(|entry| is_free[entry.place] = false);
        let is_upwards = !broken(Broken::HighestPlaces);
        let places = (0..Run::WINDOW).map(|n| if is_upwards { n } else { Run::WINDOW - 1 - n });
        let placed = places.filter(|&place| is_free[place]).zip(path);
        self.window.extend(placed.map(|(place, time)| Entry { time, started: false, place }));
        self.window.sort_by_key(|entry| entry.place);
    }

    /// Loads a whole path, or refuses it by 44 or 43 and leaves the run as it was.
    pub(super) fn load_path(&mut self, first: Option<Transition>) -> Result<(), u8> {
        let mut loaded = self.clone();
        let mut path = Vec::new();
        let mut next = first.or_else(|| loaded.only_transition());
        let mut too_far = false;
        for _ in 0..Run::LONGEST_PATH + broken(Broken::EndlessOneLonger) as u64 {
            let Some(way) = next else { break };
            too_far |= loaded.next_position > LAST_POSITION;
            too_far |= loaded.take(&way, &mut path) > HORIZON;
            next = loaded.only_transition();
        }
        // "44 a completion or availability of the next path above 10^15, or a position above
        // 1,000,000,000; then 43 the window would pass 512", each over the whole path.
        let number = match loaded.window.len() + path.len() > Run::WINDOW {
            _ if too_far => 44,
            true => 43,
            false => {
                loaded.place(path);
                *self = loaded;
                return Ok(());
            }
        };
        if broken(Broken::FailingPathCounts) {
            loaded.place(path);
            self.state = loaded.state;
            self.window = loaded.window;
        }
        Err(number)
    }

    /// Loads every path whose outcome is reported. "if loading after it fails ... any path loaded
    /// before still count, and the failing path adds nothing."
    pub(super) fn load_decided_paths(&mut self) -> Result<(), u8> {
        while let Some(way) = self.decided_transition() {
            self.load_path(Some(way))?;
            if broken(Broken::OnePathPerCall) {
                break;
            }
        }
        Ok(())
    }
}
