//! Ask, completion and outcome. "Order at a call: 50, kept stop, 51, 42, 41, 52 to 55."

use super::{Call, Entry, Reply, Request, Run, Stop};
use crate::plan_file::{Kind, MOST_PERIPHERALS};
use crate::toggles::{broken, Broken};

/// What decides among entries of one time: the least comes first.
type Tie = [i64; 3];

/// "ties of stop 42 remain by position and node"
fn by_position(entry: &Entry) -> Tie {
    let (position, node) = (entry.time.position as i64, entry.time.node as i64);
    match broken(Broken::TiesByNodeFirst) {
        true => [0, node, position],
        false => [0, position, node],
    }
}

impl Run {
    pub fn ask(self, reading: u64) -> (Reply, Run) {
        self.call(Call { reading, request: Request::Ask })
    }

    pub fn completion(self, reading: u64, position: u32, node: u8) -> (Reply, Run) {
        self.call(Call { reading, request: Request::Completion { position, node } })
    }

    pub fn outcome(self, reading: u64, position: u32, node: u8, outcome: u8) -> (Reply, Run) {
        self.call(Call { reading, request: Request::Outcome { position, node, outcome } })
    }

    /// One call: the reply and the run after it.
    pub fn call(self, call: Call) -> (Reply, Run) {
        if !self.is_in_limits() {
            return (Reply::Refused(50), self);
        }
        let early = call.reading < self.last_reading;
        if broken(Broken::ReadingBeforeKeptStop) && early {
            return (Reply::Refused(51), self);
        }
        if let Some(stop) = self.stop {
            return (Reply::Stopped(stop), self);
        }
        if early {
            return (Reply::Refused(51), self);
        }
        if let Some(stop) = self.stop_at(call.reading) {
            return self.stopped(stop, call.reading);
        }
        match call.request {
            Request::Ask => self.answer_ask(call.reading),
            Request::Completion { position, node } => self.report(call.reading, (position, node), None),
            Request::Outcome { position, node, outcome } => {
                self.report(call.reading, (position, node), Some(outcome))
            }
        }
    }

    fn stopped(mut self, stop: Stop, reading: u64) -> (Reply, Run) {
        self.stop = Some(stop);
        self.last_reading = reading;
        (Reply::Stopped(stop), self)
    }

    fn refused(mut self, number: u8, reading: u64) -> (Reply, Run) {
        if broken(Broken::RefusalMovesReading) {
            self.last_reading = reading;
        }
        (Reply::Refused(number), self)
    }

    /// 42 before 41.
    fn stop_at(&self, reading: u64) -> Option<Stop> {
        if broken(Broken::LateBeforeOverdue) {
            return self.late(reading).or(self.overdue(reading));
        }
        self.overdue(reading).or(self.late(reading))
    }

    fn kind_of(&self, entry: &Entry) -> Kind {
        self.plan.activities[entry.time.activity as usize][entry.time.node as usize].kind
    }

    fn is_of_a_marker(&self, entry: &Entry) -> bool {
        matches!(self.kind_of(entry), Kind::Event(event) if self.plan.is_marker(event))
    }

    /// "by peripheral number, events after all actions". A made-up entry may name a claim or a release:
    /// it comes where events do.
    fn rank(&self, entry: &Entry) -> i64 {
        match self.kind_of(entry) {
            Kind::Action { peripheral, .. } if broken(Broken::HighPeripheralsFirst) => -(peripheral as i64),
            Kind::Action { peripheral, .. } => peripheral as i64,
            _ if broken(Broken::EventsFirst) => -1,
            _ => MOST_PERIPHERALS as i64,
        }
    }

    /// "Ties in specified start now go by peripheral number, events after all actions, then position,
    /// then node."
    fn by_peripheral(&self, entry: &Entry) -> Tie {
        let (rank, [_, position, node]) = (self.rank(entry), by_position(entry));
        match broken(Broken::PositionBeforePeripheral) {
            true => [position, rank, node],
            false => [rank, position, node],
        }
    }

    /// 42: "the reading is at or past Ψ + completion of a started, unreported node, naming the
    /// one with the earliest completion".
    fn overdue(&self, reading: u64) -> Option<Stop> {
        let extra = broken(Broken::OverdueOneLater) as u64;
        let passed_over = |e: &Entry| broken(Broken::MarkersNeverOverdue) && self.is_of_a_marker(e);
        let over =
            |e: &&Entry| e.started && reading >= self.clock(e.time.completion) + extra && !passed_over(e);
        let tie = |e: &Entry| match broken(Broken::OverdueByPeripheral) {
            true => self.by_peripheral(e),
            false => by_position(e),
        };
        let first = self.window.iter().filter(over).min_by_key(|e| (e.time.completion, tie(e)))?;
        Some(Stop { number: 42, node: Some((first.time.position as u32, first.time.node)) })
    }

    /// 41: "the reading exceeds Ψ + start + slack of an unstarted node, naming the one with the
    /// earliest start".
    fn late(&self, reading: u64) -> Option<Stop> {
        let extra = broken(Broken::LateAtTheSlack) as u64;
        let slack = if broken(Broken::LateWithoutSlack) { 0 } else { self.slack };
        let late = |e: &&Entry| !e.started && reading + extra > self.clock(e.time.start) + slack;
        let tie = |e: &Entry| match broken(Broken::LateByPosition) {
            true => by_position(e),
            false => self.by_peripheral(e),
        };
        let first = self.window.iter().filter(late).min_by_key(|e| (e.time.start, tie(e)))?;
        Some(Stop { number: 41, node: Some((first.time.position as u32, first.time.node)) })
    }

    /// The index of "the due, unstarted node with the earliest specified start".
    fn next_due(&self, reading: u64) -> Option<usize> {
        let again = broken(Broken::StartsTwice);
        let due = |e: &Entry| (!e.started || again) && reading >= self.clock(e.time.start);
        let entries = self.window.iter().enumerate().filter(|(_, e)| due(e));
        entries.min_by_key(|(_, e)| (e.time.start, self.by_peripheral(e))).map(|(index, _)| index)
    }

    /// "Ask starts the due, unstarted node with the earliest specified start".
    fn answer_ask(mut self, reading: u64) -> (Reply, Run) {
        self.last_reading = reading;
        if let Some(index) = self.next_due(reading) {
            self.window[index].started = true;
            let time = self.window[index].time;
            let position = time.position as u32;
            return (Reply::Start { position, activity: time.activity, node: time.node }, self);
        }
        // "It says done if the path ended in a final state and the window is empty, otherwise
        // wait when nothing is due."
        let closed = |e: &Entry| broken(Broken::DoneBeforeMarkers) && self.is_of_a_marker(e);
        let ended = self.plan.automaton.is_final(self.state) && self.window.iter().all(closed);
        match ended && !broken(Broken::WaitInsteadOfDone) {
            true => (Reply::Done, self),
            false => (Reply::Wait, self),
        }
    }

    /// Completion (no outcome) or outcome of a node, 52 to 55 looked for in order.
    fn report(self, reading: u64, (position, node): (u32, u8), outcome: Option<u8>) -> (Reply, Run) {
        let Some(index) = self.index_of(position, node) else {
            return self.refused(52, reading);
        };
        let entry = self.window[index];
        let kind = self.kind_of(&entry);
        // A made-up entry may name a claim or a release, which neither report fits.
        let fits = matches!((kind, outcome), (Kind::Action { .. }, None) | (Kind::Event(_), Some(_)));
        let mismatch = !fits && !(broken(Broken::MarkerCompletionTaken) && self.is_of_a_marker(&entry));
        if broken(Broken::KindBeforeStarted) && mismatch {
            return self.refused(54, reading);
        }
        if !entry.started {
            return self.refused(53, reading);
        }
        if mismatch {
            return self.refused(54, reading);
        }
        match (kind, outcome) {
            (Kind::Event(event), Some(outcome)) if self.lacks(event, outcome) => self.refused(55, reading),
            (Kind::Event(event), Some(outcome)) => self.accept_report(reading, index, Some((event, outcome))),
            _ => self.accept_report(reading, index, None),
        }
    }

    /// "An accepted report is taken; if loading after it fails the answer is stopped, the report
    /// and any path loaded before still count". A completion loads nothing: a path is loaded "in the
    /// call that reports the awaited outcome".
    fn accept_report(mut self, reading: u64, index: usize, told: Option<(u8, u8)>) -> (Reply, Run) {
        let before = broken(Broken::FailedReportForgotten).then(|| self.clone());
        self.last_reading = reading;
        let entry = self.window[index];
        if !broken(Broken::ReportedStillCounts) {
            // Its place is free before anything is loaded; the others keep theirs.
            self.window.remove(index);
        }
        if broken(Broken::WindowClosesUp) {
            self.window.iter_mut().filter(|e| e.place > entry.place).for_each(|e| e.place -= 1);
        }
        let loading = match told {
            Some((event, outcome)) => self.queue((entry.time.position, entry.time.node), event, outcome),
            None => Ok(()),
        };
        if broken(Broken::ReportedStillCounts) {
            self.window.retain(|e| e.time != entry.time);
        }
        match loading {
            Ok(()) => (Reply::Taken, self),
            Err(number) => before.unwrap_or(self).stopped(Stop { number, node: None }, reading),
        }
    }

    fn lacks(&self, event: u8, outcome: u8) -> bool {
        let is_any = broken(Broken::MarkerLacksNothing) && self.plan.is_marker(event);
        outcome >= self.plan.events[event as usize] && !is_any
    }

    /// What follows an outcome. Of a marker nothing does: "Its report closes the node and is not
    /// queued."
    fn queue(&mut self, node: (u64, u8), event: u8, outcome: u8) -> Result<(), u8> {
        let is_marker = self.plan.is_marker(event) && !broken(Broken::WaitsAtMarkers);
        if !is_marker || broken(Broken::MarkerKept) {
            self.keep_outcome(event, node, outcome);
        }
        match is_marker && !broken(Broken::MarkerLoads) {
            true => Ok(()),
            false => self.load_decided_paths(),
        }
    }

    /// An outcome is kept for the event's instance; a made-up entry may have none.
    fn keep_outcome(&mut self, event: u8, node: (u64, u8), outcome: u8) {
        let mut pending = self.moment.pending[event as usize].iter();
        if pending.any(|instance| (instance.position, instance.node) == node) {
            self.outcomes.insert(node, outcome);
        }
    }
}
