//! Call lists from hosts of every kind. A host looks at the run it drives to find the moments that
//! matter; what it sends is then replayed on both builds.

mod paced;
mod settled;

pub use settled::{settled_calls, Settled, SETTLED_HOSTS};

use super::Random;
use crate::plan_file::Kind;
use crate::run::{Call, Entry, Opening, Reply, Request, Run};
use crate::specified_times::NodeTime;

#[derive(Clone, Copy, Debug, PartialEq, Eq)]
pub enum Host {
    /// Small steps, asks until nothing is due, reports in time: keeps its side of demand 3.
    Careful,
    /// Jumps from one moment that matters to the next, in time.
    Exact,
    /// Asks too late now and then: begins late, steps too far, or moves on while a node is due.
    Late,
    /// Reports at or after the completion now and then.
    Overdue,
    /// Reports again what it reported.
    Twice,
    /// Reports nodes that are not there, not started, of the other kind, with outcomes the
    /// event lacks.
    Nonsense,
    /// Sends readings below the last one.
    Backwards,
    /// Anything.
    Random,
    /// Asks at the very start of each node and reports it at once. Not one of HOSTS.
    Hasty,
}

pub const HOSTS: [Host; 8] = [
    Host::Careful,
    Host::Exact,
    Host::Late,
    Host::Overdue,
    Host::Twice,
    Host::Nonsense,
    Host::Backwards,
    Host::Random,
];

/// No list grows longer than this.
const MOST_CALLS: usize = 4_000;

struct Driver<'a> {
    random: &'a mut Random,
    run: Run,
    opening: &'a Opening,
    calls: Vec<Call>,
    reply: Reply,
    /// Identity and outcome of the last accepted report.
    reported: Option<Request>,
    /// The outcomes to report, where they are settled.
    settled: Option<Settled>,
}

impl<'a> Driver<'a> {
    fn of(random: &'a mut Random, opening: &'a Opening, run: Run) -> Driver<'a> {
        Driver { random, run, opening, calls: vec![], reply: Reply::Wait, reported: None, settled: None }
    }

    fn send(&mut self, reading: u64, request: Request) {
        let call = Call { reading, request };
        self.calls.push(call);
        let (reply, run) = std::mem::take(&mut self.run).call(call);
        self.run = run;
        self.reply = reply;
        if reply == Reply::Taken {
            self.reported = Some(request);
        }
    }

    fn clock(&self, specified: u64) -> u64 {
        self.opening.psi.saturating_add(specified)
    }

    /// A report of the kind the node wants; events get one of their outcomes.
    fn report_of(&mut self, entry: &Entry) -> Request {
        let time = entry.time;
        let (position, node) = (time.position as u32, time.node);
        let plan = self.run.plan();
        match plan.activities[time.activity as usize][node as usize].kind {
            Kind::Event(event) => {
                let outcomes = plan.events[event as usize] as usize;
                let outcome = match self.settled {
                    Some(settled) => settled.outcome(position, node, outcomes),
                    None => self.random.below(outcomes) as u8,
                };
                Request::Outcome { position, node, outcome }
            }
            _ => Request::Completion { position, node },
        }
    }

    fn started(&self) -> Vec<Entry> {
        self.run.window().into_iter().filter(|entry| entry.started).collect()
    }

    /// An event that is started: 54 and 55 are about these.
    fn started_event(&mut self) -> Option<Entry> {
        let kind = |time: NodeTime| self.run.plan.activities[time.activity as usize][time.node as usize].kind;
        let is_event = |entry: &Entry| matches!(kind(entry.time), Kind::Event(_));
        let started: Vec<Entry> = self.started().into_iter().filter(is_event).collect();
        (!started.is_empty()).then(|| self.random.pick(&started))
    }

    /// The earliest start still to come and the earliest completion still unreported, on the clock.
    fn moments(&self) -> (Option<u64>, Option<(u64, Entry)>) {
        let window = self.run.window();
        let starts = window.iter().filter(|e| !e.started).map(|e| self.clock(e.time.start));
        let ends = window.iter().filter(|e| e.started).map(|e| (self.clock(e.time.completion), *e));
        (starts.min(), ends.min_by_key(|(end, _)| *end))
    }

    /// One call in time: the next start is asked for, or the next completion reported before it.
    fn exact_step(&mut self) {
        let last = self.run.last_reading();
        let slack = self.opening.slack as usize;
        match self.moments() {
            (None, None) => self.send(last, Request::Ask),
            (Some(start), end) if end.as_ref().is_none_or(|(end, _)| start < *end) => {
                let late = if self.random.one_in(3) { self.random.between(0, slack) as u64 } else { 0 };
                let most = end.map_or(u64::MAX, |(end, _)| end - 1);
                let reading = start.saturating_add(late).min(most).max(last);
                self.send(reading, Request::Ask);
            }
            (_, Some((end, entry))) => {
                let report = self.report_of(&entry);
                let early = if self.random.one_in(2) { self.random.below(500) as u64 } else { 0 };
                self.send((end - 1).saturating_sub(early).max(last), report);
            }
            (Some(_), None) => unreachable!("the guard above takes it"),
        }
    }

    fn early_report(&mut self) {
        let last = self.run.last_reading();
        let started = self.started();
        if !started.is_empty() {
            let entry = self.random.pick(&started);
            let report = self.report_of(&entry);
            self.send(last, report);
        }
    }

    fn misbehave(&mut self, host: Host) {
        let last = self.run.last_reading();
        let (start, end) = self.moments();
        let slack = self.opening.slack;
        match host {
            Host::Late => {
                let beyond = self.random.pick(&[0, 1, 1, 2, 5_000]);
                let reading = start.map_or(last, |s| s.saturating_add(slack + beyond));
                self.send(reading.max(last), Request::Ask);
            }
            Host::Overdue => {
                let Some((end, entry)) = end else { return };
                let beyond = self.random.pick(&[0, 0, 1, 5_000]);
                let report = if self.random.one_in(3) { Request::Ask } else { self.report_of(&entry) };
                self.send(end.saturating_add(beyond).max(last), report);
            }
            Host::Twice => {
                if let Some(report) = self.reported {
                    self.send(last, report);
                }
            }
            Host::Nonsense => {
                let report = self.nonsense();
                self.send(last, report);
            }
            Host::Backwards => {
                let back = self.random.pick(&[1, 1, 1000, u64::MAX]);
                let request = if self.random.one_in(2) { Request::Ask } else { self.nonsense() };
                self.send(last.saturating_sub(back), request);
            }
            _ => {}
        }
    }

    /// A report that may be wrong in every way.
    fn nonsense(&mut self) -> Request {
        let window = self.run.window();
        if window.is_empty() || self.random.one_in(4) {
            let position = self.random.pick(&[0, 1, 2, 1_000_000_000, u32::MAX]);
            let node = self.random.pick(&[0, 1, 2, 63, 64, 255]);
            return Request::Outcome { position, node, outcome: self.random.below(9) as u8 };
        }
        let (entry, most) = match self.started_event() {
            Some(event) if self.random.one_in(2) => (event, 2),
            _ => (self.random.pick(&window), 5),
        };
        let report = self.report_of(&entry);
        let (position, node) = (entry.time.position as u32, entry.time.node);
        match self.random.below(most) {
            0 => Request::Completion { position, node },
            1 => Request::Outcome { position, node, outcome: self.random.pick(&[0, 1, 7, 8, 255]) },
            2 => Request::Completion { position: position + 1, node: node ^ 1 },
            3 => Request::Completion { position, node: self.random.below(8) as u8 },
            _ => report,
        }
    }

    fn random_step(&mut self) {
        let host = self.random.pick(&HOSTS);
        match self.random.below(6) {
            0 => self.misbehave(host),
            1 => {
                let request = self.nonsense();
                let reading = self.run.last_reading().saturating_add(self.random.below(3000) as u64);
                self.send(reading, request);
            }
            2 if self.random.one_in(20) => self.send(u64::MAX, Request::Ask),
            _ => self.exact_step(),
        }
    }

    fn is_over(&self) -> bool {
        self.run.has_stopped() || self.reply == Reply::Done || self.reply == Reply::Refused(50)
    }

    /// To the end, or until enough calls are sent. What comes after the end, or after a stop, is answered
    /// too.
    fn go(&mut self, host: Host, most: usize) {
        if self.is_paced(host) {
            self.walk(host, most);
        }
        while !self.is_over() && self.calls.len() < most {
            self.step(host);
        }
        for _ in 0..self.random.below(4) {
            let back = self.random.one_in(3) as u64;
            let reading = self.run.last_reading().saturating_sub(back);
            let request = if self.random.one_in(2) { Request::Ask } else { self.nonsense() };
            self.send(reading, request);
        }
    }

    /// One step in so many has a fault. Hosts are late or overdue more often where several nodes tie.
    fn rarity_of_faults(&self, host: Host) -> usize {
        let window = self.run.window.iter();
        let times: Vec<u64> = match host {
            Host::Late => window.filter(|e| !e.started).map(|e| e.time.start).collect(),
            Host::Overdue => window.filter(|e| e.started).map(|e| e.time.completion).collect(),
            _ => vec![],
        };
        let first = times.iter().min();
        match times.iter().filter(|time| Some(*time) == first).count() > 1 {
            true => 2,
            false => 8,
        }
    }

    fn step(&mut self, host: Host) {
        let rarity = self.rarity_of_faults(host);
        match host {
            Host::Random => self.random_step(),
            Host::Exact => self.exact_step(),
            Host::Hasty => self.hasty_step(),
            _ if self.random.one_in(rarity) => self.misbehave(host),
            _ => self.exact_step(),
        }
        if host != Host::Careful && self.random.one_in(4) {
            self.early_report();
        }
    }
}

/// The calls of a host, about as many as asked for.
pub fn calls(random: &mut Random, opening: &Opening, host: Host, most: usize) -> Vec<Call> {
    let (answer, run) = Run::open(opening);
    let mut driver = Driver::of(random, opening, run);
    match answer {
        Ok(()) => driver.go(host, most),
        Err(_) => {
            (0..2).for_each(|n| driver.send(n * 7, Request::Ask));
            driver.send(9, Request::Completion { position: 0, node: 0 });
        }
    }
    driver.calls
}
