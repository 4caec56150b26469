//! Hosts that go in small steps, as the host's side of demand 3 wants it. A careful one keeps that
//! side; so do those whose faults are all refused (reports made twice, nonsense, readings that go
//! back). The late and the overdue one break one condition of it at a time.

use super::{Driver, Host, MOST_CALLS};
use crate::run::{Reply, Request};

/// The condition of the host's side that a round breaks.
#[derive(Clone, Copy, PartialEq, Eq)]
enum Slip {
    Step,
    Ask,
    Report,
}

impl Driver<'_> {
    /// A run whose resources are all far away would take too many steps.
    pub(super) fn is_paced(&mut self, host: Host) -> bool {
        let availabilities = &self.opening.availabilities;
        let far = !availabilities.is_empty() && availabilities.iter().all(|&a| a > 1_000_000);
        !far && match host {
            Host::Careful => true,
            Host::Exact | Host::Hasty => false,
            _ => self.random.one_in(2),
        }
    }

    /// Round after round until the run is over or enough calls are sent.
    pub(super) fn walk(&mut self, host: Host, most: usize) {
        let mut reading = self.first_reading(host);
        while !self.is_over() && self.calls.len() < most {
            let refused = matches!(host, Host::Twice | Host::Nonsense | Host::Backwards);
            if refused && !self.calls.is_empty() && self.random.one_in(2) {
                self.misbehave(host);
            }
            let slip = self.slip(host);
            reading = self.round(reading, slip);
        }
    }

    fn first_reading(&mut self, host: Host) -> u64 {
        let slack = self.opening.slack;
        let latest = self.opening.psi + slack;
        match self.random.below(4) {
            0 if host == Host::Late => latest + self.random.pick(&[1, 2, 5_000]),
            0 => latest,
            1 => self.opening.psi.saturating_sub(self.random.below(2 * slack as usize) as u64),
            _ => self.opening.psi + self.random.below(slack as usize + 1) as u64,
        }
    }

    fn slip(&mut self, host: Host) -> Option<Slip> {
        let rarity = self.rarity_of_faults(host);
        if !self.random.one_in(rarity) {
            return None;
        }
        match host {
            Host::Late => Some(self.random.pick(&[Slip::Step, Slip::Ask])),
            Host::Overdue => Some(Slip::Report),
            Host::Random => Some(self.random.pick(&[Slip::Step, Slip::Ask, Slip::Report])),
            _ => None,
        }
    }

    /// One round at a reading: asks until nothing is due, then reports; gives the next reading.
    fn round(&mut self, reading: u64, slip: Option<Slip>) -> u64 {
        loop {
            self.send(reading, Request::Ask);
            // The second half ends the round for a build that starts a node again and again.
            if !matches!(self.reply, Reply::Start { .. }) || self.calls.len() > MOST_CALLS {
                break;
            }
            if slip == Some(Slip::Ask) {
                break;
            }
            if self.random.one_in(4) {
                self.report_some(reading, reading);
            }
        }
        let slack = self.opening.slack;
        let next = match self.random.one_in(2) {
            _ if slip == Some(Slip::Step) => reading + slack + self.random.pick(&[1, 2, 5_000]),
            true => reading + slack,
            false => reading + self.random.between(1, slack as usize) as u64,
        };
        if slip != Some(Slip::Report) {
            self.report_some(reading, next);
        }
        next
    }

    /// Reports all that would be overdue at the next reading, and some others.
    fn report_some(&mut self, reading: u64, next: u64) {
        let mut started = self.started();
        self.random.shuffle(&mut started);
        for entry in started {
            if self.clock(entry.time.completion) <= next || self.random.one_in(4) {
                let report = self.report_of(&entry);
                self.send(reading, report);
            }
        }
    }
}
