//! Hosts of one plan with the same outcomes: each instance has its own, settled beforehand, whichever
//! host reports it and whenever.

use super::{Driver, Host};
use crate::generate::Random;
use crate::run::{Call, Opening, Request, Run};

/// The hosts of such a list. None of them is stopped; they differ in when they ask and report.
pub const SETTLED_HOSTS: [Host; 4] = [Host::Careful, Host::Hasty, Host::Exact, Host::Twice];

#[derive(Clone, Copy, Debug)]
pub struct Settled {
    pub seed: u64,
    /// The instance, by position and node, whose outcome is the next one instead.
    pub changed: Option<(u32, u8)>,
}

impl Settled {
    /// The outcome of an instance whose event has so many.
    pub(super) fn outcome(self, position: u32, node: u8, outcomes: usize) -> u8 {
        let instance = (position as u64) << 8 | node as u64;
        let usual = Random::new(self.seed ^ instance.rotate_left(24)).below(outcomes);
        let further = (self.changed == Some((position, node))) as usize;
        ((usual + further) % outcomes) as u8
    }
}

/// The calls of a host after an opening that is accepted, about as many as asked for; an ask is the last.
pub fn settled_calls(
    random: &mut Random,
    opening: &Opening,
    host: Host,
    settled: Settled,
    most: usize,
) -> Vec<Call> {
    let mut driver = Driver::of(random, opening, Run::open(opening).1);
    driver.settled = Some(settled);
    driver.go(host, most);
    let reading = driver.run.last_reading();
    driver.send(reading, Request::Ask);
    driver.calls
}

impl Driver<'_> {
    /// Reports what is started, at once; otherwise asks at the very start of the next node.
    pub(super) fn hasty_step(&mut self) {
        let last = self.run.last_reading();
        match (self.started().first(), self.moments().0) {
            (Some(entry), _) => {
                let report = self.report_of(entry);
                self.send(last, report);
            }
            (None, start) => self.send(start.unwrap_or(last).max(last), Request::Ask),
        }
    }
}
