//! Judges a plan, and runs it against the host's clock: the proved library `libjidlekuvo.a` for hosts in Rust.
//! `docs/HOST.md` has what a host should know.
//!
//! What a host in C must promise, the borrow rules give: a run is lent to one call at a time, and the bytes of a
//! plan do not change while they are lent.

#![deny(unsafe_code, unsafe_op_in_unsafe_fn)]

mod faults;
#[allow(unsafe_code)]
mod library;
pub mod numbers;
mod replies;
#[cfg(test)]
mod tests;

pub use faults::{Fault, OpenError};
pub use numbers::Number;
pub use replies::{Refusal, Reply, Stop};

use std::fmt;

/// The verdict on a plan. The place of a fault is told up to 2^32 - 1.
pub fn judge(plan: &[u8]) -> Result<(), Fault> {
    faults::verdict(library::judge(plan))
}

/// A run of a plan. It may go to another thread between two calls: it refers to nothing but itself, and the library
/// has no data of its own.
pub struct Run {
    opened: Box<library::Opened>,
}

impl Run {
    /// Opens a run that starts at the clock reading `psi`, with one availability for each resource, in specified
    /// time. The run keeps the plan.
    pub fn open(plan: &[u8], psi: u64, slack: u64, available: &[u64]) -> Result<Run, OpenError> {
        let opened = library::open(plan, psi, slack, available);
        faults::opening(opened.reply())?;
        Ok(Run { opened })
    }

    /// What to start at this reading: start, wait or done. Ask again after each start: several nodes may be due.
    pub fn ask(&mut self, reading: u64) -> Reply {
        self.opened.ask(reading).into()
    }

    /// A started action is complete.
    pub fn completion(&mut self, reading: u64, position: u32, node: u8) -> Reply {
        self.opened.completion(reading, position, node).into()
    }

    /// The outcome of a started event, which completes it.
    pub fn outcome(&mut self, reading: u64, position: u32, node: u8, outcome: u8) -> Reply {
        self.opened.outcome(reading, position, node, outcome).into()
    }
}

impl fmt::Debug for Run {
    fn fmt(&self, to: &mut fmt::Formatter) -> fmt::Result {
        to.debug_struct("Run").finish_non_exhaustive()
    }
}
