//! What a call is answered.

use crate::faults::tell;
use crate::library::{kind, HostReply};
use crate::Number;
use std::fmt;

#[derive(Clone, Copy, Debug, PartialEq, Eq)]
pub enum Reply {
    /// Start this node now.
    Start { position: u32, activity: u8, node: u8 },
    /// Nothing is due.
    Wait,
    /// The plan has ended, and everything was reported.
    Done,
    /// The report counts.
    Taken,
    /// The call changes nothing.
    Refused(Refusal),
    /// The run has stopped: every later call answers the same.
    Stopped(Stop),
}

/// Why a call is refused.
#[derive(Clone, Copy, Debug, PartialEq, Eq)]
#[repr(u8)]
pub enum Refusal {
    OutOfLimits = Number::OutOfLimits as u8,
    ReadingBelow = Number::ReadingBelow as u8,
    NoSuchNode = Number::NoSuchNode as u8,
    NotStarted = Number::NotStarted as u8,
    OtherKind = Number::OtherKind as u8,
    OutcomeLacking = Number::OutcomeLacking as u8,
}

/// Why a run has stopped, and the node that was late or overdue.
#[derive(Clone, Copy, Debug, PartialEq, Eq)]
pub enum Stop {
    Late { position: u32, node: u8 },
    Overdue { position: u32, node: u8 },
    Full,
    Beyond,
}

impl Refusal {
    const ALL: [Refusal; 6] = [
        Refusal::OutOfLimits,
        Refusal::ReadingBelow,
        Refusal::NoSuchNode,
        Refusal::NotStarted,
        Refusal::OtherKind,
        Refusal::OutcomeLacking,
    ];

    pub fn number(self) -> Number {
        Number::of(self as u8).expect("every refusal has a number")
    }
}

impl Stop {
    pub fn number(self) -> Number {
        match self {
            Stop::Late { .. } => Number::Late,
            Stop::Overdue { .. } => Number::Overdue,
            Stop::Full => Number::Full,
            Stop::Beyond => Number::Beyond,
        }
    }

    /// The node that was late or overdue, by position and node.
    pub fn node(self) -> Option<(u32, u8)> {
        match self {
            Stop::Late { position, node } | Stop::Overdue { position, node } => Some((position, node)),
            Stop::Full | Stop::Beyond => None,
        }
    }
}

impl From<HostReply> for Reply {
    fn from(told: HostReply) -> Reply {
        let HostReply { position, activity, node, .. } = told;
        match told.kind {
            kind::START => Reply::Start { position, activity, node },
            kind::WAIT => Reply::Wait,
            kind::DONE => Reply::Done,
            kind::TAKEN => Reply::Taken,
            kind::REFUSED => Reply::Refused(refusal(told)),
            kind::STOPPED => Reply::Stopped(stop(told)),
            _ => unreachable!("no call is answered {told:?}"),
        }
    }
}

fn refusal(told: HostReply) -> Refusal {
    let found = Refusal::ALL.into_iter().find(|refusal| *refusal as u8 == told.number);
    found.unwrap_or_else(|| unreachable!("no call is answered {told:?}"))
}

fn stop(told: HostReply) -> Stop {
    let HostReply { position, node, .. } = told;
    match Number::of(told.number) {
        Some(Number::Late) => Stop::Late { position, node },
        Some(Number::Overdue) => Stop::Overdue { position, node },
        Some(Number::Full) => Stop::Full,
        Some(Number::Beyond) => Stop::Beyond,
        _ => unreachable!("no call is answered {told:?}"),
    }
}

impl fmt::Display for Reply {
    fn fmt(&self, to: &mut fmt::Formatter) -> fmt::Result {
        match self {
            Reply::Start { position, activity, node } => {
                write!(to, "start position {position} activity {activity} node {node}")
            }
            Reply::Wait => to.write_str("wait"),
            Reply::Done => to.write_str("done"),
            Reply::Taken => to.write_str("taken"),
            Reply::Refused(refusal) => refusal.fmt(to),
            Reply::Stopped(stop) => stop.fmt(to),
        }
    }
}

impl fmt::Display for Refusal {
    fn fmt(&self, to: &mut fmt::Formatter) -> fmt::Result {
        write!(to, "refused {}", self.number())
    }
}

impl fmt::Display for Stop {
    fn fmt(&self, to: &mut fmt::Formatter) -> fmt::Result {
        to.write_str("stopped ")?;
        match self.node() {
            Some((position, node)) => {
                tell(to, self.number(), format_args!(" at position {position} node {node}"))
            }
            None => self.number().fmt(to),
        }
    }
}
