//! "A run": opening, ask, completion, outcome. Each call takes the run and hands one back; a
//! refused call hands back the run it was given.

mod calls;
mod limits;
mod loading;
mod opening;

use crate::plan_file::{Plan, MOST_STATES};
use crate::specified_times::incremental::Shape;
use crate::specified_times::{Moment, NodeTime};
use std::collections::BTreeMap;
use std::sync::Arc;

/// What the host may send, each with a clock reading.
#[derive(Clone, Copy, Debug, PartialEq, Eq)]
pub enum Request {
    Ask,
    Completion { position: u32, node: u8 },
    Outcome { position: u32, node: u8, outcome: u8 },
}

#[derive(Clone, Copy, Debug, PartialEq, Eq)]
pub struct Call {
    pub reading: u64,
    pub request: Request,
}

/// A stop; 41 and 42 name a node by position and node, 43 and 44 none.
#[derive(Clone, Copy, Debug, PartialEq, Eq)]
pub struct Stop {
    pub number: u8,
    pub node: Option<(u32, u8)>,
}

/// "Replies: start (position, activity, node), wait, done, taken, refused, stopped."
#[derive(Clone, Copy, Debug, PartialEq, Eq)]
pub enum Reply {
    Start { position: u32, activity: u8, node: u8 },
    Wait,
    Done,
    Taken,
    Refused(u8),
    Stopped(Stop),
}

/// An entry of the window: a loaded action or event node not yet reported complete, at its place of
/// the 512.
#[derive(Clone, Copy, Debug, PartialEq, Eq)]
pub struct Entry {
    pub time: NodeTime,
    pub started: bool,
    pub place: usize,
}

/// "An opening gives a plan, Ψ, a slack of 1 to 1,000,000, and one availability, in specified
/// time, for each resource."
#[derive(Clone, Debug, PartialEq, Eq)]
pub struct Opening {
    pub plan: Vec<u8>,
    pub psi: u64,
    pub slack: u64,
    pub availabilities: Vec<u64>,
}

#[derive(Clone, Debug, Default, PartialEq, Eq)]
pub struct Run {
    /// The plan and the shapes never change; paths are tried on a copy of the rest.
    pub(crate) plan: Arc<Plan>,
    pub(crate) shapes: Arc<Vec<Shape>>,
    pub(crate) psi: u64,
    pub(crate) slack: u64,
    pub(crate) state: u8,
    pub(crate) next_position: u64,
    pub(crate) moment: Moment,
    /// Outcomes reported for instances not yet processed, by position and node.
    pub(crate) outcomes: BTreeMap<(u64, u8), u8>,
    /// The places that are held, from the lowest on.
    pub(crate) window: Vec<Entry>,
    pub(crate) stop: Option<Stop>,
    pub(crate) last_reading: u64,
}

impl Run {
    /// The window is "at most 512".
    pub const WINDOW: usize = 512;
    pub const LEAST_SLACK: u64 = 1;
    pub const MOST_SLACK: u64 = 1_000_000;
    /// An accepted plan waits or ends within as many transitions as it may have states. A made-up
    /// one may turn for ever; its path is ended there.
    const LONGEST_PATH: u64 = MOST_STATES;

    /// "A refused opening hands back a run of zeros, which gets 50."
    pub fn zeros() -> Run {
        Run::default()
    }

    /// "Adding the start time Ψ is the only way from one to the other."
    fn clock(&self, specified: u64) -> u64 {
        self.psi + specified
    }

    /// What the window holds, by position and node.
    pub fn window(&self) -> Vec<Entry> {
        let mut window = self.window.clone();
        window.sort_unstable_by_key(|entry| (entry.time.position, entry.time.node));
        window
    }

    /// "A node's identity is its position and its node number"; of two that are alike the one at the
    /// lowest place is meant.
    fn index_of(&self, position: u32, node: u8) -> Option<usize> {
        self.window.iter().position(|e| (e.time.position, e.time.node) == (position as u64, node))
    }

    /// The place of a node, or 512 where the window holds no such node.
    pub fn place_of(&self, position: u32, node: u8) -> usize {
        self.index_of(position, node).map_or(Run::WINDOW, |index| self.window[index].place)
    }

    pub fn last_reading(&self) -> u64 {
        self.last_reading
    }

    pub fn has_stopped(&self) -> bool {
        self.stop.is_some()
    }

    pub fn plan(&self) -> &Plan {
        &self.plan
    }
}
