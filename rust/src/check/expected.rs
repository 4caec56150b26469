//! The reply that document 01 wants to each call, from the log before it and the combined
//! activity alone. Nothing is carried along but what the log tells: who was started, who was
//! reported, which outcomes were told.

use super::log::Log;
use super::ties::{turn, Turn};
use super::told::{Identity, Told};
use crate::plan_file::{Kind, Plan};
use crate::run::{Call, Opening, Reply, Request, Stop};
use crate::specified_times::NodeTime;
use crate::verdict::judge;
use crate::{Fault, HORIZON, LAST_POSITION};
use std::collections::BTreeSet;

pub struct Expected<'a> {
    opening: &'a Opening,
    told: Told<'a>,
    /// The loaded actions and events.
    loaded: Vec<NodeTime>,
    started: BTreeSet<Identity>,
    reported: BTreeSet<Identity>,
    last_reading: u64,
    stop: Option<Stop>,
    /// The most paths that one call loaded.
    most_paths: usize,
}

fn identity(node: &NodeTime) -> Identity {
    (node.position, node.node)
}

/// 30 to 33, in order.
fn opening_number(plan: &Plan, opening: &Opening) -> Option<Fault> {
    let short = |a: &Vec<crate::plan_file::Node>| {
        a.iter().any(|n| n.is_executed() && n.duration as u64 <= opening.slack)
    };
    if opening.availabilities.len() != plan.resources as usize {
        Some(Fault::new(30, 0))
    } else if opening.availabilities.iter().any(|&a| a > HORIZON) || opening.psi > HORIZON {
        Some(Fault::new(31, 0))
    } else if opening.slack == 0 || opening.slack > 1_000_000 {
        Some(Fault::new(32, 0))
    } else {
        plan.activities.iter().position(short).map(|activity| Fault::new(33, activity))
    }
}

impl<'a> Expected<'a> {
    /// The state of affairs after the opening, or its refusal.
    pub fn at_opening(plan: &'a Plan, opening: &'a Opening) -> Result<Expected<'a>, Fault> {
        if let Some(fault) = opening_number(plan, opening) {
            return Err(fault);
        }
        let mut expected = Expected {
            opening,
            told: Told::nothing(plan),
            loaded: Vec::new(),
            started: BTreeSet::new(),
            reported: BTreeSet::new(),
            last_reading: 0,
            stop: None,
            most_paths: 0,
        };
        expected.load_path().map_err(|number| Fault::new(number, 0))?;
        Ok(expected)
    }

    fn window(&self) -> impl Iterator<Item = &NodeTime> {
        self.loaded.iter().filter(|node| !self.reported.contains(&identity(node)))
    }

    /// One path: up to a waiting or final state. 44 over the whole of it, then 43.
    fn load_path(&mut self) -> Result<(), u8> {
        let mut longer = self.told.clone();
        while longer.grow() && !longer.waits() {}
        let availabilities = &self.opening.availabilities;
        let loaded = longer.executed(availabilities);
        let free = longer.combined.free(longer.plan, availabilities);
        let too_late = loaded.iter().any(|n| n.completion > HORIZON) || free.iter().any(|&f| f > HORIZON);
        if too_late || longer.word.len() as u64 > LAST_POSITION + 1 {
            return Err(44);
        }
        let unreported = loaded.iter().filter(|n| !self.reported.contains(&identity(n))).count();
        if unreported > 512 {
            return Err(43);
        }
        self.told = longer;
        self.loaded = loaded;
        Ok(())
    }

    /// "Order at a call: 50, kept stop, 51, 42, 41, 52 to 55." (50 never, from an opening.)
    pub fn reply(&mut self, call: Call) -> Reply {
        if let Some(stop) = self.stop {
            return Reply::Stopped(stop);
        }
        if call.reading < self.last_reading {
            return Reply::Refused(51);
        }
        let reply = match self.stop_at(call.reading) {
            Some(stop) => Reply::Stopped(stop),
            None => self.reply_in_time(call),
        };
        match reply {
            Reply::Refused(_) => return reply,
            Reply::Stopped(stop) => self.stop = Some(stop),
            _ => {}
        }
        self.last_reading = call.reading;
        reply
    }

    /// What decides among nodes of equal specified start: the kind that the node has in the combined
    /// activity, then position and node.
    fn tie_in_start(&self, n: &NodeTime) -> (Option<Turn>, Identity) {
        let combined = &self.told.combined;
        let member = combined.find(n.position, n.node);
        (member.map(|m| turn(combined.members[m].kind)), identity(n))
    }

    fn stop_at(&self, reading: u64) -> Option<Stop> {
        let (psi, slack) = (self.opening.psi, self.opening.slack);
        let is_started = |n: &NodeTime| self.started.contains(&identity(n));
        let overdue = |n: &&NodeTime| is_started(n) && reading >= psi + n.completion;
        let late = |n: &&NodeTime| !is_started(n) && reading > psi + n.start + slack;
        let named = |number, n: &NodeTime| Stop { number, node: Some((n.position as u32, n.node)) };
        let first_overdue = self.window().filter(overdue).min_by_key(|n| (n.completion, identity(n)));
        let first_late = self.window().filter(late).min_by_key(|n| (n.start, self.tie_in_start(n)));
        first_overdue.map(|n| named(42, n)).or(first_late.map(|n| named(41, n)))
    }

    fn reply_in_time(&mut self, call: Call) -> Reply {
        match call.request {
            Request::Ask => self.reply_to_ask(call.reading),
            Request::Completion { position, node } => self.reply_to_report((position, node), None),
            Request::Outcome { position, node, outcome } => {
                self.reply_to_report((position, node), Some(outcome))
            }
        }
    }

    fn reply_to_ask(&mut self, reading: u64) -> Reply {
        let due =
            |n: &&NodeTime| !self.started.contains(&identity(n)) && reading >= self.opening.psi + n.start;
        let first = self.window().filter(due).min_by_key(|n| (n.start, self.tie_in_start(n))).copied();
        if let Some(node) = first {
            self.started.insert(identity(&node));
            return Reply::Start { position: node.position as u32, activity: node.activity, node: node.node };
        }
        match self.told.has_ended() && self.window().next().is_none() {
            true => Reply::Done,
            false => Reply::Wait,
        }
    }

    fn reply_to_report(&mut self, (position, node): (u32, u8), outcome: Option<u8>) -> Reply {
        let named = (position as u64, node);
        let Some(found) = self.window().find(|n| identity(n) == named) else { return Reply::Refused(52) };
        let kind = self.told.plan.activities[found.activity as usize][node as usize].kind;
        if !self.started.contains(&named) {
            return Reply::Refused(53);
        }
        match (kind, outcome) {
            (Kind::Event(_), None) | (Kind::Action { .. }, Some(_)) => return Reply::Refused(54),
            (Kind::Event(e), Some(o)) if o >= self.told.plan.events[e as usize] => return Reply::Refused(55),
            _ => {}
        }
        self.reported.insert(named);
        match (kind, outcome) {
            // "Its report closes the node and is not queued."
            (Kind::Event(event), Some(_)) if self.told.plan.is_marker(event) => Reply::Taken,
            (Kind::Event(_), Some(outcome)) => self.queue(named, outcome),
            _ => Reply::Taken,
        }
    }

    /// The next path is loaded where its outcome is told, "and further ones while their outcomes are
    /// already reported".
    fn queue(&mut self, named: Identity, outcome: u8) -> Reply {
        self.told.hear(named, outcome);
        let mut paths = 0;
        while self.told.waits() && self.told.next().is_some() {
            if let Err(number) = self.load_path() {
                return Reply::Stopped(Stop { number, node: None });
            }
            paths += 1;
        }
        self.most_paths = self.most_paths.max(paths);
        Reply::Taken
    }
}

/// Whether every answer of a log is the one expected, and the window too where the log has it
/// (after a failed loading as well: "any path loaded before still count, and the failing path adds
/// nothing"). Gives the most paths that one call loaded.
pub fn check(log: &Log) -> Result<usize, String> {
    let plan = judge(&log.opening.plan);
    let opened =
        plan.as_ref().map_err(|&fault| fault).and_then(|plan| Expected::at_opening(plan, &log.opening));
    let mut expected = match (opened, log.answer) {
        (Ok(expected), Ok(())) => expected,
        (Err(fault), Err(answered)) if fault == answered => return all_get_50(log),
        (opened, answered) => {
            return Err(format!("opening answered {answered:?}, expected {:?}", opened.err()));
        }
    };
    for (index, entry) in log.calls.iter().enumerate() {
        let reply = expected.reply(entry.call);
        let window: Vec<NodeTime> = expected.window().copied().collect();
        if reply != entry.reply {
            return Err(format!(
                "call {index} {:?} answered {:?}, expected {reply:?}",
                entry.call, entry.reply
            ));
        }
        if entry.window.as_ref().is_some_and(|told| *told != window) {
            return Err(format!("call {index} {:?} left the window {:?}", entry.call, entry.window));
        }
    }
    Ok(expected.most_paths)
}

/// "A refused opening hands back a run of zeros, which gets 50."
fn all_get_50(log: &Log) -> Result<usize, String> {
    match log.calls.iter().find(|entry| entry.reply != Reply::Refused(50)) {
        Some(entry) => Err(format!("a run of zeros answered {:?}", entry.reply)),
        None => Ok(0),
    }
}
