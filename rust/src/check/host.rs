//! The host's side of demand 3: four conditions on the calls not refused. Where all four hold, no
//! answer is stop 41 or 42.

use super::log::Answered;
use crate::run::{Opening, Reply, Request};
use std::collections::BTreeSet;

/// A started node, as far as its host is concerned.
#[derive(Clone, Copy, Debug)]
pub struct StartedNode {
    /// In specified time.
    pub completion: u64,
    /// The index of the call that reported it, if one did.
    pub reported: Option<usize>,
}

/// Which of the four conditions hold.
#[derive(Clone, Copy, Debug, PartialEq, Eq)]
pub struct HostSide {
    /// The first reading is at most Ψ + slack.
    pub first_reading: bool,
    /// No reading is more than the slack above the one before.
    pub steps: bool,
    /// Before each rise some ask at the old reading has started nothing.
    pub asks: bool,
    /// Each started node is reported before any reading reaches Ψ + its completion.
    pub reports: bool,
}

impl HostSide {
    /// The conditions on a list of calls, or on its first calls, with the nodes that they started.
    pub fn of(opening: &Opening, calls: &[Answered], started: &[StartedNode]) -> HostSide {
        let unrefused: Vec<&Answered> = calls.iter().filter(|entry| !is_refused(entry)).collect();
        HostSide {
            first_reading: first_reading_is_early(opening, &unrefused),
            steps: steps_are_small(opening, &unrefused),
            asks: rises_follow_asks(&unrefused),
            reports: started.iter().all(|node| is_reported_in_time(opening, calls, node)),
        }
    }

    pub fn is_kept(self) -> bool {
        self.first_reading && self.steps && self.asks && self.reports
    }

    /// The condition that is broken, if it is the only one.
    pub fn only_broken(self) -> Option<&'static str> {
        match (self.first_reading, self.steps, self.asks, self.reports) {
            (false, true, true, true) => Some("first reading"),
            (true, false, true, true) => Some("steps"),
            (true, true, false, true) => Some("asks"),
            (true, true, true, false) => Some("reports"),
            _ => None,
        }
    }
}

fn is_refused(entry: &Answered) -> bool {
    matches!(entry.reply, Reply::Refused(_))
}

fn first_reading_is_early(opening: &Opening, unrefused: &[&Answered]) -> bool {
    unrefused.first().is_none_or(|entry| entry.call.reading <= opening.psi + opening.slack)
}

fn steps_are_small(opening: &Opening, unrefused: &[&Answered]) -> bool {
    let small = |old: u64, new: u64| new.saturating_sub(old) <= opening.slack;
    unrefused.windows(2).all(|pair| small(pair[0].call.reading, pair[1].call.reading))
}

/// Any ask before the rise will do; it has started nothing unless it is answered start, so a stop
/// counts as well. That is the weaker condition, and so the stronger claim.
fn rises_follow_asks(unrefused: &[&Answered]) -> bool {
    let mut quiet = BTreeSet::new();
    for pair in unrefused.windows(2) {
        let (old, new) = (pair[0].call.reading, pair[1].call.reading);
        if started_nothing(pair[0]) {
            quiet.insert(old);
        }
        if new > old && !quiet.contains(&old) {
            return false;
        }
    }
    true
}

fn started_nothing(entry: &Answered) -> bool {
    entry.call.request == Request::Ask && !matches!(entry.reply, Reply::Start { .. })
}

fn is_reported_in_time(opening: &Opening, calls: &[Answered], node: &StartedNode) -> bool {
    let end = opening.psi + node.completion;
    let reaches = |entry: &Answered| !is_refused(entry) && entry.call.reading >= end;
    match calls.iter().position(reaches) {
        None => true,
        Some(reached) => node.reported.is_some_and(|reported| reported < reached),
    }
}
