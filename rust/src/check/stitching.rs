//! "Same outcomes, same stitching": two logs of one plan read side by side. "They started the same
//! nodes, and each node's start reading less Ψ differs between them by at most the slack."

use super::log::Log;
use super::told::{Identity, Told};
use crate::plan_file::Plan;
use crate::run::{Reply, Request};
use std::collections::BTreeMap;

/// "both ending in done"
pub fn ends_in_done(log: &Log) -> bool {
    log.calls.last().is_some_and(|entry| entry.reply == Reply::Done)
}

/// "processed outcomes in order": those of the transitions of the word that the log tells. Of a log
/// that ends in done, so that every report it counts was answered taken.
pub fn processed(plan: &Plan, log: &Log) -> Vec<u8> {
    let mut told = Told::nothing(plan);
    for entry in &log.calls {
        if let (Reply::Taken, Request::Outcome { position, node, outcome }) =
            (entry.reply, entry.call.request)
        {
            told.hear((position as u64, node), outcome);
        }
    }
    told.grow_all();
    told.word.iter().filter_map(|way| way.input).map(|(_, outcome)| outcome).collect()
}

#[derive(Clone, Copy)]
struct Started {
    activity: u8,
    less_psi: u64,
}

fn started(log: &Log) -> Result<BTreeMap<Identity, Started>, String> {
    let mut started = BTreeMap::new();
    for entry in &log.calls {
        let Reply::Start { position, activity, node } = entry.reply else { continue };
        let of = (position as u64, node);
        let reading = entry.call.reading;
        let less_psi = reading.checked_sub(log.opening.psi).ok_or(format!("{of:?} started before Ψ"))?;
        if started.insert(of, Started { activity, less_psi }).is_some() {
            return Err(format!("{of:?} started twice"));
        }
    }
    Ok(started)
}

/// The largest difference of two logs, or what is not the same in them.
pub fn difference(one: &Log, other: &Log) -> Result<u64, String> {
    let (first, second) = (started(one)?, started(other)?);
    if let Some(of) = second.keys().find(|of| !first.contains_key(of)) {
        return Err(format!("{of:?} started by the second alone"));
    }
    let mut largest = 0;
    for (of, here) in &first {
        let there = second.get(of).ok_or(format!("{of:?} started by the first alone"))?;
        if here.activity != there.activity {
            return Err(format!("{of:?} started with activities {} and {}", here.activity, there.activity));
        }
        let apart = here.less_psi.abs_diff(there.less_psi);
        if apart > one.opening.slack {
            return Err(format!("{of:?} started {apart} apart, the slack is {}", one.opening.slack));
        }
        largest = largest.max(apart);
    }
    Ok(largest)
}
