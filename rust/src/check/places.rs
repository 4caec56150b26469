//! Where nodes stand, read off the records of a list that asks for places after the opening and after
//! every call (`generate/questions.rs`): "A node keeps its place from its loading to its report; the
//! nodes of a new path, by position and then node, take the lowest free places, one just reported
//! included." Any build's records will do.

use crate::drive::{decode, Part, RECORD};
use crate::plan_file::{read, Kind, Plan};
use crate::run::{Call, Request, Run};
use std::collections::{BTreeMap, BTreeSet};

/// What a list of questions can show.
pub const USED_AGAIN: &str = "a place is used again";
pub const SEVERAL_GAPS: &str = "new nodes go into several gaps";
pub const ABSENT: &str = "512 for an absent node";
pub const REFUSED: &str = "512 after a refused opening";
pub const KEPT_OVER_43: &str = "places kept over a failed loading (43)";
pub const KEPT_OVER_44: &str = "places kept over a failed loading (44)";
pub const LOADED_BEFORE: &str = "a path loaded before one that fails";
pub const MARKER_LEFT: &str = "nothing comes with a marker's report";

type Identity = (u32, u8);

/// What may change with the opening or a call.
#[derive(Clone, Copy, Default)]
struct Step {
    /// The node whose report counts.
    reported: Option<Identity>,
    /// Whether a path may have been loaded.
    loads: bool,
    /// 43 or 44, where loading failed.
    failed: Option<u8>,
    /// Whether the opening was refused.
    refused: bool,
}

#[derive(Default)]
struct Places {
    step: Step,
    /// What was held where before the step.
    held: BTreeMap<Identity, usize>,
    /// What the questions after it told.
    told: BTreeMap<Identity, usize>,
    /// The places that reported nodes left.
    left: BTreeSet<usize>,
    plan: Plan,
    /// The activities with which nodes were started.
    started: BTreeMap<Identity, u8>,
    has_stopped: bool,
    seen: Vec<&'static str>,
}

/// "start, wait, done, taken, refused, stopped" as a record has it: whether the call's report counts,
/// and the number of the stop that the call brought.
fn accepted(record: &[u8], had_stopped: bool) -> (bool, Option<u8>) {
    let failed = (record[0] == 6 && !had_stopped && record[1] >= 43).then_some(record[1]);
    (record[0] == 4 || failed.is_some(), failed)
}

impl Places {
    fn is_marker(&self, node: Identity) -> bool {
        let nodes = self.started.get(&node).and_then(|&a| self.plan.activities.get(a as usize));
        let kind = nodes.and_then(|nodes| nodes.get(node.1 as usize)).map(|node| node.kind);
        matches!(kind, Some(Kind::Event(event)) if self.plan.is_marker(event))
    }

    fn call(&mut self, call: Call, record: &[u8]) {
        if record[0] == 1 {
            let position = u32::from_le_bytes(record[4..8].try_into().expect("four bytes"));
            self.started.insert((position, record[2]), record[1]);
        }
        let (counts, failed) = accepted(record, self.has_stopped);
        let refused = self.step.refused;
        self.step = match call.request {
            Request::Completion { position, node } if counts => {
                Step { reported: Some((position, node)), loads: false, failed, refused }
            }
            Request::Outcome { position, node, .. } if counts => {
                let is_marker = self.is_marker((position, node));
                self.seen.extend(is_marker.then_some(MARKER_LEFT));
                Step { reported: Some((position, node)), loads: !is_marker, failed, refused }
            }
            _ => Step { refused, ..Step::default() },
        };
        self.has_stopped |= record[0] == 6;
    }

    fn question(&mut self, node: Identity, record: &[u8]) -> Result<(), String> {
        let place = u64::from_le_bytes(record[8..].try_into().expect("eight bytes")) as usize;
        if record[..8] != [7, 0, 0, 0, 0, 0, 0, 0] || place > Run::WINDOW {
            return Err(format!("no place: {record:?}"));
        }
        match place < Run::WINDOW {
            true => drop(self.told.insert(node, place)),
            false => self.seen.push(if self.step.refused { REFUSED } else { ABSENT }),
        }
        Ok(())
    }

    /// After the last question of a step.
    fn settle(&mut self) -> Result<(), String> {
        let mut kept = std::mem::take(&mut self.held);
        if let Some(place) = self.step.reported.and_then(|node| kept.remove(&node)) {
            self.left.insert(place);
        }
        for (node, place) in &kept {
            if self.told.get(node) != Some(place) {
                return Err(format!("{node:?} stood at {place}, then {:?}", self.told.get(node)));
            }
        }
        let fresh: Vec<_> = self.told.iter().filter(|(node, _)| !kept.contains_key(node)).collect();
        if !fresh.is_empty() && !self.step.loads {
            return Err(format!("{fresh:?} came where nothing is loaded"));
        }
        let is_held: BTreeSet<usize> = kept.values().copied().collect();
        let lowest = (0..Run::WINDOW).filter(|place| !is_held.contains(place));
        if let Some((new, place)) = fresh.iter().zip(lowest).find(|((_, told), place)| *told != place) {
            return Err(format!("{new:?} for the lowest free place, {place}"));
        }
        let at: Vec<usize> = fresh.iter().map(|(_, place)| **place).collect();
        self.seen.extend(seen(self.step, !kept.is_empty(), &at, &self.left));
        self.held = std::mem::take(&mut self.told);
        Ok(())
    }
}

fn seen(step: Step, some_kept: bool, fresh: &[usize], left: &BTreeSet<usize>) -> Vec<&'static str> {
    let kept_over = if step.failed == Some(43) { KEPT_OVER_43 } else { KEPT_OVER_44 };
    let all = [
        (USED_AGAIN, fresh.iter().any(|place| left.contains(place))),
        (SEVERAL_GAPS, fresh.windows(2).any(|pair| pair[1] != pair[0] + 1)),
        (kept_over, step.failed.is_some() && some_kept),
        (LOADED_BEFORE, step.failed.is_some() && !fresh.is_empty()),
    ];
    all.into_iter().filter(|(_, is_so)| *is_so).map(|(what, _)| what).collect()
}

/// What the records of such a list show, or where they break the rule.
pub fn check(input: &[u8], records: &[u8]) -> Result<Vec<&'static str>, String> {
    let Some((opening, parts)) = decode(input) else { return Ok(vec![]) };
    let mut records = records.chunks_exact(RECORD);
    let is_open = records.next().is_some_and(|record| record[0] == 0);
    let step = Step { loads: is_open, refused: !is_open, ..Step::default() };
    let plan = read(&opening.plan).unwrap_or_default();
    let mut places = Places { step, plan, ..Places::default() };
    for (part, record) in parts.into_iter().zip(records) {
        match part {
            Part::Place { position, node } => places.question((position, node), record)?,
            Part::Call(call) => {
                places.settle()?;
                places.call(call, record);
            }
        }
    }
    places.settle()?;
    Ok(places.seen)
}
