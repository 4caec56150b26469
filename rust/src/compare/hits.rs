//! How often each number and each reply was hit.

use crate::check::host::HostSide;
use crate::check::log::{Answered, Log};
use crate::plan_file::{FieldKind, FIELD_KINDS};
use crate::run::Reply;
use std::collections::BTreeMap;

#[derive(Clone, Debug, Default)]
pub struct Hits {
    counts: BTreeMap<String, usize>,
}

impl Hits {
    pub fn hit(&mut self, what: impl Into<String>) {
        *self.counts.entry(what.into()).or_default() += 1;
    }

    /// The number of a verdict, or "accepted".
    pub fn verdict(&mut self, number: Option<u8>) {
        match number {
            Some(number) => self.hit(format!("number {number:02}")),
            None => self.hit("accepted"),
        }
    }

    /// A number of reading, and the kind of the field that has it.
    pub fn field(&mut self, number: u8, kind: FieldKind) {
        self.hit(field_line(number, kind));
    }

    /// Every answer of a log.
    pub fn log(&mut self, log: &Log) {
        match log.answer {
            Ok(()) => self.hit("opened"),
            Err(fault) => self.hit(format!("opening refused {:02}", fault.number)),
        }
        let mut stopped = false;
        for entry in &log.calls {
            match entry.reply {
                Reply::Stopped(_) if stopped => self.hit("kept stop"),
                reply => self.hit(name(reply)),
            }
            stopped |= matches!(entry.reply, Reply::Stopped(_));
        }
    }

    /// Whether the host of a log kept its side of demand 3, and how the list ended if it did.
    pub fn host_side(&mut self, log: &Log, side: HostSide) {
        if side.is_kept() {
            self.hit(KEPT);
            self.hit(format!("{KEPT}, {}", end(log)));
            if log.calls.iter().any(is_start) {
                self.hit(format!("{KEPT}, something started"));
            }
            if log.calls.iter().any(|entry| matches!(entry.reply, Reply::Refused(_))) {
                self.hit(format!("{KEPT}, with refused calls"));
            }
        }
        if let (Some(condition), Some(41 | 42)) = (side.only_broken(), stopped(log)) {
            self.hit(format!("41 or 42, host broke only: {condition}"));
        }
    }

    pub fn add(&mut self, other: &Hits) {
        for (what, count) in &other.counts {
            *self.counts.entry(what.clone()).or_default() += count;
        }
    }

    pub fn print(&self, title: &str) {
        println!("{title}");
        for (what, count) in &self.counts {
            println!("  {what:<48} {count:>9}");
        }
    }

    pub fn count(&self, what: &str) -> usize {
        self.counts.get(what).copied().unwrap_or(0)
    }

    /// What was never hit of a list.
    pub fn missing(&self, wanted: &[String]) -> Vec<String> {
        wanted.iter().filter(|what| !self.counts.contains_key(*what)).cloned().collect()
    }
}

/// The line of the lists whose host kept its side of demand 3.
pub const KEPT: &str = "host kept its side";

fn is_start(entry: &Answered) -> bool {
    matches!(entry.reply, Reply::Start { .. })
}

fn stopped(log: &Log) -> Option<u8> {
    log.calls.iter().find_map(|entry| match entry.reply {
        Reply::Stopped(stop) => Some(stop.number),
        _ => None,
    })
}

/// How a list ends. Those that start nothing are told apart, since 41 and 42 are far from them.
pub fn end(log: &Log) -> String {
    let is_done = log.calls.iter().any(|entry| entry.reply == Reply::Done);
    match stopped(log) {
        _ if !log.calls.iter().any(is_start) => "nothing started".into(),
        Some(number) => format!("stop {number}"),
        None if is_done => "done".into(),
        None => "cut short".into(),
    }
}

/// A reply's line in the table.
pub fn name(reply: Reply) -> String {
    match reply {
        Reply::Start { .. } => "start".into(),
        Reply::Wait => "wait".into(),
        Reply::Done => "done".into(),
        Reply::Taken => "taken".into(),
        Reply::Refused(number) => format!("refused {number}"),
        Reply::Stopped(stop) => format!("stopped {}", stop.number),
    }
}

fn field_line(number: u8, kind: FieldKind) -> String {
    format!("number {number:02} at {kind:?}")
}

/// Each of 1 to 8 at every kind of field that can have it.
pub fn wanted_of_fields() -> Vec<String> {
    let pairs = FIELD_KINDS.iter().flat_map(|(kind, numbers)| numbers.iter().map(|&number| (number, *kind)));
    pairs.map(|(number, kind)| field_line(number, kind)).collect()
}

/// The lines that a comparison of files must hit.
pub fn wanted_of_files() -> Vec<String> {
    let numbers = (1..=8).chain(11..=18).chain(21..=26);
    let mut wanted: Vec<String> = numbers.map(|n| format!("number {n:02}")).collect();
    wanted.push("accepted".into());
    wanted
}

/// The lines that a comparison of call lists must hit.
pub fn wanted_of_runs() -> Vec<String> {
    let openings = [30, 31, 32, 33, 43, 44].map(|n| format!("opening refused {n}"));
    let refusals = (50..=55).map(|n| format!("refused {n}"));
    let stops = (41..=44).map(|n| format!("stopped {n}"));
    let rest = ["opened", "start", "wait", "done", "taken", "kept stop"].map(String::from);
    let kept = ["done", "stop 43", "stop 44", "with refused calls"].map(|end| format!("{KEPT}, {end}"));
    openings.into_iter().chain(refusals).chain(stops).chain(rest).chain(kept).collect()
}
