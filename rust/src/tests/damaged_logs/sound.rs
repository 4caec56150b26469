//! Correct logs, and what is looked up in them.

use crate::check::demand_3;
use crate::check::log::{record, Answered, Log};
use crate::check::told::Told;
use crate::drive::{calls_among, decode};
use crate::generate::Random;
use crate::plan_file::{Kind, Plan};
use crate::run::{Reply, Request};
use crate::specified_times::{Combined, NodeTime};
use crate::verdict::judge;

/// A correct log of an accepted opening, with what its word says.
pub struct Sound {
    pub plan: Plan,
    pub log: Log,
    pub combined: Combined,
    pub times: Vec<NodeTime>,
    pub host_kept_its_side: bool,
}

impl Sound {
    pub fn of(input: &[u8]) -> Result<Option<Sound>, String> {
        let Some((opening, parts)) = decode(input) else { return Ok(None) };
        let log = record(&opening, &calls_among(&parts))?;
        let (Ok(()), Ok(plan)) = (log.answer, judge(&opening.plan)) else { return Ok(None) };
        let judged = demand_3::judged(&plan, &log);
        if let Some(breach) = judged.breaches.first() {
            return Err(breach.told());
        }
        let mut told = Told::nothing(&plan);
        for entry in log.calls.iter().filter(|entry| entry.reply == Reply::Taken) {
            if let Request::Outcome { position, node, outcome } = entry.call.request {
                told.hear((position as u64, node), outcome);
            }
        }
        told.grow_all();
        let (combined, times) = (told.combined.clone(), told.executed(&opening.availabilities));
        let host_kept_its_side = judged.host.is_kept();
        Ok(Some(Sound { plan, log, combined, times, host_kept_its_side }))
    }

    /// The calls answered start, with the times of what they started.
    pub fn starts(&self) -> Vec<(usize, NodeTime)> {
        let started = |(index, entry): (usize, &Answered)| match entry.reply {
            Reply::Start { position, node, .. } => {
                let is_it = |n: &&NodeTime| (n.position, n.node) == (position as u64, node);
                self.times.iter().find(is_it).map(|time| (index, *time))
            }
            _ => None,
        };
        self.log.calls.iter().enumerate().filter_map(started).collect()
    }

    pub fn start(&self, random: &mut Random) -> Option<(usize, NodeTime)> {
        one_of(random, &self.starts())
    }

    /// The calls whose answer meets a condition.
    pub fn answered(&self, wanted: impl Fn(Reply) -> bool) -> Vec<usize> {
        (0..self.log.calls.len()).filter(|&index| wanted(self.log.calls[index].reply)).collect()
    }

    /// A log of other calls, without windows: those say what the undamaged calls did.
    pub fn with(&self, calls: Vec<Answered>) -> Log {
        let calls = calls.into_iter().map(|entry| Answered { window: None, ..entry }).collect();
        Log { window: None, calls, ..self.log.clone() }
    }

    /// The log up to a call, which is changed.
    pub fn up_to(&self, index: usize, change: impl FnOnce(&mut Answered)) -> Log {
        let mut calls = self.log.calls[..=index].to_vec();
        change(&mut calls[index]);
        self.with(calls)
    }

    /// What the window held before a call.
    pub fn window_before(&self, index: usize) -> &[NodeTime] {
        let window = match index {
            0 => &self.log.window,
            _ => &self.log.calls[index - 1].window,
        };
        window.as_deref().unwrap_or(&[])
    }

    pub fn is_marker(&self, time: &NodeTime) -> bool {
        let kind = self.plan.activities[time.activity as usize][time.node as usize].kind;
        matches!(kind, Kind::Event(event) if self.plan.is_marker(event))
    }

    pub fn is_before(&self, earlier: NodeTime, later: NodeTime) -> bool {
        let member = |n: NodeTime| self.combined.find(n.position, n.node);
        let (Some(earlier), Some(later)) = (member(earlier), member(later)) else { return false };
        self.combined.all_before(later)[earlier]
    }
}

pub fn one_of<T: Copy>(random: &mut Random, from: &[T]) -> Option<T> {
    (!from.is_empty()).then(|| random.pick(from))
}

/// The accepted reports before a call, with the times of what they report.
pub fn reports(sound: &Sound, before: usize) -> Vec<(usize, NodeTime)> {
    let reported = |index: &usize| match sound.log.calls[*index].call.request {
        Request::Completion { position, node } | Request::Outcome { position, node, .. } => {
            let is_it = |n: &&NodeTime| (n.position, n.node) == (position as u64, node);
            sound.times.iter().find(is_it).map(|time| (*index, *time))
        }
        Request::Ask => None,
    };
    let taken = sound.answered(|reply| reply == Reply::Taken);
    taken.iter().filter(|index| **index < before).filter_map(reported).collect()
}
