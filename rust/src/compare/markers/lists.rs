//! Call lists after an accepted opening, read off the log and its word.

use super::refusals::has_too_many;
use super::{emitted, is_decided, of_word, Kinds};
use crate::check::demand_3::Judged;
use crate::check::log::{Answered, Log};
use crate::plan_file::{Kind, Plan, Transition};
use crate::run::{Reply, Request};
use crate::specified_times::NodeTime;

pub const BEFORE_ITS_REPORT: &str = "processed before its report";
pub const AFTER_ITS_REPORT: &str = "processed after its report";
pub const SEVERAL_PENDING: &str = "several of one pending";
pub const COMPLETION: &str = "54 for its completion";
pub const LACKS: &str = "55 for another outcome";
pub const LATE: &str = "named by 41";
pub const OVERDUE: &str = "named by 42";
pub const DONE: &str = "wait, its report, done";
pub const TOO_MANY: &str = "43 at a call, whose stretches fit";

struct Reading<'a> {
    plan: &'a Plan,
    log: &'a Log,
    judged: &'a Judged,
}

impl Reading<'_> {
    /// The transitions that were loaded by the end.
    fn loaded(&self) -> &[Transition] {
        let length = self.judged.loaded.last().copied().unwrap_or(0);
        &self.judged.word[..length]
    }

    /// The event of a node of the word.
    fn event(&self, position: u64, node: u8) -> Option<u8> {
        let activity = self.judged.word.get(position as usize)?.activity?;
        match self.plan.activities[activity as usize].get(node as usize)?.kind {
            Kind::Event(event) => Some(event),
            _ => None,
        }
    }

    fn is_marker(&self, position: u32, node: u8) -> bool {
        self.event(position as u64, node).is_some_and(|event| self.plan.is_marker(event))
    }

    /// Whether some state that waits has several instances of one marker pending.
    fn of_pending(&self) -> Option<&'static str> {
        let mut pending = vec![0; self.plan.events.len()];
        for way in self.loaded() {
            if let Some((event, _)) = way.input {
                pending[event as usize] -= 1;
            }
            emitted(self.plan, way).for_each(|event| pending[event as usize] += 1);
            let of_a_marker = (0..).zip(&pending).any(|(e, &count)| count > 1 && self.plan.is_marker(e));
            if of_a_marker && self.plan.automaton.ways_out(way.to).len() > 1 {
                return Some(SEVERAL_PENDING);
            }
        }
        None
    }

    /// The instances of an event, oldest first: no two of them start together.
    fn instances(&self, event: u8) -> Vec<&NodeTime> {
        let executed = self.judged.executed.iter();
        let mut times: Vec<_> = executed.filter(|t| self.event(t.position, t.node) == Some(event)).collect();
        times.sort_by_key(|time| time.start);
        times
    }

    /// Which came first for each instance of a marker: the call that loaded what processes it, or its report.
    fn of_reports(&self, marker: u8) -> Vec<&'static str> {
        let processes = |way: &Transition| way.input.is_some_and(|(event, _)| event == marker);
        let word = self.loaded().iter().enumerate();
        let processed = word.filter(|(_, way)| processes(way)).map(|(position, _)| position);
        let compared = |(time, position): (&NodeTime, usize)| {
            let reported = *self.judged.reported.get(&(time.position, time.node))?;
            // The calls before which it was not loaded, the opening counted as one.
            let calls = self.judged.loaded.iter().take_while(|&&length| length <= position).count();
            Some(if calls <= reported { BEFORE_ITS_REPORT } else { AFTER_ITS_REPORT })
        };
        self.instances(marker).into_iter().zip(processed).filter_map(compared).collect()
    }

    fn of_answer(&self, entry: &Answered) -> Option<&'static str> {
        let (kind, (position, node)) = match (entry.reply, entry.call.request) {
            (Reply::Refused(54), Request::Completion { position, node }) => (COMPLETION, (position, node)),
            (Reply::Refused(55), Request::Outcome { position, node, .. }) => (LACKS, (position, node)),
            (Reply::Stopped(stop), _) if stop.number == 41 => (LATE, stop.node?),
            (Reply::Stopped(stop), _) if stop.number == 42 => (OVERDUE, stop.node?),
            _ => return None,
        };
        self.is_marker(position, node).then_some(kind)
    }

    /// Whether the last report before done is a marker's, with an ask before it that was answered wait.
    fn of_done(&self) -> Option<&'static str> {
        let calls = &self.log.calls;
        let done = calls.iter().position(|entry| entry.reply == Reply::Done)?;
        let report = calls[..done].iter().rposition(|entry| entry.reply == Reply::Taken)?;
        let Request::Outcome { position, node, .. } = calls[report].call.request else { return None };
        let mut earlier = calls[..report].iter().rev().take_while(|entry| entry.reply != Reply::Taken);
        let waited = earlier.any(|entry| entry.reply == Reply::Wait);
        (waited && self.is_marker(position, node)).then_some(DONE)
    }

    /// Whether a call failed to load a path through markers.
    fn of_failure(&self) -> Option<&'static str> {
        let failed = |entry: &Answered| matches!(entry.reply, Reply::Stopped(stop) if stop.number == 43);
        let call = self.log.calls.iter().position(failed)?;
        let (before, rest) = self.judged.word.split_at(self.judged.loaded[call]);
        let others = rest.iter().skip(1).take_while(|way| !is_decided(self.plan, way));
        let path: Vec<Transition> = rest.iter().take(1).chain(others).copied().collect();
        let is_beside = |time: &&NodeTime| {
            let is_reported = self.judged.reported.contains_key(&(time.position, time.node));
            (time.position as usize) < before.len() && !is_reported
        };
        let beside = self.judged.executed.iter().filter(is_beside).count();
        has_too_many(self.plan, &path, beside).then_some(TOO_MANY)
    }
}

/// What a list shows whose opening was accepted.
pub fn of_log(plan: &Plan, log: &Log, judged: &Judged) -> Kinds {
    let reading = Reading { plan, log, judged };
    let markers = (0..plan.events.len() as u8).filter(|&event| plan.is_marker(event));
    let mut kinds: Kinds = markers.flat_map(|marker| reading.of_reports(marker)).collect();
    kinds.extend(of_word(plan, reading.loaded()));
    kinds.extend(log.calls.iter().filter_map(|entry| reading.of_answer(entry)));
    kinds.extend([reading.of_pending(), reading.of_done(), reading.of_failure()].into_iter().flatten());
    kinds
}
