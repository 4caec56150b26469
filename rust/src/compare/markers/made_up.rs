//! Calls of made-up runs, whose states may have several ways out for a marker, or one for an event of
//! several outcomes.

use super::{emitted, path_from, Kinds};
use crate::plan_file::{Kind, Transition};
use crate::run::{Call, Reply, Request, Run};
use crate::specified_times::incremental::MOST_PENDING;

const WITH_A_DECISION: &str = "reported where a decided path is not loaded";
const AT_A_BRANCH: &str = "reported at a state with several ways out for it";
const LEFT_BY_ANOTHER: &str = "a state with several ways out for it left by the report of another event";
const NOT_PENDING: &str = "a path processes what is not pending";
const OF_SEVERAL: &str = "the only way out is for an event of several outcomes";
const ENDLESS: &str = "a path ended after 64 transitions that process";

/// What made-up runs must show.
pub const OF_MADE_UP: &[&str] =
    &[WITH_A_DECISION, AT_A_BRANCH, LEFT_BY_ANOTHER, NOT_PENDING, OF_SEVERAL, ENDLESS];

/// A call that reports an outcome and is answered taken, with the runs before and after it.
struct Reported<'a> {
    before: &'a Run,
    after: &'a Run,
    /// Position and node.
    named: (u64, u8),
    event: u8,
    outcome: u8,
}

impl Reported<'_> {
    /// The transition that the outcomes of a run, with the one reported if it is queued, decide.
    fn decided(&self, is_queued: bool) -> Option<Transition> {
        let run = self.before;
        let event = run.plan.automaton.awaited_event(run.state)?;
        let oldest = run.moment.pending[event as usize].front()?;
        let oldest = (oldest.position, oldest.node);
        let reported = (is_queued && oldest == self.named).then_some(self.outcome);
        let outcome = reported.or(run.outcomes.get(&oldest).copied())?;
        let ways = run.plan.automaton.ways_out(run.state);
        ways.into_iter().find(|way| way.input == Some((event, outcome)))
    }

    fn of_marker(&self) -> Vec<&'static str> {
        let awaited = self.before.plan.automaton.awaited_event(self.before.state);
        let decided = self.decided(false).map(|_| WITH_A_DECISION);
        let branch = (awaited == Some(self.event)).then_some(AT_A_BRANCH);
        decided.into_iter().chain(branch).collect()
    }

    /// The first path that the call loaded.
    fn path(&self) -> Vec<Transition> {
        let loaded = self.after.next_position - self.before.next_position;
        let Some(first) = self.decided(true).filter(|_| loaded > 0) else { return vec![] };
        let others = path_from(&self.before.plan, first.to);
        [first].into_iter().chain(others).take(loaded as usize).collect()
    }

    fn of_path(&self) -> Vec<&'static str> {
        let plan = &self.before.plan;
        let path = self.path();
        let mut kinds = vec![];
        let mut pending: Vec<usize> = self.before.moment.pending.iter().map(|queue| queue.len()).collect();
        for (n, way) in path.iter().enumerate() {
            if let Some((event, _)) = way.input {
                let queue = &mut pending[event as usize];
                kinds.extend((*queue == 0).then_some(NOT_PENDING));
                *queue = queue.saturating_sub(1);
                kinds.extend((n > 0 && !plan.is_marker(event)).then_some(OF_SEVERAL));
                kinds.extend((n == 63).then_some(ENDLESS));
            }
            emitted(plan, way).for_each(|event| {
                pending[event as usize] = MOST_PENDING.min(pending[event as usize] + 1);
            });
        }
        let is_of_a_marker = |way: &Transition| way.input.is_some_and(|(event, _)| plan.is_marker(event));
        kinds.extend(path.first().is_some_and(is_of_a_marker).then_some(LEFT_BY_ANOTHER));
        kinds
    }
}

/// What a call of a run shows.
fn of_call(before: &Run, after: &Run, call: Call, reply: Reply) -> Vec<&'static str> {
    let (Reply::Taken, Request::Outcome { position, node, outcome }) = (reply, call.request) else {
        return vec![];
    };
    let named = (position as u64, node);
    let entry = before.window.iter().find(|entry| (entry.time.position, entry.time.node) == named);
    let kind = entry.map(|e| before.plan.activities[e.time.activity as usize][node as usize].kind);
    let Some(Kind::Event(event)) = kind else { return vec![] };
    let reported = Reported { before, after, named, event, outcome };
    match before.plan.is_marker(event) {
        true => reported.of_marker(),
        false => reported.of_path(),
    }
}

/// What two calls of a made-up run show.
pub fn of_calls(run: &Run, calls: [Call; 2]) -> Kinds {
    let mut kinds = Kinds::new();
    let mut before = run.clone();
    for call in calls {
        let (reply, after) = before.clone().call(call);
        kinds.extend(of_call(&before, &after, call, reply));
        before = after;
    }
    kinds
}
