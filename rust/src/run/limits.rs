//! 50: "a run in which a stored count, number or time lies outside this paper's or its plan's
//! limits". Limits, not consistency: other made-up runs get a reply.

use super::{Entry, Run, Stop};
use crate::plan_file::{is_in_limits, MOST_NODES};
use crate::specified_times::incremental::MOST_PENDING;
use crate::toggles::{broken, Broken};
use crate::{HORIZON, LAST_POSITION};

impl Run {
    pub(super) fn is_in_limits(&self) -> bool {
        // The slack is looked at first because a run of zeros has no plan to speak of.
        (Run::LEAST_SLACK..=Run::MOST_SLACK).contains(&self.slack)
            && self.psi <= HORIZON
            && is_in_limits(&self.plan)
            && self.state < self.plan.automaton.states
            // One past the last position is a good run, whose next loading is 44.
            && self.next_position <= LAST_POSITION + 1
            && self.moment_in_limits()
            && self.outcomes_in_limits()
            && self.window.len() <= Run::WINDOW
            && self.window.iter().all(|entry| self.entry_in_limits(entry))
            && self.stop.is_none_or(|stop| self.stop_in_limits(stop))
    }

    fn moment_in_limits(&self) -> bool {
        let moment = &self.moment;
        let events = self.plan.events.len();
        moment.availabilities.len() == self.plan.resources as usize
            && moment.availabilities.iter().all(|&time| time <= HORIZON)
            && moment.last_completions.len() == events
            && moment.last_completions.iter().all(|&time| time <= HORIZON)
            && moment.pending.len() == events
            && moment.pending.iter().all(|pending| pending.len() <= MOST_PENDING)
            // An instance is told apart by position and node alone, so these have the paper's limits.
            && moment.pending.iter().flatten().all(|instance| {
                instance.position <= LAST_POSITION
                    && (instance.node as u64) < MOST_NODES
                    && instance.completion <= HORIZON
            })
    }

    fn outcomes_in_limits(&self) -> bool {
        let pending = &self.moment.pending;
        pending.iter().enumerate().all(|(event, instances)| {
            instances.iter().all(|i| {
                let outcome = self.outcomes.get(&(i.position, i.node));
                outcome.is_none_or(|&outcome| outcome < self.plan.events[event])
            })
        })
    }

    fn names_a_node(&self, activity: u8, node: u8) -> bool {
        let nodes = self.plan.activities.get(activity as usize);
        nodes.is_some_and(|nodes| (node as usize) < nodes.len())
    }

    fn is_bare(&self, activity: u8, node: u8) -> bool {
        !self.plan.activities[activity as usize][node as usize].is_executed()
    }

    fn entry_in_limits(&self, entry: &Entry) -> bool {
        let time = entry.time;
        time.position <= LAST_POSITION
            // A claim or release is a node too: its numbers lie within the plan's limits.
            && self.names_a_node(time.activity, time.node)
            && !(broken(Broken::BareEntryIs50) && self.is_bare(time.activity, time.node))
            && time.start <= HORIZON
            && time.completion <= HORIZON
    }

    fn stop_in_limits(&self, stop: Stop) -> bool {
        match stop.node {
            // The stop does not say which activity, so the node's limit is the paper's.
            Some((position, node)) => {
                matches!(stop.number, 41 | 42)
                    && position as u64 <= LAST_POSITION
                    && (node as u64) < MOST_NODES
            }
            None => matches!(stop.number, 43 | 44),
        }
    }
}
