//! Openings that are refused for a first path through markers.

use super::{passes_an_event, path_from, Kinds};
use crate::check::log::Log;
use crate::plan_file::{read, Plan, Transition};
use crate::run::Run;
use crate::specified_times::incremental::shapes;
use crate::specified_times::Moment;
use crate::HORIZON;

pub const TOO_MANY: &str = "43 at the opening, whose stretches fit";
pub const TOO_FAR: &str = "44 at the opening, but not before it";

/// The executed nodes of a path, counted anew from each transition that processes.
fn stretches(plan: &Plan, path: &[Transition]) -> Vec<usize> {
    let nodes = |way: &Transition| {
        way.activity.map_or(0, |a| plan.activities[a as usize].iter().filter(|n| n.is_executed()).count())
    };
    let mut stretches = vec![0];
    for way in path {
        if way.input.is_some() {
            stretches.push(0);
        }
        *stretches.last_mut().expect("there is one") += nodes(way);
    }
    stretches
}

/// Whether a path passes markers and does not fit beside so many nodes, though each of its stretches does.
pub fn has_too_many(plan: &Plan, path: &[Transition], beside: usize) -> bool {
    let stretches = stretches(plan, path);
    path.iter().any(|way| passes_an_event(plan, way))
        && beside + stretches.iter().sum::<usize>() > Run::WINDOW
        && stretches.iter().all(|nodes| beside + nodes <= Run::WINDOW)
}

/// Whether a first path that passes 10^15 does not do so up to its first marker.
fn is_near_at_first(plan: &Plan, path: &[Transition], availabilities: &[u64]) -> bool {
    let Some(first) = path.iter().position(|way| passes_an_event(plan, way)) else { return false };
    let (shapes, mut moment) = (shapes(plan), Moment::at_opening(plan, availabilities));
    (0..).zip(&path[..first]).all(|(position, way)| {
        let passed = moment.pass(plan, &shapes, way, position);
        moment = passed.moment;
        passed.latest <= HORIZON
    })
}

/// What a refused opening shows.
pub fn of_refusal(log: &Log) -> Kinds {
    let (Err(fault), Ok(plan)) = (log.answer, read(&log.opening.plan)) else { return Kinds::new() };
    let first_path = || path_from(&plan, plan.automaton.initial).collect::<Vec<_>>();
    let kind = match fault.number {
        43 if has_too_many(&plan, &first_path(), 0) => Some(TOO_MANY),
        44 if is_near_at_first(&plan, &first_path(), &log.opening.availabilities) => Some(TOO_FAR),
        _ => None,
    };
    kind.into_iter().collect()
}
