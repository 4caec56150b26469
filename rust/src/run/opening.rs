//! The opening: the plan is judged first, then 30 to 33, then 44 and 43 as refusals.

use super::{Opening, Run};
use crate::plan_file::Plan;
use crate::specified_times::{incremental::shapes, Moment};
use crate::toggles::{broken, Broken};
use crate::verdict::judge;
use crate::{Fault, HORIZON};
use std::sync::Arc;

impl Run {
    /// The answer and the run; a refused opening gives a run of zeros.
    pub fn open(opening: &Opening) -> (Result<(), Fault>, Run) {
        match Run::opened(opening) {
            Ok(run) => (Ok(()), run),
            Err(fault) => (Err(fault), Run::zeros()),
        }
    }

    fn opened(opening: &Opening) -> Result<Run, Fault> {
        let plan = judge(&opening.plan)?;
        check_opening(&plan, opening)?;
        let mut run = Run {
            psi: opening.psi,
            slack: opening.slack,
            state: plan.automaton.initial,
            shapes: Arc::new(shapes(&plan)),
            moment: Moment::at_opening(&plan, &opening.availabilities),
            plan: Arc::new(plan),
            ..Run::zeros()
        };
        // The initial state never waits: what it processed would not be pending (25).
        run.load_path(None).map_err(|number| Fault::new(number, 0))?;
        Ok(run)
    }
}

/// "30 wrong number of availabilities; 31 Ψ or one of them above 10^15; 32 slack; 33 an action or
/// event with duration not above the slack, place = lowest such activity."
fn check_opening(plan: &Plan, opening: &Opening) -> Result<(), Fault> {
    if opening.availabilities.len() != plan.resources as usize {
        return Err(Fault::new(30, 0));
    }
    if opening.psi > HORIZON || opening.availabilities.iter().any(|&a| a > HORIZON) {
        return Err(Fault::new(31, 0));
    }
    if opening.slack < Run::LEAST_SLACK || opening.slack > Run::MOST_SLACK {
        return Err(Fault::new(32, 0));
    }
    let used = |a: usize| plan.automaton.transitions.iter().any(|t| t.activity == Some(a as u8));
    for (place, activity) in plan.activities.iter().enumerate() {
        if broken(Broken::SlackNeverChecked) || broken(Broken::SlackOfUsedActivities) && !used(place) {
            continue;
        }
        if activity.iter().any(|n| n.is_executed() && n.duration as u64 <= opening.slack) {
            return Err(Fault::new(33, place));
        }
    }
    Ok(())
}
