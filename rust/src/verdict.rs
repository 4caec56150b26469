//! The whole verdict on a plan's bytes: reading, then activities in order, then the automaton.

use crate::activity_rules::judge_activities;
use crate::automaton_rules::judge_automaton;
use crate::plan_file::{read, Plan};
use crate::Fault;

/// The accepted plan, or the number and place of the refusal.
pub fn judge(bytes: &[u8]) -> Result<Plan, Fault> {
    let plan = read(bytes)?;
    judge_activities(&plan)?;
    judge_automaton(&plan)?;
    Ok(plan)
}

/// Reading and activities only.
pub fn read_and_judge_activities(bytes: &[u8]) -> Result<Plan, Fault> {
    let plan = read(bytes)?;
    judge_activities(&plan)?;
    Ok(plan)
}
