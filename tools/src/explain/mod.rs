//! A sentence for each refusal. A search finds what breaks the rule, a second function that shares nothing with it
//! checks the finding, and only then it is worded; otherwise the number has its general sentence (host/numbers.txt).

mod activities;
mod chain;
mod check;
pub mod fields;
pub mod opening;
pub mod outcomes;
pub mod pending;
mod probe;
mod states;
mod wording;

use crate::names::Names;
use jidlekuvo_reference::plan_file::{read, Plan};
use jidlekuvo_reference::Fault;

/// What breaks the rule of a number from 11 to 26. Nodes, states and events by number, transitions by their order.
#[derive(Clone, Debug, PartialEq, Eq)]
pub enum Finding {
    Cycle { activity: u8, nodes: Vec<u8> },
    Unordered { activity: u8, one: u8, other: u8 },
    Twice { activity: u8, one: u8, other: u8 },
    NoClaimBefore { activity: u8, node: u8, resource: u8 },
    NoReleaseAfter { activity: u8, node: u8, resource: u8 },
    Arrow { activity: u8, from: u8, to: u8 },
    NoPredecessor { activity: u8, node: u8 },
    WayOut { way: usize },
    Branch { one: usize, other: usize },
    MissingOutcome { state: u8, event: u8, outcome: u8 },
    Stuck { states: Vec<u8> },
    Word { transitions: Vec<usize>, event: u8, end: Pending },
}

/// How a word ends in a fault.
#[derive(Clone, Copy, Debug, PartialEq, Eq)]
pub enum Pending {
    /// The last transition processes what was not emitted.
    Unsensed,
    /// It ends in a final state with something left.
    LeftOver,
    /// More than 8 are pending.
    TooMany,
}

/// The sentence for a refused plan file, 1 to 26; None where no finding passes its check.
pub fn explain(bytes: &[u8], names: &Names, fault: Fault) -> Option<String> {
    if fault.number <= 8 {
        let field = fields::field_at(bytes, fault.place as usize)?;
        return probe::holds(bytes, fault, &field).then(|| field.said(names, bytes.len()));
    }
    let plan = read(bytes).ok()?;
    let finding = find(&plan, fault)?;
    check::holds(&plan, fault, &finding).then(|| wording::sentence(&plan, names, fault, &finding))
}

/// What breaks the rule of a number from 11 to 26.
pub fn find(plan: &Plan, fault: Fault) -> Option<Finding> {
    let place = u8::try_from(fault.place).ok()?;
    match fault.number {
        11..=18 => activities::find(plan, place, fault.number),
        21..=24 => states::find(plan, place, fault.number),
        25 | 26 => pending::find(plan, fault.number),
        _ => None,
    }
}
