//! Checks a finding on its own terms before it is printed: the arrows exist, no way leads between the two nodes, the
//! word is a path with these counts. Nothing is shared with the search.

use super::{Finding, Pending};
use jidlekuvo_reference::plan_file::{Activity, Kind, Node, Plan};
use jidlekuvo_reference::Fault;

pub fn holds(plan: &Plan, fault: Fault, finding: &Finding) -> bool {
    match finding {
        Finding::Word { transitions, event, end } => {
            let number = if *end == Pending::TooMany { 26 } else { 25 };
            fault == Fault::new(number, 0) && is_word(plan, transitions, *event, *end)
        }
        Finding::WayOut { .. }
        | Finding::Branch { .. }
        | Finding::MissingOutcome { .. }
        | Finding::Stuck { .. } => of_states(plan, fault, finding),
        _ => of_activity(plan, fault, finding),
    }
}

/// The nodes from which a node is reached by one or more arrows.
pub(super) fn all_before(nodes: &[Node], node: u8) -> Vec<u8> {
    let mut found: Vec<u8> = Vec::new();
    let mut open = vec![node];
    while let Some(at) = open.pop() {
        for &p in &nodes[at as usize].predecessors {
            if !found.contains(&p) {
                found.push(p);
                open.push(p);
            }
        }
    }
    found
}

fn of_activity(plan: &Plan, fault: Fault, finding: &Finding) -> bool {
    let Some(nodes) = plan.activities.get(fault.place as usize) else { return false };
    let kind = |n: u8| nodes[n as usize].kind;
    let (number, is_here) = match finding {
        Finding::Cycle { activity, nodes: cycle } => (if is_cycle(nodes, cycle) { 11 } else { 0 }, activity),
        Finding::Unordered { activity, one, other } => (unordered(nodes, *one, *other), activity),
        Finding::Twice { activity, one, other } => {
            let is_held = matches!(kind(*one), Kind::Claim(_) | Kind::Release(_));
            (if is_held && one != other && kind(*one) == kind(*other) { 13 } else { 0 }, activity)
        }
        Finding::NoClaimBefore { activity, node, resource } => {
            let is_claimed = all_before(nodes, *node).iter().any(|&n| kind(n) == Kind::Claim(*resource));
            (if is_claimed { 0 } else { needing(plan, kind(*node), *resource, true) }, activity)
        }
        Finding::NoReleaseAfter { activity, node, resource } => {
            let mut releases = (0..nodes.len() as u8).filter(|&n| kind(n) == Kind::Release(*resource));
            let is_released = releases.any(|release| all_before(nodes, release).contains(node));
            (if is_released { 0 } else { needing(plan, kind(*node), *resource, false) }, activity)
        }
        Finding::Arrow { activity, from, to } => {
            let is_bad = matches!(kind(*to), Kind::Claim(_)) || matches!(kind(*from), Kind::Release(_));
            let exists = nodes[*to as usize].predecessors.contains(from);
            (if is_bad && exists { 16 } else { 0 }, activity)
        }
        Finding::NoPredecessor { activity, node } => {
            let is_bare = nodes[*node as usize].predecessors.is_empty();
            (if is_bare && matches!(kind(*node), Kind::Event(_)) { 17 } else { 0 }, activity)
        }
        _ => return false,
    };
    fault == Fault::new(number, *is_here as usize)
}

/// The number that two unordered nodes give: 12 for actions on one peripheral, 18 for nodes of one event.
fn unordered(nodes: &Activity, one: u8, other: u8) -> u8 {
    if one == other || all_before(nodes, one).contains(&other) || all_before(nodes, other).contains(&one) {
        return 0;
    }
    match (nodes[one as usize].kind, nodes[other as usize].kind) {
        (Kind::Action { peripheral: a, .. }, Kind::Action { peripheral: b, .. }) if a == b => 12,
        (Kind::Event(a), Kind::Event(b)) if a == b => 18,
        _ => 0,
    }
}

fn is_cycle(nodes: &Activity, cycle: &[u8]) -> bool {
    if cycle.is_empty() {
        return false;
    }
    let next = |at: usize| cycle[(at + 1) % cycle.len()];
    (0..cycle.len()).all(|at| nodes[next(at) as usize].predecessors.contains(&cycle[at]))
}

/// The number that a node of this kind gives without a claim before it, or a release after it, of the resource.
fn needing(plan: &Plan, kind: Kind, resource: u8, claim: bool) -> u8 {
    match kind {
        Kind::Action { peripheral, .. } if plan.peripherals[peripheral as usize] == resource => 14,
        Kind::Release(named) if claim && named == resource => 15,
        Kind::Claim(named) if !claim && named == resource => 15,
        _ => 0,
    }
}

fn of_states(plan: &Plan, fault: Fault, finding: &Finding) -> bool {
    let transition = |way: usize| plan.automaton.transitions[way];
    let is_here = |state: u8| state as u64 == fault.place;
    match finding {
        Finding::WayOut { way } => {
            let from = transition(*way).from;
            fault.number == 21 && is_here(from) && plan.automaton.finals >> from & 1 == 1
        }
        Finding::Branch { one, other } => {
            let (a, b) = (transition(*one), transition(*other));
            let may_stand = a.input.is_some()
                && b.input.is_some()
                && a.input.map(|input| input.0) == b.input.map(|input| input.0)
                && a.input != b.input;
            fault.number == 22 && one != other && is_here(a.from) && is_here(b.from) && !may_stand
        }
        Finding::MissingOutcome { state, event, outcome } => {
            let here = || plan.automaton.transitions.iter().filter(|way| way.from == *state);
            let is_processed = here().any(|way| way.input.is_some_and(|input| input.0 == *event));
            let is_missing = !here().any(|way| way.input == Some((*event, *outcome)));
            let exists = *outcome < plan.events[*event as usize];
            fault.number == 23 && is_here(*state) && is_processed && is_missing && exists
        }
        Finding::Stuck { states } => {
            let is_in = |state: u8| states.contains(&state);
            let stays = plan.automaton.transitions.iter().all(|way| !is_in(way.from) || is_in(way.to));
            let none_final = states.iter().all(|state| plan.automaton.finals >> state & 1 == 0);
            fault.number == 24
                && states.iter().min().is_some_and(|&first| is_here(first))
                && stays
                && none_final
        }
        _ => false,
    }
}

/// Walks the word with the counts of every event: no step but the last may be at fault, and the last one must be.
fn is_word(plan: &Plan, word: &[usize], event: u8, end: Pending) -> bool {
    let mut state = plan.automaton.initial;
    let mut pending = vec![0i64; plan.events.len()];
    for (at, &way) in word.iter().enumerate() {
        let Some(transition) = plan.automaton.transitions.get(way) else { return false };
        if transition.from != state {
            return false;
        }
        state = transition.to;
        if let Some((processed, _)) = transition.input {
            pending[processed as usize] -= 1;
            if pending[processed as usize] < 0 {
                return end == Pending::Unsensed && processed == event && at + 1 == word.len();
            }
        }
        for node in transition.activity.iter().flat_map(|&a| &plan.activities[a as usize]) {
            if let Kind::Event(sensed) = node.kind {
                pending[sensed as usize] += 1;
            }
        }
    }
    let left = pending.get(event as usize).copied().unwrap_or(0);
    match end {
        Pending::Unsensed => false,
        Pending::LeftOver => plan.automaton.finals >> state & 1 == 1 && left > 0,
        Pending::TooMany => left > 8,
    }
}
