//! Plans for the benchmarks.

use jidlekuvo_reference::generate::plans::dense_activity;
use jidlekuvo_reference::plan_file::{Automaton, Kind, Plan, Transition};

fn action(n: usize) -> (Kind, u32) {
    (Kind::Action { number: n as u8, peripheral: 0 }, 5_000)
}

fn way(from: u8, to: u8, input: Option<(u8, u8)>, activity: u8) -> Transition {
    Transition { from, to, input, activity: Some(activity) }
}

/// 10 activities of 10 nodes, 20 states: every other activity emits an event of two outcomes, of
/// which one goes back.
pub fn typical_plan() -> Plan {
    let mut plan = Plan { resources: 2, peripherals: vec![0, 1], events: vec![2; 5], ..Plan::default() };
    for a in 0..10 {
        let mut executed: Vec<(Kind, u32)> = (0..8).map(action).collect();
        if a < 5 {
            executed[7] = (Kind::Event(a), 5_000);
        }
        plan.activities.push(dense_activity(0, &executed));
    }
    let mut automaton = Automaton { states: 20, initial: 0, finals: 1 << 19, transitions: vec![] };
    for pair in 0..9u8 {
        let (from, event) = (2 * pair, pair % 5);
        automaton.transitions.push(way(from, from + 1, None, event));
        automaton.transitions.push(way(from + 1, from + 2, Some((event, 0)), 5 + event));
        automaton.transitions.push(way(from + 1, from, Some((event, 1)), 5 + event));
    }
    automaton.transitions.push(way(18, 19, None, 9));
    plan.automaton = automaton;
    plan
}

/// So many activities of 64 nodes with eight predecessors wherever there are eight nodes before.
pub fn plan_of_dense_activities(count: usize) -> Plan {
    let executed: Vec<(Kind, u32)> = (0..62).map(action).collect();
    Plan {
        resources: 1,
        peripherals: vec![0],
        activities: vec![dense_activity(0, &executed); count],
        automaton: Automaton { states: 1, initial: 0, finals: 1, transitions: vec![] },
        ..Plan::default()
    }
}
