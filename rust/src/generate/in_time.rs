//! Openings at which every resource is free at once, and the calls of a host that starts and reports every node in time.

use crate::generate::plan_t;
use crate::plan_file::{encode, read, Kind, Plan};
use crate::run::{Call, Opening, Reply, Request, Run};

pub fn opening_of(plan: &Plan) -> Opening {
    let availabilities = vec![0; plan.resources as usize];
    Opening { plan: encode(plan), psi: 1_000_000, slack: 500, availabilities }
}

pub fn plan_t_read() -> Plan {
    read(&plan_t()).expect("T reads")
}

/// The next call of a host that starts and reports every node in time; none at the end.
fn next_in_time(run: &Run, opening: &Opening) -> Option<Call> {
    let window = run.window();
    let start = window.iter().filter(|e| !e.started).map(|e| e.time.start).min();
    let end = window.iter().filter(|e| e.started).min_by_key(|e| e.time.completion);
    let Some(end) = end.filter(|e| start.is_none_or(|start| start >= e.time.completion)) else {
        return start.map(|start| Call { reading: opening.psi + start, request: Request::Ask });
    };
    let (position, node) = (end.time.position as u32, end.time.node);
    let kind = run.plan().activities[end.time.activity as usize][node as usize].kind;
    let request = match kind {
        Kind::Event(_) => Request::Outcome { position, node, outcome: 0 },
        _ => Request::Completion { position, node },
    };
    Some(Call { reading: opening.psi + end.time.completion - 1, request })
}

/// The first calls of such a host.
pub fn calls_in_time(opening: &Opening, count: usize) -> Vec<Call> {
    let (_, mut run) = Run::open(opening);
    let mut calls = Vec::new();
    while calls.len() < count {
        let Some(call) = next_in_time(&run, opening) else { break };
        let (reply, next) = run.call(call);
        assert!(matches!(reply, Reply::Start { .. } | Reply::Taken), "{reply:?}");
        run = next;
        calls.push(call);
    }
    calls
}
