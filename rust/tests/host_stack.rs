//! The stack that each function that a host links needs, on a painted stack: the deepest of several inputs. It must not be
//! above the figure of host/stack.txt, nor much below it: then the figure is out of date, or nothing was measured.

#![cfg(feature = "rattle_host")]

use jidlekuvo_reference::compare::host;
use jidlekuvo_reference::compare::stack::needed;
use jidlekuvo_reference::generate::in_time::{calls_in_time, opening_of, plan_t_read};
use jidlekuvo_reference::generate::markers::marked_path;
use jidlekuvo_reference::generate::plans::{largest_plan, loading_plan, longest_readable_plan, wide_plan};
use jidlekuvo_reference::plan_file::{encode, Plan};
use jidlekuvo_reference::run::{Call, Opening, Request};
use std::hint::black_box;

const TOLD: &str = include_str!("../../host/stack.txt");

/// The figure of a function, in bytes.
fn told(name: &str) -> usize {
    let line = TOLD.lines().find_map(|line| line.strip_prefix(name)?.strip_prefix(' '));
    line.and_then(|figure| figure.trim().parse().ok()).unwrap_or_else(|| panic!("{name} has no figure"))
}

fn plans() -> Vec<Plan> {
    let markers = marked_path(&[13, 13, 13, 12, 12, 12], true);
    vec![
        plan_t_read(),
        largest_plan(),
        longest_readable_plan(),
        wide_plan(511, 1),
        wide_plan(0, 75),
        loading_plan(&[62]),
        markers,
    ]
}

fn openings() -> Vec<Opening> {
    plans().iter().map(opening_of).collect()
}

/// What a host does in time, which reports and loads, and what is refused and stops.
fn calls_of(opening: &Opening) -> Vec<Call> {
    let mut calls = calls_in_time(opening, 8);
    let absent = [
        Request::Completion { position: 77, node: 1 },
        Request::Outcome { position: 77, node: 1, outcome: 0 },
    ];
    let reading = calls.last().map_or(0, |call| call.reading);
    calls.extend(absent.map(|request| Call { reading, request }));
    calls.push(Call { reading, request: Request::Ask });
    let end = u64::MAX;
    calls.extend(absent.map(|request| Call { reading: end, request }));
    calls.push(Call { reading: end, request: Request::Ask });
    calls
}

/// The depth of a call, made twice from the same run, and the run after it.
fn of_call(run: &mut Box<host::HeldOpened>, call: Call) -> usize {
    let (before, mut after) = (run.clone(), run.clone());
    let depth = needed(&mut || {
        after.run.0.copy_from_slice(&before.run.0);
        black_box(host::call(black_box(&mut after.run), black_box(call)));
    });
    *run = after;
    depth
}

/// The deepest ask, completion and outcome.
fn of_calls() -> [usize; 3] {
    let mut deepest = [0; 3];
    for opening in openings() {
        let mut opened = host::open(&opening);
        for call in calls_of(&opening) {
            let kind = match call.request {
                Request::Ask => 0,
                Request::Completion { .. } => 1,
                Request::Outcome { .. } => 2,
            };
            deepest[kind] = of_call(&mut opened, call).max(deepest[kind]);
        }
    }
    deepest
}

fn of_openings() -> usize {
    let of_one = |opening: Opening| {
        needed(&mut || {
            black_box(host::open(black_box(&opening)));
        })
    };
    openings().into_iter().map(of_one).max().expect("there are openings")
}

fn of_verdicts() -> usize {
    let of_one = |plan: Plan| {
        let bytes = encode(&plan);
        needed(&mut || {
            black_box(host::judge(black_box(&bytes)));
        })
    };
    plans().into_iter().map(of_one).max().expect("there are plans")
}

#[test]
fn no_function_needs_more_stack_than_is_told() {
    let [ask, completion, outcome] = of_calls();
    let measured = [
        ("jidlekuvo_judge", of_verdicts()),
        ("jidlekuvo_open", of_openings()),
        ("jidlekuvo_ask", ask),
        ("jidlekuvo_completion", completion),
        ("jidlekuvo_outcome", outcome),
    ];
    measured.iter().for_each(|(name, depth)| println!("{name} {depth}, told {}", told(name)));
    for (name, depth) in measured {
        assert!(depth <= told(name), "{name} needs {depth} bytes of stack, more than is told");
        assert!(depth * 8 >= told(name) * 7, "{name} needs {depth} bytes of stack, much less than is told");
    }
}
