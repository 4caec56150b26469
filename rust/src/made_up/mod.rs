//! A run that no opening made, and two calls of it, as bytes: the form in which both builds answer
//! it. Every value has a fixed place, numbers are lowest byte first, and what lies past a count is
//! zeros. The order is that of the parts below; bytes past the end count as 0.

pub mod limits;

use crate::drive::{reply_record, RECORD};
use crate::plan_file::{Automaton, Kind, Node, Plan, Transition};
use crate::run::{Call, Entry, Reply, Request, Run, Stop};

const BYTES_OF_NODE: usize = 16;
const BYTES_OF_TRANSITION: usize = 7;
const BYTES_OF_INSTANCE: usize = 15;
const BYTES_OF_ENTRY: usize = 23;
const BYTES_OF_CALL: usize = 15;
/// The answer: a record for each call.
pub const ANSWER: usize = 2 * RECORD;

/// Room for so many values of one size: those there are, cut to the room, then zeros.
fn array<T>(out: &mut Vec<u8>, room: usize, size: usize, values: &[T], encode: impl Fn(&T, &mut Vec<u8>)) {
    let start = out.len();
    values.iter().take(room).for_each(|value| encode(value, out));
    out.resize(start + room * size, 0);
}

fn bytes(out: &mut Vec<u8>, room: usize, values: &[u8]) {
    array(out, room, 1, values, |&value, out| out.push(value));
}

fn times(out: &mut Vec<u8>, room: usize, values: &[u64]) {
    array(out, room, 8, values, |value, out| out.extend(value.to_le_bytes()));
}

fn node(node: &Node, out: &mut Vec<u8>) {
    out.extend(match node.kind {
        Kind::Action { number, peripheral } => [0, number, peripheral],
        Kind::Claim(resource) => [1, resource, 0],
        Kind::Release(resource) => [2, resource, 0],
        Kind::Event(event) => [3, event, 0],
    });
    out.extend(node.duration.to_le_bytes());
    out.push(node.predecessors.len() as u8);
    bytes(out, 8, &node.predecessors);
}

fn transition(way: &Transition, out: &mut Vec<u8>) {
    out.extend([way.from, way.to]);
    out.extend(way.input.map_or([0, 0, 0], |(event, outcome)| [1, event, outcome]));
    out.extend(way.activity.map_or([0, 0], |activity| [1, activity]));
}

fn automaton(automaton: &Automaton, out: &mut Vec<u8>) {
    out.extend([automaton.states, automaton.initial]);
    out.extend(automaton.finals.to_le_bytes());
    out.extend((automaton.transitions.len() as u16).to_le_bytes());
    array(out, 256, BYTES_OF_TRANSITION, &automaton.transitions, transition);
}

/// Resource count, peripherals, events, activities, automaton.
fn plan(plan: &Plan, out: &mut Vec<u8>) {
    out.extend([plan.resources, plan.peripherals.len() as u8]);
    bytes(out, 64, &plan.peripherals);
    out.push(plan.events.len() as u8);
    bytes(out, 16, &plan.events);
    out.push(plan.activities.len() as u8);
    let sizes: Vec<u8> = plan.activities.iter().map(|nodes| nodes.len() as u8).collect();
    bytes(out, 32, &sizes);
    let of_activity = 64 * BYTES_OF_NODE;
    array(out, 32, of_activity, &plan.activities, |nodes, out| array(out, 64, BYTES_OF_NODE, nodes, node));
    automaton(&plan.automaton, out);
}

/// Availabilities, last completions, pending instances with what was told of them, next position,
/// state.
fn progress(run: &Run, out: &mut Vec<u8>) {
    let moment = &run.moment;
    times(out, 16, &moment.availabilities);
    times(out, 16, &moment.last_completions);
    let lengths: Vec<u8> = moment.pending.iter().map(|pending| pending.len() as u8).collect();
    bytes(out, 16, &lengths);
    array(out, 16, 8 * BYTES_OF_INSTANCE, &moment.pending, |pending, out| {
        let pending: Vec<_> = pending.iter().copied().collect();
        array(out, 8, BYTES_OF_INSTANCE, &pending, |instance, out| {
            out.extend((instance.position as u32).to_le_bytes());
            out.push(instance.node);
            out.extend(instance.completion.to_le_bytes());
            let told = run.outcomes.get(&(instance.position, instance.node));
            out.extend(told.map_or([0, 0], |&outcome| [1, outcome]));
        });
    });
    out.extend((run.next_position as u32).to_le_bytes());
    out.push(run.state);
}

fn entry(entry: &Entry, out: &mut Vec<u8>) {
    let time = entry.time;
    out.push(1 + entry.started as u8);
    out.extend((time.position as u32).to_le_bytes());
    out.extend([time.activity, time.node]);
    out.extend(time.start.to_le_bytes());
    out.extend(time.completion.to_le_bytes());
}

/// Each entry at its place; a free place is zeros.
fn window(run: &Run, out: &mut Vec<u8>) {
    let start = out.len();
    for held in &run.window {
        out.resize(start + held.place * BYTES_OF_ENTRY, 0);
        entry(held, out);
    }
    out.resize(start + Run::WINDOW * BYTES_OF_ENTRY, 0);
}

fn stop(stop: Option<Stop>, out: &mut Vec<u8>) {
    let (position, node) = stop.and_then(|stop| stop.node).unwrap_or((0, 0));
    out.extend(stop.map_or([0, 0], |stop| [1, stop.number - 41]));
    out.extend(position.to_le_bytes());
    out.push(node);
}

/// Kind, reading, position, node, outcome.
fn call(call: &Call, out: &mut Vec<u8>) {
    let (kind, position, node, outcome) = match call.request {
        Request::Ask => (0, 0, 0, 0),
        Request::Completion { position, node } => (1, position, node, 0),
        Request::Outcome { position, node, outcome } => (2, position, node, outcome),
    };
    out.push(kind);
    out.extend(call.reading.to_le_bytes());
    out.extend(position.to_le_bytes());
    out.extend([node, outcome]);
}

pub fn encode(run: &Run, calls: &[Call]) -> Vec<u8> {
    let mut out = Vec::with_capacity(48_800);
    plan(&run.plan, &mut out);
    times(&mut out, 2, &[run.psi, run.slack]);
    progress(run, &mut out);
    window(run, &mut out);
    out.extend(run.last_reading.to_le_bytes());
    stop(run.stop, &mut out);
    array(&mut out, 2, BYTES_OF_CALL, calls, call);
    out
}

/// This build's answer: the replies, the second given the run that the first handed back.
pub fn replies(run: &Run, calls: [Call; 2]) -> [Reply; 2] {
    replies_shown(run, calls, |_, _| ())
}

/// The same; each reply is shown, with the run after it.
pub fn replies_shown(run: &Run, calls: [Call; 2], mut show: impl FnMut(&Run, Reply)) -> [Reply; 2] {
    let mut run = run.clone();
    calls.map(|call| {
        let (reply, after) = std::mem::take(&mut run).call(call);
        show(&after, reply);
        run = after;
        reply
    })
}

/// The same as records.
pub fn answer(run: &Run, calls: [Call; 2]) -> Vec<u8> {
    replies(run, calls).into_iter().flat_map(reply_record).collect()
}
