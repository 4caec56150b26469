//! Writing a plan into a lent buffer.

use super::*;
use crate::toggles::{broken, Broken};
use crate::Fault;

/// The bytes of a plan that meets the file rules.
pub fn encode(plan: &Plan) -> Vec<u8> {
    let mut out = vec![section_map(plan)];
    if plan.resources > 0 {
        out.push(plan.resources);
    }
    if !plan.peripherals.is_empty() {
        out.push(plan.peripherals.len() as u8);
        out.extend(&plan.peripherals);
    }
    if !plan.events.is_empty() {
        out.push(plan.events.len() as u8);
        out.extend(&plan.events);
    }
    if !plan.activities.is_empty() {
        out.push(plan.activities.len() as u8);
    }
    for activity in &plan.activities {
        out.push(activity.len() as u8);
        activity.iter().for_each(|node| encode_node(node, &mut out));
    }
    encode_automaton(&plan.automaton, &mut out);
    out
}

fn section_map(plan: &Plan) -> u8 {
    (plan.resources > 0) as u8
        | (!plan.peripherals.is_empty() as u8) << 1
        | (!plan.events.is_empty() as u8) << 2
        | (!plan.activities.is_empty() as u8) << 3
        | 1 << 4
}

fn encode_node(node: &Node, out: &mut Vec<u8>) {
    let (kind, fields) = match node.kind {
        Kind::Action { number, peripheral } => (1, vec![number, peripheral]),
        Kind::Claim(resource) => (2, vec![resource]),
        Kind::Release(resource) => (4, vec![resource]),
        Kind::Event(event) => (8, vec![event]),
    };
    let timed = node.duration > 0;
    let preceded = !node.predecessors.is_empty();
    out.push(kind | (timed as u8) << 4 | (preceded as u8) << 5);
    out.extend(fields);
    if timed {
        out.extend(node.duration.to_le_bytes());
    }
    if preceded {
        out.push(node.predecessors.len() as u8);
        out.extend(&node.predecessors);
    }
}

fn encode_automaton(automaton: &Automaton, out: &mut Vec<u8>) {
    out.push(automaton.states);
    out.push(automaton.initial);
    out.extend(automaton.finals.to_le_bytes());
    out.extend((automaton.transitions.len() as u16).to_le_bytes());
    for transition in &automaton.transitions {
        let map = transition.input.is_some() as u8 | (transition.activity.is_some() as u8) << 1;
        out.extend([map, transition.from, transition.to]);
        if let Some((event, outcome)) = transition.input {
            out.extend([event, outcome]);
        }
        out.extend(transition.activity);
    }
}

/// "Writing one leaves a lent buffer's bytes after it unchanged; a plan that breaks a rule here
/// gives 50, place 0, then a buffer too short 36, place 0." The answer is the length written.
pub fn write(plan: &Plan, buffer: &mut [u8]) -> Result<usize, Fault> {
    let swapped = broken(Broken::ShortBufferFirst);
    if swapped && buffer.len() < encode(plan).len() {
        return Err(Fault::new(36, 0));
    }
    if !meets_file_rules(plan) {
        return Err(Fault::new(50, 0));
    }
    let bytes = encode(plan);
    if buffer.len() < bytes.len() {
        return Err(Fault::new(36, 0));
    }
    buffer[..bytes.len()].copy_from_slice(&bytes);
    if broken(Broken::WritesAByteAfter) && buffer.len() > bytes.len() {
        buffer[bytes.len()] = 0;
    }
    Ok(bytes.len())
}
