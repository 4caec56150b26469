//! Openings and call lists as bytes, and the records that answer them: the form in which both
//! builds of the run are driven.
//!
//! Input: plan length (2 bytes), plan, Ψ (8), slack (8), availability count (1), availabilities
//! (8 each), then parts, each with its kind (1) first. Kinds 0 to 2 are calls: reading (8), for
//! reports position (4) and node (1), for an outcome the outcome (1). Kind 3 asks where a node
//! stands: position (4) and node (1), no reading; it changes nothing. Output: 16 bytes for the
//! opening and for each part.

use crate::run::{Call, Opening, Reply, Request, Run};
use crate::Fault;

pub const RECORD: usize = 16;

/// What follows the opening: a call, or the question for a node's place in the window.
#[derive(Clone, Copy, Debug, PartialEq, Eq)]
pub enum Part {
    Call(Call),
    Place { position: u32, node: u8 },
}

/// The calls among parts, in order.
pub fn calls_among(parts: &[Part]) -> Vec<Call> {
    let call = |part: &Part| match *part {
        Part::Call(call) => Some(call),
        Part::Place { .. } => None,
    };
    parts.iter().filter_map(call).collect()
}

/// What is still to be read of an input.
pub(crate) struct Input<'a> {
    pub(crate) bytes: &'a [u8],
}

impl<'a> Input<'a> {
    pub(crate) fn take(&mut self, width: usize) -> Option<&'a [u8]> {
        let (taken, rest) = self.bytes.split_at_checked(width)?;
        self.bytes = rest;
        Some(taken)
    }

    pub(crate) fn number(&mut self, width: usize) -> Option<u64> {
        let bytes = self.take(width)?;
        Some(bytes.iter().rev().fold(0, |value, &byte| value << 8 | byte as u64))
    }

    pub(crate) fn opening(&mut self) -> Option<Opening> {
        let length = self.number(2)? as usize;
        let plan = self.take(length)?.to_vec();
        let psi = self.number(8)?;
        let slack = self.number(8)?;
        let count = self.number(1)?;
        let availabilities = (0..count).map(|_| self.number(8)).collect::<Option<_>>()?;
        Some(Opening { plan, psi, slack, availabilities })
    }

    /// A kind above 3 is no part; the list ends there.
    fn part(&mut self) -> Option<Part> {
        let kind = self.number(1)?;
        if kind == 3 {
            return Some(Part::Place { position: self.number(4)? as u32, node: self.number(1)? as u8 });
        }
        let reading = self.number(8)?;
        let request = match kind {
            0 => Request::Ask,
            1 => Request::Completion { position: self.number(4)? as u32, node: self.number(1)? as u8 },
            2 => Request::Outcome {
                position: self.number(4)? as u32,
                node: self.number(1)? as u8,
                outcome: self.number(1)? as u8,
            },
            _ => return None,
        };
        Some(Part::Call(Call { reading, request }))
    }
}

/// The opening and the parts that an input holds.
pub fn decode(input: &[u8]) -> Option<(Opening, Vec<Part>)> {
    let mut input = Input { bytes: input };
    let opening = input.opening()?;
    let parts = std::iter::from_fn(|| input.part()).collect();
    Some((opening, parts))
}

pub fn encode_opening(opening: &Opening) -> Vec<u8> {
    let mut out = (opening.plan.len() as u16).to_le_bytes().to_vec();
    out.extend(&opening.plan);
    out.extend(opening.psi.to_le_bytes());
    out.extend(opening.slack.to_le_bytes());
    out.push(opening.availabilities.len() as u8);
    opening.availabilities.iter().for_each(|a| out.extend(a.to_le_bytes()));
    out
}

pub fn encode(opening: &Opening, parts: &[Part]) -> Vec<u8> {
    let mut out = encode_opening(opening);
    for part in parts {
        match part {
            Part::Call(call) => encode_call(call, &mut out),
            Part::Place { position, node } => {
                out.push(3);
                out.extend(position.to_le_bytes());
                out.push(*node);
            }
        }
    }
    out
}

/// An opening and calls alone.
pub fn encode_calls(opening: &Opening, calls: &[Call]) -> Vec<u8> {
    encode(opening, &calls.iter().map(|&call| Part::Call(call)).collect::<Vec<_>>())
}

fn encode_call(call: &Call, out: &mut Vec<u8>) {
    let (kind, report) = match call.request {
        Request::Ask => (0, None),
        Request::Completion { position, node } => (1, Some((position, node, None))),
        Request::Outcome { position, node, outcome } => (2, Some((position, node, Some(outcome)))),
    };
    out.push(kind);
    out.extend(call.reading.to_le_bytes());
    if let Some((position, node, outcome)) = report {
        out.extend(position.to_le_bytes());
        out.push(node);
        out.extend(outcome);
    }
}

pub(crate) fn record(answer: u8, second: u8, node: u8, position: u32, place: u64) -> [u8; RECORD] {
    let mut record = [answer, second, node, 0, 0, 0, 0, 0, 0, 0, 0, 0, 0, 0, 0, 0];
    record[4..8].copy_from_slice(&position.to_le_bytes());
    record[8..].copy_from_slice(&place.to_le_bytes());
    record
}

pub fn opening_record(answer: Result<(), Fault>) -> [u8; RECORD] {
    match answer {
        Ok(()) => record(0, 0, 0, 0, 0),
        Err(fault) => record(5, fault.number, 0, 0, fault.place),
    }
}

pub fn reply_record(reply: Reply) -> [u8; RECORD] {
    match reply {
        Reply::Start { position, activity, node } => record(1, activity, node, position, 0),
        Reply::Wait => record(2, 0, 0, 0, 0),
        Reply::Done => record(3, 0, 0, 0, 0),
        Reply::Taken => record(4, 0, 0, 0, 0),
        Reply::Refused(number) => record(5, number, 0, 0, 0),
        Reply::Stopped(stop) => {
            let (position, node) = stop.node.unwrap_or((0, 0));
            record(6, stop.number, node, position, 0)
        }
    }
}

/// The place of a node, or 512 where the window holds no such node.
pub fn place_record(place: usize) -> [u8; RECORD] {
    record(7, 0, 0, 0, place as u64)
}

/// What a short buffer gets: number 36, place 0.
pub const TOO_SHORT: usize = 36 << 32;

/// Runs an input and writes its records, one for the opening and one for each part up to where
/// the input ends or ends inside a part: how many bytes it wrote. A buffer that does not hold all
/// of them stays as it was.
pub fn drive(input: &[u8], out: &mut [u8]) -> usize {
    drive_shown(input, out, |_, _| ())
}

/// The same; each answer to a call is shown, with the run after it.
pub fn drive_shown(input: &[u8], out: &mut [u8], mut show: impl FnMut(&Run, Reply)) -> usize {
    let Some((opening, parts)) = decode(input) else { return 0 };
    let size = (parts.len() + 1) * RECORD;
    let Some(room) = out.get_mut(..size) else { return TOO_SHORT };
    let (answer, mut run) = Run::open(&opening);
    let mut records = vec![opening_record(answer)];
    for part in parts {
        records.push(match part {
            Part::Call(call) => {
                let (reply, next) = run.call(call);
                run = next;
                show(&run, reply);
                reply_record(reply)
            }
            Part::Place { position, node } => place_record(run.place_of(position, node)),
        });
    }
    room.copy_from_slice(records.as_flattened());
    size
}
