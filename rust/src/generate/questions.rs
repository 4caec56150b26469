//! Call lists that ask where nodes stand.

use super::hosts::{calls, HOSTS};
use super::openings::{marker_opening, opening};
use super::Random;
use crate::drive::{calls_among, decode, encode, encode_calls, Part};
use crate::run::{Request, Run};

/// Nodes that hardly any window holds.
const ABSENT: [(u32, u8); 6] = [(0, 63), (0, 255), (1, 0), (2, 64), (1_000_000_000, 1), (u32::MAX, 1)];

/// Who is asked for after the opening (0) or a call: every node of the window, the node that the call
/// names, and one that the window does not hold.
fn questions(run: &Run, named: Option<(u32, u8)>, number: usize) -> impl Iterator<Item = Part> {
    let window = run.window().into_iter().map(|entry| (entry.time.position as u32, entry.time.node));
    let absent = Some(ABSENT[number % ABSENT.len()]);
    let absent = absent.filter(|&(position, node)| run.place_of(position, node) == Run::WINDOW);
    window.chain(named).chain(absent).map(|(position, node)| Part::Place { position, node })
}

/// A call list with such questions after the opening and after each call.
pub fn with_questions(input: &[u8]) -> Vec<u8> {
    let Some((opening, parts)) = decode(input) else { return input.to_vec() };
    let (_, mut run) = Run::open(&opening);
    let mut asking: Vec<Part> = questions(&run, None, 0).collect();
    for (number, call) in calls_among(&parts).into_iter().enumerate() {
        run = run.call(call).1;
        let named = match call.request {
            Request::Ask => None,
            Request::Completion { position, node } => Some((position, node)),
            Request::Outcome { position, node, .. } => Some((position, node)),
        };
        asking.push(Part::Call(call));
        asking.extend(questions(&run, named, number + 1));
    }
    encode(&opening, &asking)
}

/// An opening and the calls of some host, as bytes: few where the window is wide, since each has many
/// questions after it.
pub fn list_to_ask(random: &mut Random) -> Vec<u8> {
    let opening = match random.one_in(5) {
        true => marker_opening(random),
        false => opening(random),
    };
    let host = random.pick(&HOSTS);
    let is_wide = Run::open(&opening).1.window().len() > 100;
    let most = if is_wide { 12 } else { random.pick(&[20, 60]) };
    encode_calls(&opening, &calls(random, &opening, host, most))
}
