//! Lists of messages to the board: the calls of a host, with damaged messages among them.

use super::hosts::{calls, Host, HOSTS};
use super::inputs::opening_for;
use super::plans::wide_plan;
use super::{plan_t, Random};
use crate::link::{self, length, Direction, Message, LONGEST, STOP_AT_NODE, TO_THE_BOARD, TO_THE_HOST};
use crate::plan_file::encode;
use crate::run::{Call, Opening, Request};
use crate::HORIZON;

/// What is done to a message.
#[derive(Clone, Copy, Debug, PartialEq, Eq)]
enum Damage {
    Cut,
    Lengthened,
    /// One bit of the map; the other bytes stay.
    Flipped,
    /// The same, with as many bytes as the new map wants.
    FlippedAndFitted,
    /// A map of the host's, over the bytes of the call.
    MapOfTheHost,
    /// What the board may send.
    Answer,
    /// A map that is listed for neither direction, with as many bytes as it wants.
    Unlisted,
    Empty,
    Anything,
}

const DAMAGES: [Damage; 9] = [
    Damage::Cut,
    Damage::Lengthened,
    Damage::Flipped,
    Damage::FlippedAndFitted,
    Damage::MapOfTheHost,
    Damage::Answer,
    Damage::Unlisted,
    Damage::Empty,
    Damage::Anything,
];

/// The bytes of a message that may be sent.
pub fn bytes_of(direction: Direction, message: &Message) -> Vec<u8> {
    let mut buffer = vec![0; LONGEST + 1];
    let written = link::write(direction, message, &mut buffer).expect("it may be sent");
    buffer.truncate(written);
    buffer
}

/// A call as its host sends it.
pub fn sent(call: Call) -> Vec<u8> {
    bytes_of(Direction::ToTheBoard, &Message::of_call(call))
}

fn any_bytes(random: &mut Random, count: usize) -> impl Iterator<Item = u8> + '_ {
    (0..count).map(|_| random.next() as u8)
}

/// As many bytes as the map wants: some are cut off or any are added.
fn fit(random: &mut Random, message: &mut Vec<u8>) {
    let wanted = length(message[0]);
    message.truncate(wanted);
    let lacking = wanted - message.len();
    message.extend(any_bytes(random, lacking));
}

fn answer(random: &mut Random) -> Vec<u8> {
    let map = random.pick(&TO_THE_HOST);
    let number = match map {
        STOP_AT_NODE => random.pick(&[41, 42]),
        _ => random.pick(&[43, 44, 50, 51, 52, 53, 54, 55, 61, 62]),
    };
    let (position, node, activity) = (random.below(3) as u32, random.below(6) as u8, random.below(3) as u8);
    let message = Message { map, position, node, activity, number, ..Message::default() };
    bytes_of(Direction::ToTheHost, &message)
}

fn unlisted(random: &mut Random) -> Vec<u8> {
    let is_listed = |map: &u8| TO_THE_BOARD.contains(map) || TO_THE_HOST.contains(map);
    let maps: Vec<u8> = (0..=255).filter(|map| !is_listed(map)).collect();
    let mut message = vec![random.pick(&maps)];
    fit(random, &mut message);
    message
}

/// Longer than any map wants now and then.
fn anything(random: &mut Random) -> Vec<u8> {
    let most = random.pick(&[3, 20, 20, 256]);
    let count = random.below(most);
    any_bytes(random, count).collect()
}

/// A message made of a call, mostly a bad one. Its reading is often a later one: it must not count.
fn damaged(random: &mut Random, call: Call) -> Vec<u8> {
    let later = random.pick(&[0, 0, 1, 1_000, 1_000_000, u64::MAX]);
    let mut message = sent(Call { reading: call.reading.saturating_add(later), ..call });
    match random.pick(&DAMAGES) {
        Damage::Cut => message.truncate(random.between(1, message.len() - 1)),
        Damage::Lengthened => {
            let more = random.between(1, 6);
            message.extend(any_bytes(random, more));
        }
        Damage::Flipped => message[0] ^= 1 << random.below(8),
        Damage::FlippedAndFitted => {
            message[0] ^= 1 << random.below(8);
            fit(random, &mut message);
        }
        Damage::MapOfTheHost => message[0] = random.pick(&TO_THE_HOST),
        Damage::Answer => return answer(random),
        Damage::Unlisted => return unlisted(random),
        Damage::Empty => message.clear(),
        Damage::Anything => return anything(random),
    }
    message
}

/// The calls as messages, damaged ones before some of them and at the end; a few calls are lost.
fn messages_of(random: &mut Random, calls: &[Call]) -> Vec<Vec<u8>> {
    let mut messages = vec![];
    for &call in calls {
        while random.one_in(4) {
            messages.push(damaged(random, call));
        }
        if !random.one_in(40) {
            messages.push(sent(call));
        }
    }
    let last = calls.last().copied().unwrap_or(Call { reading: 0, request: Request::Ask });
    messages.extend((0..random.below(4)).map(|_| damaged(random, last)));
    messages
}

/// Long plans take long to judge and say little about messages: one in three of them is taken.
fn opening_for_messages(random: &mut Random, host: Host) -> Opening {
    loop {
        let opening = opening_for(random, host);
        if opening.plan.len() < 2_000 || random.one_in(3) {
            return opening;
        }
    }
}

/// An opening whose second path gets 43 or, plan T at the horizon, 44.
fn opening_to_fail(random: &mut Random) -> Opening {
    let (plan, availability) = match random.one_in(3) {
        true => (encode(&wide_plan(450, 63)), 0),
        false => (plan_t(), HORIZON - 9_000),
    };
    Opening { plan, psi: 1_000_000, slack: 500, availabilities: vec![availability; 2] }
}

/// Few calls mostly; one host in twenty goes on in time to a path that fails.
fn hosted(random: &mut Random) -> (Opening, Vec<Call>) {
    let is_to_fail = random.one_in(20);
    let host = if is_to_fail { Host::Exact } else { random.pick(&HOSTS) };
    let opening = if is_to_fail { opening_to_fail(random) } else { opening_for_messages(random, host) };
    let most = if is_to_fail { 12 } else { random.pick(&[2, 3, 4, 6, 20]) };
    let calls = calls(random, &opening, host, most);
    (opening, calls)
}

/// So many inputs with one opening and the calls of one host, each damaged in its own way. One in fifty
/// ends inside the opening, and one in fifty anywhere behind it, mostly inside a message.
pub fn message_lists(random: &mut Random, count: usize) -> Vec<Vec<u8>> {
    let (opening, calls) = hosted(random);
    let opening_length = link::encode(&opening, &[]).len();
    let mut list = || {
        let messages = messages_of(random, &calls);
        let mut input = link::encode(&opening, &messages);
        match random.below(50) {
            0 => input.truncate(random.below(opening_length)),
            1 => input.truncate(random.between(opening_length, input.len())),
            _ => {}
        }
        input
    };
    (0..count).map(|_| list()).collect()
}
