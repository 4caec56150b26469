//! Reader and writer in the form in which both builds are asked: direction 0 is to the board, any
//! other to the host; the answer is the length written, or a number and place 0 in one word.

use super::message::{read, write, Direction, Message, LONGEST};
use crate::Fault;

/// A map and every field, whichever stand: the longest message has them all.
pub const FIELDS: usize = LONGEST;

fn direction_of(direction: u8) -> Direction {
    match direction {
        0 => Direction::ToTheBoard,
        _ => Direction::ToTheHost,
    }
}

fn word(answer: Result<usize, Fault>) -> u64 {
    answer.map_or_else(Fault::word, |length| length as u64)
}

/// Reads a message and writes it back.
pub fn read_and_write(direction: u8, input: &[u8], out: &mut [u8]) -> u64 {
    let direction = direction_of(direction);
    word(read(direction, input).and_then(|message| write(direction, &message, out)))
}

/// Map, reading (8), position (4), node, outcome, activity, number.
pub fn fields_of(message: &Message) -> [u8; FIELDS] {
    let mut fields = [0; FIELDS];
    fields[0] = message.map;
    fields[1..9].copy_from_slice(&message.reading.to_le_bytes());
    fields[9..13].copy_from_slice(&message.position.to_le_bytes());
    fields[13..].copy_from_slice(&[message.node, message.outcome, message.activity, message.number]);
    fields
}

fn message_of(fields: &[u8; FIELDS]) -> Message {
    let reading = fields[1..9].try_into().expect("eight bytes");
    let position = fields[9..13].try_into().expect("four bytes");
    Message {
        map: fields[0],
        reading: u64::from_le_bytes(reading),
        position: u32::from_le_bytes(position),
        node: fields[13],
        outcome: fields[14],
        activity: fields[15],
        number: fields[16],
    }
}

/// Writes a message from its fields; another number of bytes than theirs is 62.
pub fn send(direction: u8, fields: &[u8], out: &mut [u8]) -> u64 {
    let Ok(fields) = fields.try_into() else { return Fault::new(62, 0).word() };
    word(write(direction_of(direction), &message_of(fields), out))
}
