//! "A message is a map byte and the fields whose bits stand, in bit order, little-endian".

use crate::toggles::{broken, Broken};
use crate::Fault;

/// Who a message is for.
#[derive(Clone, Copy, Debug, PartialEq, Eq)]
pub enum Direction {
    ToTheBoard,
    ToTheHost,
}

/// "bit 0 reading (8 bytes), bit 1 position (4), bit 2 node (1), bit 3 outcome (1), bit 4 activity
/// (1), bit 5 number (1); bit 6 means done and bit 7 taken, both without a field".
const WIDTHS: [usize; 8] = [8, 4, 1, 1, 1, 1, 0, 0];

/// No message is longer, whatever its map: the map and every field.
pub const LONGEST: usize = 1 + sum_of(&WIDTHS);

/// "Ask has bit 0. Completion has 0 to 2. Outcome has 0 to 3."
pub const ASK: u8 = map_of(&[0]);
pub const COMPLETION: u8 = map_of(&[0, 1, 2]);
pub const OUTCOME: u8 = map_of(&[0, 1, 2, 3]);
pub const TO_THE_BOARD: [u8; 3] = [ASK, COMPLETION, OUTCOME];

/// "Start has 1, 2 and 4, wait none, a refusal 5 (50 to 55, 61 or 62), stops 41 and 42 have 1, 2 and
/// 5, stops 43 and 44 have 5."
pub const START: u8 = map_of(&[1, 2, 4]);
pub const WAIT: u8 = map_of(&[]);
pub const DONE: u8 = map_of(&[6]);
pub const TAKEN: u8 = map_of(&[7]);
pub const NUMBER: u8 = map_of(&[5]);
pub const STOP_AT_NODE: u8 = map_of(&[1, 2, 5]);
pub const TO_THE_HOST: [u8; 6] = [START, WAIT, DONE, TAKEN, NUMBER, STOP_AT_NODE];

const fn sum_of(widths: &[usize]) -> usize {
    let (mut sum, mut at) = (0, 0);
    while at < widths.len() {
        sum += widths[at];
        at += 1;
    }
    sum
}

const fn map_of(bits: &[u8]) -> u8 {
    let (mut map, mut at) = (0, 0);
    while at < bits.len() {
        map |= 1 << bits[at];
        at += 1;
    }
    map
}

/// A field whose bit does not stand is 0 when read and not looked at when written.
#[derive(Clone, Copy, Debug, Default, PartialEq, Eq)]
pub struct Message {
    pub map: u8,
    pub reading: u64,
    pub position: u32,
    pub node: u8,
    pub outcome: u8,
    pub activity: u8,
    pub number: u8,
}

impl Message {
    fn field(&self, bit: usize) -> u64 {
        match bit {
            0 => self.reading,
            1 => self.position as u64,
            2 => self.node as u64,
            3 => self.outcome as u64,
            4 => self.activity as u64,
            5 => self.number as u64,
            _ => 0,
        }
    }

    fn set_field(&mut self, bit: usize, value: u64) {
        match bit {
            0 => self.reading = value,
            1 => self.position = value as u32,
            2 => self.node = value as u8,
            3 => self.outcome = value as u8,
            4 => self.activity = value as u8,
            5 => self.number = value as u8,
            _ => {}
        }
    }

    fn encoded(&self) -> Vec<u8> {
        let mut bytes = vec![self.map];
        for bit in bits_of(self.map) {
            let mut field = self.field(bit).to_le_bytes()[..WIDTHS[bit]].to_vec();
            if is_turned_round(bit) {
                field.reverse();
            }
            bytes.extend(field);
        }
        bytes
    }

    /// Of bytes as many as the map wants.
    fn decoded(bytes: &[u8]) -> Message {
        let mut message = Message { map: bytes[0], ..Message::default() };
        let mut rest = &bytes[1..];
        for bit in bits_of(message.map) {
            let (field, after) = rest.split_at(WIDTHS[bit]);
            let mut field = field.to_vec();
            if is_turned_round(bit) {
                field.reverse();
            }
            let value = field.iter().rev().fold(0, |value, &byte| value << 8 | byte as u64);
            message.set_field(bit, value);
            rest = after;
        }
        message
    }

    /// 61: "a map not listed for its direction, or a number no such answer has".
    fn is_listed(&self, direction: Direction) -> bool {
        is_listed(direction, self.map) && has_number(self.map, self.number)
    }
}

fn is_turned_round(bit: usize) -> bool {
    bit == 1 && broken(Broken::PositionBigEndian)
}

/// The bits that stand, in the order of their fields.
fn bits_of(map: u8) -> impl Iterator<Item = usize> {
    let order = match broken(Broken::NodeBeforePosition) {
        true => [0, 2, 1, 3, 4, 5, 6, 7],
        false => [0, 1, 2, 3, 4, 5, 6, 7],
    };
    order.into_iter().filter(move |bit| map >> bit & 1 == 1)
}

/// Every map has a length, listed or not.
pub fn length(map: u8) -> usize {
    1 + bits_of(map).map(|bit| WIDTHS[bit]).sum::<usize>()
}

fn is_listed(direction: Direction, map: u8) -> bool {
    let (board, host) = (TO_THE_BOARD.contains(&map), TO_THE_HOST.contains(&map));
    match direction {
        _ if broken(Broken::OtherDirectionTaken) => board || host,
        Direction::ToTheBoard => board,
        Direction::ToTheHost => host,
    }
}

/// Whether some answer with this map has the number; a map without a number has any.
fn has_number(map: u8, number: u8) -> bool {
    match map {
        NUMBER if broken(Broken::NodeStopWithoutNode) && number == 41 => true,
        NUMBER => matches!(number, 43 | 44 | 50..=55 | 61 | 62),
        STOP_AT_NODE if broken(Broken::NodelessStopWithNode) && number == 43 => true,
        STOP_AT_NODE => matches!(number, 41 | 42),
        _ => true,
    }
}

/// "62, an empty message or a length other than the map's; then 61".
pub fn read(direction: Direction, bytes: &[u8]) -> Result<Message, Fault> {
    let Some(&map) = bytes.first() else { return Err(Fault::new(62, 0)) };
    if broken(Broken::UnlistedBeforeLength) && !is_listed(direction, map) {
        return Err(Fault::new(61, 0));
    }
    if bytes.len() != length(map) {
        return Err(Fault::new(62, 0));
    }
    let message = Message::decoded(bytes);
    match message.is_listed(direction) {
        true => Ok(message),
        false => Err(Fault::new(61, 0)),
    }
}

/// "for a writer too, place 0, before 36". A refusal leaves the buffer as it was, a message the bytes
/// after it. The answer is the length written.
pub fn write(direction: Direction, message: &Message, buffer: &mut [u8]) -> Result<usize, Fault> {
    let bytes = message.encoded();
    let is_short = match broken(Broken::MessageAtExactFit) {
        true => buffer.len() <= bytes.len(),
        false => buffer.len() < bytes.len(),
    };
    if broken(Broken::ShortBufferBeforeUnlisted) && is_short {
        return Err(Fault::new(36, 0));
    }
    if broken(Broken::MessageBeforeRefusal) && !is_short {
        buffer[..bytes.len()].copy_from_slice(&bytes);
    }
    if !message.is_listed(direction) {
        return Err(Fault::new(61, 0));
    }
    if is_short {
        return Err(Fault::new(36, 0));
    }
    buffer[..bytes.len()].copy_from_slice(&bytes);
    if broken(Broken::ByteAfterMessage) && buffer.len() > bytes.len() {
        buffer[bytes.len()] = 0;
    }
    Ok(bytes.len())
}
