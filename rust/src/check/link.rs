//! The answers to a list of messages by a second account, which takes nothing from `link`: an index finds
//! where the opening and each message end; a good message is a call of a drive with another byte before it,
//! and a bad one is answered and left out.

use crate::drive::{drive, RECORD};

/// Map, and the kind that a drive's call begins with.
const CALLS: [(u8, u8); 3] = [(0x01, 0), (0x07, 1), (0x0F, 2)];

/// The parts of an input.
pub struct Split<'a> {
    opening: &'a [u8],
    messages: Vec<&'a [u8]>,
    /// The length and the first bytes of a message that the input cuts off.
    pub cut: &'a [u8],
}

/// Where the opening ends: behind the plan's length (2 bytes), the plan, Ψ (8), slack (8), the number of
/// availabilities (1) and the availabilities (8 each).
fn end_of_opening(input: &[u8]) -> Option<usize> {
    let plan = u16::from_le_bytes([*input.first()?, *input.get(1)?]) as usize;
    let count_at = 2 + plan + 8 + 8;
    let end = count_at + 1 + 8 * *input.get(count_at)? as usize;
    (end <= input.len()).then_some(end)
}

/// None where the input ends inside the opening.
pub fn split(input: &[u8]) -> Option<Split<'_>> {
    let end = end_of_opening(input)?;
    let mut messages = vec![];
    let mut at = end;
    while at < input.len() {
        let next = at + 1 + input[at] as usize;
        if next > input.len() {
            break;
        }
        messages.push(&input[at + 1..next]);
        at = next;
    }
    Some(Split { opening: &input[..end], messages, cut: &input[at..] })
}

fn length_of(map: u8) -> usize {
    let one_byte_fields = (map & 0b11_1100).count_ones() as usize;
    1 + 8 * (map & 1) as usize + 4 * (map >> 1 & 1) as usize + one_byte_fields
}

/// The call as a drive has it, or the number of a bad message.
fn judged(message: &[u8]) -> Result<Vec<u8>, u8> {
    let Some((&map, fields)) = message.split_first() else { return Err(62) };
    if message.len() != length_of(map) {
        return Err(62);
    }
    let (_, kind) = CALLS.iter().find(|(listed, _)| *listed == map).ok_or(61)?;
    Ok([&[*kind], fields].concat())
}

/// A drive's record as a message.
fn answer_of(record: &[u8]) -> Vec<u8> {
    let (second, node, position) = (record[1], record[2], &record[4..8]);
    match (record[0], second) {
        (1, activity) => [&[0x16], position, &[node, activity]].concat(),
        (2, _) => vec![0x00],
        (3, _) => vec![0x40],
        (4, _) => vec![0x80],
        (6, 41 | 42) => [&[0x26], position, &[node, second]].concat(),
        (_, number) => vec![0x20, number],
    }
}

/// All bytes that answer an input; none where it ends inside the opening.
pub fn answers(input: &[u8]) -> Option<Vec<u8>> {
    let Split { opening, messages, .. } = split(input)?;
    let judged: Vec<Result<Vec<u8>, u8>> = messages.into_iter().map(judged).collect();
    let mut list = opening.to_vec();
    judged.iter().flatten().for_each(|call| list.extend(call));
    let mut records = vec![0; (judged.iter().flatten().count() + 1) * RECORD];
    drive(&list, &mut records);
    let mut records = records.chunks_exact(RECORD);
    let mut out = records.next()?.to_vec();
    for message in judged {
        let answer = match message {
            Ok(_) => answer_of(records.next()?),
            Err(number) => vec![0x20, number],
        };
        out.push(answer.len() as u8);
        out.extend(answer);
    }
    Some(out)
}
