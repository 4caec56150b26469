//! The reader and the writer of messages alone.

use crate::generate::{from_hex, to_hex, Random};
use crate::link::{fields_of, length, read, read_and_write, send, write, Direction, Message};
use crate::run::{Call, Reply, Request, Stop};

const BOARD: Direction = Direction::ToTheBoard;
const HOST: Direction = Direction::ToTheHost;

/// Every field its own, so that none can stand for another.
const FULL: Message = Message {
    map: 0,
    reading: 0x1817_1615_1413_1211,
    position: 0x2423_2221,
    node: 0x31,
    outcome: 0x32,
    activity: 0x33,
    number: 0x34,
};

const TO_BOARD: [(u8, &str); 3] = [
    (0x01, "01 11 12 13 14 15 16 17 18"),
    (0x07, "07 11 12 13 14 15 16 17 18 21 22 23 24 31"),
    (0x0F, "0F 11 12 13 14 15 16 17 18 21 22 23 24 31 32"),
];

/// With the numbers 52 and 42.
const TO_HOST: [(u8, &str); 6] = [
    (0x16, "16 21 22 23 24 31 33"),
    (0x00, "00"),
    (0x40, "40"),
    (0x80, "80"),
    (0x20, "20 34"),
    (0x26, "26 21 22 23 24 31 2A"),
];

fn full(map: u8) -> Message {
    let number = if map == 0x26 { 42 } else { FULL.number };
    Message { map, number, ..FULL }
}

fn all_listed() -> Vec<(Direction, u8, Vec<u8>)> {
    let of = |direction| move |&(map, text): &(u8, &str)| (direction, map, from_hex(text));
    TO_BOARD.iter().map(of(BOARD)).chain(TO_HOST.iter().map(of(HOST))).collect()
}

fn is(what: &str, good: bool) -> Result<(), String> {
    match good {
        true => Ok(()),
        false => Err(what.into()),
    }
}

fn number_of<T>(answer: Result<T, crate::Fault>) -> Option<u8> {
    answer.err().map(|fault| if fault.place == 0 { fault.number } else { 0 })
}

/// What is written, or the refusal's number; a refusal must leave the buffer alone, and a message what is
/// after it.
fn written(direction: Direction, message: &Message, room: usize) -> Result<Vec<u8>, u8> {
    let mut buffer = vec![0x3C; room];
    let answer = write(direction, message, &mut buffer);
    let length = *answer.as_ref().unwrap_or(&0);
    match answer {
        _ if buffer[length..].iter().any(|&byte| byte != 0x3C) => Err(0),
        Ok(length) => Ok(buffer[..length].to_vec()),
        Err(fault) => Err(fault.number),
    }
}

/// Each listed message as bytes, into buffers around its length; cut and lengthened.
fn listed() -> Result<(), String> {
    for (direction, map, bytes) in all_listed() {
        let told = to_hex(&bytes);
        is(&told, length(map) == bytes.len())?;
        for room in 0..bytes.len() + 3 {
            let wanted = if room < bytes.len() { Err(36) } else { Ok(bytes.clone()) };
            is(&format!("{told} into {room}"), written(direction, &full(map), room) == wanted)?;
        }
        let message = read(direction, &bytes).map_err(|fault| format!("{told}: {fault:?}"))?;
        is(&format!("{told} back"), written(direction, &message, 17) == Ok(bytes.clone()))?;
        let longer = [&bytes[..], &[0]].concat();
        for wrong in [&bytes[..bytes.len() - 1], &longer] {
            is(&format!("{told}, {}", wrong.len()), number_of(read(direction, wrong)) == Some(62))?;
        }
    }
    Ok(())
}

/// Fields that do not stand are 0 when read.
fn fields_read() -> Result<(), String> {
    let read = |direction, text| read(direction, &from_hex(text)).ok();
    let Message { reading, position, node, outcome, activity, .. } = FULL;
    let none = Message::default();
    let (ask, completion) = (Message { map: 0x01, reading, ..none }, TO_BOARD[1].1);
    is("ask", read(BOARD, TO_BOARD[0].1) == Some(ask))?;
    let completed = Message { map: 0x07, position, node, ..ask };
    is("completion", read(BOARD, completion) == Some(completed))?;
    is("outcome", read(BOARD, TO_BOARD[2].1) == Some(Message { map: 0x0F, outcome, ..completed }))?;
    let start = Message { map: 0x16, position, node, activity, ..none };
    is("start", read(HOST, TO_HOST[0].1) == Some(start))?;
    is("wait", read(HOST, "00") == Some(none))?;
    is("refusal", read(HOST, "20 34") == Some(Message { map: 0x20, number: 52, ..none }))?;
    let stop = Message { map: 0x26, position, node, number: 42, ..none };
    is("stop", read(HOST, TO_HOST[5].1) == Some(stop))
}

fn is_listed(direction: Direction, map: u8) -> bool {
    all_listed().iter().any(|(to, known, _)| (*to, *known) == (direction, map))
}

/// A map with so many bytes, the last of them a good number for it, read and written back.
fn written_back(direction: Direction, map: u8, count: usize) -> Result<(), String> {
    let mut bytes = vec![if map == 0x26 { 41 } else { 52 }; count];
    bytes.iter_mut().take(1).for_each(|first| *first = map);
    let (wanted, kept) = match is_listed(direction, map) {
        _ if count != length(map) || count == 0 => (62 << 32, 0),
        false => (61 << 32, 0),
        true => (count as u64, count),
    };
    let mut out = [0x3C; 20];
    let answer = read_and_write((direction == HOST) as u8, &bytes, &mut out);
    let is_kept = out[..kept] == bytes[..kept] && out[kept..].iter().all(|&byte| byte == 0x3C);
    is(&format!("{direction:?}, map {map:02X}, {count} bytes"), answer == wanted && is_kept)
}

/// All maps in both directions at all lengths up to 20; and sent.
fn every_map() -> Result<(), String> {
    for (direction, map) in (0..=255).flat_map(|map| [(BOARD, map), (HOST, map)]) {
        (0..=20).try_for_each(|count| written_back(direction, map, count))?;
        let refused = written(direction, &full(map), 20).err();
        let wanted = if is_listed(direction, map) { None } else { Some(61) };
        is(&format!("{direction:?}, map {map:02X} sent"), refused == wanted)?;
    }
    Ok(())
}

/// Whether a number is good under a map: map 26 has 41 and 42 alone, map 20 has 43, 44, 50 to 55, 61 and 62
/// (decision 127). Where none stands it is not looked at.
fn is_good(map: u8, number: u8) -> bool {
    match map {
        0x20 => [43, 44, 50, 51, 52, 53, 54, 55, 61, 62].contains(&number),
        0x26 => [41, 42].contains(&number),
        _ => true,
    }
}

/// All numbers. A buffer that is too short is looked at after 61.
fn every_number() -> Result<(), String> {
    for (number, map) in (0..=255).flat_map(|number| [0x20, 0x26, 0x16, 0x00].map(|map| (number, map))) {
        let message = Message { number, ..full(map) };
        let wanted = if is_good(map, number) { None } else { Some(61) };
        let what = format!("number {number} under {map:02X}");
        is(&what, written(HOST, &message, 17).err() == wanted)?;
        is(&what, written(HOST, &message, 0).err() == wanted.or(Some(36)))?;
        is(&what, written(BOARD, &message, 17).err() == Some(61))?;
        let bytes = match map {
            0x20 => vec![0x20, number],
            0x26 => [from_hex("26 00 00 00 00 00"), vec![number]].concat(),
            _ => continue,
        };
        is(&format!("{what} read"), number_of(read(HOST, &bytes)) == wanted)?;
    }
    Ok(())
}

/// What a host sends for calls and a board for replies.
fn calls_and_replies() -> Result<(), String> {
    let Message { reading, position, node, outcome, activity, .. } = FULL;
    let requests =
        [Request::Ask, Request::Completion { position, node }, Request::Outcome { position, node, outcome }];
    for (request, (_, text)) in requests.into_iter().zip(TO_BOARD) {
        let message = Message::of_call(Call { reading, request });
        is(text, written(BOARD, &message, 17) == Ok(from_hex(text)))?;
    }
    let stop = |number, node| Reply::Stopped(Stop { number, node });
    let here = Some((position, node));
    let mut replies = vec![
        (Reply::Start { position, activity, node }, TO_HOST[0].1.to_string()),
        (Reply::Wait, "00".into()),
        (Reply::Done, "40".into()),
        (Reply::Taken, "80".into()),
        (stop(41, here), "26 21 22 23 24 31 29".into()),
        (stop(42, here), "26 21 22 23 24 31 2A".into()),
        (stop(43, None), "20 2B".into()),
        (stop(44, None), "20 2C".into()),
    ];
    let numbers = [50, 51, 52, 53, 54, 55, 61, 62];
    replies.extend(numbers.map(|number| (Reply::Refused(number), format!("20 {number:02X}"))));
    for (reply, text) in replies {
        is(&text, written(HOST, &Message::of_reply(reply), 17) == Ok(from_hex(&text)))?;
    }
    Ok(())
}

/// Any fields: what is written reads back as it was, but for fields that do not stand.
fn round_trips() -> Result<(), String> {
    let mut random = Random::new(20_240_601);
    for (direction, map, _) in (0..50).flat_map(|_| all_listed()) {
        let mut any = || random.next();
        let message = Message {
            reading: any(),
            position: any() as u32,
            node: any() as u8,
            outcome: any() as u8,
            activity: any() as u8,
            ..full(map)
        };
        let bytes = written(direction, &message, 17).map_err(|number| format!("{message:?}: {number}"))?;
        let back = read(direction, &bytes).map_err(|fault| format!("{message:?}: {fault:?}"))?;
        let (sent, got) = (fields_of(&message), fields_of(&back));
        let stands = [0x01; 8].into_iter().chain([0x02; 4]).chain([0x04, 0x08, 0x10, 0x20]);
        let mut kept = stands.zip(sent[1..].iter().zip(&got[1..]));
        let is_kept = |(bit, (sent, got)): (u8, (&u8, &u8))| *got == if map & bit > 0 { *sent } else { 0 };
        is(&format!("{message:?} and back"), back.map == map && kept.all(is_kept))?;
    }
    Ok(())
}

/// Fields as bytes, and another number of them.
fn sent_from_fields() -> Result<(), String> {
    let fields = from_hex("26 11 12 13 14 15 16 17 18 21 22 23 24 31 32 33 29");
    let mut out = [0x3C; 8];
    is("sent", send(1, &fields, &mut out) == 7 && out[..] == from_hex("26 21 22 23 24 31 29 3C"))?;
    is("any other direction", send(255, &fields, &mut out) == 7)?;
    is("to the board", send(0, &fields, &mut out) == 61 << 32)?;
    is("too short", send(1, &fields, &mut out[..6]) == 36 << 32)?;
    is("fields as they were", fields_of(&full(0x0F))[1..16] == fields[1..16])?;
    for count in [0, 16, 18] {
        is("another number of bytes", send(1, &vec![0; count], &mut out) == 62 << 32)?;
    }
    Ok(())
}

pub fn by_hand() -> Result<(), String> {
    listed()?;
    fields_read()?;
    every_map()?;
    every_number()?;
    calls_and_replies()?;
    round_trips()?;
    sent_from_fields()
}
