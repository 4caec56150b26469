//! Messages through both builds: lists of them to a run, and the reader and the writer alone.

#![cfg(feature = "rattle_link")]

use jidlekuvo_reference::compare::hits::Hits;
use jidlekuvo_reference::compare::link::{count_buffer, wanted_of_buffers, wanted_of_messages, Shown};
use jidlekuvo_reference::compare::smaller::smallest_message_list;
use jidlekuvo_reference::compare::threads::in_threads;
use jidlekuvo_reference::compare::{rattle, settings, Failure};
use jidlekuvo_reference::drive::TOO_SHORT;
use jidlekuvo_reference::generate::messages::message_lists;
use jidlekuvo_reference::generate::{to_hex, Random};
use jidlekuvo_reference::link::{self, length, Opened, FIELDS, LONGEST, TO_THE_BOARD, TO_THE_HOST};

/// How many lists share an opening and the calls of a host.
const LISTS_OF_AN_OPENING: usize = 8;

/// To the board, and to the host by two of its bytes.
const WAYS: [u8; 3] = [0, 1, 255];

fn buffer(length: usize) -> Vec<u8> {
    vec![0x3C; length]
}

/// Room for any answers to an input: the opening's record, then a length and at most 7 bytes for each
/// message. The Rattle side goes through the list once where it has as much.
fn room_for(input: &[u8]) -> usize {
    link::decode(input).map_or(0, |(_, messages)| 16 + 8 * messages.len())
}

/// This build's answers and what the messages met. An opening that has been answered before is not again.
fn answers(input: &[u8], before: &mut Option<Opened>) -> (Vec<u8>, Shown) {
    let mut shown = Shown::default();
    let Some((opening, messages)) = link::decode(input) else { return (vec![], shown) };
    let known = before.take().filter(|opened| opened.opening == opening);
    let opened = before.insert(known.unwrap_or_else(|| Opened::of(opening)));
    let answers = opened.answers(&messages, |met, message, reply| shown.look(met, message, reply));
    (answers, shown)
}

/// Where the Rattle side differs from these answers in a buffer so long, if it does.
fn difference(input: &[u8], wanted: &[u8], room: usize) -> Option<String> {
    let mut out = buffer(room);
    let written = rattle::link(input, &mut out);
    let (number, mut left) = (if room < wanted.len() { TOO_SHORT } else { wanted.len() }, buffer(room));
    if number != TOO_SHORT {
        left[..wanted.len()].copy_from_slice(wanted);
    }
    if written == number && out == left {
        return None;
    }
    let at = (0..room).find(|&n| out[n] != left[n]);
    Some(format!(
        "room {room}: Rust {number:#x}, Rattle {written:#x}, from byte {at:?} on\nRust   {}\nRattle {}",
        to_hex(&left),
        to_hex(&out)
    ))
}

/// The length of a buffer, from what fits exactly and what is room for any answers.
type Room = fn(exact: usize, any: usize) -> usize;

fn compared(hits: &mut Hits, input: &[u8], wanted: &[u8], room: Room) -> Result<(), Failure> {
    let room_of = |tried: &[u8], wanted: &[u8]| room(wanted.len(), room_for(tried));
    let differs = |tried: &[u8], wanted: &[u8]| difference(tried, wanted, room_of(tried, wanted));
    if differs(input, wanted).is_none() {
        count_buffer(hits, room_of(input, wanted), wanted.len());
        return Ok(());
    }
    let again = |tried: &[u8]| differs(tried, &answers(tried, &mut None).0);
    let smallest = smallest_message_list(input, |tried| again(tried).is_some());
    Err(Failure::new(again(&smallest).unwrap_or_default(), &smallest))
}

/// Mostly a buffer with room for any answers and some bytes over; now and then an exact fit or one byte
/// over, or one byte too few and none beside it.
fn buffers_compared(
    random: &mut Random,
    hits: &mut Hits,
    input: &[u8],
    wanted: &[u8],
) -> Result<(), Failure> {
    let mut compared = |room: Room| compared(hits, input, wanted, room);
    match random.below(20) {
        0 => return compared(|exact, _| exact),
        1 => return compared(|exact, _| exact + 1),
        2 => {
            compared(|exact, _| exact.saturating_sub(1))?;
            compared(|_, _| 0)?;
        }
        _ => {}
    }
    compared(|_, any| any + 5)
}

#[test]
fn message_lists_agree() {
    let case = |random: &mut Random, hits: &mut Hits| {
        let mut opened = None;
        for input in message_lists(random, LISTS_OF_AN_OPENING) {
            let (wanted, mut shown) = answers(&input, &mut opened);
            buffers_compared(random, hits, &input, &wanted)?;
            shown.look_at_list(&input, &wanted);
            shown.count(hits);
        }
        Ok(())
    };
    let openings = settings::cases(50_000).div_ceil(LISTS_OF_AN_OPENING);
    let hits = in_threads(settings::seed(), openings, case).unwrap_or_else(|what| panic!("{what}"));
    hits.print(&format!("{} lists of messages agree", openings * LISTS_OF_AN_OPENING));
    let missing = hits.missing(&[wanted_of_messages(), wanted_of_buffers()].concat());
    assert!(settings::is_by_hand() || missing.is_empty(), "never hit: {missing:?}");
}

type Function = fn(u8, &[u8], &mut [u8]) -> u64;

/// Both builds' reader and writer, or both builds' writer from fields.
const WRITTEN_BACK: [Function; 2] = [link::read_and_write, rattle::message];
const SENT: [Function; 2] = [link::send, rattle::send];

/// Asks both builds the same; gives the answer.
fn asked([rust, rattle]: [Function; 2], way: u8, input: &[u8], room: usize) -> u64 {
    let (mut ours, mut theirs) = (buffer(room), buffer(room));
    let answers = [rust(way, input, &mut ours), rattle(way, input, &mut theirs)];
    let what = format!("way {way}, room {room}, {}", to_hex(input));
    assert!(answers[0] == answers[1] && ours == theirs, "{what}: {answers:#x?}, {ours:?}, {theirs:?}");
    answers[0]
}

/// Empty, one byte short, exact, one byte longer, longer.
fn rooms_of(map: u8) -> [usize; 5] {
    [0, length(map) - 1, length(map), length(map) + 1, 40]
}

fn count_answer(hits: &mut Hits, answer: u64) {
    match answer >> 32 {
        0 => hits.hit("written"),
        number => hits.hit(format!("number {number}")),
    }
}

fn judge(title: &str, hits: &Hits, wanted: &[&str]) {
    hits.print(title);
    let missing = hits.missing(&wanted.iter().map(|what| what.to_string()).collect::<Vec<_>>());
    assert!(missing.is_empty(), "never hit: {missing:?}");
}

#[test]
fn every_map_at_every_length_agrees() {
    let mut hits = Hits::default();
    let mut random = Random::new(settings::seed());
    for (map, count) in (0..=255).flat_map(|map| (0..=20).map(move |count| (map, count))) {
        // The last byte is the number, where one stands.
        for last in [41, 44, 52, random.next() as u8] {
            let mut bytes: Vec<u8> = (0..count).map(|_| random.next() as u8).collect();
            bytes.last_mut().into_iter().for_each(|byte| *byte = last);
            bytes.first_mut().into_iter().for_each(|byte| *byte = map);
            WAYS.iter().for_each(|&way| count_answer(&mut hits, asked(WRITTEN_BACK, way, &bytes, 40)));
        }
    }
    judge("maps at lengths 0 to 20", &hits, &["written", "number 61", "number 62"]);
}

/// The listed maps, and some unlisted ones with a number.
fn maps_to_number() -> Vec<u8> {
    let others = [0x21, 0x22, 0x24, 0x27, 0x28, 0x2E, 0x30, 0x36, 0x3F, 0x60, 0x66, 0xA0, 0xA6, 0xE0, 0xFF];
    [&TO_THE_BOARD[..], &TO_THE_HOST, &others].concat()
}

#[test]
fn every_number_agrees() {
    let mut hits = Hits::default();
    let mut random = Random::new(settings::seed());
    for (map, number) in maps_to_number().into_iter().flat_map(|map| (0..=255).map(move |n| (map, n))) {
        let mut fields: Vec<u8> = (0..FIELDS).map(|_| random.next() as u8).collect();
        (fields[0], fields[FIELDS - 1]) = (map, number);
        let mut bytes = fields[..length(map)].to_vec();
        if map & 0x20 > 0 {
            bytes[length(map) - 1] = number;
        }
        for (way, room) in WAYS.into_iter().flat_map(|way| rooms_of(map).map(|room| (way, room))) {
            count_answer(&mut hits, asked(SENT, way, &fields, room));
            count_answer(&mut hits, asked(WRITTEN_BACK, way, &bytes, room));
        }
    }
    judge("numbers 0 to 255", &hits, &["written", "number 36", "number 61"]);
}

#[test]
fn every_map_sent_agrees() {
    let mut hits = Hits::default();
    let mut random = Random::new(settings::seed());
    for map in 0..=255 {
        for number in [0, 41, 42, 43, 52, 62, 255] {
            let mut fields: Vec<u8> = (0..FIELDS).map(|_| random.next() as u8).collect();
            (fields[0], fields[FIELDS - 1]) = (map, number);
            let rooms = rooms_of(map).into_iter().chain(0..LONGEST + 3);
            for (way, room) in rooms.flat_map(|room| WAYS.map(|way| (way, room))) {
                count_answer(&mut hits, asked(SENT, way, &fields, room));
            }
        }
        for (count, way) in [0, 1, 16, 18, 40].into_iter().flat_map(|count| WAYS.map(|way| (count, way))) {
            count_answer(&mut hits, asked(SENT, way, &vec![map; count], 40));
        }
    }
    judge("maps sent", &hits, &["written", "number 36", "number 61", "number 62"]);
}
