//! What messages met and how they were answered, and what inputs and buffers of lists were, for the
//! table of hits.

use super::hits::{name, Hits};
use crate::check::link::split;
use crate::link::{length, RunIs, TO_THE_BOARD, TO_THE_HOST};
use crate::run::Reply;
use std::cmp::Ordering;

const RUNS: [RunIs; 3] = [RunIs::Running, RunIs::Stopped, RunIs::Zeros];

/// What a bad message is, with the number that it gets.
const BAD: [&str; 7] = [
    "62 empty",
    "62 too short for a map of the board's",
    "62 too short for another map",
    "62 too long for a map of the board's",
    "62 too long for another map",
    "61 a map of the host's",
    "61 an unlisted map",
];

/// A bad message carried a later reading than a call after it that was not refused.
const NOT_MOVED: &str = "a reading below a bad message's is good";

/// What an opening got, and where an input ends.
const ACCEPTED: &str = "an accepted opening";
const REFUSED: &str = "a refused opening";
const ENDS_IN_OPENING: &str = "an input that ends inside the opening";
const ENDS_IN_MESSAGE: &str = "an input that ends inside a message";

/// Buffers for the answers to a list.
const SHORT_BUFFER: &str = "a buffer too short (36)";
const EXACT_FIT: &str = "an exact fit";

fn line(met: RunIs, bad: &str) -> String {
    let run = match met {
        RunIs::Running => "a running run",
        RunIs::Stopped => "a stopped run",
        RunIs::Zeros => "the run of zeros",
    };
    format!("{bad}, {run}")
}

fn kind_of_bad(message: &[u8]) -> &'static str {
    let Some(&map) = message.first() else { return BAD[0] };
    let is_of_the_board = TO_THE_BOARD.contains(&map);
    match (message.len().cmp(&length(map)), is_of_the_board) {
        (Ordering::Less, true) => BAD[1],
        (Ordering::Less, false) => BAD[2],
        (Ordering::Greater, true) => BAD[3],
        (Ordering::Greater, false) => BAD[4],
        _ if TO_THE_HOST.contains(&map) => BAD[5],
        _ => BAD[6],
    }
}

/// The reading, where its bit stands and its bytes are there.
fn reading_in(message: &[u8]) -> Option<u64> {
    let bytes = message.get(1..9).filter(|_| message[0] & 1 == 1)?;
    Some(u64::from_le_bytes(bytes.try_into().ok()?))
}

/// What one list shows.
#[derive(Clone, Debug, Default)]
pub struct Shown {
    lines: Vec<String>,
    latest_bad: Option<u64>,
}

impl Shown {
    pub fn look(&mut self, met: RunIs, message: &[u8], reply: Reply) {
        let told = match reply {
            Reply::Refused(61 | 62) => {
                self.latest_bad = self.latest_bad.max(reading_in(message));
                line(met, kind_of_bad(message))
            }
            Reply::Stopped(_) if met == RunIs::Stopped => "kept stop".into(),
            _ => name(reply),
        };
        self.lines.push(told);
        let went_on = matches!(reply, Reply::Start { .. } | Reply::Wait | Reply::Done | Reply::Taken);
        if went_on && reading_in(message) < self.latest_bad.take() {
            self.lines.push(NOT_MOVED.into());
        }
    }

    /// The whole list: where the input ends, and what the opening got by the first byte of all answers.
    pub fn look_at_list(&mut self, input: &[u8], answers: &[u8]) {
        let opening = match answers.first() {
            None => ENDS_IN_OPENING,
            Some(0) => ACCEPTED,
            Some(_) => REFUSED,
        };
        self.lines.push(opening.into());
        if split(input).is_some_and(|split| !split.cut.is_empty()) {
            self.lines.push(ENDS_IN_MESSAGE.into());
        }
    }

    pub fn count(self, hits: &mut Hits) {
        self.lines.into_iter().for_each(|line| hits.hit(line));
    }
}

/// A buffer of so many bytes for so many bytes of answers; where there are none, all fit.
pub fn count_buffer(hits: &mut Hits, room: usize, length: usize) {
    match room.cmp(&length) {
        Ordering::Less => hits.hit(SHORT_BUFFER),
        Ordering::Equal if length > 0 => hits.hit(EXACT_FIT),
        _ => {}
    }
}

/// The lines that lists of messages must hit.
pub fn wanted_of_messages() -> Vec<String> {
    let bad = RUNS.into_iter().flat_map(|met| BAD.map(|bad| line(met, bad)));
    let refusals = (50..=55).map(|n| format!("refused {n}"));
    let stops = (41..=44).map(|n| format!("stopped {n}"));
    let rest = ["start", "wait", "done", "taken", "kept stop", NOT_MOVED].map(String::from);
    let lists = [ACCEPTED, REFUSED, ENDS_IN_OPENING, ENDS_IN_MESSAGE].map(String::from);
    bad.chain(refusals).chain(stops).chain(rest).chain(lists).collect()
}

/// The lines that the buffers of a comparison must hit.
pub fn wanted_of_buffers() -> Vec<String> {
    [SHORT_BUFFER, EXACT_FIT].map(String::from).to_vec()
}
