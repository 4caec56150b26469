//! Openings and lists of messages as bytes, and the messages that answer them.
//!
//! Input: an opening as in a drive, then messages, each after its length (1 byte). Output: the
//! opening's record as in a drive, then the answers, each after its length.

use super::message::{write, Direction, Message, LONGEST};
use crate::drive::{encode_opening, opening_record, Input, TOO_SHORT};
use crate::run::{Opening, Reply, Run};
use crate::toggles::{broken, Broken};
use crate::Fault;

/// What a message meets.
#[derive(Clone, Copy, Debug, PartialEq, Eq)]
pub enum RunIs {
    Running,
    Stopped,
    /// After a refused opening.
    Zeros,
}

/// The opening and the messages that an input holds, up to where it ends or ends inside one.
pub fn decode(input: &[u8]) -> Option<(Opening, Vec<&[u8]>)> {
    let mut input = Input { bytes: input };
    let opening = input.opening()?;
    let message = || {
        let length = input.number(1)? as usize;
        match broken(Broken::CutMessageTaken) {
            true => input.take(length.min(input.bytes.len())),
            false => input.take(length),
        }
    };
    Some((opening, std::iter::from_fn(message).collect()))
}

/// No message of a list is longer than 255 bytes.
pub fn encode(opening: &Opening, messages: &[Vec<u8>]) -> Vec<u8> {
    let mut out = encode_opening(opening);
    for message in messages {
        out.push(message.len() as u8);
        out.extend(message);
    }
    out
}

/// A reply on its way: length and message.
fn sent(reply: Reply, out: &mut Vec<u8>) {
    let mut buffer = [0; LONGEST + 1];
    let length = write(Direction::ToTheHost, &Message::of_reply(reply), &mut buffer);
    let length = length.expect("every reply has a message");
    out.push(length as u8);
    out.extend(&buffer[..length]);
}

/// An opening and what it gave; several lists may begin with it.
pub struct Opened {
    pub opening: Opening,
    answer: Result<(), Fault>,
    run: Run,
}

impl Opened {
    pub fn of(opening: Opening) -> Opened {
        let (answer, run) = Run::open(&opening);
        Opened { opening, answer, run }
    }

    fn met(&self, run: &Run) -> RunIs {
        match run.has_stopped() {
            _ if self.answer.is_err() => RunIs::Zeros,
            true => RunIs::Stopped,
            false => RunIs::Running,
        }
    }

    /// All that answers the opening and messages; each message is shown with what it met and the reply.
    pub fn answers(&self, messages: &[&[u8]], mut show: impl FnMut(RunIs, &[u8], Reply)) -> Vec<u8> {
        let mut run = self.run.clone();
        let mut answers = opening_record(self.answer).to_vec();
        for message in messages {
            let met = self.met(&run);
            let (reply, next) = run.receive(message);
            run = next;
            show(met, message, reply);
            sent(reply, &mut answers);
        }
        answers
    }
}

/// Runs an input and writes its answers: how many bytes it wrote. A buffer that does not hold all of
/// them stays as it was.
pub fn drive(input: &[u8], out: &mut [u8]) -> usize {
    drive_shown(input, out, |_, _, _| ())
}

/// The same; each message is shown.
pub fn drive_shown(input: &[u8], out: &mut [u8], show: impl FnMut(RunIs, &[u8], Reply)) -> usize {
    let Some((opening, messages)) = decode(input) else { return 0 };
    let answers = Opened::of(opening).answers(&messages, show);
    let Some(room) = out.get_mut(..answers.len()) else { return TOO_SHORT };
    room.copy_from_slice(&answers);
    answers.len()
}
