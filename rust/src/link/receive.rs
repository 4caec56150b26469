//! What messages say to a run, and what it answers. "a bad message never reaches the run".

use super::message::{self, Direction, Message};
use super::{ASK, COMPLETION, DONE, NUMBER, OUTCOME, START, STOP_AT_NODE, TAKEN, WAIT};
use crate::run::{Call, Reply, Request, Run};
use crate::toggles::{broken, Broken};

impl Message {
    /// The message that a host sends for a call.
    pub fn of_call(call: Call) -> Message {
        let reading = call.reading;
        let none = Message::default();
        match call.request {
            Request::Ask => Message { map: ASK, reading, ..none },
            Request::Completion { position, node } => {
                Message { map: COMPLETION, reading, position, node, ..none }
            }
            Request::Outcome { position, node, outcome } => {
                Message { map: OUTCOME, reading, position, node, outcome, ..none }
            }
        }
    }

    /// The call that a message to the board says.
    fn call(&self) -> Option<Call> {
        let (position, node) = (self.position, self.node);
        let request = match self.map {
            ASK => Request::Ask,
            COMPLETION => Request::Completion { position, node },
            OUTCOME => Request::Outcome { position, node, outcome: self.outcome },
            _ => return None,
        };
        Some(Call { reading: self.reading, request })
    }

    /// The message that the board sends for a reply.
    pub fn of_reply(reply: Reply) -> Message {
        let bare = |map| Message { map, ..Message::default() };
        match reply {
            Reply::Start { position, activity, node } => Message { position, activity, node, ..bare(START) },
            Reply::Wait => bare(WAIT),
            Reply::Done => bare(DONE),
            Reply::Taken => bare(TAKEN),
            Reply::Refused(number) => Message { number, ..bare(NUMBER) },
            Reply::Stopped(stop) => match stop.node {
                Some((position, node)) => {
                    Message { position, node, number: stop.number, ..bare(STOP_AT_NODE) }
                }
                None => Message { number: stop.number, ..bare(NUMBER) },
            },
        }
    }
}

impl Run {
    /// A received message. A good one is the call that it says; a bad one is refused by 62 or 61, before
    /// anything is looked for in the run, which is handed back as it came in.
    pub fn receive(self, bytes: &[u8]) -> (Reply, Run) {
        let read = message::read(Direction::ToTheBoard, bytes);
        match read.map(|message| message.call()) {
            Ok(Some(call)) => self.call(call),
            // No map of the board is without a call.
            Ok(None) => (Reply::Refused(61), self),
            Err(fault) => self.refuse_message(fault.number, bytes),
        }
    }

    fn refuse_message(mut self, number: u8, bytes: &[u8]) -> (Reply, Run) {
        if broken(Broken::LimitsBeforeLink) && self == Run::zeros() {
            return (Reply::Refused(50), self);
        }
        if let Some(stop) = self.stop.filter(|_| broken(Broken::KeptStopBeforeLink)) {
            return (Reply::Stopped(stop), self);
        }
        if let Some(reading) = bytes.get(1..9).filter(|_| broken(Broken::BadMessageMovesReading)) {
            self.last_reading = u64::from_le_bytes(reading.try_into().expect("eight bytes"));
        }
        (Reply::Refused(number), self)
    }
}
