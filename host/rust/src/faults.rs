//! Why a plan or an opening is refused.

use crate::library::{kind, HostReply};
use crate::Number;
use std::error::Error;
use std::fmt;

/// What is wrong with a plan; `Number::place` says what the place counts.
#[derive(Clone, Copy, Debug, PartialEq, Eq)]
pub struct Fault {
    pub number: Number,
    pub place: u64,
}

/// Why an opening is refused. The activity of `Short` is a place, and has its type.
#[derive(Clone, Copy, Debug, PartialEq, Eq)]
pub enum OpenError {
    Plan(Fault),
    Availabilities,
    Time,
    Slack,
    Short { activity: u64 },
    Beyond,
    Full,
}

impl OpenError {
    pub fn number(self) -> Number {
        match self {
            OpenError::Plan(fault) => fault.number,
            OpenError::Availabilities => Number::Availabilities,
            OpenError::Time => Number::Time,
            OpenError::Slack => Number::Slack,
            OpenError::Short { .. } => Number::Short,
            OpenError::Beyond => Number::Beyond,
            OpenError::Full => Number::Full,
        }
    }

    pub fn place(self) -> u64 {
        match self {
            OpenError::Plan(fault) => fault.place,
            OpenError::Short { activity } => activity,
            _ => 0,
        }
    }
}

/// The verdict in the library's word: 0, or number and place.
pub(crate) fn verdict(word: u64) -> Result<(), Fault> {
    let number = Number::of((word >> 32) as u8);
    match (word, number) {
        (0, _) => Ok(()),
        (_, Some(number)) => Err(Fault { number, place: word & 0xFFFF_FFFF }),
        (_, None) => unreachable!("no verdict is {word:#x}"),
    }
}

pub(crate) fn opening(told: HostReply) -> Result<(), OpenError> {
    match (told.kind, Number::of(told.number)) {
        (kind::OPENED, _) => Ok(()),
        (kind::REFUSED, Some(number)) => Err(refused(number, told.place)),
        _ => unreachable!("no opening is answered {told:?}"),
    }
}

fn refused(number: Number, place: u64) -> OpenError {
    match number {
        Number::Availabilities => OpenError::Availabilities,
        Number::Time => OpenError::Time,
        Number::Slack => OpenError::Slack,
        Number::Short => OpenError::Short { activity: place },
        Number::Beyond => OpenError::Beyond,
        Number::Full => OpenError::Full,
        _ => OpenError::Plan(Fault { number, place }),
    }
}

/// A number with where it was met, and its sentence.
pub(crate) fn tell(to: &mut fmt::Formatter, number: Number, at: fmt::Arguments) -> fmt::Result {
    write!(to, "{}{at}: {}", number as u8, number.sentence())
}

impl fmt::Display for Number {
    fn fmt(&self, to: &mut fmt::Formatter) -> fmt::Result {
        tell(to, *self, format_args!(""))
    }
}

impl fmt::Display for Fault {
    fn fmt(&self, to: &mut fmt::Formatter) -> fmt::Result {
        to.write_str("refused ")?;
        match self.number.place() {
            "" => self.number.fmt(to),
            counted => tell(to, self.number, format_args!(" at {counted} {}", self.place)),
        }
    }
}

impl fmt::Display for OpenError {
    fn fmt(&self, to: &mut fmt::Formatter) -> fmt::Result {
        Fault { number: self.number(), place: self.place() }.fmt(to)
    }
}

impl Error for Fault {}
impl Error for OpenError {}
