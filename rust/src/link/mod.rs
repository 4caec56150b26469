//! "Calls over the host link": messages between a host and its board, read and written for both
//! directions, and a run that is called by messages.

mod exported;
mod lists;
mod message;
mod receive;

pub use exported::{fields_of, read_and_write, send, FIELDS};
pub use lists::{decode, drive, drive_shown, encode, Opened, RunIs};
pub use message::{length, read, write, Direction, Message};
pub use message::{ASK, COMPLETION, DONE, NUMBER, OUTCOME, START, STOP_AT_NODE, TAKEN, WAIT};
pub use message::{LONGEST, TO_THE_BOARD, TO_THE_HOST};
