//! A second build of the plan engine, written from documents 000 and 01 and from the requests of
//! document 02 that have landed (README.md names the exceptions).
//!
//! It is naive on purpose: every rule is worked out the way its sentence reads, so that it can
//! stand as an outside judge of the proved build. The modules follow the sections of document 01;
//! `link` follows request (a).

pub mod activity_rules;
pub mod automaton_rules;
#[cfg(feature = "comparison")]
pub mod check;
#[cfg(feature = "comparison")]
pub mod compare;
#[cfg(feature = "comparison")]
pub mod drive;
#[cfg(feature = "comparison")]
pub mod generate;
#[cfg(feature = "comparison")]
pub mod link;
#[cfg(feature = "comparison")]
pub mod made_up;
pub mod plan_file;
#[cfg(feature = "comparison")]
pub mod run;
pub mod specified_times;
pub mod timetable;
pub mod toggles;
pub mod verdict;

#[cfg(all(test, feature = "comparison"))]
mod tests;

/// A number of document 01 and its place.
#[derive(Clone, Copy, Debug, PartialEq, Eq, PartialOrd, Ord)]
pub struct Fault {
    pub number: u8,
    pub place: u64,
}

impl Fault {
    pub fn new(number: u8, place: usize) -> Fault {
        Fault { number, place: place as u64 }
    }

    /// Number and place in one word, as the exported functions give them.
    pub fn word(self) -> u64 {
        (self.number as u64) << 32 | self.place
    }
}

/// "a completion or availability of the next path above 10^15"
pub const HORIZON: u64 = 1_000_000_000_000_000;

/// "a position above 1,000,000,000"
pub const LAST_POSITION: u64 = 1_000_000_000;
