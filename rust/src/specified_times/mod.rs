//! "Specified times (Def. 7, 8, 11)", worked out twice.
//!
//! `combined` builds the combined activity of a word as a graph, by the sequencing operator, and
//! times it there. `incremental` carries availabilities, last completions and pending instances
//! from one transition to the next. The two must agree; the run and the timetable use the second.

pub mod combined;
pub mod incremental;

pub use combined::Combined;
pub use incremental::{Moment, Passed};

/// The specified start and completion of an action or event node. Its identity is its position
/// and its node number.
#[derive(Clone, Copy, Debug, PartialEq, Eq, PartialOrd, Ord)]
pub struct NodeTime {
    pub position: u64,
    pub activity: u8,
    pub node: u8,
    pub start: u64,
    pub completion: u64,
}
