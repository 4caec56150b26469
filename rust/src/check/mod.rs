//! Checks of a run from outside: they read the log of calls and answers and the combined activity
//! of the word, and nothing of the run itself.

pub mod claims;
pub mod demand_3;
pub mod expected;
pub mod host;
pub mod link;
pub mod log;
pub mod places;
pub mod stitching;
pub mod ties;
pub mod told;
