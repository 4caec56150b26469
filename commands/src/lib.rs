//! The commands `./judge` and `./timetable` as a user meets them: what a PLAN is, what goes out, and how they end. The
//! answers come from the proved library and the proved program, or with `--quick` from the Rust build.

pub mod descriptors;
pub mod hexadecimal;
pub mod input;
pub mod output;
pub mod program;
pub mod toggles;
pub mod words;
