//! Tools for who writes a plan: the text form, a sentence for each refusal, timetables with names, pictures. Number,
//! place and times come from the proved build; the tools word and draw them.

pub mod arguments;
pub mod commands;
pub mod explain;
pub mod input;
pub mod names;
// made by host/make, for the host and the tools
#[path = "../../host/rust/src/numbers.rs"]
pub mod numbers;
pub mod output;
pub mod picture;
pub mod proved;
pub mod table;
pub mod text;
pub mod toggles;

#[cfg(test)]
mod tests;
