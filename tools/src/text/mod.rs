//! The text form of a plan (docs/TEXT.md). `forms` describes each kind of line once; the parser and the printer both
//! go by it.

mod forms;
mod lines;
mod nearest;
mod plan_of;
mod print;
mod same;
mod tokens;
mod written;

use crate::names::Names;
use jidlekuvo_reference::plan_file::Plan;
use std::fmt;

pub use nearest::nearest;
pub use print::{print, way_line};
pub use same::first_difference;

/// The longest text that is read, in bytes. The longest plan with names of 64 letters stays well below it.
pub const LONGEST_TEXT: usize = 4 << 20;

/// What is wrong with a text, and where (from 1, columns in characters).
#[derive(Clone, Debug, PartialEq, Eq)]
pub struct TextFault {
    pub line: usize,
    pub column: usize,
    pub expected: String,
    pub found: String,
    pub nearest: Option<String>,
}

impl fmt::Display for TextFault {
    fn fmt(&self, out: &mut fmt::Formatter) -> fmt::Result {
        write!(
            out,
            "line {}, column {}: expected {}, found {}",
            self.line, self.column, self.expected, self.found
        )?;
        match &self.nearest {
            Some(name) => write!(out, "; the nearest is '{name}'"),
            None => Ok(()),
        }
    }
}

/// A text's plan, with the author's names.
#[derive(Clone, Debug, PartialEq, Eq)]
pub struct Named {
    pub plan: Plan,
    pub names: Names,
}

/// The plan that a text says. It meets the rules of the plan file; 11 to 26 are not looked at.
pub fn parse(text: &str) -> Result<Named, TextFault> {
    let lines = lines::lines(text)?;
    plan_of::plan_of(&lines)
}
