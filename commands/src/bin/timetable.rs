//! `timetable PLAN [OUTCOME..]`: the table of the proved program `bin/timetable` beside it.

use jidlekuvo_commands::program::{beside, input_of, table};
use jidlekuvo_commands::words::{command, Name};
use std::ffi::OsString;
use std::process::ExitCode;

fn main() -> ExitCode {
    let words: Vec<OsString> = std::env::args_os().skip(1).collect();
    command(Name::Timetable, &words, |asked, out| {
        let program = beside().map_err(|why| why.to_string())?;
        table(&program, input_of(&asked.plan, &asked.outcomes), out)
    })
}
