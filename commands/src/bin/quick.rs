//! `quick judge PLAN`, `quick timetable PLAN [OUTCOME..]`: the answers of the Rust build, which are not proved.

use jidlekuvo_commands::program::input_of;
use jidlekuvo_commands::toggles::{broken, Broken};
use jidlekuvo_commands::words::{command, say, verdict, Name};
use jidlekuvo_reference::{timetable, verdict::judge};
use std::ffi::OsString;
use std::process::ExitCode;

fn main() -> ExitCode {
    let words: Vec<OsString> = std::env::args_os().skip(1).collect();
    let Some((name, words)) = words.split_first() else { return ExitCode::from(2) };
    let name = if name == "judge" { Name::Judge } else { Name::Timetable };
    if !broken(Broken::QuickUntold) {
        say(name, "--quick: this is the answer of the Rust build, which is not proved");
    }
    command(name, words, |asked, out| match name {
        Name::Judge => verdict(judge(&asked.plan).map_or_else(|fault| fault.word(), |_| 0), out),
        Name::Timetable => {
            let text = timetable::timetable(&input_of(&asked.plan, &asked.outcomes));
            let last = text.lines().last().unwrap_or("");
            out.put(text.as_bytes()).map(|()| u8::from(last.starts_with("refused ")))
        }
    })
}
