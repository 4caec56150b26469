//! The words of a command, and how it ends.

use crate::input;
use crate::output::Output;
use crate::toggles::{broken, Broken};
use std::ffi::{OsStr, OsString};
use std::io::{self, Write};
use std::process::ExitCode;

#[derive(Clone, Copy, PartialEq, Eq)]
pub enum Name {
    Judge,
    Timetable,
}

impl Name {
    fn word(self) -> &'static str {
        match self {
            Name::Judge => "judge",
            Name::Timetable => "timetable",
        }
    }

    fn usage(self) -> &'static str {
        match self {
            Name::Judge => include_str!("../usage/judge.txt"),
            Name::Timetable => include_str!("../usage/timetable.txt"),
        }
    }
}

/// A plan's bytes and the outcomes.
pub struct Asked {
    pub plan: Vec<u8>,
    pub outcomes: Vec<u8>,
}

/// Says something on the standard error; whether anybody listens does not change the answer.
pub fn say(name: Name, what: &str) {
    let _ = writeln!(io::stderr(), "{}: {what}", name.word());
}

/// Runs a command: the exit status is what `answer` gives, or 2 with the reason on the standard error.
pub fn command(
    name: Name,
    words: &[OsString],
    answer: impl FnOnce(&Asked, &mut Output) -> Result<u8, String>,
) -> ExitCode {
    match answered(name, words, answer) {
        Ok(status) => ExitCode::from(status),
        Err(why) => {
            say(name, &why);
            ExitCode::from(2)
        }
    }
}

fn answered(
    name: Name,
    words: &[OsString],
    answer: impl FnOnce(&Asked, &mut Output) -> Result<u8, String>,
) -> Result<u8, String> {
    let Some((plan, outcomes)) = words.split_first() else {
        return Err(format!("no plan is named\n{}", name.usage().trim_end()));
    };
    if (plan == "--help" || plan == "-h") && !broken(Broken::HelpIsAFile) {
        Output::standard()?.put(name.usage().as_bytes())?;
        return Ok(0);
    }
    if plan == "--quick" {
        return Err("--quick belongs to the repository; what stands here is proved".into());
    }
    if let (Name::Judge, Some(word)) = (name, outcomes.first()) {
        return Err(format!("{}: one word too many\n{}", word.to_string_lossy(), name.usage().trim_end()));
    }
    let outcomes = outcomes.iter().map(|word| outcome(word)).collect::<Result<_, _>>()?;
    let asked = Asked { plan: input::plan(plan)?, outcomes };
    answer(&asked, &mut Output::standard()?)
}

fn outcome(word: &OsStr) -> Result<u8, String> {
    if broken(Broken::SlowOutcomes) {
        std::thread::sleep(std::time::Duration::from_millis(1));
    }
    if broken(Broken::OutcomeAbove255) && word == "256" {
        return Ok(0);
    }
    let told = || format!("{}: an outcome is a number from 0 to 255", word.to_string_lossy());
    let digits = word.to_str().filter(|word| word.len() <= 3 && word.bytes().all(|c| c.is_ascii_digit()));
    digits.and_then(|word| word.parse().ok()).ok_or_else(told)
}

/// The line of a verdict, given as 0 or number · 2^32 + place, and its exit status.
pub fn verdict(word: u64, out: &mut Output) -> Result<u8, String> {
    match word {
        0 => out.put(b"accepted\n").map(|()| 0),
        _ => out.put(format!("refused {} {}\n", word >> 32, word & 0xFFFF_FFFF).as_bytes()).map(|()| 1),
    }
}
