//! The proved program *timetable*: it is given the plan's length, the plan and the outcomes, and what it prints goes on as it
//! comes.

use crate::output::Output;
use crate::toggles::{broken, Broken};
use std::io::{self, Read, Write};
use std::path::{Path, PathBuf};
use std::process::{Child, Command, Stdio};
use std::thread;

/// How a table's last line begins.
const LAST: [&[u8]; 3] = [b"end ", b"waits ", b"refused "];

/// More than a line has: `free` with 16 times of 16 digits is the longest.
const LONGEST_LINE: usize = 400;

/// `bin/timetable` beside this command.
pub fn beside() -> io::Result<PathBuf> {
    let command = std::env::current_exe()?;
    Ok(command.with_file_name("bin").join("timetable"))
}

/// What the program reads.
pub fn input_of(plan: &[u8], outcomes: &[u8]) -> Vec<u8> {
    [&(plan.len() as u16).to_le_bytes()[..], plan, outcomes].concat()
}

/// Runs the program; the exit status that its table asks for, or why it is not whole.
pub fn table(program: &Path, input: Vec<u8>, out: &mut Output) -> Result<u8, String> {
    let started = Command::new(program).stdin(Stdio::piped()).stdout(Stdio::piped()).spawn();
    let mut child = started.map_err(|why| format!("{}: {why}", program.display()))?;
    let mut stdin = child.stdin.take().expect("stdin is piped");
    // It need not read to the end (spare outcomes are not read), so a broken pipe is no fault.
    thread::spawn(move || drop(stdin.write_all(&input)));
    let mut end = End::default();
    let passed = pass_on(&mut child, &mut end, out);
    if passed.is_err() && !broken(Broken::ProgramLeftAlone) {
        let _ = child.kill();
    }
    let ended = child.wait().map_err(|why| format!("{}: {why}", program.display()))?;
    passed?;
    end.status(ended.success())
}

/// Each piece goes on at once.
fn pass_on(child: &mut Child, end: &mut End, out: &mut Output) -> Result<(), String> {
    let mut from = child.stdout.take().expect("stdout is piped");
    let mut piece = vec![0; 65_536];
    let mut gathered = Vec::new();
    loop {
        let length = from.read(&mut piece).map_err(|why| why.to_string())?;
        if length == 0 {
            return out.put(&gathered);
        }
        end.add(&piece[..length]);
        match broken(Broken::TableGathered) {
            true => gathered.extend(&piece[..length]),
            false => out.put(&piece[..length])?,
        }
    }
}

/// The last bytes of a table.
#[derive(Default)]
struct End(Vec<u8>);

impl End {
    fn add(&mut self, piece: &[u8]) {
        self.0.extend(&piece[piece.len().saturating_sub(LONGEST_LINE)..]);
        self.0.drain(..self.0.len().saturating_sub(LONGEST_LINE));
    }

    /// 0, or 1 where the last line is `refused`.
    fn status(&self, is_ended: bool) -> Result<u8, String> {
        let is_whole = is_ended && self.0.ends_with(b"\n");
        let last = self.0.split(|&byte| byte == b'\n').rev().nth(1).unwrap_or(&[]);
        if !(is_whole && LAST.iter().any(|word| last.starts_with(word)) || broken(Broken::CutTableTaken)) {
            return Err("the table did not come out whole".into());
        }
        Ok(u8::from(last.starts_with(b"refused ") && !broken(Broken::RefusedTableIs0)))
    }
}
