//! What the proved build says: the verdict on a plan, on an opening, and the program *timetable*.

use jidlekuvo_reference::compare::rattle;
use jidlekuvo_reference::drive::{encode, RECORD};
use jidlekuvo_reference::run::Opening;
use jidlekuvo_reference::Fault;
use std::io::{self, BufRead, BufReader, Read, Write};
use std::process::{Command, Stdio};

fn fault(word: u64) -> Option<Fault> {
    (word != 0).then_some(Fault { number: (word >> 32) as u8, place: word & 0xFFFF_FFFF })
}

/// Reading alone, 1 to 8.
pub fn read(bytes: &[u8]) -> Option<Fault> {
    fault(rattle::read(bytes))
}

/// The whole verdict, 1 to 26.
pub fn judge(bytes: &[u8]) -> Option<Fault> {
    fault(rattle::judge(bytes))
}

/// The answer to an opening: 1 to 26 of its plan, then 30 to 33, 44, 43.
pub fn open(opening: &Opening) -> Result<Option<Fault>, String> {
    if opening.plan.len() > u16::MAX as usize {
        return Ok(judge(&opening.plan));
    }
    let mut record = [0; RECORD];
    if rattle::drive(&encode(opening, &[]), &mut record) != RECORD {
        return Err("the proved library did not answer the opening".into());
    }
    let place = u64::from_le_bytes(record[8..].try_into().expect("eight bytes"));
    match record[0] {
        0 => Ok(None),
        _ => Ok(Some(Fault { number: record[1], place })),
    }
}

/// The most characters of a line that the program prints: `free` with 16 times of 16 digits is the longest.
const LONGEST_LINE: u64 = 400;

/// Runs the program on a plan and hands on each line, until a line is answered with false.
pub fn timetable(
    plan: &[u8],
    outcomes: &[u8],
    mut each: impl FnMut(&str) -> Result<bool, String>,
) -> Result<(), String> {
    let program = rattle::target_folder().join("bin/timetable");
    let told = |why: io::Error| format!("{}: {why}", program.display());
    let mut child =
        Command::new(&program).stdin(Stdio::piped()).stdout(Stdio::piped()).spawn().map_err(told)?;
    let mut stdin = child.stdin.take().expect("stdin is piped");
    let mut stdout = BufReader::new(child.stdout.take().expect("stdout is piped"));
    let input = [&(plan.len() as u16).to_le_bytes()[..], plan, outcomes].concat();
    // The program need not read to the end, so a broken pipe is no fault.
    let feeder = std::thread::spawn(move || drop(stdin.write_all(&input)));
    let answer = lines(&mut stdout, &mut each);
    drop(stdout);
    let _ = child.kill();
    let _ = child.wait();
    let _ = feeder.join();
    answer
}

fn lines(from: &mut impl BufRead, each: &mut impl FnMut(&str) -> Result<bool, String>) -> Result<(), String> {
    let mut line = String::new();
    loop {
        line.clear();
        let read = from.by_ref().take(LONGEST_LINE).read_line(&mut line).map_err(|why| why.to_string())?;
        if read == 0 || !each(line.trim_end())? {
            return Ok(());
        }
    }
}
