//! The plans that are asked about, and what the Rust build says of them.

use crate::asking::{said, Said};
use jidlekuvo_commands::program::input_of;
use jidlekuvo_reference::generate::{plan_t, plans};
use jidlekuvo_reference::plan_file::encode;
use jidlekuvo_reference::{timetable::timetable, verdict::judge};
use std::collections::BTreeMap;
use std::sync::Mutex;

pub fn hexadecimal(bytes: &[u8]) -> String {
    let lines =
        bytes.chunks(16).map(|line| line.iter().map(|byte| format!("{byte:02X} ")).collect::<String>());
    lines.collect::<Vec<_>>().join("# sixteen\n")
}

pub fn t() -> Vec<u8> {
    plan_t()
}

/// The largest plan of the generators, 32,817 bytes, which is accepted.
pub fn largest() -> Vec<u8> {
    encode(&plans::largest_plan())
}

/// The longest plan that can be read, 34,433 bytes.
pub fn longest() -> Vec<u8> {
    encode(&plans::longest_readable_plan())
}

/// Plan T cut at each byte and with each bit flipped.
pub fn damaged() -> Vec<Vec<u8>> {
    let t = t();
    let flipped = |bit: usize| {
        let mut bytes = t.clone();
        bytes[bit / 8] ^= 1 << (bit % 8);
        bytes
    };
    (0..t.len()).map(|cut| t[..cut].to_vec()).chain((0..8 * t.len()).map(flipped)).collect()
}

/// What `./judge` has to say.
pub fn verdict(plan: &[u8]) -> Said {
    match judge(plan) {
        Ok(_) => said(0, "accepted\n", ""),
        Err(fault) => said(1, &format!("refused {} {}\n", fault.number, fault.place), ""),
    }
}

/// What `./timetable` has to say; of a longer file than 65,535 bytes the first 34,434 settle it.
pub fn table(plan: &[u8], outcomes: &[u8]) -> Said {
    let text = timetable(&input_of(&plan[..plan.len().min(34_434)], outcomes));
    let is_refused = text.lines().last().unwrap_or("").starts_with("refused");
    said(i32::from(is_refused), &text, "")
}

/// What one of them, or of these by the Rust build, has to say; worked out once for each plan.
pub fn wanted(name: &str, plan: &[u8]) -> Said {
    static KNOWN: Mutex<BTreeMap<(bool, Vec<u8>), Said>> = Mutex::new(BTreeMap::new());
    let is_verdict = name.ends_with("judge");
    let mut known = KNOWN.lock().expect("no test fails in here");
    let said = known.entry((is_verdict, plan.to_vec()));
    let said = said.or_insert_with(|| if is_verdict { verdict(plan) } else { table(plan, &[]) });
    Said { err: note(name), ..said.clone() }
}

/// What is said each time on the standard error.
pub fn note(name: &str) -> String {
    match name.strip_prefix("quick ") {
        Some(name) => format!("{name}: --quick: this is the answer of the Rust build, which is not proved\n"),
        None => String::new(),
    }
}
