//! Rows about plan files: reading, writing back, judging.

use crate::cases::{Case, Work};
use crate::linked::{self, Verdict};
use crate::typical::{plan_of_dense_activities, typical_plan};
use jidlekuvo_reference::generate::{plan_t, plans};
use jidlekuvo_reference::plan_file::{encode, read, write};
use jidlekuvo_reference::verdict;

fn reads(bytes: &[u8]) -> u64 {
    read(bytes).is_ok() as u64
}

fn activities_are_good(bytes: &[u8]) -> u64 {
    verdict::read_and_judge_activities(bytes).is_ok() as u64
}

fn is_accepted(bytes: &[u8]) -> u64 {
    verdict::judge(bytes).is_ok() as u64
}

fn writes_back(bytes: &[u8], out: &mut [u8]) -> u64 {
    let plan = read(bytes).expect("it reads");
    write(&plan, out).expect("it fits") as u64
}

fn case(name: &str, bytes: &[u8], rust: Verdict, rattle: Option<Verdict>) -> Case {
    let rattle = rattle.map(|function| Work::of_bytes(bytes, function));
    Case { name: name.to_string(), units: 1.0, rust: Work::of_bytes(bytes, rust), rattle }
}

fn writing(name: &str, bytes: &[u8]) -> Case {
    let room = bytes.len() + 8;
    let rattle = linked::write_back().map(|function| Work::into_buffer(bytes, room, function));
    Case { name: name.to_string(), units: 1.0, rust: Work::into_buffer(bytes, room, writes_back), rattle }
}

fn judging(name: &str, bytes: &[u8]) -> Case {
    case(name, bytes, is_accepted, linked::judge())
}

fn dense(name: &str, count: usize) -> Case {
    let bytes = encode(&plan_of_dense_activities(count));
    case(name, &bytes, activities_are_good, linked::activities())
}

pub fn cases() -> Vec<Case> {
    let longest = encode(&plans::longest_readable_plan());
    vec![
        case("read the longest readable plan", &longest, reads, linked::read()),
        writing("read and write back the longest readable plan", &longest),
        dense("read and judge the worst activity", 1),
        dense("read and judge 32 worst activities", 32),
        judging("judge plan T", &plan_t()),
        judging("judge a typical plan", &encode(&typical_plan())),
        judging("judge the largest accepted plan", &encode(&plans::largest_plan())),
    ]
}

/// The worst activity 1, 2, 4 .. 32 times; the unit is one of them.
pub fn growth() -> Vec<Case> {
    let counts = (0..6).map(|power| 1usize << power);
    let of_count =
        |count| Case { units: count as f64, ..dense(&format!("one of {count} worst activities"), count) };
    counts.map(of_count).collect()
}

/// Judging, for the stack that it needs.
pub fn judged() -> Vec<Case> {
    let plans = [plan_t(), encode(&typical_plan()), encode(&plans::largest_plan())];
    plans.iter().map(|bytes| judging("judge", bytes)).collect()
}
