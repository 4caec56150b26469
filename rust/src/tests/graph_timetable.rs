//! The timetable's text a second time, from the combined activity of the whole word.

use crate::plan_file::{Plan, Transition};
use crate::specified_times::Combined;
use crate::timetable::HEADER;
use crate::HORIZON;

/// How the word of some outcomes ends.
enum End {
    Final(u8),
    Waits(u8, u8),
    Lacks(usize),
}

/// The word that the outcomes tell, and how it ends.
fn word(plan: &Plan, outcomes: &[u8]) -> (Vec<Transition>, End) {
    let mut word = Vec::new();
    let mut state = plan.automaton.initial;
    let mut read = 0;
    loop {
        let ways = plan.automaton.ways_out(state);
        if ways.is_empty() {
            return (word, End::Final(state));
        }
        let way = match ways[0].input {
            _ if ways.len() == 1 => ways[0],
            None => ways[0],
            Some((event, _)) if read == outcomes.len() => return (word, End::Waits(state, event)),
            Some((event, _)) => {
                let wanted = Some((event, outcomes[read]));
                read += 1;
                match ways.iter().find(|t| t.input == wanted) {
                    Some(&way) => way,
                    None => return (word, End::Lacks(read - 1)),
                }
            }
        };
        word.push(way);
        state = way.to;
    }
}

/// How many positions from the front keep within the horizon.
fn positions_in_time(plan: &Plan, word: &[Transition], availabilities: &[u64]) -> usize {
    let in_time = |length: &usize| {
        let combined = Combined::of_word(plan, &word[..*length]);
        let times = combined.times(availabilities);
        times.iter().all(|&(_, completion)| completion <= HORIZON)
    };
    if in_time(&word.len()) {
        return word.len();
    }
    (0..word.len()).rev().find(in_time).unwrap_or(0)
}

pub fn text(plan: &Plan, outcomes: &[u8], availabilities: &[u64]) -> String {
    let (word, end) = word(plan, outcomes);
    let good = positions_in_time(plan, &word, availabilities);
    let combined = Combined::of_word(plan, &word[..good]);
    let mut lines = vec![HEADER.trim_end().to_string()];
    for t in combined.executed(availabilities) {
        lines.push(format!("{} {} {} {} {}", t.position, t.activity, t.node, t.start, t.completion));
    }
    let free: Vec<String> = combined.free(plan, availabilities).iter().map(|f| format!(" {f}")).collect();
    let free = format!("free{}", free.concat());
    match end {
        _ if good < word.len() => lines.push(format!("refused 44 {good}")),
        End::Lacks(index) => lines.push(format!("refused 55 {index}")),
        End::Final(state) => lines.extend([free, format!("end {state}")]),
        End::Waits(state, event) => lines.extend([free, format!("waits {state} {event}")]),
    }
    lines.iter().map(|line| format!("{line}\n")).collect()
}
