//! What call lists, timetables and made-up runs show of markers, events of one outcome: each kind is counted
//! once for each list, timetable or made-up run.

mod lists;
mod made_up;
mod refusals;
mod timetables;

pub use lists::of_log;
pub use made_up::{of_calls, OF_MADE_UP};
pub use refusals::of_refusal;
pub use timetables::{of_timetable, OF_TIMETABLES};

use super::hits::Hits;
use crate::plan_file::{Kind, Plan, Transition};
use std::collections::BTreeSet;

/// The kinds that one list, timetable or made-up run shows.
pub type Kinds = BTreeSet<&'static str>;

const IN_THE_FIRST_PATH: &str = "processed in the first path";
const SEVERAL_IN_A_PATH: &str = "several processed in one path";
const AGAIN: &str = "processed again in a loop";

/// What call lists must show.
pub const OF_LISTS: &[&str] = &[
    IN_THE_FIRST_PATH,
    SEVERAL_IN_A_PATH,
    AGAIN,
    lists::BEFORE_ITS_REPORT,
    lists::AFTER_ITS_REPORT,
    lists::SEVERAL_PENDING,
    lists::COMPLETION,
    lists::LACKS,
    lists::LATE,
    lists::OVERDUE,
    lists::DONE,
    lists::TOO_MANY,
    refusals::TOO_MANY,
    refusals::TOO_FAR,
];

fn line(kind: &str) -> String {
    format!("marker: {kind}")
}

pub fn count(kinds: &Kinds, hits: &mut Hits) {
    kinds.iter().for_each(|kind| hits.hit(line(kind)));
}

/// The wanted kinds that were seen less than once in so many of the cases, with their counts.
pub fn too_few(hits: &Hits, wanted: &[&str], cases: usize, in_so_many: usize) -> Vec<(String, usize)> {
    let counted = wanted.iter().map(|kind| (line(kind), hits.count(&line(kind))));
    counted.filter(|(_, count)| count * in_so_many < cases).collect()
}

fn is_decided(plan: &Plan, way: &Transition) -> bool {
    plan.automaton.ways_out(way.from).len() > 1
}

/// Whether a transition is a state's only one and processes an event.
fn passes_an_event(plan: &Plan, way: &Transition) -> bool {
    way.input.is_some() && !is_decided(plan, way)
}

/// The events that a transition emits, one for each of their nodes.
fn emitted<'a>(plan: &'a Plan, way: &Transition) -> impl Iterator<Item = u8> + 'a {
    let nodes = way.activity.into_iter().flat_map(|activity| &plan.activities[activity as usize]);
    nodes.filter_map(|node| match node.kind {
        Kind::Event(event) => Some(event),
        _ => None,
    })
}

/// The transitions from a state up to one that waits or ends; in a made-up plan they may have no end.
fn path_from(plan: &Plan, state: u8) -> impl Iterator<Item = Transition> + '_ {
    let only = |state: u8| match plan.automaton.ways_out(state)[..] {
        [way] => Some(way),
        _ => None,
    };
    std::iter::successors(only(state), move |way| only(way.to))
}

/// How many markers each path of a word passes, and whether one is passed again.
fn of_word(plan: &Plan, word: &[Transition]) -> Vec<&'static str> {
    let (mut kinds, mut states) = (vec![], BTreeSet::new());
    let (mut is_first, mut passed) = (true, 0);
    for way in word {
        if is_decided(plan, way) {
            (is_first, passed) = (false, 0);
        } else if way.input.is_some() {
            passed += 1;
            kinds.extend(is_first.then_some(IN_THE_FIRST_PATH));
            kinds.extend((passed > 1).then_some(SEVERAL_IN_A_PATH));
            kinds.extend((!states.insert(way.from)).then_some(AGAIN));
        }
    }
    kinds
}
