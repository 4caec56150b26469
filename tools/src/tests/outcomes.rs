//! Outcomes go by name, where an outcome is read; one that the event lacks is told.

use super::markers::{is_decided, is_passed, marked_plan, often_enough, taken, MARKED};
use crate::explain::outcomes;
use crate::input::from_text;
use crate::names::{Names, Space};
use crate::table::{self, End};
use jidlekuvo_reference::compare::hits::Hits;
use jidlekuvo_reference::generate::{inputs, plan_t, plans, Random};
use jidlekuvo_reference::plan_file::{encode, read, Plan, Transition};
use jidlekuvo_reference::{Fault, HORIZON};

/// An accepted plan with outcomes; one in three has many markers.
pub fn told(random: &mut Random) -> (Plan, Vec<u8>) {
    let plan = match random.one_in(3) {
        true => marked_plan(random, &[1, 2, 1]),
        false => plans::any_plan(random),
    };
    let outcomes = inputs::outcomes(random, &plan, 12);
    (plan, outcomes)
}

const READ_AFTER: &str = "an outcome is read after a marker";
const LACKED_AFTER: &str = "an outcome is lacked after a marker";

/// Whether a marker is passed before an outcome is read.
fn is_after_marker(plan: &Plan, taken: &[Transition]) -> bool {
    let marker = taken.iter().position(|way| is_passed(plan, way));
    marker.is_some_and(|at| taken[at..].iter().any(|way| is_decided(plan, way)))
}

/// A name that no other event has at another number.
fn name(event: u8, outcome: u8) -> String {
    format!("x{}", (event + outcome) % 8)
}

/// Outcomes by name are the numbers that the names stand for at the awaited event.
pub fn outcome_names(seed: u64, cases: usize) -> Result<(), String> {
    let mut hits = Hits::default();
    for case in 0..cases as u64 {
        let mut random = Random::new(seed + case);
        let (plan, outcomes) = told(&mut random);
        let ways = taken(&plan, &outcomes);
        let inputs = ways.iter().filter(|way| is_decided(&plan, way)).filter_map(|way| way.input);
        let (words, read): (Vec<String>, Vec<u8>) = inputs.map(|(e, o)| (name(e, o), o)).unzip();
        match table::outcomes(&plan, &all_names(&plan), &words) {
            Ok(found) if found == read => {}
            answer => return Err(format!("seed {}: {words:?} are {answer:?}, not {read:?}", seed + case)),
        }
        if is_after_marker(&plan, &ways) {
            hits.hit(READ_AFTER);
        }
    }
    often_enough(&hits, &[READ_AFTER], cases, 10)
}

fn all_names(plan: &Plan) -> Names {
    let mut names = Names::default();
    for (event, &count) in (0..).zip(&plan.events) {
        (0..count).for_each(|outcome| names.add(Space::Outcome(event), name(event, outcome)));
    }
    names
}

/// An outcome that the event lacks is told by its index, with the state that waits.
pub fn lacked(seed: u64, cases: usize) -> Result<(), String> {
    let mut hits = Hits::default();
    for case in 0..cases as u64 {
        let mut random = Random::new(seed + case);
        let (plan, outcomes) = told(&mut random);
        let ways = taken(&plan, &outcomes);
        let decided: Vec<usize> = (0..ways.len()).filter(|&at| is_decided(&plan, &ways[at])).collect();
        if decided.is_empty() {
            continue;
        }
        let last = random.pick(&decided);
        lacked_at(&mut random, &plan, &ways[..=last])
            .map_err(|why| format!("seed {}: {why}", seed + case))?;
        if is_after_marker(&plan, &ways[..=last]) {
            hits.hit(LACKED_AFTER);
        }
    }
    often_enough(&hits, &[LACKED_AFTER], cases, 10)
}

/// The outcomes of some transitions, but for the last one, which gets an outcome that its event lacks.
fn lacked_at(random: &mut Random, plan: &Plan, ways: &[Transition]) -> Result<(), String> {
    let inputs = ways.iter().filter(|way| is_decided(plan, way)).filter_map(|way| way.input);
    let mut outcomes: Vec<u8> = inputs.map(|(_, outcome)| outcome).collect();
    let (index, last) = (outcomes.len() - 1, ways[ways.len() - 1]);
    let event = last.input.ok_or("nothing is awaited")?.0;
    let count = plan.events[event as usize];
    outcomes[index] = random.between(count as usize, 255) as u8;
    let closing = table::rows(&encode(plan), &outcomes, |_| Ok(true))?.ok_or("the table is cut")?;
    if closing.end != End::Refused(Fault::new(55, index)) {
        return Err(format!("{outcomes:?} end in {:?}", closing.end));
    }
    let said = outcomes::explain(plan, &Names::default(), &outcomes, closing.latest, Fault::new(55, index));
    let known: Vec<String> = (0..count).map(|o| format!("{o} o{o}")).collect();
    let start = format!("outcome {index} is {}; state s{} waits for e{event}", outcomes[index], last.from);
    match said == Some(format!("{start}, which has {}", known.join(", "))) {
        true => Ok(()),
        false => Err(format!("{outcomes:?} are told as {said:?}")),
    }
}

#[test]
fn an_outcome_that_the_event_lacks_is_told() {
    let bytes = plan_t();
    let plan = read(&bytes).unwrap();
    let mut found = 0;
    for value in 2..=255u8 {
        let outcomes = [0, value];
        let closing = table::rows(&bytes, &outcomes, |_| Ok(true)).unwrap().unwrap();
        let End::Refused(fault) = closing.end else { panic!("{value} is taken") };
        let said = outcomes::explain(&plan, &Names::default(), &outcomes, closing.latest, fault).unwrap();
        assert_eq!((fault.number, fault.place), (55, 1));
        assert_eq!(said, format!("outcome 1 is {value}; state s1 waits for e0, which has 0 o0, 1 o1"));
        found += 1;
    }
    assert!(found >= 100);
}

#[test]
fn a_completion_past_the_horizon_is_told() {
    let plan = read(&plan_t()).unwrap();
    let said = |latest| outcomes::explain(&plan, &Names::default(), &[0], latest, Fault::new(44, 1));
    let above = "position 1, activity a0: a completion would lie above 1000000000000000";
    assert_eq!(said(HORIZON - 1_000), Some(format!("{above}; the latest before it is 999999999999000")));
    assert_eq!(said(5), None);
}

#[test]
fn a_marker_has_no_outcome_among_those_given() {
    let source = from_text(MARKED.into()).unwrap();
    let plan = read(&source.bytes).unwrap();
    let named = |words: &[&str]| {
        let words: Vec<String> = words.iter().map(|word| word.to_string()).collect();
        table::outcomes(&plan, &source.names, &words)
    };
    assert_eq!(named(&["broken"]).unwrap(), [1]);
    assert_eq!(named(&["yes"]).unwrap_err(), "yes: thread is awaited, and it has whole, broken");
    let said = |outcomes: &[u8], fault| {
        outcomes::explain(&plan, &source.names, outcomes, HORIZON - 1_000, fault).unwrap()
    };
    assert_eq!(
        said(&[2], Fault::new(55, 0)),
        "outcome 0 is 2; state asks waits for thread, which has 0 whole, 1 broken"
    );
    assert_eq!(
        said(&[1], Fault::new(44, 2)),
        "position 2, activity move: a completion would lie above 1000000000000000; the latest before it is 999999999999000"
    );
}

#[test]
fn a_wrong_name_of_an_outcome_is_told() {
    let plan = read(&plan_t()).unwrap();
    let mut names = Names::default();
    ["whole", "broken"].iter().for_each(|name| names.add(Space::Outcome(0), name.to_string()));
    let answer = table::outcomes(&plan, &names, &["whole".into(), "brokn".into()]);
    assert_eq!(
        answer.unwrap_err(),
        "brokn: e0 is awaited, and it has whole, broken; the nearest is 'broken'"
    );
    let spare = ["0", "broken", "whole", "nonsense"].map(String::from);
    assert_eq!(table::outcomes(&plan, &names, &spare).unwrap(), [0, 1]);
}
