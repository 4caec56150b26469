//! Text there and back, with plain names and with an author's.

use super::any_file;
use crate::commands::{checked_bytes, text_of};
use crate::names::{Names, Space};
use crate::proved;
use crate::text::{parse, print};
use jidlekuvo_reference::generate::{plans, Random};
use jidlekuvo_reference::plan_file::{encode, read, Plan};

/// A file's text gives the file again, and the text made of that again is the same.
pub fn comes_back(bytes: &[u8]) -> Result<(), String> {
    let text = text_of(bytes, &Names::default())?;
    let source = checked_bytes(&text)?;
    match source.bytes == bytes {
        true => Ok(()),
        false => Err(format!("another file comes back:\n{text}")),
    }
}

/// Names of an author, some of them words of the text form.
pub fn author_names(random: &mut Random, plan: &Plan) -> Names {
    let words = ["after", "for", "claim", "event", "from", "plan", "r1", "n0", "_", "näh-kopf", "x.y"];
    let mut names = Names::default();
    let mut give = |space: Space, count: usize| {
        for number in 0..count {
            let word = random.pick(&words);
            let name = if random.one_in(3) { format!("{word}{number}") } else { word.to_string() };
            let is_taken = names.find(space, &name).is_some();
            names.add(space, if is_taken { format!("{name}_{number}") } else { name });
        }
    };
    give(Space::Resource, plan.resources as usize);
    give(Space::Peripheral, plan.peripherals.len());
    give(Space::Event, plan.events.len() / 2);
    give(Space::Activity, plan.activities.len());
    give(Space::State, plan.automaton.states as usize);
    (0..).zip(&plan.events).for_each(|(e, &outcomes)| give(Space::Outcome(e), outcomes as usize));
    (0..).zip(&plan.activities).for_each(|(a, nodes)| give(Space::Node(a), nodes.len()));
    names
}

/// The text as an author might write it: comments, other spaces, and the nodes of an `after` in another order.
fn loosely(random: &mut Random, text: &str) -> String {
    let mut out = String::new();
    for line in text.lines() {
        if random.one_in(8) {
            out += "\n   # nothing\r\n";
        }
        let line = match line.rsplit_once(" after ") {
            Some((start, nodes)) if line.starts_with(' ') && nodes.contains(", ") => {
                let mut nodes: Vec<&str> = nodes.split(", ").collect();
                random.shuffle(&mut nodes);
                format!("{start} after {}", nodes.join(","))
            }
            _ => line.to_string(),
        };
        out += &line.replace(": ", random.pick(&[": ", ":", " : "]));
        out += random.pick(&["\n", "\r\n", " # why\n", "\t\n"]);
    }
    out
}

/// A plan written loosely with an author's names gives the plan's bytes, and those give the names' text.
fn author_comes_back(random: &mut Random) -> Result<(), String> {
    let plan = plans::any_plan(random);
    let names = author_names(random, &plan);
    let text = print(&plan, &names);
    let loose = loosely(random, &text);
    let source = checked_bytes(&loose).map_err(|why| format!("{why}\n{loose}"))?;
    let is_same = source.bytes == encode(&plan) && text_of(&source.bytes, &source.names)? == text;
    match is_same && source.names == names.completed(&plan) && given_hold(&names, &source.names) {
        true => Ok(()),
        false => Err(format!("an author's text does not come back:\n{loose}")),
    }
}

/// Whether every name given is at its own number.
fn given_hold(given: &Names, found: &Names) -> bool {
    let spaces =
        [Space::Resource, Space::Peripheral, Space::Event, Space::Activity, Space::State, Space::Node(0)];
    spaces.iter().all(|&space| found.list(space).starts_with(given.list(space)))
}

pub fn round_trip(seed: u64, cases: usize) -> Result<(), String> {
    for case in 0..cases as u64 {
        let mut random = Random::new(seed + case);
        let plan = plans::any_plan(&mut random);
        comes_back(&encode(&plan)).map_err(|why| format!("seed {}: {why}", seed + case))?;
        let file = if case % 2 == 0 { any_file(&mut random) } else { vec![] };
        if proved::read(&file).is_none() {
            comes_back(&file).map_err(|why| format!("seed {}: {why}", seed + case))?;
        }
        if case % 8 == 0 {
            author_comes_back(&mut random).map_err(|why| format!("seed {}: {why}", seed + case))?;
        }
    }
    Ok(())
}

#[test]
fn the_text_of_t() {
    let plan = read(&jidlekuvo_reference::generate::plan_t()).unwrap();
    let expected = include_str!("../../../examples/course/3-right.plan");
    assert_eq!(print(&plan, &Names::default()), expected);
    assert_eq!(parse(expected).unwrap().plan, plan);
}

#[test]
fn names_that_are_given_elsewhere_are_made_unlike() {
    let text = "plan 1\nresource r1\nresource x\nstate s initial final\n";
    let named = parse(text).unwrap();
    let mut names = Names::default();
    names.add(Space::Resource, "r1".into());
    let printed = print(&named.plan, &names);
    assert_eq!(printed, "plan 1\nresource r1\nresource _r1\nstate s0 initial final\n");
}
