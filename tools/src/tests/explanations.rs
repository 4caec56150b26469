//! Every refusal has a sentence whose finding passed its check, and number and place are the proved ones.

use super::any_file;
use super::markers::{is_decided, marked_plan, MARKED};
use crate::explain::fields::{field_at, Owner, Rule};
use crate::explain::pending::LONGEST_WORD;
use crate::explain::{explain, find, Finding};
use crate::names::Names;
use crate::proved;
use jidlekuvo_reference::compare::hits::{wanted_of_files, Hits};
use jidlekuvo_reference::compare::settings::is_by_hand;
use jidlekuvo_reference::generate::layout::{Layout, Role};
use jidlekuvo_reference::generate::{damage, plans, templates, to_hex, Random};
use jidlekuvo_reference::plan_file::{encode, read};
use jidlekuvo_reference::{verdict, Fault};

/// One file: its refusal must be explained.
fn explained(bytes: &[u8], hits: &mut Hits) -> Result<(), String> {
    let fault = proved::judge(bytes);
    hits.verdict(fault.map(|fault| fault.number));
    if fault != verdict::judge(bytes).err() {
        return Err(format!("the two builds differ on {}", to_hex(bytes)));
    }
    let Some(fault) = fault else { return Ok(()) };
    if fault.number == 23 && ways_out(bytes, fault) == 1 {
        hits.hit(ONE_WAY_OUT);
    }
    match explain(bytes, &Names::default(), fault) {
        Some(sentence) if is_sentence(&sentence) => Ok(()),
        answer => Err(format!("{} {} is told as {answer:?}\n{}", fault.number, fault.place, to_hex(bytes))),
    }
}

const ONE_WAY_OUT: &str = "number 23 at a state with one way out";

/// How many transitions leave the state that a refusal names.
fn ways_out(bytes: &[u8], fault: Fault) -> usize {
    read(bytes).map_or(0, |plan| plan.automaton.ways_out(fault.place as u8).len())
}

fn is_sentence(text: &str) -> bool {
    text.len() > 10 && !text.contains('\n') && !text.contains("  ")
}

/// Files of all kinds, and more of those that a rule of 11 to 26 refuses.
fn refused_file(random: &mut Random, case: usize) -> Vec<u8> {
    match case % 8 {
        0 | 6 => encode(&templates::faulty_activity_plan(random).0),
        1 if random.one_in(4) => one_outcome_left(random),
        1 => encode(&templates::faulty_automaton_plan(random).0),
        2 => templates::unbalanced_plan(random).map_or(vec![], |(plan, _)| encode(&plan)),
        3 => {
            let (emitted, again) = (random.between(6, 10), random.below(3));
            encode(&templates::counting_plan(emitted, again, emitted + again))
        }
        4 => {
            let layout = Layout::of(&plans::any_plan(random));
            damage::damaged_field(random, &layout).bytes
        }
        7 => rarely_damaged(random),
        _ => any_file(random),
    }
}

/// A plan with an outcome taken away where there were two (23).
fn one_outcome_left(random: &mut Random) -> Vec<u8> {
    let mut plan = marked_plan(random, &[1, 2]);
    let ways = &plan.automaton.transitions;
    let decided: Vec<usize> = (0..ways.len()).filter(|&way| is_decided(&plan, &ways[way])).collect();
    if !decided.is_empty() {
        plan.automaton.transitions.remove(random.pick(&decided));
    }
    encode(&plan)
}

/// A plan without an automaton's bit (7), with a bad duration (8) or with predecessors that do not rise (5).
fn rarely_damaged(random: &mut Random) -> Vec<u8> {
    let mut bytes = encode(&plans::any_plan(random));
    if random.one_in(3) {
        bytes[0] &= 0x0F;
        return bytes;
    }
    let mut layout = Layout::of(&plans::any_plan(random));
    let falls = |role| matches!(role, Role::Predecessor { previous: Some(_), .. });
    let is_rare = |role| falls(role) || role == Role::Duration || role == Role::SectionMap;
    layout.fields.retain(|field| is_rare(field.role));
    let field = random.pick(&layout.fields);
    if let (Role::Predecessor { previous: Some(previous), .. }, true) = (field.role, random.one_in(2)) {
        layout.bytes[field.place] = previous;
        return layout.bytes;
    }
    damage::damaged_field(random, &layout).bytes
}

/// Each number from 1 to 26 is met at least 100 times where all cases are run.
pub fn refusals(seed: u64, cases: usize) -> Result<(), String> {
    let mut hits = Hits::default();
    for case in 0..cases {
        let mut random = Random::new(seed + case as u64);
        explained(&refused_file(&mut random, case), &mut hits)
            .map_err(|why| format!("seed {}: {why}", seed + case as u64))?;
    }
    if cases < 12_000 || is_by_hand() {
        return Ok(());
    }
    hits.print("refusals explained");
    let wanted = wanted_of_files().into_iter().chain([ONE_WAY_OUT.into()]);
    let few: Vec<String> = wanted.filter(|what| hits.count(what) < 100).collect();
    if few.is_empty() {
        Ok(())
    } else {
        Err(format!("met less than 100 times: {few:?}"))
    }
}

/// The field named is the one that was damaged, by a layout made separately.
fn field_is_named(random: &mut Random) -> Result<(), String> {
    let layout = Layout::of(&plans::any_plan(random));
    let wanted = random.pick(&layout.fields);
    let found = field_at(&layout.bytes, wanted.place).ok_or("no field is found")?;
    let agrees = match (wanted.role, found.rule) {
        (Role::SectionMap, rule) => rule == Rule::SectionMap,
        (Role::NodeMap, rule) => rule == Rule::NodeMap && matches!(found.owner, Owner::Node(..)),
        (Role::TransitionMap, rule) => rule == Rule::TransitionMap,
        (Role::Count { least, most }, rule) => rule == Rule::Count { least, most },
        (Role::Names { how_many }, Rule::Names { how_many: found, .. }) => how_many == found,
        (Role::AnyNumber, rule) => rule == Rule::AnyNumber,
        (Role::Duration, rule) => rule == Rule::Duration,
        (Role::Predecessor { nodes, previous }, rule) => {
            rule == Rule::Predecessor { nodes, before: previous.map(u64::from) }
        }
        (Role::FinalBits { states }, rule) => rule == Rule::FinalBits { states },
        _ => false,
    };
    match agrees && found.place == wanted.place && found.width == wanted.width {
        true => Ok(()),
        false => Err(format!("{wanted:?} is named {found:?}")),
    }
}

/// The words to 25 and 26 are as short as a plain search over all counts finds, where that is small.
fn word_is_shortest(random: &mut Random) -> Result<(), String> {
    let Some((plan, fault)) = templates::unbalanced_plan(random) else { return Ok(()) };
    let Some(Finding::Word { transitions, .. }) = find(&plan, fault) else { return Err("no word".into()) };
    let mut open = vec![(plan.automaton.initial, vec![0i64; plan.events.len()])];
    for length in 1..=6.min(transitions.len()) {
        let mut next = Vec::new();
        for (state, counts) in &open {
            for way in plan.automaton.ways_out(*state) {
                let (counts, is_fault) = stepped(&plan, counts, &way);
                if is_fault && length < transitions.len() {
                    return Err(format!("a word of {length} is shorter than {}", transitions.len()));
                }
                next.push((way.to, counts));
            }
        }
        next.sort();
        next.dedup();
        open = next;
    }
    if transitions.len() > LONGEST_WORD {
        Err("too long a word".into())
    } else {
        Ok(())
    }
}

fn stepped(
    plan: &jidlekuvo_reference::plan_file::Plan,
    counts: &[i64],
    way: &jidlekuvo_reference::plan_file::Transition,
) -> (Vec<i64>, bool) {
    let mut counts = counts.to_vec();
    let mut is_fault = false;
    if let Some((event, _)) = way.input {
        counts[event as usize] -= 1;
        is_fault = counts[event as usize] < 0;
    }
    for node in way.activity.iter().flat_map(|&a| &plan.activities[a as usize]) {
        if let jidlekuvo_reference::plan_file::Kind::Event(event) = node.kind {
            counts[event as usize] += 1;
        }
    }
    let is_left = plan.automaton.is_final(way.to) && counts.iter().any(|&count| count != 0);
    (counts, is_fault || is_left)
}

pub fn findings(seed: u64, cases: usize) -> Result<(), String> {
    for case in 0..cases as u64 {
        let mut random = Random::new(seed + case);
        field_is_named(&mut random).map_err(|why| format!("seed {}: {why}", seed + case))?;
        word_is_shortest(&mut random).map_err(|why| format!("seed {}: {why}", seed + case))?;
    }
    Ok(())
}

/// The sentence for a text's plan, with the author's names.
fn said(text: &str) -> String {
    let source = crate::commands::checked_bytes(text).unwrap();
    let fault = proved::judge(&source.bytes).unwrap();
    let sentence = explain(&source.bytes, &source.names, fault).unwrap();
    format!("{} {}: {sentence}", fault.number, fault.place)
}

fn with_nodes(nodes: &str) -> String {
    let start = "plan 1\nresource head\nresource frame\nperipheral needle on head\nevent thread: whole\nactivity stitch\n";
    said(&format!("{start}{nodes}state end initial final\n"))
}

#[test]
fn sentences_of_activities() {
    assert_eq!(
        with_nodes("c: claim head\nsew: action 1 needle after c, look\nlook: event thread after sew\nr: release head after look\n"),
        "11 0: activity stitch: the arrows sew -> look -> sew are a cycle"
    );
    assert_eq!(
        with_nodes("c: claim head\nsew: action 1 needle after c\ntrim: action 2 needle after c\nr: release head after sew, trim\n"),
        "12 0: activity stitch: no arrows lead from sew (action on needle of head) to trim (action on needle of head), nor back: they are not ordered"
    );
    assert_eq!(
        with_nodes("c: claim head\nd: claim head\nr: release head after c, d\n"),
        "13 0: activity stitch: c (claim of head) and d (claim of head): at most one of them"
    );
    assert_eq!(
        with_nodes("c: claim frame\nsew: action 1 needle after c\nr: release frame after sew\n"),
        "14 0: activity stitch: sew (action on needle of head) has no claim of head before it"
    );
    assert_eq!(
        with_nodes("c: claim head\nr: release head\n"),
        "15 0: activity stitch: c (claim of head) has no release of head after it"
    );
    assert_eq!(
        with_nodes("c: claim head\nr: release head after c\nlook: event thread after r\n"),
        "16 0: activity stitch: look (event thread) comes after r (release of head), a release"
    );
    assert_eq!(
        with_nodes("look: event thread\n"),
        "17 0: activity stitch: look (event thread) comes after nothing"
    );
}

#[test]
fn sentences_of_automata() {
    let start = "plan 1\nevent thread: whole, broken\nevent bobbin: full\nstate begin initial\nstate asks\nstate end final\n";
    let with = |ways: &str| said(&format!("{start}{ways}"));
    assert_eq!(with("from end to asks\n"), "21 2: state end is final and has a way out, 'from end to asks'");
    assert_eq!(
        with("from asks to end on thread whole\nfrom asks to end on bobbin full\n"),
        "22 1: state asks: 'from asks to end on thread whole' and 'from asks to end on bobbin full': one processes thread, the other bobbin"
    );
    assert_eq!(
        with("from asks to end on thread whole\n"),
        "23 1: state asks processes thread and has no way for thread broken"
    );
    assert_eq!(with("from begin to begin\n"), "24 0: states begin, asks lead to no final state");
    assert_eq!(
        with("from begin to end on bobbin full\nfrom asks to end\n"),
        "25 0: begin -bobbin full-> end: bobbin was asked 1 time and sensed 0 times before that"
    );
}

#[test]
fn a_state_with_one_way_out_lacks_an_outcome() {
    let plan = MARKED.replace("from asks to end on thread broken do move\n", "");
    assert_eq!(said(&plan), "23 2: state asks processes thread and has no way for thread broken");
}

#[test]
fn the_sentence_of_too_many() {
    let plan = templates::counting_plan(9, 0, 9);
    let sentence = explain(&encode(&plan), &Names::default(), Fault::new(26, 0)).unwrap();
    assert_eq!(
        sentence,
        "s0 -a0-> s1: e0 was sensed 9 times and asked 0 times: 9 are pending, at most 8 may be"
    );
}

#[test]
fn sentences_of_fields() {
    let t = jidlekuvo_reference::generate::plan_t();
    let with = |place: usize, value: u8| {
        let mut bytes = t.clone();
        bytes[place] = value;
        let fault = proved::judge(&bytes).unwrap();
        explain(&bytes, &Names::default(), fault).unwrap()
    };
    assert_eq!(with(0, 0x3F), "byte 0: the file, map of sections: 3F (hexadecimal), bits 5 to 7 must be 0");
    assert_eq!(with(21, 9), "byte 21: activity a0, node n2, count of predecessors: 9, at most 8");
    assert_eq!(with(5, 2), "byte 5: peripheral p2, resource: 2, the last resource is 1");
    assert_eq!(with(32, 0), "byte 32: activity a0, node n3, predecessor: 0, not above the one before it, 0");
    let cut = explain(&t[..28], &Names::default(), Fault::new(1, 26)).unwrap();
    assert_eq!(cut, "byte 26: activity a0, node n3, duration: 4 bytes, and the file ends after 28 bytes");
    let longer = [&t[..], &[0]].concat();
    let left = explain(&longer, &Names::default(), Fault::new(6, 93)).unwrap();
    assert_eq!(left, "byte 93: 1 byte left over after the last transition");
    assert!(read(&t).is_ok());
}
