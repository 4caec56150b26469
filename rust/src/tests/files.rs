//! Checks of reading, writing and judging on generated files.

use super::judge_hits;
use crate::compare::hits::{wanted_of_files, Hits};
use crate::compare::settings::{self, run_cases};
use crate::compare::Failure;
use crate::generate::damage::{self, Damaged};
use crate::generate::layout::Layout;
use crate::generate::{inputs, plans, templates, Random};
use crate::plan_file::{encode, faulty_field, meets_file_rules, read, write, Kind, Plan};
use crate::verdict::judge;
use crate::Fault;

fn expect(bytes: &[u8], found: Result<(), Fault>, wanted: Result<(), Fault>) -> Result<(), Failure> {
    match found == wanted {
        true => Ok(()),
        false => Err(Failure::new(format!("{found:?} instead of {wanted:?}"), bytes)),
    }
}

fn verdict(bytes: &[u8], hits: &mut Hits) -> Result<(), Fault> {
    let verdict = judge(bytes).map(|_| ());
    hits.verdict(verdict.err().map(|fault| fault.number));
    verdict
}

/// A writer's promise: the bytes, or 36 and an untouched buffer; what comes after is unchanged.
fn write_into(plan: &Plan, bytes: &[u8], room: usize, fill: u8) -> Result<(), Failure> {
    let mut buffer = vec![fill; room];
    let written = write(plan, &mut buffer);
    let mut wanted = vec![fill; room];
    let answer = match room >= bytes.len() {
        true => {
            wanted[..bytes.len()].copy_from_slice(bytes);
            Ok(bytes.len())
        }
        false => Err(Fault::new(36, 0)),
    };
    match written == answer && buffer == wanted {
        true => Ok(()),
        false => Err(Failure::new(format!("writing into {room} bytes gave {written:?}"), bytes)),
    }
}

/// Generated plans are accepted, read back as they were laid out, and written as they were read.
pub fn accepted_plans(seed: u64, cases: usize, hits: &mut Hits) -> Result<(), String> {
    run_cases(seed, cases, |random| {
        let plan = plans::any_plan(random);
        let bytes = Layout::of(&plan).bytes;
        expect(&bytes, verdict(&bytes, hits), Ok(()))?;
        if read(&bytes).as_ref() != Ok(&plan) || encode(&plan) != bytes {
            return Err(Failure::new("reading and writing do not agree with the layout", &bytes));
        }
        let fill = random.next() as u8;
        let length = bytes.len();
        let rooms = [length, length + 1, length - 1, length + 9, random.below(length)];
        rooms.into_iter().try_for_each(|room| write_into(&plan, &bytes, room, fill))
    })
}

/// 1 to 8 where they were put, the first of two faults first.
pub fn damaged_fields(seed: u64, cases: usize, hits: &mut Hits) -> Result<(), String> {
    run_cases(seed, cases, |random| {
        let layout = Layout::of(&plans::any_plan(random));
        let Damaged { bytes, fault, kind } = damage::damaged_field(random, &layout);
        expect(&bytes, verdict(&bytes, hits), Err(fault))?;
        expect(&bytes, read(&bytes).map(|_| ()), Err(fault))?;
        match faulty_field(&bytes) == Some(kind) {
            true => Ok(()),
            false => Err(Failure::new(format!("the faulty field is {kind:?}"), &bytes)),
        }
    })
}

fn expect_fault(found: (Plan, Fault), hits: &mut Hits) -> Result<(), Failure> {
    let bytes = Layout::of(&found.0).bytes;
    expect(&bytes, verdict(&bytes, hits), Err(found.1))
}

/// 11 to 18 in the activity they were put in, pairs included.
pub fn faulty_activities(seed: u64, cases: usize, hits: &mut Hits) -> Result<(), String> {
    run_cases(seed, cases, |random| expect_fault(templates::faulty_activity_plan(random), hits))
}

/// 21 to 24 at the state they were put at, pairs included.
pub fn faulty_automata(seed: u64, cases: usize, hits: &mut Hits) -> Result<(), String> {
    run_cases(seed, cases, |random| expect_fault(templates::faulty_automaton_plan(random), hits))
}

/// 25 where a transition emits less than it did.
pub fn unbalanced_automata(seed: u64, cases: usize, hits: &mut Hits) -> Result<(), String> {
    run_cases(seed, cases, |random| {
        templates::unbalanced_plan(random).map_or(Ok(()), |found| expect_fault(found, hits))
    })
}

/// Breaks a rule of "The plan file" in a plan that is already in hand.
fn break_a_file_rule(random: &mut Random, plan: &mut Plan) {
    let a = random.below(plan.activities.len());
    let nodes = plan.activities[a].len() as u8;
    let n = random.below(nodes as usize);
    let node = &mut plan.activities[a][n];
    match random.below(12) {
        0 => plan.resources = random.pick(&[17, 255]),
        1 => plan.peripherals.push(plan.resources),
        2 => plan.events.push(random.pick(&[0, 9])),
        3 => node.duration = 60_000_001,
        4 => node.kind = Kind::Claim(plan.resources),
        5 => node.predecessors = vec![nodes],
        6 => node.predecessors = vec![0, 0],
        7 => node.predecessors = (0..9).collect(),
        8 => plan.activities[a].clear(),
        9 => plan.automaton.initial = plan.automaton.states,
        10 => plan.automaton.states = random.pick(&[0, 65]),
        _ => {
            plan.activities[a][n].kind = Kind::Release(0);
            plan.activities[a][n].duration = 1;
        }
    }
}

/// 50 before 36, and an untouched buffer.
pub fn unwritable_plans(seed: u64, cases: usize, hits: &mut Hits) -> Result<(), String> {
    run_cases(seed, cases, |random| {
        let mut plan = loop {
            let found = plans::any_plan(random);
            if !found.activities.is_empty() {
                break found;
            }
        };
        break_a_file_rule(random, &mut plan);
        let bytes = encode(&plan);
        let room = random.pick(&[0, bytes.len(), bytes.len() + 40]);
        let mut buffer = vec![0xA5; room];
        let answer = write(&plan, &mut buffer);
        hits.hit("writing refused 50");
        let untouched = buffer.iter().all(|&byte| byte == 0xA5);
        match answer == Err(Fault::new(50, 0)) && untouched && !meets_file_rules(&plan) {
            true => Ok(()),
            false => Err(Failure::new(format!("writing a plan that breaks a rule: {answer:?}"), &bytes)),
        }
    })
}

/// Whatever reads is written back as it was, and keeps the file rules.
pub fn blind_damage(seed: u64, cases: usize, hits: &mut Hits) -> Result<(), String> {
    run_cases(seed, cases, |random| {
        let bytes = inputs::plan_file(random);
        let _ = verdict(&bytes, hits);
        match read(&bytes) {
            Ok(plan) if !meets_file_rules(&plan) || Layout::of(&plan).bytes != bytes => {
                Err(Failure::new("a file that reads is not what its plan is written as", &bytes))
            }
            Ok(plan) => write_into(&plan, &bytes, bytes.len() + 1, 0x5A),
            Err(fault) if fault.number > 8 || fault.place > bytes.len() as u64 => {
                Err(Failure::new(format!("{fault:?} while reading"), &bytes))
            }
            Err(_) => Ok(()),
        }
    })
}

#[test]
fn files_are_read_written_and_judged() {
    let seed = settings::seed();
    let mut hits = Hits::default();
    let checks: [(super::Check, usize); 7] = [
        (accepted_plans, 20_000),
        (damaged_fields, 20_000),
        (faulty_activities, 10_000),
        (faulty_automata, 10_000),
        (unbalanced_automata, 5_000),
        (unwritable_plans, 5_000),
        (blind_damage, 40_000),
    ];
    for (check, cases) in checks {
        check(seed, settings::cases(cases), &mut hits).unwrap_or_else(|what| panic!("{what}"));
    }
    judge_hits("files", &hits, &wanted_of_files());
}
