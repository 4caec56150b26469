//! Plan files through both builds: the reader's, the activities' and the whole verdict, and the
//! writer on buffers of every length around the plan's, filled beforehand.

#![cfg(any(
    feature = "rattle_read",
    feature = "rattle_activities",
    feature = "rattle_judge",
    feature = "rattle_write_back"
))]

use jidlekuvo_reference::compare::hits::{wanted_of_fields, wanted_of_files, Hits};
#[cfg(feature = "rattle_host")]
use jidlekuvo_reference::compare::host;
use jidlekuvo_reference::compare::smaller::smallest_file;
use jidlekuvo_reference::compare::threads::in_threads;
use jidlekuvo_reference::compare::{rattle, settings, Failure};
use jidlekuvo_reference::generate::{inputs, plans, Random};
use jidlekuvo_reference::plan_file::{encode, faulty_field, read, Plan};
use jidlekuvo_reference::{verdict, Fault};

fn word(verdict: Result<Plan, Fault>) -> u64 {
    verdict.err().map_or(0, Fault::word)
}

/// Where the two builds differ on a file, if they do.
#[allow(unused_variables, unused_mut)]
fn difference(bytes: &[u8]) -> Option<String> {
    let mut pairs: Vec<(&str, u64, u64)> = Vec::new();
    #[cfg(feature = "rattle_read")]
    pairs.push(("read", word(read(bytes)), rattle::read(bytes)));
    #[cfg(feature = "rattle_activities")]
    pairs.push(("activities", word(verdict::read_and_judge_activities(bytes)), rattle::activities(bytes)));
    let whole = word(verdict::judge(bytes));
    #[cfg(feature = "rattle_judge")]
    pairs.push(("judge", whole, rattle::judge(bytes)));
    #[cfg(feature = "rattle_host")]
    pairs.push(("judge, for a host", whole, host::judge(bytes)));
    let (what, rust, rattle) = pairs.into_iter().find(|(_, rust, rattle)| rust != rattle)?;
    let told = |word: u64| format!("{} at {}", word >> 32, word & 0xFFFF_FFFF);
    Some(format!("{what}: Rust {}, Rattle {}", told(rust), told(rattle)))
}

fn compared(bytes: &[u8]) -> Result<(), Failure> {
    if difference(bytes).is_none() {
        return Ok(());
    }
    let smallest = smallest_file(bytes, |tried| difference(tried).is_some());
    Err(Failure::new(difference(&smallest).unwrap_or_default(), &smallest))
}

#[test]
#[cfg(any(feature = "rattle_read", feature = "rattle_activities", feature = "rattle_judge"))]
fn verdicts_agree() {
    let case = |random: &mut Random, hits: &mut Hits| {
        let bytes = inputs::plan_file(random);
        let number = verdict::judge(&bytes).err().map(|fault| fault.number);
        hits.verdict(number);
        if let (Some(number), Some(kind)) = (number, faulty_field(&bytes)) {
            hits.field(number, kind);
        }
        compared(&bytes)
    };
    let cases = settings::cases(120_000);
    let hits = in_threads(settings::seed(), cases, case).unwrap_or_else(|what| panic!("{what}"));
    hits.print(&format!("verdicts on {cases} files agree"));
    let missing = hits.missing(&[wanted_of_files(), wanted_of_fields()].concat());
    assert!(settings::is_by_hand() || missing.is_empty(), "never hit: {missing:?}");
}

#[test]
#[cfg(any(feature = "rattle_read", feature = "rattle_activities", feature = "rattle_judge"))]
fn verdicts_on_the_largest_plans_agree() {
    for plan in [plans::largest_plan(), plans::longest_readable_plan(), plans::wide_plan(450, 62)] {
        let bytes = encode(&plan);
        compared(&bytes).unwrap_or_else(|failure| panic!("{}", failure.told()));
        let longer = [&bytes[..], &[0]].concat();
        compared(&longer).unwrap_or_else(|failure| panic!("{}", failure.told()));
        for cut in (0..bytes.len()).step_by(97) {
            compared(&bytes[..cut]).unwrap_or_else(|failure| panic!("{}", failure.told()));
        }
    }
}

/// What writing back must answer and leave in the buffer.
#[cfg(feature = "rattle_write_back")]
fn expected_write(plan: &Result<Plan, Fault>, buffer: &mut [u8]) -> u64 {
    match plan {
        Err(fault) => fault.word(),
        Ok(plan) => match jidlekuvo_reference::plan_file::write(plan, buffer) {
            Ok(length) => length as u64,
            Err(fault) => fault.word(),
        },
    }
}

#[cfg(feature = "rattle_write_back")]
fn writes_differ(bytes: &[u8], room: usize, fill: u8) -> Option<String> {
    writes_of(bytes, &read(bytes), room, fill)
}

/// The same of bytes that have been read.
#[cfg(feature = "rattle_write_back")]
fn writes_of(bytes: &[u8], plan: &Result<Plan, Fault>, room: usize, fill: u8) -> Option<String> {
    let mut ours = vec![fill; room];
    let mut theirs = vec![fill; room];
    let wanted = expected_write(plan, &mut ours);
    let answer = rattle::write_back(bytes, &mut theirs);
    if wanted == answer && ours == theirs {
        return None;
    }
    let at = (0..room).find(|&n| ours[n] != theirs[n]);
    Some(format!("room {room}, fill {fill}: Rust {wanted:#x}, Rattle {answer:#x}, buffers differ at {at:?}"))
}

#[test]
#[cfg(feature = "rattle_write_back")]
fn written_back_agrees() {
    let case = |random: &mut Random, hits: &mut Hits| {
        let bytes = match random.one_in(3) {
            true => inputs::plan_file(random),
            false => encode(&plans::any_plan(random)),
        };
        let fill = random.next() as u8;
        let plan = read(&bytes);
        let around = bytes.len().saturating_sub(4)..bytes.len() + 5;
        for room in around.chain([0, random.below(bytes.len() + 1)]) {
            if let Some(what) = writes_of(&bytes, &plan, room, fill) {
                let smallest = smallest_file(&bytes, |tried| writes_differ(tried, room, fill).is_some());
                return Err(Failure::new(what, &smallest));
            }
        }
        hits.verdict(plan.err().map(|fault| fault.number));
        Ok(())
    };
    let cases = settings::cases(100_000);
    let hits = in_threads(settings::seed(), cases, case).unwrap_or_else(|what| panic!("{what}"));
    hits.print(&format!("writing back {cases} files agrees"));
}

#[test]
#[cfg(feature = "rattle_write_back")]
fn writing_back_the_longest_plan_agrees() {
    let bytes = encode(&plans::longest_readable_plan());
    for room in [0, 1, bytes.len() - 1, bytes.len(), bytes.len() + 1, bytes.len() + 1000] {
        assert_eq!(writes_differ(&bytes, room, 0x77), None);
    }
}
