//! The check of demand 3 by itself: correct logs in which one thing is damaged, so that exactly one
//! claim breaks. The check must refuse each for that claim and for no other.

mod sound;

use crate::check::claims::Claim;
use crate::check::demand_3;
use crate::check::log::Log;
use crate::compare::hits::Hits;
use crate::compare::settings::{self, run_cases};
use crate::compare::Failure;
use crate::generate::{inputs, Random};
use crate::plan_file::{Kind, Plan};
use crate::run::{Reply, Request, Stop};
use sound::{one_of, reports, Sound};
use std::collections::BTreeSet;

/// Damages a log in one place; None if the log has no such place.
type Damage = fn(&mut Random, &Sound) -> Option<Log>;

const DAMAGES: &[(&str, Claim, Damage)] = &[
    ("a node started twice", Claim::StartedOnce, started_twice),
    ("a start one microsecond early", Claim::NotEarly, started_early),
    ("a start after the slack", Claim::NotLate, started_late),
    ("a report moved behind a start that needs it", Claim::AfterReports, reported_late),
    ("a marker's report moved behind a start that needs it", Claim::AfterReports, marker_reported_late),
    ("a start of a node the word does not have", Claim::OfTheWord, invented),
    ("a start with another activity", Claim::OfItsActivity, another_activity),
    ("a start in answer to a report", Claim::StartedByAnAsk, started_by_a_report),
    ("a done too early", Claim::Done, done_too_early),
    ("a wait where done is due", Claim::Done, done_left_out),
    ("a done without a marker's report", Claim::Done, marker_left_out),
    ("41 or 42 although the host kept its side", Claim::HostSide, unearned_stop),
    ("a 50 in the list", Claim::Never50, number_50),
    ("an entry too few, too many or wrong in the window", Claim::Window, other_window),
];

fn started_twice(random: &mut Random, sound: &Sound) -> Option<Log> {
    let (index, _) = sound.start(random)?;
    let mut calls = sound.log.calls.clone();
    calls.insert(index + 1, calls[index].clone());
    Some(sound.with(calls))
}

fn started_early(random: &mut Random, sound: &Sound) -> Option<Log> {
    let (index, time) = sound.start(random)?;
    let early = (sound.log.opening.psi + time.start).checked_sub(1)?;
    let unrefused = sound.log.calls[..index].iter().filter(|e| !matches!(e.reply, Reply::Refused(_)));
    let in_order = unrefused.map(|e| e.call.reading).all(|reading| reading <= early);
    in_order.then(|| sound.up_to(index, |entry| entry.call.reading = early))
}

fn started_late(random: &mut Random, sound: &Sound) -> Option<Log> {
    let (index, time) = sound.start(random)?;
    let latest = sound.log.opening.psi + time.start + sound.log.opening.slack;
    let late = latest + random.pick(&[1, 1, 2, 5_000]);
    Some(sound.up_to(index, |entry| entry.call.reading = late))
}

/// A report goes behind the start of a node that depends on it. What starts in between was loaded
/// before the report, so that the word does not come into it.
fn reported_late(random: &mut Random, sound: &Sound) -> Option<Log> {
    let (start, time) = sound.start(random)?;
    let (report, reported) = one_of(random, &reports(sound, start))?;
    sound.is_before(reported, time).then(|| moved_behind(sound, report, start))?
}

fn marker_reported_late(random: &mut Random, sound: &Sound) -> Option<Log> {
    let (start, time) = sound.start(random)?;
    let mut markers = reports(sound, start);
    markers.retain(|(_, reported)| sound.is_marker(reported) && sound.is_before(*reported, time));
    let (report, _) = one_of(random, &markers)?;
    moved_behind(sound, report, start)
}

fn moved_behind(sound: &Sound, report: usize, start: usize) -> Option<Log> {
    let loaded = sound.window_before(report);
    let starts = sound.starts();
    let mut between = starts.iter().filter(|(index, _)| (report..=start).contains(index));
    if !between.all(|(_, time)| loaded.contains(time)) {
        return None;
    }
    let mut calls = sound.log.calls[..=start].to_vec();
    let mut moved = calls.remove(report);
    moved.call.reading = calls[start - 1].call.reading;
    calls.push(moved);
    Some(sound.with(calls))
}

/// A claim or release of the activity, a node it does not have, or a position the word does not have.
fn invented(random: &mut Random, sound: &Sound) -> Option<Log> {
    let (index, time) = sound.start(random)?;
    let nodes = &sound.plan.activities[time.activity as usize];
    let bare: Vec<u8> = (0..nodes.len() as u8).filter(|&n| !nodes[n as usize].is_executed()).collect();
    let positions = sound.times.last()?.position as u32 + 1;
    let (position, node) = match random.below(3) {
        0 => (time.position as u32, random.pick(&bare)),
        1 => (time.position as u32, nodes.len() as u8 + random.below(3) as u8),
        _ => (positions + random.below(3) as u32, time.node),
    };
    Some(sound.up_to(index, |entry| entry.reply = Reply::Start { position, activity: time.activity, node }))
}

fn another_activity(random: &mut Random, sound: &Sound) -> Option<Log> {
    let (index, time) = sound.start(random)?;
    let activity = time.activity.wrapping_add(random.between(1, 255) as u8);
    let mut calls = sound.log.calls.clone();
    calls[index].reply = Reply::Start { position: time.position as u32, activity, node: time.node };
    Some(sound.with(calls))
}

fn started_by_a_report(random: &mut Random, sound: &Sound) -> Option<Log> {
    let (index, time) = sound.start(random)?;
    let (position, node) = (time.position as u32, time.node);
    Some(sound.up_to(index, |entry| {
        entry.call.request = match sound.plan.activities[time.activity as usize][node as usize].kind {
            Kind::Event(_) => Request::Outcome { position, node, outcome: 0 },
            _ => Request::Completion { position, node },
        }
    }))
}

fn done_too_early(random: &mut Random, sound: &Sound) -> Option<Log> {
    let index = one_of(random, &sound.answered(|reply| reply == Reply::Wait))?;
    Some(sound.up_to(index, |entry| entry.reply = Reply::Done))
}

fn done_left_out(random: &mut Random, sound: &Sound) -> Option<Log> {
    let index = one_of(random, &sound.answered(|reply| reply == Reply::Done))?;
    Some(sound.up_to(index, |entry| entry.reply = Reply::Wait))
}

/// A marker's report goes that no start depends on.
fn marker_left_out(random: &mut Random, sound: &Sound) -> Option<Log> {
    let done = *sound.answered(|reply| reply == Reply::Done).first()?;
    let starts = sound.starts();
    let mut markers = reports(sound, done);
    markers.retain(|(_, time)| {
        sound.is_marker(time) && !starts.iter().any(|(_, later)| sound.is_before(*time, *later))
    });
    let (report, _) = one_of(random, &markers)?;
    let mut calls = sound.log.calls.clone();
    calls.remove(report);
    Some(sound.with(calls))
}

/// A host that keeps its side over a list keeps it over every beginning of the list.
fn unearned_stop(random: &mut Random, sound: &Sound) -> Option<Log> {
    let going = sound.answered(|reply| !matches!(reply, Reply::Refused(_) | Reply::Stopped(_)));
    let index = one_of(random, &going).filter(|_| sound.host_kept_its_side)?;
    let named = one_of(random, sound.window_before(index))?;
    let stop = Stop { number: random.pick(&[41, 42]), node: Some((named.position as u32, named.node)) };
    Some(sound.up_to(index, |entry| entry.reply = Reply::Stopped(stop)))
}

fn number_50(random: &mut Random, sound: &Sound) -> Option<Log> {
    let index = one_of(random, &sound.answered(|_| true))?;
    Some(sound.up_to(index, |entry| entry.reply = Reply::Refused(50)))
}

/// After a failed loading nothing is claimed of the window.
fn other_window(random: &mut Random, sound: &Sound) -> Option<Log> {
    let index = one_of(random, &sound.answered(|reply| !matches!(reply, Reply::Stopped(_))))?;
    let mut log = sound.log.clone();
    let window = log.calls[index].window.as_mut()?;
    match random.below(3) {
        0 => drop(window.pop()?),
        1 => window.first_mut()?.completion += 1,
        _ => window.push(one_of(random, &sound.times)?),
    }
    Some(log)
}

/// Whether the check refuses a log for one claim, with its message, and for no other.
fn refused_for(claim: Claim, plan: &Plan, log: &Log) -> Result<(), String> {
    let broken: BTreeSet<Claim> = demand_3::judged(plan, log).breaches.iter().map(|b| b.claim).collect();
    let told = demand_3::check(plan, log).err().unwrap_or_default();
    match broken == BTreeSet::from([claim]) && told.contains(claim.message()) {
        true => Ok(()),
        false => Err(format!("broken {broken:?} instead of {claim:?}: {told}")),
    }
}

fn damaged_logs(seed: u64, cases: usize, hits: &mut Hits) -> Result<(), String> {
    run_cases(seed, cases, |random| {
        let input = inputs::call_list(random);
        let Some(sound) = Sound::of(&input).map_err(|what| Failure::new(what, &input))? else {
            return Ok(());
        };
        for (what, claim, damage) in DAMAGES {
            let Some(log) = damage(random, &sound) else { continue };
            let refused = refused_for(*claim, &sound.plan, &log);
            refused.map_err(|told| Failure::new(format!("{what}: {told}"), &input))?;
            hits.hit(*what);
        }
        Ok(())
    })
}

#[test]
fn a_damaged_log_is_refused_for_the_claim_it_breaks() {
    let mut hits = Hits::default();
    damaged_logs(settings::seed(), settings::cases(2_000), &mut hits).unwrap_or_else(|what| panic!("{what}"));
    hits.print("damaged logs refused");
    for (what, ..) in DAMAGES {
        let found = hits.count(what);
        let few = settings::is_by_hand() || cfg!(debug_assertions);
        assert!(few || found >= 100, "{what}: {found} logs");
    }
}
