//! Pairs of runs with equal outcomes, and pairs in which one outcome is changed.

use crate::check::log::{record, Answered, Log};
use crate::check::stitching::{difference, ends_in_done, processed};
use crate::compare::hits::Hits;
use crate::compare::settings::{self, run_cases};
use crate::compare::Failure;
use crate::generate::pairs::{pair, Pair, Played};
use crate::generate::Random;
use crate::plan_file::{Kind, Plan};
use crate::run::{Reply, Request};
use crate::verdict::judge;

const ALIKE: &str = "both end in done, alike";
const PARTED: &str = "one outcome changed, parted";

/// Lines of the table with their least counts, of the 14,000 cases of the test.
const LEAST: &[(&str, usize)] = &[
    (ALIKE, 5_000),
    ("both end in done, alike, something started", 5_000),
    ("both end in done, alike, outcomes processed", 2_000),
    ("both end in done, alike, apart by the slack", 300),
    ("both end in done, alike, markers in another order", 200),
    (PARTED, 1_000),
];

#[derive(Clone, Copy, Debug, Default, PartialEq, Eq, PartialOrd, Ord)]
struct Largest {
    is_the_slack: bool,
    apart: u64,
}

/// What one pair tells.
struct Read {
    plan: Plan,
    one: Log,
    other: Log,
    /// The processed outcomes of both.
    outcomes: Vec<u8>,
    /// The largest difference of a start reading less Ψ.
    apart: u64,
}

fn is_start(entry: &Answered) -> bool {
    matches!(entry.reply, Reply::Start { .. })
}

fn log_of(played: &Played) -> Result<Log, Failure> {
    record(&played.opening, &played.calls).map_err(|what| Failure::new(what, &played.opening.plan))
}

/// None where one of the two does not end in done.
fn read(pair: &Pair) -> Result<Option<Read>, Failure> {
    let (one, other) = (log_of(&pair.one)?, log_of(&pair.other)?);
    if !ends_in_done(&one) || !ends_in_done(&other) {
        return Ok(None);
    }
    let told = |what: String| {
        let hosts = (pair.one.host, pair.other.host);
        Failure::new(format!("{hosts:?}: {what}"), &one.opening.plan)
    };
    let plan = judge(&one.opening.plan).map_err(|fault| told(format!("opened, but {fault:?}")))?;
    let outcomes = processed(&plan, &one);
    if outcomes != processed(&plan, &other) {
        return Err(told("the same outcomes were told, others were processed".into()));
    }
    let apart = difference(&one, &other).map_err(told)?;
    Ok(Some(Read { plan, one, other, outcomes, apart }))
}

/// An instance, by position and node, of an event with several outcomes.
fn instance_with_others(random: &mut Random, plan: &Plan, log: &Log) -> Option<(u32, u8)> {
    let has_others = |activity: u8, node: u8| match plan.activities[activity as usize][node as usize].kind {
        Kind::Event(event) => plan.events[event as usize] > 1,
        _ => false,
    };
    let started = log.calls.iter().filter_map(|entry| match entry.reply {
        Reply::Start { position, activity, node } if has_others(activity, node) => Some((position, node)),
        _ => None,
    });
    let instances: Vec<(u32, u8)> = started.collect();
    (!instances.is_empty()).then(|| random.pick(&instances))
}

/// With one outcome changed the processed outcomes are others, and the runs may part.
fn change(random: &mut Random, pair: &Pair, read: &Read, hits: &mut Hits) -> Result<(), Failure> {
    let Some(instance) = instance_with_others(random, &read.plan, &read.one) else { return Ok(()) };
    let log = log_of(&pair.changed(random, instance))?;
    if !ends_in_done(&log) {
        return Ok(());
    }
    if processed(&read.plan, &log) == read.outcomes {
        return Err(Failure::new("an outcome was changed, the same were processed", &log.opening.plan));
    }
    match difference(&read.one, &log) {
        Ok(_) => hits.hit("one outcome changed, alike"),
        Err(_) => hits.hit(PARTED),
    }
    Ok(())
}

/// The reported outcomes of a log in order: position, node, and whether it is a marker's.
fn told(plan: &Plan, log: &Log) -> Vec<(u32, u8, bool)> {
    let activity = |of: (u32, u8)| {
        log.calls.iter().find_map(|entry| match entry.reply {
            Reply::Start { position, activity, node } if (position, node) == of => Some(activity),
            _ => None,
        })
    };
    let taken = log.calls.iter().filter(|entry| entry.reply == Reply::Taken);
    let outcome = |entry: &Answered| match entry.call.request {
        Request::Outcome { position, node, .. } => {
            let kind = plan.activities[activity((position, node))? as usize][node as usize].kind;
            Some((position, node, matches!(kind, Kind::Event(event) if plan.is_marker(event))))
        }
        _ => None,
    };
    taken.filter_map(outcome).collect()
}

/// Whether a marker is reported before another event in one log and after it in the other.
fn reports_a_marker_elsewhere(read: &Read) -> bool {
    let (one, other) = (told(&read.plan, &read.one), told(&read.plan, &read.other));
    let place = |event| other.iter().position(|told| *told == event);
    one.windows(2).any(|pair| pair[0].2 != pair[1].2 && place(pair[0]) > place(pair[1]))
}

fn count(hits: &mut Hits, pair: &Pair, read: &Read) {
    hits.hit(ALIKE);
    hits.hit(format!("{ALIKE}: {:?} and {:?}", pair.one.host, pair.other.host));
    let sorts = [
        ("something started", read.one.calls.iter().any(is_start)),
        ("outcomes processed", !read.outcomes.is_empty()),
        ("apart by the slack", read.apart == read.one.opening.slack),
        ("markers in another order", reports_a_marker_elsewhere(read)),
    ];
    for (sort, _) in sorts.iter().filter(|(_, is_such)| *is_such) {
        hits.hit(format!("{ALIKE}, {sort}"));
    }
}

/// Generated pairs; gives the largest difference of a start reading less Ψ, those that are the slack first.
fn pairs(seed: u64, cases: usize, hits: &mut Hits) -> Result<Largest, String> {
    let mut largest = Largest::default();
    run_cases(seed, cases, |random| {
        let Some(pair) = pair(random) else { return Ok(()) };
        let Some(read) = read(&pair)? else {
            hits.hit("not both end in done");
            return Ok(());
        };
        count(hits, &pair, &read);
        let is_the_slack = read.apart == read.one.opening.slack;
        largest = largest.max(Largest { is_the_slack, apart: read.apart });
        change(random, &pair, &read, hits)
    })?;
    Ok(largest)
}

/// The check of pairs, for the mutation check.
pub fn pairs_of_runs(seed: u64, cases: usize, hits: &mut Hits) -> Result<(), String> {
    pairs(seed, cases, hits).map(drop)
}

#[test]
fn the_same_outcomes_give_the_same_stitching() {
    let mut hits = Hits::default();
    let cases = settings::cases(14_000);
    let largest = pairs(settings::seed(), cases, &mut hits).unwrap_or_else(|what| panic!("{what}"));
    hits.print("pairs of runs");
    println!("the largest difference: {largest:?}");
    for (what, least) in LEAST {
        let few = settings::is_by_hand() || cfg!(debug_assertions);
        assert!(
            few || hits.count(what) >= *least,
            "{what}: {}, at least {least} are wanted",
            hits.count(what)
        );
    }
}

/// A pair whose second log is damaged at one of its starts.
fn damaged(random: &mut Random, read: &Read, damage: fn(&mut Log, usize)) -> Option<Log> {
    let calls = read.other.calls.iter().enumerate();
    let starts: Vec<usize> = calls.filter(|(_, entry)| is_start(entry)).map(|(at, _)| at).collect();
    let mut log = read.other.clone();
    damage(&mut log, *starts.get(random.below(starts.len()))?);
    Some(log)
}

const DAMAGES: &[(&str, fn(&mut Log, usize))] = &[
    ("started by the first alone", |log, at| drop(log.calls.remove(at))),
    ("started twice", |log, at| log.calls.insert(at, log.calls[at].clone())),
    ("apart, the slack is", |log, at| log.calls[at].call.reading += 2 * log.opening.slack + 1),
    ("started with activities", |log, at| {
        if let Reply::Start { activity, .. } = &mut log.calls[at].reply {
            *activity = activity.wrapping_add(1);
        }
    }),
];

#[test]
fn a_damaged_pair_is_refused_for_what_is_not_the_same() {
    let mut refused = 0;
    let cases = run_cases(settings::seed(), settings::cases(1_000), |random| {
        let Some(read) = pair(random).map(|pair| read(&pair)).transpose()?.flatten() else { return Ok(()) };
        for (what, damage) in DAMAGES {
            let Some(log) = damaged(random, &read, *damage) else { continue };
            match difference(&read.one, &log) {
                Err(told) if told.contains(what) => refused += 1,
                answer => return Err(Failure::new(format!("{what}: {answer:?}"), &log.opening.plan)),
            }
        }
        Ok(())
    });
    cases.unwrap_or_else(|what| panic!("{what}"));
    println!("{refused} damaged pairs refused");
    assert!(settings::is_by_hand() || cfg!(debug_assertions) || refused >= 500);
}
