//! Checks of runs: every answer is the one expected from the log alone, and demand 3 holds.

use super::{host_side, judge_hits};
use crate::check::host::HostSide;
use crate::check::log::{from_records, record, Log};
use crate::check::{demand_3, expected};
use crate::compare::hits::{wanted_of_runs, Hits};
use crate::compare::markers::{self, Kinds, OF_LISTS};
use crate::compare::settings::{self, run_cases};
use crate::compare::smaller::smallest_call_list;
use crate::compare::ties::{too_few, Ties};
use crate::compare::Failure;
use crate::drive::{calls_among, decode, drive_shown, RECORD};
use crate::generate::hosts::{calls, Host, HOSTS};
use crate::generate::openings::opening;
use crate::generate::{inputs, Random};
use crate::run::{Reply, Run};
use crate::verdict::judge;

/// What a checked input tells.
struct Checked {
    log: Log,
    /// The most paths that one call loaded.
    paths: usize,
    /// None if the opening was refused.
    host: Option<HostSide>,
    ties: Ties,
    markers: Kinds,
}

/// Drives an input and checks its log.
fn checked(input: &[u8]) -> Result<Option<Checked>, String> {
    let Some((opening, parts)) = decode(input) else { return Ok(None) };
    let log = record(&opening, &calls_among(&parts))?;
    let paths = expected::check(&log)?;
    let (host, markers) = match log.answer {
        Ok(()) => demand_3_holds(&log).map(|(host, markers)| (Some(host), markers))?,
        Err(_) => (None, markers::of_refusal(&log)),
    };
    let ties = drives_alike(input, &log)?;
    Ok(Some(Checked { log, paths, host, ties, markers }))
}

/// Demand 3 on the log of an accepted opening; gives what its host kept, and what it shows of markers.
fn demand_3_holds(log: &Log) -> Result<(HostSide, Kinds), String> {
    let plan = judge(&log.opening.plan).map_err(|fault| format!("opened, but {fault:?}"))?;
    let judged = demand_3::judged(&plan, log);
    match judged.breaches.first() {
        Some(breach) => Err(breach.told()),
        None => Ok((judged.host, markers::of_log(&plan, log, &judged))),
    }
}

/// The records of a drive say what the log says, and the rest of the buffer is left alone. Gives the ties
/// that the calls met.
fn drives_alike(input: &[u8], log: &Log) -> Result<Ties, String> {
    let mut out = vec![0xC3; (log.calls.len() + 1) * RECORD + 7];
    let mut ties = Ties::default();
    let written = drive_shown(input, &mut out, |run, reply| ties.look(run, reply));
    let told = from_records(input, &out[..written]).ok_or("records say nothing")?;
    let replies = |log: &Log| log.calls.iter().map(|entry| entry.reply).collect::<Vec<_>>();
    let same = told.answer == log.answer && replies(&told) == replies(log);
    let untouched = out[written..].iter().all(|&byte| byte == 0xC3);
    match same && untouched && written == (log.calls.len() + 1) * RECORD {
        true => Ok(ties),
        false => Err("a drive's records differ from the log".into()),
    }
}

/// Call lists of every kind of host.
pub fn call_lists(seed: u64, cases: usize, hits: &mut Hits) -> Result<(), String> {
    run_cases(seed, cases, |random| {
        let host = random.pick(&HOSTS);
        let input = inputs::call_list_of(random, host);
        match checked(&input) {
            Ok(Some(checked)) => {
                count(hits, host, &checked);
                checked.ties.count_of_an_opening(hits).map_err(|what| Failure::new(what, &input))
            }
            Ok(None) => Ok(()),
            Err(what) => {
                let smallest = smallest_call_list(&input, |tried| self::checked(tried).is_err());
                let what = self::checked(&smallest).err().unwrap_or(what);
                Err(Failure::new(what, &smallest))
            }
        }
    })
}

fn count(hits: &mut Hits, host: Host, checked: &Checked) {
    hits.log(&checked.log);
    markers::count(&checked.markers, hits);
    if checked.paths > 0 {
        hits.hit(format!("lists with {} paths in a call", checked.paths));
    }
    if let Some(side) = checked.host {
        host_side::count(hits, host, &checked.log, side);
    }
}

/// A careful host is never stopped by 41 or 42, and ends with done if given the time.
fn careful_hosts(seed: u64, cases: usize) -> Result<(usize, usize), String> {
    let (mut opened, mut done) = (0, 0);
    run_cases(seed, cases, |random: &mut Random| {
        let opening = opening(random);
        if Run::open(&opening).0.is_err() || opening.availabilities.iter().any(|&a| a > 1_000_000) {
            return Ok(());
        }
        let calls = calls(random, &opening, Host::Careful, 150);
        let log = record(&opening, &calls).map_err(|what| Failure::new(what, &opening.plan))?;
        opened += 1;
        done += log.calls.iter().any(|entry| entry.reply == Reply::Done) as usize;
        let stopped = |number| {
            log.calls.iter().any(|e| matches!(e.reply, Reply::Stopped(stop) if stop.number == number))
        };
        match stopped(41) || stopped(42) {
            true => Err(Failure::new("a careful host was stopped", &opening.plan)),
            false => Ok(()),
        }
    })?;
    Ok((opened, done))
}

#[test]
fn every_answer_is_the_expected_one_and_demand_3_holds() {
    let mut hits = Hits::default();
    let cases = settings::cases(20_000);
    call_lists(settings::seed(), cases, &mut hits).unwrap_or_else(|what| panic!("{what}"));
    let mut wanted = wanted_of_runs();
    wanted.push("lists with 3 paths in a call".into());
    judge_hits("call lists", &hits, &wanted);
    host_side::judge_counts(&hits);
    let few = [too_few(&hits, cases), markers::too_few(&hits, OF_LISTS, cases, 250)].concat();
    assert!(settings::is_by_hand() || few.is_empty(), "too few: {few:?}");
}

#[test]
fn a_careful_host_is_never_stopped() {
    let seed = settings::seed();
    let (opened, done) = careful_hosts(seed, settings::cases(5_000)).unwrap_or_else(|what| panic!("{what}"));
    println!("careful hosts: {opened} opened, {done} ended with done");
    assert!(settings::is_by_hand() || done * 2 > opened);
}
