//! The functions that a host links: what they leave of a run's bytes, and that a comparison with this build's
//! answers notices wrong ones. `call_lists_agree` compares the functions themselves, over 50,000 lists.

#![cfg(feature = "rattle_host")]

mod layout;
mod wrong;

use jidlekuvo_reference::compare::hits::Hits;
use jidlekuvo_reference::compare::host::{self, difference, Held, Host, LINKED};
use jidlekuvo_reference::compare::threads::in_threads;
use jidlekuvo_reference::compare::{settings, Failure};
use jidlekuvo_reference::drive::{calls_among, decode, drive, RECORD};
use jidlekuvo_reference::generate::{inputs, Random};
use jidlekuvo_reference::run::Call;
use layout::{halt, plan_at};
use wrong::WRONG;

/// No wrong host may pass so many lists.
const MOST: usize = 500;

/// This build's records.
fn records(input: &[u8]) -> Vec<u8> {
    let mut out = vec![0; decode(input).map_or(0, |(_, parts)| (parts.len() + 1) * RECORD)];
    drive(input, &mut out);
    out
}

/// The list at which a host differs from this build, and how.
fn noticed(host: Host) -> Option<(usize, String)> {
    (0..MOST).find_map(|at| {
        let input = inputs::call_list(&mut Random::new(settings::seed().wrapping_add(at as u64)));
        difference(host, &input, &records(&input)).map(|what| (at, what))
    })
}

#[test]
fn every_wrong_host_is_noticed() {
    let mut passed = vec![];
    for (what, host) in WRONG {
        match noticed(*host) {
            Some((at, how)) => println!("noticed at list {at:>4}: {what}\n  {how}"),
            None => passed.push(what),
        }
    }
    assert!(passed.is_empty(), "not noticed in {MOST} lists: {passed:?}");
}

/// A name for what a call may leave.
fn kept(before: &Held, kind: u8) -> Option<&'static str> {
    match (halt(before), kind) {
        (0, 5) => Some("refused"),
        (0, _) => None,
        _ => Some("stop kept"),
    }
}

/// A refused call and one to a stopped run leave every byte, any other the plan's.
fn leaves(run: &mut Held, call: Call, hits: &mut Hits) -> Result<(), String> {
    let before = run.clone();
    let kind = host::call(run, call).kind;
    let kept = kept(&before, kind);
    let from = if kept.is_some() { 0 } else { plan_at() };
    hits.hit(kept.unwrap_or("stored"));
    match run.0[from..] == before.0[from..] {
        true => Ok(()),
        false => Err(format!("{call:?}, answered by kind {kind}, changes what it should not")),
    }
}

#[test]
fn calls_leave_what_they_must() {
    let case = |random: &mut Random, hits: &mut Hits| {
        let input = inputs::call_list(random);
        let Some((opening, parts)) = decode(&input) else { return Ok(()) };
        let mut opened = (LINKED.open)(&opening);
        let mut calls = calls_among(&parts).into_iter();
        calls
            .try_for_each(|call| leaves(&mut opened.run, call, hits))
            .map_err(|what| Failure::new(what, &input))
    };
    let cases = settings::cases(3_000);
    let hits = in_threads(settings::seed(), cases, case).unwrap_or_else(|what| panic!("{what}"));
    hits.print(&format!("what the calls of {cases} lists leave"));
    let missing = hits.missing(&["refused", "stop kept", "stored"].map(String::from));
    assert!(settings::is_by_hand() || missing.is_empty(), "never hit: {missing:?}");
}
