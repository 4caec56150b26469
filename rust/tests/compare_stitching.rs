//! Pairs of runs with equal outcomes, one of each build: the Rust build's log of the one beside the Rattle
//! side's log of the other.

#![cfg(feature = "rattle_drive")]

use jidlekuvo_reference::check::log::{from_records, played, Log};
use jidlekuvo_reference::check::stitching::{difference, ends_in_done};
use jidlekuvo_reference::compare::hits::Hits;
use jidlekuvo_reference::compare::threads::in_threads;
use jidlekuvo_reference::compare::{rattle, settings, Failure};
use jidlekuvo_reference::drive::{encode_calls, RECORD};
use jidlekuvo_reference::generate::pairs::{pair, Played};
use jidlekuvo_reference::generate::Random;

const ALIKE: &str = "pairs that both end in done";

/// The log that the Rattle side's records tell.
fn driven(one: &Played) -> Option<Log> {
    let input = encode_calls(&one.opening, &one.calls);
    let mut records = vec![0; (one.calls.len() + 1) * RECORD];
    let written = rattle::drive(&input, &mut records);
    from_records(&input, &records[..written.min(records.len())])
}

#[test]
fn one_run_of_each_build_gives_the_same_stitching() {
    let case = |random: &mut Random, hits: &mut Hits| {
        let Some(pair) = pair(random) else { return Ok(()) };
        let (ours, _) = played(&pair.one.opening, &pair.one.calls);
        let told = |what: String| Failure::new(what, &pair.one.opening.plan);
        let theirs = driven(&pair.other).ok_or(told("records say nothing".into()))?;
        if ends_in_done(&ours) && ends_in_done(&theirs) {
            difference(&ours, &theirs).map_err(told)?;
            hits.hit(ALIKE);
        }
        Ok(())
    };
    let cases = settings::cases(2_000);
    let hits = in_threads(settings::seed(), cases, case).unwrap_or_else(|what| panic!("{what}"));
    hits.print(&format!("{cases} cases"));
    assert!(settings::is_by_hand() || cfg!(debug_assertions) || hits.count(ALIKE) >= 750);
}
