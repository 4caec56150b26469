//! What the check of demand 3 notices by itself, without the expected answer to each call: every
//! mutation of the times and of the run is turned on in turn.

use super::mutations::hush_broken_builds;
use crate::check::claims::Claim;
use crate::check::demand_3;
use crate::check::log::played;
use crate::drive::{calls_among, decode};
use crate::generate::{inputs, Random};
use crate::toggles::{of_the_run, with_broken, Broken};
use crate::verdict::judge;
use std::panic::{catch_unwind, AssertUnwindSafe};

const SEED: u64 = 78_000_000;
const LISTS: u64 = 1_500;

/// What demand 3 does not speak of: which of several due nodes comes first, which number a refusal or
/// a stop has, plans that should not have opened but run well, what is left after a failed loading, and
/// how early a path is loaded, which the window alone tells. The expected answer to each call notices
/// these. Everything else demand 3 must notice by itself, on a log of calls and answers alone: 33 left
/// out, 41 without the slack, a processed completion that holds nothing back and a second start above all.
const NOT_OF_DEMAND_3: &[Broken] = &[
    Broken::TiesByNodeFirst,
    Broken::HighPeripheralsFirst,
    Broken::EventsFirst,
    Broken::PositionBeforePeripheral,
    Broken::OverdueByPeripheral,
    Broken::LateByPosition,
    Broken::RefusalMovesReading,
    Broken::LateBeforeOverdue,
    Broken::ReadingBeforeKeptStop,
    Broken::SlackOfUsedActivities,
    Broken::ReportedStillCounts,
    Broken::FailedReportForgotten,
    Broken::WaitsAtMarkers,
    Broken::MarkerCompletionTaken,
    Broken::MarkerLacksNothing,
    Broken::KindBeforeStarted,
];

/// The first list in which a claim is seen to break.
#[derive(Clone, Copy)]
struct Seen {
    claim: Claim,
    list: u64,
}

/// What is seen of a mutation.
#[derive(Clone, Copy, Default)]
struct Noticed {
    /// In calls and answers, all that a drive tells.
    by_answers: Option<Seen>,
    /// With the windows as well.
    by_windows: Option<Seen>,
}

/// The claims that one list breaks, in the order of the calls. A list on which the broken build
/// panics says nothing about demand 3.
fn broken_claims(list: u64) -> Vec<Claim> {
    let judged = || {
        let input = inputs::call_list(&mut Random::new(SEED + list));
        let (opening, parts) = decode(&input)?;
        let (log, _) = played(&opening, &calls_among(&parts));
        let plan = judge(&opening.plan).ok().filter(|_| log.answer.is_ok())?;
        Some(demand_3::judged(&plan, &log).breaches.iter().map(|breach| breach.claim).collect())
    };
    catch_unwind(AssertUnwindSafe(judged)).ok().flatten().unwrap_or_default()
}

fn noticed(toggle: Broken) -> Noticed {
    let mut noticed = Noticed::default();
    for list in 0..LISTS {
        let claims = with_broken(toggle, || broken_claims(list));
        let in_answers = claims.iter().find(|claim| **claim != Claim::Window);
        noticed.by_answers = noticed.by_answers.or(in_answers.map(|&claim| Seen { claim, list }));
        noticed.by_windows = noticed.by_windows.or(claims.first().map(|&claim| Seen { claim, list }));
        if noticed.by_answers.is_some() {
            break;
        }
    }
    noticed
}

fn column(seen: Option<Seen>) -> String {
    seen.map_or("-".into(), |seen| format!("{:?} (list {})", seen.claim, seen.list))
}

/// On a thread of its own, whose name keeps the panics of broken builds off the screen.
fn noticed_of_all() -> Vec<(Broken, &'static str, Noticed)> {
    hush_broken_builds();
    let work = || of_the_run().map(|(toggle, what)| (toggle, what, noticed(toggle))).collect();
    let thread = std::thread::Builder::new().name("broken on purpose".into()).spawn(work);
    thread.expect("a thread starts").join().expect("panics are caught")
}

#[test]
fn demand_3_alone_notices_mutations() {
    let all = noticed_of_all();
    println!("{:<26} {:<26} mutation", "by calls and answers", "with the windows");
    for (_, what, noticed) in &all {
        println!("{:<26} {:<26} {what}", column(noticed.by_answers), column(noticed.by_windows));
    }
    let by_answers = all.iter().filter(|(.., noticed)| noticed.by_answers.is_some()).count();
    let by_windows = all.iter().filter(|(.., noticed)| noticed.by_windows.is_some()).count();
    println!(
        "{} mutations, {by_answers} noticed by calls and answers, {by_windows} with the windows",
        all.len()
    );
    for (toggle, what, noticed) in all {
        let wanted = !NOT_OF_DEMAND_3.contains(&toggle);
        assert_eq!(noticed.by_answers.is_some(), wanted, "demand 3 by itself: {what}");
    }
}
