//! How many lists of every kind of host meet all four conditions of the host's side, so that demand
//! 3 says something about them, and how such lists end.

use crate::check::demand_3;
use crate::check::host::HostSide;
use crate::check::log::{record, Log};
use crate::compare::hits::{end, Hits, KEPT};
use crate::compare::settings;
use crate::generate::hosts::Host;
use crate::generate::plan_t;
use crate::run::{Call, Opening, Request};
use crate::verdict::judge;

/// Lines of the table with their least counts, of the 20,000 lists that the test of call lists drives.
const LEAST: &[(&str, usize)] = &[
    ("host kept its side", 6_000),
    ("host kept its side, something started", 2_500),
    ("host kept its side, with refused calls", 3_000),
    ("host kept its side, done", 1_200),
    ("host kept its side, stop 43", 40),
    ("host kept its side, stop 44", 20),
    ("host kept its side: Careful, done", 300),
    ("host kept its side: Exact, done", 5),
    ("host kept its side: Late, done", 40),
    ("host kept its side: Overdue, done", 80),
    ("host kept its side: Twice, done", 100),
    ("host kept its side: Nonsense, done", 100),
    ("host kept its side: Backwards, done", 100),
    ("host kept its side: Random, done", 40),
    ("41 or 42, host broke only: first reading", 80),
    ("41 or 42, host broke only: steps", 80),
    ("41 or 42, host broke only: asks", 10),
    ("41 or 42, host broke only: reports", 80),
];

/// Counts a list by whether its host kept its side, and by what kind of host it was.
pub fn count(hits: &mut Hits, host: Host, log: &Log, side: HostSide) {
    hits.host_side(log, side);
    if side.is_kept() {
        hits.hit(format!("{KEPT}: {host:?}, {}", end(log)));
    }
}

/// Enough lists of every sort, unless the cases were chosen by hand.
pub fn judge_counts(hits: &Hits) {
    for (what, least) in LEAST {
        let found = hits.count(what);
        let few = settings::is_by_hand() || cfg!(debug_assertions);
        assert!(few || found >= *least, "{what}: {found}, at least {least} are wanted");
    }
}

/// What the host of a list keeps: T, Ψ 1,000,000, slack 500, availabilities 0; readings from Ψ on.
fn side(calls: &[(i64, Request)]) -> HostSide {
    let opening = Opening { plan: plan_t(), psi: 1_000_000, slack: 500, availabilities: vec![0, 0] };
    let call =
        |&(from_psi, request): &(i64, Request)| Call { reading: (1_000_000 + from_psi) as u64, request };
    let log = record(&opening, &calls.iter().map(call).collect::<Vec<_>>()).expect("runs are handed back");
    let judged = demand_3::judged(&judge(&opening.plan).expect("T is accepted"), &log);
    assert!(judged.breaches.is_empty(), "{:?}", judged.breaches);
    judged.host
}

#[test]
fn the_four_conditions_hold_up_to_their_edges() {
    const ASK: Request = Request::Ask;
    const REPORT: Request = Request::Completion { position: 0, node: 2 };
    let broken = |calls: &[(i64, Request)]| match side(calls) {
        side if side.is_kept() => None,
        side => Some(side.only_broken().expect("one condition at a time")),
    };
    assert_eq!(broken(&[]), None);
    assert_eq!(broken(&[(500, ASK)]), None);
    assert_eq!(broken(&[(501, ASK)]), Some("first reading"));
    assert_eq!(broken(&[(-500, ASK), (0, ASK)]), None);
    assert_eq!(broken(&[(-501, ASK), (0, ASK)]), Some("steps"));
    // The ask at 0 starts node 2. The second one starts nothing; it need not be the last call at 0.
    assert_eq!(broken(&[(0, ASK), (1, ASK)]), Some("asks"));
    assert_eq!(broken(&[(0, ASK), (0, ASK), (1, ASK)]), None);
    assert_eq!(broken(&[(0, ASK), (0, ASK), (0, REPORT), (1, ASK)]), None);
    assert_eq!(broken(&[(0, ASK), (0, REPORT), (1, ASK)]), Some("asks"));
    // A refused call counts for nothing: 53 at 500, 51 at -2.
    assert_eq!(broken(&[(-1, ASK), (500, REPORT), (0, ASK)]), None);
    assert_eq!(broken(&[(-1, ASK), (-2, ASK), (499, ASK)]), None);
    // Node 2 completes at 3,000.
    let steps = [(0, ASK), (0, ASK), (500, ASK), (1_000, ASK), (1_500, ASK), (2_000, ASK), (2_500, ASK)];
    let then = |more: &[(i64, Request)]| broken(&[&steps[..], more].concat());
    assert_eq!(then(&[(2_999, ASK)]), None);
    assert_eq!(then(&[(2_999, REPORT)]), None);
    assert_eq!(then(&[(2_500, REPORT), (3_000, ASK)]), None);
    assert_eq!(then(&[(3_000, REPORT)]), Some("reports"));
    assert_eq!(then(&[(3_000, ASK)]), Some("reports"));
}
