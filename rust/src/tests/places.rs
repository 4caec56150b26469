//! Where nodes stand: this build's answers to questions, by themselves.

use super::judge_hits;
use crate::check::places;
use crate::compare::hits::Hits;
use crate::compare::settings::{self, run_cases};
use crate::compare::smaller::smallest_call_list;
use crate::compare::Failure;
use crate::drive::{decode, drive, encode, Part, RECORD};
use crate::generate::plan_t;
use crate::generate::questions::{list_to_ask, with_questions};
use crate::run::{Call, Opening, Request};
use crate::toggles::{with_broken, Broken};

/// T's first node 2, and the node that no window holds.
const ASKED: [Part; 2] = [Part::Place { position: 0, node: 2 }, Part::Place { position: 0, node: 0 }];

fn records(input: &[u8]) -> Vec<u8> {
    let parts = decode(input).map_or(0, |(_, parts)| parts.len() + 1);
    let mut out = vec![0; parts * RECORD];
    drive(input, &mut out);
    out
}

/// A call list, with questions everywhere.
fn checked(list: &[u8]) -> Result<Vec<&'static str>, String> {
    let input = with_questions(list);
    places::check(&input, &records(&input))
}

/// Call lists with questions after the opening and after every call.
pub fn places_kept(seed: u64, cases: usize, hits: &mut Hits) -> Result<(), String> {
    run_cases(seed, cases, |random| {
        let list = list_to_ask(random);
        match checked(&list) {
            Ok(seen) => {
                seen.into_iter().for_each(|what| hits.hit(what));
                Ok(())
            }
            Err(what) => {
                let smallest = smallest_call_list(&list, |tried| checked(tried).is_err());
                let what = checked(&smallest).err().unwrap_or(what);
                Err(Failure::new(what, &with_questions(&smallest)))
            }
        }
    })
}

#[test]
fn nodes_keep_their_places() {
    let mut hits = Hits::default();
    places_kept(settings::seed(), settings::cases(2_000), &mut hits).unwrap_or_else(|what| panic!("{what}"));
    let wanted = [
        places::USED_AGAIN,
        places::SEVERAL_GAPS,
        places::ABSENT,
        places::REFUSED,
        places::KEPT_OVER_44,
        places::MARKER_LEFT,
    ];
    judge_hits("places", &hits, &wanted.map(String::from));
}

/// Nodes in the highest places, moved up, or loaded before the reported node's place is free.
#[test]
fn broken_places_are_noticed() {
    for toggle in [Broken::HighestPlaces, Broken::WindowClosesUp, Broken::ReportedStillCounts] {
        let answer = with_broken(toggle, || places_kept(settings::seed(), 1_000, &mut Hits::default()));
        let what = answer.expect_err(&format!("{toggle:?} is not noticed"));
        println!("{toggle:?}: {}", what.lines().next().unwrap_or_default());
    }
}

fn of_t(slack: u64, calls: &[Call]) -> Vec<u8> {
    let opening = Opening { plan: plan_t(), psi: 1_000_000, slack, availabilities: vec![0, 0] };
    let parts = calls.iter().flat_map(|&call| [ASKED[0], ASKED[1], Part::Call(call)]).chain(ASKED);
    encode(&opening, &parts.collect::<Vec<_>>())
}

/// The answers and places of an input's records, whose other bytes are zeros.
fn told(input: &[u8]) -> Vec<(u8, u64)> {
    let place = |record: &[u8]| u64::from_le_bytes(record[8..].try_into().expect("eight bytes"));
    records(input).chunks_exact(RECORD).map(|record| (record[0], place(record))).collect()
}

#[test]
fn questions_are_answered_by_places() {
    let ask = Call { reading: 1_000_000, request: Request::Ask };
    let report = Call { reading: 1_002_999, request: Request::Completion { position: 0, node: 2 } };
    let input = of_t(500, &[ask, report]);
    let asked = [(7, 0), (7, 512)];
    let reported = [(7, 512), (7, 512)];
    assert_eq!(told(&input), [&[(0, 0)][..], &asked, &[(1, 0)], &asked, &[(4, 0)], &reported].concat());
    assert_eq!(records(&input)[RECORD..2 * RECORD], [7, 0, 0, 0, 0, 0, 0, 0, 0, 0, 0, 0, 0, 0, 0, 0]);
    // A refused opening: a window without nodes.
    let refused = of_t(0, &[ask]);
    assert_eq!(told(&refused), [&[(5, 0)][..], &reported, &[(5, 0)], &reported].concat());
}

#[test]
fn questions_as_bytes() {
    let input = of_t(500, &[]);
    let (opening, parts) = decode(&input).expect("whole");
    assert_eq!(parts, ASKED);
    assert_eq!(encode(&opening, &parts), input);
    assert_eq!(input[input.len() - 12..], [3, 0, 0, 0, 0, 2, 3, 0, 0, 0, 0, 0]);
    // A question that is cut, and a kind above 3, end the list.
    assert_eq!(decode(&input[..input.len() - 1]).expect("whole").1, ASKED[..1]);
    let other = [&input[..input.len() - 6], &[4, 0, 0, 0, 0, 0, 0, 0, 0, 0, 0]].concat();
    assert_eq!(decode(&other).expect("whole").1, ASKED[..1]);
}
