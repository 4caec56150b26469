//! Markers by hand: events of one outcome, which a path runs through and which are reported at any time.

use crate::check::log::{record, Log};
use crate::check::stitching::processed;
use crate::check::{demand_3, expected};
use crate::generate::markers::marked_path;
use crate::plan_file::{encode, Activity, Automaton, Kind, Node, Plan, Transition};
use crate::run::{Call, Opening, Reply, Request, Run, Stop};
use crate::timetable::timetable;
use crate::toggles::{with_broken, Broken};

const PSI: u64 = 1_000_000;
const MARKER: u8 = 0;
const DECISION: u8 = 1;

/// The action of activity 0, its marker and, where it has one, its decision; the action of activity 1.
const ACTION: (u32, u8) = (0, 1);
const MARKED: (u32, u8) = (0, 2);
const DECIDED: (u32, u8) = (0, 3);

pub fn node(kind: Kind, duration: u32, predecessors: &[u8]) -> Node {
    Node { kind, duration, predecessors: predecessors.to_vec() }
}

/// An action of 3,000, then a marker of 4,000 and perhaps a decision of 1,000; the resource is available
/// when the action is complete.
fn marking(decides: bool) -> Activity {
    let mut nodes = vec![
        node(Kind::Claim(0), 0, &[]),
        node(Kind::Action { number: 0, peripheral: 0 }, 3_000, &[0]),
        node(Kind::Event(MARKER), 4_000, &[1]),
    ];
    if decides {
        nodes.push(node(Kind::Event(DECISION), 1_000, &[1]));
    }
    nodes.push(node(Kind::Release(0), 0, &[1]));
    nodes
}

/// One way after the other: the event that is processed and the activity.
fn plan(decides: bool, ways: &[(Option<u8>, Option<u8>)]) -> Plan {
    let action = node(Kind::Action { number: 1, peripheral: 0 }, 2_000, &[0]);
    let sewing = vec![node(Kind::Claim(0), 0, &[]), action, node(Kind::Release(0), 0, &[1])];
    let events = if decides { vec![1, 2] } else { vec![1] };
    let mut transitions = vec![];
    for (from, &(event, activity)) in (0u8..).zip(ways) {
        let way = |input| Transition { from, to: from + 1, input, activity };
        match event {
            None => transitions.push(way(None)),
            Some(event) => transitions.extend((0..events[event as usize]).map(|o| way(Some((event, o))))),
        }
    }
    let last = ways.len() as u8;
    let automaton = Automaton { states: last + 1, initial: 0, finals: 1 << last, transitions };
    Plan { resources: 1, peripherals: vec![0], events, activities: vec![marking(decides), sewing], automaton }
}

/// A marker between two activities.
fn between() -> Plan {
    plan(false, &[(None, Some(0)), (Some(MARKER), Some(1))])
}

/// A marker that is processed after a decision.
pub fn carried() -> Plan {
    plan(true, &[(None, Some(0)), (Some(DECISION), None), (Some(MARKER), Some(1))])
}

pub fn opening(plan: &Plan) -> Opening {
    Opening { plan: encode(plan), psi: PSI, slack: 500, availabilities: vec![0] }
}

fn same<T: PartialEq + std::fmt::Debug>(what: &str, found: T, wanted: T) -> Result<(), String> {
    match found == wanted {
        true => Ok(()),
        false => Err(format!("{what}: {found:?} instead of {wanted:?}")),
    }
}

fn ask(after: u64) -> Call {
    Call { reading: PSI + after, request: Request::Ask }
}

fn complete(after: u64, (position, node): (u32, u8)) -> Call {
    Call { reading: PSI + after, request: Request::Completion { position, node } }
}

fn tell(after: u64, (position, node): (u32, u8), outcome: u8) -> Call {
    Call { reading: PSI + after, request: Request::Outcome { position, node, outcome } }
}

fn start((position, node): (u32, u8), activity: u8) -> Reply {
    Reply::Start { position, activity, node }
}

fn stop(number: u8, node: Option<(u32, u8)>) -> Reply {
    Reply::Stopped(Stop { number, node })
}

/// Whether calls are answered as wanted, by the run and by the expected answers, and demand 3 holds.
fn answered(plan: &Plan, wanted: &[(Call, Reply)]) -> Result<Log, String> {
    let calls: Vec<Call> = wanted.iter().map(|(call, _)| *call).collect();
    let log = record(&opening(plan), &calls)?;
    for (entry, (call, reply)) in log.calls.iter().zip(wanted) {
        same(&format!("{call:?}"), entry.reply, *reply)?;
    }
    expected::check(&log)?;
    demand_3::check(plan, &log)?;
    Ok(log)
}

/// The action is done, and the marker is started at 3,000.
fn until_marked() -> Vec<(Call, Reply)> {
    vec![
        (ask(0), start(ACTION, 0)),
        (ask(0), Reply::Wait),
        (complete(2_999, ACTION), Reply::Taken),
        (ask(3_000), start(MARKED, 0)),
    ]
}

/// Both activities are loaded at once; the second starts at the marker's completion, 7,000, and not at
/// 3,000, when its resource is available.
fn loaded_at_once() -> Result<(), String> {
    let (_, run) = Run::open(&opening(&between()));
    let times: Vec<_> = run.window().iter().map(|e| (e.time.position, e.time.node, e.time.start)).collect();
    same("window", times, vec![(0, 1, 0), (0, 2, 3_000), (1, 1, 7_000)])?;
    same("final state", run.state, 2)?;
    let rest = [
        (ask(3_000), Reply::Wait),
        (tell(3_100, MARKED, 0), Reply::Taken),
        (ask(6_999), Reply::Wait),
        (ask(7_000), start((1, 1), 1)),
        (complete(8_999, (1, 1)), Reply::Taken),
        (ask(8_999), Reply::Done),
    ];
    let log = answered(&between(), &[until_marked(), rest.to_vec()].concat())?;
    same("processed outcomes", processed(&between(), &log), vec![0])
}

/// "Stop 42 still covers it"; 52 to 55 as for every event.
fn numbers() -> Result<(), String> {
    let plan = between();
    let overdue = [(ask(6_999), Reply::Wait), (ask(7_000), stop(42, Some(MARKED)))];
    answered(&plan, &[until_marked(), overdue.to_vec()].concat())?;
    let late = (ask(3_501), stop(41, Some(MARKED)));
    answered(&plan, &[&until_marked()[..3], &[late]].concat())?;
    let before = [(tell(0, MARKED, 0), Reply::Refused(53)), (complete(0, MARKED), Reply::Refused(53))];
    answered(&plan, &before)?;
    let refused = [
        (complete(3_000, MARKED), Reply::Refused(54)),
        (tell(3_000, MARKED, 1), Reply::Refused(55)),
        (tell(3_000, MARKED, 255), Reply::Refused(55)),
        (tell(3_000, MARKED, 0), Reply::Taken),
        (tell(3_000, MARKED, 0), Reply::Refused(52)),
    ];
    answered(&plan, &[until_marked(), refused.to_vec()].concat()).map(drop)
}

/// The final state is reached at the opening, and done is said only after the marker's report.
fn done_after_report() -> Result<(), String> {
    let last = plan(false, &[(None, Some(0)), (Some(MARKER), None)]);
    let rest = [
        (ask(3_000), Reply::Wait),
        (ask(6_999), Reply::Wait),
        (tell(6_999, MARKED, 0), Reply::Taken),
        (ask(6_999), Reply::Done),
    ];
    answered(&last, &[until_marked(), rest.to_vec()].concat()).map(drop)
}

/// The calls up to the start of the decision.
fn until_deciding() -> Vec<(Call, Reply)> {
    [until_marked(), vec![(ask(3_000), start(DECIDED, 0))]].concat()
}

/// The reports of the marker and of the decision, either of them first.
fn both_reports() -> [(Call, Reply); 2] {
    [(tell(3_200, MARKED, 0), Reply::Taken), (tell(3_200, DECIDED, 1), Reply::Taken)]
}

/// The marker is reported before or after the decision, whose path processes it.
fn report_before_and_after() -> Result<(), String> {
    let [marker, decision] = both_reports();
    let rest = [(ask(6_999), Reply::Wait), (ask(7_000), start((2, 1), 1))];
    for order in [[marker, decision], [decision, marker]] {
        let log = answered(&carried(), &[&until_deciding()[..], &order, &rest].concat())?;
        same("processed outcomes", processed(&carried(), &log), vec![1, 0])?;
    }
    Ok(())
}

/// A marker's report leaves all but the window and the reading as it was.
fn report_closes_the_node() -> Result<(), String> {
    let played = |calls: &[(Call, Reply)]| {
        let (_, run) = Run::open(&opening(&carried()));
        calls.iter().fold(run, |run, (call, _)| run.call(*call).1)
    };
    let ([marker, decision], head) = (both_reports(), until_deciding());
    for before in [head.clone(), [&head[..], &[decision]].concat()] {
        let mut wanted = played(&before);
        wanted.window.retain(|entry| (entry.time.position as u32, entry.time.node) != MARKED);
        wanted.last_reading = PSI + 3_200;
        let found = played(&[&before[..], &[marker]].concat());
        same("the run after a marker's report", found, wanted)?;
    }
    Ok(())
}

/// Stretches of 61 nodes and a last one: the whole path must fit the window, at the opening and at a call.
fn whole_paths_fit() -> Result<(), String> {
    let opened = |last: usize, is_decided: bool| {
        let plan = marked_path(&[&[61; 8][..], &[last]].concat(), is_decided);
        let opening = Opening { plan: encode(&plan), psi: 0, slack: 1, availabilities: vec![0] };
        let (answer, run) = Run::open(&opening);
        (answer.err().map(|fault| (fault.number, fault.place)), run)
    };
    same("512 nodes", opened(24, false).0, None)?;
    same("513 nodes", opened(25, false).0, Some((43, 0)))?;
    for (last, reply, held) in [(24, Reply::Taken, 512), (25, stop(43, None), 0)] {
        let (_, run) = opened(last, true).1.ask(0);
        let (answer, run) = run.outcome(1_999, 0, 1, 1);
        same("a path of 512 or 513 nodes at a call", (answer, run.window.len()), (reply, held))?;
    }
    Ok(())
}

const HEADER: &str = "position activity node start end\n0 0 1 0 3000\n0 0 2 3000 7000\n";

/// No byte is read for a marker; the place of 55 counts the bytes that are read.
fn timetables() -> Result<(), String> {
    let printed = |plan: &Plan, outcomes: &[u8]| {
        let bytes = encode(plan);
        timetable(&[&(bytes.len() as u16).to_le_bytes()[..], &bytes, outcomes].concat())
    };
    let whole = format!("{HEADER}1 1 1 7000 9000\nfree 9000\nend 2\n");
    same("no outcome", printed(&between(), &[]), whole.clone())?;
    same("a spare outcome", printed(&between(), &[7]), whole)?;
    let rows = format!("{HEADER}0 0 3 3000 4000\n");
    same("waits", printed(&carried(), &[]), format!("{rows}free 3000\nwaits 1 1\n"))?;
    let end = format!("{rows}2 1 1 7000 9000\nfree 9000\nend 3\n");
    same("one outcome", printed(&carried(), &[1, 7]), end)?;
    // The marker is passed before the decision is awaited.
    let before = plan(true, &[(None, Some(0)), (Some(MARKER), Some(1)), (Some(DECISION), None)]);
    let rows = format!("{rows}1 1 1 7000 9000\n");
    same("waits after it", printed(&before, &[]), format!("{rows}free 9000\nwaits 2 1\n"))?;
    same("55 after it", printed(&before, &[2]), format!("{rows}refused 55 0\n"))
}

pub fn markers() -> Result<(), String> {
    loaded_at_once()?;
    numbers()?;
    done_after_report()?;
    report_before_and_after()?;
    report_closes_the_node()?;
    whole_paths_fit()?;
    timetables()
}

#[test]
fn a_path_runs_on_through_a_marker() {
    loaded_at_once().unwrap();
    whole_paths_fit().unwrap();
}

#[test]
fn a_marker_is_started_and_reported_as_every_event() {
    numbers().unwrap();
    done_after_report().unwrap();
}

#[test]
fn a_marker_may_be_reported_before_and_after_it_is_processed() {
    report_before_and_after().unwrap();
    report_closes_the_node().unwrap();
}

#[test]
fn a_timetable_reads_no_byte_for_a_marker() {
    timetables().unwrap();
}

#[test]
fn broken_markers_are_noticed_by_hand() {
    let by: [(Broken, fn() -> Result<(), String>); 8] = [
        (Broken::MarkerRaisesNothing, loaded_at_once),
        (Broken::WaitsAtMarkers, loaded_at_once),
        (Broken::MarkersNeverOverdue, numbers),
        (Broken::MarkerCompletionTaken, numbers),
        (Broken::MarkerLacksNothing, numbers),
        (Broken::DoneBeforeMarkers, done_after_report),
        (Broken::MarkerKept, report_closes_the_node),
        (Broken::ByteForAMarker, timetables),
    ];
    for (toggle, check) in by {
        assert!(with_broken(toggle, check).is_err(), "{toggle:?}");
    }
}
