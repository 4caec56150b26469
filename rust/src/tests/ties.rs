//! Ties by hand: nodes of one specified start in ask and in 41, and of one completion in 42.

use crate::check::expected;
use crate::check::log::record;
use crate::plan_file::{encode, Activity, Automaton, Kind, Node, Plan, Transition};
use crate::run::{Call, Entry, Opening, Reply, Request, Run, Stop};
use crate::toggles::{with_broken, Broken};

const PSI: u64 = 1_000_000;
const SLACK: u64 = 500;
const DURATION: u64 = 1_000;

/// Position and node.
type Named = (u32, u8);

/// Peripherals 0, 1 and 2 first; then events, by position and then by node. All start at Ψ.
const BY_START: [Named; 6] = [(1, 2), (0, 4), (0, 3), (0, 1), (0, 2), (1, 1)];
/// All complete together.
const BY_COMPLETION: [Named; 6] = [(0, 1), (0, 2), (0, 3), (0, 4), (1, 1), (1, 2)];

/// Claim, executed nodes that all start with it, release.
fn activity(resource: u8, kinds: &[Kind]) -> Activity {
    let bare = |kind, predecessors| Node { kind, duration: 0, predecessors };
    let executed = |&kind: &Kind| Node { kind, duration: DURATION as u32, predecessors: vec![0] };
    let mut nodes = vec![bare(Kind::Claim(resource), vec![])];
    nodes.extend(kinds.iter().map(executed));
    nodes.push(bare(Kind::Release(resource), (1..=kinds.len() as u8).collect()));
    nodes
}

/// Positions 0 and 1 have nodes; after them the three events, markers, are processed. All is loaded at the
/// opening.
fn opening() -> Opening {
    let action = |peripheral| Kind::Action { number: 0, peripheral };
    let one = activity(0, &[Kind::Event(2), Kind::Event(1), action(2), action(1)]);
    let other = activity(1, &[Kind::Event(0), action(0)]);
    let way = |from, input, activity| Transition { from, to: from + 1, input, activity };
    let mut transitions = vec![way(0, None, Some(0)), way(1, None, Some(1))];
    transitions.extend((0..3).map(|event| way(2 + event, Some((event, 0)), None)));
    let plan = Plan {
        resources: 2,
        peripherals: vec![1, 0, 0],
        events: vec![1; 3],
        activities: vec![one, other],
        automaton: Automaton { states: 6, initial: 0, finals: 1 << 5, transitions },
    };
    Opening { plan: encode(&plan), psi: PSI, slack: SLACK, availabilities: vec![0, 0] }
}

fn ask(reading: u64) -> Call {
    Call { reading, request: Request::Ask }
}

/// A report of the kind that the node wants, right after Ψ.
fn report((position, node): Named) -> Call {
    let is_event = BY_START[3..].contains(&(position, node));
    let request = match is_event {
        true => Request::Outcome { position, node, outcome: 0 },
        false => Request::Completion { position, node },
    };
    Call { reading: PSI + 1, request }
}

fn start((position, node): Named) -> Reply {
    Reply::Start { position, activity: position as u8, node }
}

fn stop(number: u8, named: Named) -> Reply {
    Reply::Stopped(Stop { number, node: Some(named) })
}

/// Whether calls are answered as wanted, by the run and by the expected answers.
fn answered(wanted: &[(Call, Reply)]) -> Result<(), String> {
    let calls: Vec<Call> = wanted.iter().map(|(call, _)| *call).collect();
    let log = record(&opening(), &calls)?;
    for (entry, (call, reply)) in log.calls.iter().zip(wanted) {
        if entry.reply != *reply {
            return Err(format!("{call:?} answered {:?} instead of {reply:?}", entry.reply));
        }
    }
    expected::check(&log).map(|_| ())
}

/// The first so many asks at Ψ.
fn asks(many: usize) -> Vec<(Call, Reply)> {
    BY_START[..many].iter().map(|&named| (ask(PSI), start(named))).collect()
}

/// Each ask starts the next one; a late ask in its place names it.
fn ask_and_late() -> Result<(), String> {
    for (many, &next) in BY_START.iter().enumerate() {
        let late = (ask(PSI + SLACK + 1), stop(41, next));
        answered(&[asks(many), vec![late]].concat())?;
    }
    answered(&[asks(6), vec![(ask(PSI), Reply::Wait)]].concat())
}

/// All are started, and so many reported; then 42 names the next.
fn overdue() -> Result<(), String> {
    for (many, &next) in BY_COMPLETION.iter().enumerate() {
        let reports = BY_COMPLETION[..many].iter().map(|&named| (report(named), Reply::Taken)).collect();
        let overdue = (ask(PSI + DURATION), stop(42, next));
        answered(&[asks(6), reports, vec![overdue]].concat())?;
    }
    Ok(())
}

/// The answers to so many asks at Ψ.
fn starts(mut run: Run, many: usize) -> Vec<Reply> {
    let next = |_| {
        let (reply, after) = std::mem::take(&mut run).ask(PSI);
        run = after;
        reply
    };
    (0..many).map(next).collect()
}

/// A run whose window is the entry of position 0, node 3, with other positions and nodes.
fn made_up(entries: &[Named]) -> Run {
    let (_, run) = Run::open(&opening());
    let entry = |(place, &(position, node)): (usize, &Named)| {
        let mut time = run.window[2].time;
        (time.position, time.node) = (position as u64, node);
        Entry { time, started: false, place }
    };
    Run { window: entries.iter().enumerate().map(entry).collect(), ..run.clone() }
}

fn start_of_activity_0((position, node): Named) -> Reply {
    Reply::Start { position, activity: 0, node }
}

#[test]
fn ask_and_41_go_by_peripheral_then_events() {
    ask_and_late().unwrap();
}

#[test]
fn ties_of_42_go_by_position_and_node() {
    overdue().unwrap();
}

#[test]
fn broken_ties_are_noticed_by_hand() {
    let of_start = [
        Broken::TiesByNodeFirst,
        Broken::HighPeripheralsFirst,
        Broken::EventsFirst,
        Broken::PositionBeforePeripheral,
        Broken::LateByPosition,
    ];
    for toggle in of_start {
        assert!(with_broken(toggle, ask_and_late).is_err(), "{toggle:?}");
    }
    for toggle in [Broken::TiesByNodeFirst, Broken::OverdueByPeripheral] {
        assert!(with_broken(toggle, overdue).is_err(), "{toggle:?}");
    }
}

/// Claims (node 0) and releases (node 5) come where events (1 and 2) do, two actions of one peripheral (node 3)
/// by position.
#[test]
fn claims_and_releases_tie_as_events_do() {
    let entries = [(0, 5), (1, 0), (0, 2), (0, 0), (2, 3), (1, 3), (2, 4)];
    let wanted = [(2, 4), (1, 3), (2, 3), (0, 0), (0, 2), (0, 5), (1, 0)].map(start_of_activity_0);
    assert_eq!(starts(made_up(&entries), 7), wanted);
    let late = |run: Run| run.ask(PSI + SLACK + 1).0;
    assert_eq!(late(made_up(&entries)), stop(41, (2, 4)));
    assert_eq!(late(made_up(&entries[..4])), stop(41, (0, 0)));
}

/// Of entries that are alike the one at the lowest place is started; with another activity, and so another
/// kind, one is not alike.
#[test]
fn entries_of_one_node_tie_by_kind_then_place() {
    let run = made_up(&[(0, 1), (0, 1)]);
    let (_, after) = run.clone().ask(PSI);
    assert_eq!([after.window[0].started, after.window[1].started], [true, false]);
    // Node 2 is an event in activity 0 and an action in activity 1.
    let mut run = made_up(&[(0, 2), (0, 2)]);
    run.window[1].time.activity = 1;
    let wanted = [Reply::Start { position: 0, activity: 1, node: 2 }, start_of_activity_0((0, 2))];
    assert_eq!(starts(run, 2), wanted);
}
