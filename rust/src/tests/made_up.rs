//! Runs that no opening made: 50 for what lies outside the limits, a reply for all others.

use crate::generate::plan_t;
use crate::plan_file::{encode, Automaton, Kind, Node, Plan, Transition};
use crate::run::{Opening, Reply, Run, Stop};
use crate::{HORIZON, LAST_POSITION};
use std::sync::Arc;

fn opened() -> Run {
    Run::open(&Opening { plan: plan_t(), psi: 0, slack: 500, availabilities: vec![0, 0] }).1
}

fn wants(what: &str, run: Run, wanted: Option<Reply>) -> Result<(), String> {
    let before = run.clone();
    let (reply, after) = run.ask(0);
    let refused = reply == Reply::Refused(50);
    match wanted {
        Some(reply_wanted) if reply == reply_wanted => Ok(()),
        None if refused && before == after => Ok(()),
        _ => Err(format!("{what}: {reply:?}")),
    }
}

/// A change that pushes a stored value out of its limits.
type Push = (&'static str, fn(&mut Run));

const OUT_OF_LIMITS: &[Push] = &[
    ("slack", |run| run.slack = 0),
    ("large slack", |run| run.slack = 1_000_001),
    ("psi", |run| run.psi = HORIZON + 1),
    ("state", |run| run.state = 3),
    ("position", |run| run.next_position = LAST_POSITION + 2),
    ("availability", |run| run.moment.availabilities[1] = HORIZON + 1),
    ("availabilities", |run| run.moment.availabilities.push(0)),
    ("last completion", |run| run.moment.last_completions[0] = HORIZON + 1),
    ("entry position", |run| run.window[0].time.position = LAST_POSITION + 1),
    ("entry activity", |run| run.window[0].time.activity = 2),
    ("entry node", |run| run.window[0].time.node = 7),
    ("entry completion", |run| run.window[0].time.completion = HORIZON + 1),
    ("pending", |run| {
        let one = run.moment.pending[0][0];
        run.moment.pending[0].extend([one; 8]);
    }),
    ("instance position", |run| run.moment.pending[0][0].position = LAST_POSITION + 1),
    ("instance node", |run| run.moment.pending[0][0].node = 64),
    ("stop", |run| run.stop = Some(Stop { number: 45, node: None })),
    ("node of a stop", |run| run.stop = Some(Stop { number: 41, node: Some((0, 64)) })),
];

/// The last position is good; the next path after it is 44.
fn last_position() -> Result<(), String> {
    for (position, wanted) in [(LAST_POSITION, Reply::Taken), (LAST_POSITION + 1, past_the_end())] {
        let mut run = opened();
        run.window.retain(|entry| entry.time.node == 4);
        run.window[0].started = true;
        run.next_position = position;
        let (reply, after) = run.clone().outcome(10, 0, 4, 1);
        let kept = after.state == run.state && after.outcomes.len() == 1 && after.window.is_empty();
        if reply != wanted || (reply != Reply::Taken && !kept) {
            return Err(format!("position {position}: {reply:?}"));
        }
    }
    Ok(())
}

fn past_the_end() -> Reply {
    Reply::Stopped(Stop { number: 44, node: None })
}

/// A claim that takes time and a predecessor named twice break rules of the file, which are no
/// limits; nor is the node of an instance held to its activity.
fn rules_that_are_no_limits() -> Result<(), String> {
    let pushes: [Push; 3] = [
        ("duration of a claim", |run| Arc::make_mut(&mut run.plan).activities[0][0].duration = 5),
        ("a predecessor twice", |run| {
            Arc::make_mut(&mut run.plan).activities[0][3].predecessors.push(2);
        }),
        ("node of an instance", |run| run.moment.pending[0][0].node = 63),
    ];
    for (what, push) in pushes {
        let mut run = opened();
        push(&mut run);
        wants(what, run, Some(Reply::Start { position: 0, activity: 0, node: 2 }))?;
    }
    Ok(())
}

/// Event 0's outcome is already reported: the completion of an action loads nothing all the same.
fn completion_loads_nothing() -> Result<(), String> {
    let mut run = opened();
    run.window.retain(|entry| entry.time.node == 2);
    run.window[0].started = true;
    run.outcomes.insert((0, 4), 1);
    let (reply, after) = run.clone().completion(10, 0, 2);
    match reply == Reply::Taken && after.window.is_empty() && after.state == run.state {
        true => Ok(()),
        false => Err(format!("completion with a reported outcome: {reply:?}")),
    }
}

/// An entry that names a claim or a release is within the limits: ask starts it when it is due, and
/// both reports get 54, before that 53.
fn entries_of_claims_and_releases() -> Result<(), String> {
    for node in [0, 5] {
        let mut run = opened();
        run.window.truncate(1);
        run.window[0].time.node = node;
        let answers =
            |run: &Run| [run.clone().completion(0, 0, node).0, run.clone().outcome(0, 0, node, 0).0];
        let (start, started) = run.clone().ask(0);
        let wanted_start = Reply::Start { position: 0, activity: 0, node };
        let before = answers(&run) == [Reply::Refused(53); 2];
        let after = answers(&started) == [Reply::Refused(54); 2];
        if start != wanted_start || !before || !after {
            return Err(format!("entry of node {node}: {start:?}, {:?}", answers(&started)));
        }
    }
    Ok(())
}

fn plain(from: u8, to: u8, activity: Option<u8>) -> Transition {
    Transition { from, to, input: None, activity }
}

/// T with other transitions, its event 0 started and the rest of the window empty.
fn awaiting(transitions: Vec<Transition>) -> Run {
    let mut run = opened();
    Arc::make_mut(&mut run.plan).automaton.transitions = transitions;
    run.window.retain(|entry| entry.time.node == 4);
    run.window[0].started = true;
    run
}

/// A path that turns for ever is ended after 64 transitions, the first one included, and counts.
fn endless_paths() -> Result<(), String> {
    let on = |outcome| Transition { from: 1, to: 0, input: Some((0, outcome)), activity: None };
    for activity in [None, Some(0), Some(1)] {
        let run = awaiting(vec![on(0), on(1), plain(0, 0, activity)]);
        let (reply, after) = run.outcome(10, 0, 4, 1);
        let of_one = activity
            .map_or(0, |a| after.plan.activities[a as usize].iter().filter(|n| n.is_executed()).count());
        let ended = after.next_position == 1 + 64 && after.state == 0 && after.window.len() == 63 * of_one;
        // Activity 0 emits the event; what is past the eighth is dropped, and the run stays within
        // the limits.
        let pending = if activity == Some(0) { 8 } else { 0 };
        let answered = after.clone().ask(10).0 == Reply::Wait && after.moment.pending[0].len() == pending;
        if reply != Reply::Taken || !ended || !answered {
            return Err(format!("endless with {activity:?}: {reply:?}, position {}", after.next_position));
        }
    }
    Ok(())
}

/// An accepted plan with a path through all its 64 states but the final one: the path is not cut.
fn longest_path() -> Result<(), String> {
    let node =
        |kind, duration, predecessors: &[u8]| Node { kind, duration, predecessors: predecessors.to_vec() };
    let sensed = vec![
        node(Kind::Claim(0), 0, &[]),
        node(Kind::Event(0), 1_000, &[0]),
        node(Kind::Release(0), 0, &[1]),
    ];
    let on = |outcome, to| Transition { from: 1, to, input: Some((0, outcome)), activity: None };
    let mut transitions = vec![plain(0, 1, Some(0)), on(0, 2), on(1, 63), plain(62, 0, None)];
    transitions.extend((2..62).map(|state| plain(state, state + 1, None)));
    let automaton = Automaton { states: 64, initial: 0, finals: 1 << 63, transitions };
    let plan = Plan { resources: 1, events: vec![2], activities: vec![sensed], automaton, ..Plan::default() };
    let (answer, run) =
        Run::open(&Opening { plan: encode(&plan), psi: 0, slack: 1, availabilities: vec![0] });
    let (start, run) = run.ask(0);
    let (reply, after) = run.outcome(10, 0, 1, 0);
    let good = answer.is_ok() && matches!(start, Reply::Start { .. }) && reply == Reply::Taken;
    match good && after.next_position == 1 + 63 && after.state == 1 && after.window.len() == 1 {
        true => Ok(()),
        false => Err(format!("longest path: {answer:?}, {start:?}, {reply:?}, {}", after.next_position)),
    }
}

pub fn made_up_runs() -> Result<(), String> {
    wants("zeros", Run::zeros(), None)?;
    for (what, push) in OUT_OF_LIMITS {
        let mut run = opened();
        push(&mut run);
        wants(what, run, None)?;
    }
    let mut late = opened();
    late.last_reading = u64::MAX;
    wants("any last reading is in limits", late, Some(Reply::Refused(51)))?;
    let mut stopped = opened();
    stopped.stop = Some(Stop { number: 41, node: Some((0, 63)) });
    wants("node 63 of a stop is in limits", stopped.clone(), stopped.stop.map(Reply::Stopped))?;
    let mut odd = opened();
    odd.window.clear();
    wants("an empty window at a waiting state waits", odd, Some(Reply::Wait))?;
    last_position()?;
    rules_that_are_no_limits()?;
    completion_loads_nothing()?;
    entries_of_claims_and_releases()?;
    endless_paths()?;
    longest_path()
}

#[test]
fn made_up_runs_get_50_or_a_reply() {
    made_up_runs().unwrap();
}
