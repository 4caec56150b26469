//! Plans with markers, events of one outcome; and what the law says of them, apart from the tools.

use jidlekuvo_reference::compare::hits::Hits;
use jidlekuvo_reference::compare::settings::is_by_hand;
use jidlekuvo_reference::generate::activity::{activity, Durations};
use jidlekuvo_reference::generate::plans::dense_activity;
use jidlekuvo_reference::generate::Random;
use jidlekuvo_reference::plan_file::{Automaton, Kind, Plan, Transition};
use jidlekuvo_reference::run::{Opening, Run};
use jidlekuvo_reference::specified_times::incremental::shapes;
use jidlekuvo_reference::specified_times::Moment;
use jidlekuvo_reference::HORIZON;

/// A marker between two activities on different resources, then a decision.
pub const MARKED: &str = "plan 1
resource head
resource frame
peripheral needle on head
peripheral mover on frame
event sewn: yes
event thread: whole, broken
activity stitch
c: claim head
sew: action 1 needle for 3000 after c
mark: event sewn for 1000 after sew
look: event thread for 500 after sew
r: release head after sew
activity move
c: claim frame
go: action 2 mover for 2000 after c
r: release frame after go
state begin initial
state marked
state asks
state end final
from begin to marked do stitch
from marked to asks on sewn yes do move
from asks to end on thread whole
from asks to end on thread broken do move
";

/// The transitions that outcomes lead along: "only a state with more than one way out is a waiting state".
pub fn taken(plan: &Plan, outcomes: &[u8]) -> Vec<Transition> {
    let (mut taken, mut state, mut outcomes) = (vec![], plan.automaton.initial, outcomes.iter());
    loop {
        let ways = plan.automaton.ways_out(state);
        let of_outcome = |&outcome: &u8| {
            let has = |way: &&Transition| way.input.is_some_and(|input| input.1 == outcome);
            ways.iter().find(has).copied()
        };
        let way = if let [only] = ways[..] { Some(only) } else { outcomes.next().and_then(of_outcome) };
        let Some(way) = way else { return taken };
        taken.push(way);
        state = way.to;
    }
}

/// Whether an outcome is read for a transition.
pub fn is_decided(plan: &Plan, way: &Transition) -> bool {
    plan.automaton.ways_out(way.from).len() > 1
}

/// Whether a transition runs on through a marker.
pub fn is_passed(plan: &Plan, way: &Transition) -> bool {
    way.input.is_some_and(|(event, _)| plan.is_marker(event)) && !is_decided(plan, way)
}

/// Whether an opening gets its 43 or 44 only because its first path runs on through markers, or because they hold
/// resources back.
pub fn is_refused_by_markers(plan: &Plan, opening: &Opening, number: u8) -> bool {
    let path = taken(plan, &[]);
    match number {
        43 => nodes_of(plan, path.iter().take_while(|way| way.input.is_none())) <= Run::WINDOW,
        44 => latest(plan, &silent(&path), &opening.availabilities) <= HORIZON,
        _ => false,
    }
}

/// The actions and events of some transitions.
fn nodes_of<'a>(plan: &Plan, ways: impl Iterator<Item = &'a Transition>) -> usize {
    let activities = ways.filter_map(|way| way.activity);
    activities.flat_map(|a| &plan.activities[a as usize]).filter(|node| node.is_executed()).count()
}

/// The latest completion or availability of a path.
fn latest(plan: &Plan, path: &[Transition], availabilities: &[u64]) -> u64 {
    let (mut moment, shapes, mut latest) = (Moment::at_opening(plan, availabilities), shapes(plan), 0);
    for (position, way) in (0..).zip(path) {
        let passed = moment.pass(plan, &shapes, way, position);
        (moment, latest) = (passed.moment, passed.latest.max(latest));
    }
    latest
}

/// The same transitions, but they process nothing.
fn silent(path: &[Transition]) -> Vec<Transition> {
    path.iter().map(|way| Transition { input: None, ..*way }).collect()
}

/// Whether a transition of a path processes one of several pending instances.
pub fn has_several_pending(plan: &Plan, path: &[Transition]) -> bool {
    let mut moment = Moment::at_opening(plan, &vec![0; plan.resources as usize]);
    let shapes = shapes(plan);
    (0..).zip(path).any(|(position, way)| {
        let is_one_of_several = way.input.is_some_and(|input| moment.pending[input.0 as usize].len() > 1);
        moment = moment.pass(plan, &shapes, way, position).moment;
        is_one_of_several
    })
}

/// One resource is available late: so late that markers alone take the first path past the horizon, where they
/// hold anything back, or just not so late.
pub fn late_availabilities(random: &mut Random, plan: &Plan) -> Vec<u64> {
    let (mut availabilities, late) = (vec![0; plan.resources as usize], HORIZON / 2);
    let resource = random.below(availabilities.len());
    availabilities[resource] = late;
    let path = taken(plan, &[]);
    let [least, most] = [silent(&path), path].map(|path| latest(plan, &path, &availabilities) - late);
    availabilities[resource] = HORIZON - random.between(least as usize, most as usize) as u64;
    availabilities
}

/// A state for each of some transitions, given by event and activity; all outcomes of an event lead on alike.
fn in_a_row(plan: &Plan, ways: &[(Option<u8>, Option<u8>)]) -> Automaton {
    let of_way = |(from, &(event, activity)): (u8, &(Option<u8>, Option<u8>))| {
        let way = move |input| Transition { from, to: from + 1, input, activity };
        let outcomes = event.map_or(1, |event| plan.events[event as usize]);
        (0..outcomes).map(move |outcome| way(event.map(|event| (event, outcome))))
    };
    let transitions = (0..).zip(ways).flat_map(of_way).collect();
    let last = ways.len() as u8;
    Automaton { states: last + 1, initial: 0, finals: 1 << last, transitions }
}

/// A path of 497 to 558 nodes in nine stretches; each but the first processes the marker that ends the one before.
pub fn long_plan(nodes: usize) -> Plan {
    let (action, marker) = ((Kind::Action { number: 0, peripheral: 0 }, 2_000), (Kind::Event(0), 2_000));
    let mut plan = Plan { resources: 1, peripherals: vec![0], events: vec![1], ..Plan::default() };
    plan.activities.push(dense_activity(0, &[&[action; 61][..], &[marker]].concat()));
    plan.activities.push(dense_activity(0, &vec![action; nodes - 8 * 62]));
    let further = [(Some(0), Some(0)); 7];
    plan.automaton = in_a_row(&plan, &[&[(None, Some(0))], &further[..], &[(Some(0), Some(1))]].concat());
    plan
}

/// An accepted plan of transitions in a row that emit up to eight events, with so many outcomes each, and process them.
pub fn marked_plan(random: &mut Random, outcomes: &[u8]) -> Plan {
    let mut plan =
        Plan { resources: 3, peripherals: vec![0, 1, 2], events: outcomes.to_vec(), ..Plan::default() };
    let (mut ways, mut pending) = (vec![], vec![]);
    let mut left = random.between(2, 4);
    while left > 0 || !pending.is_empty() {
        let processes = !pending.is_empty() && (left == 0 || random.one_in(2));
        let processed = processes.then(|| pending.swap_remove(random.below(pending.len())));
        let many = if left > 0 { random.between(1, 2) } else { 0 };
        let emitted: Vec<u8> = (0..many).map(|_| random.below(outcomes.len()) as u8).collect();
        // Claims and releases of three resources leave room for the events.
        plan.activities.push(activity(random, &plan, Durations::Tying, 9, &emitted));
        ways.push((processed, Some(plan.activities.len() as u8 - 1)));
        pending.extend(emitted);
        left = left.saturating_sub(1);
    }
    plan.automaton = in_a_row(&plan, &ways);
    plan
}

/// Fails where a kind was met less than once in so many of the cases. Few cases say nothing.
pub fn often_enough(hits: &Hits, kinds: &[&str], cases: usize, in_so_many: usize) -> Result<(), String> {
    if cases < 100 || is_by_hand() {
        return Ok(());
    }
    kinds.iter().for_each(|kind| println!("{kind}: {} of {cases}", hits.count(kind)));
    let rare: Vec<&&str> = kinds.iter().filter(|kind| hits.count(kind) * in_so_many < cases).collect();
    match rare.is_empty() {
        true => Ok(()),
        false => Err(format!("met less than once in {in_so_many} of {cases} cases: {rare:?}")),
    }
}
