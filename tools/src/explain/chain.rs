//! 44: a chain of nodes, one after the other from a resource's availability, whose durations pass 10^15.

use super::check::all_before;
use crate::names::{Names, Space};
use crate::toggles::{broken, Broken};
use jidlekuvo_reference::plan_file::{Kind, Node, Plan};
use jidlekuvo_reference::HORIZON;
use std::collections::VecDeque;

/// Where a chain's time comes from: a resource at the opening, or a node.
#[derive(Clone, Copy, Debug, PartialEq, Eq)]
enum Cause {
    Resource(u8),
    Node(usize, u8),
}

/// Nodes by position on a path and number, each right after the one before; the first is a claim of the resource.
#[derive(Clone, Debug, PartialEq, Eq)]
pub struct Chain {
    path: Vec<usize>,
    resource: u8,
    available: u64,
    nodes: Vec<(usize, u8)>,
}

/// A completion with its cause.
type Ready = (u64, Cause);

struct Search {
    /// When each resource is available, and the last completion of each event.
    available: Vec<Ready>,
    last: Vec<Option<Ready>>,
    /// The completions of each event's pending instances, oldest first.
    pending: Vec<VecDeque<Ready>>,
    /// The starts of the nodes passed, by position and node, with their causes.
    starts: Vec<((usize, u8), Ready)>,
}

/// The nodes of the transition at a position of a path.
fn nodes_at<'a>(plan: &'a Plan, path: &[usize], position: usize) -> &'a [Node] {
    let activity = plan.automaton.transitions[path[position]].activity;
    activity.map_or(&[], |a| &plan.activities[a as usize])
}

/// A chain on a path that passes the horizon with its last node only.
pub fn find(plan: &Plan, path: &[usize], availabilities: &[u64]) -> Option<Chain> {
    let available = (0..).zip(availabilities).map(|(r, &at)| (at, Cause::Resource(r))).collect();
    let (last, pending) = (vec![None; plan.events.len()], vec![VecDeque::new(); plan.events.len()]);
    let mut search = Search { available, last, pending, starts: vec![] };
    for (position, &way) in path.iter().enumerate() {
        if let Some((event, _)) = plan.automaton.transitions[way].input {
            search.process(event);
        }
        search.pass(position, nodes_at(plan, path, position));
    }
    let ends = |&((position, node), (start, _)): &((usize, u8), Ready)| {
        let duration = nodes_at(plan, path, position)[node as usize].duration as u64;
        start <= HORIZON && start + duration > HORIZON
    };
    let &(mut at, (_, mut cause)) = search.starts.iter().find(|found| ends(found))?;
    let mut nodes = vec![at];
    while let Cause::Node(position, node) = cause {
        at = (position, node);
        nodes.push(at);
        cause = search.starts.iter().find(|(known, _)| *known == at)?.1 .1;
    }
    nodes.reverse();
    if broken(Broken::LongestChainOneShort) {
        nodes.pop();
    }
    let Cause::Resource(resource) = cause else { return None };
    Some(Chain { path: path.to_vec(), resource, available: availabilities[resource as usize], nodes })
}

impl Search {
    /// The oldest pending instance holds back every resource.
    fn process(&mut self, event: u8) {
        let pending = &mut self.pending[event as usize];
        let taken = if broken(Broken::ChainByNewest) { pending.pop_back() } else { pending.pop_front() };
        let Some(held) = taken.filter(|_| !broken(Broken::ChainWithoutProcessed)) else { return };
        self.available.iter_mut().filter(|known| known.0 < held.0).for_each(|known| *known = held);
    }

    fn pass(&mut self, position: usize, nodes: &[Node]) {
        let (first, mut ends) = (self.starts.len(), vec![None; nodes.len()]);
        (0..nodes.len()).for_each(|_| self.time(position, nodes, &mut ends));
        self.leave(first, nodes, &ends);
    }

    /// Times the nodes of an activity whose predecessors are timed.
    fn time(&mut self, position: usize, nodes: &[Node], ends: &mut [Option<Ready>]) {
        for (n, node) in nodes.iter().enumerate() {
            let before: Option<Vec<Ready>> = node.predecessors.iter().map(|&p| ends[p as usize]).collect();
            let (None, Some(mut before)) = (ends[n], before) else { continue };
            match node.kind {
                Kind::Claim(resource) => before.push(self.available[resource as usize]),
                Kind::Event(event) => before.extend(self.last[event as usize]),
                _ => {}
            }
            let Some(&(start, cause)) = before.iter().max_by_key(|ready| ready.0) else { continue };
            self.starts.push(((position, n as u8), (start, cause)));
            ends[n] = Some((start + node.duration as u64, Cause::Node(position, n as u8)));
        }
    }

    /// What an activity hands on. Its nodes, from the first of its starts on, were timed in the order of arrows.
    fn leave(&mut self, first: usize, nodes: &[Node], ends: &[Option<Ready>]) {
        for ((_, n), _) in &self.starts[first..] {
            match (nodes[*n as usize].kind, ends[*n as usize]) {
                (Kind::Release(resource), Some(end)) => self.available[resource as usize] = end,
                (Kind::Event(event), Some(end)) => {
                    self.last[event as usize] = Some(end);
                    self.pending[event as usize].push_back(end);
                }
                _ => {}
            }
        }
    }
}

/// Whether transitions follow each other from the initial state, each the only one that leaves its state.
pub fn is_path(plan: &Plan, path: &[usize]) -> bool {
    let mut state = plan.automaton.initial;
    path.iter().all(|&way| {
        let transition = plan.automaton.transitions[way];
        let follows = transition.from == state && plan.automaton.ways_out(state).len() == 1;
        state = transition.to;
        follows
    })
}

/// Whether each node of the chain has an arrow from the one before it, and their durations pass the horizon.
pub fn holds(plan: &Plan, availabilities: &[u64], chain: &Chain) -> bool {
    let Some(&first) = chain.nodes.first() else { return false };
    let arrows = chain.nodes.windows(2).all(|pair| has_arrow(plan, &chain.path, pair[0], pair[1]));
    let sum: u64 = chain.nodes.iter().map(|&at| duration(plan, &chain.path, at)).sum();
    is_path(plan, &chain.path)
        && availabilities.get(chain.resource as usize) == Some(&chain.available)
        && is_next_claim(plan, &chain.path, chain.resource, 0, first)
        && arrows
        && chain.available + sum > HORIZON
}

fn duration(plan: &Plan, path: &[usize], (position, node): (usize, u8)) -> u64 {
    nodes_at(plan, path, position)[node as usize].duration as u64
}

/// Whether the node is a claim of the resource, and no position from `since` on names it before.
fn is_next_claim(plan: &Plan, path: &[usize], resource: u8, since: usize, (at, node): (usize, u8)) -> bool {
    let names = |position: usize| {
        nodes_at(plan, path, position).iter().any(|node| node.kind == Kind::Claim(resource))
    };
    let is_claim = nodes_at(plan, path, at)[node as usize].kind == Kind::Claim(resource);
    is_claim && since <= at && !(since..at).any(names)
}

/// The position that processes an event's node: "Instances are counted from 1 over the whole run and processed in
/// order of emission".
fn processed_at(plan: &Plan, path: &[usize], event: u8, (position, node): (usize, u8)) -> Option<usize> {
    let is_emitted = |node: &&Node| node.kind == Kind::Event(event);
    let earlier = (0..position).flat_map(|at| nodes_at(plan, path, at)).filter(is_emitted).count();
    let here = nodes_at(plan, path, position);
    let before = all_before(here, node).into_iter().map(|n| &here[n as usize]).filter(is_emitted).count();
    let processes = |at: &usize| {
        let input = plan.automaton.transitions[path[*at]].input;
        input.is_some_and(|(processed, _)| processed == event)
    };
    (0..path.len()).filter(processes).nth(earlier + before)
}

/// Inside an activity by its arrow; from a release to the next claim; from an event to a later node of it, and to the
/// next claim of each resource from where it is processed on.
fn has_arrow(plan: &Plan, path: &[usize], one: (usize, u8), other: (usize, u8)) -> bool {
    let kind = |(position, n): (usize, u8)| nodes_at(plan, path, position)[n as usize].kind;
    if one.0 == other.0 {
        return nodes_at(plan, path, other.0)[other.1 as usize].predecessors.contains(&one.1);
    }
    match (kind(one), kind(other)) {
        (Kind::Release(resource), _) => is_next_claim(plan, path, resource, one.0 + 1, other),
        (Kind::Event(event), Kind::Claim(resource)) => processed_at(plan, path, event, one)
            .is_some_and(|since| is_next_claim(plan, path, resource, since, other)),
        (Kind::Event(event), later) => one.0 < other.0 && later == Kind::Event(event),
        _ => false,
    }
}

impl Chain {
    pub fn said(&self, plan: &Plan, names: &Names) -> String {
        let node = |&(position, node): &(usize, u8)| {
            let activity = plan.automaton.transitions[self.path[position]].activity.unwrap_or(0);
            let lasts = duration(plan, &self.path, (position, node));
            let name = names.of(Space::Node(activity), node as usize);
            format!("{} {name} for {lasts}", names.of(Space::Activity, activity as usize))
        };
        let lasting = self.nodes.iter().filter(|&&at| duration(plan, &self.path, at) > 0);
        let nodes: Vec<String> = lasting.map(node).collect();
        let resource = names.of(Space::Resource, self.resource as usize);
        let start = format!("{resource} is available at {}", self.available);
        format!("{start}; after it, one after the other: {}: above {HORIZON}", nodes.join(", "))
    }
}
