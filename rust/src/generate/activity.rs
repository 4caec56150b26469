//! Random activities that keep rules I to XI by construction.

use super::Random;
use crate::plan_file::{Activity, Kind, Node, Plan};

/// What the durations of a plan look like.
#[derive(Clone, Copy, Debug, PartialEq, Eq)]
pub enum Durations {
    /// Few values, so that times tie.
    Tying,
    /// Anything from 1 to the longest.
    Any,
    /// Zero now and then: such a plan never opens.
    WithZeros,
}

impl Durations {
    pub fn pick(self, random: &mut Random) -> u32 {
        match self {
            Durations::Tying => 1000 * random.between(1, 4) as u32,
            Durations::Any if random.one_in(8) => random.pick(&[1, 2, 255, 256, 59_999_999, 60_000_000]),
            Durations::Any => random.between(1, 100_000) as u32,
            Durations::WithZeros if random.one_in(3) => 0,
            Durations::WithZeros => random.between(1, 5) as u32,
        }
    }
}

/// An activity in the making. Nodes stand in an order that the arrows follow; a release gets its
/// predecessors at the end.
struct Draft {
    nodes: Vec<Node>,
    /// For each node the set of nodes before it.
    before: Vec<u64>,
    claims: Vec<(u8, usize)>,
    /// For each claimed resource the last actions on it, whom its release must follow.
    fronts: Vec<Vec<usize>>,
}

impl Draft {
    fn add(&mut self, kind: Kind, duration: u32, mut predecessors: Vec<usize>) -> usize {
        predecessors.sort_unstable();
        predecessors.dedup();
        let before = predecessors.iter().fold(0, |set, &p| set | self.before[p] | 1 << p);
        let predecessors = predecessors.iter().map(|&p| p as u8).collect();
        self.nodes.push(Node { kind, duration, predecessors });
        self.before.push(before);
        self.nodes.len() - 1
    }

    /// The latest node that satisfies a condition.
    fn latest(&self, wanted: impl Fn(Kind) -> bool) -> Option<usize> {
        (0..self.nodes.len()).rev().find(|&n| wanted(self.nodes[n].kind))
    }

    /// A few random nodes on top of those needed, never more than eight in all.
    fn with_some_more(&self, needed: Vec<usize>, random: &mut Random) -> Vec<usize> {
        let mut chosen = needed;
        let room = 8 - chosen.len();
        let many = if random.one_in(10) { 8 } else { 2 };
        let more = random.below(room.min(many) + 1);
        for _ in 0..more {
            let n = random.below(self.nodes.len());
            if !chosen.contains(&n) {
                chosen.push(n);
            }
        }
        chosen
    }
}

/// A random activity of up to `most` nodes, with as many event nodes as `emissions` says (fewer
/// if there is no room). The plan has at least one resource.
pub fn activity(
    random: &mut Random,
    plan: &Plan,
    durations: Durations,
    most: usize,
    emissions: &[u8],
) -> Activity {
    let mut draft = Draft { nodes: vec![], before: vec![], claims: vec![], fronts: vec![] };
    let mut resources: Vec<u8> = (0..plan.resources).collect();
    random.shuffle(&mut resources);
    let named = random.between(1, resources.len().min(most / 2));
    for &resource in &resources[..named] {
        let claim = draft.add(Kind::Claim(resource), 0, vec![]);
        draft.claims.push((resource, claim));
        draft.fronts.push(vec![claim]);
    }
    let room = most - 2 * named;
    let mut events: Vec<u8> = emissions.iter().copied().take(room).collect();
    let mut actions = random.below(room - events.len() + 1);
    while actions + events.len() > 0 {
        if random.below(actions + events.len()) < actions {
            actions -= 1;
            add_action(&mut draft, random, plan, durations);
        } else {
            let event = events.swap_remove(random.below(events.len()));
            add_event(&mut draft, random, event, durations);
        }
    }
    add_releases(&mut draft, random);
    renumbered(draft.nodes, random)
}

fn add_releases(draft: &mut Draft, random: &mut Random) {
    for (at, &(resource, _)) in draft.claims.clone().iter().enumerate() {
        let mut needed = draft.fronts[at].clone();
        // A release may wait for further nodes, but never for a release.
        if needed.len() < 8 && random.one_in(3) {
            let more = random.below(draft.nodes.len());
            if !matches!(draft.nodes[more].kind, Kind::Release(_)) && !needed.contains(&more) {
                needed.push(more);
            }
        }
        draft.add(Kind::Release(resource), 0, needed);
    }
}

fn add_action(draft: &mut Draft, random: &mut Random, plan: &Plan, durations: Durations) {
    let of_resource =
        |r: u8| (0..plan.peripherals.len() as u8).filter(move |&p| plan.peripherals[p as usize] == r);
    let at = random.below(draft.claims.len());
    let (resource, claim) = draft.claims[at];
    let peripherals: Vec<u8> = of_resource(resource).collect();
    if peripherals.is_empty() {
        return;
    }
    let peripheral = random.pick(&peripherals);
    let mut needed = vec![claim];
    needed.extend(draft.latest(|k| matches!(k, Kind::Action { peripheral: p, .. } if p == peripheral)));
    // The release can follow eight nodes at most, so the front must not grow past them.
    if draft.fronts[at].len() >= 7 {
        needed.push(random.pick(&draft.fronts[at]));
    }
    needed.sort_unstable();
    needed.dedup();
    let chosen = draft.with_some_more(needed, random);
    // The claim is needed somewhere before, not necessarily by its own arrow.
    let chosen = without_reached(draft, chosen, claim, random);
    let kind = Kind::Action { number: random.next() as u8, peripheral };
    let node = draft.add(kind, durations.pick(random), chosen);
    let before = draft.before[node];
    draft.fronts[at].retain(|&n| before >> n & 1 == 0);
    draft.fronts[at].push(node);
}

/// Drops an arrow now and then if another one already reaches its node.
fn without_reached(draft: &Draft, chosen: Vec<usize>, node: usize, random: &mut Random) -> Vec<usize> {
    let reached = chosen.iter().any(|&n| n != node && draft.before[n] >> node & 1 == 1);
    match reached && random.one_in(2) {
        true => chosen.into_iter().filter(|&n| n != node).collect(),
        false => chosen,
    }
}

fn add_event(draft: &mut Draft, random: &mut Random, event: u8, durations: Durations) {
    let mut needed: Vec<usize> = draft.latest(|k| k == Kind::Event(event)).into_iter().collect();
    if needed.is_empty() || random.one_in(2) {
        let n = random.below(draft.nodes.len());
        if !needed.contains(&n) {
            needed.push(n);
        }
    }
    let chosen = draft.with_some_more(needed, random);
    draft.add(Kind::Event(event), durations.pick(random), chosen);
}

/// The same activity with other node numbers, so that arrows run against them.
pub(super) fn renumbered(nodes: Vec<Node>, random: &mut Random) -> Activity {
    let mut number: Vec<usize> = (0..nodes.len()).collect();
    if random.one_in(3) {
        return nodes;
    }
    random.shuffle(&mut number);
    let mut renumbered = nodes.clone();
    for (old, node) in nodes.into_iter().enumerate() {
        let mut predecessors: Vec<u8> = node.predecessors.iter().map(|&p| number[p as usize] as u8).collect();
        predecessors.sort_unstable();
        renumbered[number[old]] = Node { predecessors, ..node };
    }
    renumbered
}
