//! 11 to 18: the nodes of an activity that break the rule. "Before" is by one or more arrows.

use super::Finding;
use crate::toggles::{broken, Broken};
use jidlekuvo_reference::plan_file::{Activity, Kind, Plan};
use std::collections::VecDeque;

/// Bit b of row a: there are one or more arrows from a to b.
fn rows(activity: &Activity) -> Vec<u64> {
    let mut rows = vec![0u64; activity.len()];
    for (to, node) in activity.iter().enumerate() {
        node.predecessors.iter().for_each(|&from| rows[from as usize] |= 1 << to);
    }
    for link in 0..rows.len() {
        let after = rows[link];
        rows.iter_mut().filter(|row| **row >> link & 1 == 1).for_each(|row| *row |= after);
    }
    rows
}

struct Search<'a> {
    plan: &'a Plan,
    number: u8,
    activity: u8,
    nodes: &'a Activity,
    rows: Vec<u64>,
}

pub fn find(plan: &Plan, activity: u8, number: u8) -> Option<Finding> {
    let nodes = plan.activities.get(activity as usize)?;
    let search = Search { plan, number, activity, nodes, rows: rows(nodes) };
    match number {
        11 => search.cycle(),
        12 | 18 => search.unordered(),
        13 => search.twice(),
        14 | 15 => search.unpaired(),
        16 => search.arrow(),
        _ => search.no_predecessor(),
    }
}

impl Search<'_> {
    fn before(&self, a: usize, b: usize) -> bool {
        self.rows[a] >> b & 1 == 1
    }

    fn numbers(&self) -> impl Iterator<Item = u8> {
        0..self.nodes.len() as u8
    }

    /// A shortest cycle.
    fn cycle(&self) -> Option<Finding> {
        let cycles = self.numbers().filter_map(|node| self.way_back(node));
        let mut nodes = cycles.min_by_key(|nodes| nodes.len())?;
        if broken(Broken::CycleOpen) {
            nodes.pop();
        }
        Some(Finding::Cycle { activity: self.activity, nodes })
    }

    /// A shortest way by arrows from a node to itself, the node first.
    fn way_back(&self, start: u8) -> Option<Vec<u8>> {
        // Arrows are followed backwards; `next` is where the arrow out of a node leads.
        let mut next = vec![None; self.nodes.len()];
        let mut waiting = VecDeque::from([start]);
        while let Some(at) = waiting.pop_front() {
            for &p in &self.nodes[at as usize].predecessors {
                if next[p as usize].is_none() {
                    next[p as usize] = Some(at);
                    waiting.push_back(p);
                }
            }
        }
        let mut way = vec![start];
        let mut at = next[start as usize]?;
        while at != start {
            way.push(at);
            at = next[at as usize]?;
        }
        Some(way)
    }

    fn pairs(&self) -> impl Iterator<Item = (u8, u8)> + '_ {
        self.numbers().flat_map(|one| (one + 1..self.nodes.len() as u8).map(move |other| (one, other)))
    }

    /// Two actions on one peripheral (12) or two nodes of one event (18).
    fn unordered(&self) -> Option<Finding> {
        let alike =
            |one: u8, other: u8| match (self.nodes[one as usize].kind, self.nodes[other as usize].kind) {
                (Kind::Action { peripheral: a, .. }, Kind::Action { peripheral: b, .. }) => {
                    self.number == 12 && a == b
                }
                (Kind::Event(a), Kind::Event(b)) => self.number == 18 && a == b,
                _ => false,
            };
        let ordered =
            |a: u8, b: u8| self.before(a as usize, b as usize) || self.before(b as usize, a as usize);
        let wanted = broken(Broken::OrderedPairNamed);
        let (one, other) = self.pairs().find(|&(a, b)| alike(a, b) && ordered(a, b) == wanted)?;
        Some(Finding::Unordered { activity: self.activity, one, other })
    }

    /// Two claims or two releases of one resource.
    fn twice(&self) -> Option<Finding> {
        let holds = |n: u8| matches!(self.nodes[n as usize].kind, Kind::Claim(_) | Kind::Release(_));
        let alike = |a: u8, b: u8| holds(a) && self.nodes[a as usize].kind == self.nodes[b as usize].kind;
        let (one, other) = self.pairs().find(|&(a, b)| alike(a, b))?;
        Some(Finding::Twice { activity: self.activity, one, other })
    }

    /// An action (14), a release or a claim (15) without its claim before it or its release after it.
    fn unpaired(&self) -> Option<Finding> {
        self.numbers().find_map(|node| {
            let (resource, needs_claim, needs_release) = match self.nodes[node as usize].kind {
                Kind::Action { peripheral, .. } if self.number == 14 => {
                    (self.plan.peripherals[peripheral as usize], true, true)
                }
                Kind::Release(resource) if self.number == 15 => (resource, true, false),
                Kind::Claim(resource) if self.number == 15 => (resource, false, true),
                _ => return None,
            };
            let n = node as usize;
            let of = |kind: Kind| (0..self.nodes.len()).filter(move |&m| self.nodes[m].kind == kind);
            let is_claimed = of(Kind::Claim(resource)).any(|claim| self.before(claim, n));
            let is_released = of(Kind::Release(resource)).any(|release| self.before(n, release));
            let activity = self.activity;
            match (needs_claim && !is_claimed, needs_release && !is_released) {
                (true, _) => Some(Finding::NoClaimBefore { activity, node, resource }),
                (_, true) => Some(Finding::NoReleaseAfter { activity, node, resource }),
                _ => None,
            }
        })
    }

    /// An arrow into a claim or out of a release.
    fn arrow(&self) -> Option<Finding> {
        let arrows = self
            .numbers()
            .flat_map(|to| self.nodes[to as usize].predecessors.iter().map(move |&from| (from, to)));
        let is_bad = |&(from, to): &(u8, u8)| {
            matches!(self.nodes[to as usize].kind, Kind::Claim(_))
                || matches!(self.nodes[from as usize].kind, Kind::Release(_))
        };
        let (from, to) = arrows.into_iter().find(is_bad)?;
        Some(Finding::Arrow { activity: self.activity, from, to })
    }

    fn no_predecessor(&self) -> Option<Finding> {
        let bare = |&n: &u8| {
            let node = &self.nodes[n as usize];
            matches!(node.kind, Kind::Event(_)) && node.predecessors.is_empty()
        };
        let node = self.numbers().find(bare)?;
        Some(Finding::NoPredecessor { activity: self.activity, node })
    }
}
