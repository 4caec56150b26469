//! What a picture tells: the rows of the table, the arrows between them, and what each outcome holds back. Times are
//! the table's.

use crate::explain::outcomes::Walk;
use crate::table::{self, Closing, Row};
use crate::toggles::{broken, Broken};
use jidlekuvo_reference::plan_file::{Kind, Node, Plan};
use std::collections::VecDeque;

/// A picture of more rows is of no use.
pub const MOST_ROWS: usize = 100_000;

/// An arrow between two rows; `handed` where a resource goes from one activity to the next.
#[derive(Clone, Copy, Debug, PartialEq, Eq)]
pub struct Arrow {
    pub from: u32,
    pub to: u32,
    pub handed: bool,
}

/// An outcome that is processed, a marker's too: from this moment on the next activity may begin, on every resource.
#[derive(Clone, Copy, Debug, PartialEq, Eq)]
pub struct Held {
    pub at: u64,
    pub event: u8,
    pub outcome: u8,
}

#[derive(Clone, Debug)]
pub struct Story {
    pub rows: Vec<Row>,
    pub arrows: Vec<Arrow>,
    pub held: Vec<Held>,
    pub closing: Closing,
}

impl Story {
    /// The story of an accepted plan and outcomes.
    pub fn of(plan: &Plan, bytes: &[u8], outcomes: &[u8]) -> Result<Story, String> {
        let mut rows = Vec::new();
        let closing = table::rows(bytes, outcomes, |row| {
            rows.push(row);
            Ok(rows.len() <= MOST_ROWS)
        })?;
        let closing = closing.ok_or_else(|| format!("more than {MOST_ROWS} rows: too many for a picture"))?;
        let mut teller = Teller::new(plan, &rows);
        teller.tell(outcomes);
        let (arrows, held) = (teller.arrows, teller.held);
        if broken(Broken::RowTwice) {
            rows.extend(rows.first().copied());
        }
        Ok(Story { rows, arrows, held, closing })
    }
}

struct Teller<'a> {
    plan: &'a Plan,
    rows: &'a [Row],
    /// The first row not told yet.
    next: usize,
    /// The row that each resource was last held for, the one that ends latest.
    users: Vec<Option<usize>>,
    /// The rows of each event's pending instances, oldest first.
    pending: Vec<VecDeque<usize>>,
    arrows: Vec<Arrow>,
    held: Vec<Held>,
}

impl<'a> Teller<'a> {
    fn new(plan: &'a Plan, rows: &'a [Row]) -> Teller<'a> {
        let users = vec![None; plan.resources as usize];
        let pending = vec![VecDeque::new(); plan.events.len()];
        Teller { plan, rows, next: 0, users, pending, arrows: vec![], held: vec![] }
    }

    /// Takes transition after transition, as the table did. The last one may be refused and have no rows.
    fn tell(&mut self, outcomes: &[u8]) {
        let mut walk = Walk::new(self.plan);
        let mut outcomes = outcomes.iter();
        let mut position = 0;
        loop {
            let outcome = walk.awaited().and_then(|_| outcomes.next().copied());
            if walk.awaited().is_some() && outcome.is_none() {
                return;
            }
            let Some(way) = walk.take(outcome) else { return };
            let transition = self.plan.automaton.transitions[way];
            if let Some((event, outcome)) = transition.input {
                self.process(event, outcome);
            }
            if let Some(activity) = transition.activity {
                self.pass(position, &self.plan.activities[activity as usize]);
            }
            position += 1;
        }
    }

    /// "Processing instance k of an event makes that node precede every successor of every claim".
    fn process(&mut self, event: u8, outcome: u8) {
        let oldest = self.pending[event as usize].pop_front();
        let is_left_out = broken(Broken::MarkersHoldNothing) && self.plan.is_marker(event);
        if let Some(row) = oldest.filter(|_| !is_left_out) {
            let row = self.rows[row];
            let at = if broken(Broken::HeldOneEarly) { row.start } else { row.end };
            self.held.push(Held { at, event, outcome });
        }
    }

    fn pass(&mut self, position: u64, nodes: &[Node]) {
        let first = self.next;
        while self.rows.get(self.next).is_some_and(|row| row.position == position) {
            self.next += 1;
        }
        let rows = self.rows;
        let row_of = |node: u8| (first..self.next).find(|&row| rows[row].node == node);
        let (mut arrows, mut freed) = (Vec::new(), Vec::new());
        for to in first..self.next {
            for &p in &nodes[rows[to].node as usize].predecessors {
                match nodes[p as usize].kind {
                    Kind::Claim(resource) => {
                        let user = self.users[resource as usize];
                        arrows.extend(user.map(|from| arrow(from, to, true)));
                    }
                    _ => arrows.extend(row_of(p).map(|from| arrow(from, to, false))),
                }
            }
        }
        for node in nodes {
            let Kind::Release(resource) = node.kind else { continue };
            let user = |&p: &u8| match nodes[p as usize].kind {
                Kind::Claim(other) => self.users[other as usize],
                _ => row_of(p),
            };
            let users = node.predecessors.iter().filter_map(user);
            freed.push((resource, users.max_by_key(|&row| rows[row].end)));
        }
        freed.into_iter().for_each(|(resource, user)| self.users[resource as usize] = user);
        self.arrows.extend(arrows);
        self.emit(first, nodes);
    }

    /// Instances inside one activity go by arrows: by how many nodes are before them.
    fn emit(&mut self, first: usize, nodes: &[Node]) {
        let mut emitted: Vec<(usize, usize, u8)> = Vec::new();
        for row in first..self.next {
            let node = self.rows[row].node;
            if let Kind::Event(event) = nodes[node as usize].kind {
                emitted.push((all_before(nodes, node), row, event));
            }
        }
        emitted.sort_unstable();
        emitted.into_iter().for_each(|(_, row, event)| self.pending[event as usize].push_back(row));
    }
}

/// There are at most as many rows as a u32 holds.
fn arrow(from: usize, to: usize, handed: bool) -> Arrow {
    Arrow { from: from as u32, to: to as u32, handed }
}

/// How many nodes are before a node, by one or more arrows.
fn all_before(nodes: &[Node], node: u8) -> usize {
    let mut found = 0u64;
    let mut open = vec![node];
    while let Some(at) = open.pop() {
        for &p in nodes[at as usize].predecessors.iter() {
            if found >> p & 1 == 0 {
                found |= 1 << p;
                open.push(p);
            }
        }
    }
    found.count_ones() as usize
}
