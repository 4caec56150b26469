//! The combined activity of a word as an explicit graph (Def. 7 and 8 as document 01 amends
//! them), timed by Def. 11 on that graph.

use super::NodeTime;
use crate::plan_file::{Activity, Kind, Plan, Transition};

/// A node of the combined activity.
#[derive(Clone, Debug)]
pub struct Member {
    pub kind: Kind,
    pub duration: u64,
    /// Position, activity and node number; None for a claim or release that no activity names.
    pub origin: Option<(u64, u8, u8)>,
    /// The nodes with an arrow to this one.
    pub predecessors: Vec<usize>,
}

/// An activity in which every resource is claimed and released.
#[derive(Clone, Debug, Default)]
pub struct Combined {
    pub members: Vec<Member>,
}

impl Combined {
    /// The combined activity of the word with no transition: the empty activity, completed.
    pub fn of_the_empty_word(plan: &Plan) -> Combined {
        Combined::default().completed(plan.resources)
    }

    fn of_activity(activity: &Activity, position: u64, number: u8) -> Combined {
        let member = |(n, node): (usize, &crate::plan_file::Node)| Member {
            kind: node.kind,
            duration: node.duration as u64,
            origin: Some((position, number, n as u8)),
            predecessors: node.predecessors.iter().map(|&p| p as usize).collect(),
        };
        Combined { members: activity.iter().enumerate().map(member).collect() }
    }

    /// "an unnamed one counts as claimed and at once released"
    fn completed(mut self, resources: u8) -> Combined {
        for resource in 0..resources {
            let named = |m: &Member| m.kind == Kind::Claim(resource) || m.kind == Kind::Release(resource);
            if self.members.iter().any(named) {
                continue;
            }
            let claim = self.members.len();
            let bare = |kind, predecessors| Member { kind, duration: 0, origin: None, predecessors };
            self.members.push(bare(Kind::Claim(resource), vec![]));
            self.members.push(bare(Kind::Release(resource), vec![claim]));
        }
        self
    }

    /// All nodes before a node, by one or more arrows.
    pub fn all_before(&self, node: usize) -> Vec<bool> {
        let mut seen = vec![false; self.members.len()];
        let mut to_visit = self.members[node].predecessors.clone();
        while let Some(at) = to_visit.pop() {
            if !seen[at] {
                seen[at] = true;
                to_visit.extend(&self.members[at].predecessors);
            }
        }
        seen
    }

    /// Instance k of an event, counted from 1: the node of it with k - 1 nodes of it before.
    pub fn instance(&self, event: u8, k: usize) -> Option<usize> {
        let of_event = |m: usize| self.members[m].kind == Kind::Event(event);
        (0..self.members.len()).filter(|&m| of_event(m)).find(|&m| {
            let before = self.all_before(m);
            (0..self.members.len()).filter(|&n| of_event(n) && before[n]).count() == k - 1
        })
    }

    /// The sequencing operator (Def. 7), joined resource by resource; `processed` is the node of
    /// this activity whose instance the next one processes.
    fn sequenced_with(&self, next: &Combined, processed: Option<usize>) -> Combined {
        let is_release = |m: &Member| matches!(m.kind, Kind::Release(_));
        let is_claim = |m: &Member| matches!(m.kind, Kind::Claim(_));
        let kept_left: Vec<usize> = kept(&self.members, is_release);
        let kept_right: Vec<usize> = kept(&next.members, is_claim);
        let left = |m: usize| kept_left.binary_search(&m).ok();
        let right = |m: usize| kept_right.binary_search(&m).ok().map(|at| at + kept_left.len());

        let mut joined = Combined::default();
        for &m in &kept_left {
            let arrows = self.members[m].predecessors.iter().filter_map(|&p| left(p)).collect();
            joined.members.push(Member { predecessors: arrows, ..self.members[m].clone() });
        }
        for &m in &kept_right {
            let member = &next.members[m];
            let mut arrows: Vec<usize> = member.predecessors.iter().filter_map(|&p| right(p)).collect();
            arrows.extend(self.arrows_into(next, m, processed).into_iter().filter_map(left));
            arrows.sort_unstable();
            arrows.dedup();
            joined.members.push(Member { predecessors: arrows, ..member.clone() });
        }
        joined
    }

    /// Which nodes of this activity get an arrow to node `to` of the next one.
    fn arrows_into(&self, next: &Combined, to: usize, processed: Option<usize>) -> Vec<usize> {
        let mut arrows = Vec::new();
        let target = &next.members[to];
        for &p in &target.predecessors {
            let Kind::Claim(resource) = next.members[p].kind else { continue };
            // "Sequencing joins every predecessor of a release to every successor of the next
            // claim of that resource."
            for m in self.members.iter().filter(|m| m.kind == Kind::Release(resource)) {
                arrows.extend(&m.predecessors);
            }
            // "Processing instance k of an event makes that node precede every successor of
            // every claim of the next activity".
            arrows.extend(processed);
        }
        // "Each earlier node of an event precedes each later node of it."
        if let Kind::Event(_) = target.kind {
            arrows.extend((0..self.members.len()).filter(|&m| self.members[m].kind == target.kind));
        }
        arrows
    }

    /// The word grown by one transition (Def. 8); `k` is the instance it processes, if it
    /// processes one.
    pub fn grown(&self, plan: &Plan, transition: &Transition, position: u64, k: usize) -> Combined {
        let next = match transition.activity {
            Some(a) => Combined::of_activity(&plan.activities[a as usize], position, a),
            None => Combined::default(),
        };
        let processed = transition.input.and_then(|(event, _)| self.instance(event, k));
        self.sequenced_with(&next.completed(plan.resources), processed)
    }

    /// The combined activity of a whole word.
    pub fn of_word(plan: &Plan, word: &[Transition]) -> Combined {
        let mut processed = vec![0usize; plan.events.len()];
        let mut combined = Combined::of_the_empty_word(plan);
        for (position, transition) in word.iter().enumerate() {
            let k = match transition.input {
                Some((event, _)) => {
                    processed[event as usize] += 1;
                    processed[event as usize]
                }
                None => 0,
            };
            combined = combined.grown(plan, transition, position as u64, k);
        }
        combined
    }

    /// Def. 11: start and completion of every node. A node is timed once its predecessors are.
    pub fn times(&self, availabilities: &[u64]) -> Vec<(u64, u64)> {
        let mut open: Vec<usize> = self.members.iter().map(|m| m.predecessors.len()).collect();
        let mut ready: Vec<usize> = kept(&open, |&left| left > 0);
        let mut after = vec![Vec::new(); self.members.len()];
        for (m, member) in self.members.iter().enumerate() {
            member.predecessors.iter().for_each(|&p| after[p].push(m));
        }
        let mut times = vec![(0, 0); self.members.len()];
        while let Some(m) = ready.pop() {
            let member = &self.members[m];
            let start = match member.kind {
                Kind::Claim(resource) => availabilities[resource as usize],
                _ => member.predecessors.iter().map(|&p| times[p].1).max().unwrap_or(0),
            };
            times[m] = (start, start + member.duration);
            for &next in &after[m] {
                open[next] -= 1;
                if open[next] == 0 {
                    ready.push(next);
                }
            }
        }
        times
    }

    /// The action and event nodes with their times, by position and node.
    pub fn executed(&self, availabilities: &[u64]) -> Vec<NodeTime> {
        let times = self.times(availabilities);
        let mut executed: Vec<NodeTime> = Vec::new();
        for (member, &(start, completion)) in self.members.iter().zip(&times) {
            let (Kind::Action { .. } | Kind::Event(_), Some(origin)) = (member.kind, member.origin) else {
                continue;
            };
            let (position, activity, node) = origin;
            executed.push(NodeTime { position, activity, node, start, completion });
        }
        executed.sort_unstable();
        executed
    }

    /// What is available after the word: the completions of its releases.
    pub fn free(&self, plan: &Plan, availabilities: &[u64]) -> Vec<u64> {
        let times = self.times(availabilities);
        let released = |resource| (0..times.len()).find(|&m| self.members[m].kind == Kind::Release(resource));
        (0..plan.resources).filter_map(released).map(|m| times[m].1).collect()
    }

    /// Whether some action or event is in the graph with this identity, and where.
    pub fn find(&self, position: u64, node: u8) -> Option<usize> {
        self.members.iter().position(|m| {
            m.origin.is_some_and(|(p, _, n)| (p, n) == (position, node))
                && matches!(m.kind, Kind::Action { .. } | Kind::Event(_))
        })
    }
}

/// The indices of all members but those to drop.
fn kept<T>(all: &[T], dropped: impl Fn(&T) -> bool) -> Vec<usize> {
    (0..all.len()).filter(|&m| !dropped(&all[m])).collect()
}
