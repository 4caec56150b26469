//! The same times one transition at a time: what one transition hands to the next is the
//! availabilities, each event's last completion and the pending instances.

use super::NodeTime;
use crate::activity_rules::before;
use crate::plan_file::{Activity, Kind, Plan, Transition};
use crate::toggles::{broken, Broken};
use std::collections::VecDeque;

/// "at most 8 of one event are pending at a state"
pub const MOST_PENDING: usize = 8;

/// An emitted, not yet processed instance of an event.
#[derive(Clone, Copy, Debug, PartialEq, Eq)]
pub struct Instance {
    pub position: u64,
    pub activity: u8,
    pub node: u8,
    pub completion: u64,
}

/// What the transitions taken so far leave behind.
#[derive(Clone, Debug, Default, PartialEq, Eq)]
pub struct Moment {
    pub availabilities: Vec<u64>,
    /// For each event the completion of its latest node, 0 before the first.
    pub last_completions: Vec<u64>,
    /// For each event its pending instances, oldest first.
    pub pending: Vec<VecDeque<Instance>>,
}

/// One transition passed: the times of its nodes and what it leaves behind.
#[derive(Clone, Debug, PartialEq, Eq)]
pub struct Passed {
    pub moment: Moment,
    /// Action and event nodes by node number.
    pub times: Vec<NodeTime>,
    /// The largest completion or availability.
    pub latest: u64,
}

/// What the arrows of one activity say, worked out once.
#[derive(Clone, Debug, Default, PartialEq, Eq)]
pub struct Shape {
    /// Every node after its predecessors.
    order: Vec<usize>,
    /// Event and node, each event's nodes in the order of the arrows.
    emissions: Vec<(u8, usize)>,
}

impl Shape {
    fn of(activity: &Activity) -> Shape {
        let before = before(activity);
        let mut order: Vec<usize> = (0..activity.len()).collect();
        let depth = |n: usize| before.iter().filter(|after| after[n]).count();
        order.sort_by_key(|&n| depth(n));
        let mut emissions: Vec<(u8, usize)> = Vec::new();
        let by_number: Vec<usize> = (0..activity.len()).collect();
        for &n in if broken(Broken::InstancesByNumber) { &by_number } else { &order } {
            if let Kind::Event(event) = activity[n].kind {
                emissions.push((event, n));
            }
        }
        Shape { order, emissions }
    }
}

/// The shapes of all activities of a plan.
pub fn shapes(plan: &Plan) -> Vec<Shape> {
    plan.activities.iter().map(Shape::of).collect()
}

impl Moment {
    pub fn at_opening(plan: &Plan, availabilities: &[u64]) -> Moment {
        Moment {
            availabilities: availabilities.to_vec(),
            last_completions: vec![0; plan.events.len()],
            pending: vec![VecDeque::new(); plan.events.len()],
        }
    }

    /// The instance a transition would process next.
    pub fn oldest(&self, event: u8) -> Option<Instance> {
        let pending = &self.pending[event as usize];
        if broken(Broken::NewestInstanceFirst) {
            return pending.back().copied();
        }
        pending.front().copied()
    }

    /// Takes one transition.
    pub fn pass(&self, plan: &Plan, shapes: &[Shape], way: &Transition, position: u64) -> Passed {
        let mut moment = self.clone();
        if let Some((event, _)) = way.input {
            moment.process(plan, event, way);
        }
        let times = match way.activity {
            Some(a) => moment.execute(plan, &shapes[a as usize], a, position),
            None => Vec::new(),
        };
        let completions = times.iter().map(|t| t.completion);
        let latest = completions.chain(moment.availabilities.iter().copied()).max().unwrap_or(0);
        Passed { moment, times, latest }
    }

    /// The processed instance holds back every resource, "the unnamed resources and the empty
    /// activity included".
    fn process(&mut self, plan: &Plan, event: u8, way: &Transition) {
        let Some(instance) = self.oldest(event) else { return };
        match broken(Broken::NewestInstanceFirst) {
            true => self.pending[event as usize].pop_back(),
            false => self.pending[event as usize].pop_front(),
        };
        for (resource, available) in self.availabilities.iter_mut().enumerate() {
            if !left_out(plan, &instance, way, resource as u8) {
                *available = (*available).max(instance.completion);
            }
        }
    }

    /// Times the nodes of an activity and moves on to what it leaves.
    fn execute(&mut self, plan: &Plan, shape: &Shape, activity: u8, position: u64) -> Vec<NodeTime> {
        let nodes = &plan.activities[activity as usize];
        let mut times = vec![(0, 0); nodes.len()];
        for &n in &shape.order {
            let node = &nodes[n];
            let after = node.predecessors.iter().map(|&p| times[p as usize].1).max().unwrap_or(0);
            let start = match node.kind {
                Kind::Claim(resource) => self.availabilities[resource as usize],
                Kind::Event(_) if broken(Broken::EventOrderDropped) => after,
                Kind::Event(event) => after.max(self.last_completions[event as usize]),
                _ => after,
            };
            times[n] = (start, start + node.duration as u64);
        }
        for (n, node) in nodes.iter().enumerate() {
            if let Kind::Release(resource) = node.kind {
                self.availabilities[resource as usize] = times[n].1;
            }
        }
        for &(event, n) in &shape.emissions {
            self.emit(event, Instance { position, activity, node: n as u8, completion: times[n].1 });
        }
        let executed = (0..nodes.len()).filter(|&n| nodes[n].is_executed());
        executed
            .map(|n| NodeTime {
                position,
                activity,
                node: n as u8,
                start: times[n].0,
                completion: times[n].1,
            })
            .collect()
    }

    /// Only a made-up plan has a ninth pending instance (26); it is dropped.
    fn emit(&mut self, event: u8, instance: Instance) {
        self.last_completions[event as usize] = instance.completion;
        let pending = &mut self.pending[event as usize];
        if pending.len() < MOST_PENDING || broken(Broken::NinthKept) {
            pending.push_back(instance);
        }
    }
}

/// Which resources the broken builds forget to hold back; none otherwise.
fn left_out(plan: &Plan, instance: &Instance, way: &Transition, resource: u8) -> bool {
    let named = |activity: &Activity| activity.iter().any(|n| n.kind == Kind::Claim(resource));
    let sensed = || {
        let nodes = &plan.activities[instance.activity as usize];
        nodes[instance.node as usize].predecessors.iter().any(|&p| match nodes[p as usize].kind {
            Kind::Action { peripheral, .. } => plan.peripherals[peripheral as usize] == resource,
            kind => kind == Kind::Claim(resource),
        })
    };
    if broken(Broken::OnlyTheSensedResource) {
        return !sensed();
    }
    let is_marker = || way.input.is_some_and(|(event, _)| plan.is_marker(event));
    if broken(Broken::NothingRaised) || broken(Broken::MarkerRaisesNothing) && is_marker() {
        return true;
    }
    match way.activity {
        None => broken(Broken::EmptyNotRaised),
        Some(a) => broken(Broken::UnnamedNotRaised) && !named(&plan.activities[a as usize]),
    }
}
