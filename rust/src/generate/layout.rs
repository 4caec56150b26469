//! The fields of a plan's bytes, laid out separately from the writer: where each field lies and
//! what may stand in it.

use crate::plan_file::FieldKind::{self, *};
use crate::plan_file::{Activity, Kind, Node, Plan, Transition};

/// What a field holds.
#[derive(Clone, Copy, Debug, PartialEq, Eq)]
pub enum Role {
    SectionMap,
    NodeMap,
    TransitionMap,
    Count { least: u64, most: u64 },
    Names { how_many: u64 },
    AnyNumber,
    Duration,
    Predecessor { nodes: u64, previous: Option<u8> },
    FinalBits { states: u64 },
}

#[derive(Clone, Copy, Debug)]
pub struct Field {
    pub place: usize,
    pub width: usize,
    pub kind: FieldKind,
    pub role: Role,
}

#[derive(Clone, Debug, Default)]
pub struct Layout {
    pub bytes: Vec<u8>,
    pub fields: Vec<Field>,
}

impl Layout {
    pub fn of(plan: &Plan) -> Layout {
        let mut layout = Layout::default();
        layout.sections(plan);
        layout.automaton(plan);
        layout
    }

    fn put(&mut self, kind: FieldKind, value: u64, width: usize, role: Role) {
        self.fields.push(Field { place: self.bytes.len(), width, kind, role });
        self.bytes.extend(&value.to_le_bytes()[..width]);
    }

    fn count(&mut self, kind: FieldKind, value: usize, most: u64) {
        self.put(kind, value as u64, 1, Role::Count { least: 1, most });
    }

    fn names(&mut self, kind: FieldKind, value: u8, how_many: usize) {
        self.put(kind, value as u64, 1, Role::Names { how_many: how_many as u64 });
    }

    fn sections(&mut self, plan: &Plan) {
        let present = [
            plan.resources > 0,
            !plan.peripherals.is_empty(),
            !plan.events.is_empty(),
            !plan.activities.is_empty(),
            true,
        ];
        let map = (0..5).filter(|&bit| present[bit]).map(|bit| 1 << bit).sum();
        self.put(SectionMap, map, 1, Role::SectionMap);
        if present[0] {
            self.count(ResourceCount, plan.resources as usize, 16);
        }
        if present[1] {
            self.count(PeripheralCount, plan.peripherals.len(), 64);
            plan.peripherals.iter().for_each(|&r| self.names(PeripheralResource, r, plan.resources as usize));
        }
        if present[2] {
            self.count(EventCount, plan.events.len(), 16);
            plan.events.iter().for_each(|&outcomes| self.count(OutcomeCount, outcomes as usize, 8));
        }
        if present[3] {
            self.count(ActivityCount, plan.activities.len(), 32);
            plan.activities.iter().for_each(|activity| self.activity(plan, activity));
        }
    }

    fn activity(&mut self, plan: &Plan, activity: &Activity) {
        self.count(NodeCount, activity.len(), 64);
        activity.iter().for_each(|node| self.node(plan, node, activity.len()));
    }

    fn node(&mut self, plan: &Plan, node: &Node, nodes: usize) {
        let timed = if node.duration > 0 { 0x10 } else { 0 };
        let preceded = if node.predecessors.is_empty() { 0 } else { 0x20 };
        let map = |kind: u64| kind + timed + preceded;
        match node.kind {
            Kind::Action { number, peripheral } => {
                self.put(NodeMap, map(1), 1, Role::NodeMap);
                self.put(ActionNumber, number as u64, 1, Role::AnyNumber);
                self.names(ActionPeripheral, peripheral, plan.peripherals.len());
            }
            Kind::Claim(resource) => {
                self.put(NodeMap, map(2), 1, Role::NodeMap);
                self.names(ClaimResource, resource, plan.resources as usize);
            }
            Kind::Release(resource) => {
                self.put(NodeMap, map(4), 1, Role::NodeMap);
                self.names(ReleaseResource, resource, plan.resources as usize);
            }
            Kind::Event(event) => {
                self.put(NodeMap, map(8), 1, Role::NodeMap);
                self.names(EventNumber, event, plan.events.len());
            }
        }
        if node.duration > 0 {
            self.put(Duration, node.duration as u64, 4, Role::Duration);
        }
        self.predecessors(node, nodes);
    }

    fn predecessors(&mut self, node: &Node, nodes: usize) {
        if !node.predecessors.is_empty() {
            self.count(PredecessorCount, node.predecessors.len(), 8);
        }
        let mut previous = None;
        for &p in &node.predecessors {
            self.put(Predecessor, p as u64, 1, Role::Predecessor { nodes: nodes as u64, previous });
            previous = Some(p);
        }
    }

    fn automaton(&mut self, plan: &Plan) {
        let automaton = &plan.automaton;
        let states = automaton.states as usize;
        self.count(StateCount, states, 64);
        self.names(InitialState, automaton.initial, states);
        self.put(FinalBits, automaton.finals, 8, Role::FinalBits { states: states as u64 });
        self.put(TransitionCount, automaton.transitions.len() as u64, 2, Role::Count { least: 0, most: 256 });
        automaton.transitions.iter().for_each(|t| self.transition(plan, t));
    }

    fn transition(&mut self, plan: &Plan, way: &Transition) {
        let states = plan.automaton.states as usize;
        let map = match (way.input, way.activity) {
            (None, None) => 0,
            (Some(_), None) => 1,
            (None, Some(_)) => 2,
            (Some(_), Some(_)) => 3,
        };
        self.put(TransitionMap, map, 1, Role::TransitionMap);
        self.names(FromState, way.from, states);
        self.names(ToState, way.to, states);
        if let Some((event, outcome)) = way.input {
            self.names(TransitionEvent, event, plan.events.len());
            self.names(TransitionOutcome, outcome, plan.events[event as usize] as usize);
        }
        if let Some(activity) = way.activity {
            self.names(TransitionActivity, activity, plan.activities.len());
        }
    }
}
