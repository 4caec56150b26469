//! "The plan file": the plan itself, its reader, its writer and its rules.

mod field_kind;
mod read;
mod rules;
mod write;

pub use field_kind::{FieldKind, FIELD_KINDS};
pub use read::{faulty_field, read};
pub use rules::{is_in_limits, meets_file_rules};
pub use write::{encode, write};

pub const MOST_RESOURCES: u64 = 16;
pub const MOST_PERIPHERALS: u64 = 64;
pub const MOST_EVENTS: u64 = 16;
pub const MOST_OUTCOMES: u64 = 8;
pub const MOST_ACTIVITIES: u64 = 32;
pub const MOST_NODES: u64 = 64;
pub const MOST_PREDECESSORS: u64 = 8;
pub const MOST_STATES: u64 = 64;
pub const MOST_TRANSITIONS: u64 = 256;
pub const LONGEST_DURATION: u64 = 60_000_000;
/// "No accepted plan exceeds 34,433 bytes."
pub const LONGEST_PLAN: usize = 34_433;

/// "Exactly one of bits 0 to 3 stands and says which of the four kinds the node is."
#[derive(Clone, Copy, Debug, PartialEq, Eq)]
pub enum Kind {
    Action { number: u8, peripheral: u8 },
    Claim(u8),
    Release(u8),
    Event(u8),
}

/// "No bit 4 means duration 0."
#[derive(Clone, Debug, PartialEq, Eq)]
pub struct Node {
    pub kind: Kind,
    pub duration: u32,
    pub predecessors: Vec<u8>,
}

impl Node {
    /// Actions and events are what a run starts and a timetable prints.
    pub fn is_executed(&self) -> bool {
        matches!(self.kind, Kind::Action { .. } | Kind::Event(_))
    }
}

pub type Activity = Vec<Node>;

/// "Without bit 0 nothing is processed; without bit 1 the activity is the empty one."
#[derive(Clone, Copy, Debug, PartialEq, Eq)]
pub struct Transition {
    pub from: u8,
    pub to: u8,
    /// Event and outcome.
    pub input: Option<(u8, u8)>,
    pub activity: Option<u8>,
}

#[derive(Clone, Debug, Default, PartialEq, Eq)]
pub struct Automaton {
    pub states: u8,
    pub initial: u8,
    pub finals: u64,
    pub transitions: Vec<Transition>,
}

impl Automaton {
    pub fn is_final(&self, state: u8) -> bool {
        state < 64 && self.finals >> state & 1 == 1
    }

    /// The transitions that leave a state, in file order.
    pub fn ways_out(&self, state: u8) -> Vec<Transition> {
        self.transitions.iter().copied().filter(|t| t.from == state).collect()
    }

    /// The event that a state processes, whether it waits for it or not.
    pub fn processed_event(&self, state: u8) -> Option<u8> {
        self.ways_out(state).iter().find_map(|t| t.input.map(|(event, _)| event))
    }

    /// "only a state with more than one way out is a waiting state"
    pub fn awaited_event(&self, state: u8) -> Option<u8> {
        match self.ways_out(state)[..] {
            [first, _, ..] => first.input.map(|(event, _)| event),
            _ => None,
        }
    }
}

/// An absent section is a count of 0 here.
#[derive(Clone, Debug, Default, PartialEq, Eq)]
pub struct Plan {
    pub resources: u8,
    /// The resource of each peripheral.
    pub peripherals: Vec<u8>,
    /// How many outcomes each event has.
    pub events: Vec<u8>,
    pub activities: Vec<Activity>,
    pub automaton: Automaton,
}

impl Plan {
    /// "Customers use one-outcome events as markers".
    pub fn is_marker(&self, event: u8) -> bool {
        self.events[event as usize] == 1
    }
}
