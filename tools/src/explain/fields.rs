//! 1 to 8: which field the offset is. The fields are walked from the front; all before the refused one are good.

use crate::names::{Names, Space};
use crate::toggles::{broken, Broken};
use jidlekuvo_reference::plan_file::*;

/// Whose field it is.
#[derive(Clone, Copy, Debug, PartialEq, Eq)]
pub enum Owner {
    File,
    Peripheral(usize),
    Event(usize),
    Activity(usize),
    Node(usize, usize),
    Automaton,
    Transition(usize),
}

/// What may stand in a field.
#[derive(Clone, Copy, Debug, PartialEq, Eq)]
pub enum Rule {
    SectionMap,
    NodeMap,
    TransitionMap,
    Count { least: u64, most: u64 },
    Names { how_many: u64, what: &'static str },
    AnyNumber,
    Duration,
    Predecessor { nodes: u64, before: Option<u64> },
    FinalBits { states: u64 },
    NoMore,
}

/// A field of a file, with its value where the file does not end inside it.
#[derive(Clone, Debug, PartialEq, Eq)]
pub struct Field {
    pub place: usize,
    pub width: usize,
    pub owner: Owner,
    pub what: &'static str,
    pub rule: Rule,
    pub value: Option<u64>,
}

/// The field that begins at an offset, if all before it can be walked.
pub fn field_at(bytes: &[u8], place: usize) -> Option<Field> {
    let wanted = place + broken(Broken::FieldOneLate) as usize;
    let mut walk = Walk { bytes, wanted, at: 0, found: None };
    if walk.file().is_some() {
        walk.take(1, Owner::File, "after the last transition", Rule::NoMore);
    }
    walk.found
}

struct Walk<'a> {
    bytes: &'a [u8],
    wanted: usize,
    at: usize,
    found: Option<Field>,
}

/// What the numbers of a file can name.
#[derive(Default)]
struct Known {
    resources: u64,
    peripherals: u64,
    events: Vec<u64>,
    activities: u64,
}

impl Walk<'_> {
    /// The value of the next field; None at the wanted field and where the bytes end.
    fn take(&mut self, width: usize, owner: Owner, what: &'static str, rule: Rule) -> Option<u64> {
        let bytes = self.bytes.get(self.at..self.at + width);
        let value = bytes.map(|bytes| bytes.iter().rev().fold(0, |value, &byte| value << 8 | byte as u64));
        if self.at == self.wanted {
            self.found = Some(Field { place: self.at, width, owner, what, rule, value });
            return None;
        }
        self.at += width;
        value
    }

    fn count(&mut self, owner: Owner, what: &'static str, most: u64) -> Option<usize> {
        self.take(1, owner, what, Rule::Count { least: 1, most }).map(|count| count as usize)
    }

    fn names(&mut self, owner: Owner, what: &'static str, how_many: u64) -> Option<u64> {
        self.take(1, owner, what, Rule::Names { how_many, what })
    }

    fn file(&mut self) -> Option<()> {
        let map = self.take(1, Owner::File, "map of sections", Rule::SectionMap)?;
        let mut known = Known::default();
        if map & 1 != 0 {
            known.resources = self.count(Owner::File, "count of resources", MOST_RESOURCES)? as u64;
        }
        if map & 2 != 0 {
            known.peripherals = self.count(Owner::File, "count of peripherals", MOST_PERIPHERALS)? as u64;
            (0..known.peripherals as usize)
                .try_for_each(|p| self.names(Owner::Peripheral(p), "resource", known.resources).map(drop))?;
        }
        if map & 4 != 0 {
            let count = self.count(Owner::File, "count of events", MOST_EVENTS)?;
            known.events = (0..count)
                .map(|e| self.count(Owner::Event(e), "count of outcomes", MOST_OUTCOMES).map(|n| n as u64))
                .collect::<Option<_>>()?;
        }
        if map & 8 != 0 {
            known.activities = self.count(Owner::File, "count of activities", MOST_ACTIVITIES)? as u64;
            (0..known.activities as usize).try_for_each(|a| self.activity(a, &known))?;
        }
        self.automaton(&known)
    }

    fn activity(&mut self, activity: usize, known: &Known) -> Option<()> {
        let nodes = self.count(Owner::Activity(activity), "count of nodes", MOST_NODES)?;
        (0..nodes).try_for_each(|n| self.node(Owner::Node(activity, n), nodes as u64, known))
    }

    fn node(&mut self, owner: Owner, nodes: u64, known: &Known) -> Option<()> {
        let map = self.take(1, owner, "map", Rule::NodeMap)?;
        match map & 15 {
            1 => {
                self.take(1, owner, "action number", Rule::AnyNumber)?;
                self.names(owner, "peripheral", known.peripherals)?;
            }
            2 | 4 => drop(self.names(owner, "resource", known.resources)?),
            _ => drop(self.names(owner, "event", known.events.len() as u64)?),
        }
        if map & 16 != 0 {
            self.take(4, owner, "duration", Rule::Duration)?;
        }
        if map & 32 == 0 {
            return Some(());
        }
        let count = self.count(owner, "count of predecessors", MOST_PREDECESSORS)?;
        let mut before = None;
        for _ in 0..count {
            before = Some(self.take(1, owner, "predecessor", Rule::Predecessor { nodes, before })?);
        }
        Some(())
    }

    fn automaton(&mut self, known: &Known) -> Option<()> {
        let states = self.count(Owner::Automaton, "count of states", MOST_STATES)? as u64;
        self.take(1, Owner::Automaton, "initial state", Rule::Names { how_many: states, what: "state" })?;
        self.take(8, Owner::Automaton, "final-state bits", Rule::FinalBits { states })?;
        let rule = Rule::Count { least: 0, most: MOST_TRANSITIONS };
        let transitions = self.take(2, Owner::Automaton, "count of transitions", rule)?;
        (0..transitions as usize).try_for_each(|t| self.transition(t, states, known))
    }

    fn transition(&mut self, number: usize, states: u64, known: &Known) -> Option<()> {
        let owner = Owner::Transition(number);
        let state = Rule::Names { how_many: states, what: "state" };
        let map = self.take(1, owner, "map", Rule::TransitionMap)?;
        self.take(1, owner, "from-state", state)?;
        self.take(1, owner, "to-state", state)?;
        if map & 1 != 0 {
            let event = self.names(owner, "event", known.events.len() as u64)?;
            self.names(owner, "outcome", known.events[event as usize])?;
        }
        if map & 2 != 0 {
            self.names(owner, "activity", known.activities)?;
        }
        Some(())
    }
}

impl Owner {
    fn said(self, names: &Names) -> String {
        match self {
            Owner::File => "the file".into(),
            Owner::Peripheral(p) => format!("peripheral {}", names.of(Space::Peripheral, p)),
            Owner::Event(e) => format!("event {}", names.of(Space::Event, e)),
            Owner::Activity(a) => format!("activity {}", names.of(Space::Activity, a)),
            Owner::Node(a, n) => {
                let node = names.of(Space::Node(a as u8), n);
                format!("activity {}, node {node}", names.of(Space::Activity, a))
            }
            Owner::Automaton => "automaton".into(),
            Owner::Transition(t) => format!("transition {t}"),
        }
    }
}

impl Field {
    /// The sentence of a refused field, "byte 37: activity stitch, node sew, count of predecessors: 9, at most 8".
    pub fn said(&self, names: &Names, length: usize) -> String {
        let start = format!("byte {}: {}, {}", self.place, self.owner.said(names), self.what);
        let Some(value) = self.value else {
            return format!("{start}: {}, and the file ends after {}", bytes(self.width), bytes(length));
        };
        match self.rule {
            Rule::NoMore => {
                format!("byte {}: {} left over {}", self.place, bytes(length - self.place), self.what)
            }
            Rule::SectionMap | Rule::NodeMap | Rule::TransitionMap | Rule::FinalBits { .. } => {
                format!(
                    "{start}: {value:0width$X} (hexadecimal), {}",
                    self.limit(value),
                    width = 2 * self.width
                )
            }
            _ => format!("{start}: {value}, {}", self.limit(value)),
        }
    }

    fn limit(&self, value: u64) -> String {
        match self.rule {
            Rule::SectionMap if value & 0xE0 != 0 => "bits 5 to 7 must be 0".into(),
            Rule::SectionMap => "bit 4 must stand: a plan has an automaton".into(),
            Rule::TransitionMap => "bits 2 to 7 must be 0".into(),
            Rule::NodeMap if value & 0xC0 != 0 => "bits 6 and 7 must be 0".into(),
            Rule::NodeMap if (value & 15).count_ones() != 1 => "exactly one of bits 0 to 3 must stand".into(),
            Rule::NodeMap => "a claim or a release has no duration (bit 4)".into(),
            Rule::Count { least, .. } if value < least => format!("at least {least}"),
            Rule::Count { most, .. } => format!("at most {most}"),
            Rule::Names { how_many, what } => numbered(how_many, what),
            Rule::Duration => format!("from 1 to {LONGEST_DURATION}"),
            Rule::Predecessor { before: Some(before), nodes } if value < nodes => {
                format!("not above the one before it, {before}")
            }
            Rule::Predecessor { nodes, .. } => numbered(nodes, "node"),
            Rule::FinalBits { states } => format!("a bit past the last state, {}", states - 1),
            Rule::AnyNumber | Rule::NoMore => "any value is good".into(),
        }
    }
}

/// "1 byte", "4 bytes".
fn bytes(count: usize) -> String {
    format!("{count} byte{}", if count == 1 { "" } else { "s" })
}

fn numbered(how_many: u64, what: &str) -> String {
    match how_many {
        0 => format!("the file has no {what}"),
        1 => format!("the only {what} is 0"),
        _ => format!("the last {what} is {}", how_many - 1),
    }
}
