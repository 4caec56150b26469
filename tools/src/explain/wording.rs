//! Findings in words.

use super::{Finding, Pending};
use crate::names::{Names, Space};
use crate::text::way_line;
use jidlekuvo_reference::plan_file::{Kind, Plan};
use jidlekuvo_reference::Fault;

pub fn sentence(plan: &Plan, names: &Names, fault: Fault, finding: &Finding) -> String {
    let words = Words { plan, names };
    match finding {
        Finding::Word { transitions, event, end } => words.word(transitions, *event, *end),
        Finding::WayOut { .. }
        | Finding::Branch { .. }
        | Finding::MissingOutcome { .. }
        | Finding::Stuck { .. } => words.of_states(finding),
        _ => format!("activity {}: {}", words.activity(fault.place as u8), words.of_activity(finding)),
    }
}

/// "2 times", "1 time".
fn times(count: usize) -> String {
    format!("{count} time{}", if count == 1 { "" } else { "s" })
}

struct Words<'a> {
    plan: &'a Plan,
    names: &'a Names,
}

impl Words<'_> {
    fn activity(&self, activity: u8) -> String {
        self.names.of(Space::Activity, activity as usize)
    }

    fn node(&self, activity: u8, node: u8) -> String {
        self.names.of(Space::Node(activity), node as usize)
    }

    fn resource(&self, resource: u8) -> String {
        self.names.of(Space::Resource, resource as usize)
    }

    fn event(&self, event: u8) -> String {
        self.names.of(Space::Event, event as usize)
    }

    fn outcome(&self, event: u8, outcome: u8) -> String {
        format!("{} {}", self.event(event), self.names.of(Space::Outcome(event), outcome as usize))
    }

    fn state(&self, state: u8) -> String {
        self.names.of(Space::State, state as usize)
    }

    /// A node with what it does: "sew (action on needle)".
    fn kind(&self, activity: u8, node: u8) -> String {
        let what = match self.plan.activities[activity as usize][node as usize].kind {
            Kind::Action { peripheral, .. } => {
                let resource = self.resource(self.plan.peripherals[peripheral as usize]);
                format!("action on {} of {resource}", self.names.of(Space::Peripheral, peripheral as usize))
            }
            Kind::Claim(resource) => format!("claim of {}", self.resource(resource)),
            Kind::Release(resource) => format!("release of {}", self.resource(resource)),
            Kind::Event(event) => format!("event {}", self.event(event)),
        };
        format!("{} ({what})", self.node(activity, node))
    }

    fn of_activity(&self, finding: &Finding) -> String {
        match finding {
            Finding::Cycle { activity, nodes } => {
                let around = nodes.iter().chain(nodes.first());
                let way: Vec<String> = around.map(|&node| self.node(*activity, node)).collect();
                format!("the arrows {} are a cycle", way.join(" -> "))
            }
            Finding::Unordered { activity: a, one, other } => {
                let (one, other) = (self.kind(*a, *one), self.kind(*a, *other));
                format!("no arrows lead from {one} to {other}, nor back: they are not ordered")
            }
            Finding::Twice { activity: a, one, other } => {
                format!("{} and {}: at most one of them", self.kind(*a, *one), self.kind(*a, *other))
            }
            Finding::NoClaimBefore { activity: a, node, resource } => {
                format!("{} has no claim of {} before it", self.kind(*a, *node), self.resource(*resource))
            }
            Finding::NoReleaseAfter { activity: a, node, resource } => {
                format!("{} has no release of {} after it", self.kind(*a, *node), self.resource(*resource))
            }
            Finding::Arrow { activity: a, from, to } => {
                match self.plan.activities[*a as usize][*to as usize].kind {
                    Kind::Claim(_) => {
                        format!(
                            "{} comes after {}, and a claim comes after nothing",
                            self.kind(*a, *to),
                            self.kind(*a, *from)
                        )
                    }
                    _ => format!("{} comes after {}, a release", self.kind(*a, *to), self.kind(*a, *from)),
                }
            }
            Finding::NoPredecessor { activity: a, node } => {
                format!("{} comes after nothing", self.kind(*a, *node))
            }
            _ => String::new(),
        }
    }

    fn way(&self, way: usize) -> String {
        format!("'{}'", way_line(&self.plan.automaton.transitions[way], self.names))
    }

    fn of_states(&self, finding: &Finding) -> String {
        match finding {
            Finding::WayOut { way } => {
                let state = self.state(self.plan.automaton.transitions[*way].from);
                format!("state {state} is final and has a way out, {}", self.way(*way))
            }
            Finding::Branch { one, other } => {
                let state = self.state(self.plan.automaton.transitions[*one].from);
                let why = self.why_no_branch(*one, *other);
                format!("state {state}: {} and {}: {why}", self.way(*one), self.way(*other))
            }
            Finding::MissingOutcome { state, event, outcome } => {
                let (state, event_name) = (self.state(*state), self.event(*event));
                format!(
                    "state {state} processes {event_name} and has no way for {}",
                    self.outcome(*event, *outcome)
                )
            }
            Finding::Stuck { states } => {
                let names: Vec<String> = states.iter().map(|&state| self.state(state)).collect();
                let (what, leads) = if names.len() == 1 { ("state", "leads") } else { ("states", "lead") };
                format!("{what} {} {leads} to no final state", names.join(", "))
            }
            _ => String::new(),
        }
    }

    fn why_no_branch(&self, one: usize, other: usize) -> String {
        let input = |way: usize| self.plan.automaton.transitions[way].input;
        match (input(one), input(other)) {
            (Some((e, o)), Some((f, _))) if e == f => format!("both are for {}", self.outcome(e, o)),
            (Some((e, _)), Some((f, _))) => {
                format!("one processes {}, the other {}", self.event(e), self.event(f))
            }
            (None, None) => "neither processes an event".into(),
            _ => "only one of them processes an event".into(),
        }
    }

    /// "begin -stitch-> asks -thread broken, trim-> end: thread was sensed 2 times and asked 1 time"
    fn word(&self, word: &[usize], event: u8, end: Pending) -> String {
        let mut said = self.state(self.plan.automaton.initial);
        let (mut sensed, mut asked, mut last_sensed) = (0, 0, 0);
        for &way in word {
            let transition = self.plan.automaton.transitions[way];
            let input = transition.input.map(|(event, outcome)| self.outcome(event, outcome));
            let activity = transition.activity.map(|activity| self.activity(activity));
            let label: Vec<String> = input.into_iter().chain(activity).collect();
            said += &format!(" -{}-> {}", label.join(", "), self.state(transition.to));
            asked += transition.input.is_some_and(|input| input.0 == event) as usize;
            last_sensed = self.senses(transition.activity, event);
            sensed += last_sensed;
        }
        let name = self.event(event);
        match end {
            // The last transition processes before it emits.
            Pending::Unsensed => {
                let before = sensed - last_sensed;
                format!("{said}: {name} was asked {} and sensed {} before that", times(asked), times(before))
            }
            Pending::LeftOver => {
                format!("{said}: {name} was sensed {} and asked {}", times(sensed), times(asked))
            }
            Pending::TooMany => {
                let (counts, pending) =
                    (format!("sensed {} and asked {}", times(sensed), times(asked)), sensed - asked);
                format!("{said}: {name} was {counts}: {pending} are pending, at most 8 may be")
            }
        }
    }

    fn senses(&self, activity: Option<u8>, event: u8) -> usize {
        let nodes = activity.iter().flat_map(|&activity| &self.plan.activities[activity as usize]);
        nodes.filter(|node| node.kind == Kind::Event(event)).count()
    }
}
