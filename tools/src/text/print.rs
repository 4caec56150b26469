//! From a plan and its names to text.

use super::forms::Form;
use super::lines::{Line, Value, Word};
use super::written::written;
use crate::names::{Names, Space};
use crate::toggles::{broken, Broken};
use jidlekuvo_reference::plan_file::{Kind, Node, Plan, Transition};

/// The text of a plan. Names that `names` lacks are plain ones.
pub fn print(plan: &Plan, names: &Names) -> String {
    let printer = Printer { plan, names: names.completed(plan) };
    let mut text = String::new();
    for line in printer.lines() {
        text += &written(&line);
        text.push('\n');
    }
    text
}

/// A transition's line.
pub fn way_line(way: &Transition, names: &Names) -> String {
    let plan = Plan::default();
    written(&Printer { plan: &plan, names: names.clone() }.way(way))
}

fn line(form: Form, values: Vec<Value>) -> Line {
    Line { form, number: 0, values }
}

fn named(text: String) -> Word {
    Word { text, column: 0 }
}

struct Printer<'a> {
    plan: &'a Plan,
    names: Names,
}

impl Printer<'_> {
    fn name(&self, space: Space, number: u8) -> Value {
        Value::Name(named(self.names.of(space, number as usize)))
    }

    fn lines(&self) -> Vec<Line> {
        let plan = self.plan;
        let mut lines = vec![line(Form::Plan, vec![Value::Number(1)])];
        lines.extend((0..plan.resources).map(|r| line(Form::Resource, vec![self.name(Space::Resource, r)])));
        lines.extend((0..).zip(&plan.peripherals).map(|(p, &resource)| {
            let values = vec![self.name(Space::Peripheral, p), self.name(Space::Resource, resource)];
            line(Form::Peripheral, values)
        }));
        lines.extend((0..).zip(&plan.events).map(|(e, &outcomes)| self.event(e, outcomes)));
        for (a, nodes) in (0..).zip(&plan.activities) {
            lines.push(line(Form::Activity, vec![self.name(Space::Activity, a)]));
            lines.extend((0..).zip(nodes).map(|(n, node)| self.node(a, n, node)));
        }
        lines.extend((0..plan.automaton.states).map(|state| self.state(state)));
        lines.extend(plan.automaton.transitions.iter().map(|way| self.way(way)));
        lines
    }

    fn event(&self, event: u8, outcomes: u8) -> Line {
        let outcome = |o: u8| named(self.names.of(Space::Outcome(event), o as usize));
        let values = vec![self.name(Space::Event, event), Value::Names((0..outcomes).map(outcome).collect())];
        line(Form::Event, values)
    }

    fn node(&self, activity: u8, number: u8, node: &Node) -> Line {
        let name = self.name(Space::Node(activity), number);
        let duration = match node.duration {
            0 => Value::Absent,
            _ if broken(Broken::DurationDropped) => Value::Absent,
            duration => Value::Number(duration as u64),
        };
        let before = |&p: &u8| named(self.names.of(Space::Node(activity), p as usize));
        let after = match node.predecessors.is_empty() {
            true => Value::Absent,
            false => Value::Names(node.predecessors.iter().map(before).collect()),
        };
        match node.kind {
            Kind::Claim(r) => line(Form::Claim, vec![name, self.name(Space::Resource, r), after]),
            Kind::Release(r) => line(Form::Release, vec![name, self.name(Space::Resource, r), after]),
            Kind::Event(e) => line(Form::Sense, vec![name, self.name(Space::Event, e), duration, after]),
            Kind::Action { number, peripheral } => {
                let on = self.name(Space::Peripheral, peripheral);
                line(Form::Action, vec![name, Value::Number(number as u64), on, duration, after])
            }
        }
    }

    fn state(&self, state: u8) -> Line {
        let mark = |is: bool| if is { Value::Present } else { Value::Absent };
        let automaton = &self.plan.automaton;
        let marks = [mark(automaton.initial == state), mark(automaton.is_final(state))];
        let [initial, last] = marks;
        line(Form::State, vec![self.name(Space::State, state), initial, last])
    }

    fn way(&self, way: &Transition) -> Line {
        let (event, outcome) = match way.input {
            Some((e, o)) => (self.name(Space::Event, e), self.name(Space::Outcome(e), o)),
            None => (Value::Absent, Value::Absent),
        };
        let activity = way.activity.map_or(Value::Absent, |a| self.name(Space::Activity, a));
        let (from, to) = (self.name(Space::State, way.from), self.name(Space::State, way.to));
        line(Form::Way, vec![from, to, event, outcome, activity])
    }
}
