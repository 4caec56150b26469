//! From lines to a plan and its names: first every name is taken down, then every line is understood. A node may
//! name a later one.

use super::forms::{shape, Form};
use super::lines::{Line, Value, Word};
use super::nearest::nearest;
use super::{Named, TextFault};
use crate::names::{Names, Space};
use crate::toggles::{broken, Broken};
use jidlekuvo_reference::plan_file::*;

pub fn plan_of(lines: &[Line]) -> Result<Named, TextFault> {
    let names = names_of(lines)?;
    let mut builder = Builder { names: &names, plan: Plan::default(), initial: None };
    lines.iter().try_for_each(|line| builder.line(line))?;
    let last = lines.last().map_or(1, |line| line.number) + 1;
    builder.finish(last).map(|plan| Named { plan, names })
}

fn fault(line: usize, column: usize, expected: impl Into<String>, found: impl Into<String>) -> TextFault {
    TextFault { line, column, expected: expected.into(), found: found.into(), nearest: None }
}

/// How many of a kind there may be, and what they are called.
fn limit(space: Space) -> (u64, &'static str) {
    match space {
        Space::Resource => (MOST_RESOURCES, "resources"),
        Space::Peripheral => (MOST_PERIPHERALS, "peripherals"),
        Space::Event => (MOST_EVENTS, "events"),
        Space::Outcome(_) => (MOST_OUTCOMES, "outcomes of an event"),
        Space::Activity => (MOST_ACTIVITIES, "activities"),
        Space::Node(_) => (MOST_NODES, "nodes of an activity"),
        Space::State => (MOST_STATES, "states"),
    }
}

/// Every name that the lines give, in order. Sections must follow each other.
fn names_of(lines: &[Line]) -> Result<Names, TextFault> {
    let mut names = Names::default();
    match lines.first() {
        Some(line) if line.form == Form::Plan => {}
        first => {
            return Err(fault(first.map_or(1, |line| line.number), 1, "'plan 1' as the first line", "none"))
        }
    }
    let mut before = &lines[0];
    for line in &lines[1..] {
        in_order(before, line, &names)?;
        declare(&mut names, line)?;
        before = line;
    }
    Ok(names)
}

fn in_order(before: &Line, line: &Line, names: &Names) -> Result<(), TextFault> {
    let (earlier, here) = (shape(before.form), shape(line.form));
    let found = format!("a '{}' line", here.keyword());
    if line.form == Form::Plan {
        return Err(fault(line.number, 1, "one 'plan' line", "a second one"));
    }
    if here.section < earlier.section {
        let expected = format!("it before the first '{}' line", earlier.keyword());
        return Err(fault(line.number, 1, expected, found));
    }
    if here.is_node() && names.list(Space::Activity).is_empty() {
        return Err(fault(line.number, 1, "an 'activity' line before the first node", found));
    }
    if before.form == Form::Activity && !here.is_node() {
        return Err(fault(line.number, 1, "a node of the activity", found));
    }
    Ok(())
}

/// Takes down the names that a line gives.
fn declare(names: &mut Names, line: &Line) -> Result<(), TextFault> {
    let last_activity = names.list(Space::Activity).len().saturating_sub(1) as u8;
    let space = match line.form {
        Form::Plan | Form::Way => return Ok(()),
        Form::Resource => Space::Resource,
        Form::Peripheral => Space::Peripheral,
        Form::Event => Space::Event,
        Form::Activity => Space::Activity,
        Form::Claim | Form::Action | Form::Release | Form::Sense => Space::Node(last_activity),
        Form::State => Space::State,
    };
    add(names, space, line, line.name(0))?;
    if line.form == Form::Event {
        let event = names.list(Space::Event).len() as u8 - 1;
        line.names(1).iter().try_for_each(|outcome| add(names, Space::Outcome(event), line, outcome))?;
    }
    Ok(())
}

fn add(names: &mut Names, space: Space, line: &Line, name: &Word) -> Result<(), TextFault> {
    let (most, what) = limit(space);
    if names.find(space, &name.text).is_some() {
        return Err(fault(line.number, name.column, "a new name", format!("'{}' a second time", name.text)));
    }
    if names.list(space).len() as u64 >= most {
        let expected = format!("at most {most} {what}");
        return Err(fault(line.number, name.column, expected, format!("one more, '{}'", name.text)));
    }
    names.add(space, name.text.clone());
    Ok(())
}

impl Line {
    fn name(&self, at: usize) -> &Word {
        match &self.values[at] {
            Value::Name(name) => name,
            other => unreachable!("the form has a name here, not {other:?}"),
        }
    }

    fn names(&self, at: usize) -> &[Word] {
        match &self.values[at] {
            Value::Names(names) => names,
            _ => &[],
        }
    }

    fn number(&self, at: usize) -> u64 {
        match self.values[at] {
            Value::Number(number) => number,
            _ => 0,
        }
    }

    fn has(&self, at: usize) -> bool {
        self.values[at] != Value::Absent
    }
}

struct Builder<'a> {
    names: &'a Names,
    plan: Plan,
    initial: Option<u8>,
}

impl Builder<'_> {
    /// The number of a name that must be known.
    fn known(&self, space: Space, line: &Line, name: &Word) -> Result<u8, TextFault> {
        let list = self.names.list(space);
        let what = match space {
            Space::Resource => "a resource",
            Space::Peripheral => "a peripheral",
            Space::Event => "an event",
            Space::Outcome(_) => "an outcome of this event",
            Space::Activity => "an activity",
            Space::Node(_) => "a node of this activity",
            Space::State => "a state",
        };
        self.names.find(space, &name.text).map(|number| number as u8).ok_or_else(|| TextFault {
            nearest: nearest(&name.text, list.iter().map(String::as_str)),
            ..fault(line.number, name.column, what, format!("'{}'", name.text))
        })
    }

    fn line(&mut self, line: &Line) -> Result<(), TextFault> {
        match line.form {
            Form::Plan => {}
            Form::Resource => self.plan.resources += 1,
            Form::Peripheral => {
                let resource = self.known(Space::Resource, line, line.name(1))?;
                self.plan.peripherals.push(resource);
            }
            Form::Event => self.plan.events.push(line.names(1).len() as u8),
            Form::Activity => self.plan.activities.push(vec![]),
            Form::Claim | Form::Action | Form::Release | Form::Sense => self.node(line)?,
            Form::State => self.state(line)?,
            Form::Way => self.way(line)?,
        }
        Ok(())
    }

    fn node(&mut self, line: &Line) -> Result<(), TextFault> {
        let (kind, after) = match line.form {
            Form::Claim => (Kind::Claim(self.known(Space::Resource, line, line.name(1))?), 2),
            Form::Release => (Kind::Release(self.known(Space::Resource, line, line.name(1))?), 2),
            Form::Sense => (Kind::Event(self.known(Space::Event, line, line.name(1))?), 3),
            _ => {
                let peripheral = self.known(Space::Peripheral, line, line.name(2))?;
                (Kind::Action { number: line.number(1) as u8, peripheral }, 4)
            }
        };
        let duration = if after > 2 { line.number(after - 1) as u32 } else { 0 };
        let predecessors = self.predecessors(line, line.names(after))?;
        let activity = self.plan.activities.last_mut().expect("a node stands in an activity");
        activity.push(Node { kind, duration, predecessors });
        Ok(())
    }

    /// The nodes of an `after`, by number: the file wants them rising, the text takes them in any order.
    fn predecessors(&self, line: &Line, after: &[Word]) -> Result<Vec<u8>, TextFault> {
        let space = Space::Node(self.plan.activities.len() as u8 - 1);
        let mut found = Vec::new();
        for name in after {
            let number = self.known(space, line, name)?;
            if found.contains(&number) {
                let twice = format!("'{}' a second time", name.text);
                return Err(fault(line.number, name.column, "each predecessor once", twice));
            }
            if found.len() as u64 == MOST_PREDECESSORS {
                let more = format!("one more, '{}'", name.text);
                let expected = format!("at most {MOST_PREDECESSORS} predecessors");
                return Err(fault(line.number, name.column, expected, more));
            }
            found.push(number);
        }
        if !broken(Broken::PredecessorsUnsorted) {
            found.sort_unstable();
        }
        Ok(found)
    }

    fn state(&mut self, line: &Line) -> Result<(), TextFault> {
        let state = self.plan.automaton.states;
        self.plan.automaton.states += 1;
        if line.has(1) && self.initial.replace(state).is_some() {
            let column = line.name(0).column;
            let found = format!("a second one, '{}'", line.name(0).text);
            return Err(fault(line.number, column, "one initial state", found));
        }
        if line.has(2) && !broken(Broken::FinalForgotten) {
            self.plan.automaton.finals |= 1 << state;
        }
        Ok(())
    }

    fn way(&mut self, line: &Line) -> Result<(), TextFault> {
        if self.plan.automaton.transitions.len() as u64 == MOST_TRANSITIONS {
            let expected = format!("at most {MOST_TRANSITIONS} 'from' lines");
            return Err(fault(line.number, 1, expected, "one more"));
        }
        let from = self.known(Space::State, line, line.name(0))?;
        let to = self.known(Space::State, line, line.name(1))?;
        let mut way = Transition { from, to, input: None, activity: None };
        if line.has(2) {
            let event = self.known(Space::Event, line, line.name(2))?;
            way.input = Some((event, self.known(Space::Outcome(event), line, line.name(3))?));
        }
        if line.has(4) {
            way.activity = Some(self.known(Space::Activity, line, line.name(4))?);
        }
        self.plan.automaton.transitions.push(way);
        Ok(())
    }

    fn finish(mut self, line: usize) -> Result<Plan, TextFault> {
        if self.plan.automaton.states == 0 {
            return Err(fault(line, 1, "at least one 'state' line", "the end of the text"));
        }
        let Some(initial) = self.initial else {
            return Err(fault(line, 1, "one state marked 'initial'", "the end of the text"));
        };
        self.plan.automaton.initial = initial;
        Ok(self.plan)
    }
}
