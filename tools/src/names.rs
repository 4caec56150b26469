//! The names of a plan's things. A plan file has numbers only; the names are the author's, or r0, p0, e0, o0, a0,
//! n0, s0.

use crate::toggles::{broken, Broken};
use jidlekuvo_reference::plan_file::Plan;
use std::collections::BTreeMap;

/// What a name can name. Names are unlike within one of these; outcomes belong to an event, nodes to an activity.
#[derive(Clone, Copy, Debug, PartialEq, Eq, PartialOrd, Ord)]
pub enum Space {
    Resource,
    Peripheral,
    Event,
    Outcome(u8),
    Activity,
    Node(u8),
    State,
}

impl Space {
    /// The letter of a name that nobody gave.
    fn letter(self) -> char {
        match self {
            Space::Resource => 'r',
            Space::Peripheral => 'p',
            Space::Event => 'e',
            Space::Outcome(_) => 'o',
            Space::Activity => 'a',
            Space::Node(_) => 'n',
            Space::State => 's',
        }
    }
}

/// Names by what they name, in the order of the numbers.
#[derive(Clone, Debug, Default, PartialEq, Eq)]
pub struct Names {
    lists: BTreeMap<Space, Vec<String>>,
}

impl Names {
    /// The name of a number; the plain one where none is known.
    pub fn of(&self, space: Space, number: usize) -> String {
        let number = number + broken(Broken::NameOffByOne) as usize;
        let known = self.list(space).get(number);
        known.cloned().unwrap_or_else(|| plain(space, number))
    }

    pub fn list(&self, space: Space) -> &[String] {
        self.lists.get(&space).map_or(&[], |list| list)
    }

    /// The number that a name stands for.
    pub fn find(&self, space: Space, name: &str) -> Option<usize> {
        self.list(space).iter().position(|known| known == name)
    }

    pub fn add(&mut self, space: Space, name: String) {
        self.lists.entry(space).or_default().push(name);
    }

    /// A name for everything the plan has: those given where they reach, plain ones for the rest. A plain name that
    /// is given to something else gets underscores in front until it is unlike.
    pub fn completed(&self, plan: &Plan) -> Names {
        let mut names = Names::default();
        for (space, count) in spaces(plan).into_iter().filter(|(_, count)| *count > 0) {
            let given = self.list(space);
            let mut list: Vec<String> = given.iter().take(count).cloned().collect();
            for number in list.len()..count {
                let mut name = plain(space, number);
                while given.contains(&name) {
                    name.insert(0, '_');
                }
                list.push(name);
            }
            names.lists.insert(space, list);
        }
        names
    }
}

fn plain(space: Space, number: usize) -> String {
    format!("{}{number}", space.letter())
}

/// Everything that a plan has names for, and how many of each.
fn spaces(plan: &Plan) -> Vec<(Space, usize)> {
    let mut spaces = vec![
        (Space::Resource, plan.resources as usize),
        (Space::Peripheral, plan.peripherals.len()),
        (Space::Event, plan.events.len()),
        (Space::Activity, plan.activities.len()),
        (Space::State, plan.automaton.states as usize),
    ];
    spaces.extend((0..).zip(&plan.events).map(|(e, &outcomes)| (Space::Outcome(e), outcomes as usize)));
    spaces.extend((0..).zip(&plan.activities).map(|(a, nodes)| (Space::Node(a), nodes.len())));
    spaces
}
