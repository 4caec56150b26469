//! The lanes: each peripheral under its resource, then each event.

use crate::names::{Names, Space};
use jidlekuvo_reference::plan_file::{Kind, Plan};

/// What a lane shows.
#[derive(Clone, Copy, Debug, PartialEq, Eq)]
pub enum Lane {
    /// The heading of a resource; no bars.
    Resource(u8),
    Peripheral(u8),
    /// The heading of the events.
    Events,
    Event(u8),
}

#[derive(Clone, Debug)]
pub struct Lanes {
    pub list: Vec<Lane>,
}

impl Lanes {
    pub fn of(plan: &Plan) -> Lanes {
        let mut list = Vec::new();
        for resource in 0..plan.resources {
            list.push(Lane::Resource(resource));
            let on = (0..).zip(&plan.peripherals).filter(|(_, &r)| r == resource);
            list.extend(on.map(|(p, _)| Lane::Peripheral(p)));
        }
        if !plan.events.is_empty() {
            list.push(Lane::Events);
            list.extend((0..plan.events.len() as u8).map(Lane::Event));
        }
        Lanes { list }
    }

    /// The lane of an action or event.
    pub fn of_node(&self, kind: Kind) -> usize {
        let wanted = match kind {
            Kind::Action { peripheral, .. } => Lane::Peripheral(peripheral),
            Kind::Event(event) => Lane::Event(event),
            Kind::Claim(resource) | Kind::Release(resource) => Lane::Resource(resource),
        };
        self.list.iter().position(|&lane| lane == wanted).unwrap_or(0)
    }

    pub fn name(&self, lane: usize, names: &Names) -> String {
        match self.list[lane] {
            Lane::Resource(r) => names.of(Space::Resource, r as usize),
            Lane::Peripheral(p) => names.of(Space::Peripheral, p as usize),
            Lane::Events => "events".into(),
            Lane::Event(e) => names.of(Space::Event, e as usize),
        }
    }

    pub fn is_heading(&self, lane: usize) -> bool {
        matches!(self.list[lane], Lane::Resource(_) | Lane::Events)
    }
}
