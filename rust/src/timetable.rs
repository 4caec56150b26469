//! "The program *timetable* reads the plan's length (two bytes), the plan and outcome bytes;
//! availabilities are 0."

use crate::plan_file::{Plan, Transition};
use crate::specified_times::incremental::{shapes, Shape};
use crate::specified_times::{Moment, Passed};
use crate::toggles::{broken, Broken};
use crate::verdict::judge;
use crate::{Fault, HORIZON, LAST_POSITION};
use std::fmt::Write;

pub const HEADER: &str = "position activity node start end\n";

pub fn refused(fault: Fault) -> String {
    format!("refused {} {}\n", fault.number, fault.place)
}

/// The plan's bytes and the outcomes. "input that ends inside the length or the plan gives 1,
/// place = the plan bytes present".
pub fn split(input: &[u8]) -> Result<(&[u8], &[u8]), Fault> {
    if input.len() < 2 {
        return Err(Fault::new(1, 0));
    }
    let length = input[0] as usize | (input[1] as usize) << 8;
    let rest = &input[2..];
    if rest.len() < length {
        return Err(Fault::new(1, rest.len()));
    }
    Ok(rest.split_at(length))
}

/// The whole text for an input.
pub fn timetable(input: &[u8]) -> String {
    let plan_and_outcomes = split(input).and_then(|(plan, outcomes)| Ok((judge(plan)?, outcomes)));
    match plan_and_outcomes {
        Err(fault) => refused(fault),
        Ok((plan, outcomes)) => list(&plan, outcomes, &vec![0; plan.resources as usize]),
    }
}

/// The list of an accepted plan. The program's availabilities are 0; tests of 44 need others,
/// because from 0 the horizon is some 17 million rows away.
pub fn list(plan: &Plan, outcomes: &[u8], availabilities: &[u64]) -> String {
    Table::of(plan, outcomes, availabilities).text
}

/// What the next transition depends on.
enum Next {
    Take(Transition),
    End,
    Waits(u8),
    Lacks(Fault),
}

struct Table<'a> {
    plan: &'a Plan,
    shapes: Vec<Shape>,
    outcomes: &'a [u8],
    read: usize,
    state: u8,
    moment: Moment,
    text: String,
}

impl<'a> Table<'a> {
    fn of(plan: &'a Plan, outcomes: &'a [u8], availabilities: &[u64]) -> Table<'a> {
        let mut table = Table {
            plan,
            shapes: shapes(plan),
            outcomes,
            read: 0,
            state: plan.automaton.initial,
            moment: Moment::at_opening(plan, availabilities),
            text: HEADER.to_string(),
        };
        let mut position = 0;
        while table.take_next(position) {
            position += 1;
        }
        table
    }

    fn next(&mut self) -> Next {
        let automaton = &self.plan.automaton;
        let ways = automaton.ways_out(self.state);
        let awaited = match broken(Broken::ByteForAMarker) {
            true => automaton.processed_event(self.state),
            false => automaton.awaited_event(self.state),
        };
        let Some(event) = awaited else {
            return ways.first().map_or(Next::End, |&way| Next::Take(way));
        };
        let Some(&outcome) = self.outcomes.get(self.read) else { return Next::Waits(event) };
        let index = self.read;
        self.read += 1;
        match ways.into_iter().find(|t| t.input == Some((event, outcome))) {
            Some(way) => Next::Take(way),
            // "55 for an outcome the event lacks, place = its index"
            None => Next::Lacks(Fault::new(55, index + broken(Broken::OutcomeIndexFromOne) as usize)),
        }
    }

    /// Takes a transition, or closes the list; gives whether to go on.
    fn take_next(&mut self, position: u64) -> bool {
        match self.next() {
            Next::Take(way) => return self.take(&way, position),
            Next::Lacks(fault) => self.text += &refused(fault),
            Next::End => {
                self.free();
                let _ = writeln!(self.text, "end {}", self.state);
            }
            Next::Waits(event) => {
                self.hold_back_too_early(event);
                self.free();
                let _ = writeln!(self.text, "waits {} {}", self.state, event);
            }
        }
        false
    }

    /// "44, place = the position, whose rows are left out."
    fn take(&mut self, way: &Transition, position: u64) -> bool {
        let passed = self.moment.pass(self.plan, &self.shapes, way, position);
        if passed.latest > HORIZON || position > LAST_POSITION {
            if broken(Broken::RowsAtTheHorizon) {
                self.rows(&passed);
            }
            self.text += &refused(Fault { number: 44, place: position });
            return false;
        }
        self.rows(&passed);
        self.moment = passed.moment;
        self.state = way.to;
        true
    }

    /// "Action and event nodes by position and node".
    fn rows(&mut self, passed: &Passed) {
        let mut times = passed.times.clone();
        if broken(Broken::RowsByTime) {
            times.sort_by_key(|time| time.start);
        }
        for t in times {
            let row = (t.position, t.activity, t.node, t.start, t.completion);
            let _ = writeln!(self.text, "{} {} {} {} {}", row.0, row.1, row.2, row.3, row.4);
        }
    }

    /// "availability by resource"; without resources `free` alone.
    fn free(&mut self) {
        self.text += "free";
        for available in &self.moment.availabilities {
            let _ = write!(self.text, " {available}");
        }
        self.text.push('\n');
    }

    /// A mistake to be caught: the awaited event holds nothing back yet.
    fn hold_back_too_early(&mut self, event: u8) {
        if !broken(Broken::FreeHeldBackAtWaits) {
            return;
        }
        let held = self.moment.oldest(event).map_or(0, |instance| instance.completion);
        self.moment.availabilities.iter_mut().for_each(|a| *a = (*a).max(held));
    }
}
