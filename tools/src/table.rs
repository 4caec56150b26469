//! The table that the proved program prints, read line by line, and printed with names.

use crate::explain::outcomes::Walk;
use crate::names::{Names, Space};
use crate::proved;
use crate::text::nearest;
use crate::toggles::{broken, Broken};
use jidlekuvo_reference::plan_file::{Kind, Plan};
use jidlekuvo_reference::Fault;

#[derive(Clone, Copy, Debug, PartialEq, Eq)]
pub struct Row {
    pub position: u64,
    pub activity: u8,
    pub node: u8,
    pub start: u64,
    pub end: u64,
}

/// How a table closes.
#[derive(Clone, Debug, PartialEq, Eq)]
pub enum End {
    At(u8),
    Waits { state: u8, event: u8 },
    Refused(Fault),
}

/// What follows the rows, and the latest end among them.
#[derive(Clone, Debug, PartialEq, Eq)]
pub struct Closing {
    pub free: Vec<u64>,
    pub end: End,
    pub latest: u64,
}

fn numbers(line: &str) -> Vec<u64> {
    line.split(' ').filter_map(|word| word.parse().ok()).collect()
}

/// Runs the program and hands on each row; false from `each` ends it early, and then nothing closes the table.
pub fn rows(
    plan: &[u8],
    outcomes: &[u8],
    mut each: impl FnMut(Row) -> Result<bool, String>,
) -> Result<Option<Closing>, String> {
    let (mut free, mut end, mut latest, mut is_cut) = (Vec::new(), None, 0, false);
    proved::timetable(plan, outcomes, |line| {
        let found = numbers(line);
        let word = line.split(' ').next().unwrap_or("");
        match (word, &found[..]) {
            ("position", []) => {}
            ("free", _) => free = found,
            ("end", &[state]) => end = Some(End::At(state as u8)),
            ("waits", &[state, event]) => end = Some(End::Waits { state: state as u8, event: event as u8 }),
            ("refused", &[number, place]) => end = Some(End::Refused(Fault { number: number as u8, place })),
            (_, &[position, activity, node, start, finish]) => {
                latest = finish.max(latest);
                let row = Row { position, activity: activity as u8, node: node as u8, start, end: finish };
                is_cut = !each(row)?;
            }
            _ => return Err(format!("the program printed '{line}'")),
        }
        Ok(!is_cut)
    })?;
    match (is_cut, end) {
        (true, _) => Ok(None),
        (false, Some(end)) => Ok(Some(Closing { free, end, latest })),
        (false, None) => Err("the program ended without closing its table".into()),
    }
}

/// Outcomes given by name or number, as numbers. A name belongs to the event that is awaited when it is read; those
/// after the end are not read.
pub fn outcomes(plan: &Plan, names: &Names, given: &[String]) -> Result<Vec<u8>, String> {
    let mut walk = Walk::new(plan);
    let mut found = Vec::new();
    let mut is_lost = false;
    for word in given {
        let awaited = walk.settle();
        if awaited.is_none() || is_lost {
            break;
        }
        let event = awaited.filter(|_| !broken(Broken::OutcomeByOtherEvent)).unwrap_or(0);
        let outcome = match word.bytes().all(|c| c.is_ascii_digit()) {
            true => {
                word.parse().map_err(|_| format!("{word}: an outcome is a name or a number from 0 to 255"))?
            }
            false => outcome_named(plan, names, event, word)?,
        };
        found.push(outcome);
        is_lost = walk.take(Some(outcome)).is_none();
    }
    Ok(found)
}

fn outcome_named(plan: &Plan, names: &Names, event: u8, word: &str) -> Result<u8, String> {
    let space = Space::Outcome(event);
    let known: Vec<String> = (0..plan.events[event as usize] as usize).map(|o| names.of(space, o)).collect();
    let found = known.iter().position(|name| name == word);
    found.map(|outcome| outcome as u8).ok_or_else(|| {
        let close = nearest(word, known.iter().map(String::as_str));
        let event = names.of(Space::Event, event as usize);
        let hint = close.map_or(String::new(), |name| format!("; the nearest is '{name}'"));
        format!("{word}: {event} is awaited, and it has {}{hint}", known.join(", "))
    })
}

/// The columns of names, each as wide as its longest name.
pub struct Columns<'a> {
    plan: &'a Plan,
    names: &'a Names,
    widths: [usize; 3],
}

impl<'a> Columns<'a> {
    pub fn new(plan: &'a Plan, names: &'a Names) -> Columns<'a> {
        let mut columns = Columns { plan, names, widths: [8, 4, 2] };
        for (activity, nodes) in (0..).zip(&plan.activities) {
            for node in (0..).zip(nodes).filter(|(_, node)| node.is_executed()).map(|(n, _)| n) {
                let named = columns.named(activity, node);
                columns.widths = [0, 1, 2].map(|i| columns.widths[i].max(named[i].chars().count()));
            }
        }
        columns
    }

    fn named(&self, activity: u8, node: u8) -> [String; 3] {
        let on = match self.plan.activities[activity as usize][node as usize].kind {
            Kind::Action { peripheral, .. } => self.names.of(Space::Peripheral, peripheral as usize),
            Kind::Event(event) => self.names.of(Space::Event, event as usize),
            Kind::Claim(resource) | Kind::Release(resource) => {
                self.names.of(Space::Resource, resource as usize)
            }
        };
        let activity_name = self.names.of(Space::Activity, activity as usize);
        [activity_name, self.names.of(Space::Node(activity), node as usize), on]
    }

    fn line(&self, position: &str, [activity, node, on]: [&str; 3], start: &str, end: &str) -> String {
        let [a, n, o] = self.widths;
        format!("{position:>8}  {activity:<a$}  {node:<n$}  {on:<o$}  {start:>10}  {end:>10}\n")
    }

    pub fn header(&self) -> String {
        self.line("position", ["activity", "node", "on"], "start", "end")
    }

    pub fn row(&self, row: Row) -> String {
        let named = self.named(row.activity, row.node);
        let [activity, node, on] = [0, 1, 2].map(|i| named[i].as_str());
        self.line(
            &row.position.to_string(),
            [activity, node, on],
            &row.start.to_string(),
            &row.end.to_string(),
        )
    }

    /// The lines after the rows.
    pub fn closing(&self, closing: &Closing) -> String {
        let free = |(r, at): (usize, &u64)| format!("{} {at}", self.names.of(Space::Resource, r));
        let free: Vec<String> = closing.free.iter().enumerate().map(free).collect();
        let free = format!("free   {}", free.join(", ")).trim_end().to_string();
        let state = |state: u8| self.names.of(Space::State, state as usize);
        match closing.end {
            End::At(at) => format!("{free}\nend    {}\n", state(at)),
            End::Waits { state: at, event } => {
                format!("{free}\nwaits  {} for {}\n", state(at), self.names.of(Space::Event, event as usize))
            }
            End::Refused(fault) => format!("refused {} {}\n", fault.number, fault.place),
        }
    }
}
