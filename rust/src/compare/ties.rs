//! What decides between nodes of one specified start, in ask and in 41, and where the order of 42 tells. It
//! is read off the run after each answer: an ask leaves what it passed over, and a stop changes no
//! entry.

use super::hits::Hits;
use crate::check::ties::turn;
use crate::plan_file::Kind::{self, Action, Event};
use crate::run::{Entry, Reply, Run, Stop};

/// Position and node.
type Identity = (u64, u8);

/// What decides between two nodes of one start; position and node between two events.
const DECIDERS: [&str; 4] = ["peripheral", "action", "position", "node"];
/// What decides in made-up runs alone. In a run from an opening the actions of one peripheral are ordered, no two
/// entries are alike, and none names a claim or a release.
const OF_MADE_UP: [&str; 4] =
    ["one peripheral", "place", "action before a claim or release", "claim or release"];
const NOT_BY_POSITION: &str = "position and node would name another";
const NOT_BY_PERIPHERAL: &str = "the peripheral would name another";

/// The ties that the answers of one run met: the call or stop, and what is said of it.
#[derive(Clone, Debug, Default)]
pub struct Ties {
    met: Vec<(&'static str, &'static str)>,
    has_stopped: bool,
}

fn line(of: &str, what: &str) -> String {
    format!("tie of {of}: {what}")
}

fn kind(run: &Run, entry: &Entry) -> Kind {
    run.plan.activities[entry.time.activity as usize][entry.time.node as usize].kind
}

fn identity(entry: &Entry) -> Identity {
    (entry.time.position, entry.time.node)
}

/// What decides for the first of two entries of one start.
fn decider(run: &Run, first: &Entry, second: &Entry) -> &'static str {
    match (kind(run, first), kind(run, second)) {
        (one, other) if turn(one) == turn(other) && identity(first) == identity(second) => "place",
        (Action { peripheral: one, .. }, Action { peripheral: other, .. }) if one == other => {
            "one peripheral"
        }
        (Action { .. }, Action { .. }) => "peripheral",
        (Action { .. }, Event(_)) => "action",
        (Action { .. }, _) => "action before a claim or release",
        (Event(_), Event(_)) if first.time.position != second.time.position => "position",
        (Event(_), Event(_)) => "node",
        _ => "claim or release",
    }
}

/// By peripheral, events after all actions, then by position and node.
fn sorted<'a>(run: &Run, mut tied: Vec<&'a Entry>) -> Vec<&'a Entry> {
    tied.sort_by_key(|entry| (turn(kind(run, entry)), identity(entry)));
    tied
}

/// Of the entry that an answer names, just started by an ask or late, and the unstarted ones of the same start:
/// what decides, and whether position and node alone would name another.
fn of_start(run: &Run, is_named: impl Fn(&Entry) -> bool) -> Vec<&'static str> {
    let Some(named) = run.window.iter().find(|entry| is_named(entry)) else { return vec![] };
    let is_tied = |entry: &&Entry| !entry.started && entry.time.start == named.time.start;
    let unstarted = run.window.iter().filter(is_tied);
    let tied = sorted(run, unstarted.chain(named.started.then_some(named)).collect());
    let [first, second, ..] = tied[..] else { return vec![] };
    let by_position = tied.iter().map(|entry| identity(entry)).min();
    let differs = by_position != Some(identity(first));
    [decider(run, first, second)].into_iter().chain(differs.then_some(NOT_BY_POSITION)).collect()
}

/// Of the started entries of one completion: whether the peripheral would name another than 42 does.
fn of_completion(run: &Run, named: Identity) -> Vec<&'static str> {
    let started = || run.window.iter().filter(|entry| entry.started);
    let Some(first) = started().find(|entry| identity(entry) == named) else { return vec![] };
    let tied = started().filter(|entry| entry.time.completion == first.time.completion);
    match sorted(run, tied.collect())[..] {
        [by_peripheral, _, ..] if identity(by_peripheral) != named => vec![NOT_BY_PERIPHERAL],
        [_, _, ..] => vec!["the peripheral would name the same"],
        _ => vec![],
    }
}

impl Ties {
    /// None yet; a run that has stopped meets no more.
    pub fn of(run: &Run) -> Ties {
        Ties { met: vec![], has_stopped: run.has_stopped() }
    }

    /// Looks at an answer and the run after it.
    pub fn look(&mut self, run: &Run, reply: Reply) {
        match reply {
            Reply::Start { position, activity, node } => {
                let named = (position as u64, node);
                let is_named = |e: &Entry| e.started && e.time.activity == activity && identity(e) == named;
                self.meet("ask", of_start(run, is_named));
            }
            Reply::Stopped(stop) if !self.has_stopped => {
                self.has_stopped = true;
                self.look_at_stop(run, stop);
            }
            _ => {}
        }
    }

    fn look_at_stop(&mut self, run: &Run, stop: Stop) {
        let Some((position, node)) = stop.node else { return };
        let named = (position as u64, node);
        match stop.number {
            41 => self.meet("41", of_start(run, |e| !e.started && identity(e) == named)),
            _ => self.meet("42", of_completion(run, named)),
        }
    }

    fn meet(&mut self, of: &'static str, what: Vec<&'static str>) {
        self.met.extend(what.into_iter().map(|what| (of, what)));
    }

    pub fn count(&self, hits: &mut Hits) {
        self.met.iter().for_each(|(of, what)| hits.hit(line(of, what)));
    }

    /// Counts those of a run from an opening.
    pub fn count_of_an_opening(&self, hits: &mut Hits) -> Result<(), String> {
        self.count(hits);
        match self.met.iter().find(|(_, what)| OF_MADE_UP.contains(what)) {
            Some((of, what)) => Err(format!("{}, in a run from an opening", line(of, what))),
            None => Ok(()),
        }
    }
}

/// The lines of ask and 41 with each of some words.
fn in_start<'a>(what: &'a [&str]) -> impl Iterator<Item = String> + 'a {
    ["ask", "41"].into_iter().flat_map(move |of| what.iter().map(move |what| line(of, what)))
}

/// The lines that calls of runs from an opening must hit.
fn wanted() -> impl Iterator<Item = String> {
    in_start(&DECIDERS).chain(in_start(&[NOT_BY_POSITION])).chain([line("42", NOT_BY_PERIPHERAL)])
}

/// The lines that made-up runs must hit.
pub fn wanted_of_made_up() -> impl Iterator<Item = String> {
    wanted().chain(in_start(&OF_MADE_UP))
}

/// The wanted lines that were hit less than once for each hundred of so many lists, with their counts.
pub fn too_few(hits: &Hits, lists: usize) -> Vec<(String, usize)> {
    let counted = wanted().map(|line| (hits.count(&line), line));
    counted.filter(|(count, _)| count * 100 < lists).map(|(count, line)| (line, count)).collect()
}
