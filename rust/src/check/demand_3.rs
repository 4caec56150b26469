//! Demand 3: "a single claim about the whole list, not one per call". The claims are read off the
//! log; the word and its combined activity come from the log alone.

use super::claims::{Breach, Claim};
use super::host::{HostSide, StartedNode};
use super::log::{Answered, Log};
use super::told::{Identity, Told};
use crate::plan_file::{Kind, Plan, Transition};
use crate::run::{Reply, Request};
use crate::specified_times::combined::Member;
use crate::specified_times::NodeTime;
use std::collections::BTreeMap;

/// What a log says about demand 3.
pub struct Judged {
    /// Every breach, in the order of the calls.
    pub breaches: Vec<Breach>,
    /// The host's side over the whole list.
    pub host: HostSide,
    /// The word at the end of the log, and its actions and events.
    pub word: Vec<Transition>,
    pub executed: Vec<NodeTime>,
    /// How many transitions were loaded after the opening and after each call.
    pub loaded: Vec<usize>,
    /// Reported nodes with the index of the call.
    pub reported: BTreeMap<Identity, usize>,
}

struct Reader<'a> {
    log: &'a Log,
    told: Told<'a>,
    executed: Vec<NodeTime>,
    /// Started nodes with the index of the ask.
    started: BTreeMap<Identity, usize>,
    /// Reported nodes with the index of the call.
    reported: BTreeMap<Identity, usize>,
    loading_failed: bool,
    /// The call being read; None at the opening.
    call: Option<usize>,
    breaches: Vec<Breach>,
}

/// Reads a log whose opening was accepted.
pub fn judged(plan: &Plan, log: &Log) -> Judged {
    let mut reader = Reader {
        log,
        told: Told::nothing(plan),
        executed: Vec::new(),
        started: BTreeMap::new(),
        reported: BTreeMap::new(),
        loading_failed: false,
        call: None,
        breaches: Vec::new(),
    };
    reader.word_grows();
    reader.window_is_what_is_unreported(&log.window);
    let mut loaded = vec![reader.told.word.len()];
    for (index, entry) in log.calls.iter().enumerate() {
        reader.call = Some(index);
        reader.read(index, entry);
        let has_grown = !reader.loading_failed;
        loaded.push(if has_grown { reader.told.word.len() } else { loaded[index] });
    }
    reader.no_stop_if_the_host_keeps_its_side();
    Judged {
        host: reader.host_side(&log.calls),
        breaches: reader.breaches,
        word: reader.told.word,
        executed: reader.executed,
        loaded,
        reported: reader.reported,
    }
}

/// Checks every claim on a log whose opening was accepted.
pub fn check(plan: &Plan, log: &Log) -> Result<(), String> {
    match judged(plan, log).breaches.first() {
        Some(breach) => Err(breach.told()),
        None => Ok(()),
    }
}

impl Reader<'_> {
    fn word_grows(&mut self) {
        if self.told.grow_all() || self.executed.is_empty() {
            self.executed = self.told.executed(&self.log.opening.availabilities);
        }
    }

    fn find(&self, of: Identity) -> Option<NodeTime> {
        self.executed.iter().copied().find(|n| (n.position, n.node) == of)
    }

    fn breaks(&mut self, claim: Claim, detail: impl Into<String>) {
        self.breaches.push(Breach { claim, call: self.call, detail: detail.into() });
    }

    fn read(&mut self, index: usize, entry: &Answered) {
        match entry.reply {
            // "no call in a list as in demand 3 gets 50 after an accepted opening"
            Reply::Refused(50) => self.breaks(Claim::Never50, format!("{:?}", entry.call)),
            Reply::Start { position, activity, node } => {
                self.read_start(index, entry, (position as u64, node), activity)
            }
            Reply::Taken => self.read_report(index, entry),
            Reply::Stopped(stop) if stop.node.is_none() && !self.loading_failed => {
                self.read_report(index, entry);
                self.loading_failed = true;
            }
            _ => {}
        }
        self.done_exactly_at_the_end(entry);
        if !self.loading_failed {
            self.window_is_what_is_unreported(&entry.window);
        }
    }

    /// "It is reported by its completion or outcome that is answered taken, or answered stopped
    /// because loading after it fails."
    fn read_report(&mut self, index: usize, entry: &Answered) {
        match entry.call.request {
            Request::Ask => {}
            Request::Completion { position, node } => {
                self.reported.entry((position as u64, node)).or_insert(index);
            }
            Request::Outcome { position, node, outcome } => {
                self.reported.entry((position as u64, node)).or_insert(index);
                self.told.hear((position as u64, node), outcome);
                self.word_grows();
            }
        }
    }

    /// Started by an ask, once, of the word, within its slack, and after everything before it was
    /// reported.
    fn read_start(&mut self, index: usize, entry: &Answered, of: Identity, activity: u8) {
        if entry.call.request != Request::Ask {
            self.breaks(Claim::StartedByAnAsk, format!("{:?}", entry.call));
        }
        match self.started.get(&of) {
            Some(earlier) => self.breaks(Claim::StartedOnce, format!("{of:?}, also in call {earlier}")),
            None => {
                self.started.insert(of, index);
            }
        }
        let Some(time) = self.find(of) else {
            return self.breaks(Claim::OfTheWord, format!("{of:?}"));
        };
        if time.activity != activity {
            self.breaks(Claim::OfItsActivity, format!("{activity}, {time:?}"));
        }
        let (reading, due) = (entry.call.reading, self.log.opening.psi + time.start);
        if reading < due {
            self.breaks(Claim::NotEarly, format!("at {reading}, {time:?}"));
        }
        if reading > due + self.log.opening.slack {
            self.breaks(Claim::NotLate, format!("at {reading}, {time:?}"));
        }
        if let Some((position, node)) = self.unreported_before(of) {
            let detail = format!("{of:?} before node {node} of position {position}");
            self.breaks(Claim::AfterReports, detail);
        }
    }

    /// "a node depends on those before it": one of them that no earlier call reported.
    fn unreported_before(&self, of: Identity) -> Option<Identity> {
        let combined = &self.told.combined;
        let before = combined.all_before(combined.find(of.0, of.1)?);
        let members = combined.members.iter().zip(before);
        let executed = members.filter(|(member, is_before)| *is_before && is_executed(member));
        let mut identities = executed.filter_map(|(member, _)| member.origin).map(|(p, _, n)| (p, n));
        identities.find(|identity| !self.reported.contains_key(identity))
    }

    /// "unless a loading has failed, the window holds exactly those of them not yet reported"
    fn window_is_what_is_unreported(&mut self, window: &Option<Vec<NodeTime>>) {
        let Some(window) = window else { return };
        let is_unreported = |n: &&NodeTime| !self.reported.contains_key(&(n.position, n.node));
        let unreported: Vec<NodeTime> = self.executed.iter().filter(is_unreported).copied().collect();
        if *window != unreported {
            self.breaks(Claim::Window, format!("window {window:?}, unreported {unreported:?}"));
        }
    }

    /// "done if the path ended in a final state and the window is empty"
    fn done_exactly_at_the_end(&mut self, entry: &Answered) {
        let asked = entry.call.request == Request::Ask;
        let answered = matches!(entry.reply, Reply::Start { .. } | Reply::Wait | Reply::Done);
        let all = self.executed.iter().all(|n| self.reported.contains_key(&(n.position, n.node)));
        let due = asked && answered && self.told.has_ended() && all;
        if due != (entry.reply == Reply::Done) {
            self.breaks(Claim::Done, format!("{:?} answered {:?}", entry.call, entry.reply));
        }
    }

    /// The host's side on the first calls of the list.
    fn host_side(&self, calls: &[Answered]) -> HostSide {
        let among_them = self.started.iter().filter(|(_, &index)| index < calls.len());
        let node = |(of, _): (&Identity, &usize)| {
            let reported = self.reported.get(of).copied();
            self.find(*of).map(|time| StartedNode { completion: time.completion, reported })
        };
        let started: Vec<StartedNode> = among_them.filter_map(node).collect();
        HostSide::of(&self.log.opening, calls, &started)
    }

    /// If the host keeps its side, no answer is stop 41 or 42. The side is looked at up to the
    /// first such stop, which makes the claim stronger than over the whole list.
    fn no_stop_if_the_host_keeps_its_side(&mut self) {
        let log = self.log;
        let is_stop = |e: &Answered| matches!(e.reply, Reply::Stopped(stop) if stop.node.is_some());
        let Some(stop) = log.calls.iter().position(is_stop) else { return };
        if self.host_side(&log.calls[..=stop]).is_kept() {
            self.call = Some(stop);
            self.breaks(Claim::HostSide, format!("{:?}", log.calls[stop].reply));
        }
    }
}

fn is_executed(member: &Member) -> bool {
    matches!(member.kind, Kind::Action { .. } | Kind::Event(_))
}
