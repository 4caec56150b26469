//! A host in Rust: it runs a plan on a simulated clock, with a machine that completes each node before its end, and
//! prints each start beside the timetable's row. Usage, where ./host/run does both:
//!
//!     ./timetable PLAN [OUTCOME..] | board [--late|--overdue|--silent] PLAN [OUTCOME..]
//!
//! --late: the host asks too late; --overdue: it reports too late; --silent: it reports nothing.
//! Exit status: 0 done; 1 refused; 2 no answer; 3 stopped; 4 a start is not as the timetable says.

mod plan;
mod table;

use jidlekuvo::{judge, Reply, Run};
use plan::{Kind, Plan};
use std::fmt::Display;
use std::io::{self, Write};
use std::process::ExitCode;
use table::{Phase, Row};

const PSI: u64 = 1_000_000;
const USAGE: &str =
    "usage: ./timetable PLAN [OUTCOME..] | board [--late|--overdue|--silent] PLAN [OUTCOME..]";

#[derive(Clone, Copy)]
enum Ending {
    Done,
    Refused,
    NoAnswer,
    Stopped,
    UnlikeTheTable,
}

#[derive(Clone, Copy, PartialEq, Eq)]
enum Mode {
    InTime,
    Late,
    Overdue,
    Silent,
}

/// An ending where the run does not go on; or output that fails.
type Going = io::Result<Option<Ending>>;

struct Host<Out> {
    out: Out,
    run: Run,
    plan: Plan,
    rows: Vec<Row>,
    mode: Mode,
    slack: u64,
    reading: u64,
    given: Vec<u8>,
    /// The event that each given outcome is for.
    events: Vec<u8>,
    /// How many outcomes of each event have been reported.
    reported: [usize; 16],
}

/// The machine.
impl<Out: Write> Host<Out> {
    /// The reading at which the machine has completed a started node, and the host reports it.
    fn completed_at(&self, row: &Row) -> u64 {
        PSI + row.end - if self.mode == Mode::Overdue { 0 } else { 1 }
    }

    /// The row that is completed next.
    fn next_completed(&self) -> Option<usize> {
        let started = (0..self.rows.len()).filter(|&n| self.rows[n].phase == Phase::Started);
        started.min_by_key(|&n| self.rows[n].end).filter(|_| self.mode != Mode::Silent)
    }

    /// The outcome that the sensors say: the next one that was given for this event; 0 for a marker, which has no
    /// other.
    fn sensed(&self, event: u8) -> Option<u8> {
        if self.plan.outcomes[event as usize] == 1 {
            return Some(0);
        }
        let mut given = self.events.iter().zip(&self.given).filter(|(of, _)| **of == event);
        given.nth(self.reported[event as usize]).map(|(_, outcome)| *outcome)
    }
}

/// The host.
impl<Out: Write> Host<Out> {
    fn say(&mut self, text: impl Display) -> io::Result<()> {
        writeln!(self.out, "{text}")
    }

    /// What a call was answered; a refusal or a stop with its sentence.
    fn answered(&mut self, call: impl Display, reply: Reply) -> Going {
        let said = reply.to_string();
        let word = said.split(' ').next().unwrap_or("");
        writeln!(self.out, "{:>10}  {call}: {word}", self.reading)?;
        match reply {
            Reply::Refused(_) => self.say(said).map(|()| Some(Ending::Refused)),
            Reply::Stopped(_) => self.say(said).map(|()| Some(Ending::Stopped)),
            _ => Ok(None),
        }
    }

    /// An instance of an event is sensed only after the one before it, so outcomes are reported in the order of the
    /// instances.
    fn report_event(&mut self, Row { position, node, .. }: Row, event: u8) -> Going {
        let Some(outcome) = self.sensed(event) else {
            self.say(format!("no outcome is left for event {event} at position {position} node {node}"))?;
            return Ok(Some(Ending::NoAnswer));
        };
        self.reported[event as usize] += 1;
        let reply = self.run.outcome(self.reading, position, node, outcome);
        self.answered(format!("outcome {position} {node} {outcome}"), reply)
    }

    fn report(&mut self, n: usize) -> Going {
        self.rows[n].phase = Phase::Reported;
        let row @ Row { position, activity, node, .. } = self.rows[n];
        if let Kind::Event(event) = self.plan.activities[activity as usize][node as usize].kind {
            return self.report_event(row, event);
        }
        let reply = self.run.completion(self.reading, position, node);
        self.answered(format!("completion {position} {node}"), reply)
    }

    /// Reports what the machine has completed by now.
    fn report_completed(&mut self) -> Going {
        while let Some(n) =
            self.next_completed().filter(|&n| self.completed_at(&self.rows[n]) <= self.reading)
        {
            if let Some(ending) = self.report(n)? {
                return Ok(Some(ending));
            }
        }
        Ok(None)
    }

    /// A node is started: beside it its row, and from when until when it may start.
    fn started(&mut self, position: u32, activity: u8, node: u8) -> Going {
        let (reading, said) = (self.reading, format!("start {position} {activity} {node}"));
        let is_row = |row: &&mut Row| {
            (row.position, row.activity, row.node) == (position, activity, node) && row.phase == Phase::Ahead
        };
        let Some(row) = self.rows.iter_mut().find(is_row) else {
            self.say(format!("{reading:>10}  {said}: the timetable has no such row ahead"))?;
            return Ok(Some(Ending::UnlikeTheTable));
        };
        row.phase = Phase::Started;
        let listed = format!("{position} {activity} {node} {} {}", row.start, row.end);
        let (from, until) = (PSI + row.start, PSI + row.start + self.slack);
        self.say(format!("{reading:>10}  {said:<24}  {listed:<32}  {from} to {until}"))?;
        if (from..=until).contains(&reading) {
            return Ok(None);
        }
        self.say("the start lies outside")?;
        Ok(Some(Ending::UnlikeTheTable))
    }

    /// The plan has ended: every row must have been started.
    fn done(&mut self) -> Going {
        let all = self.rows.len();
        let started = self.rows.iter().filter(|row| row.phase != Phase::Ahead).count();
        self.say(format!("done: {started} of {all} rows started in time"))?;
        Ok(Some(if started == all { Ending::Done } else { Ending::UnlikeTheTable }))
    }

    /// Starts everything that is due: asks until nothing is.
    fn start_due(&mut self) -> Going {
        loop {
            match self.run.ask(self.reading) {
                Reply::Start { position, activity, node } => {
                    if let Some(ending) = self.started(position, activity, node)? {
                        return Ok(Some(ending));
                    }
                }
                Reply::Wait => return Ok(None),
                Reply::Done => {
                    self.answered("ask", Reply::Done)?;
                    return self.done();
                }
                reply => return self.answered("ask", reply),
            }
        }
    }

    /// A host that asks every slack microseconds is never late, and it reports as soon as something is completed.
    fn next_reading(&self) -> u64 {
        if self.mode == Mode::Late && self.reading < PSI {
            return PSI + self.slack + 1;
        }
        let completed = self.next_completed().map(|n| self.completed_at(&self.rows[n]));
        completed.unwrap_or(u64::MAX).min(self.reading + self.slack)
    }

    fn run(&mut self) -> io::Result<Ending> {
        let heads = ("position activity node", "timetable's row");
        self.say(format!("   reading  {:<24}  {:<32}  may start from", heads.0, heads.1))?;
        loop {
            if let Some(ending) = self.report_completed()? {
                return Ok(ending);
            }
            if let Some(ending) = self.start_due()? {
                return Ok(ending);
            }
            self.reading = self.next_reading();
        }
    }
}

/// What is asked.
struct Asked {
    mode: Mode,
    plan: Vec<u8>,
    given: Vec<u8>,
}

fn asked(words: &[String]) -> Result<Asked, String> {
    let modes = [("--late", Mode::Late), ("--overdue", Mode::Overdue), ("--silent", Mode::Silent)];
    let named = words.first().and_then(|word| modes.iter().find(|(name, _)| name == word));
    let words = if named.is_some() { &words[1..] } else { words };
    let name = words.first().filter(|name| !name.starts_with('-')).ok_or(USAGE)?;
    let outcome = |word: &String| word.parse::<u8>().ok().filter(|_| word.as_bytes()[0].is_ascii_digit());
    let given = words[1..].iter().map(outcome).collect::<Option<_>>().ok_or(USAGE)?;
    Ok(Asked { mode: named.map_or(Mode::InTime, |mode| mode.1), plan: plan::load(name)?, given })
}

fn open_and_run(asked: Asked, rows: Vec<Row>, mut out: impl Write) -> io::Result<Ending> {
    if let Err(fault) = judge(&asked.plan) {
        return writeln!(out, "{fault}").map(|()| Ending::Refused);
    }
    let (plan, length) = (Plan::read(&asked.plan), asked.plan.len());
    let (events, slack) = (plan.events(&asked.given), plan.slack());
    writeln!(out, "plan of {length} bytes, start time {PSI}, slack {slack}")?;
    let run = match Run::open(&asked.plan, PSI, slack, &vec![0; plan.resources]) {
        Ok(run) => run,
        Err(error) => return writeln!(out, "{error}").map(|()| Ending::Refused),
    };
    let (mode, given, reported) = (asked.mode, asked.given, [0; 16]);
    let mut host = Host { out, run, plan, rows, mode, slack, reading: PSI - 1, given, events, reported };
    let ending = host.run()?;
    host.out.flush().map(|()| ending)
}

fn main() -> ExitCode {
    let words: Vec<String> = std::env::args().skip(1).collect();
    let ending = asked(&words).and_then(|asked| {
        let told = |why: io::Error| why.to_string();
        let rows = table::read(io::stdin().lock()).map_err(told)?;
        open_and_run(asked, rows, io::stdout().lock()).map_err(told)
    });
    match ending {
        Ok(ending) => ExitCode::from(ending as u8),
        Err(why) => {
            eprintln!("{why}");
            ExitCode::from(Ending::NoAnswer as u8)
        }
    }
}
