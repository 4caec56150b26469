//! The seven commands. Each answers with an exit status (0, or 1 refused) or with a message (no answer, 2).

use crate::arguments::{Arguments, Command, Times};
use crate::explain::{self, opening, outcomes};
use crate::input::{content, from_text, load, Content, Source};
use crate::names::Names;
use crate::numbers::Number;
use crate::output::Output;
use crate::picture::{svg, trace, Story};
use crate::table::{self, Columns, End};
use crate::{proved, text};
use jidlekuvo_reference::plan_file::{encode, read, Plan};
use jidlekuvo_reference::run::Opening;
use jidlekuvo_reference::Fault;
use std::io::{self, IsTerminal, Write};

type Status = Result<u8, String>;

pub fn run(given: &Arguments) -> Status {
    match given.command {
        Command::Bytes => bytes(given),
        Command::Text => plan_text(given),
        Command::Judge => judge(given),
        Command::Timetable => timetable(given),
        Command::Picture | Command::Trace => drawn(given),
        Command::Number => number(given),
    }
}

fn told(why: io::Error) -> String {
    why.to_string()
}

fn write(given: &Arguments, bytes: &[u8]) -> Result<(), String> {
    let mut out = Output::open(given.output.as_deref())?;
    out.write_all(bytes).map_err(told)?;
    out.finish()
}

/// What is said of a refusal: the sentence of a finding that passed its check, otherwise that of the number.
fn said(fault: Fault, sentence: Option<String>) -> String {
    let general = || Number::of(fault.number).map(|number| number.sentence().to_string());
    sentence.or_else(general).map_or(String::new(), |sentence| sentence + "\n")
}

/// The line of a refusal, and what is said of it.
pub fn refusal(fault: Fault, sentence: Option<String>) -> String {
    format!("refused {} {}\n{}", fault.number, fault.place, said(fault, sentence))
}

/// The bytes of a text, once the text printed from them says the same.
pub fn checked_bytes(text: &str) -> Result<Source, String> {
    let source = from_text(text.to_string())?;
    let plan = read(&source.bytes).map_err(|fault| format!("its bytes do not read: {}", fault.number))?;
    let again = text::print(&plan, &source.names);
    match text::first_difference(text, &again) {
        None => Ok(source),
        Some(line) => {
            Err(format!("line {line}: the bytes made of it do not say the same; nothing is written"))
        }
    }
}

fn bytes(given: &Arguments) -> Status {
    let Content::Text(text) = content(&given.plan)? else {
        return Err(format!("{}: this is no text", given.plan));
    };
    let source = checked_bytes(&text).map_err(|why| format!("{}: {why}", given.plan))?;
    let is_shown = given.output.is_none() && io::stdout().is_terminal();
    let hexadecimal = || source.bytes.iter().map(|byte| format!("{byte:02X} ")).collect::<String>();
    match is_shown {
        true => write(given, format!("{}\n", hexadecimal().trim_end()).as_bytes())?,
        false => write(given, &source.bytes)?,
    }
    match proved::judge(&source.bytes) {
        None => Ok(0),
        Some(fault) => {
            eprint!("{}", refusal(fault, explain::explain(&source.bytes, &source.names, fault)));
            Ok(1)
        }
    }
}

/// Says something on the standard output; whether anybody listens does not change the answer.
fn say(text: &str) {
    let _ = io::stdout().write_all(text.as_bytes());
}

/// Prints a plan's refusal; None where it is not refused.
fn refused(source: &Source, fault: Option<Fault>) -> Option<u8> {
    let fault = fault?;
    say(&refusal(fault, explain::explain(&source.bytes, &source.names, fault)));
    Some(1)
}

/// The text of a plan that reads. What is printed is read back before it is handed out.
pub fn text_of(bytes: &[u8], names: &Names) -> Result<String, String> {
    let plan = read(bytes).map_err(|fault| format!("it does not read: {} {}", fault.number, fault.place))?;
    let text = text::print(&plan, names);
    let back = text::parse(&text).map_err(|fault| format!("its text does not read: {fault}"))?;
    match encode(&back.plan) == bytes {
        true => Ok(text),
        false => Err("its text does not give the same bytes".into()),
    }
}

fn plan_text(given: &Arguments) -> Status {
    let source = load(&given.plan, given.names.as_deref())?;
    if let Some(status) = refused(&source, proved::read(&source.bytes)) {
        return Ok(status);
    }
    let text = text_of(&source.bytes, &source.names).map_err(|why| format!("{}: {why}", given.plan))?;
    write(given, text.as_bytes())?;
    Ok(0)
}

fn judge(given: &Arguments) -> Status {
    let source = load(&given.plan, given.names.as_deref())?;
    let (fault, sentence) = match given.times == Times::default() {
        true => {
            let fault = proved::judge(&source.bytes);
            (fault, fault.and_then(|fault| explain::explain(&source.bytes, &source.names, fault)))
        }
        false => {
            let asked = asked_opening(&source, &given.times);
            let fault = proved::open(&asked)?;
            (fault, fault.and_then(|fault| opening::explain(&asked, &source.names, fault)))
        }
    };
    let answer = fault.map_or("accepted\n".to_string(), |fault| refusal(fault, sentence));
    write(given, answer.as_bytes())?;
    Ok(fault.is_some() as u8)
}

/// The opening that is asked about: start 0, slack 1 and availabilities 0 where nothing else is said.
fn asked_opening(source: &Source, times: &Times) -> Opening {
    let resources = read(&source.bytes).map_or(0, |plan| plan.resources as usize);
    Opening {
        plan: source.bytes.clone(),
        psi: times.start.unwrap_or(0),
        slack: times.slack.unwrap_or(1),
        availabilities: times.available.clone().unwrap_or(vec![0; resources]),
    }
}

/// An accepted plan with the outcomes as numbers.
struct Asked {
    source: Source,
    plan: Plan,
    outcomes: Vec<u8>,
}

/// The plan and the outcomes; or the status of a refused plan.
fn asked(given: &Arguments) -> Result<Result<Asked, u8>, String> {
    let source = load(&given.plan, given.names.as_deref())?;
    if let Some(status) = refused(&source, proved::judge(&source.bytes)) {
        return Ok(Err(status));
    }
    let plan = read(&source.bytes).map_err(|fault| format!("it does not read: {}", fault.number))?;
    let outcomes = table::outcomes(&plan, &source.names, &given.outcomes)?;
    if outcomes.len() < given.outcomes.len() {
        eprintln!("plan: {} of {} outcomes are read", outcomes.len(), given.outcomes.len());
    }
    Ok(Ok(Asked { source, plan, outcomes }))
}

impl Asked {
    fn sentence(&self, latest: u64, fault: Fault) -> Option<String> {
        outcomes::explain(&self.plan, &self.source.names, &self.outcomes, latest, fault)
    }
}

fn timetable(given: &Arguments) -> Status {
    let asked = match asked(given)? {
        Ok(asked) => asked,
        Err(status) => return Ok(status),
    };
    let columns = Columns::new(&asked.plan, &asked.source.names);
    let mut out = Output::open(given.output.as_deref())?;
    out.write_all(columns.header().as_bytes()).map_err(told)?;
    let closing = table::rows(&asked.source.bytes, &asked.outcomes, |row| {
        out.write_all(columns.row(row).as_bytes()).map(|()| true).map_err(told)
    })?;
    let closing = closing.ok_or("the table was cut")?;
    out.write_all(columns.closing(&closing).as_bytes()).map_err(told)?;
    let mut status = 0;
    if let End::Refused(fault) = closing.end {
        let sentence = said(fault, asked.sentence(closing.latest, fault));
        out.write_all(sentence.as_bytes()).map_err(told)?;
        status = 1;
    }
    out.finish()?;
    Ok(status)
}

/// A picture or a trace.
fn drawn(given: &Arguments) -> Status {
    let asked = match asked(given)? {
        Ok(asked) => asked,
        Err(status) => return Ok(status),
    };
    let story = Story::of(&asked.plan, &asked.source.bytes, &asked.outcomes)?;
    if let End::Refused(fault) = story.closing.end {
        say(&refusal(fault, asked.sentence(story.closing.latest, fault)));
        return Ok(1);
    }
    let names = asked.source.names.completed(&asked.plan);
    let mut out = Output::open(given.output.as_deref())?;
    match given.command {
        Command::Trace => trace(&asked.plan, &names, &story, &mut out).map_err(told)?,
        _ => svg(&asked.plan, &names, &story, &mut out).map_err(told)?,
    }
    out.finish()?;
    Ok(0)
}

/// What a number says: who causes it, what its place counts, and its sentence.
pub fn number_line(word: &str) -> Result<String, String> {
    let number = word
        .parse()
        .ok()
        .and_then(Number::of)
        .ok_or(format!("{word} is no number of a refusal or a stop"))?;
    let place = match number.place() {
        "" => String::new(),
        counted => format!(" (its place: the {counted})"),
    };
    Ok(format!("{} {}: {}{place}\n", number as u8, number.who(), number.sentence()))
}

fn number(given: &Arguments) -> Status {
    write(given, number_line(&given.plan)?.as_bytes())?;
    Ok(0)
}
