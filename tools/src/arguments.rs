//! The command line.

pub const USAGE: &str = "\
usage: ./plan bytes TEXT [-o FILE]                     the plan file of a text (on a terminal: in hexadecimal)
       ./plan text PLAN [--names TEXT] [-o FILE]       the text of a plan
       ./plan judge PLAN [--names TEXT]                the verdict, and what breaks the rule
              [--start N] [--slack N] [--available N,N..]   the same for an opening with these (0, 1 and zeros)
       ./plan timetable PLAN [OUTCOME..] [--names TEXT] [-o FILE]
       ./plan picture PLAN [OUTCOME..] [--names TEXT] [-o FILE]   an SVG file
       ./plan trace PLAN [OUTCOME..] [--names TEXT] [-o FILE]     JSON for Chrome and Perfetto
       ./plan number N                                 who causes the number N of a refusal or a stop, and what it says
PLAN is text, hexadecimal, binary, or - for the standard input. Outcomes go by name or number.
Exit status: 0; 1 refused; 2 no answer.";

/// The commands.
#[derive(Clone, Copy, Debug, PartialEq, Eq)]
pub enum Command {
    Bytes,
    Text,
    Judge,
    Timetable,
    Picture,
    Trace,
    Number,
}

const COMMANDS: [(&str, Command); 7] = [
    ("bytes", Command::Bytes),
    ("text", Command::Text),
    ("judge", Command::Judge),
    ("timetable", Command::Timetable),
    ("picture", Command::Picture),
    ("trace", Command::Trace),
    ("number", Command::Number),
];

/// The times of an opening, where one is asked for.
#[derive(Clone, Debug, Default, PartialEq, Eq)]
pub struct Times {
    pub start: Option<u64>,
    pub slack: Option<u64>,
    pub available: Option<Vec<u64>>,
}

#[derive(Clone, Debug, PartialEq, Eq)]
pub struct Arguments {
    pub command: Command,
    pub plan: String,
    pub outcomes: Vec<String>,
    pub names: Option<String>,
    pub output: Option<String>,
    pub times: Times,
}

/// What the words after `./plan` ask for, or what is wrong with them.
pub fn arguments(words: &[String]) -> Result<Arguments, String> {
    let first = words.first().map_or("", String::as_str);
    let found = COMMANDS.iter().find(|(name, _)| *name == first);
    let (_, command) = found.ok_or_else(|| format!("'{first}' is no command\n{USAGE}"))?;
    let mut given = Arguments {
        command: *command,
        plan: String::new(),
        outcomes: vec![],
        names: None,
        output: None,
        times: Times::default(),
    };
    let mut plain = Vec::new();
    let mut rest = words[1..].iter();
    while let Some(word) = rest.next() {
        if word.len() < 2 || !word.starts_with('-') {
            plain.push(word.clone());
            continue;
        }
        let value = rest.next().ok_or_else(|| format!("{word} needs a value"))?;
        option(&mut given, word, value)?;
    }
    if plain.is_empty() {
        let lacking = if *command == Command::Number { "no number is given" } else { "no plan is named" };
        return Err(format!("{lacking}\n{USAGE}"));
    }
    given.plan = plain.remove(0);
    given.outcomes = plain;
    fits(&given)
}

fn option(given: &mut Arguments, word: &str, value: &str) -> Result<(), String> {
    let number = |text: &str| text.parse::<u64>().map_err(|_| format!("{word}: '{text}' is no whole number"));
    match word {
        "-o" => given.output = Some(value.to_string()),
        "--names" => given.names = Some(value.to_string()),
        "--start" => given.times.start = Some(number(value)?),
        "--slack" => given.times.slack = Some(number(value)?),
        "--available" if value.is_empty() => given.times.available = Some(vec![]),
        "--available" => {
            let times: Vec<u64> = value.split(',').map(number).collect::<Result<_, _>>()?;
            if times.len() > 255 {
                return Err("--available: more than 255 times".into());
            }
            given.times.available = Some(times);
        }
        _ => return Err(format!("{word} is not known\n{USAGE}")),
    }
    Ok(())
}

/// Each command takes what is meant for it only.
fn fits(given: &Arguments) -> Result<Arguments, String> {
    let takes_outcomes = matches!(given.command, Command::Timetable | Command::Picture | Command::Trace);
    if let (false, Some(word)) = (takes_outcomes, given.outcomes.first()) {
        return Err(format!("'{word}' is one word too many\n{USAGE}"));
    }
    if given.times != Times::default() && given.command != Command::Judge {
        return Err(format!("--start, --slack and --available belong to judge\n{USAGE}"));
    }
    if given.names.is_some() && matches!(given.command, Command::Bytes | Command::Number) {
        return Err(format!("--names belongs to neither bytes nor number\n{USAGE}"));
    }
    Ok(given.clone())
}
