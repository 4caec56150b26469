//! `storm COUNT [SEED]`: so many random, cut and mutated inputs of each kind through the tools. Fails where one
//! panics, takes over ten seconds, or the whole takes more than 64 MB.

use jidlekuvo_reference::generate::{damage::damaged_blindly, inputs, openings, plans, to_hex, Random};
use jidlekuvo_reference::plan_file::{encode, Automaton, Kind, Plan, Transition};
use jidlekuvo_tools::arguments::arguments;
use jidlekuvo_tools::commands::{checked_bytes, text_of};
use jidlekuvo_tools::explain::{explain, opening};
use jidlekuvo_tools::input::{recognised, Content};
use jidlekuvo_tools::names::Names;
use jidlekuvo_tools::picture::{svg, trace, Story};
use jidlekuvo_tools::text::LONGEST_TEXT;
use jidlekuvo_tools::{proved, text};
use std::process::ExitCode;
use std::time::{Duration, Instant};

/// One input of a kind: the answer is whether it was taken (read, parsed, opened, drawn).
type Input = fn(&mut Random) -> bool;

const KINDS: [(&str, Input); 6] = [
    ("binary", binary),
    ("hexadecimal", hexadecimal),
    ("text", written),
    ("opening (1 in 4)", opened),
    ("command line", command_line),
    ("picture (1 in 50)", drawn),
];

/// Longer is a hang; on a busy machine a process may stand still for a while.
const LONGEST: Duration = Duration::from_secs(10);
const MOST_KILOBYTES: u64 = 64 * 1024;

/// Everything that the tools do with a plan's bytes.
fn through(bytes: &[u8]) -> bool {
    let names = Names::default();
    if let Some(fault) = proved::judge(bytes) {
        assert!(explain(bytes, &names, fault).is_some(), "{fault:?} is not explained: {}", to_hex(bytes));
    }
    if proved::read(bytes).is_some() {
        return false;
    }
    let text = text_of(bytes, &names).expect("a file that reads has a text");
    assert_eq!(checked_bytes(&text).expect("the text is good").bytes, bytes);
    true
}

fn any_bytes(random: &mut Random) -> Vec<u8> {
    match random.below(3) {
        0 => (0..random.below(200)).map(|_| random.next() as u8).collect(),
        1 => inputs::plan_file(random),
        _ => {
            let bytes = inputs::plan_file(random);
            damaged_blindly(random, &bytes)
        }
    }
}

fn binary(random: &mut Random) -> bool {
    let bytes = any_bytes(random);
    let _ = recognised(bytes.clone());
    through(&bytes)
}

fn hexadecimal(random: &mut Random) -> bool {
    let text: String = any_bytes(random).iter().map(|byte| format!("{byte:02x} ")).collect();
    let bytes = if random.one_in(3) { damaged_blindly(random, text.as_bytes()) } else { text.into_bytes() };
    match recognised(bytes) {
        Ok(Content::Bytes(bytes)) => through(&bytes),
        Ok(Content::Text(text)) => checked_bytes(&text).is_ok(),
        Err(_) => false,
    }
}

/// A text of a plan with letters, words or lines changed.
fn written(random: &mut Random) -> bool {
    let whole = text::print(&plans::any_plan(random), &Names::default());
    let text = match random.below(4) {
        0 => String::from_utf8_lossy(&damaged_blindly(random, whole.as_bytes())).into_owned(),
        1 => {
            let mut lines: Vec<&str> = whole.lines().collect();
            let (one, other) = (random.below(lines.len()), random.below(lines.len()));
            lines.swap(one, other);
            lines.truncate(random.between(0, lines.len()));
            lines.join("\n")
        }
        2 => {
            let words: Vec<&str> = whole.split_inclusive([' ', '\n']).collect();
            let change = |at: usize| if random.one_in(40) { random.pick(&words) } else { words[at] };
            (0..words.len()).map(change).collect()
        }
        _ => (0..random.below(300))
            .map(|_| char::from_u32(random.below(0x3000) as u32).unwrap_or(' '))
            .collect(),
    };
    match checked_bytes(&text) {
        Ok(source) => through(&source.bytes),
        Err(why) => {
            assert!(!why.contains("do not say the same"), "{why}");
            false
        }
    }
}

/// Few openings are drawn too: what they add to their plans is small.
fn opened(random: &mut Random) -> bool {
    if !random.one_in(4) {
        return false;
    }
    let asked = openings::opening(random);
    let fault = proved::open(&asked).expect("an opening is answered");
    if let Some(fault) = fault {
        assert!(opening::explain(&asked, &Names::default(), fault).is_some(), "{fault:?} is not explained");
    }
    fault.is_none()
}

fn command_line(random: &mut Random) -> bool {
    let words = [
        "judge",
        "text",
        "picture",
        "-",
        "-o",
        "--names",
        "--slack",
        "7",
        "--available",
        "1,2",
        ",",
        "--x",
        "",
    ];
    let given: Vec<String> = (0..random.below(7)).map(|_| random.pick(&words).to_string()).collect();
    arguments(&given).is_ok()
}

/// Running the program costs more than all the rest, so that few inputs are drawn.
fn drawn(random: &mut Random) -> bool {
    if !random.one_in(50) {
        return false;
    }
    let plan = plans::any_plan(random);
    let outcomes = inputs::outcomes(random, &plan, 40);
    drawn_whole(&plan, &outcomes);
    true
}

/// Draws a plan's picture and trace; the answer is how many rows they have.
fn drawn_whole(plan: &Plan, outcomes: &[u8]) -> usize {
    let story = Story::of(plan, &encode(plan), outcomes).expect("the program answers");
    let names = Names::default();
    svg(plan, &names, &story, &mut std::io::sink()).expect("a sink takes all");
    trace(plan, &names, &story, &mut std::io::sink()).expect("a sink takes all");
    story.rows.len()
}

/// Texts as long as they may be, and a picture of nearly 100,000 rows with as many arrows as there can be.
fn extremes() {
    let many = |start: &str, part: &str| start.to_string() + &part.repeat((LONGEST_TEXT - 100) / part.len());
    let texts = [
        many("plan 1\nstate s initial\n", "from s to s\n"),
        many("plan 1\nresource r\nactivity a\nn: claim r after n", ",n"),
        many("plan 1\nresource r", "r"),
        many("plan 1\n", "resource r # and so on\n"),
        many("", "n"),
        many("", "# nothing\n"),
    ];
    for text in texts {
        assert!(recognised(text.into_bytes()).is_ok_and(|content| match content {
            Content::Text(text) => checked_bytes(&text).is_err_and(|why| why.len() < 1000),
            Content::Bytes(_) => false,
        }));
    }
    let mut executed = vec![(Kind::Action { number: 0, peripheral: 0 }, 1_000); 62];
    executed[61] = (Kind::Event(0), 1_000);
    let activities = vec![plans::dense_activity(0, &executed)];
    let way = |from, to, input| Transition { from, to, input, activity: Some(0) };
    let mut transitions = vec![way(0, 1, None), way(1, 1, Some((0, 0))), way(1, 2, Some((0, 1)))];
    transitions[2].activity = None;
    let automaton = Automaton { states: 3, initial: 0, finals: 4, transitions };
    let plan = Plan { resources: 1, peripherals: vec![0], events: vec![2], activities, automaton };
    assert!(drawn_whole(&plan, &[0; 1_611]) > 99_900);
}

/// The most memory that this process has had, in kilobytes.
fn most_memory() -> u64 {
    let status = std::fs::read_to_string("/proc/self/status").unwrap_or_default();
    let line = status.lines().find(|line| line.starts_with("VmHWM:")).unwrap_or("");
    line.split_whitespace().nth(1).and_then(|word| word.parse().ok()).unwrap_or(0)
}

fn main() -> ExitCode {
    let words: Vec<String> = std::env::args().skip(1).collect();
    let number = |at: usize| words.get(at).and_then(|word| word.parse::<u64>().ok());
    let Some(count) = number(0) else {
        eprintln!("usage: tools/storm COUNT [SEED]");
        return ExitCode::from(2);
    };
    let seed = number(1).unwrap_or(7_000_000);
    let mut is_good = true;
    for (name, kind) in KINDS {
        let (mut taken, mut longest, mut slowest) = (0u64, Duration::ZERO, seed);
        for case in seed..seed + count {
            let began = Instant::now();
            taken += kind(&mut Random::new(case)) as u64;
            if began.elapsed() > longest {
                (longest, slowest) = (began.elapsed(), case);
            }
        }
        is_good &= longest < LONGEST;
        println!(
            "{name:<18} {count} inputs, {taken} taken, longest {} us (seed {slowest})",
            longest.as_micros()
        );
    }
    let began = Instant::now();
    extremes();
    println!("the longest texts and a picture of 99,944 rows: {} ms", began.elapsed().as_millis());
    let memory = most_memory();
    is_good &= memory <= MOST_KILOBYTES;
    println!("most memory {memory} kB of {MOST_KILOBYTES} kB");
    if is_good {
        ExitCode::SUCCESS
    } else {
        ExitCode::from(1)
    }
}
