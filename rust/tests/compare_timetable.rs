//! The texts of the program *timetable* and of `jidlekuvo_timetable` from both builds: valid inputs,
//! damaged ones, inputs cut at every byte, and words of several thousand positions; the function on a
//! buffer that fits exactly, on a longer one, on one a byte too short, and on one that holds nothing.

#![cfg(feature = "rattle_timetable")]

use jidlekuvo_reference::compare::hits::Hits;
use jidlekuvo_reference::compare::markers::{self, too_few, OF_TIMETABLES};
use jidlekuvo_reference::compare::smaller::smallest_timetable;
use jidlekuvo_reference::compare::threads::in_threads;
use jidlekuvo_reference::compare::{rattle, settings, Failure};
use jidlekuvo_reference::generate::{inputs, plan_t, Random};
use jidlekuvo_reference::plan_file::{read, Plan};
use jidlekuvo_reference::timetable::{split, timetable, HEADER};

/// What no byte of a text is.
const UNTOUCHED: u8 = 0xA5;

/// The function on a buffer with `more` bytes than the text has: text and what follows it.
fn put_into(input: &[u8], wanted: &[u8], more: usize) -> Option<String> {
    let mut out = vec![UNTOUCHED; wanted.len() + more];
    let length = rattle::timetable_into(input, &mut out);
    let is_put = length == wanted.len() && out.starts_with(wanted);
    let is_kept = out[wanted.len()..].iter().all(|&byte| byte == UNTOUCHED);
    (!is_put || !is_kept).then(|| format!("a buffer with {more} bytes more: answer {length}"))
}

/// The function on a buffer with `less` bytes than the text has: 36, and the buffer is as it was.
fn refused_in(input: &[u8], wanted: &[u8], less: usize) -> Option<String> {
    let mut out = vec![UNTOUCHED; wanted.len().saturating_sub(less)];
    let answer = rattle::timetable_into(input, &mut out);
    let is_refused = answer == 36 << 32 && out.iter().all(|&byte| byte == UNTOUCHED);
    (!is_refused).then(|| format!("a buffer with {less} bytes less: answer {answer}"))
}

fn difference_in_process(input: &[u8], wanted: &str) -> Option<String> {
    let wanted = wanted.as_bytes();
    (put_into(input, wanted, 0).or_else(|| put_into(input, wanted, 7)))
        .or_else(|| refused_in(input, wanted, 1))
        .or_else(|| refused_in(input, wanted, wanted.len()))
}

fn difference_printed(input: &[u8], wanted: &str) -> Option<String> {
    let printed = rattle::timetable(input).expect("the program timetable runs");
    let printed = String::from_utf8_lossy(&printed).into_owned();
    if wanted == printed {
        return None;
    }
    let mut lines = wanted.lines().zip(printed.lines()).enumerate();
    let at = lines.find(|(_, (ours, theirs))| ours != theirs);
    Some(format!("line {at:?} (number, Rust, Rattle); lengths {} and {}", wanted.len(), printed.len()))
}

fn difference_from(input: &[u8], wanted: &str) -> Option<String> {
    difference_printed(input, wanted).or_else(|| difference_in_process(input, wanted))
}

fn difference(input: &[u8]) -> Option<String> {
    difference_from(input, &timetable(input))
}

/// Compares what both builds print; `wanted` is this build's text.
fn compared(input: &[u8], wanted: &str) -> Result<(), Failure> {
    if difference_from(input, wanted).is_none() {
        return Ok(());
    }
    let smallest = smallest_timetable(input, |tried| difference(tried).is_some());
    Err(Failure::new(difference(&smallest).unwrap_or_default(), &smallest))
}

fn input_of_t(outcomes: &[u8]) -> Vec<u8> {
    let plan = plan_t();
    [&(plan.len() as u16).to_le_bytes()[..], &plan, outcomes].concat()
}

/// The plan and the outcomes of an input whose text is a table.
fn accepted<'a>(input: &'a [u8], text: &str) -> Option<(Plan, &'a [u8])> {
    let (bytes, outcomes) = split(input).ok().filter(|_| text.starts_with(HEADER))?;
    Some((read(bytes).ok()?, outcomes))
}

#[test]
fn timetables_agree() {
    let case = |random: &mut Random, hits: &mut Hits| {
        let most = if random.one_in(50) { 4_000 } else { 12 };
        let input = inputs::timetable(random, most);
        let text = timetable(&input);
        let last = text.lines().last().unwrap_or("");
        hits.hit(last.split(' ').next().unwrap_or(""));
        if text.lines().count() > 1_000 {
            hits.hit("more than 1,000 lines");
        }
        if let Some((plan, outcomes)) = accepted(&input, &text) {
            markers::count(&markers::of_timetable(&plan, outcomes), hits);
        }
        compared(&input, &text)
    };
    let cases = settings::cases(20_000);
    let hits = in_threads(settings::seed(), cases, case).unwrap_or_else(|what| panic!("{what}"));
    hits.print(&format!("{cases} timetables agree"));
    let missing = hits.missing(&["end", "waits", "refused", "more than 1,000 lines"].map(String::from));
    assert!(settings::is_by_hand() || missing.is_empty(), "never hit: {missing:?}");
    let few = too_few(&hits, OF_TIMETABLES, cases, 200);
    assert!(settings::is_by_hand() || few.is_empty(), "too few: {few:?}");
}

#[test]
fn inputs_cut_at_every_byte_agree() {
    let input = input_of_t(&[0, 1, 7]);
    for cut in 0..=input.len() {
        compared(&input[..cut], &timetable(&input[..cut]))
            .unwrap_or_else(|failure| panic!("{}", failure.told()));
    }
}

#[test]
fn a_word_of_many_thousand_positions_agrees() {
    let mut outcomes = vec![0; 20_000];
    outcomes.push(1);
    let input = input_of_t(&outcomes);
    compared(&input, &timetable(&input)).unwrap_or_else(|failure| panic!("{}", failure.told()));
}
