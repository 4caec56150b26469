//! Pictures and traces have the table's rows and no more.

use super::markers::{is_passed, often_enough, taken, MARKED};
use super::outcomes::told;
use crate::input::from_text;
use crate::names::{Names, Space};
use crate::picture::{svg, trace, Lanes, Story};
use crate::table::{End, Row};
use crate::tests::texts::author_names;
use jidlekuvo_reference::compare::hits::Hits;
use jidlekuvo_reference::compare::rattle;
use jidlekuvo_reference::generate::{plan_t, Random};
use jidlekuvo_reference::plan_file::{encode, read, Plan};
use jidlekuvo_reference::specified_times::incremental::shapes;
use jidlekuvo_reference::specified_times::Moment;

/// The rows that the program prints, read without the tools.
fn printed_rows(bytes: &[u8], outcomes: &[u8]) -> Vec<Vec<u64>> {
    let input = [&(bytes.len() as u16).to_le_bytes()[..], bytes, outcomes].concat();
    let text = String::from_utf8(rattle::timetable(&input).unwrap()).unwrap();
    let numbers = |line: &str| line.split(' ').map(|word| word.parse().ok()).collect::<Option<Vec<u64>>>();
    text.lines().filter_map(numbers).collect()
}

const HELD_BY_MARKER: &str = "a marker holds resources back";

pub fn drawn(seed: u64, cases: usize) -> Result<(), String> {
    let mut hits = Hits::default();
    for case in 0..cases as u64 {
        let mut random = Random::new(seed + case);
        let (plan, outcomes) = told(&mut random);
        let names = author_names(&mut random, &plan).completed(&plan);
        drawn_well(&plan, &names, &outcomes).map_err(|why| format!("seed {}: {why}", seed + case))?;
        if taken(&plan, &outcomes).iter().any(|way| is_passed(&plan, way)) {
            hits.hit(HELD_BY_MARKER);
        }
    }
    often_enough(&hits, &[HELD_BY_MARKER], cases, 10)
}

fn drawn_well(plan: &Plan, names: &Names, outcomes: &[u8]) -> Result<(), String> {
    let bytes = encode(plan);
    let rows = printed_rows(&bytes, outcomes);
    let story = Story::of(plan, &bytes, outcomes)?;
    let same = |row: &Row| vec![row.position, row.activity as u64, row.node as u64, row.start, row.end];
    if story.rows.iter().map(same).collect::<Vec<_>>() != rows {
        return Err("the story's rows are not the table's".into());
    }
    if story.held.iter().map(|held| held.at).collect::<Vec<_>>() != held(plan, outcomes) {
        return Err("the outcomes hold back at other times".into());
    }
    let (mut picture, mut traced) = (Vec::new(), Vec::new());
    svg(plan, names, &story, &mut picture).map_err(|why| why.to_string())?;
    trace(plan, names, &story, &mut traced).map_err(|why| why.to_string())?;
    bars_are_the_rows(plan, &String::from_utf8(picture).unwrap(), &rows)?;
    trace_is_the_rows(plan, names, &String::from_utf8(traced).unwrap(), &rows)
}

/// When each processed instance ends, markers included, by the Rust build's own account.
fn held(plan: &Plan, outcomes: &[u8]) -> Vec<u64> {
    let mut moment = Moment::at_opening(plan, &vec![0; plan.resources as usize]);
    let (shapes, mut held) = (shapes(plan), Vec::new());
    for (position, way) in (0..).zip(taken(plan, outcomes)) {
        held.extend(way.input.map(|(event, _)| moment.oldest(event).unwrap().completion));
        moment = moment.pass(plan, &shapes, &way, position).moment;
    }
    held
}

/// The value of an attribute in a tag.
fn attribute<'a>(tag: &'a str, name: &str) -> &'a str {
    let start =
        tag.find(&format!(" {name}=\"")).map(|at| at + name.len() + 3).expect("the attribute is there");
    tag[start..].split('"').next().expect("it is closed")
}

/// As many bars as rows, each in the lane whose label is its peripheral's or event's, starts and ends in proportion.
fn bars_are_the_rows(plan: &Plan, picture: &str, rows: &[Vec<u64>]) -> Result<(), String> {
    well_formed(picture)?;
    let bars: Vec<&str> = picture.lines().filter(|line| line.contains("class=\"bar\"")).collect();
    if bars.len() != rows.len() {
        return Err(format!("{} bars for {} rows", bars.len(), rows.len()));
    }
    let lanes = Lanes::of(plan);
    // The lanes' rectangles follow the background's, in the order of the lanes.
    let tops: Vec<f64> = picture
        .lines()
        .filter(|line| line.contains("fill=\"#fafafa\"") || line.contains("fill=\"#e8e8e8\""))
        .map(|line| attribute(line, "y").parse().unwrap())
        .collect();
    if tops.len() != lanes.list.len() {
        return Err("a lane is missing".into());
    }
    for (bar, row) in bars.iter().zip(rows) {
        let y: f64 = attribute(bar, "y").parse().unwrap();
        let kind = plan.activities[row[1] as usize][row[2] as usize].kind;
        let lane = lanes.of_node(kind);
        let is_inside =
            y > tops[lane] && tops.get(lane + 1).is_none_or(|&next| y + 30.0 < next) && y < tops[lane] + 12.0;
        if !is_inside || !bar.contains(&format!("{} to {}<", row[3], row[4])) {
            return Err(format!("a bar is in another lane than {row:?}: {bar}"));
        }
    }
    Ok(())
}

fn trace_is_the_rows(plan: &Plan, names: &Names, traced: &str, rows: &[Vec<u64>]) -> Result<(), String> {
    let lines: Vec<&str> = traced.lines().filter(|line| line.contains("\"ph\":\"X\"")).collect();
    if lines.len() != rows.len() || !traced.starts_with('{') || !traced.ends_with("\n]}\n") {
        return Err(format!("{} complete events for {} rows", lines.len(), rows.len()));
    }
    let lanes = Lanes::of(plan);
    for (line, row) in lines.iter().zip(rows) {
        let lane = lanes.of_node(plan.activities[row[1] as usize][row[2] as usize].kind);
        let name = names.list(Space::Node(row[1] as u8))[row[2] as usize].clone();
        let wanted = [
            format!("\"name\":\"{name}\""),
            format!("\"tid\":{lane},"),
            format!("\"ts\":{},\"dur\":{},", row[3], row[4] - row[3]),
        ];
        if !wanted.iter().all(|part| line.contains(part)) {
            return Err(format!("{line} is not {row:?}"));
        }
    }
    Ok(())
}

/// Whether tags close in order, attributes are quoted, and no bare `&` stands in a text.
fn well_formed(text: &str) -> Result<(), String> {
    let mut open: Vec<&str> = Vec::new();
    let mut rest = text;
    while let Some(at) = rest.find('<') {
        let between = &rest[..at];
        if between.contains('>')
            || between.replace("&amp;", "").replace("&lt;", "").replace("&gt;", "").contains('&')
        {
            return Err(format!("'{between}' is no text"));
        }
        let end = rest[at..].find('>').ok_or("a tag is not closed")? + at;
        let tag = &rest[at + 1..end];
        rest = &rest[end + 1..];
        let name = tag.trim_start_matches('/').split([' ', '/']).next().unwrap_or("");
        if tag.matches('"').count() % 2 != 0 || tag.contains('<') {
            return Err(format!("'{tag}' is no tag"));
        }
        match (tag.starts_with('/'), tag.ends_with('/')) {
            (true, _) if open.pop() != Some(name) => return Err(format!("'{tag}' closes another tag")),
            (false, false) => open.push(name),
            _ => {}
        }
    }
    if open.is_empty() && rest.trim().is_empty() {
        Ok(())
    } else {
        Err(format!("{open:?} are not closed"))
    }
}

#[test]
fn a_marker_holds_back_and_reads_no_outcome() {
    let source = from_text(MARKED.into()).unwrap();
    let plan = read(&source.bytes).unwrap();
    let story = Story::of(&plan, &source.bytes, &[1]).unwrap();
    let held: Vec<(u64, u8, u8)> =
        story.held.iter().map(|held| (held.at, held.event, held.outcome)).collect();
    assert_eq!(held, [(4_000, 0, 0), (3_500, 1, 1)]);
    let starts: Vec<u64> = story.rows.iter().map(|row| row.start).collect();
    assert_eq!(starts, [0, 3_000, 3_000, 4_000, 6_000]);
    assert_eq!(story.closing.end, End::At(3));
}

#[test]
fn too_many_rows_are_refused() {
    let bytes = plan_t();
    let plan = read(&bytes).unwrap();
    let answer = Story::of(&plan, &bytes, &[0; 40_000]);
    assert_eq!(answer.unwrap_err(), "more than 100000 rows: too many for a picture");
}
