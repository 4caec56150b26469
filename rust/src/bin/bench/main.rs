//! Benchmarks: the same input to both builds in one run, in turn, printed as ratios, with the figures of each for
//! orientation. docs/BENCHMARKS.md says how to read them.

use cases::Case;
use rows::{print_head, print_markdown, Columns, Row, Section, BUILDS};
use std::io::Result;
use std::process::ExitCode;

mod batches;
mod cases;
mod copies;
mod files;
mod linked;
mod programs;
mod rows;
mod runs;
mod stack;
mod typical;

const USAGE: &str =
    "usage: bench [--runs N] [GROUP..]   (groups: files, runs, host, programs, stack, growth; without one: all)";

/// Rows of one unit, told as they are measured.
struct Group {
    name: &'static str,
    title: &'static str,
    columns: Columns,
    rows: fn(&mut dyn FnMut(Row)) -> Result<()>,
}

/// A group whose columns are the builds.
const fn of_builds(
    name: &'static str,
    title: &'static str,
    rows: fn(&mut dyn FnMut(Row)) -> Result<()>,
) -> Group {
    Group { name, title, columns: BUILDS, rows }
}

const GROUPS: [Group; 6] = [
    of_builds("files", "plan files, microseconds", |tell| timed(files::cases(), tell)),
    of_builds("runs", "runs, microseconds", |tell| timed(runs::cases(), tell)),
    Group {
        name: "host",
        title: "the proved build by a list of calls and for a host, microseconds",
        columns: ["Run", "Held"],
        rows: |tell| timed(runs::held(), tell),
    },
    of_builds("programs", "programs, microseconds", programs::rows),
    of_builds("stack", "stack, thousands of bytes", stacks),
    of_builds("growth", "growth, microseconds", |tell| timed(files::growth(), tell)),
];

fn timed(cases: Vec<Case>, tell: &mut dyn FnMut(Row)) -> Result<()> {
    cases::timed(cases).into_iter().for_each(tell);
    Ok(())
}

fn stacks(tell: &mut dyn FnMut(Row)) -> Result<()> {
    tell(stack::row("judge", files::judged()));
    tell(stack::row("an opening", runs::opened()));
    tell(stack::row("an opening and calls", runs::called()));
    Ok(())
}

/// What the arguments ask for: how many runs, and which groups.
fn wanted(mut arguments: impl Iterator<Item = String>) -> Option<(usize, Vec<&'static Group>)> {
    let (mut runs, mut groups) = (1, vec![]);
    while let Some(word) = arguments.next() {
        match word.as_str() {
            "--runs" => runs = arguments.next()?.parse().ok().filter(|&runs| runs > 0)?,
            name => groups.push(GROUPS.iter().find(|group| group.name == name)?),
        }
    }
    if groups.is_empty() {
        groups.extend(&GROUPS);
    }
    Some((runs, groups))
}

fn section(group: &Group) -> Result<Section> {
    print_head(group.title, group.columns);
    let mut rows = vec![];
    (group.rows)(&mut |row| {
        row.print();
        rows.push(row);
    })?;
    Ok(Section { title: group.title, columns: group.columns, rows })
}

fn measured(runs: usize, groups: &[&Group]) -> Result<Vec<Vec<Section>>> {
    let run = |_| groups.iter().map(|group| section(group)).collect();
    (0..runs).map(run).collect()
}

fn main() -> Result<ExitCode> {
    let arguments: Vec<String> = std::env::args().skip(1).collect();
    match arguments.first().map(String::as_str) {
        Some(programs::AS_PROGRAM) => programs::print_timetable()?,
        Some("--copies") => copies::print()?,
        _ => {
            let Some((runs, groups)) = wanted(arguments.into_iter()) else {
                eprintln!("{USAGE}");
                return Ok(ExitCode::from(2));
            };
            print_markdown(&measured(runs, &groups)?);
        }
    }
    Ok(ExitCode::SUCCESS)
}
