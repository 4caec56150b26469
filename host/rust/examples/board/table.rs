//! The rows that ./timetable prints, and how far each has come.

use std::io::{self, BufRead};

#[derive(Clone, Copy, PartialEq, Eq)]
pub enum Phase {
    Ahead,
    Started,
    Reported,
}

#[derive(Clone, Copy)]
pub struct Row {
    pub position: u32,
    pub activity: u8,
    pub node: u8,
    /// In specified time.
    pub start: u64,
    pub end: u64,
    pub phase: Phase,
}

/// The rows of a table: the lines of five numbers.
pub fn read(from: impl BufRead) -> io::Result<Vec<Row>> {
    let lines: Vec<String> = from.lines().collect::<Result<_, _>>()?;
    Ok(lines.iter().filter_map(|line| row(line)).collect())
}

fn row(line: &str) -> Option<Row> {
    let numbers: Vec<u64> = line.split(' ').map(|word| word.parse().ok()).collect::<Option<_>>()?;
    let [position, activity, node, start, end] = numbers[..] else { return None };
    let (position, activity, node) = (position as u32, activity as u8, node as u8);
    Some(Row { position, activity, node, start, end, phase: Phase::Ahead })
}
