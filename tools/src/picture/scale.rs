//! Where times and texts stand in a picture.

use super::story::Story;
use crate::names::{Names, Space};

/// The width of a letter of the picture's font at its size, in pixels, and a bit.
pub const LETTER: f64 = 6.7;
const NARROWEST: f64 = 640.0;
const WIDEST: f64 = 12_000.0;

/// The room that a text of so many letters takes.
pub fn room(text: &str) -> f64 {
    text.chars().count() as f64 * LETTER
}

pub struct Scale {
    /// Where time 0 stands.
    pub left: f64,
    /// Pixels for a microsecond.
    pub step: f64,
    pub latest: u64,
}

impl Scale {
    /// As wide as the texts in the bars need, within limits.
    pub fn of(story: &Story, names: &Names, left: f64) -> Scale {
        let latest = story.closing.latest.max(1);
        let needed = story.rows.iter().filter(|row| row.end > row.start).map(|row| {
            let name = names.of(Space::Node(row.activity), row.node as usize);
            (room(&name).max(room(&format!("{}-{}", row.start, row.end))) + 10.0)
                / (row.end - row.start) as f64
        });
        let width = (needed.fold(0.0, f64::max) * latest as f64).clamp(NARROWEST, WIDEST);
        Scale { left, step: width / latest as f64, latest }
    }

    pub fn x(&self, time: u64) -> f64 {
        self.left + time as f64 * self.step
    }

    /// The times at which the axis has a mark: 1, 2 or 5 times a power of ten apart, with room for the numbers.
    pub fn marks(&self) -> Vec<u64> {
        let room = room(&self.latest.to_string()) + 24.0;
        let mut step = 1u64;
        for factor in [2, 5, 10].into_iter().cycle() {
            if step as f64 * self.step >= room {
                break;
            }
            step = match factor {
                5 => step / 2 * 5,
                _ => step * 2,
            };
        }
        (0..=self.latest / step).map(|n| n * step).collect()
    }
}

/// Rows for labels that must not cover each other: the row of each, by where it begins and how long it is. Those
/// for which no row is left get none.
pub fn stacked(labels: &[(f64, f64)], most: usize) -> Vec<Option<usize>> {
    let mut ends = vec![f64::MIN; most];
    let mut place = |&(from, long): &(f64, f64)| {
        let row = ends.iter().position(|&end| end < from)?;
        ends[row] = from + long + LETTER;
        Some(row)
    };
    labels.iter().map(&mut place).collect()
}
