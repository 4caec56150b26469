//! What a row measures: the same input for both builds.

use crate::batches::{rounds, Turn};
use crate::rows::Row;
use std::hint::black_box;

/// A turn of one build and, where the row is a difference, the turn whose time is taken off.
pub struct Work {
    pub whole: Turn,
    pub part: Option<Turn>,
}

impl Work {
    /// A function on bytes.
    pub fn of_bytes<Answer: 'static>(bytes: &[u8], function: fn(&[u8]) -> Answer) -> Work {
        let bytes = bytes.to_vec();
        let turn = move || {
            black_box(function(black_box(&bytes)));
        };
        Work { whole: Box::new(turn), part: None }
    }

    /// A function on bytes that writes into a buffer of so many.
    pub fn into_buffer<Answer: 'static>(
        bytes: &[u8],
        room: usize,
        function: fn(&[u8], &mut [u8]) -> Answer,
    ) -> Work {
        let (bytes, mut out) = (bytes.to_vec(), vec![0; room]);
        let turn = move || {
            black_box(function(black_box(&bytes), black_box(&mut out)));
        };
        Work { whole: Box::new(turn), part: None }
    }

    /// The same without what another does.
    pub fn without(self, part: Work) -> Work {
        Work { part: Some(part.whole), ..self }
    }

    fn turns(&mut self) -> Vec<&mut Turn> {
        std::iter::once(&mut self.whole).chain(&mut self.part).collect()
    }
}

/// A row: its name, how many units its turn holds, and the work of each build that is there.
pub struct Case {
    pub name: String,
    pub units: f64,
    pub rust: Work,
    pub rattle: Option<Work>,
}

/// The times of all turns of a case, round by round.
type Rounds = Vec<Vec<f64>>;

fn median(mut values: Vec<f64>) -> Option<f64> {
    values.sort_by(f64::total_cmp);
    values.get(values.len() / 2).copied()
}

/// The least time of the turn `at`: what other work has not cut into.
fn least(rounds: &Rounds, at: usize) -> f64 {
    rounds.iter().map(|times| times[at]).fold(f64::INFINITY, f64::min)
}

/// How much longer the turn `at` takes than the next one: the median of the rounds' differences. The least of each would
/// come from two rounds, and their difference has changed by a quarter from one day to another.
fn difference(rounds: &Rounds, at: usize) -> Option<f64> {
    median(rounds.iter().map(|times| times[at] - times[at + 1]).collect())
}

impl Case {
    /// Some rounds more, and four times as many for a difference, which has the disturbances of two.
    fn measure(&mut self, measured: &mut Rounds) {
        let often = if self.rust.part.is_some() { 4 } else { 1 };
        let mut turns = self.rust.turns();
        turns.extend(self.rattle.iter_mut().flat_map(Work::turns));
        (0..often).for_each(|_| measured.extend(rounds(&mut turns)));
    }

    /// Microseconds of a unit of the work whose turns begin at `at`; none where a difference is lost in other work.
    fn of_one(&self, measured: &Rounds, at: usize) -> Option<f64> {
        let whole = least(measured, at);
        if self.rust.part.is_none() {
            return Some(whole / self.units);
        }
        let rest = difference(measured, at)?;
        (rest > 0.02 * whole).then_some(rest / self.units)
    }

    /// Microseconds of a unit in both builds.
    fn row(&self, measured: &Rounds) -> Row {
        let second = 1 + self.rust.part.is_some() as usize;
        let rattle = self.rattle.as_ref().and_then(|_| self.of_one(measured, second));
        Row::new(&self.name, self.of_one(measured, 0), rattle)
    }

    fn came_out(&self, measured: &Rounds) -> bool {
        let row = self.row(measured);
        row.rust.is_some() && row.rattle.is_some() == self.rattle.is_some()
    }
}

/// How often all cases are gone through. A slow spell of the machine then falls on all of them, and on a part of each.
const PASSES: usize = 10;

/// The rows of some cases. Where a difference does not come out, it is measured again.
pub fn timed(mut cases: Vec<Case>) -> Vec<Row> {
    let mut measured = vec![vec![]; cases.len()];
    for pass in 0..8 * PASSES {
        for (case, measured) in cases.iter_mut().zip(&mut measured) {
            if pass < PASSES || !case.came_out(measured) {
                case.measure(measured);
            }
        }
    }
    cases.iter().zip(&measured).map(|(case, measured)| case.row(measured)).collect()
}
