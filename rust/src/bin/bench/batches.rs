//! The time of a turn in many short batches that several turns take one after the other, round by round: other work on the
//! machine cuts into some batches of each.

use std::time::{Duration, Instant};

const BATCH: Duration = Duration::from_micros(250);
const ROUNDS: usize = 100;

pub type Turn = Box<dyn FnMut() + Send>;

fn took(turn: &mut Turn, turns: u32) -> Duration {
    let began = Instant::now();
    (0..turns).for_each(|_| turn());
    began.elapsed()
}

/// How many turns fill a batch.
fn turns_of(turn: &mut Turn) -> u32 {
    let once = (0..5).map(|_| took(turn, 1)).min().unwrap_or(BATCH).max(Duration::from_nanos(20));
    (BATCH.as_nanos() / once.as_nanos()).max(1) as u32
}

/// Microseconds of one turn, in one batch. A turn before it brings back what the others have driven out of the caches; one
/// that fills a batch alone is long enough without.
fn batch(turn: &mut Turn, turns: u32) -> f64 {
    if turns > 1 {
        turn();
    }
    took(turn, turns).as_secs_f64() * 1e6 / turns as f64
}

/// The microseconds of one turn of each, in each of some rounds of batches.
pub fn rounds(turns: &mut [&mut Turn]) -> Vec<Vec<f64>> {
    let counts: Vec<u32> = turns.iter_mut().map(|turn| turns_of(turn)).collect();
    let mut round = || turns.iter_mut().zip(&counts).map(|(turn, &count)| batch(turn, count)).collect();
    (0..ROUNDS).map(|_| round()).collect()
}
