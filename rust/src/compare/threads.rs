//! Generated cases on as many threads as there are cores.

use super::hits::Hits;
use super::settings::run_cases;
use super::Failure;
use crate::generate::Random;
use std::thread;

/// Splits the cases over the cores; gives the hits of all, or the first failure.
pub fn in_threads(
    seed: u64,
    cases: usize,
    case: impl Fn(&mut Random, &mut Hits) -> Result<(), Failure> + Sync,
) -> Result<Hits, String> {
    let cores = thread::available_parallelism().map_or(1, |n| n.get());
    let each = cases.div_ceil(cores);
    let part = |n: usize| {
        let mut hits = Hits::default();
        let here = each.min(cases.saturating_sub(n * each));
        let from = seed.wrapping_add((n * each) as u64);
        run_cases(from, here, |random| case(random, &mut hits)).map(|()| hits)
    };
    let parts: Vec<Result<Hits, String>> = thread::scope(|scope| {
        let started: Vec<_> = (0..cores).map(|n| scope.spawn(move || part(n))).collect();
        started.into_iter().map(|thread| thread.join().expect("no case panics")).collect()
    });
    let mut all = Hits::default();
    for part in parts {
        all.add(&part?);
    }
    Ok(all)
}
