//! The seed and the number of cases, from the environment or by default.

use super::Failure;
use crate::generate::Random;

const DEFAULT_SEED: u64 = 20_240_001;

fn number(name: &str) -> Option<u64> {
    std::env::var(name).ok().and_then(|text| text.trim().parse().ok())
}

/// The seed of the first case; the others follow it one by one.
pub fn seed() -> u64 {
    number("JIDLEKUVO_SEED").unwrap_or(DEFAULT_SEED)
}

/// How many cases: what JIDLEKUVO_CASES says, otherwise the default (a tenth in a debug build).
pub fn cases(default: usize) -> usize {
    let usual = if cfg!(debug_assertions) { default / 10 } else { default };
    number("JIDLEKUVO_CASES").map_or(usual, |cases| cases as usize)
}

/// Whether a case is being replayed or counted by hand; the table of hits is then not judged.
pub fn is_by_hand() -> bool {
    number("JIDLEKUVO_SEED").is_some() || number("JIDLEKUVO_CASES").is_some_and(|c| c < 20_000)
}

/// Runs cases from a seed on; the first failure is told with its own seed.
pub fn run_cases(
    seed: u64,
    cases: usize,
    mut case: impl FnMut(&mut Random) -> Result<(), Failure>,
) -> Result<(), String> {
    for at in 0..cases as u64 {
        let seed = seed.wrapping_add(at);
        case(&mut Random::new(seed)).map_err(|failure| failure.told_with(seed))?;
    }
    Ok(())
}
