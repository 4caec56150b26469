//! Pairs of runs: two openings of one plan with equal availabilities and slack, each with its own Ψ, and after
//! each the calls of some host. Both hosts are told the same outcomes.

use super::hosts::{settled_calls, Host, Settled, SETTLED_HOSTS};
use super::openings::opening;
use super::Random;
use crate::run::{Call, Opening, Run};
use crate::HORIZON;

/// Enough for the small steps of a careful host to reach the end of most plans.
const MOST_CALLS: usize = 300;

/// An accepted opening and the calls after it.
#[derive(Clone, Debug)]
pub struct Played {
    pub opening: Opening,
    pub host: Host,
    pub calls: Vec<Call>,
}

#[derive(Clone, Debug)]
pub struct Pair {
    pub one: Played,
    pub other: Played,
    seed: u64,
}

/// A run of the plan with a Ψ and a host of its own.
fn played(random: &mut Random, opening: &Opening, settled: Settled) -> Played {
    let any = random.below(HORIZON as usize) as u64;
    let psi = random.pick(&[0, 1, 1_000_000, 1_000_400, any, HORIZON]);
    let opening = Opening { psi, ..opening.clone() };
    let host = random.pick(&SETTLED_HOSTS);
    let calls = settled_calls(random, &opening, host, settled, MOST_CALLS);
    Played { opening, host, calls }
}

/// None where the generated opening is refused, or a resource is so far away that small steps do not reach it.
pub fn pair(random: &mut Random) -> Option<Pair> {
    let opening = opening(random);
    let far = opening.availabilities.iter().any(|&a| a > 1_000_000);
    if far || Run::open(&opening).0.is_err() {
        return None;
    }
    let seed = random.next();
    let settled = Settled { seed, changed: None };
    let one = played(random, &opening, settled);
    let other = played(random, &opening, settled);
    Some(Pair { one, other, seed })
}

impl Pair {
    /// A further run, with the outcome of one instance changed.
    pub fn changed(&self, random: &mut Random, instance: (u32, u8)) -> Played {
        let settled = Settled { seed: self.seed, changed: Some(instance) };
        played(random, &self.one.opening, settled)
    }
}
