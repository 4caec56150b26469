//! What the tests and the comparisons share: how many cases from which seed, the table of hits,
//! shrinking, and the functions of the Rattle side.

pub mod hits;
#[cfg(feature = "rattle_host")]
pub mod host;
pub mod link;
pub mod markers;
pub mod rattle;
pub mod settings;
pub mod shrink;
pub mod smaller;
pub mod stack;
pub mod threads;
pub mod ties;

use crate::generate::to_hex;

/// One generated case that went wrong.
#[derive(Clone, Debug)]
pub struct Failure {
    pub what: String,
    pub input: Vec<u8>,
}

impl Failure {
    pub fn new(what: impl Into<String>, input: &[u8]) -> Failure {
        Failure { what: what.into(), input: input.to_vec() }
    }

    /// What is printed: what went wrong and the input as hex.
    pub fn told(&self) -> String {
        format!("{}\ninput {}", self.what, to_hex(&self.input))
    }

    /// The same with the seed that replays the case.
    pub fn told_with(&self, seed: u64) -> String {
        format!("{}\nseed {seed} (JIDLEKUVO_SEED={seed} JIDLEKUVO_CASES=1)", self.told())
    }
}
