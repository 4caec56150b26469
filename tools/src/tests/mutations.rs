//! The tools are broken on purpose, one way at a time, and some check must notice each. Nothing may be noticed while
//! nothing is broken.

use super::CHECKS;
use crate::toggles::{with_broken, Broken, ALL};
use std::panic::{catch_unwind, set_hook, take_hook, AssertUnwindSafe};

const SEED: u64 = 4_200_000;

/// The first check that notices, with the number of cases it was given.
fn noticed(toggle: Option<Broken>) -> Option<(&'static str, usize)> {
    for cases in [30, 300] {
        for (name, check) in CHECKS {
            // Tools that panic are noticed as well.
            let run = || catch_unwind(AssertUnwindSafe(|| check(SEED, cases)));
            let answer = match toggle {
                Some(toggle) => with_broken(toggle, run),
                None => run(),
            };
            if !matches!(answer, Ok(Ok(()))) {
                return Some((name, cases));
            }
        }
    }
    None
}

#[test]
fn every_mutation_is_noticed() {
    let usual = take_hook();
    set_hook(Box::new(move |info| {
        if std::thread::current().name() != Some("broken on purpose") {
            usual(info);
        }
    }));
    assert_eq!(noticed(None), None);
    let work = || ALL.iter().map(|&(toggle, what)| (what, noticed(Some(toggle)))).collect::<Vec<_>>();
    let found =
        std::thread::Builder::new().name("broken on purpose".into()).spawn(work).unwrap().join().unwrap();
    for (what, by) in &found {
        match by {
            Some((name, cases)) => println!("noticed by {name:<26} ({cases:>3} cases): {what}"),
            None => println!("NOT NOTICED: {what}"),
        }
    }
    assert!(found.iter().all(|(_, by)| by.is_some()), "some mutation was not noticed");
}
