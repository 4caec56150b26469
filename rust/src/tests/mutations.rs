//! The mutation check: the build is broken on purpose, one way at a time, and some check must
//! notice each. Nothing may be noticed while nothing is broken, which the other tests show.

use super::CHECKS;
use crate::compare::hits::Hits;
use crate::toggles::{with_broken, Broken, ALL};
use std::panic::{catch_unwind, set_hook, take_hook, AssertUnwindSafe};
use std::sync::mpsc::channel;
use std::sync::{Arc, Mutex};

const SEED: u64 = 77_000_000;

/// The first check that notices, with the number of cases it was given.
fn noticed(toggle: Broken) -> Option<(&'static str, usize)> {
    for cases in [100, 1_000, 10_000] {
        for (name, check) in CHECKS {
            let run = || check(SEED, cases, &mut Hits::default());
            // A build that panics is noticed as well.
            let answer = with_broken(toggle, || catch_unwind(AssertUnwindSafe(run)));
            if !matches!(answer, Ok(Ok(()))) {
                return Some((name, cases));
            }
        }
    }
    None
}

/// Keeps the panics of broken builds off the screen; other threads print as ever.
pub fn hush_broken_builds() {
    let usual = take_hook();
    set_hook(Box::new(move |info| {
        if std::thread::current().name() != Some("broken on purpose") {
            usual(info);
        }
    }));
}

#[test]
fn every_mutation_is_noticed() {
    hush_broken_builds();
    let left = Arc::new(Mutex::new(ALL.to_vec()));
    let (send, receive) = channel();
    for _ in 0..2 {
        let (left, send) = (left.clone(), send.clone());
        let work = move || loop {
            let Some((toggle, what)) = left.lock().unwrap().pop() else { break };
            send.send((toggle, what, noticed(toggle))).unwrap();
        };
        std::thread::Builder::new().name("broken on purpose".into()).spawn(work).unwrap();
    }
    drop(send);
    let mut all: Vec<_> = receive.iter().collect();
    all.sort_by_key(|(toggle, ..)| *toggle as usize);
    for (_, what, by) in &all {
        match by {
            Some((name, cases)) => println!("noticed by {name:<28} ({cases:>5} cases): {what}"),
            None => println!("NOT NOTICED: {what}"),
        }
    }
    assert_eq!(all.len(), ALL.len());
    assert!(all.iter().all(|(.., by)| by.is_some()), "some mutation was not noticed");
}
