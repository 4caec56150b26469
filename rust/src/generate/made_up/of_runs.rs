//! The limits of what a run stores beside its plan: one push for each.

use super::{any, last, Push};
use crate::generate::Random;
use crate::plan_file::MOST_NODES;
use crate::run::{Entry, Run, Stop};
use crate::specified_times::incremental::{Instance, MOST_PENDING};
use crate::{HORIZON, LAST_POSITION};

/// An event, and the place of one of its instances.
fn any_instance(random: &mut Random, run: &Run) -> Option<(usize, usize)> {
    let pending = run.moment.pending.iter().enumerate();
    let places: Vec<_> = pending.flat_map(|(e, queue)| (0..queue.len()).map(move |i| (e, i))).collect();
    (!places.is_empty()).then(|| random.pick(&places))
}

/// Changes an instance; what was told of it goes with it.
fn change_instance(random: &mut Random, run: &mut Run, change: impl Fn(&mut Instance)) -> Option<()> {
    let (event, place) = any_instance(random, run)?;
    let instance = &mut run.moment.pending[event][place];
    let told = run.outcomes.remove(&(instance.position, instance.node));
    change(instance);
    told.map(|outcome| run.outcomes.insert((instance.position, instance.node), outcome));
    Some(())
}

fn change_entry(random: &mut Random, run: &mut Run, change: impl Fn(&mut Entry)) -> Option<()> {
    any(random, &mut run.window).map(change)
}

/// A run with a stop of this number.
fn stopped(run: &mut Run, number: u8, position: u64, node: u64) -> Option<()> {
    run.stop = Some(Stop { number, node: Some((position as u32, node as u8)) });
    Some(())
}

pub const OF_RUNS: &[Push] = &[
    ("psi", |_, run, past| {
        run.psi = HORIZON + past as u64;
        Some(())
    }),
    ("slack, least", |_, run, past| {
        run.slack = Run::LEAST_SLACK - past as u64;
        Some(())
    }),
    ("slack, most", |_, run, past| {
        run.slack = Run::MOST_SLACK + past as u64;
        Some(())
    }),
    ("availability", |random, run, past| {
        *any(random, &mut run.moment.availabilities)? = HORIZON + past as u64;
        Some(())
    }),
    ("last completion", |random, run, past| {
        *any(random, &mut run.moment.last_completions)? = HORIZON + past as u64;
        Some(())
    }),
    ("pending count", |random, run, past| {
        let pending = any(random, &mut run.moment.pending)?;
        // Identities that no other instance has.
        let fresh =
            |k: usize| Instance { position: 900_000_000 + k as u64, activity: 0, node: 1, completion: 0 };
        (pending.len()..MOST_PENDING + past as usize).for_each(|k| pending.push_back(fresh(k)));
        Some(())
    }),
    ("position of an instance", |random, run, past| {
        change_instance(random, run, |instance| instance.position = LAST_POSITION + past as u64)
    }),
    ("node of an instance", |random, run, past| {
        change_instance(random, run, |instance| instance.node = (MOST_NODES - 1) as u8 + past)
    }),
    ("completion of an instance", |random, run, past| {
        change_instance(random, run, |instance| instance.completion = HORIZON + past as u64)
    }),
    ("outcome told of an instance", |random, run, past| {
        let (event, place) = any_instance(random, run)?;
        let instance = run.moment.pending[event][place];
        let outcome = last(run.plan.events[event] as usize, past)?;
        run.outcomes.insert((instance.position, instance.node), outcome);
        Some(())
    }),
    ("next position", |_, run, past| {
        run.next_position = LAST_POSITION + 1 + past as u64;
        Some(())
    }),
    ("state", |_, run, past| {
        run.state = last(run.plan.automaton.states as usize, past)?;
        Some(())
    }),
    ("position of an entry", |random, run, past| {
        change_entry(random, run, |entry| entry.time.position = LAST_POSITION + past as u64)
    }),
    ("activity of an entry", |random, run, past| {
        let activity = last(run.plan.activities.len(), past)?;
        change_entry(random, run, |entry| entry.time.activity = activity)
    }),
    ("node of an entry", |random, run, past| {
        let sizes: Vec<usize> = run.plan.activities.iter().map(Vec::len).collect();
        change_entry(random, run, |entry| {
            let size = sizes.get(entry.time.activity as usize).copied().unwrap_or(1);
            entry.time.node = last(size, past).unwrap_or(0);
        })
    }),
    ("start of an entry", |random, run, past| {
        change_entry(random, run, |entry| entry.time.start = HORIZON + past as u64)
    }),
    ("completion of an entry", |random, run, past| {
        change_entry(random, run, |entry| entry.time.completion = HORIZON + past as u64)
    }),
    ("position of stop 41", |_, run, past| stopped(run, 41, LAST_POSITION + past as u64, 0)),
    ("node of stop 41", |_, run, past| stopped(run, 41, 0, MOST_NODES - 1 + past as u64)),
    ("position of stop 42", |_, run, past| stopped(run, 42, LAST_POSITION + past as u64, 0)),
    ("node of stop 42", |_, run, past| stopped(run, 42, 0, MOST_NODES - 1 + past as u64)),
];
