//! Where things stand in a run's bytes, by host/layout.txt, and the words there.

use jidlekuvo_reference::compare::host::Held;
use std::sync::LazyLock;

const LAYOUT: &str = include_str!("../../../host/layout.txt");

/// Words of a run. A place of the window has three (start, end, the others), a pending instance two (end, the others).
struct Words {
    last: usize,
    window: usize,
    pending: usize,
    halt: usize,
    plan: usize,
}

static AT: LazyLock<Words> = LazyLock::new(|| Words {
    last: word("HeldRest", "last"),
    window: word("HeldRest", "window"),
    pending: word("HeldRest", "progress") + word("HeldProgress", "pending"),
    halt: word("HeldRest", "halt"),
    plan: word("Held", "plan"),
});

/// How many words stand before a field. The fields of a struct follow its line: offset, size, name, type.
fn word(name: &str, field: &str) -> usize {
    let mut lines = LAYOUT.lines().skip_while(|line| line.split(' ').next() != Some(name));
    let fields = lines.by_ref().map(|line| line.split_whitespace().collect::<Vec<_>>());
    let found = fields.skip(1).find(|words| words.get(2) == Some(&field)).expect("the field is listed");
    found[0].parse::<usize>().expect("an offset") / 8
}

/// The words before the plan.
pub fn plan_at() -> usize {
    AT.plan
}

/// The number of the stop, 0 where the run goes on.
pub fn halt(run: &Held) -> u8 {
    run.0[AT.halt].to_le_bytes()[5]
}

pub fn go_on(run: &mut Held) {
    run.0[AT.halt] = 0;
}

pub fn last(run: &mut Held) -> &mut u64 {
    &mut run.0[AT.last]
}

/// The places of the window.
pub fn window(run: &mut Held) -> impl Iterator<Item = &mut [u64]> {
    run.0[AT.window..][..3 * 512].chunks_exact_mut(3)
}

/// The pending instances.
pub fn pending(run: &mut Held) -> impl Iterator<Item = &mut [u64]> {
    run.0[AT.pending..][..2 * 128].chunks_exact_mut(2)
}

/// A byte of a word.
pub fn change_byte(word: &mut u64, at: usize, change: impl Fn(u8) -> u8) {
    let mut bytes = word.to_le_bytes();
    bytes[at] = change(bytes[at]);
    *word = u64::from_le_bytes(bytes);
}
