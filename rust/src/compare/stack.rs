//! How much stack a function needs, by a painted stack: below the frame that calls it the stack is filled with one word,
//! and afterwards the lowest word that has changed is looked for.

use std::thread;

const PAINTED: usize = 4 << 20;
const WORD: u64 = 0xA5C3_96E1_78D2_B44F;
/// What the painting function itself may need below the frame that calls it.
const OWN: usize = 1 << 10;

/// Fills the stack below an address, without a call: its own frame lies in the part that is left out.
#[inline(never)]
fn paint(below: usize) {
    for at in (below - PAINTED..below - OWN).step_by(8) {
        // SAFETY: these words lie in this thread's stack, below every frame that is in use.
        unsafe { (at as *mut u64).write_volatile(WORD) };
    }
}

/// The lowest word that is not as it was painted.
#[inline(never)]
fn lowest(below: usize) -> usize {
    // SAFETY: as above; the words were written by `paint`.
    let is_painted = |at: &usize| unsafe { (*at as *const u64).read_volatile() == WORD };
    (below - PAINTED..below - OWN).step_by(8).find(|at| !is_painted(at)).unwrap_or(below - OWN)
}

/// The bytes below this frame that a turn has written to. What only the first turn does is not counted.
#[inline(never)]
fn depth(turn: &mut (dyn FnMut() + Send)) -> usize {
    turn();
    let mark = 0u64;
    let here = std::hint::black_box(&raw const mark) as usize;
    paint(here);
    turn();
    here - lowest(here)
}

/// The same on a thread whose stack has room for the paint.
pub fn needed(turn: &mut (dyn FnMut() + Send)) -> usize {
    let stack = thread::Builder::new().stack_size(PAINTED + (1 << 20));
    thread::scope(|scope| {
        let started = stack.spawn_scoped(scope, || depth(turn)).expect("a thread starts");
        started.join().expect("no turn panics")
    })
}
