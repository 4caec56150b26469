//! Runs that no opening made, through both builds: two calls of each, and every limit of number 50
//! from both sides.

#![cfg(feature = "rattle_made_up")]

use jidlekuvo_reference::compare::hits::{name, Hits};
use jidlekuvo_reference::compare::markers::{self, too_few, OF_MADE_UP};
use jidlekuvo_reference::compare::threads::in_threads;
use jidlekuvo_reference::compare::ties::{wanted_of_made_up, Ties};
use jidlekuvo_reference::compare::{rattle, settings, Failure};
use jidlekuvo_reference::generate::made_up::{OF_PLANS, OF_RUNS};
use jidlekuvo_reference::generate::{made_up as generate, Random};
use jidlekuvo_reference::made_up::limits::Limits;
use jidlekuvo_reference::made_up::{answer, encode, replies, replies_shown, ANSWER};
use jidlekuvo_reference::run::{Call, Reply, Run};

/// "36 a buffer too short", times 2^32.
const TOO_SHORT: usize = 36 << 32;

/// What the Rattle side writes into a buffer of so many bytes, and what it returns.
fn theirs(bytes: &[u8], room: usize) -> (usize, Vec<u8>) {
    let mut out = vec![0x3C; room];
    (rattle::made_up(bytes, &mut out), out)
}

/// What it should be.
fn ours(run: &Run, calls: [Call; 2], room: usize) -> (usize, Vec<u8>) {
    let mut out = vec![0x3C; room];
    if room < ANSWER {
        return (TOO_SHORT, out);
    }
    out[..ANSWER].copy_from_slice(&answer(run, calls));
    (ANSWER, out)
}

/// The bytes; now and then without the zeros at their end, which make no difference.
fn bytes_of(random: &mut Random, run: &Run, calls: [Call; 2]) -> Vec<u8> {
    let mut bytes = encode(run, &calls);
    if random.one_in(4) {
        let used = bytes.iter().rposition(|&byte| byte != 0).map_or(0, |last| last + 1);
        bytes.truncate(random.between(used, bytes.len()));
    }
    bytes
}

/// Counts the replies and the limits.
fn count(run: &Run, replies: [Reply; 2], hits: &mut Hits) {
    replies.iter().for_each(|&reply| hits.hit(name(reply)));
    let limits = Limits::of(run);
    if limits.are_kept() {
        limits.at.iter().for_each(|what| hits.hit(format!("at the limit: {what}")));
    }
    if limits.are_kept() && generate::has_twins(run) {
        replies.iter().for_each(|&reply| hits.hit(format!("two entries alike: {}", name(reply))));
    }
    limits.only_past().iter().for_each(|what| hits.hit(format!("one past it: {what}")));
}

/// The replies, every limit from both sides, and what decides ties.
fn wanted() -> Vec<String> {
    let refusals = (50..=55).map(|n| format!("refused {n}"));
    let stops = (41..=44).map(|n| format!("stopped {n}"));
    let rest = ["start", "wait", "done", "taken"].map(String::from);
    let alike = ["start", "taken", "refused 53", "stopped 41", "stopped 42"];
    let alike = alike.map(|reply| format!("two entries alike: {reply}"));
    let limits = OF_PLANS.iter().chain(OF_RUNS);
    let sides =
        limits.flat_map(|(what, _)| [format!("at the limit: {what}"), format!("one past it: {what}")]);
    refusals.chain(stops).chain(rest).chain(alike).chain(sides).chain(wanted_of_made_up()).collect()
}

#[test]
fn made_up_runs_agree() {
    let case = |random: &mut Random, hits: &mut Hits| {
        let (run, calls) = generate::case(random);
        let bytes = bytes_of(random, &run, calls);
        let mut ties = Ties::of(&run);
        let replies = replies_shown(&run, calls, |run, reply| ties.look(run, reply));
        if (replies[0] == Reply::Refused(50)) == Limits::of(&run).are_kept() {
            return Err(Failure::new(format!("50 and the limits: {:?}", Limits::of(&run)), &bytes));
        }
        count(&run, replies, hits);
        ties.count(hits);
        markers::count(&markers::of_calls(&run, calls), hits);
        let room = if random.one_in(50) { random.below(ANSWER) } else { ANSWER + random.below(6) };
        let (wanted, written) = (ours(&run, calls, room), theirs(&bytes, room));
        match wanted == written {
            true => Ok(()),
            false => {
                Err(Failure::new(format!("{calls:?}\nRust {wanted:?}\nRattle {written:?}\n{run:?}"), &bytes))
            }
        }
    };
    let cases = settings::cases(30_000);
    let hits = in_threads(settings::seed(), cases, case).unwrap_or_else(|what| panic!("{what}"));
    hits.print(&format!("{cases} made-up runs agree"));
    let missing = hits.missing(&wanted());
    assert!(settings::is_by_hand() || missing.is_empty(), "never hit: {missing:?}");
    let few = too_few(&hits, OF_MADE_UP, cases, 2_000);
    assert!(settings::is_by_hand() || few.is_empty(), "too few: {few:?}");
}

/// Why `replies-by-content` asks that no node of the window has a position that is still to come: of two
/// entries that are alike the lower place is taken, so that here places tell.
#[test]
fn places_tell_of_a_node_that_is_loaded_again() {
    let (runs, calls) = generate::loaded_again();
    let answers = runs.each_ref().map(|run| replies(run, calls));
    assert_eq!(answers, [[Reply::Taken; 2], [Reply::Taken, Reply::Refused(53)]]);
    for run in &runs {
        assert_eq!(theirs(&encode(run, &calls), ANSWER), ours(run, calls, ANSWER));
    }
}
