//! Rows about runs: openings and calls.

use crate::cases::{Case, Work};
use crate::linked::{self, Driver};
use jidlekuvo_reference::drive::{self, drive, RECORD};
use jidlekuvo_reference::generate::in_time::{calls_in_time, opening_of, plan_t_read};
use jidlekuvo_reference::generate::markers::marked_path;
use jidlekuvo_reference::generate::messages::sent;
use jidlekuvo_reference::generate::plans;
use jidlekuvo_reference::link;
use jidlekuvo_reference::run::{Call, Opening, Request};

/// How many calls a row over a full window takes.
const CALLS: usize = 20;

/// The form in which an opening and calls are put to both builds.
struct Form {
    encode: fn(&Opening, &[Call]) -> Vec<u8>,
    /// The room for the answers to so many calls.
    room: fn(usize) -> usize,
    rust: Driver,
    rattle: Option<Driver>,
}

/// As calls, answered by records.
fn called_by_records() -> Form {
    let room = |calls| (calls + 1) * RECORD;
    Form { encode: drive::encode_calls, room, rust: drive, rattle: linked::drive() }
}

/// As messages, answered by messages. With room for the longest answers the Rattle side goes through a list
/// once.
fn called_by_messages() -> Form {
    let encode = |opening: &Opening, calls: &[Call]| {
        link::encode(opening, &calls.iter().map(|&call| sent(call)).collect::<Vec<_>>())
    };
    Form { encode, room: |calls| RECORD + 8 * calls, rust: link::drive, rattle: linked::link() }
}

/// An opening and calls, answered alike by both builds.
struct Drive {
    input: Vec<u8>,
    room: usize,
}

impl Drive {
    fn new(form: &Form, opening: &Opening, calls: &[Call]) -> Drive {
        let made = Drive { input: (form.encode)(opening, calls), room: (form.room)(calls.len()) };
        let answered = made.answers(form.rust);
        assert!(answered[0] == 0, "the opening is refused");
        form.rattle.iter().for_each(|&rattle| assert!(answered == made.answers(rattle)));
        made
    }

    fn answers(&self, function: Driver) -> Vec<u8> {
        let mut out = vec![0; self.room];
        let written = function(&self.input, &mut out);
        assert!((1..=self.room).contains(&written), "{written}");
        out.truncate(written);
        out
    }

    fn work(&self, function: Driver) -> Work {
        Work::into_buffer(&self.input, self.room, function)
    }
}

fn driving(name: &str, opening: &Opening, calls: &[Call]) -> Case {
    driving_by(called_by_records(), name, opening, calls)
}

fn driving_by(form: Form, name: &str, opening: &Opening, calls: &[Call]) -> Case {
    let drives = Drive::new(&form, opening, calls);
    let rattle = form.rattle.map(|function| drives.work(function));
    Case { name: name.to_string(), units: 1.0, rust: drives.work(form.rust), rattle }
}

/// One call: a drive with the calls without one with the first `before` of them.
fn calling(name: &str, opening: &Opening, calls: &[Call], before: usize) -> Case {
    calling_by(called_by_records(), name, opening, calls, before)
}

fn calling_by(form: Form, name: &str, opening: &Opening, calls: &[Call], before: usize) -> Case {
    let (all, few) = (Drive::new(&form, opening, calls), Drive::new(&form, opening, &calls[..before]));
    let work = |function: Driver| all.work(function).without(few.work(function));
    let units = (calls.len() - before) as f64;
    Case { name: name.to_string(), units, rust: work(form.rust), rattle: form.rattle.map(work) }
}

fn loading_opening() -> Opening {
    opening_of(&plans::wide_plan(0, 75))
}

/// The second of two calls: an outcome after which a path with so many nodes in each transition is loaded.
fn outcome_that_loads(name: &str, sizes: &[usize]) -> Case {
    let opening = opening_of(&plans::loading_plan(sizes));
    calling(name, &opening, &calls_in_time(&opening, 2), 1)
}

/// The same after which the path passes a marker between each two of its transitions.
fn outcome_that_passes_markers(name: &str, sizes: &[usize]) -> Case {
    let opening = opening_of(&marked_path(sizes, true));
    calling(name, &opening, &calls_in_time(&opening, 2), 1)
}

fn full_opening() -> Opening {
    opening_of(&plans::wide_plan(511, 1))
}

fn repeated(opening: &Opening, request: Request) -> Vec<Call> {
    vec![Call { reading: opening.psi - 1, request }; CALLS]
}

fn ask_over_full_window() -> Case {
    let full = full_opening();
    calling("ask over a full window (wait)", &full, &repeated(&full, Request::Ask), 0)
}

/// Asks of plan T as calls and as messages, and of a full window as messages.
fn asks_over_the_link() -> Vec<Case> {
    let (t, full) = (opening_of(&plan_t_read()), full_opening());
    let (of_t, of_full) = (repeated(&t, Request::Ask), repeated(&full, Request::Ask));
    let linked = |name, opening, calls| calling_by(called_by_messages(), name, opening, calls, 0);
    vec![
        calling("ask of plan T (wait)", &t, &of_t, 0),
        linked("read, ask of plan T, write over the link (wait)", &t, &of_t),
        linked("read, ask over a full window, write over the link (wait)", &full, &of_full),
    ]
}

fn report_over_full_window() -> Case {
    let full = full_opening();
    let absent = Request::Completion { position: 77, node: 1 };
    calling("report over a full window (52)", &full, &repeated(&full, absent), 0)
}

/// The first three calls start the event and an action and report the outcome.
fn start_over_full_window() -> Case {
    let full = full_opening();
    let before = 3;
    let calls = calls_in_time(&full, before + CALLS);
    calling("start or report while a full window empties", &full, &calls, before)
}

/// The third call reports the outcome: 511 nodes stand beside the event, and one is loaded.
fn outcome_over_full_window() -> Case {
    let full = full_opening();
    calling("an outcome that loads 1 node into a window of 511", &full, &calls_in_time(&full, 3), 2)
}

pub fn cases() -> Vec<Case> {
    let loading = loading_opening();
    let tenths: Vec<usize> = (0..10).map(|n| (75 + n) / 10).collect();
    let mut cases = vec![
        driving("open plan T", &opening_of(&plan_t_read()), &[]),
        driving("open the largest accepted plan", &opening_of(&plans::largest_plan()), &[]),
        calling("an outcome that loads a path of 75 nodes", &loading, &calls_in_time(&loading, 2), 1),
        outcome_that_passes_markers(
            "an outcome that loads a path of 75 nodes through five markers",
            &[13, 13, 13, 12, 12, 12],
        ),
        outcome_that_loads("an outcome that loads a path of 62 nodes in one transition", &[62]),
        outcome_that_loads("an outcome that loads a path of 75 nodes in ten transitions", &tenths),
        outcome_over_full_window(),
        ask_over_full_window(),
        report_over_full_window(),
        start_over_full_window(),
    ];
    cases.extend(asks_over_the_link());
    cases
}

/// The proved build by `jidlekuvo_drive`, which keeps a `Run`, beside the functions that a host links, over a `Held`.
fn called_for_a_host() -> Option<Form> {
    let for_a_host = linked::host()?;
    let by_records = called_by_records();
    Some(Form { rust: by_records.rattle?, rattle: Some(for_a_host), ..by_records })
}

/// Openings, asks, reports and outcomes in both ways; none where one of them is not there.
pub fn held() -> Vec<Case> {
    let (t, largest) = (opening_of(&plan_t_read()), opening_of(&plans::largest_plan()));
    let (full, loading) = (full_opening(), loading_opening());
    let absent = Request::Completion { position: 77, node: 1 };
    let rows = [
        ("open plan T", &t, vec![], 0),
        ("open the largest accepted plan", &largest, vec![], 0),
        ("ask of plan T (wait)", &t, repeated(&t, Request::Ask), 0),
        ("ask over a full window (wait)", &full, repeated(&full, Request::Ask), 0),
        ("report over a full window (52)", &full, repeated(&full, absent), 0),
        ("start or report while a full window empties", &full, calls_in_time(&full, 3 + CALLS), 3),
        ("an outcome that loads a path of 75 nodes", &loading, calls_in_time(&loading, 2), 1),
        ("an outcome that loads 1 node into a window of 511", &full, calls_in_time(&full, 3), 2),
    ];
    let row = |(name, opening, calls, before): (&str, &Opening, Vec<Call>, usize)| {
        let form = called_for_a_host()?;
        Some(match calls.is_empty() {
            true => driving_by(form, name, opening, &calls),
            false => calling_by(form, name, opening, &calls, before),
        })
    };
    rows.into_iter().filter_map(row).collect()
}

/// Openings, for the stack that they need.
pub fn opened() -> Vec<Case> {
    let plans = [plan_t_read(), plans::largest_plan(), plans::wide_plan(511, 1)];
    plans.iter().map(|plan| driving("open", &opening_of(plan), &[])).collect()
}

/// Calls of every kind, for the stack that they need beside the opening before them.
pub fn called() -> Vec<Case> {
    let loading = loading_opening();
    let outcome = driving("outcome", &loading, &calls_in_time(&loading, 2));
    vec![outcome, ask_over_full_window(), report_over_full_window(), start_over_full_window()]
}
