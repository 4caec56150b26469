//! Hosts whose functions are wrong in one way, over those linked.

use crate::layout::{change_byte, go_on, halt, last, pending, window};
use jidlekuvo_reference::compare::host::{call, open, Held, HeldOpened, Host, HostReply};
use jidlekuvo_reference::generate::plan_t;
use jidlekuvo_reference::run::{Call, Opening, Request};

/// Every wrong host, and what is wrong with it.
pub const WRONG: &[(&str, Host)] = &[
    ("started is read as loaded", Host { open, call: started_as_loaded }),
    ("start and end are exchanged when a run is stored", Host { open: ends_first, call: ends_first_after }),
    ("the run after an ask is not stored", Host { open, call: ask_unstored }),
    ("a refused call stores its reading", Host { open, call: refusal_stores }),
    ("outcome and node are exchanged", Host { open, call: outcome_as_node }),
    ("done and wait are exchanged", Host { open, call: done_as_wait }),
    ("an opening keeps the window of another", Host { open: keeps_window, call }),
    ("a stop is not kept", Host { open, call: stop_forgotten }),
    ("the last reading is not stored", Host { open, call: reading_unstored }),
    ("a reported outcome is forgotten", Host { open, call: outcome_forgotten }),
    ("a completion is put as an outcome", Host { open, call: completion_as_outcome }),
    ("node and activity of a start are exchanged", Host { open, call: node_as_activity }),
    ("the activity of a start is told as its number too", Host { open, call: activity_as_number }),
    ("a stop tells no node", Host { open, call: stop_without_node }),
    ("a refused opening tells no place", Host { open: refusal_without_place, call }),
    ("the availabilities are taken from the last on", Host { open: availabilities_reversed, call }),
    ("a refused opening leaves a run of plan T", Host { open: refusal_opens, call }),
];

fn started_as_loaded(run: &mut Held, c: Call) -> HostReply {
    window(run).for_each(|place| change_byte(&mut place[2], 6, |phase| phase.min(1)));
    call(run, c)
}

fn exchange_ends(run: &mut Held) {
    window(run).for_each(|place| place.swap(0, 1));
}

fn ends_first(opening: &Opening) -> Box<HeldOpened> {
    let mut opened = open(opening);
    exchange_ends(&mut opened.run);
    opened
}

fn ends_first_after(run: &mut Held, c: Call) -> HostReply {
    let is_stopped = halt(run) > 0;
    let reply = call(run, c);
    if reply.kind != 5 && !is_stopped {
        exchange_ends(run);
    }
    reply
}

fn ask_unstored(run: &mut Held, c: Call) -> HostReply {
    match c.request {
        Request::Ask => call(&mut run.clone(), c),
        _ => call(run, c),
    }
}

fn refusal_stores(run: &mut Held, c: Call) -> HostReply {
    let reply = call(run, c);
    if reply.kind == 5 {
        *last(run) = c.reading;
    }
    reply
}

fn outcome_as_node(run: &mut Held, c: Call) -> HostReply {
    let request = match c.request {
        Request::Outcome { position, node, outcome } => {
            Request::Outcome { position, node: outcome, outcome: node }
        }
        other => other,
    };
    call(run, Call { request, ..c })
}

fn done_as_wait(run: &mut Held, c: Call) -> HostReply {
    let reply = call(run, c);
    let kind = match reply.kind {
        2 => 3,
        3 => 2,
        kind => kind,
    };
    HostReply { kind, ..reply }
}

fn opened_t() -> Box<HeldOpened> {
    open(&Opening { plan: plan_t(), psi: 1_000_000, slack: 500, availabilities: vec![0, 0] })
}

fn keeps_window(opening: &Opening) -> Box<HeldOpened> {
    let (mut opened, mut other) = (open(opening), opened_t());
    window(&mut opened.run).zip(window(&mut other.run)).for_each(|(place, old)| place.copy_from_slice(old));
    opened
}

fn stop_forgotten(run: &mut Held, c: Call) -> HostReply {
    go_on(run);
    call(run, c)
}

fn reading_unstored(run: &mut Held, c: Call) -> HostReply {
    let before = *last(run);
    let reply = call(run, c);
    *last(run) = before;
    reply
}

fn outcome_forgotten(run: &mut Held, c: Call) -> HostReply {
    pending(run).for_each(|instance| change_byte(&mut instance[1], 5, |_| 0));
    call(run, c)
}

fn completion_as_outcome(run: &mut Held, c: Call) -> HostReply {
    let request = match c.request {
        Request::Completion { position, node } => Request::Outcome { position, node, outcome: 0 },
        other => other,
    };
    call(run, Call { request, ..c })
}

fn node_as_activity(run: &mut Held, c: Call) -> HostReply {
    let reply = call(run, c);
    HostReply { activity: reply.node, node: reply.activity, ..reply }
}

fn activity_as_number(run: &mut Held, c: Call) -> HostReply {
    let reply = call(run, c);
    HostReply { number: reply.number.max(reply.activity), ..reply }
}

fn stop_without_node(run: &mut Held, c: Call) -> HostReply {
    let reply = call(run, c);
    match reply.kind {
        6 => HostReply { position: 0, node: 0, ..reply },
        _ => reply,
    }
}

fn refusal_without_place(opening: &Opening) -> Box<HeldOpened> {
    let mut opened = open(opening);
    opened.reply.place = 0;
    opened
}

fn availabilities_reversed(opening: &Opening) -> Box<HeldOpened> {
    let availabilities = opening.availabilities.iter().rev().copied().collect();
    open(&Opening { availabilities, ..opening.clone() })
}

fn refusal_opens(opening: &Opening) -> Box<HeldOpened> {
    let mut opened = open(opening);
    if opened.reply.kind == 5 {
        opened.run = opened_t().run;
    }
    opened
}
