//! The functions that a host links, over a run that it keeps from one call to the next.

use crate::drive::{calls_among, decode, record, RECORD};
use crate::run::{Call, Opening, Request};
use numbers::RUN_SIZE;

#[allow(dead_code)]
#[path = "../../../host/rust/src/numbers.rs"]
mod numbers;

/// A run as numbers, of which every value is one.
#[repr(C)]
#[derive(Clone, Debug, PartialEq, Eq)]
pub struct Held(pub [u64; RUN_SIZE / 8]);

/// Declared here as well as in host/rust: the comparison is an account of its own, and links the verdict by another name.
#[repr(C)]
#[derive(Clone, Copy, Debug, PartialEq, Eq)]
pub struct HostReply {
    pub place: u64,
    pub position: u32,
    pub kind: u8,
    pub number: u8,
    pub activity: u8,
    pub node: u8,
}

#[repr(C)]
#[derive(Clone, Debug)]
pub struct HeldOpened {
    pub run: Held,
    pub reply: HostReply,
}

mod linked {
    use super::{Held, HeldOpened, HostReply};

    extern "C" {
        /// jidlekuvo_judge, by the name that build.rs gives it.
        pub fn jidlekuvo_host_judge(bytes: *const u8, length: usize) -> u64;
        pub fn jidlekuvo_open(
            plan: *const u8,
            length: usize,
            psi: u64,
            slack: u64,
            available: *const u64,
            count: usize,
        ) -> HeldOpened;
        pub fn jidlekuvo_ask(run: *mut Held, reading: u64) -> HostReply;
        pub fn jidlekuvo_completion(run: *mut Held, reading: u64, position: u32, node: u8) -> HostReply;
        pub fn jidlekuvo_outcome(
            run: *mut Held,
            reading: u64,
            position: u32,
            node: u8,
            outcome: u8,
        ) -> HostReply;
    }
}

/// The whole verdict: 0, or number * 2^32 + place.
pub fn judge(bytes: &[u8]) -> u64 {
    // SAFETY: the function reads the slice it is lent and nothing else.
    unsafe { linked::jidlekuvo_host_judge(bytes.as_ptr(), bytes.len()) }
}

/// The opening's answer goes straight to its place on the heap.
pub fn open(opening: &Opening) -> Box<HeldOpened> {
    let (plan, available) = (&opening.plan, &opening.availabilities);
    let mut opened = Box::new_uninit();
    // SAFETY: the function reads the two slices; the box is written before it is used.
    unsafe {
        opened.write(linked::jidlekuvo_open(
            plan.as_ptr(),
            plan.len(),
            opening.psi,
            opening.slack,
            available.as_ptr(),
            available.len(),
        ));
        opened.assume_init()
    }
}

pub fn call(run: &mut Held, call: Call) -> HostReply {
    let reading = call.reading;
    // SAFETY: the run is lent to the call, which reads and writes it and nothing else.
    unsafe {
        match call.request {
            Request::Ask => linked::jidlekuvo_ask(run, reading),
            Request::Completion { position, node } => {
                linked::jidlekuvo_completion(run, reading, position, node)
            }
            Request::Outcome { position, node, outcome } => {
                linked::jidlekuvo_outcome(run, reading, position, node, outcome)
            }
        }
    }
}

/// A reply as a record of `drive`, whose second byte is the activity of a start and the number of others. What should be 0
/// stands in the fourth byte, which is 0 in every record.
fn record_of(reply: HostReply) -> [u8; RECORD] {
    let (second, nothing) = match reply.kind {
        1 => (reply.activity, reply.number),
        _ => (reply.number, reply.activity),
    };
    let mut record = record(reply.kind, second, reply.node, reply.position, reply.place);
    record[3] = nothing;
    record
}

/// What opens runs and calls them; a test puts wrong ones in the place of those linked.
#[derive(Clone, Copy)]
pub struct Host {
    pub open: fn(&Opening) -> Box<HeldOpened>,
    pub call: fn(&mut Held, Call) -> HostReply,
}

pub const LINKED: Host = Host { open, call };

impl Host {
    /// The records of an opening and calls, each call given the run that the one before left.
    pub fn records(self, opening: &Opening, calls: &[Call]) -> Vec<u8> {
        let mut opened = (self.open)(opening);
        let mut records = vec![record_of(opened.reply)];
        records.extend(calls.iter().map(|&call| record_of((self.call)(&mut opened.run, call))));
        records.into_flattened()
    }
}

/// Where records of an input without questions differ from those that others gave, if they do.
pub fn difference(host: Host, input: &[u8], records: &[u8]) -> Option<String> {
    let (opening, parts) = decode(input)?;
    let theirs = host.records(&opening, &calls_among(&parts));
    let at = theirs.chunks(RECORD).zip(records.chunks(RECORD)).position(|(their, our)| their != our);
    let Some(at) = at else {
        return (theirs.len() != records.len()).then(|| "another number of records".to_string());
    };
    let told = |records: &[u8]| records[at * RECORD..][..RECORD].to_vec();
    Some(format!("record {at} (0 is the opening): {:?}, for a host {:?}", told(records), told(&theirs)))
}

/// The records of an input without questions, in the form of `drive`.
pub fn drive(input: &[u8], out: &mut [u8]) -> usize {
    let Some((opening, parts)) = decode(input) else { return 0 };
    let records = LINKED.records(&opening, &calls_among(&parts));
    out[..records.len()].copy_from_slice(&records);
    records.len()
}
