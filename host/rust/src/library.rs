//! The functions of the library. All unsafe code of the package is here.

use crate::numbers::{ABI, RUN_SIZE};

/// A run as the library keeps it: numbers without padding, of which every value is a run. What they mean is its own.
#[repr(C)]
struct Held([u64; RUN_SIZE / 8]);

/// The kinds of replies.
pub mod kind {
    pub const OPENED: u8 = 0;
    pub const START: u8 = 1;
    pub const WAIT: u8 = 2;
    pub const DONE: u8 = 3;
    pub const TAKEN: u8 = 4;
    pub const REFUSED: u8 = 5;
    pub const STOPPED: u8 = 6;
}

/// A reply; a field that its kind does not use is 0.
#[repr(C)]
#[derive(Clone, Copy, Debug, PartialEq, Eq)]
pub struct HostReply {
    pub place: u64,
    pub position: u32,
    pub kind: u8,
    pub number: u8,
    pub activity: u8,
    pub node: u8,
}

/// The answer to an opening; the run is used where it stands.
#[repr(C)]
pub struct Opened {
    run: Held,
    reply: HostReply,
}

const _: () = assert!(size_of::<Held>() == RUN_SIZE && align_of::<Held>() == 8);
const _: () = assert!(size_of::<HostReply>() == 16 && size_of::<Opened>() == RUN_SIZE + 16);

extern "C" {
    fn jidlekuvo_abi() -> u32;
    fn jidlekuvo_judge(plan: *const u8, plan_length: usize) -> u64;
    fn jidlekuvo_open(
        plan: *const u8,
        plan_length: usize,
        psi: u64,
        slack: u64,
        available: *const u64,
        available_length: usize,
    ) -> Opened;
    fn jidlekuvo_ask(run: *mut Held, reading: u64) -> HostReply;
    fn jidlekuvo_completion(run: *mut Held, reading: u64, position: u32, node: u8) -> HostReply;
    fn jidlekuvo_outcome(run: *mut Held, reading: u64, position: u32, node: u8, outcome: u8) -> HostReply;
}

pub fn judge(plan: &[u8]) -> u64 {
    // SAFETY: the slice is as long as is said, and lent for the call.
    unsafe { jidlekuvo_judge(plan.as_ptr(), plan.len()) }
}

/// Panics where the library that is linked has runs of another form than this package.
fn check_abi() {
    // SAFETY: it takes nothing and reads nothing.
    let linked = unsafe { jidlekuvo_abi() };
    assert!(
        linked == ABI,
        "the library's runs have form {linked}, this package's form {ABI}: link the library made with it"
    );
}

/// The library writes the answer to where it is told; in an optimised build that is the box.
pub fn open(plan: &[u8], psi: u64, slack: u64, available: &[u64]) -> Box<Opened> {
    check_abi();
    let mut opened = Box::new_uninit();
    // SAFETY: both slices are as long as is said, and lent for the call; the box is written before it is used.
    unsafe {
        opened.write(jidlekuvo_open(
            plan.as_ptr(),
            plan.len(),
            psi,
            slack,
            available.as_ptr(),
            available.len(),
        ));
        opened.assume_init()
    }
}

/// SAFETY of the calls: the run is initialised, aligned by its type, and borrowed by this call alone.
impl Opened {
    pub fn reply(&self) -> HostReply {
        self.reply
    }

    pub fn ask(&mut self, reading: u64) -> HostReply {
        unsafe { jidlekuvo_ask(&mut self.run, reading) }
    }

    pub fn completion(&mut self, reading: u64, position: u32, node: u8) -> HostReply {
        unsafe { jidlekuvo_completion(&mut self.run, reading, position, node) }
    }

    pub fn outcome(&mut self, reading: u64, position: u32, node: u8, outcome: u8) -> HostReply {
        unsafe { jidlekuvo_outcome(&mut self.run, reading, position, node, outcome) }
    }
}
