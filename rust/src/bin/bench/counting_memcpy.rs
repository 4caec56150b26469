//! A shared library of its own, which `rust/copies` compiles and loads before the C library: its `memcpy` counts calls by
//! caller and size. x86-64 Linux only. Copies that the compiler writes out in place make no call and are not seen.

use std::arch::{asm, naked_asm};
use std::ffi::c_char;
use std::io::Write;
use std::sync::atomic::{AtomicUsize, Ordering::Relaxed};

/// Calls from one place with one size.
struct Copies {
    caller: AtomicUsize,
    size: AtomicUsize,
    calls: AtomicUsize,
}

impl Copies {
    const NONE: Copies =
        Copies { caller: AtomicUsize::new(0), size: AtomicUsize::new(0), calls: AtomicUsize::new(0) };

    fn is_of(&self, caller: usize, size: usize) -> bool {
        self.caller.load(Relaxed) == caller && self.size.load(Relaxed) == size
    }
}

const ROOM: usize = 1 << 14;
static SEEN: [Copies; ROOM] = [const { Copies::NONE }; ROOM];

/// # Safety
/// As for C's `memcpy`.
#[no_mangle]
#[unsafe(naked)]
pub unsafe extern "C" fn memcpy(to: *mut u8, from: *const u8, size: usize) -> *mut u8 {
    // a fourth argument: where this call returns to
    naked_asm!("mov rcx, [rsp]", "jmp {}", sym counted)
}

unsafe extern "C" fn counted(to: *mut u8, from: *const u8, size: usize, caller: usize) -> *mut u8 {
    count(caller, size);
    // SAFETY: the caller of `memcpy` answers for both ranges.
    asm!("rep movsb", inout("rcx") size => _, inout("rdi") to => _, inout("rsi") from => _, options(nostack));
    to
}

/// Looks for the place of the pair, or a free one, from where its numbers say.
fn count(caller: usize, size: usize) {
    let first = (caller.wrapping_mul(31) ^ size.wrapping_mul(0x9E37_79B1)) % ROOM;
    for place in SEEN[first..].iter().chain(&SEEN[..first]) {
        if place.caller.load(Relaxed) == 0 {
            place.size.store(size, Relaxed);
            place.caller.store(caller, Relaxed);
        }
        if place.is_of(caller, size) {
            place.calls.fetch_add(1, Relaxed);
            return;
        }
    }
    std::process::abort(); // no room is left; a message would copy
}

/// The C library's `Dl_info`.
#[repr(C)]
struct Object {
    file: *const c_char,
    base: usize,
    name: *const c_char,
    address: usize,
}

extern "C" {
    fn dladdr(address: usize, object: *mut Object) -> i32;
    fn getauxval(kind: u64) -> usize;
}

/// Where the file that holds an address is loaded.
fn base_of(address: usize) -> Option<usize> {
    let mut object = Object { file: std::ptr::null(), base: 0, name: std::ptr::null(), address: 0 };
    // SAFETY: the structure is the one that the function fills.
    let found = unsafe { dladdr(address, &mut object) };
    (found != 0).then_some(object.base)
}

const AT_ENTRY: u64 = 9;

/// Takes what the program itself has copied since the last time: the caller's offset in its file, size, calls.
///
/// # Safety
/// There is room for so many.
#[no_mangle]
pub unsafe extern "C" fn jidlekuvo_take_copies(out: *mut [usize; 3], room: usize) -> usize {
    let program = base_of(getauxval(AT_ENTRY));
    let mut taken = 0;
    for place in &SEEN {
        let (caller, calls) = (place.caller.load(Relaxed), place.calls.swap(0, Relaxed));
        if calls > 0 && base_of(caller) == program && taken < room {
            out.add(taken).write([caller - program.unwrap_or(0), place.size.load(Relaxed), calls]);
            taken += 1;
        }
    }
    taken
}

/// At the end of a program, what it has copied as lines in the file that JIDLEKUVO_COPIES names.
extern "C" fn tell() {
    let Some(path) = std::env::var_os("JIDLEKUVO_COPIES") else { return };
    let mut taken = vec![[0; 3]; ROOM];
    // SAFETY: there is room for all.
    let count = unsafe { jidlekuvo_take_copies(taken.as_mut_ptr(), ROOM) };
    let mut file = std::fs::File::create(path).expect("the file can be made");
    for [caller, size, calls] in &taken[..count] {
        writeln!(file, "{caller} {size} {calls}").expect("the file can be written");
    }
}

#[used]
#[link_section = ".fini_array"]
static AT_EXIT: extern "C" fn() = tell;
