//! The functions of the Rattle side, each behind the feature that says it is there. A slice
//! passes as pointer and length.

#[cfg(any(
    feature = "rattle_read",
    feature = "rattle_write_back",
    feature = "rattle_activities",
    feature = "rattle_judge",
    feature = "rattle_drive",
    feature = "rattle_link",
    feature = "rattle_made_up",
    feature = "rattle_timetable"
))]
mod linked {
    extern "C" {
        #[cfg(feature = "rattle_read")]
        pub fn jidlekuvo_read(bytes: *const u8, length: usize) -> u64;
        #[cfg(feature = "rattle_write_back")]
        pub fn jidlekuvo_write_back(bytes: *const u8, length: usize, out: *mut u8, room: usize) -> u64;
        #[cfg(feature = "rattle_activities")]
        pub fn jidlekuvo_activities(bytes: *const u8, length: usize) -> u64;
        #[cfg(feature = "rattle_judge")]
        pub fn jidlekuvo_judge(bytes: *const u8, length: usize) -> u64;
        #[cfg(feature = "rattle_drive")]
        pub fn jidlekuvo_drive(input: *const u8, length: usize, out: *mut u8, room: usize) -> usize;
        #[cfg(feature = "rattle_link")]
        pub fn jidlekuvo_link(input: *const u8, length: usize, out: *mut u8, room: usize) -> usize;
        #[cfg(feature = "rattle_link")]
        pub fn jidlekuvo_message(way: u8, input: *const u8, length: usize, out: *mut u8, room: usize) -> u64;
        #[cfg(feature = "rattle_link")]
        pub fn jidlekuvo_send(way: u8, fields: *const u8, length: usize, out: *mut u8, room: usize) -> u64;
        #[cfg(feature = "rattle_made_up")]
        pub fn jidlekuvo_made_up(bytes: *const u8, length: usize, out: *mut u8, room: usize) -> usize;
        #[cfg(feature = "rattle_timetable")]
        pub fn jidlekuvo_timetable(input: *const u8, length: usize, out: *mut u8, room: usize) -> usize;
    }
}

/// Reading alone: 0, or number * 2^32 + place.
#[cfg(feature = "rattle_read")]
pub fn read(bytes: &[u8]) -> u64 {
    // SAFETY: the function reads the slice it is lent and nothing else.
    unsafe { linked::jidlekuvo_read(bytes.as_ptr(), bytes.len()) }
}

/// Reading and writing back: the length written, or number * 2^32 + place.
#[cfg(feature = "rattle_write_back")]
pub fn write_back(bytes: &[u8], out: &mut [u8]) -> u64 {
    // SAFETY: the function reads one slice and writes inside the other.
    unsafe { linked::jidlekuvo_write_back(bytes.as_ptr(), bytes.len(), out.as_mut_ptr(), out.len()) }
}

/// Reading and the activities: 0, or number * 2^32 + place.
#[cfg(feature = "rattle_activities")]
pub fn activities(bytes: &[u8]) -> u64 {
    // SAFETY: the function reads the slice it is lent and nothing else.
    unsafe { linked::jidlekuvo_activities(bytes.as_ptr(), bytes.len()) }
}

/// The whole verdict: 0, or number * 2^32 + place.
#[cfg(feature = "rattle_judge")]
pub fn judge(bytes: &[u8]) -> u64 {
    // SAFETY: the function reads the slice it is lent and nothing else.
    unsafe { linked::jidlekuvo_judge(bytes.as_ptr(), bytes.len()) }
}

/// An opening and its calls: how many bytes of records were written, or 36 * 2^32.
#[cfg(feature = "rattle_drive")]
pub fn drive(input: &[u8], out: &mut [u8]) -> usize {
    // SAFETY: the function reads one slice and writes inside the other.
    unsafe { linked::jidlekuvo_drive(input.as_ptr(), input.len(), out.as_mut_ptr(), out.len()) }
}

/// An opening and messages: how many bytes of answers were written, or 36 * 2^32.
#[cfg(feature = "rattle_link")]
pub fn link(input: &[u8], out: &mut [u8]) -> usize {
    // SAFETY: the function reads one slice and writes inside the other.
    unsafe { linked::jidlekuvo_link(input.as_ptr(), input.len(), out.as_mut_ptr(), out.len()) }
}

/// A message read and written back, to the board (0) or to the host: its length, or number * 2^32.
#[cfg(feature = "rattle_link")]
pub fn message(way: u8, input: &[u8], out: &mut [u8]) -> u64 {
    // SAFETY: the function reads one slice and writes inside the other.
    unsafe { linked::jidlekuvo_message(way, input.as_ptr(), input.len(), out.as_mut_ptr(), out.len()) }
}

/// A message written from its fields, to the board (0) or to the host: its length, or number * 2^32.
#[cfg(feature = "rattle_link")]
pub fn send(way: u8, fields: &[u8], out: &mut [u8]) -> u64 {
    // SAFETY: the function reads one slice and writes inside the other.
    unsafe { linked::jidlekuvo_send(way, fields.as_ptr(), fields.len(), out.as_mut_ptr(), out.len()) }
}

/// Two calls of a made-up run: how many bytes of records were written, or number * 2^32.
#[cfg(feature = "rattle_made_up")]
pub fn made_up(bytes: &[u8], out: &mut [u8]) -> usize {
    // SAFETY: the function reads one slice and writes inside the other.
    unsafe { linked::jidlekuvo_made_up(bytes.as_ptr(), bytes.len(), out.as_mut_ptr(), out.len()) }
}

/// The timetable of an input: the text's length, or 36 * 2^32.
#[cfg(feature = "rattle_timetable")]
pub fn timetable_into(input: &[u8], out: &mut [u8]) -> usize {
    // SAFETY: the function reads one slice and writes inside the other.
    unsafe { linked::jidlekuvo_timetable(input.as_ptr(), input.len(), out.as_mut_ptr(), out.len()) }
}

/// Where the Rattle side is built: the repository's target folder, or JIDLEKUVO_TARGET.
pub fn target_folder() -> std::path::PathBuf {
    match std::env::var_os("JIDLEKUVO_TARGET") {
        Some(folder) => folder.into(),
        None => std::path::Path::new(env!("CARGO_MANIFEST_DIR")).join("../target"),
    }
}

/// So many bytes go into an empty pipe without waiting, on Linux.
const HELD_BY_A_PIPE: usize = 65_536;

/// Runs the program *timetable* on an input and gives what it prints.
pub fn timetable(input: &[u8]) -> std::io::Result<Vec<u8>> {
    use std::io::Write;
    use std::process::{Command, Stdio};
    let program = target_folder().join("bin/timetable");
    let mut child = Command::new(program).stdin(Stdio::piped()).stdout(Stdio::piped()).spawn()?;
    let mut stdin = child.stdin.take().expect("stdin is piped");
    // The program need not read its input to the end (spare outcomes are not read), so a broken pipe
    // is no fault. Input and output may both be longer than a pipe holds.
    if input.len() <= HELD_BY_A_PIPE {
        drop(stdin.write_all(input));
        drop(stdin);
        return Ok(child.wait_with_output()?.stdout);
    }
    let lent = input.to_vec();
    let feeder = std::thread::spawn(move || drop(stdin.write_all(&lent)));
    let output = child.wait_with_output()?;
    let _ = feeder.join();
    Ok(output.stdout)
}
