//! `judge PLAN`: the verdict of the proved library.

use jidlekuvo_commands::words::{command, verdict, Name};
use std::ffi::OsString;
use std::process::ExitCode;

extern "C" {
    /// 0, or number · 2^32 + place; a slice passes as pointer and length.
    fn jidlekuvo_judge(bytes: *const u8, length: usize) -> u64;
}

fn main() -> ExitCode {
    let words: Vec<OsString> = std::env::args_os().skip(1).collect();
    command(Name::Judge, &words, |asked, out| {
        // SAFETY: the function reads the slice it is lent and nothing else.
        verdict(unsafe { jidlekuvo_judge(asked.plan.as_ptr(), asked.plan.len()) }, out)
    })
}
