//! The plan that a command is asked about: binary or hexadecimal, from a file, a pipe or the standard input. No plan has
//! more than 34,433 bytes, so one byte more settles the verdict of any longer file, and no more are kept.

use crate::descriptors::is_open;
use crate::hexadecimal::{is_white, Digits, NotHexadecimal};
use crate::toggles::{broken, Broken};
use std::ffi::OsStr;
use std::fs::File;
use std::io::{self, ErrorKind, Read};

/// One byte more than the longest plan has.
pub const KEPT: usize = 34_434;

fn kept() -> usize {
    KEPT - usize::from(broken(Broken::KeepsOneByteLess))
}

/// The plan's bytes, or why there are none.
pub fn plan(name: &OsStr) -> Result<Vec<u8>, String> {
    let told = |why: String| format!("{}: {why}", name.to_string_lossy());
    let mut from = open(name).map_err(|why| told(in_words(&why)))?;
    let head = up_to(&mut from, kept()).map_err(|why| told(in_words(&why)))?;
    match is_text(&head).map_err(|why| told(why.to_string()))? {
        true => hexadecimal(&head, from).map_err(told),
        false => Ok(head),
    }
}

fn open(name: &OsStr) -> io::Result<Box<dyn Read>> {
    if name == "-" && !broken(Broken::DashIsAFile) {
        is_open(0)?;
        return Ok(Box::new(io::stdin().lock()));
    }
    Ok(Box::new(File::open(name)?))
}

fn in_words(why: &io::Error) -> String {
    match why.kind() {
        ErrorKind::NotFound => "no such file".into(),
        ErrorKind::PermissionDenied => "it cannot be read".into(),
        _ if why.raw_os_error() == Some(21) && !broken(Broken::DirectoryIsNoFile) => "is a directory".into(),
        _ if broken(Broken::DirectoryIsNoFile) => "no such file".into(),
        _ => why.to_string(),
    }
}

/// The first bytes, at most so many.
fn up_to(from: &mut dyn Read, most: usize) -> io::Result<Vec<u8>> {
    let most = if broken(Broken::ReadsToTheEnd) { u64::MAX } else { most as u64 };
    let mut bytes = Vec::new();
    from.take(most).read_to_end(&mut bytes)?;
    Ok(bytes)
}

/// Whether a file that begins so is text: UTF-8 without control characters but white space. A plan begins with a byte from
/// 10 to 1F (hexadecimal), which is a control character, so no plan is text. A byte order mark begins a text and no plan.
fn is_text(head: &[u8]) -> Result<bool, NotHexadecimal> {
    if broken(Broken::OnlyPureDigitsAreText) && !head.iter().all(|b| b.is_ascii_hexdigit() || is_white(*b)) {
        return Ok(false);
    }
    let marks: [&[u8]; 3] = [b"\xEF\xBB\xBF", b"\xFF\xFE", b"\xFE\xFF"];
    if marks.iter().any(|mark| head.starts_with(mark)) {
        return Err(NotHexadecimal { line: 1, column: 1, why: "a byte order mark is no digit".into() });
    }
    let text = match std::str::from_utf8(head) {
        Ok(text) => text,
        // the last character may be cut where the file goes on
        Err(why) if why.error_len().is_none() && head.len() == kept() => {
            std::str::from_utf8(&head[..why.valid_up_to()]).expect("it is valid up to there")
        }
        Err(_) => return Ok(false),
    };
    let is_character = |c: char| !c.is_control() || c.is_ascii() && is_white(c as u8);
    Ok(!text.is_empty() && text.chars().all(is_character))
}

/// The bytes of a hexadecimal text, of which the beginning is already there.
fn hexadecimal(head: &[u8], mut rest: Box<dyn Read>) -> Result<Vec<u8>, String> {
    let mut digits = Digits::default();
    let mut piece = head.to_vec();
    loop {
        digits.take(&piece, kept()).map_err(|why| why.to_string())?;
        if piece.is_empty() || digits.bytes.len() == kept() {
            return digits.end().map_err(|why| why.to_string());
        }
        piece = up_to(&mut rest, kept()).map_err(|why| in_words(&why))?;
    }
}
