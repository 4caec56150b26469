//! A plan as text, hexadecimal or binary, from a file or the standard input.

use crate::names::Names;
use crate::proved;
use crate::text::{self, TextFault, LONGEST_TEXT};
use jidlekuvo_reference::plan_file::encode;
use std::fs::File;
use std::io::{self, Read};

/// A plan's bytes with the names that belong to them, and the text where it came as text.
#[derive(Clone, Debug, Default)]
pub struct Source {
    pub bytes: Vec<u8>,
    pub names: Names,
    pub text: Option<String>,
}

/// What a file is. A plan file begins with a byte from 10 to 1F (hexadecimal), which stands in no text: so a file
/// without control characters is text, and one of hexadecimal digits alone (and comments) is hexadecimal.
#[derive(Clone, Debug, PartialEq, Eq)]
pub enum Content {
    Text(String),
    Bytes(Vec<u8>),
}

/// The content of a file; `name` is for the message.
pub fn content(name: &str) -> Result<Content, String> {
    let mut bytes = Vec::new();
    let most = LONGEST_TEXT as u64 + 1;
    let read = match name {
        "-" => io::stdin().take(most).read_to_end(&mut bytes),
        _ => File::open(name).and_then(|file| file.take(most).read_to_end(&mut bytes)),
    };
    read.map_err(|why| format!("{name}: {why}"))?;
    recognised(bytes).map_err(|why| format!("{name}: {why}"))
}

/// Text, hexadecimal or binary.
pub fn recognised(bytes: Vec<u8>) -> Result<Content, String> {
    if bytes.len() > LONGEST_TEXT {
        return Err(format!("longer than {LONGEST_TEXT} bytes, which no plan and no text of one needs"));
    }
    let is_text = |c: char| !c.is_control() || matches!(c, '\t' | '\r' | '\n');
    let text = match String::from_utf8(bytes) {
        Ok(text) if !text.is_empty() && text.chars().all(is_text) => text,
        Ok(text) => return Ok(Content::Bytes(text.into_bytes())),
        Err(not_text) => return Ok(Content::Bytes(not_text.into_bytes())),
    };
    let said = text.lines().map(|line| line.split('#').next().unwrap_or(""));
    let digits: Vec<u8> = said.flat_map(str::bytes).filter(|c| !c.is_ascii_whitespace()).collect();
    if digits.is_empty() || !digits.iter().all(u8::is_ascii_hexdigit) {
        return Ok(Content::Text(text));
    }
    if digits.len() % 2 == 1 {
        return Err(format!("an odd number of hexadecimal digits, {}", digits.len()));
    }
    let value = |c: u8| (c as char).to_digit(16).expect("a digit") as u8;
    Ok(Content::Bytes(digits.chunks(2).map(|pair| 16 * value(pair[0]) + value(pair[1])).collect()))
}

/// The plan of a file, with the names of another text where one is given.
pub fn load(name: &str, names: Option<&str>) -> Result<Source, String> {
    let mut source = match content(name)? {
        Content::Bytes(bytes) => Source { bytes, ..Source::default() },
        Content::Text(text) => from_text(text).map_err(|why| format!("{name}: {why}"))?,
    };
    if let Some(other) = names {
        source.names = names_of(other)?;
    }
    Ok(source)
}

/// The names that a text gives.
fn names_of(name: &str) -> Result<Names, String> {
    match content(name)? {
        Content::Text(text) => {
            from_text(text).map(|source| source.names).map_err(|why| format!("{name}: {why}"))
        }
        Content::Bytes(_) => Err(format!("{name}: names come from a text, and this is none")),
    }
}

/// The plan of a text. Its bytes must read: the proved reader is asked.
pub fn from_text(text: String) -> Result<Source, String> {
    let named = text::parse(&text).map_err(|fault| shown(&text, &fault))?;
    let bytes = encode(&named.plan);
    if let Some(fault) = proved::read(&bytes) {
        return Err(format!("its bytes do not read: {} {}", fault.number, fault.place));
    }
    Ok(Source { bytes, names: named.names, text: Some(text) })
}

/// A text fault with its line and a mark under the column.
fn shown(text: &str, fault: &TextFault) -> String {
    let line = text.lines().nth(fault.line - 1).unwrap_or("");
    let before = line.chars().take(fault.column - 1).map(|c| if c == '\t' { '\t' } else { ' ' });
    match line.chars().count() {
        0 | 200.. => fault.to_string(),
        _ => format!("{fault}\n  {line}\n  {}^", before.collect::<String>()),
    }
}
