//! Hexadecimal text, taken piece by piece: digits in pairs; white space and `#` comments are passed over.

use crate::toggles::{broken, Broken};
use std::fmt;

/// Where a text is not hexadecimal, from line 1 and column 1, and why.
#[derive(Debug, PartialEq, Eq)]
pub struct NotHexadecimal {
    pub line: usize,
    pub column: usize,
    pub why: String,
}

impl fmt::Display for NotHexadecimal {
    fn fmt(&self, to: &mut fmt::Formatter) -> fmt::Result {
        write!(to, "not hexadecimal: line {}, column {}: {}", self.line, self.column, self.why)
    }
}

/// White space between the digits.
pub fn is_white(byte: u8) -> bool {
    matches!(byte, b' ' | b'\t' | b'\r' | b'\n' | 0x0C)
}

/// What a text says so far.
pub struct Digits {
    pub bytes: Vec<u8>,
    /// The first digit of a pair.
    first: Option<u8>,
    is_comment: bool,
    line: usize,
    column: usize,
    /// Digits of the group between white space, and where the first group of an odd number ends.
    group: usize,
    odd: Option<(usize, usize)>,
}

impl Default for Digits {
    fn default() -> Digits {
        Digits { bytes: vec![], first: None, is_comment: false, line: 1, column: 0, group: 0, odd: None }
    }
}

impl Digits {
    /// Takes a piece of the text, but no more than gives `most` bytes.
    pub fn take(&mut self, text: &[u8], most: usize) -> Result<(), NotHexadecimal> {
        for &byte in text {
            if self.bytes.len() == most {
                break;
            }
            // the later bytes of a character in UTF-8 have its column
            self.column += usize::from(byte & 0xC0 != 0x80);
            self.one(byte)?;
        }
        Ok(())
    }

    fn one(&mut self, byte: u8) -> Result<(), NotHexadecimal> {
        let digit = (byte as char).to_digit(16);
        match (byte, digit) {
            (b'\n', _) => {
                self.end_group();
                (self.line, self.column, self.is_comment) = (self.line + 1, 0, false);
            }
            _ if self.is_comment => {}
            (_, Some(digit)) => self.digit(digit as u8),
            _ if is_white(byte) => self.end_group(),
            (b'#', _) if !broken(Broken::CommentIsNoText) => {
                self.end_group();
                self.is_comment = true;
            }
            _ => return Err(self.strange(byte)),
        }
        Ok(())
    }

    fn digit(&mut self, digit: u8) {
        self.group += 1;
        if broken(Broken::SlowDigits) {
            std::thread::sleep(std::time::Duration::from_micros(500));
        }
        match self.first.take() {
            None => self.first = Some(digit),
            Some(first) => self.bytes.push(16 * first + digit),
        }
    }

    /// A group of digits has ended before this column.
    fn end_group(&mut self) {
        if self.group % 2 == 1 && self.odd.is_none() {
            self.odd = Some((self.line, self.column - 1));
        }
        self.group = 0;
    }

    fn strange(&self, byte: u8) -> NotHexadecimal {
        let what = match byte.is_ascii_graphic() {
            true => format!("'{}'", byte as char),
            false => format!("the byte {byte:02X}"),
        };
        let column = self.column - usize::from(broken(Broken::ColumnFromZero));
        NotHexadecimal { line: self.line, column, why: format!("{what} is no digit") }
    }

    /// The end of the text: a digit that is left over is a fault.
    pub fn end(mut self) -> Result<Vec<u8>, NotHexadecimal> {
        if self.first.is_none() {
            return Ok(self.bytes);
        }
        self.column += 1;
        self.end_group();
        let (line, column) = self.odd.expect("an odd number of digits has an odd group");
        Err(NotHexadecimal { line, column, why: "a digit without its second".into() })
    }
}
