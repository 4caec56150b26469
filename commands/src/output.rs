//! The standard output, where a write that fails is told and not lost.

use crate::descriptors::is_open;
use crate::toggles::{broken, Broken};
use std::fs::File;
use std::io::{self, Write};
use std::os::fd::AsFd;

pub struct Output(File);

fn told(why: io::Error) -> String {
    format!("the output cannot be written: {why}")
}

impl Output {
    /// The standard output without a buffer: what is put is written at once.
    pub fn standard() -> Result<Output, String> {
        if !broken(Broken::ClosedOutputTaken) {
            is_open(1).map_err(told)?;
        }
        io::stdout().as_fd().try_clone_to_owned().map(|own| Output(File::from(own))).map_err(told)
    }

    pub fn put(&mut self, bytes: &[u8]) -> Result<(), String> {
        match self.0.write_all(bytes).map_err(told) {
            Err(_) if broken(Broken::WriteFailureIgnored) => Ok(()),
            answer => answer,
        }
    }
}
