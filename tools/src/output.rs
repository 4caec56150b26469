//! Where an answer goes: the standard output, or a file that is written under another name first, so that a command
//! that fails leaves the old file as it was.

use std::fs::{remove_file, rename, File};
use std::io::{self, BufWriter, Write};
use std::path::{Path, PathBuf};

pub struct Output {
    /// The name in use while it is written, and the one it gets at the end.
    file: Option<(PathBuf, PathBuf)>,
    to: Box<dyn Write>,
}

impl Output {
    pub fn open(name: Option<&str>) -> Result<Output, String> {
        let Some(name) = name else {
            return Ok(Output { file: None, to: Box::new(BufWriter::new(io::stdout())) });
        };
        let unfinished = PathBuf::from(format!("{name}.{}.unfinished", std::process::id()));
        let file = File::create(&unfinished).map_err(|why| format!("{name}: {why}"))?;
        let names = (unfinished, Path::new(name).to_path_buf());
        Ok(Output { file: Some(names), to: Box::new(BufWriter::new(file)) })
    }

    /// Writes out what is left and gives the file its name.
    pub fn finish(mut self) -> Result<(), String> {
        self.to.flush().map_err(|why| why.to_string())?;
        match self.file.take() {
            Some((unfinished, name)) => {
                rename(unfinished, &name).map_err(|why| format!("{}: {why}", name.display()))
            }
            None => Ok(()),
        }
    }
}

impl Write for Output {
    fn write(&mut self, bytes: &[u8]) -> io::Result<usize> {
        self.to.write(bytes)
    }

    fn flush(&mut self) -> io::Result<()> {
        self.to.flush()
    }
}

impl Drop for Output {
    fn drop(&mut self) {
        if let Some((unfinished, _)) = &self.file {
            let _ = remove_file(unfinished);
        }
    }
}
