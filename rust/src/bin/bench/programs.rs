//! Rows about the program *timetable*. This binary stands for the Rust build's, with the argument `AS_PROGRAM`.

use crate::rows::Row;
use jidlekuvo_reference::compare::rattle;
use jidlekuvo_reference::generate::plan_t;
use jidlekuvo_reference::timetable;
use std::fs::File;
use std::io::{Read, Result, Write};
use std::path::PathBuf;
use std::process::{Command, Stdio};
use std::time::Instant;

pub const AS_PROGRAM: &str = "--as-timetable";
const TIMES: usize = 9;

/// The Rust build's program.
pub fn print_timetable() -> Result<()> {
    let mut input = Vec::new();
    std::io::stdin().read_to_end(&mut input)?;
    std::io::stdout().write_all(timetable::timetable(&input).as_bytes())
}

/// Plan T with outcomes for so many positions, as a file that goes with this value.
pub struct Input {
    path: PathBuf,
}

impl Input {
    pub fn of_positions(positions: usize) -> Result<Input> {
        let plan = plan_t();
        let mut bytes = (plan.len() as u16).to_le_bytes().to_vec();
        bytes.extend(&plan);
        bytes.extend(vec![0; positions - 2]);
        bytes.push(1);
        let path = Input::path_of(&positions.to_string());
        File::create(&path)?.write_all(&bytes)?;
        Ok(Input { path })
    }

    /// A file of this process.
    pub fn path_of(name: &str) -> PathBuf {
        std::env::temp_dir().join(format!("jidlekuvo-bench-{}-{name}", std::process::id()))
    }

    pub fn open(&self) -> Result<Stdio> {
        Ok(File::open(&self.path)?.into())
    }
}

impl Drop for Input {
    fn drop(&mut self) {
        let _ = std::fs::remove_file(&self.path);
    }
}

fn rust_program() -> Option<Command> {
    let mut program = Command::new(std::env::current_exe().ok()?);
    program.arg(AS_PROGRAM);
    Some(program)
}

pub fn rattle_program() -> Option<Command> {
    let program = rattle::target_folder().join("bin/timetable");
    program.exists().then(|| Command::new(program))
}

/// The layout of the C library's `struct rusage` on 64-bit Linux.
#[repr(C)]
#[derive(Default)]
struct Usage {
    user: [i64; 2],
    system: [i64; 2],
    others: [i64; 14],
}

extern "C" {
    fn getrusage(who: i32, usage: *mut Usage) -> i32;
}

/// Processor seconds of the child processes that have ended.
fn seconds_of_children() -> f64 {
    let mut usage = Usage::default();
    // SAFETY: the structure has the size and the fields that the function writes.
    assert_eq!(unsafe { getrusage(-1, &mut usage) }, 0);
    let seconds = |time: [i64; 2]| time[0] as f64 + time[1] as f64 / 1e6;
    seconds(usage.user) + seconds(usage.system)
}

/// Processor seconds of a program whose text is thrown away.
fn processor_seconds(program: &mut Command, input: &Input) -> Result<f64> {
    let before = seconds_of_children();
    let status = program.stdin(input.open()?).stdout(Stdio::null()).status()?;
    assert!(status.success());
    Ok(seconds_of_children() - before)
}

/// Seconds from the start of a program until the first row after the heading can be read; the rest is cut off.
fn seconds_to_first_row(program: &mut Command, input: &Input) -> Result<f64> {
    let (stdin, mut text) = (input.open()?, Vec::<u8>::new());
    let began = Instant::now();
    let mut child = program.stdin(stdin).stdout(Stdio::piped()).spawn()?;
    let mut stdout = child.stdout.take().expect("stdout is piped");
    let mut room = [0; 4096];
    while text.iter().filter(|&&byte| byte == b'\n').count() < 2 {
        let count = stdout.read(&mut room)?;
        assert!(count > 0, "the text ends before its first row");
        text.extend(&room[..count]);
    }
    let took = began.elapsed().as_secs_f64();
    child.kill()?;
    child.wait()?;
    Ok(took)
}

/// The least microseconds of both programs, one after the other, for each unit.
fn least(
    name: &str,
    input: &Input,
    units: f64,
    measure: fn(&mut Command, &Input) -> Result<f64>,
) -> Result<Row> {
    let mut programs = [rust_program(), rattle_program()];
    let mut least = [None, None];
    for _ in 0..TIMES {
        for (program, least) in programs.iter_mut().zip(&mut least) {
            let Some(program) = program else { continue };
            let again = measure(program, input)? * 1e6 / units;
            *least = Some(least.map_or(again, |before: f64| before.min(again)));
        }
    }
    Ok(Row::new(name, least[0], least[1]))
}

/// A position of a timetable of 10^4, 10^5 and 10^6 of them, and the first row of the longest.
pub fn rows(tell: &mut dyn FnMut(Row)) -> Result<()> {
    for positions in [10_000, 100_000, 1_000_000] {
        let name = format!("timetable of T over {positions} positions, one of them");
        tell(least(&name, &Input::of_positions(positions)?, positions as f64, processor_seconds)?);
    }
    let input = Input::of_positions(1_000_000)?;
    tell(least("the first row of 1000000 positions, from the start", &input, 1.0, seconds_to_first_row)?);
    Ok(())
}
