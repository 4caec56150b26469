//! Running a command, and holding what it says to what is wanted.

use std::fs::File;
use std::io::{Read, Write};
use std::os::fd::AsRawFd;
use std::process::{Child, ChildStdout, Command, ExitStatus, Stdio};
use std::thread::{self, JoinHandle};
use std::time::{Duration, Instant};

pub type Answer = Result<(), String>;

/// How a command ended and what it wrote; no status where it had to be ended, or was ended by a signal.
#[derive(Clone, Debug, PartialEq, Eq)]
pub struct Said {
    pub status: Option<i32>,
    pub out: String,
    pub err: String,
}

pub fn said(status: i32, out: &str, err: &str) -> Said {
    Said { status: Some(status), out: out.into(), err: err.into() }
}

/// An error where something else was said than is wanted.
pub fn same(what: &str, found: Said, wanted: Said) -> Answer {
    match found == wanted {
        true => Ok(()),
        false => Err(format!("{what}:\n  said   {found:?}\n  wanted {wanted:?}")),
    }
}

pub fn is(what: &str, holds: bool) -> Answer {
    holds.then_some(()).ok_or_else(|| what.to_string())
}

/// Waits, and ends the command where it takes longer.
pub fn ended(child: &mut Child, most: Duration) -> Option<ExitStatus> {
    let start = Instant::now();
    while start.elapsed() < most {
        if let Some(status) = child.try_wait().expect("a command can be waited for") {
            return Some(status);
        }
        thread::sleep(Duration::from_millis(2));
    }
    let _ = child.kill();
    let _ = child.wait();
    None
}

/// Closes a reader, and waits until nobody has it open: a process that another test is just starting has, for a moment, all
/// that is open here, and until then what is written is taken.
pub fn close(reader: ChildStdout) {
    let same_pipe = format!("/proc/self/fd/{}", reader.as_raw_fd());
    let mut writer = File::options().write(true).open(same_pipe).expect("a pipe can be opened again");
    drop(reader);
    let start = Instant::now();
    while writer.write_all(b"\n").is_ok() {
        assert!(start.elapsed() < Duration::from_secs(20), "somebody has the closed reader open");
        thread::sleep(Duration::from_millis(1));
    }
}

/// What is said of crates, with no seconds: those are the machine's.
fn without_seconds(text: String) -> String {
    let is_number = |word: &str| word.bytes().all(|byte| byte.is_ascii_digit());
    let line = |line: &str| match line.split_once(" proved (") {
        Some((crates, seconds)) if seconds.strip_suffix(" s)\n").is_some_and(is_number) => {
            format!("{crates} proved (S s)\n")
        }
        _ => line.to_string(),
    };
    text.split_inclusive('\n').map(line).collect()
}

fn read_all(mut from: impl Read + Send + 'static) -> JoinHandle<String> {
    thread::spawn(move || {
        let mut bytes = Vec::new();
        let _ = from.read_to_end(&mut bytes);
        String::from_utf8_lossy(&bytes).into_owned()
    })
}

/// Runs a command with this input, for so long.
pub fn ask_within(most: Duration, mut command: Command, input: &[u8]) -> Said {
    command.stdin(Stdio::piped()).stderr(Stdio::piped()).stdout(Stdio::piped());
    let mut child = command.spawn().expect("the command starts");
    let mut stdin = child.stdin.take().expect("stdin is piped");
    let out = read_all(child.stdout.take().expect("stdout is piped"));
    let err = read_all(child.stderr.take().expect("stderr is piped"));
    let input = input.to_vec();
    thread::spawn(move || drop(stdin.write_all(&input)));
    let status = ended(&mut child, most).and_then(|status| status.code());
    // what was started below it may hold the pipes open
    match status {
        Some(_) => Said { status, out: out.join().unwrap(), err: without_seconds(err.join().unwrap()) },
        None => Said { status, out: String::new(), err: String::new() },
    }
}

pub fn ask(command: Command) -> Said {
    ask_within(Duration::from_secs(60), command, b"")
}

/// Runs a command with its standard output as the shell's words have it, as `>/dev/full` or `>&-`.
pub fn ask_with_output(command: Command, output: &str) -> Said {
    let mut shell = Command::new("/bin/sh");
    shell.args(["-c", &format!("exec \"$@\" {output}"), "sh"]);
    shell.arg(command.get_program()).args(command.get_args());
    shell.current_dir(command.get_current_dir().expect("each command has its folder"));
    shell.envs(command.get_envs().filter_map(|(name, value)| Some((name, value?))));
    ask(shell)
}
