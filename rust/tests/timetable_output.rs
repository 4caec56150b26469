//! The text of the program *timetable* on its way out: texts longer than its buffer, a full device,
//! a reader that closes. After a failed write it ends without reading on. And its outcomes on their
//! way in: spare ones are left to the next reader, and rows come out before it waits for one.

#![cfg(feature = "rattle_timetable")]

use jidlekuvo_reference::compare::rattle;
use jidlekuvo_reference::generate::plan_t;
use jidlekuvo_reference::timetable::timetable;
use std::fs::OpenOptions;
use std::io::{Read, Seek, Write};
use std::os::fd::AsRawFd;
use std::process::{Child, ChildStdout, Command, ExitStatus, Stdio};
use std::time::{Duration, Instant};

/// Past so many bytes the program hands on what it has gathered.
const GATHERED: usize = 61_440;

/// A plan of one activity (a claim, actions in a chain, a release), emitted on the way from each
/// state to the next.
fn chain(actions: u8, states: u8) -> Vec<u8> {
    let mut plan = vec![0x1B, 1, 1, 0, 1, actions + 2, 2, 0];
    for n in 0..actions {
        plan.extend([0x31, 0, 0]);
        plan.extend(60_000_000u32.to_le_bytes());
        plan.extend([1, n]);
    }
    plan.extend([0x24, 0, 1, actions]);
    plan.extend([states, 0]);
    plan.extend((1u64 << (states - 1)).to_le_bytes());
    plan.extend((states as u16 - 1).to_le_bytes());
    for state in 0..states - 1 {
        plan.extend([2, state, state + 1, 0]);
    }
    plan
}

fn input_of(plan: &[u8]) -> Vec<u8> {
    [&(plan.len() as u16).to_le_bytes()[..], plan].concat()
}

fn printed(input: &[u8]) -> String {
    let text = rattle::timetable(input).expect("the program timetable runs");
    String::from_utf8(text).expect("the text is ASCII")
}

/// Whether the buffer's mark falls inside the text of one position.
fn crosses_inside_a_turn(text: &str) -> bool {
    let line = text[..GATHERED].rfind('\n').map_or(0, |at| at + 1);
    let position = |at: usize| text[at..].split(' ').next().unwrap_or("").to_owned();
    let before = text[..line - 1].rfind('\n').map_or(0, |at| at + 1);
    text.len() > GATHERED && position(line) == position(before)
}

#[test]
fn a_text_of_twice_the_buffer_comes_out_whole() {
    let plan = chain(62, 64);
    assert_eq!(plan.len(), 834);
    let text = printed(&input_of(&plan));
    assert_eq!(text.lines().count(), 3_909);
    assert_eq!(text.len(), 127_966);
    assert!(text == timetable(&input_of(&plan)));
}

#[test]
fn texts_that_cross_the_mark_agree() {
    let mut inside = 0;
    for actions in 28..=62 {
        let input = input_of(&chain(actions, 64));
        let wanted = timetable(&input);
        inside += usize::from(wanted.len() > GATHERED && crosses_inside_a_turn(&wanted));
        assert!(printed(&input) == wanted, "{actions} actions");
    }
    assert!(inside > 20, "only {inside} texts cross the mark inside a turn");
}

/// The program with its input written and left open, so that one that reads on waits for ever.
fn started(input: &[u8], out: Stdio) -> (Child, impl Write) {
    let program = rattle::target_folder().join("bin/timetable");
    let mut child =
        Command::new(program).stdin(Stdio::piped()).stdout(out).spawn().expect("the program starts");
    let mut stdin = child.stdin.take().expect("stdin is piped");
    stdin.write_all(input).expect("a pipe holds the input");
    (child, stdin)
}

fn ends(mut child: Child) -> ExitStatus {
    let start = Instant::now();
    while start.elapsed() < Duration::from_secs(20) {
        if let Some(status) = child.try_wait().expect("the program can be waited for") {
            return status;
        }
        std::thread::sleep(Duration::from_millis(10));
    }
    let _ = child.kill();
    panic!("the program went on after a failed write");
}

fn full() -> Stdio {
    OpenOptions::new().write(true).open("/dev/full").expect("there is a full device").into()
}

#[test]
fn a_full_device_ends_the_program_before_it_reads_on() {
    let (child, stdin) = started(&input_of(&plan_t()), full());
    ends(child);
    drop(stdin);
}

/// Closes a reader, and waits until no process has it open: one that another test is just starting
/// has, for a moment, all that is open here, and until then what is written is taken. The bytes
/// written meanwhile are too few to fill the pipe.
fn close(reader: ChildStdout) {
    let same_pipe = format!("/proc/self/fd/{}", reader.as_raw_fd());
    let mut writer = OpenOptions::new().write(true).open(same_pipe).expect("a pipe can be opened again");
    drop(reader);
    let start = Instant::now();
    while writer.write_all(b"\n").is_ok() {
        assert!(start.elapsed() < Duration::from_secs(20), "a closed pipe had a reader for 20 seconds");
        std::thread::sleep(Duration::from_millis(10));
    }
}

#[test]
fn a_reader_that_closes_ends_the_program_before_it_reads_on() {
    let (mut child, mut stdin) = started(&input_of(&plan_t())[..10], Stdio::piped());
    close(child.stdout.take().expect("stdout is piped"));
    stdin.write_all(&input_of(&plan_t())[10..]).expect("a pipe holds the input");
    ends(child);
    drop(stdin);
}

/// Outcomes of T that take it to its end, and more that no state asks for.
fn with_spare() -> Vec<u8> {
    [input_of(&plan_t()), vec![0, 0, 1, 7, 0, 5]].concat()
}

/// What a reader finds in an input after the program has ended.
fn read_after(stdin: Stdio, input: &[u8]) -> Vec<u8> {
    let program = rattle::target_folder().join("bin/timetable");
    let mut shell = Command::new("sh");
    shell.arg("-c").arg("\"$0\" > /dev/null; cat").arg(program).stdin(stdin).stdout(Stdio::piped());
    let mut child = shell.spawn().expect("a shell starts");
    if let Some(mut pipe) = child.stdin.take() {
        pipe.write_all(input).expect("a pipe holds the input");
    }
    child.wait_with_output().expect("the shell can be waited for").stdout
}

#[test]
fn spare_outcomes_of_a_pipe_are_left_to_the_next_reader() {
    assert_eq!(read_after(Stdio::piped(), &with_spare()), [7, 0, 5]);
}

#[test]
fn spare_outcomes_of_a_file_are_given_back() {
    let path = std::env::temp_dir().join(format!("jidlekuvo-spare-{}", std::process::id()));
    std::fs::write(&path, with_spare()).expect("a file can be written");
    let mut file = std::fs::File::open(&path).expect("the file can be read");
    let shared = file.try_clone().expect("its offset is shared");
    let left = read_after(shared.into(), &[]);
    let program = rattle::target_folder().join("bin/timetable");
    file.rewind().expect("the file can seek");
    let stdin: Stdio = file.try_clone().expect("its offset is shared").into();
    let status = Command::new(program).stdin(stdin).stdout(Stdio::null()).status();
    assert!(status.expect("the program runs").success());
    assert_eq!(file.stream_position().expect("the file can seek"), with_spare().len() as u64 - 3);
    std::fs::remove_file(&path).expect("the file can be removed");
    assert_eq!(left, [7, 0, 5]);
}

#[test]
fn a_reader_at_a_pipe_sees_every_settled_row_before_the_program_waits() {
    let input = [input_of(&plan_t()), vec![0]].concat();
    let whole = timetable(&input);
    let settled = &whole[..whole.find("free").expect("the table waits")];
    let (mut child, stdin) = started(&input, Stdio::piped());
    let mut stdout = child.stdout.take().expect("stdout is piped");
    let (sender, receiver) = std::sync::mpsc::channel();
    let size = settled.len();
    std::thread::spawn(move || {
        let mut seen = vec![0; size];
        let _ = sender.send(stdout.read_exact(&mut seen).map(|()| seen));
        // its last lines have a reader too
        let _ = std::io::copy(&mut stdout, &mut std::io::sink());
    });
    let seen = receiver.recv_timeout(Duration::from_secs(20)).expect("the rows come before the input ends");
    assert_eq!(seen.expect("the rows are whole"), settled.as_bytes());
    assert!(child.try_wait().expect("the program can be waited for").is_none());
    drop(stdin);
    assert!(ends(child).success());
}
