//! What goes out, row by row.

use crate::asking::{ask, ask_with_output, close, ended, is, said, same, Answer};
use crate::input::ALL;
use crate::places::{Commands, Mutation, Repository};
use crate::plans::{note, t, wanted};
use std::fs::{self, File};
use std::io::{BufRead, BufReader, Read, Write};
use std::path::Path;
use std::process::{Child, ChildStdout, Command, Stdio};
use std::sync::mpsc::channel;
use std::thread;
use std::time::Duration;

const FULL: &str = "No space left on device (os error 28)";
const CLOSED: &str = "Bad file descriptor (os error 9)";
const BROKEN: &str = "Broken pipe (os error 32)";

/// Output that cannot be written is told, and the exit status is 2.
pub fn failing_output(mutation: Mutation) -> Answer {
    let commands = Commands::new(mutation);
    commands.folder.write("plan", t());
    for name in ALL {
        let plain = name.rsplit(' ').next().expect("a word");
        for (word, output, why) in
            [("plan", ">/dev/full", FULL), ("plan", ">&-", CLOSED), ("--help", ">/dev/full", FULL)]
        {
            let mut command = commands.command(name);
            command.arg(word);
            let told = format!("{}{plain}: the output cannot be written: {why}\n", note(name));
            same(name, ask_with_output(command, output), said(2, "", &told))?;
        }
    }
    Ok(())
}

/// The same of the scripts.
pub fn failing_output_of_scripts(mutation: Mutation) -> Answer {
    let repository = Repository::new(mutation);
    for name in ["judge", "timetable"] {
        let command = || {
            let mut command = repository.command(name, "rt cargo");
            command.arg("examples/T.hex");
            command
        };
        same(name, ask(command()), said(0, &wanted(name, &t()).out, &set_up(name)))?;
        for (output, why) in [(">/dev/full", FULL), (">&-", CLOSED)] {
            let told = format!("{name}: the output cannot be written: {why}\n");
            same(name, ask_with_output(command(), output), said(2, "", &told))?;
        }
    }
    Ok(())
}

/// What a first set-up of the little repository says.
pub fn set_up(name: &str) -> String {
    let (what, last) = if name == "judge" { ("library", "exports") } else { ("program", "timetable") };
    format!(
        "{name}: proving and building the {what}, this once (some minutes)\n\
         {name}: 1 of 3: basis proved (S s)\n{name}: 3 of 3: {last} proved (S s)\n\
         {name}: building the command {name}\n"
    )
}

/// A program that prints a row, waits until it is let on, prints another and goes on without a word.
const WAITS: &str = "echo $$ >pid\necho '0 0 2 0 3000'\nread -r word <go\necho 'end 2'\n[ \"$word\" = end ] || exec sleep 20\n";

/// On a quiet machine a line, or the end, takes milliseconds.
const MOST: Duration = Duration::from_secs(10);

/// The first line, if it comes in time; the reader is left open with it.
fn first_line(out: ChildStdout) -> Option<(String, BufReader<ChildStdout>)> {
    let (to, from) = channel();
    thread::spawn(move || {
        let (mut reader, mut line) = (BufReader::new(out), String::new());
        let _ = reader.read_line(&mut line);
        let _ = to.send((line, reader));
    });
    from.recv_timeout(MOST).ok()
}

/// Rows go out as they settle.
pub fn rows_settle(mutation: Mutation) -> Answer {
    let (mut started, row) = Started::new(mutation)?;
    let found = row.as_ref().map(|(row, _)| row.as_str()) == Some("0 0 2 0 3000\n");
    started.go("end");
    let said = started.end()?;
    is("a row before the table is whole", found)?;
    is(&format!("the rest: {said:?}"), said == (Some(0), String::new()))
}

/// Where a reader closes after one line, command and program end, long before the program would.
pub fn closing_reader(mutation: Mutation) -> Answer {
    let (mut started, row) = Started::new(mutation)?;
    if let Some((_, reader)) = row {
        close(reader.into_inner());
    }
    started.go("closed");
    let said = started.end()?;
    let told = format!("timetable: the output cannot be written: {BROKEN}\n");
    is(&format!("{said:?}"), said == (Some(2), told))
}

/// The command over the program that waits.
struct Started {
    commands: Commands,
    /// What the program waits for. It is open for reading too, so that opening it does not wait for the program.
    go: File,
    child: Child,
}

impl Started {
    fn new(mutation: Mutation) -> Result<(Started, Option<(String, BufReader<ChildStdout>)>), String> {
        let commands = Commands::new(mutation).with_program(WAITS);
        commands.folder.write("plan", t());
        let made = Command::new("mkfifo").arg(commands.folder.path("go")).status();
        is("a pipe with a name", made.is_ok_and(|status| status.success()))?;
        let go = File::options().read(true).write(true).open(commands.folder.path("go")).unwrap();
        let mut command = commands.command("timetable");
        let mut child = command.arg("plan").stdout(Stdio::piped()).stderr(Stdio::piped()).spawn().unwrap();
        let row = first_line(child.stdout.take().expect("stdout is piped"));
        Ok((Started { commands, go, child }, row))
    }

    /// The program is let on.
    fn go(&mut self, word: &str) {
        writeln!(self.go, "{word}").expect("a pipe holds a word");
    }

    /// Status and standard error; an error where the program is still there.
    fn end(&mut self) -> Result<(Option<i32>, String), String> {
        let status = ended(&mut self.child, MOST).and_then(|status| status.code());
        let pid = fs::read_to_string(self.commands.folder.path("pid")).unwrap_or_default();
        if Path::new("/proc").join(pid.trim()).exists() {
            let _ = Command::new("kill").arg(pid.trim()).status();
            return Err("the program has not ended".into());
        }
        let mut err = String::new();
        let _ = self.child.stderr.take().expect("stderr is piped").read_to_string(&mut err);
        Ok((status, err))
    }
}

/// A table that did not come out whole is told; one that ends in `refused` gives 1.
pub fn whole_tables(mutation: Mutation) -> Answer {
    let not_whole = "timetable: the table did not come out whole\n";
    let cases = [
        ("printf 'free 1\\nend 2\\n'", "free 1\nend 2\n", 0, ""),
        ("printf 'free 1\\nwaits 1 0\\n'", "free 1\nwaits 1 0\n", 0, ""),
        ("printf 'refused 55 0\\n'", "refused 55 0\n", 1, ""),
        ("printf 'free 1\\nend 2'", "free 1\nend 2", 2, not_whole),
        ("printf 'free 1\\n'", "free 1\n", 2, not_whole),
        ("printf 'end 2\\n\\n'", "end 2\n\n", 2, not_whole),
        ("printf 'end 2\\n'; exit 1", "end 2\n", 2, not_whole),
        ("printf 'end 2\\n'; kill -9 $$", "end 2\n", 2, not_whole),
        (":", "", 2, not_whole),
    ];
    for (program, out, status, err) in cases {
        let commands = Commands::new(mutation).with_program(program);
        commands.folder.write("plan", t());
        let mut command = commands.command("timetable");
        command.arg("plan");
        same(program, ask(command), said(status, out, err))?;
    }
    let commands = Commands::new(mutation);
    fs::remove_file(commands.folder.path("bin/timetable")).unwrap();
    commands.folder.write("plan", t());
    let mut command = commands.command("timetable");
    command.arg("plan");
    let told = format!(
        "timetable: {}: No such file or directory (os error 2)\n",
        commands.folder.path("bin/timetable").display()
    );
    same("no program", ask(command), said(2, "", &told))
}
