//! How the scripts set up what they need, row by row, in a little repository.

use crate::asking::{ask, ask_within, is, said, same, Answer};
use crate::output::set_up;
use crate::places::{root, Commands, Folder, Mutation, Repository};
use crate::plans::{note, t, wanted};
use std::fs;
use std::os::unix::fs::symlink;
use std::process::Command;
use std::time::Duration;

const BUILD: &str =
    "cargo build --quiet --release --offline --manifest-path commands/Cargo.toml --target-dir commands/target";

fn asking(repository: &Repository, name: &str, with: &str) -> Command {
    let mut command = repository.command(name, with);
    command.arg("examples/T.hex");
    command
}

/// A line for each crate, with count and seconds; then the answer.
pub fn each_crate(mutation: Mutation) -> Answer {
    for name in ["judge", "timetable"] {
        let repository = Repository::new(mutation);
        let first = said(0, &wanted(name, &t()).out, &set_up(name));
        same(name, ask(asking(&repository, name, "rt cargo")), first)?;
        same(name, ask(asking(&repository, name, "rt cargo")), wanted(name, &t()))?;
    }
    Ok(())
}

/// A proof that fails: its crate, the first lines and the log.
pub fn failing_proof(mutation: Mutation) -> Answer {
    let repository = Repository::new(mutation);
    let lines: String = (1..=7).map(|line| format!("crates/time/src/lib.rt:{line}:1: error\n")).collect();
    let long = format!("note: {}\n{lines}", "x".repeat(300));
    let log = repository.folder.path("target/log/time.out");
    let rt = format!(
        "echo 'rt: chose --jobs 2 for basis'; echo 'logic=proved functions=3'; echo 'rt: chose --jobs 2 for time'\n\
         cat <<'END'\n{long}logic=not-proved\nEND\n\
         echo 'rt: the library time did not build, so nothing above it was checked' >&2; exit 1\n"
    );
    repository.machine.write("rt-run", rt);
    let first: String = lines.lines().take(4).map(|line| format!("{line}\n")).collect();
    let told = format!(
        "timetable: proving and building the program, this once (some minutes)\n\
         timetable: 1 of 3: basis proved (S s)\ntimetable: time is not proved; {} begins:\nnote: {}\n{first}",
        log.display(),
        "x".repeat(194)
    );
    same("a proof fails", ask(asking(&repository, "timetable", "rt cargo")), said(2, "", &told))?;
    repository.machine.write("rt-lib", "printf 'rt: %s\\n' 1 2 3 4 5 6 7 8 9 10 'no toolchain'; exit 2");
    let told = format!(
        "judge: proving and building the library, this once (some minutes)\n\
         judge: exports is not built; {} ends:\nrt: 7\nrt: 8\nrt: 9\nrt: 10\nrt: no toolchain\n",
        repository.folder.path("target/setup/exports.log").display()
    );
    same("rt fails", ask(asking(&repository, "judge", "rt cargo")), said(2, "", &told))
}

/// `judge` is built of a small package that needs no other.
pub fn small_package(mutation: Mutation) -> Answer {
    let repository = Repository::new(mutation);
    ask(asking(&repository, "judge", "rt cargo"));
    let asked = format!("rt lib in exports\n{BUILD} --features proved --bin judge\n");
    is("what judge builds", repository.asked() == asked)?;
    ask(asking(&repository, "timetable", "rt cargo"));
    let asked = format!("rt run in timetable\n{BUILD} --features  --bin timetable\n");
    is("what timetable builds", repository.asked() == asked)?;
    let mut tree = Command::new("cargo");
    tree.args(["tree", "--offline", "--features", "proved", "--edges", "normal,build", "--prefix", "none"]);
    tree.args(["--manifest-path", "commands/Cargo.toml"]).current_dir(&repository.folder.0);
    let package = format!("jidlekuvo_commands v0.1.0 ({})\n", repository.folder.path("commands").display());
    same("what it needs", ask(tree), said(0, &package, ""))
}

/// Without rt or cargo: what is missing, and --quick; what is built runs without them.
pub fn missing_tools(mutation: Mutation) -> Answer {
    for (name, what) in [("judge", "library"), ("timetable", "program")] {
        let repository = Repository::new(mutation);
        let told = format!(
            "{name}: the {what} is not built, and only rt, the Rattle toolchain, proves and builds it: there is no rt on the PATH\n\
             {name}: --quick answers by the Rust build, which is not proved; a release (./release) needs no rt\n"
        );
        same("without rt", ask(asking(&repository, name, "cargo")), said(2, "", &told))?;
        let steps = set_up(name).lines().take(3).map(|line| format!("{line}\n")).collect::<String>();
        let told = format!(
            "{steps}{name}: the command {name} is not built, and cargo (Rust 1.82 or later) builds it: there is no cargo on the PATH\n"
        );
        same("without cargo", ask(asking(&repository, name, "rt")), said(2, "", &told))?;
        ask(asking(&repository, name, "rt cargo"));
        same("built, without both", ask(asking(&repository, name, "")), wanted(name, &t()))?;
    }
    Ok(())
}

/// A crate or the toolchain has changed: what is built is built anew, once.
pub fn changed_crate(mutation: Mutation) -> Answer {
    let repository = Repository::new(mutation);
    for name in ["judge", "timetable"] {
        ask(asking(&repository, name, "rt cargo"));
        repository.asked();
        same(name, ask(asking(&repository, name, "rt cargo")), wanted(name, &t()))?;
        is("nothing has changed, and nothing is asked", repository.asked().is_empty())?;
    }
    let changes =
        [("a crate", "crates/basis/src/lib.rt"), ("the order", "crates.txt"), ("the toolchain", "")];
    for (what, file) in changes {
        let path =
            if file.is_empty() { repository.machine.path("kit") } else { repository.folder.path(file) };
        let text = fs::read_to_string(&path).expect("it is there");
        fs::write(&path, text + "# more\n").expect("it can be written");
        let err = set_up("timetable").replace(
            "proving and building the program, this once (some minutes)",
            "proving what has changed since the program was built",
        );
        let err = err.replace("timetable: building the command timetable\n", "");
        same(
            what,
            ask(asking(&repository, "timetable", "rt cargo")),
            said(0, &wanted("timetable", &t()).out, &err),
        )?;
        is(what, repository.asked() == "rt run in timetable\n")?;
        ask(asking(&repository, "judge", "rt cargo"));
        is(what, repository.asked() == "rt lib in exports\n")?;
    }
    fs::remove_file(repository.folder.path("target/bin/timetable")).expect("it is there");
    let wanted = said(
        0,
        &wanted("timetable", &t()).out,
        &set_up("timetable").replace("timetable: building the command timetable\n", ""),
    );
    same("the program is not there", ask(asking(&repository, "timetable", "rt cargo")), wanted)
}

/// Two commands at once: the second waits for the set-up of the first.
pub fn two_at_once(mutation: Mutation) -> Answer {
    let repository = Repository::new(mutation);
    let slow = fs::read_to_string(repository.machine.path("rt-run")).expect("it is there");
    repository.machine.write("rt-run", format!("sleep 1.5\n{slow}"));
    let (first, second) = std::thread::scope(|scope| {
        let other = scope.spawn(|| ask(asking(&repository, "timetable", "rt cargo")));
        (ask(asking(&repository, "timetable", "rt cargo")), other.join().expect("it is asked"))
    });
    let found = [first.err, second.err];
    let wanted = [set_up("timetable"), "timetable: another set-up is under way\n".to_string()];
    is(&format!("{found:?}"), found == wanted || found == [wanted[1].clone(), wanted[0].clone()])?;
    is("what rt is asked", repository.asked().matches("rt run").count() == 1)
}

/// `--quick` answers without rt, by the Rust build, and says each time that this is not proved.
pub fn quick(mutation: Mutation) -> Answer {
    let commands = Commands::new(mutation);
    commands.folder.write("plan", t());
    let repository = Repository::new(mutation);
    for name in ["judge", "timetable"] {
        let by_rust = format!("quick {name}");
        let mut command = commands.command(&by_rust);
        command.arg("plan");
        same(&by_rust, ask(command), wanted(&by_rust, &t()))?;
        let mut command = asking(&repository, name, "cargo");
        command.arg("--quick");
        let mut first = wanted(&by_rust, &t());
        if name == "judge" {
            first.err = format!("judge: building the command quick\n{}", note(&by_rust));
        }
        same(&by_rust, ask(command), first)?;
        let mut command = repository.command(name, "");
        command.args(["--quick", "examples/T.hex"]);
        same(&by_rust, ask(command), wanted(&by_rust, &t()))?;
    }
    is("what quick builds", repository.asked() == format!("{BUILD} --features quick --bin quick\n"))
}

/// `rt try` runs the program with no proof: no module bears the name of a crate that is called beside it.
pub fn with_no_proof(mutation: Mutation) -> Answer {
    let folder = Folder::new();
    let mut cp = Command::new("bash");
    cp.args(["-c", "cp -r --parents crates.txt crates/*/src \"$0\""]).arg(&folder.0).current_dir(root());
    same("the code", ask(cp), said(0, "", ""))?;
    if let Mutation::Edit { .. } = mutation {
        folder.write("crates/judge/src/plan_read.rt", "// nothing\n");
    }
    folder.apply(mutation);
    let mut rt = Command::new("rt");
    rt.arg("try").current_dir(folder.path("crates/timetable"));
    let kept = |name: &str| fs::read(root().join("crates/timetable").join(name)).expect("it is there");
    let said = ask_within(Duration::from_secs(600), rt, &kept("stdin"));
    let last = said.err.lines().last().unwrap_or("");
    is(
        &format!("{said:?}"),
        said.status == Some(0)
            && said.out.as_bytes() == kept("stdout")
            && last.starts_with("run=ended status=0 ")
            && last.ends_with(" proved=no"),
    )
}

/// Every package says which Rust it needs, README the same, and the versions are that of VERSION.
pub fn versions(mutation: Mutation) -> Answer {
    let repository = Repository::new(mutation);
    let read = |name: &str| fs::read_to_string(repository.folder.path(name)).expect("it is there");
    let version = format!("version = \"{}\"", read("VERSION").trim());
    for package in ["commands", "rust", "tools"] {
        let manifest = read(&format!("{package}/Cargo.toml"));
        is(
            &format!("{package}: the Rust that it needs"),
            manifest.lines().any(|line| line == "rust-version = \"1.82\""),
        )?;
        is(&format!("{package}: its version"), manifest.lines().any(|line| line == version))?;
    }
    is("README: the Rust that is needed", read("README.md").contains("Rust 1.82 or later"))?;
    is("CHANGES: the version", read("CHANGES.md").contains(&format!("\n## {}", read("VERSION"))))
}

/// The commands of this repository itself, as it is built: a file, the standard input, a pipe, by a link to the command.
pub fn this_repository(_: Mutation) -> Answer {
    let folder = Folder::new();
    fs::copy(root().join("examples/T.hex"), folder.path("T.hex")).expect("it can be copied");
    for name in ["judge", "timetable"] {
        symlink(root().join(name), folder.path(name)).expect("a link can be made");
        for words in ["./$0 T.hex", "./$0 - <T.hex", "./$0 <(cat T.hex)"] {
            let mut shell = Command::new("bash");
            shell.args(["-c", words, name]).current_dir(&folder.0);
            same(words, ask(shell), wanted(name, &t()))?;
        }
    }
    Ok(())
}
