//! `./release`: packed only after a green `./test` of a clean tree, the same bytes twice, and what is packed runs.

use crate::asking::{ask, is, said, same, Answer, Said};
use crate::places::{Folder, Mutation, Repository};
use crate::plans::{t, wanted};
use std::fs;
use std::path::Path;
use std::process::Command;
use std::time::{Duration, SystemTime};

const LAST: &str = "812 passed, 0 failed";

struct Packing {
    repository: Repository,
    commit: String,
}

impl Packing {
    /// A repository with one commit, set up.
    fn new(mutation: Mutation) -> Packing {
        let repository = Repository::new(mutation);
        for name in ["judge", "timetable"] {
            let mut command = repository.command(name, "rt cargo");
            command.arg("examples/T.hex");
            ask(command);
        }
        let mut command = repository.command("commands/setup", "rt cargo");
        command.args(["release", "host"]);
        ask(command);
        let mut packing = Packing { repository, commit: String::new() };
        packing.git(&["init", "--quiet"]);
        packing.git(&["add", "--all"]);
        packing.git(&[
            "-c",
            "user.name=a",
            "-c",
            "user.email=a@b",
            "-c",
            "commit.gpgsign=false",
            "commit",
            "--quiet",
            "--message",
            "a",
        ]);
        packing.commit = packing.git(&["rev-parse", "HEAD"]).trim().to_string();
        packing
    }

    fn git(&self, words: &[&str]) -> String {
        let mut command = self.repository.command("release", "");
        let program = self.repository.machine.path("tools/git");
        let mut git = Command::new(program);
        git.args(words).current_dir(&self.repository.folder.0).envs(command_envs(&mut command));
        let said = ask(git);
        assert_eq!(said.status, Some(0), "git {words:?}: {}", said.err);
        said.out
    }

    fn programs(&self) -> String {
        ask(self.repository.command("commands/programs", "")).out
    }

    /// What ./test leaves.
    fn record(&self, commit: &str, programs: &str, last: &str) {
        self.repository.folder.write("target/gate", format!("{commit}\n{}\n{last}\n", programs.trim()));
    }

    fn release(&self) -> Said {
        ask(self.repository.command("release", "rt cargo"))
    }

    fn refused(&self, why: &str) -> Answer {
        same(why, self.release(), said(1, "", &format!("release: {why}\n")))
    }
}

fn command_envs(command: &mut Command) -> Vec<(String, String)> {
    let pairs = command.get_envs().filter_map(|(name, value)| Some((name, value?)));
    pairs.map(|(name, value)| (name.to_string_lossy().into(), value.to_string_lossy().into())).collect()
}

/// Refused without a green ./test of this very commit and these very programs on a clean tree.
pub fn refused(mutation: Mutation) -> Answer {
    let packing = Packing::new(mutation);
    let (commit, programs) = (packing.commit.clone(), packing.programs());
    packing.refused("there is no record of a ./test that passed on a clean tree")?;
    packing.record("0000", &programs, LAST);
    packing.refused(&format!("the last ./test was of commit 0000, and this is {commit}"))?;
    for last in ["811 passed, 1 failed", "0 passed, 0 failed", ""] {
        packing.record(&commit, &programs, last);
        packing.refused(&format!("the last ./test ended with '{last}'"))?;
    }
    let other = "program and libraries are not those of the last ./test";
    packing.record(&commit, "0000", LAST);
    packing.refused(other)?;
    packing.record(&commit, &programs, LAST);
    for file in ["target/bin/timetable", "target/staticlib/libjidlekuvo.a"] {
        let tested = fs::read(packing.repository.folder.path(file)).expect("it is there");
        packing.repository.folder.write(file, [&tested[..], b"\n"].concat());
        packing.refused(other)?;
        packing.repository.folder.write(file, tested);
    }
    let new = packing.repository.folder.write("docs/new.md", "new");
    packing.refused("the tree has changes that are not committed")?;
    fs::remove_file(new).expect("it is there");
    is("nothing was packed", !packing.repository.folder.path("target/jidlekuvo-0.1.0.tar.gz").exists())
}

/// Packed twice: the same bytes, whenever its files were written; and again where a library had to be built anew.
pub fn packed(mutation: Mutation) -> Answer {
    let packing = Packing::new(mutation);
    packing.record(&packing.commit, &packing.programs(), LAST);
    let archive = packing.repository.folder.path("target/jidlekuvo-0.1.0.tar.gz");
    let first = packing.release();
    is(&format!("{first:?}"), first.status == Some(0) && first.err.is_empty())?;
    let bytes = fs::read(&archive).map_err(|why| why.to_string())?;
    for file in ["target/judge", "README.md"] {
        let file =
            fs::File::options().append(true).open(packing.repository.folder.path(file)).expect("it is there");
        file.set_modified(SystemTime::now() - Duration::from_secs(100_000)).expect("its time can be set");
    }
    std::thread::sleep(Duration::from_millis(1_100));
    same("packed again", packing.release(), first.clone())?;
    is("the same bytes", fs::read(&archive).is_ok_and(|again| again == bytes))?;
    fs::remove_file(packing.repository.folder.path("target/staticlib/libjidlekuvo.a")).expect("it is there");
    let err = "release: proving and building the library for hosts, this once (some minutes)\n\
               release: 1 of 3: basis proved (S s)\nrelease: 3 of 3: jidlekuvo_c proved (S s)\n";
    same("without a library", packing.release(), Said { err: err.into(), ..first })?;
    is("the same bytes again", fs::read(&archive).is_ok_and(|again| again == bytes))?;
    unpacked(&packing, &archive)
}

/// Unpacked elsewhere: the checksums hold, what is told is there, the commands run with nothing on the PATH, and the example is
/// compiled and runs.
fn unpacked(packing: &Packing, archive: &Path) -> Answer {
    let elsewhere = Folder::new();
    let mut tar = Command::new("tar");
    tar.arg("--extract").arg("--file").arg(archive).arg("--directory").arg(&elsewhere.0);
    same("unpacked", ask(tar), said(0, "", ""))?;
    let folder = elsewhere.path("jidlekuvo-0.1.0");
    let mut sums = Command::new("sha256sum");
    sums.args(["--check", "--quiet", "SHA256SUMS"]).current_dir(&folder);
    same("checksums", ask(sums), said(0, "", ""))?;
    let mut names: Vec<String> =
        fs::read_to_string(folder.join("SHA256SUMS")).unwrap().lines().map(|l| l[66..].into()).collect();
    names.sort();
    let files = "./CHANGES.md ./README.md ./RELEASE ./VERSION ./bin/timetable ./docs/HOST.md ./docs/PROMISES.md \
                 ./examples/T.hex ./host/example.c ./host/example/plan.c ./host/example/plan.h ./host/example/table.c \
                 ./host/example/table.h ./host/stack.txt ./include/jidlekuvo.h ./include/jidlekuvo_numbers.h ./judge \
                 ./lib/libexports.a ./lib/libjidlekuvo.a ./timetable";
    is(&format!("{names:?}"), names.join(" ") == files)?;
    let told = format!(
        "version    0.1.0\ncommit     {}\ntoolchain  kit 1\n./test     {LAST}\nruns on    Linux, x86-64, glibc 2.34 or later\n",
        packing.commit
    );
    is("RELEASE", fs::read_to_string(folder.join("RELEASE")).is_ok_and(|text| text == told))?;
    for name in ["judge", "timetable"] {
        let mut command = Command::new(folder.join(name));
        command.arg("examples/T.hex").env_clear().env("PATH", "/nowhere").current_dir(&folder);
        same(name, ask(command), wanted(name, &t()))?;
    }
    example(&folder)
}

/// The example in C is built and run by the lines that docs/HOST.md has for it.
fn example(folder: &Path) -> Answer {
    let page = fs::read_to_string(folder.join("docs/HOST.md")).expect("it is there");
    let lines = page.lines().skip_while(|line| *line != "### From a release");
    let lines: Vec<&str> = lines.filter_map(|line| line.strip_prefix("    ")).take(2).collect();
    is(&format!("{lines:?}"), lines.len() == 2 && lines[0].starts_with("cc "))?;
    let mut shell = Command::new("sh");
    shell.args(["-c", &lines.join(" && ")]).current_dir(folder);
    let said = ask(shell);
    let done = said.out.ends_with("\ndone: 7 of 7 rows started in time\n");
    is(&format!("the example: {said:?}"), said.status == Some(0) && said.err.is_empty() && done)
}
