//! Where the commands stand: in a folder as a release has them, or in a small repository with an `rt` and a `cargo` that
//! only say what they would do.

use std::fs;
use std::os::unix::fs::{symlink, PermissionsExt};
use std::path::{Path, PathBuf};
use std::process::Command;
use std::sync::atomic::{AtomicUsize, Ordering};

/// One way to break the commands: a toggle of src/toggles.rs, or another text in a file of the repository.
#[derive(Clone, Copy, Debug)]
pub enum Mutation {
    None,
    Toggle(&'static str),
    Edit { file: &'static str, old: &'static str, new: &'static str },
}

pub fn root() -> PathBuf {
    Path::new(env!("CARGO_MANIFEST_DIR")).join("..").canonicalize().expect("the repository is there")
}

/// A folder of a test, which ends with it.
pub struct Folder(pub PathBuf);

impl Folder {
    pub fn new() -> Folder {
        static COUNT: AtomicUsize = AtomicUsize::new(0);
        let name = format!("{}-{}", std::process::id(), COUNT.fetch_add(1, Ordering::Relaxed));
        let path = Path::new(env!("CARGO_TARGET_TMPDIR")).join(name);
        fs::create_dir_all(&path).expect("a folder can be made");
        Folder(path)
    }

    pub fn path(&self, name: &str) -> PathBuf {
        self.0.join(name)
    }

    pub fn write(&self, name: &str, content: impl AsRef<[u8]>) -> PathBuf {
        let path = self.path(name);
        fs::create_dir_all(path.parent().expect("it is in the folder")).expect("a folder can be made");
        fs::write(&path, content).expect("a file can be written");
        path
    }

    /// A file that may be run.
    fn write_program(&self, name: &str, content: impl AsRef<[u8]>) -> PathBuf {
        let draft = self.write(&format!("{name}.draft"), content);
        run(Command::new("cp").arg(&draft).arg(self.path(name)));
        fs::remove_file(draft).expect("it is there");
        self.path(name)
    }

    /// Another text in a file of the folder, where the mutation is one.
    pub fn apply(&self, mutation: Mutation) {
        let Mutation::Edit { file, old, new } = mutation else { return };
        let text = fs::read_to_string(self.path(file)).expect("it is there");
        assert_eq!(text.matches(old).count(), 1, "'{old}' stands once in {file}");
        self.write_program(file, text.replace(old, new));
    }

    /// A shell script.
    pub fn script(&self, name: &str, text: &str) -> PathBuf {
        let path = self.write_program(name, format!("#!/bin/sh\n{text}"));
        fs::set_permissions(&path, fs::Permissions::from_mode(0o755)).expect("it can be made a program");
        path
    }
}

/// Runs `cp`, which writes all files that may be run. One that is open for writing cannot be, and a process that another
/// test is just starting has, for a moment, all that is open here; so none is written from here.
fn run(cp: &mut Command) {
    assert!(cp.status().is_ok_and(|status| status.success()), "{cp:?}");
}

impl Drop for Folder {
    fn drop(&mut self) {
        let _ = fs::remove_dir_all(&self.0);
    }
}

/// The programs of this package, and the proved one, as a release has them.
pub struct Commands {
    pub folder: Folder,
    broken: &'static str,
}

impl Commands {
    pub fn new(mutation: Mutation) -> Commands {
        let folder = Folder::new();
        let built = [
            ("judge", env!("CARGO_BIN_EXE_judge").into()),
            ("timetable", env!("CARGO_BIN_EXE_timetable").into()),
            ("quick", env!("CARGO_BIN_EXE_quick").into()),
            ("bin/timetable", root().join("target/bin/timetable")),
        ];
        fs::create_dir(folder.path("bin")).expect("a folder can be made");
        for (name, from) in built {
            let to = folder.path(name);
            if fs::hard_link(&from, &to).is_err() {
                run(Command::new("cp").arg(&from).arg(&to));
            }
        }
        let broken = if let Mutation::Toggle(name) = mutation { name } else { "" };
        Commands { folder, broken }
    }

    /// Another program in place of the proved one.
    pub fn with_program(self, text: &str) -> Commands {
        fs::remove_file(self.folder.path("bin/timetable")).expect("it is there");
        self.folder.script("bin/timetable", text);
        self
    }

    /// `judge`, `timetable`, or either by the Rust build as `quick judge`, `quick timetable`.
    pub fn command(&self, name: &str) -> Command {
        let mut words = name.split(' ');
        let mut command = Command::new(self.folder.path(words.next().expect("a name")));
        command.args(words).env("JIDLEKUVO_BROKEN", self.broken).current_dir(&self.folder.0);
        command
    }
}

/// What the scripts call.
const TOOLS: &str =
    "awk bash cat chmod cmp cp cut dirname env find flock git grep gzip head mkdir mktemp mv readlink rm sed \
                     sha256sum sleep sort tail tar tee xargs";

/// A repository of five small crates with the scripts of this one. Its `rt` and `cargo` write down what they are asked, in
/// asked.txt, and hand out what is already built.
pub struct Repository {
    pub folder: Folder,
    /// What stands for the tools of the machine.
    pub machine: Folder,
}

const RT: &str = "
[ \"$1\" = version ] && { cat \"$HERE/kit\"; exit; }
echo \"rt $* in ${PWD##*/}\" >>\"$HERE/asked.txt\"
mkdir -p out
/bin/sh \"$HERE/rt-$1\" \"${PWD##*/}\"
";

/// `time` is proved already, so nothing is said of it.
const RT_LIB: &str = "
echo 'rt: chose --jobs 2 for basis'
echo 'logic=proved functions=3'
echo \"rt: chose --jobs 2 for $1\"
echo \"fn $1::first: proved\"
echo 'logic=proved functions=1'
library=${1%_c}
[ \"$1\" = timetable ] || cp \"$BUILT/target/staticlib/lib$library.a\" \"out/lib$1.a\"
";

/// It proves as `rt lib` does, and ends as the program does, which has no input.
const RT_RUN: &str = "
/bin/sh \"$HERE/rt-lib\" \"$1\"
cp \"$BUILT/target/bin/timetable\" out/timetable
echo 'rt: running out/timetable; to give it other input, run that file yourself' >&2
exit 1
";

const CARGO: &str = "
echo \"cargo $*\" >>\"$HERE/asked.txt\"
while [ $# -gt 1 ]; do [ \"$1\" = --bin ] && what=$2; shift; done
mkdir -p commands/target/release
cp \"$BINARIES/$what\" commands/target/release/
";

impl Repository {
    pub fn new(mutation: Mutation) -> Repository {
        let folder = Folder::new();
        let scripts = ["judge", "timetable", "release", "README.md", "VERSION", "CHANGES.md", ".gitignore"];
        let commands = ["setup", "start", "commit", "programs", "build.rs", "Cargo.toml", "Cargo.lock"];
        let others =
            ["docs/PROMISES.md", "examples/T.hex", "rust/Cargo.toml", "rust/build.rs", "tools/Cargo.toml"];
        let usages = ["commands/usage/judge.txt", "commands/usage/timetable.txt"];
        let hosts = ["docs/HOST.md", "host/include", "host/example", "host/example.c", "host/stack.txt"];
        let commands = commands.map(|name| format!("commands/{name}"));
        let mut cp = Command::new("cp");
        cp.args(["--parents", "-r"]).args(scripts).args(commands).args(others).args(usages).args(hosts);
        run(cp.arg(&folder.0).current_dir(root()));
        for name in ["commands/src", "rust/src"] {
            symlink(root().join(name), folder.path(name)).expect("a link can be made");
        }
        let crates = "# five\nbasis:\ntime: basis\ntimetable: io time\nexports staticlib: time\njidlekuvo_c staticlib: time\n";
        folder.write("crates.txt", crates);
        for name in ["basis", "time", "timetable", "exports", "jidlekuvo_c"] {
            folder.write(&format!("crates/{name}/src/lib.rt"), name);
        }
        let repository = Repository { folder, machine: Folder::new() };
        repository.stubs();
        repository.folder.apply(mutation);
        repository
    }

    fn stubs(&self) {
        for tool in TOOLS.split_whitespace() {
            let path = std::env::var("PATH").expect("there is a PATH");
            let found = path.split(':').map(|folder| Path::new(folder).join(tool)).find(|file| file.exists());
            let found = found.unwrap_or_else(|| panic!("no {tool} on the PATH"));
            fs::create_dir_all(self.machine.path("tools")).expect("a folder can be made");
            symlink(found, self.machine.path("tools").join(tool)).expect("a link can be made");
        }
        self.machine.script("rt/rt", RT);
        self.machine.script("cargo/cargo", CARGO);
        self.machine.write("rt-lib", RT_LIB);
        self.machine.write("rt-run", RT_RUN);
        self.machine.write("kit", "kit 1\n");
    }

    /// A script of the repository with these on the PATH: "rt cargo", "rt", "cargo" or "".
    pub fn command(&self, script: &str, with: &str) -> Command {
        let mut command = Command::new(self.folder.path(script));
        let here = &self.machine.0;
        let path = with.split_whitespace().chain(["tools"]).map(|name| here.join(name).display().to_string());
        command.env("PATH", path.collect::<Vec<_>>().join(":")).env("HERE", here).env("BUILT", root());
        let binaries = Path::new(env!("CARGO_BIN_EXE_judge")).parent().expect("it is in a folder");
        command.env("BINARIES", binaries).env_remove("JIDLEKUVO_BROKEN").current_dir(&self.folder.0);
        command
    }

    /// What rt and cargo were asked since the last time.
    pub fn asked(&self) -> String {
        let path = self.machine.path("asked.txt");
        let text = fs::read_to_string(&path).unwrap_or_default();
        let _ = fs::remove_file(path);
        text
    }
}
