//! The rows of what a user meets, each with the ways to break the commands that its check must notice.

use crate::asking::Answer;
use crate::places::Mutation::{self, Edit, Toggle};
use crate::{input, output, release, set_up};

pub type Check = fn(Mutation) -> Answer;

/// A row: what is checked, and what must be noticed.
pub struct Row(pub &'static str, pub Check, pub &'static [Mutation]);

const MANIFEST: &str = "commands/Cargo.toml";

const fn edit(file: &'static str, old: &'static str, new: &'static str) -> Mutation {
    Edit { file, old, new }
}

const fn setup(old: &'static str, new: &'static str) -> Mutation {
    edit("commands/setup", old, new)
}

const fn start(old: &'static str, new: &'static str) -> Mutation {
    edit("commands/start", old, new)
}

const fn pack(old: &'static str, new: &'static str) -> Mutation {
    edit("release", old, new)
}

pub const ROWS: &[Row] = &[
    Row(
        "a line for each crate",
        set_up::each_crate,
        &[
            setup("say \"$((number + 1)) of", ": \"$((number + 1)) of"),
            setup("$((number + 1)) of", "$number of"),
            setup("for (n = 1; n <= count; n++) visit(list[n])", ""),
            setup("grep -q '^rt: running ' \"$log\"", "false"),
        ],
    ),
    Row(
        "a proof that fails",
        set_up::failing_proof,
        &[
            setup("[ \"${PIPESTATUS[0]}\" -eq 0 ] || grep -q '^rt: running ' \"$log\" || failed \"$1\"", ":"),
            setup("head -n 5", "head -n 0"),
            setup("tail -n 5", "head -n 5"),
            setup("if [ \"$crate\" ]; then", "if false; then"),
        ],
    ),
    Row(
        "a small package",
        set_up::small_package,
        &[
            edit(MANIFEST, "[features]\n", "[features]\ndefault = [\"quick\"]\n"),
            setup("set_up_command judge proved", "set_up_command judge proved,quick"),
        ],
    ),
    Row("speed", input::speed, &[Toggle("SlowDigits"), Toggle("SlowOutcomes")]),
    Row(
        "output that fails",
        output::failing_output,
        &[Toggle("WriteFailureIgnored"), Toggle("ClosedOutputTaken")],
    ),
    Row(
        "output that fails, of the scripts",
        output::failing_output_of_scripts,
        &[start("exec \"$target/$name\" \"${words[@]}\"", "\"$target/$name\" \"${words[@]}\" | cat")],
    ),
    Row("rows as they settle", output::rows_settle, &[Toggle("TableGathered")]),
    Row(
        "a reader that closes",
        output::closing_reader,
        &[Toggle("ProgramLeftAlone"), Toggle("WriteFailureIgnored")],
    ),
    Row("whole tables", output::whole_tables, &[Toggle("CutTableTaken"), Toggle("RefusedTableIs0")]),
    Row(
        "hexadecimal",
        input::hexadecimal_text,
        &[Toggle("OnlyPureDigitsAreText"), Toggle("CommentIsNoText"), Toggle("ColumnFromZero")],
    ),
    Row("long files", input::long_files, &[Toggle("KeepsOneByteLess")]),
    Row("input without an end", input::endless, &[Toggle("ReadsToTheEnd")]),
    Row("standard input and pipes", input::pipes, &[Toggle("DashIsAFile")]),
    Row(
        "words",
        input::words,
        &[
            Toggle("HelpIsAFile"),
            Toggle("DirectoryIsNoFile"),
            Toggle("OutcomeAbove255"),
            start("-h | --help)", "-h)"),
            start("elif [ -d \"$plan\" ]", "elif [ -d \"$plan/none\" ]"),
        ],
    ),
    Row(
        "missing tools",
        set_up::missing_tools,
        &[
            setup("    needs rt \"$2\"\n", ""),
            setup("    needs cargo \"command $what\"\n", ""),
            setup("|| cut -d' ' -f2- \"target/setup/$1\" 2>/dev/null", ""),
        ],
    ),
    Row(
        "a crate that has changed",
        set_up::changed_crate,
        &[
            setup("is_ready program \"$file\" \"$sources\" &&", "[ -e \"$file\" ] &&"),
            setup("is_ready \"$what\" \"$file\" \"$sources\" &&", "[ -e \"$file\" ] &&"),
            setup("$(sum crates crates.txt)", "$(sum crates)"),
            setup(" -path 'crates/*/out' -prune -o", ""),
            setup("\n    built program \"$sources\"", ""),
        ],
    ),
    Row("two at once", set_up::two_at_once, &[setup("! flock -n 9", "false")]),
    Row(
        "--quick",
        set_up::quick,
        &[
            Toggle("QuickUntold"),
            start("\"$here/setup\" \"$name\" quick", "\"$here/setup\" \"$name\" quick \"$name\""),
        ],
    ),
    Row(
        "with no proof",
        set_up::with_no_proof,
        &[edit("crates/judge/src/lib.rt", "use plan::{", "mod plan_read;\n\nuse plan::{")],
    ),
    Row(
        "versions",
        set_up::versions,
        &[
            edit(MANIFEST, "rust-version = \"1.82\"\n", ""),
            edit("rust/Cargo.toml", "rust-version = \"1.82\"\n", ""),
            edit("README.md", "Rust 1.82 or later", "Rust"),
            edit("VERSION", "0.1.0", "0.2.0"),
        ],
    ),
    Row(
        "a release that is refused",
        release::refused,
        &[
            edit("commands/commit", " && [ -z \"$changes\" ]", ""),
            pack("[ \"$tested\" != \"$commit\" ]", "false"),
            pack("[[ ! $last =~ ^[1-9][0-9]*\\ passed,\\ 0\\ failed$ ]]", "false"),
            pack("[ \"$programs\" != \"$(commands/programs)\" ]", "false"),
            edit("commands/programs", " target/bin/timetable", ""),
            edit("commands/programs", " target/staticlib/libjidlekuvo.a", ""),
        ],
    ),
    Row(
        "a release that is packed",
        release::packed,
        &[
            pack("    --mtime=\"@$(git log -1 --format=%ct)\" \"$folder\"", "    \"$folder\""),
            pack("    cp target/bin/timetable \"$room/$folder/bin\" &&\n", ""),
            pack("toolchain=$(rt version)", "toolchain=$(true)"),
            pack("judge timetable host ||", "judge timetable ||"),
            pack("    cp host/example/*.[ch] \"$room/$folder/host/example\" &&\n", ""),
            edit("docs/HOST.md", "host/example/*.c lib/libjidlekuvo.a", "lib/libjidlekuvo.a"),
        ],
    ),
];
