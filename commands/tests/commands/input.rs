//! What a PLAN is, row by row.

use crate::asking::{ask, ask_within, is, said, same, Answer};
use crate::places::{Commands, Mutation, Repository};
use crate::plans::{hexadecimal, largest, longest, note, t, verdict, wanted};
use std::process::Command;
use std::time::{Duration, Instant};

pub const ALL: [&str; 4] = ["judge", "timetable", "quick judge", "quick timetable"];

fn plain(name: &str) -> &str {
    name.rsplit(' ').next().expect("a word")
}

/// Text that is not hexadecimal is told with line and column; comments are passed over.
pub fn hexadecimal_text(mutation: Mutation) -> Answer {
    let commands = Commands::new(mutation);
    let cases: [(&[u8], &str); 9] = [
        (b"1F 0", "line 1, column 4: a digit without its second"),
        (b"1F\n02 3 03\n", "line 2, column 4: a digit without its second"),
        (b"0x1F", "line 1, column 2: 'x' is no digit"),
        (b"1F, 02", "line 1, column 3: ',' is no digit"),
        (b"# a plan\n1F 0G", "line 2, column 5: 'G' is no digit"),
        ("# für T\n 1F ü".as_bytes(), "line 2, column 5: the byte C3 is no digit"),
        (b"\xEF\xBB\xBF1F", "line 1, column 1: a byte order mark is no digit"),
        (b"\xFF\xFE1\0F\0", "line 1, column 1: a byte order mark is no digit"),
        (b"?", "line 1, column 1: '?' is no digit"),
    ];
    for (text, why) in cases {
        commands.folder.write("plan", text);
        for name in ALL {
            let mut command = commands.command(name);
            command.arg("plan");
            let told = format!("{}{}: plan: not hexadecimal: {why}\n", note(name), plain(name));
            same(name, ask(command), said(2, "", &told))?;
        }
    }
    let commented = format!(
        "# plan T\n{}# ende, ü\n#",
        hexadecimal(&t()).replace("# sixteen\n", "").replace(' ', "\r\n\t")
    );
    answered(&commands, commented.as_bytes(), &t())?;
    answered(&commands, b" \n# nothing\n", b"")
}

/// Both commands, and both by the Rust build, say of a file what they have to say of a plan.
pub fn answered(commands: &Commands, file: &[u8], plan: &[u8]) -> Answer {
    answered_by(&ALL, commands, file, plan)
}

pub fn answered_by(names: &[&str], commands: &Commands, file: &[u8], plan: &[u8]) -> Answer {
    commands.folder.write("plan", file);
    names.iter().try_for_each(|name| {
        let mut command = commands.command(name);
        command.arg("plan");
        same(name, ask(command), wanted(name, plan))
    })
}

/// A file that is longer than any plan has one answer: the verdict on its bytes.
pub fn long_files(mutation: Mutation) -> Answer {
    let commands = Commands::new(mutation);
    for more in [0, 1, 2, 31_103, 40_000] {
        let long = [longest(), vec![0; more]].concat();
        answered(&commands, &long, &long)?;
    }
    let long = [t(), vec![0; 70_000]].concat();
    is("T and 70,000 bytes more", verdict(&long) == said(1, "refused 6 93\n", ""))?;
    answered(&commands, &long, &long)?;
    answered(&commands, hexadecimal(&long).as_bytes(), &long)
}

/// Input without an end is answered, in 100 MB of addresses.
pub fn endless(mutation: Mutation) -> Answer {
    let commands = Commands::new(mutation);
    for (input, plan) in [("</dev/zero", vec![0; 40_000]), ("< <(yes 1F)", vec![0x1F; 40_000])] {
        for name in ["judge", "timetable"] {
            let command = commands.command(name);
            let mut shell = Command::new("bash");
            shell
                .args(["-c", &format!("ulimit -v 100000; exec \"$0\" - {input}")])
                .arg(command.get_program());
            shell.envs(command.get_envs().filter_map(|(name, value)| Some((name, value?))));
            same(input, ask_within(Duration::from_secs(10), shell, b""), wanted(name, &plan))?;
        }
    }
    let mut command = commands.command("judge");
    command.arg("/dev/zero");
    same("/dev/zero", ask_within(Duration::from_secs(10), command, b""), wanted("judge", &[0; 40_000]))
}

/// `-` is the standard input, and a pipe is a file.
pub fn pipes(mutation: Mutation) -> Answer {
    let commands = Commands::new(mutation);
    let plans: [(Vec<u8>, &[&str]); 4] =
        [(t(), &ALL), (largest(), &ALL[..2]), (t()[..40].to_vec(), &ALL), (vec![], &ALL)];
    for (plan, names) in plans {
        for file in [plan.clone(), hexadecimal(&plan).into_bytes()] {
            commands.folder.write("plan", &file);
            names.iter().try_for_each(|name| piped(&commands, name, &file, &plan))?;
        }
    }
    let mut command = Command::new("bash");
    command.args(["-c", "./judge - <&-"]);
    same(
        "closed",
        ask(in_folder(command, &commands)),
        said(2, "", "judge: -: Bad file descriptor (os error 9)\n"),
    )
}

/// A file as the standard input, and its content from a pipe with a name.
fn piped(commands: &Commands, name: &str, file: &[u8], plan: &[u8]) -> Answer {
    let mut command = commands.command(name);
    command.arg("-");
    same(name, ask_within(Duration::from_secs(20), command, file), wanted(name, plan))?;
    let command = commands.command(name);
    let mut shell = Command::new("bash");
    shell.args(["-c", "exec \"$@\" <(cat plan)", "bash"]).arg(command.get_program()).args(command.get_args());
    shell.envs(command.get_envs().filter_map(|(name, value)| Some((name, value?))));
    same(name, ask(in_folder(shell, commands)), wanted(name, plan))
}

fn in_folder(mut command: Command, commands: &Commands) -> Command {
    command.current_dir(&commands.folder.0);
    command
}

/// The usage, and what is no plan file; the scripts say the same before they set anything up.
pub fn words(mutation: Mutation) -> Answer {
    let commands = Commands::new(mutation);
    let repository = Repository::new(mutation);
    for name in ["judge", "timetable"] {
        let usage =
            std::fs::read_to_string(repository.folder.path(&format!("commands/usage/{name}.txt"))).unwrap();
        let cases = [
            (vec!["--help"], said(0, &usage, "")),
            (vec!["-h"], said(0, &usage, "")),
            (vec![], said(2, "", &format!("{name}: no plan is named\n{usage}"))),
            (vec!["/"], said(2, "", &format!("{name}: /: is a directory\n"))),
            (vec!["none"], said(2, "", &format!("{name}: none: no such file\n"))),
        ];
        for (words, wanted) in cases {
            let mut command = commands.command(name);
            command.args(&words);
            same(name, ask(command), said(wanted.status.unwrap_or(9), &wanted.out, &wanted.err))?;
            let mut command = repository.command(name, "");
            command.args(&words);
            same(&format!("the script {name}"), ask(command), wanted)?;
        }
    }
    only_of_one(&commands)
}

fn only_of_one(commands: &Commands) -> Answer {
    commands.folder.write("plan", t());
    let usage = include_str!("../../usage/judge.txt");
    let mut command = commands.command("judge");
    command.args(["plan", "0"]);
    same("judge", ask(command), said(2, "", &format!("judge: 0: one word too many\n{usage}")))?;
    for word in ["256", "-1", "x", "0000", ""] {
        let mut command = commands.command("timetable");
        command.args(["plan", "0", word]);
        let told = format!("timetable: {word}: an outcome is a number from 0 to 255\n");
        same("timetable", ask(command), said(2, "", &told))?;
    }
    let mut command = commands.command("judge");
    command.args(["--quick", "plan"]);
    let told = "judge: --quick belongs to the repository; what stands here is proved\n";
    same("a release", ask(command), said(2, "", told))
}

/// The largest plan as hexadecimal, and 3,000 outcomes: under a second each, in one of three tries.
pub fn speed(mutation: Mutation) -> Answer {
    let commands = Commands::new(mutation);
    commands.folder.write("largest", hexadecimal(&largest()));
    commands.folder.write("T", t());
    let outcomes = vec!["0".to_string(); 3_000];
    let table = crate::plans::table(&t(), &[0; 3_000]);
    let cases = [
        ("judge", "largest", &[][..], wanted("judge", &largest())),
        ("timetable", "largest", &[], wanted("timetable", &largest())),
        ("timetable", "T", &outcomes, table),
    ];
    for (name, plan, outcomes, wanted) in cases {
        let timed = || {
            let start = Instant::now();
            let mut command = commands.command(name);
            command.arg(plan).args(outcomes);
            same(name, ask_within(Duration::from_secs(1), command, b""), wanted.clone())?;
            println!("{name} {plan}, {} outcomes: {:?}", outcomes.len(), start.elapsed());
            Ok::<(), String>(())
        };
        timed().or_else(|_| timed()).or_else(|_| timed())?;
    }
    Ok(())
}
