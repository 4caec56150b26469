//! `plan`: the tools for who writes a plan. `./plan` builds and calls it.

use jidlekuvo_tools::arguments::{arguments, USAGE};
use jidlekuvo_tools::commands::run;
use std::process::ExitCode;

fn main() -> ExitCode {
    let words: Result<Vec<String>, _> = std::env::args_os().skip(1).map(|word| word.into_string()).collect();
    let Ok(words) = words else {
        eprintln!("plan: a word of the command is not UTF-8");
        return ExitCode::from(2);
    };
    if matches!(words.first().map(String::as_str), Some("help" | "--help" | "-h")) {
        println!("{USAGE}");
        return ExitCode::SUCCESS;
    }
    match arguments(&words).and_then(|given| run(&given)) {
        Ok(status) => ExitCode::from(status),
        Err(why) => {
            eprintln!("plan: {why}");
            ExitCode::from(2)
        }
    }
}
