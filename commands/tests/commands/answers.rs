//! The answers themselves: both commands on plan T cut at each byte and with each bit flipped, and on each kind of file.

use crate::asking::Said;
use crate::input::{answered, answered_by, ALL};
use crate::places::{Commands, Mutation};
use crate::plans::{damaged, hexadecimal, largest, longest, t, wanted};
use std::process::Output;
use std::thread;

fn said(output: Output) -> Said {
    let text = |bytes: Vec<u8>| String::from_utf8_lossy(&bytes).into_owned();
    Said { status: output.status.code(), out: text(output.stdout), err: text(output.stderr) }
}

#[test]
fn both_commands_agree_with_the_rust_build_on_every_damaged_plan() {
    let commands = Commands::new(Mutation::None);
    let plans = damaged();
    assert_eq!(plans.len(), 93 + 744);
    thread::scope(|scope| {
        for half in 0..2 {
            let (commands, plans) = (&commands, &plans);
            scope.spawn(move || (half..plans.len()).step_by(2).for_each(|n| agree(commands, n, &plans[n])));
        }
    });
}

/// Both say the same, and what the Rust build says; every third file is hexadecimal.
fn agree(commands: &Commands, n: usize, plan: &[u8]) {
    let file = if n % 3 == 0 { hexadecimal(plan).into_bytes() } else { plan.to_vec() };
    let path = commands.folder.write(&format!("{n}"), file);
    let [judged, table] = ["judge", "timetable"].map(|name| {
        let answer = said(commands.command(name).arg(&path).output().expect("the command runs"));
        assert_eq!(answer, wanted(name, plan), "{name} {plan:02X?}");
        answer
    });
    assert_eq!(judged.status == Some(1), judged.out == table.out, "{plan:02X?}");
    assert_eq!(judged.status, table.status, "{plan:02X?}");
    std::fs::remove_file(path).expect("it is there");
}

#[test]
fn each_file_has_one_answer_as_binary_and_as_hexadecimal() {
    let commands = Commands::new(Mutation::None);
    let flipped = [&[0x1E], &t()[1..]].concat();
    for plan in [t(), largest(), longest(), flipped, t()[..1].to_vec(), vec![], vec![0xFF; 64]] {
        answered(&commands, &plan, &plan).unwrap();
        let plain = hexadecimal(&plan).to_lowercase().replace("# sixteen\n", "");
        for text in [hexadecimal(&plan), plain] {
            answered_by(&ALL[..2], &commands, text.as_bytes(), &plan).unwrap();
        }
    }
}
