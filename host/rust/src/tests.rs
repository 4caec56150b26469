//! Plan T through the wrapper, and what the wrapper makes of replies.

use crate::faults::{opening, verdict};
use crate::library::HostReply;
use crate::{judge, Fault, Number, OpenError, Refusal, Reply, Run, Stop};

/// The bytes of examples/T.hex.
fn plan_t() -> Vec<u8> {
    let digits: Vec<char> =
        include_str!("../../../examples/T.hex").chars().filter(|c| !c.is_whitespace()).collect();
    let byte = |pair: &[char]| u8::from_str_radix(&pair.iter().collect::<String>(), 16).expect("two digits");
    digits.chunks(2).map(byte).collect()
}

fn opened() -> Run {
    Run::open(&plan_t(), 1_000_000, 500, &[0, 0]).expect("plan T opens")
}

fn refused(plan: &[u8], psi: u64, slack: u64, available: &[u64]) -> OpenError {
    Run::open(plan, psi, slack, available).expect_err("it is refused")
}

#[test]
fn a_run_goes_to_another_thread() {
    fn is_send<T: Send>(it: T) -> T {
        it
    }
    let mut run = is_send(opened());
    let first = std::thread::spawn(move || (run.ask(1_000_000), run)).join().expect("it ends");
    let (reply, mut run) = first;
    assert_eq!(reply, Reply::Start { position: 0, activity: 0, node: 2 });
    assert_eq!(run.ask(1_000_000), Reply::Wait);
}

#[test]
fn plan_t_runs_to_its_end() {
    let mut run = opened();
    let rows = [(0, 0, 2, 0, 3000), (0, 0, 3, 3000, 8000), (0, 0, 4, 8000, 9000), (1, 1, 1, 9000, 11000)];
    for (position, activity, node, start, end) in rows {
        assert_eq!(run.ask(1_000_000 + start), Reply::Start { position, activity, node });
        let reading = 1_000_000 + end - 1;
        match node {
            4 => assert_eq!(run.outcome(reading, position, node, 1), Reply::Taken),
            _ => assert_eq!(run.completion(reading, position, node), Reply::Taken),
        }
    }
    assert_eq!(run.ask(1_011_000), Reply::Done);
    assert_eq!(run.ask(1_010_999), Reply::Refused(Refusal::ReadingBelow));
}

#[test]
fn calls_are_refused_by_their_number() {
    let mut run = opened();
    assert_eq!(run.completion(1_000_000, 0, 2), Reply::Refused(Refusal::NotStarted));
    run.ask(1_000_000);
    assert_eq!(run.outcome(1_000_000, 0, 2, 0), Reply::Refused(Refusal::OtherKind));
    assert_eq!(run.completion(1_000_000, 1, 2), Reply::Refused(Refusal::NoSuchNode));
    assert_eq!(run.completion(999_999, 0, 2), Reply::Refused(Refusal::ReadingBelow));
    assert_eq!(run.completion(1_002_999, 0, 2), Reply::Taken);
    run.ask(1_003_000);
    run.completion(1_003_001, 0, 3);
    run.ask(1_008_000);
    assert_eq!(run.outcome(1_008_000, 0, 4, 2), Reply::Refused(Refusal::OutcomeLacking));
}

#[test]
fn stops_are_kept() {
    let late = Reply::Stopped(Stop::Late { position: 0, node: 2 });
    let mut run = opened();
    assert_eq!(run.ask(1_000_501), late);
    assert_eq!(run.completion(0, 7, 7), late);
    let overdue = Reply::Stopped(Stop::Overdue { position: 0, node: 2 });
    let mut run = opened();
    run.ask(1_000_000);
    assert_eq!(run.completion(1_003_000, 0, 2), overdue);
    assert_eq!(run.ask(u64::MAX), overdue);
}

#[test]
fn openings_are_refused_by_their_number_and_place() {
    let plan = plan_t();
    assert_eq!(refused(&plan, 0, 500, &[]), OpenError::Availabilities);
    assert_eq!(refused(&plan, u64::MAX, 500, &[0, 0]), OpenError::Time);
    assert_eq!(refused(&plan, 0, 0, &[0, 0]), OpenError::Slack);
    assert_eq!(refused(&plan, 0, 1_000, &[0, 0]), OpenError::Short { activity: 0 });
    assert_eq!(refused(&plan, 0, 500, &[999_999_999_991_001; 2]), OpenError::Beyond);
    assert_eq!(refused(&[], 0, 500, &[]), OpenError::Plan(Fault { number: Number::Ends, place: 0 }));
    let long = [plan, vec![0]].concat();
    assert_eq!(refused(&long, 0, 1, &[0; 255]).place(), 93);
    assert_eq!(judge(&long), Err(Fault { number: Number::LeftOver, place: 93 }));
    assert_eq!(judge(&plan_t()), Ok(()));
    assert_eq!(judge(&[]), Err(Fault { number: Number::Ends, place: 0 }));
}

#[test]
fn every_number_is_told() {
    let told = HostReply { place: 7, position: 5, kind: 5, number: 0, activity: 0, node: 3 };
    for number in Number::all() {
        let said = verdict((number as u64) << 32 | 7).expect_err("it is refused").to_string();
        assert!(said.starts_with(&format!("refused {}", number as u8)), "{said}");
        assert!(said.ends_with(number.sentence()) && !number.sentence().is_empty(), "{said}");
        let place =
            if number.place().is_empty() { String::new() } else { format!(" at {} 7", number.place()) };
        assert!(said.contains(&format!("{place}: ")), "{said}");
        let error = opening(HostReply { number: number as u8, ..told }).expect_err("it is refused");
        assert_eq!(error.number(), number);
        if (50..=55).contains(&(number as u8)) {
            let reply = Reply::from(HostReply { number: number as u8, ..told });
            assert_eq!(reply.to_string(), format!("refused {}: {}", number as u8, number.sentence()));
        }
        if (41..=44).contains(&(number as u8)) {
            let reply = Reply::from(HostReply { kind: 6, number: number as u8, ..told });
            let node = if number <= Number::Overdue { " at position 5 node 3" } else { "" };
            assert_eq!(reply.to_string(), format!("stopped {}{node}: {}", number as u8, number.sentence()));
        }
    }
    assert_eq!(opening(HostReply { kind: 0, ..told }), Ok(()));
    assert_eq!(verdict(0), Ok(()));
}

#[test]
fn numbers_are_told_with_their_sentence() {
    assert_eq!(Number::Short.to_string(), "33: an action or event does not last longer than the slack");
    for number in Number::all() {
        assert_eq!(number.to_string(), format!("{}: {}", number as u8, number.sentence()));
    }
}

#[test]
fn replies_without_a_number_are_told() {
    let told = HostReply { place: 0, position: 5, kind: 1, number: 0, activity: 9, node: 3 };
    assert_eq!(Reply::from(told).to_string(), "start position 5 activity 9 node 3");
    for (kind, word) in [(2, "wait"), (3, "done"), (4, "taken")] {
        assert_eq!(Reply::from(HostReply { kind, ..told }).to_string(), word);
    }
}
