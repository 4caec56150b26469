//! Calls over the host link, by hand: plan T, Ψ 1,000,000, slack 500, bytes written out. The reader and
//! the writer alone stand in `link/messages.rs`.

mod messages;

use super::judge_hits;
use crate::check;
use crate::compare::hits::Hits;
use crate::compare::link::{wanted_of_messages, Shown};
use crate::compare::settings::{self, run_cases};
use crate::compare::smaller::smallest_message_list;
use crate::compare::Failure;
use crate::drive::TOO_SHORT;
use crate::generate::messages::message_lists;
use crate::generate::{from_hex, plan_t, to_hex};
use crate::link;
use crate::run::{Opening, Reply, Run};
use crate::toggles::{with_broken, Broken};

const OPENED: &str = "00 00 00 00 00 00 00 00 00 00 00 00 00 00 00 00";
/// The record of 32.
const REFUSED: &str = "05 20 00 00 00 00 00 00 00 00 00 00 00 00 00 00";

const ASK_AT_PSI: &str = "01 40 42 0F 00 00 00 00 00";
const FIRST_START: &str = "16 00 00 00 00 02 00";
const REPORTED_IN_TIME: &str = "07 F7 4D 0F 00 00 00 00 00 00 00 00 00 02";

/// Messages and their answers.
type Exchange<'a> = &'a [(&'static str, &'static str)];

/// T's opening with a slack of two bytes, as an input has it.
fn opening(slack: &str) -> Vec<u8> {
    let after = "40 42 0F 00 00 00 00 00 ".to_string() + slack + " 00 00 00 00 00 00 02";
    [vec![0x5D, 0x00], plan_t(), from_hex(&after), vec![0; 16]].concat()
}

fn with_length(message: &str) -> Vec<u8> {
    let bytes = from_hex(message);
    [vec![bytes.len() as u8], bytes].concat()
}

fn driven(input: &[u8]) -> Vec<u8> {
    let mut out = vec![0; 4_000];
    let written = link::drive(input, &mut out);
    out.truncate(written);
    out
}

fn answered(what: &str, opening: Vec<u8>, record: &str, exchange: Exchange) -> Result<(), String> {
    let (mut input, mut wanted) = (opening, from_hex(record));
    for (message, answer) in exchange {
        input.extend(with_length(message));
        wanted.extend(with_length(answer));
    }
    let found = driven(&input);
    match found == wanted {
        true => Ok(()),
        false => Err(format!("{what}: {} instead of {}", to_hex(&found), to_hex(&wanted))),
    }
}

fn of_t(what: &str, exchange: Exchange) -> Result<(), String> {
    answered(what, opening("F4 01"), OPENED, exchange)
}

fn k8_to_k12() -> Result<(), String> {
    of_t("K8", &[("01 3F 42 0F 00 00 00 00 00", "00")])?;
    of_t("K9", &[("01 34 44 0F 00 00 00 00 00", FIRST_START)])?;
    of_t("K9", &[("01 35 44 0F 00 00 00 00 00", "26 00 00 00 00 02 29")])?;
    let started = (ASK_AT_PSI, FIRST_START);
    let overdue = ("07 F8 4D 0F 00 00 00 00 00 00 00 00 00 02", "26 00 00 00 00 02 2A");
    let reported = (REPORTED_IN_TIME, "80");
    of_t("K10", &[started, reported])?;
    of_t("K10", &[started, overdue])?;
    let next = ("01 F8 4D 0F 00 00 00 00 00", "16 00 00 00 00 03 00");
    of_t("K11", &[started, reported, next])?;
    of_t("K12", &[started, reported, ("01 F6 4D 0F 00 00 00 00 00", "20 33")])?;
    let early = ("07 F6 4D 0F 00 00 00 00 00 00 00 00 00 03", "20 33");
    of_t("K12 later", &[started, reported, next, early])
}

/// T to its end by the outcome 1, with 52 to 55 on the way.
fn a_whole_run() -> Result<(), String> {
    of_t(
        "a whole run",
        &[
            ("07 40 42 0F 00 00 00 00 00 00 00 00 00 02", "20 35"),
            (ASK_AT_PSI, FIRST_START),
            ("0F 40 42 0F 00 00 00 00 00 00 00 00 00 02 00", "20 36"),
            ("07 40 42 0F 00 00 00 00 00 02 00 00 00 00", "20 34"),
            (REPORTED_IN_TIME, "80"),
            ("01 F8 4D 0F 00 00 00 00 00", "16 00 00 00 00 03 00"),
            ("07 7F 61 0F 00 00 00 00 00 00 00 00 00 03", "80"),
            ("01 80 61 0F 00 00 00 00 00", "16 00 00 00 00 04 00"),
            ("0F 67 65 0F 00 00 00 00 00 00 00 00 00 04 02", "20 37"),
            ("0F 67 65 0F 00 00 00 00 00 00 00 00 00 04 01", "80"),
            ("01 67 65 0F 00 00 00 00 00", "00"),
            ("01 68 65 0F 00 00 00 00 00", "16 01 00 00 00 01 01"),
            ("07 37 6D 0F 00 00 00 00 00 01 00 00 00 01", "80"),
            ("01 37 6D 0F 00 00 00 00 00", "40"),
        ],
    )
}

/// Bad messages and their numbers. All that are long enough carry a late reading.
const BAD: Exchange = &[
    ("", "20 3E"),
    ("01", "20 3E"),
    ("01 FF FF FF FF FF FF FF", "20 3E"),
    ("01 FF FF FF FF FF FF FF 7F 00", "20 3E"),
    ("07 FF FF FF FF FF FF FF 7F 00 00 00 00", "20 3E"),
    ("07 FF FF FF FF FF FF FF 7F 00 00 00 00 02 00", "20 3E"),
    ("0F FF FF FF FF FF FF FF 7F 00 00 00 00 02", "20 3E"),
    ("0F FF FF FF FF FF FF FF 7F 00 00 00 00 02 00 00", "20 3E"),
    ("00 00", "20 3E"),
    ("40 FF FF FF FF FF FF FF 7F", "20 3E"),
    ("02 00 00 00", "20 3E"),
    ("FF FF FF FF FF FF FF FF 7F 00 00 00 00 00 00 00", "20 3E"),
    ("00", "20 3D"),
    ("40", "20 3D"),
    ("80", "20 3D"),
    ("C0", "20 3D"),
    ("20 3E", "20 3D"),
    ("20 63", "20 3D"),
    ("16 00 00 00 00 02 00", "20 3D"),
    ("26 00 00 00 00 02 29", "20 3D"),
    ("02 00 00 00 00", "20 3D"),
    ("03 FF FF FF FF FF FF FF 7F 00 00 00 00", "20 3D"),
    ("41 FF FF FF FF FF FF FF 7F", "20 3D"),
    ("0B FF FF FF FF FF FF FF 7F 00 00 00 00 02", "20 3D"),
    ("FF FF FF FF FF FF FF FF 7F 00 00 00 00 00 00 00 00", "20 3D"),
];

/// Every bad message before and after an exchange.
fn all(exchange: Exchange) -> Vec<(&'static str, &'static str)> {
    [BAD, exchange, BAD].concat()
}

/// Bad messages before 50, before a kept stop and between calls, which are answered as without them.
fn bad_messages() -> Result<(), String> {
    of_t("running", &[all(&[(ASK_AT_PSI, FIRST_START)]), all(&[(REPORTED_IN_TIME, "80")])].concat())?;
    let stop = "26 00 00 00 00 02 29";
    let stopped = all(&[("01 35 44 0F 00 00 00 00 00", stop)]);
    let kept = all(&[(ASK_AT_PSI, stop), (REPORTED_IN_TIME, stop)]);
    of_t("stopped", &[stopped, kept].concat())?;
    let zeros = all(&[(ASK_AT_PSI, "20 32"), (REPORTED_IN_TIME, "20 32")]);
    answered("zeros", opening("00 00"), REFUSED, &zeros)
}

/// "hands back the run exactly as it came in".
fn handed_back() -> Result<(), String> {
    let (slack, availabilities) = (500, vec![0, 0]);
    let opened = Run::open(&Opening { plan: plan_t(), psi: 1_000_000, slack, availabilities }).1;
    let started = opened.clone().ask(1_000_000).1;
    let stopped = started.clone().ask(2_000_000).1;
    for run in [opened, started, stopped, Run::zeros()] {
        for (message, answer) in BAD {
            let (reply, after) = run.clone().receive(&from_hex(message));
            let number = from_hex(answer)[1];
            if reply != Reply::Refused(number) || after != run {
                return Err(format!("{message} gets {reply:?} or changes the run"));
            }
        }
    }
    Ok(())
}

/// Where an input ends, and buffers of every length.
fn lists_as_bytes() -> Result<(), String> {
    let input = [opening("F4 01"), with_length(ASK_AT_PSI), with_length("")].concat();
    let wanted = [from_hex(OPENED), with_length(FIRST_START), with_length("20 3E")].concat();
    for room in 0..wanted.len() + 3 {
        let (mut out, filled) = (vec![0x3C; room], vec![0x3C; room]);
        let written = link::drive(&input, &mut out);
        let is_good = match room < wanted.len() {
            true => written == TOO_SHORT && out == filled,
            false => written == wanted.len() && out == [&wanted, &filled[written..]].concat(),
        };
        if !is_good {
            return Err(format!("a buffer of {room} bytes: {written}, {}", to_hex(&out)));
        }
    }
    let whole = opening("F4 01").len();
    for end in 0..input.len() {
        let length = match end {
            _ if end < whole => 0,
            _ if end < input.len() - 1 => 16,
            _ => wanted.len() - 3,
        };
        if driven(&input[..end]) != wanted[..length] {
            return Err(format!("cut at {end}: {}", to_hex(&driven(&input[..end]))));
        }
    }
    Ok(())
}

/// All that is written out by hand.
pub fn by_hand() -> Result<(), String> {
    k8_to_k12()?;
    a_whole_run()?;
    bad_messages()?;
    handed_back()?;
    lists_as_bytes()?;
    messages::by_hand()
}

/// What a list shows, if it is answered as by the second account.
fn checked(input: &[u8]) -> Result<Shown, String> {
    let wanted = check::link::answers(input).unwrap_or_default();
    let mut shown = Shown::default();
    let mut out = vec![0x3C; wanted.len() + 3];
    let written = link::drive_shown(input, &mut out, |met, message, reply| shown.look(met, message, reply));
    if written != wanted.len() || out != [&wanted[..], &[0x3C; 3]].concat() {
        return Err(format!("{} instead of {}", to_hex(&out), to_hex(&wanted)));
    }
    shown.look_at_list(input, &wanted);
    Ok(shown)
}

/// The smallest list found that is answered in another way.
fn smallest_failure(input: &[u8], what: String) -> Failure {
    let smallest = smallest_message_list(input, |tried| checked(tried).is_err());
    Failure::new(checked(&smallest).err().unwrap_or(what), &smallest)
}

/// Lists of messages, four for each opening.
pub fn message_lists_answered(seed: u64, cases: usize, hits: &mut Hits) -> Result<(), String> {
    run_cases(seed, cases.div_ceil(4), |random| {
        for input in message_lists(random, 4) {
            let shown = checked(&input).map_err(|what| smallest_failure(&input, what))?;
            shown.count(hits);
        }
        Ok(())
    })
}

#[test]
fn messages_by_hand_are_answered() {
    by_hand().unwrap();
}

#[test]
fn message_lists_are_answered_as_their_calls() {
    let mut hits = Hits::default();
    let cases = settings::cases(4_000);
    message_lists_answered(settings::seed(), cases, &mut hits).unwrap_or_else(|what| panic!("{what}"));
    // A debug build has too few lists for all of them.
    let wanted = if cfg!(debug_assertions) { vec![] } else { wanted_of_messages() };
    judge_hits("messages", &hits, &wanted);
}

/// What can be seen in the answers to a list.
#[test]
fn broken_links_are_noticed_by_lists() {
    let toggles = [
        Broken::UnlistedBeforeLength,
        Broken::NodeBeforePosition,
        Broken::PositionBigEndian,
        Broken::BadMessageMovesReading,
        Broken::KeptStopBeforeLink,
        Broken::LimitsBeforeLink,
        Broken::CutMessageTaken,
    ];
    for toggle in toggles {
        let check = || message_lists_answered(settings::seed(), 400, &mut Hits::default());
        let what = with_broken(toggle, check).expect_err(&format!("{toggle:?} is not noticed"));
        println!("{toggle:?}: {}", what.lines().next().unwrap_or_default());
    }
}
