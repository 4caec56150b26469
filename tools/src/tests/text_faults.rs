//! Each text fault, with its line, column, what was expected and the nearest name.

use crate::commands::checked_bytes;
use crate::text::parse;

const GOOD: &str = "plan 1
resource head
peripheral needle on head
event thread: whole, broken
activity stitch
  c: claim head
  sew: action 1 needle for 3000 after c
  look: event thread for 500 after sew
  r: release head after look
state begin initial
state asks
state end final
from begin to asks do stitch
from asks to asks on thread whole do stitch
from asks to end on thread broken
";

/// The fault of the text with one line replaced.
fn fault_with(line: usize, other: &str) -> String {
    let lines = GOOD.lines().enumerate().map(|(at, old)| if at + 1 == line { other } else { old });
    let text: Vec<&str> = lines.collect();
    parse(&text.join("\n")).map_or_else(|fault| fault.to_string(), |_| "accepted".into())
}

#[test]
fn the_text_of_the_issue_is_good() {
    assert!(checked_bytes(GOOD).is_ok());
}

/// A line, what stands there instead, and the fault.
#[rustfmt::skip]
const FAULTS: &[(usize, &str, &str)] = &[
    (1, "plan 2", "line 1, column 6: expected the version, 1, found '2'"),
    (1, "plan", "line 1, column 5: expected the version, 1, found the end of the line"),
    (1, "# none", "line 2, column 1: expected 'plan 1' as the first line, found none"),
    (2, "resource", "line 2, column 9: expected a name for the resource (it begins with a letter), found the end of the line"),
    (2, "resource 1st", "line 2, column 10: expected a name for the resource (it begins with a letter), found '1st'"),
    (2, "resource head tail", "line 2, column 15: expected the end of the line, found 'tail'"),
    (2, "plan 1", "line 2, column 1: expected one 'plan' line, found a second one"),
    (3, "peripheral needle on haed", "line 3, column 22: expected a resource, found 'haed'; the nearest is 'head'"),
    (3, "peripheral needle in head", "line 3, column 19: expected 'on', found 'in'"),
    (4, "event thread whole, broken", "line 4, column 14: expected ':', found 'whole'"),
    (4, "event thread: whole,", "line 4, column 21: expected a name for an outcome (it begins with a letter), found the end of the line"),
    (4, "event thread: whole, whole", "line 4, column 22: expected a new name, found 'whole' a second time"),
    (4, "event thread: a, b, c, d, e, f, g, h, i", "line 4, column 39: expected at most 8 outcomes of an event, found one more, 'i'"),
    (4, "resource frame", "line 4, column 1: expected it before the first 'peripheral' line, found a 'resource' line"),
    (5, "", "line 6, column 1: expected an 'activity' line before the first node, found a 'claim' line"),
    (9, "activity trim", "line 10, column 1: expected a node of the activity, found a 'state' line"),
    (6, "  c: claims head", "line 6, column 6: expected 'claim', 'action', 'release' or 'event', found 'claims'; the nearest is 'claim'"),
    (7, "  sew: action 256 needle after c", "line 7, column 15: expected an action number, from 0 to 255, found '256'"),
    (7, "  sew: action 01 needle after c", "line 7, column 15: expected an action number, from 0 to 255, found '01'"),
    (7, "  sew: action 1 needle for 0 after c", "line 7, column 28: expected a duration, from 1 to 60000000, found '0'"),
    (7, "  sew: action 1 needle for 60000001", "line 7, column 28: expected a duration, from 1 to 60000000, found '60000001'"),
    (7, "  sew: action 1 nedle for 1", "line 7, column 17: expected a peripheral, found 'nedle'; the nearest is 'needle'"),
    (7, "  sew: action 1 needle after c, c", "line 7, column 33: expected each predecessor once, found 'c' a second time"),
    (7, "  sew: action 1 needle after", "line 7, column 29: expected a node of this activity (it begins with a letter), found the end of the line"),
    (7, "  sew: action 1 needle behind c", "line 7, column 24: expected 'for' or 'after' or the end of the line, found 'behind'"),
    (8, "  look: event thraed for 500 after sew", "line 8, column 15: expected an event, found 'thraed'; the nearest is 'thread'"),
    (8, "  look: event thread for 500 after swe", "line 8, column 36: expected a node of this activity, found 'swe'; the nearest is 'sew'"),
    (8, "  sew: event thread for 500 after c", "line 8, column 3: expected a new name, found 'sew' a second time"),
    (10, "state begin", "line 16, column 1: expected one state marked 'initial', found the end of the text"),
    (11, "state asks initial", "line 11, column 7: expected one initial state, found a second one, 'asks'"),
    (13, "from begin to ask do stitch", "line 13, column 15: expected a state, found 'ask'; the nearest is 'asks'"),
    (13, "from begin to asks do stich", "line 13, column 23: expected an activity, found 'stich'; the nearest is 'stitch'"),
    (14, "from asks to asks on thread hole do stitch", "line 14, column 29: expected an outcome of this event, found 'hole'; the nearest is 'whole'"),
    (14, "from asks to asks on bobbin full", "line 14, column 22: expected an event, found 'bobbin'"),
];

#[test]
fn each_fault_is_told() {
    for (line, text, said) in FAULTS {
        assert_eq!(fault_with(*line, text), *said, "{text}");
    }
    let words = "'plan', 'resource', 'peripheral', 'event', 'activity', 'state' or 'from'";
    let said = format!("line 2, column 1: expected {words}, found 'resorce'; the nearest is 'resource'");
    assert_eq!(fault_with(2, "resorce head"), said);
    let letters = "letters, digits, `_`, `-`, `.`, `:`, `,` or a comment";
    assert_eq!(fault_with(2, "resource he;d"), format!("line 2, column 12: expected {letters}, found ';'"));
    let long = "n".repeat(65);
    let said = "line 2, column 10: expected a name for the resource of at most 64 characters";
    assert_eq!(fault_with(2, &format!("resource {long}")), format!("{said}, found '{long}'"));
}

/// So many lines, each from its number, between a start and an end.
fn many(start: &str, count: usize, line: impl Fn(usize) -> String, end: &str) -> Result<(), String> {
    let lines: String = (0..count).map(line).collect();
    parse(&format!("{start}{lines}{end}")).map(drop).map_err(|fault| fault.to_string())
}

#[test]
fn each_limit_is_told() {
    let end = "state s initial final\n";
    let resource = |n: usize| format!("resource x{n}\n");
    assert_eq!(many("plan 1\n", 16, resource, end), Ok(()));
    assert_eq!(
        many("plan 1\n", 17, resource, end).unwrap_err(),
        "line 18, column 10: expected at most 16 resources, found one more, 'x16'"
    );
    let start = "plan 1\nresource h\n";
    let peripheral = |n: usize| format!("peripheral x{n} on h\n");
    assert_eq!(many(start, 64, peripheral, end), Ok(()));
    assert!(many(start, 65, peripheral, end).unwrap_err().contains("at most 64 peripherals"));
    let event = |n: usize| format!("event x{n}: o\n");
    assert_eq!(many("plan 1\n", 16, event, end), Ok(()));
    assert!(many("plan 1\n", 17, event, end).unwrap_err().contains("at most 16 events"));
    let activity = |n: usize| format!("activity x{n}\n c: claim h\n");
    assert_eq!(many(start, 32, activity, end), Ok(()));
    assert!(many(start, 33, activity, end).unwrap_err().contains("at most 32 activities"));
    let node = |n: usize| format!(" x{n}: claim h\n");
    let one = "plan 1\nresource h\nactivity a\n";
    assert_eq!(many(one, 64, node, end), Ok(()));
    assert!(many(one, 65, node, end).unwrap_err().contains("at most 64 nodes of an activity"));
    let all = |count: usize| (0..count).map(|n| format!("x{n}")).collect::<Vec<_>>().join(", ");
    assert_eq!(many(one, 9, node, &format!(" r: release h after {}\n{end}", all(8))), Ok(()));
    let nine = many(one, 9, node, &format!(" r: release h after {}\n{end}", all(9)));
    assert_eq!(
        nine.unwrap_err(),
        "line 13, column 53: expected at most 8 predecessors, found one more, 'x8'"
    );
}

#[test]
fn limits_of_the_text_are_told() {
    let many = format!("plan 1\nstate s initial\n{}", "from s to s\n".repeat(3_000));
    let said = parse(&many).unwrap_err().to_string();
    assert_eq!(
        said,
        "line 2498, column 1: expected at most 2497 lines, as many as a plan can need, found one more"
    );
    let long = format!("plan 1\nresource {}\n", "r ".repeat(100));
    let said = parse(&long).unwrap_err().to_string();
    assert_eq!(said, "line 2, column 137: expected at most 64 words and marks in a line, found more");
    let said = fault_with(2, &format!("resource {}", "r".repeat(1_000)));
    assert!(said.ends_with("r'..") && said.len() < 250, "{said}");
}

#[test]
fn limits_of_the_automaton_are_told() {
    let state = |n: usize| format!("state x{n}\n");
    let start = "plan 1\nstate s initial\n";
    assert_eq!(many(start, 63, state, ""), Ok(()));
    assert!(many(start, 64, state, "").unwrap_err().contains("at most 64 states"));
    let way = |_: usize| "from s to s\n".to_string();
    assert_eq!(many(start, 256, way, ""), Ok(()));
    assert_eq!(
        many(start, 257, way, "").unwrap_err(),
        "line 259, column 1: expected at most 256 'from' lines, found one more"
    );
    let none = parse("plan 1\nresource a\n").unwrap_err().to_string();
    assert_eq!(none, "line 3, column 1: expected at least one 'state' line, found the end of the text");
    let empty = parse(" \n# nothing\n").unwrap_err().to_string();
    assert_eq!(empty, "line 1, column 1: expected 'plan 1' as the first line, found none");
}
