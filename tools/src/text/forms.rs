//! The lines of the text form, each described once.

use jidlekuvo_reference::plan_file::LONGEST_DURATION;
use Part::{Mark, Maybe, Name, Names, Number, Word};

/// A part of a line.
#[derive(Clone, Copy, Debug)]
pub enum Part {
    /// This word.
    Word(&'static str),
    /// `:`
    Mark(char),
    /// A name of what the words say.
    Name(&'static str),
    /// One or more such names, with commas between them.
    Names(&'static str),
    /// A number within these limits, without zeros in front.
    Number { what: &'static str, least: u64, most: u64 },
    /// All of these parts or none of them; the first is a word.
    Maybe(&'static [Part]),
}

/// The kinds of lines.
#[derive(Clone, Copy, Debug, PartialEq, Eq)]
pub enum Form {
    Plan,
    Resource,
    Peripheral,
    Event,
    Activity,
    Claim,
    Action,
    Release,
    Sense,
    State,
    Way,
}

/// A kind of line: its parts and its section. Sections follow each other in this order.
#[derive(Debug)]
pub struct Shape {
    pub form: Form,
    pub section: u8,
    pub parts: &'static [Part],
}

impl Shape {
    /// A node's line begins with a name.
    pub fn is_node(&self) -> bool {
        matches!(self.parts[0], Name(_))
    }

    /// The word that tells this kind of line from the others.
    pub fn keyword(&self) -> &'static str {
        let word = |part: &Part| match part {
            Word(word) => Some(*word),
            _ => None,
        };
        self.parts.iter().find_map(word).expect("every kind of line has a word")
    }
}

const FOR: Part = Maybe(&[Word("for"), Number { what: "a duration", least: 1, most: LONGEST_DURATION }]);
const AFTER: Part = Maybe(&[Word("after"), Names("a node of this activity")]);
const NODE: Part = Name("a name for the node");

pub static SHAPES: [Shape; 11] = [
    Shape {
        form: Form::Plan,
        section: 0,
        parts: &[Word("plan"), Number { what: "the version", least: 1, most: 1 }],
    },
    Shape { form: Form::Resource, section: 1, parts: &[Word("resource"), Name("a name for the resource")] },
    Shape {
        form: Form::Peripheral,
        section: 2,
        parts: &[Word("peripheral"), Name("a name for the peripheral"), Word("on"), Name("a resource")],
    },
    Shape {
        form: Form::Event,
        section: 3,
        parts: &[Word("event"), Name("a name for the event"), Mark(':'), Names("a name for an outcome")],
    },
    Shape { form: Form::Activity, section: 4, parts: &[Word("activity"), Name("a name for the activity")] },
    Shape {
        form: Form::Claim,
        section: 4,
        parts: &[NODE, Mark(':'), Word("claim"), Name("a resource"), AFTER],
    },
    Shape {
        form: Form::Action,
        section: 4,
        parts: &[
            NODE,
            Mark(':'),
            Word("action"),
            Number { what: "an action number", least: 0, most: 255 },
            Name("a peripheral"),
            FOR,
            AFTER,
        ],
    },
    Shape {
        form: Form::Release,
        section: 4,
        parts: &[NODE, Mark(':'), Word("release"), Name("a resource"), AFTER],
    },
    Shape {
        form: Form::Sense,
        section: 4,
        parts: &[NODE, Mark(':'), Word("event"), Name("an event"), FOR, AFTER],
    },
    Shape {
        form: Form::State,
        section: 5,
        parts: &[
            Word("state"),
            Name("a name for the state"),
            Maybe(&[Word("initial")]),
            Maybe(&[Word("final")]),
        ],
    },
    Shape {
        form: Form::Way,
        section: 6,
        parts: &[
            Word("from"),
            Name("a state"),
            Word("to"),
            Name("a state"),
            Maybe(&[Word("on"), Name("an event"), Name("an outcome of it")]),
            Maybe(&[Word("do"), Name("an activity")]),
        ],
    },
];

pub fn shape(form: Form) -> &'static Shape {
    SHAPES.iter().find(|shape| shape.form == form).expect("every form has its shape")
}

#[cfg(test)]
mod tests {
    use super::*;

    /// A part as docs/TEXT.md writes it.
    fn written(part: &Part) -> String {
        match *part {
            Word(word) => format!("\"{word}\""),
            Mark(mark) => format!("\"{mark}\""),
            Name(what) => named(what),
            Names(what) => format!("{0} {{ \",\" {0} }}", named(what)),
            Number { least, most, .. } if least == most => format!("\"{least}\""),
            Number { .. } => "NUMBER".into(),
            Maybe([Word(word @ ("for" | "after")), ..]) => format!("[ {word} ]"),
            Maybe(parts) => format!("[ {} ]", parts.iter().map(written).collect::<Vec<_>>().join(" ")),
        }
    }

    /// What kind of name it is: NAME for a new one.
    fn named(what: &str) -> String {
        let kinds = ["resource", "peripheral", "event", "outcome", "activity", "node", "state"];
        let kind = kinds.iter().find(|kind| what.split(' ').nth(1) == Some(**kind));
        kind.map_or("NAME".into(), |kind| kind.to_uppercase())
    }

    #[test]
    fn the_grammar_of_the_document_is_this_one() {
        let document = include_str!("../../../docs/TEXT.md");
        for shape in &SHAPES {
            let line = shape.parts.iter().map(written).collect::<Vec<_>>().join(" ");
            let ends =
                |text: &str| text.trim_start().splitn(2, ['=', '|']).nth(1).map(str::trim) == Some(&line);
            let is_there = document
                .lines()
                .any(|text| ends(text) || text.ends_with(&format!("= {line} node {{ node }}")));
            assert!(is_there, "docs/TEXT.md lacks: {line}");
        }
        for part in [FOR, AFTER] {
            let Maybe(parts) = part else { unreachable!("both may be left out") };
            let line = parts.iter().map(written).collect::<Vec<_>>().join(" ");
            assert!(document.contains(&format!("= {line}\n")), "docs/TEXT.md lacks: {line}");
        }
    }
}
