//! Lines read by their forms.

use super::forms::{Form, Part, Shape, SHAPES};
use super::nearest::nearest;
use super::tokens::{tokens, Token, LONGEST_NAME};
use super::TextFault;

/// A name in a line.
#[derive(Clone, Debug, PartialEq, Eq)]
pub struct Word {
    pub text: String,
    pub column: usize,
}

/// What stands at a part of a line that may vary. `Absent` fills the places of parts that are left out.
#[derive(Clone, Debug, PartialEq, Eq)]
pub enum Value {
    Absent,
    Present,
    Name(Word),
    Names(Vec<Word>),
    Number(u64),
}

#[derive(Clone, Debug, PartialEq, Eq)]
pub struct Line {
    pub form: Form,
    pub number: usize,
    pub values: Vec<Value>,
}

/// A plan with everything that the file can hold has as many lines.
const MOST_LINES: usize = 1 + 16 + 64 + 16 + 32 * (1 + 64) + 64 + 256;

/// The lines of a text that say something.
pub fn lines(text: &str) -> Result<Vec<Line>, TextFault> {
    let mut lines = Vec::new();
    for (number, line) in (1..).zip(text.lines()) {
        let tokens = tokens(line, number)?;
        if tokens.is_empty() {
            continue;
        }
        let read = Reader { number, tokens: &tokens, at: 0 }.line()?;
        if lines.len() == MOST_LINES {
            let expected = format!("at most {MOST_LINES} lines, as many as a plan can need");
            return Err(TextFault {
                line: number,
                column: 1,
                expected,
                found: "one more".into(),
                nearest: None,
            });
        }
        lines.push(read);
    }
    Ok(lines)
}

struct Reader<'a> {
    number: usize,
    tokens: &'a [Token<'a>],
    at: usize,
}

impl Reader<'_> {
    fn fault(&self, expected: &str, nearest: Option<String>) -> TextFault {
        let end = self.tokens.last().map_or(1, |token| token.column + token.text.chars().count());
        let (column, found) = match self.tokens.get(self.at) {
            Some(token) => (token.column, quoted(token.text)),
            None => (end, "the end of the line".to_string()),
        };
        TextFault { line: self.number, column, expected: expected.to_string(), found, nearest }
    }

    fn text(&self) -> Option<&str> {
        self.tokens.get(self.at).map(|token| token.text)
    }

    /// A line whose second token is `:` is a node's; its third word says which. Otherwise the first word says it.
    fn shape(&mut self) -> Result<&'static Shape, TextFault> {
        let is_node = self.tokens.get(1).is_some_and(|token| token.text == ":");
        self.at = if is_node { 2 } else { 0 };
        let choices = || SHAPES.iter().filter(|shape| shape.is_node() == is_node);
        match choices().find(|shape| Some(shape.keyword()) == self.text()) {
            Some(shape) => {
                self.at = 0;
                Ok(shape)
            }
            None => {
                let words: Vec<&str> = choices().map(Shape::keyword).collect();
                let close = nearest(self.text().unwrap_or(""), words.iter().copied());
                Err(self.fault(&one_of(&words), close))
            }
        }
    }

    fn line(mut self) -> Result<Line, TextFault> {
        let shape = self.shape()?;
        let mut values = Vec::new();
        for part in shape.parts {
            self.part(part, &mut values)?;
        }
        match self.text() {
            None => Ok(Line { form: shape.form, number: self.number, values }),
            Some(_) => Err(self.fault(&follows(shape.parts), None)),
        }
    }

    fn part(&mut self, part: &Part, values: &mut Vec<Value>) -> Result<(), TextFault> {
        match *part {
            Part::Word(word) => self.exactly(word)?,
            Part::Mark(mark) => self.exactly(&mark.to_string())?,
            Part::Name(what) => values.push(Value::Name(self.name(what)?)),
            Part::Names(what) => values.push(Value::Names(self.names(what)?)),
            Part::Number { what, least, most } => {
                values.push(Value::Number(self.numeral(what, least, most)?))
            }
            Part::Maybe(parts) => self.maybe(parts, values)?,
        }
        Ok(())
    }

    fn exactly(&mut self, word: &str) -> Result<(), TextFault> {
        if self.text() != Some(word) {
            return Err(self.fault(&format!("'{word}'"), None));
        }
        self.at += 1;
        Ok(())
    }

    fn name(&mut self, what: &str) -> Result<Word, TextFault> {
        let is_name = |token: &&Token| token.text.starts_with(|c: char| c.is_alphabetic() || c == '_');
        let Some(token) = self.tokens.get(self.at).filter(is_name) else {
            return Err(self.fault(&format!("{what} (it begins with a letter)"), None));
        };
        if token.text.chars().count() > LONGEST_NAME {
            return Err(self.fault(&format!("{what} of at most {LONGEST_NAME} characters"), None));
        }
        self.at += 1;
        Ok(Word { text: token.text.to_string(), column: token.column })
    }

    fn names(&mut self, what: &str) -> Result<Vec<Word>, TextFault> {
        let mut names = vec![self.name(what)?];
        while self.text() == Some(",") {
            self.at += 1;
            names.push(self.name(what)?);
        }
        Ok(names)
    }

    fn numeral(&mut self, what: &str, least: u64, most: u64) -> Result<u64, TextFault> {
        let digits = self.text().filter(|text| text.bytes().all(|c| c.is_ascii_digit()));
        let plain = digits.filter(|text| *text == "0" || !text.starts_with('0'));
        let value = plain.and_then(|text| text.parse().ok()).filter(|value| (least..=most).contains(value));
        let limits = if least == most { format!("{least}") } else { format!("from {least} to {most}") };
        let value = value.ok_or_else(|| self.fault(&format!("{what}, {limits}"), None))?;
        self.at += 1;
        Ok(value)
    }

    fn maybe(&mut self, parts: &'static [Part], values: &mut Vec<Value>) -> Result<(), TextFault> {
        let Part::Word(word) = parts[0] else { unreachable!("parts that may be left out begin with a word") };
        if self.text() != Some(word) {
            values.extend((0..width(parts)).map(|_| Value::Absent));
            return Ok(());
        }
        self.at += 1;
        if parts.len() == 1 {
            values.push(Value::Present);
        }
        parts[1..].iter().try_for_each(|part| self.part(part, values))
    }
}

/// A word of the text, cut where it is too long to show.
fn quoted(word: &str) -> String {
    match word.char_indices().nth(2 * LONGEST_NAME) {
        Some((end, _)) => format!("'{}'..", &word[..end]),
        None => format!("'{word}'"),
    }
}

/// How many values stand for parts that may be left out: one where it is a word alone.
pub fn width(parts: &[Part]) -> usize {
    (parts.len() - 1).max(1)
}

fn one_of(words: &[&str]) -> String {
    let quoted: Vec<String> = words.iter().map(|word| format!("'{word}'")).collect();
    let (last, others) = quoted.split_last().expect("there is a choice");
    format!("{} or {last}", others.join(", "))
}

/// What may stand at the end of such a line.
fn follows(parts: &[Part]) -> String {
    let words = parts.iter().filter_map(|part| match part {
        Part::Maybe([Part::Word(word), ..]) => Some(format!("'{word}'")),
        _ => None,
    });
    words.chain(["the end of the line".to_string()]).collect::<Vec<_>>().join(" or ")
}
