//! Lines written by their forms.

use super::forms::{shape, Part};
use super::lines::{width, Line, Value};
use std::slice::Iter;

/// A line as it is printed; a node's is indented.
pub fn written(line: &Line) -> String {
    let shape = shape(line.form);
    let mut writer = Writer { values: line.values.iter(), out: String::new() };
    shape.parts.iter().for_each(|part| writer.part(part));
    match shape.is_node() {
        true => format!("  {}", writer.out),
        false => writer.out,
    }
}

struct Writer<'a> {
    values: Iter<'a, Value>,
    out: String,
}

impl Writer<'_> {
    fn part(&mut self, part: &Part) {
        match *part {
            Part::Word(word) => self.push(word),
            Part::Mark(mark) => self.out.push(mark),
            Part::Maybe(parts) => self.maybe(parts),
            Part::Name(_) | Part::Names(_) | Part::Number { .. } => self.value(),
        }
    }

    fn maybe(&mut self, parts: &[Part]) {
        if matches!(self.values.as_slice(), [Value::Absent, ..]) {
            self.values.nth(width(parts) - 1);
            return;
        }
        if parts.len() == 1 {
            self.values.next();
        }
        parts.iter().for_each(|part| self.part(part));
    }

    fn value(&mut self) {
        match self.values.next() {
            Some(Value::Name(name)) => self.push(&name.text),
            Some(Value::Number(number)) => self.push(&number.to_string()),
            Some(Value::Names(names)) => {
                let names: Vec<&str> = names.iter().map(|name| name.text.as_str()).collect();
                self.push(&names.join(", "));
            }
            Some(Value::Absent | Value::Present) | None => {}
        }
    }

    fn push(&mut self, word: &str) {
        if !self.out.is_empty() {
            self.out.push(' ');
        }
        self.out.push_str(word);
    }
}
