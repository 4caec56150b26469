//! Checks the field of a refused file: by its own rule, and by asking the proved reader about the same file with
//! other values in that field. The stated limit must be where the reader draws it.

use super::fields::{Field, Rule};
use crate::proved;
use jidlekuvo_reference::plan_file::LONGEST_DURATION;
use jidlekuvo_reference::Fault;

pub fn holds(bytes: &[u8], fault: Fault, field: &Field) -> bool {
    field.place as u64 == fault.place && is_faulty(bytes, fault.number, field) && limit_holds(bytes, field)
}

fn is_faulty(bytes: &[u8], number: u8, field: &Field) -> bool {
    let Some(value) = field.value else {
        return number == 1 && field.place <= bytes.len() && field.place + field.width > bytes.len();
    };
    match (number, field.rule) {
        (2, Rule::SectionMap) => value > 0x1F,
        (7, Rule::SectionMap) => value < 0x10,
        (2, Rule::TransitionMap) => value > 3,
        (2, Rule::NodeMap) => {
            !matches!(value, 0x01 | 0x11 | 0x21 | 0x31 | 0x08 | 0x18 | 0x28 | 0x38)
                && !matches!(value, 0x02 | 0x22 | 0x04 | 0x24)
        }
        (3, Rule::Count { least, most }) => value < least || value > most,
        (4, Rule::Names { how_many, .. }) => value >= how_many,
        (4, Rule::Predecessor { nodes, .. }) => value >= nodes,
        (4, Rule::FinalBits { states }) => states < 64 && value >> states != 0,
        (5, Rule::Predecessor { nodes, before: Some(before) }) => value < nodes && value <= before,
        (8, Rule::Duration) => value == 0 || value > LONGEST_DURATION,
        (6, Rule::NoMore) => field.place < bytes.len(),
        _ => false,
    }
}

/// The last good value and the first bad one of the field, where it has such.
fn edges(field: &Field) -> (Option<u64>, Option<(u64, u8)>) {
    let largest = if field.width == 1 { 255 } else { u64::MAX };
    let past = |value: u64, number| Some((value, number)).filter(|_| value <= largest);
    match field.rule {
        Rule::Count { most, .. } => (Some(most), past(most + 1, 3)),
        Rule::Names { how_many: 0, .. } => (None, Some((0, 4))),
        Rule::Names { how_many, .. } => (Some(how_many - 1), past(how_many, 4)),
        Rule::Predecessor { nodes, before } => {
            let good = Some(nodes - 1).filter(|&last| before.is_none_or(|before| before < last));
            (good, past(nodes, 4))
        }
        Rule::Duration => (Some(LONGEST_DURATION), Some((LONGEST_DURATION + 1, 8))),
        Rule::FinalBits { states } => (Some(1 << (states - 1)), (states < 64).then(|| (1 << states, 4))),
        _ => (None, None),
    }
}

fn limit_holds(bytes: &[u8], field: &Field) -> bool {
    let mut tried = bytes[..field.place].to_vec();
    if field.value.is_none() {
        // One byte less than the field is long is still cut; with all of it the fault is another.
        tried.resize(field.place + field.width - 1, 0);
        let is_cut = is_at(&tried, 1, field.place);
        tried.push(0);
        return is_cut && !is_at(&tried, 1, field.place);
    }
    let mut with = |value: u64| {
        tried.truncate(field.place);
        tried.extend(&value.to_le_bytes()[..field.width]);
        proved::read(&tried)
    };
    let (good, bad) = edges(field);
    let good_passes = good.is_none_or(|value| with(value).is_none_or(|next| is_past(next, field)));
    let bad_fails = bad.is_none_or(|(value, number)| with(value) == Some(Fault::new(number, field.place)));
    good_passes && bad_fails
}

fn is_at(bytes: &[u8], number: u8, place: usize) -> bool {
    proved::read(bytes) == Some(Fault::new(number, place))
}

fn is_past(fault: Fault, field: &Field) -> bool {
    fault.place >= (field.place + field.width) as u64
}
