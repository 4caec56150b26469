//! Damaged plan files: by construction, with the number and place that must come out, and blindly.

use super::layout::{Field, Layout, Role};
use super::Random;
use crate::plan_file::FieldKind;
use crate::Fault;

/// The maps a node may have: an action or event with or without duration and predecessors, a
/// claim or release with or without predecessors.
const NODE_MAPS: [u8; 12] = [0x01, 0x11, 0x21, 0x31, 0x02, 0x22, 0x04, 0x24, 0x08, 0x18, 0x28, 0x38];

fn outside(random: &mut Random, least: u64, most: u64, width: usize) -> u64 {
    let largest = (1u64 << (8 * width)) - 1;
    match random.below(4) {
        0 if least > 0 => 0,
        1 => largest,
        2 => random.between(most as usize + 1, largest as usize) as u64,
        _ => most + 1,
    }
}

/// A bad value for the field and the number it gives; None if every value is good.
fn bad_value(random: &mut Random, field: &Field) -> Option<(u64, u8)> {
    match field.role {
        Role::SectionMap => {
            let map = random.next() as u8;
            match (map & 0xE0 != 0, map & 0x10 == 0) {
                (true, _) => Some((map as u64, 2)),
                (false, true) => Some((map as u64, 7)),
                _ => Some((0xFF, 2)),
            }
        }
        Role::NodeMap => {
            let bad: Vec<u8> = (0..=255).filter(|map| !NODE_MAPS.contains(map)).collect();
            Some((random.pick(&bad) as u64, 2))
        }
        Role::TransitionMap => Some((random.between(4, 255) as u64, 2)),
        Role::Count { least, most } => Some((outside(random, least, most, field.width), 3)),
        Role::Names { how_many } => Some((outside(random, 0, how_many - 1, 1), 4)),
        Role::AnyNumber => None,
        Role::Duration => Some((random.pick(&[0, 60_000_001, u32::MAX as u64, 60_000_256]), 8)),
        Role::Predecessor { previous: Some(previous), .. } if random.one_in(2) => {
            Some((random.between(0, previous as usize) as u64, 5))
        }
        Role::Predecessor { nodes, .. } => Some((outside(random, 0, nodes - 1, 1), 4)),
        Role::FinalBits { states: 64 } => None,
        Role::FinalBits { states } => Some((1 << random.between(states as usize, 63), 4)),
    }
}

fn put(bytes: &mut [u8], field: &Field, value: u64) {
    let value = value.to_le_bytes();
    bytes[field.place..field.place + field.width].copy_from_slice(&value[..field.width]);
}

/// A file whose first fault is known, and the field that has it.
pub struct Damaged {
    pub bytes: Vec<u8>,
    pub fault: Fault,
    pub kind: FieldKind,
}

/// A field of the layout: any of them, or any of one kind, so that the fields that stand once in a
/// file are hit as often as the predecessors.
fn any_field(random: &mut Random, layout: &Layout) -> usize {
    if random.one_in(2) {
        return random.below(layout.fields.len());
    }
    let mut kinds: Vec<FieldKind> = layout.fields.iter().map(|field| field.kind).collect();
    kinds.sort();
    kinds.dedup();
    let kind = random.pick(&kinds);
    let of_kind: Vec<usize> = (0..layout.fields.len()).filter(|&at| layout.fields[at].kind == kind).collect();
    random.pick(&of_kind)
}

/// One file in three has a second, later fault.
pub fn damaged_field(random: &mut Random, layout: &Layout) -> Damaged {
    let mut bytes = layout.bytes.clone();
    if random.one_in(12) {
        let place = bytes.len();
        bytes.extend((0..random.between(1, 4)).map(|_| random.next() as u8));
        return Damaged { bytes, fault: Fault::new(6, place), kind: FieldKind::End };
    }
    let at = any_field(random, layout);
    let field = layout.fields[at];
    if random.one_in(3) {
        let later = layout.fields[random.between(at, layout.fields.len() - 1)];
        if let Some((value, _)) = bad_value(random, &later) {
            put(&mut bytes, &later, value);
        }
    }
    match bad_value(random, &field) {
        Some((value, number)) if !random.one_in(5) => {
            put(&mut bytes, &field, value);
            Damaged { bytes, fault: Fault::new(number, field.place), kind: field.kind }
        }
        _ => {
            // The bytes end inside the field. A later fault is cut away with the rest, and one
            // in the same field is not looked at.
            bytes.truncate(field.place + random.below(field.width));
            Damaged { bytes, fault: Fault::new(1, field.place), kind: field.kind }
        }
    }
}

/// A file damaged without a thought for what comes out.
pub fn damaged_blindly(random: &mut Random, bytes: &[u8]) -> Vec<u8> {
    let mut bytes = bytes.to_vec();
    for _ in 0..random.between(1, 4) {
        let at = random.below(bytes.len().max(1)).min(bytes.len().saturating_sub(1));
        match random.below(7) {
            _ if bytes.is_empty() => bytes.push(random.next() as u8),
            0 => bytes[at] ^= 1 << random.below(8),
            1 => bytes[at] = random.next() as u8,
            2 => bytes[at] = bytes[at].wrapping_add(random.pick(&[1, 255])),
            3 => bytes.insert(at, random.next() as u8),
            4 => {
                bytes.remove(at);
            }
            5 => bytes.truncate(at),
            _ => {
                let from = random.below(bytes.len());
                bytes[at] = bytes[from];
            }
        }
    }
    bytes
}
