//! Reading: "first faulty field from the front, place = its byte offset; every number is its own
//! field, the final bits are one; within a field the order below" (1, 2, 7, 3, 4, 8, 5, 6).

use super::FieldKind::*;
use super::*;
use crate::toggles::{broken, Broken};
use crate::Fault;

/// One field: its value and the offset of its first byte.
#[derive(Clone, Copy)]
struct Field {
    value: u64,
    place: usize,
}

impl Field {
    /// 3: "a count outside its limits".
    fn count(self, least: u64, most: u64) -> Result<usize, Fault> {
        if self.value < least || self.value > most {
            return Err(Fault::new(3, self.place));
        }
        Ok(self.value as usize)
    }

    /// 4: "a number that names nothing".
    fn names_one_of(self, how_many: usize) -> Result<u8, Fault> {
        if self.value >= how_many as u64 {
            return Err(Fault::new(4, self.place));
        }
        Ok(self.value as u8)
    }
}

struct Reader<'a> {
    bytes: &'a [u8],
    at: usize,
    /// The field that was read last: where reading fails, the one at fault.
    last: FieldKind,
}

impl Reader<'_> {
    fn of(bytes: &[u8]) -> Reader<'_> {
        Reader { bytes, at: 0, last: SectionMap }
    }

    fn plan(&mut self) -> Result<Plan, Fault> {
        let map = self.section_map()?;
        let mut plan = Plan::default();
        if map & 1 != 0 {
            plan.resources = self.byte(ResourceCount)?.count(1, MOST_RESOURCES)? as u8;
        }
        if map & 2 != 0 {
            plan.peripherals = self.peripherals(plan.resources)?;
        }
        if map & 4 != 0 {
            plan.events = self.events()?;
        }
        if map & 8 != 0 {
            plan.activities = self.activities(&plan)?;
        }
        plan.automaton = self.automaton(&plan)?;
        // 6: "bytes left over", the first of them.
        self.last = End;
        if self.at < self.bytes.len() {
            return Err(Fault::new(6, self.at));
        }
        Ok(plan)
    }

    /// 1: "the bytes end inside the field"; its place is the field's first byte.
    fn field(&mut self, width: usize, kind: FieldKind) -> Result<Field, Fault> {
        let place = self.at;
        self.last = kind;
        if self.bytes.len() - place < width {
            return Err(Fault::new(1, place));
        }
        let mut value = 0u64;
        for i in (0..width).rev() {
            value = value << 8 | self.bytes[place + i] as u64;
        }
        self.at += width;
        Ok(Field { value, place })
    }

    fn byte(&mut self, kind: FieldKind) -> Result<Field, Fault> {
        self.field(1, kind)
    }

    /// "bits 5 to 7 are 0" (2) stands before "no automaton" (7).
    fn section_map(&mut self) -> Result<u8, Fault> {
        let map = self.byte(SectionMap)?;
        let bad_bits = map.value & 0b1110_0000 != 0;
        let no_automaton = map.value & 0b1_0000 == 0;
        if broken(Broken::SevenBeforeTwo) && no_automaton {
            return Err(Fault::new(7, map.place));
        }
        if bad_bits {
            return Err(Fault::new(2, map.place));
        }
        if no_automaton {
            return Err(Fault::new(7, map.place));
        }
        Ok(map.value as u8)
    }

    fn peripherals(&mut self, resources: u8) -> Result<Vec<u8>, Fault> {
        let count = self.byte(PeripheralCount)?.count(1, MOST_PERIPHERALS)?;
        (0..count).map(|_| self.byte(PeripheralResource)?.names_one_of(resources as usize)).collect()
    }

    fn events(&mut self) -> Result<Vec<u8>, Fault> {
        let count = self.byte(EventCount)?.count(1, MOST_EVENTS)?;
        (0..count).map(|_| Ok(self.byte(OutcomeCount)?.count(1, MOST_OUTCOMES)? as u8)).collect()
    }

    fn activities(&mut self, plan: &Plan) -> Result<Vec<Activity>, Fault> {
        let count = self.byte(ActivityCount)?.count(1, MOST_ACTIVITIES)?;
        (0..count).map(|_| self.activity(plan)).collect()
    }

    fn activity(&mut self, plan: &Plan) -> Result<Activity, Fault> {
        let count = self.byte(NodeCount)?.count(1, MOST_NODES)?;
        (0..count).map(|_| self.node(plan, count)).collect()
    }

    /// "A node is a map byte, then only the fields whose bits stand".
    fn node(&mut self, plan: &Plan, nodes: usize) -> Result<Node, Fault> {
        let field = self.byte(NodeMap)?;
        let map = field.value as u8;
        if !is_node_map(map) {
            return Err(Fault::new(2, field.place));
        }
        let kind = self.kind(plan, map)?;
        let duration = if map & 0b1_0000 != 0 { self.duration()? } else { 0 };
        let predecessors = if map & 0b10_0000 != 0 { self.predecessors(nodes)? } else { Vec::new() };
        Ok(Node { kind, duration, predecessors })
    }

    fn kind(&mut self, plan: &Plan, map: u8) -> Result<Kind, Fault> {
        match map & 0b1111 {
            0b0001 => {
                let number = self.byte(ActionNumber)?.value as u8;
                let peripheral = self.byte(ActionPeripheral)?.names_one_of(plan.peripherals.len())?;
                Ok(Kind::Action { number, peripheral })
            }
            0b0010 => Ok(Kind::Claim(self.byte(ClaimResource)?.names_one_of(plan.resources as usize)?)),
            0b0100 => Ok(Kind::Release(self.byte(ReleaseResource)?.names_one_of(plan.resources as usize)?)),
            _ => Ok(Kind::Event(self.byte(EventNumber)?.names_one_of(plan.events.len())?)),
        }
    }

    /// 8: "duration 0 or above 60,000,000".
    fn duration(&mut self) -> Result<u32, Fault> {
        let field = self.field(4, Duration)?;
        let longest = LONGEST_DURATION + broken(Broken::DurationLimitOneMore) as u64;
        if field.value == 0 || field.value > longest {
            let place = field.place + 4 * broken(Broken::PlaceAfterTheField) as usize;
            return Err(Fault::new(8, place));
        }
        Ok(field.value as u32)
    }

    /// 5: "predecessors not rising"; they are "strictly rising".
    fn predecessors(&mut self, nodes: usize) -> Result<Vec<u8>, Fault> {
        let most = MOST_PREDECESSORS + broken(Broken::NinePredecessors) as u64;
        let count = self.byte(PredecessorCount)?.count(1, most)?;
        let mut found: Vec<u8> = Vec::new();
        for _ in 0..count {
            let field = self.byte(Predecessor)?;
            let named = field.names_one_of(nodes)?;
            let falls = found.last().is_some_and(|&before| match broken(Broken::RisingNotStrictly) {
                true => named < before,
                false => named <= before,
            });
            if falls {
                return Err(Fault::new(5, field.place));
            }
            found.push(named);
        }
        Ok(found)
    }

    fn automaton(&mut self, plan: &Plan) -> Result<Automaton, Fault> {
        let states = self.byte(StateCount)?.count(1, MOST_STATES)?;
        let initial = self.byte(InitialState)?.names_one_of(states)?;
        let finals = self.final_bits(states)?;
        let count = self.field(2, TransitionCount)?.count(0, MOST_TRANSITIONS)?;
        let transitions: Result<_, _> = (0..count).map(|_| self.transition(plan, states)).collect();
        Ok(Automaton { states: states as u8, initial, finals, transitions: transitions? })
    }

    /// 4: "a final bit past the last state"; the eight bytes are one field.
    fn final_bits(&mut self, states: usize) -> Result<u64, Fault> {
        let field = self.field(8, FinalBits)?;
        if (states..64).any(|state| field.value >> state & 1 == 1) {
            return Err(Fault::new(4, field.place));
        }
        Ok(field.value)
    }

    /// "a map byte, from-state, to-state, then bit 0: event and outcome; bit 1: activity".
    fn transition(&mut self, plan: &Plan, states: usize) -> Result<Transition, Fault> {
        let map = self.byte(TransitionMap)?;
        if map.value & 0b1111_1100 != 0 {
            return Err(Fault::new(2, map.place));
        }
        let from = self.byte(FromState)?.names_one_of(states)?;
        let to = self.byte(ToState)?.names_one_of(states)?;
        let input = if map.value & 1 != 0 { Some(self.input(plan)?) } else { None };
        let activity = match map.value & 2 != 0 {
            true => Some(self.byte(TransitionActivity)?.names_one_of(plan.activities.len())?),
            false => None,
        };
        Ok(Transition { from, to, input, activity })
    }

    fn input(&mut self, plan: &Plan) -> Result<(u8, u8), Fault> {
        let event = self.byte(TransitionEvent)?.names_one_of(plan.events.len())?;
        let outcome = self.byte(TransitionOutcome)?.names_one_of(plan.events[event as usize] as usize)?;
        Ok((event, outcome))
    }
}

/// "Exactly one of bits 0 to 3 stands", "Claims and releases have no bit 4", "Bits 6 and 7 are 0".
fn is_node_map(map: u8) -> bool {
    let kinds = (map & 0b1111).count_ones();
    let holds_resource = map & 0b0110 != 0;
    let timed = map & 0b1_0000 != 0;
    kinds == 1 && !(holds_resource && timed) && map & 0b1100_0000 == 0
}

/// The plan that the bytes say, or the first faulty field's number and offset.
pub fn read(bytes: &[u8]) -> Result<Plan, Fault> {
    Reader::of(bytes).plan()
}

/// The kind of the first faulty field, if there is one.
pub fn faulty_field(bytes: &[u8]) -> Option<FieldKind> {
    let mut reader = Reader::of(bytes);
    reader.plan().err().map(|_| reader.last)
}
