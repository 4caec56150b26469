//! What the example's host knows of its plan, read from the plan's bytes.

/// A node of an activity; a claim or a release takes no time.
#[derive(Clone, Copy)]
pub enum Kind {
    Action,
    Event(u8),
    Other,
}

#[derive(Clone, Copy)]
pub struct Node {
    pub kind: Kind,
    duration: u32,
}

struct Way {
    from: u8,
    to: u8,
    input: Option<(u8, u8)>,
}

pub struct Plan {
    pub resources: usize,
    /// How many outcomes each event has.
    pub outcomes: Vec<u8>,
    pub activities: Vec<Vec<Node>>,
    initial: u8,
    ways: Vec<Way>,
}

/// The bytes of a file. A file that begins with a hexadecimal digit, white space or # is hexadecimal, with white space
/// and comments; a plan begins with none of them.
pub fn load(name: &str) -> Result<Vec<u8>, String> {
    let bytes = std::fs::read(name).map_err(|why| format!("{name}: {why}"))?;
    let is_text = |byte: &u8| byte.is_ascii_hexdigit() || byte.is_ascii_whitespace() || *byte == b'#';
    match bytes.first().is_some_and(is_text) {
        true => from_hexadecimal(&bytes).ok_or(format!("{name}: not hexadecimal")),
        false => Ok(bytes),
    }
}

fn from_hexadecimal(text: &[u8]) -> Option<Vec<u8>> {
    let lines = text.split(|&byte| byte == b'\n');
    let said = lines.flat_map(|line| line.split(|&byte| byte == b'#').next().unwrap_or(&[]));
    let digits = said.filter(|byte| !byte.is_ascii_whitespace()).map(|&byte| (byte as char).to_digit(16));
    let digits: Vec<u32> = digits.collect::<Option<_>>()?;
    let pairs = digits.chunks(2).map(|pair| Some((16 * pair[0] + pair.get(1)?) as u8));
    pairs.collect()
}

/// The bytes of a plan that the library has accepted: nothing is looked at twice.
struct Reader<'a>(&'a [u8]);

impl Reader<'_> {
    fn byte(&mut self) -> u8 {
        self.number(1) as u8
    }

    fn number(&mut self, width: usize) -> u32 {
        let (bytes, rest) = self.0.split_at(width);
        self.0 = rest;
        bytes.iter().rev().fold(0, |number, &byte| number << 8 | byte as u32)
    }

    /// A count, and so many bytes.
    fn bytes(&mut self) -> Vec<u8> {
        (0..self.byte()).map(|_| self.byte()).collect()
    }

    fn node(&mut self) -> Node {
        let map = self.byte();
        let number = self.byte();
        let kind = match map & 15 {
            1 => Kind::Action,
            8 => Kind::Event(number),
            _ => Kind::Other,
        };
        if map & 1 != 0 {
            self.byte(); // its peripheral
        }
        let duration = if map & 16 != 0 { self.number(4) } else { 0 };
        if map & 32 != 0 {
            self.bytes(); // its predecessors
        }
        Node { kind, duration }
    }

    fn way(&mut self) -> Way {
        let map = self.byte();
        let (from, to) = (self.byte(), self.byte());
        let input = (map & 1 != 0).then(|| (self.byte(), self.byte()));
        if map & 2 != 0 {
            self.byte(); // its activity
        }
        Way { from, to, input }
    }
}

impl Plan {
    pub fn read(bytes: &[u8]) -> Plan {
        let mut from = Reader(bytes);
        let map = from.byte();
        let resources = if map & 1 != 0 { from.byte() as usize } else { 0 };
        if map & 2 != 0 {
            from.bytes(); // the peripherals' resources
        }
        let outcomes = if map & 4 != 0 { from.bytes() } else { vec![] };
        let activities = if map & 8 != 0 { from.byte() } else { 0 };
        let activities = (0..activities).map(|_| (0..from.byte()).map(|_| from.node()).collect()).collect();
        from.byte(); // how many states
        let initial = from.byte();
        from.0 = &from.0[8..]; // the final ones
        let ways = (0..from.number(2)).map(|_| from.way()).collect();
        Plan { resources, outcomes, activities, initial, ways }
    }

    /// The largest slack that the plan allows: less than the shortest action or event, 1 to 1,000,000.
    pub fn slack(&self) -> u64 {
        let timed = self.activities.iter().flatten().filter(|node| !matches!(node.kind, Kind::Other));
        let shortest = timed.map(|node| node.duration as u64).min().unwrap_or(u64::MAX);
        shortest.saturating_sub(1).clamp(1, 1_000_000)
    }

    /// The way out of a state: the only one, or that of an outcome.
    fn way_out(&self, state: u8, outcome: Option<u8>) -> Option<&Way> {
        let is_chosen = |way: &&Way| outcome.is_none() || way.input.map(|input| input.1) == outcome;
        self.ways.iter().filter(|way| way.from == state).find(is_chosen)
    }

    /// Of each given outcome the event that it is for, along the way that these outcomes choose, as far as it goes. A
    /// state with one way out needs none.
    pub fn events(&self, given: &[u8]) -> Vec<u8> {
        let mut events = vec![];
        let mut next = self.way_out(self.initial, None);
        while let Some(way) = next {
            let awaited = way.input.map(|input| input.0).filter(|&event| self.outcomes[event as usize] > 1);
            let chosen = match (awaited, given.get(events.len())) {
                (None, _) => Some(way),
                (Some(_), None) => break,
                (Some(event), Some(&outcome)) => {
                    events.push(event);
                    self.way_out(way.from, Some(outcome))
                }
            };
            next = chosen.and_then(|way| self.way_out(way.to, None));
        }
        events
    }
}
