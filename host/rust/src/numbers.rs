//! Made by host/make of host/numbers.txt and host/layout.txt: change those.

/// The form of a run's bytes that this is made for, and how many they are.
pub const ABI: u32 = 1;
pub const RUN_SIZE: usize = 49592;

/// The numbers of refusals and stops.
#[derive(Clone, Copy, Debug, PartialEq, Eq, PartialOrd, Ord, Hash)]
#[repr(u8)]
pub enum Number {
    Ends = 1,
    Map = 2,
    Count = 3,
    Names = 4,
    NotRising = 5,
    LeftOver = 6,
    NoAutomaton = 7,
    Duration = 8,
    Cycle = 11,
    ActionsUnordered = 12,
    NamedTwice = 13,
    ActionUnheld = 14,
    ClaimUnpaired = 15,
    ArrowPastEnd = 16,
    EventFirst = 17,
    EventsUnordered = 18,
    WayOutOfFinal = 21,
    ForbiddenBranch = 22,
    OutcomeMissing = 23,
    NoWayToFinal = 24,
    Unbalanced = 25,
    TooManyPending = 26,
    Availabilities = 30,
    Time = 31,
    Slack = 32,
    Short = 33,
    TooShort = 36,
    Late = 41,
    Overdue = 42,
    Full = 43,
    Beyond = 44,
    OutOfLimits = 50,
    ReadingBelow = 51,
    NoSuchNode = 52,
    NotStarted = 53,
    OtherKind = 54,
    OutcomeLacking = 55,
    Unlisted = 61,
    Length = 62,
}

/// Who causes it, what its place counts (nothing: the place is 0), and a sentence.
#[rustfmt::skip]
const MEANINGS: [(Number, &str, &str, &str); 39] = [
    (Number::Ends, "plan's author", "byte", "the bytes end inside a field"),
    (Number::Map, "plan's author", "byte", "a map breaks its rule"),
    (Number::Count, "plan's author", "byte", "a count lies outside its limits"),
    (Number::Names, "plan's author", "byte", "a number names nothing, or a final bit stands past the last state"),
    (Number::NotRising, "plan's author", "byte", "the predecessors of a node are not strictly rising"),
    (Number::LeftOver, "plan's author", "byte", "bytes are left over after the plan"),
    (Number::NoAutomaton, "plan's author", "byte", "the plan has no automaton"),
    (Number::Duration, "plan's author", "byte", "a duration is 0 or above 60,000,000"),
    (Number::Cycle, "plan's author", "activity", "the arrows have a cycle"),
    (Number::ActionsUnordered, "plan's author", "activity", "two actions on one peripheral are not ordered"),
    (Number::NamedTwice, "plan's author", "activity", "a resource is claimed twice or released twice"),
    (Number::ActionUnheld, "plan's author", "activity", "an action has no claim of its resource before it, or no release after it"),
    (Number::ClaimUnpaired, "plan's author", "activity", "a release has no claim before it, or a claim no release after it"),
    (Number::ArrowPastEnd, "plan's author", "activity", "a claim has a predecessor, or a release has a successor"),
    (Number::EventFirst, "plan's author", "activity", "an event has no predecessor"),
    (Number::EventsUnordered, "plan's author", "activity", "two nodes of one event are not ordered"),
    (Number::WayOutOfFinal, "plan's author", "state", "a final state has a way out"),
    (Number::ForbiddenBranch, "plan's author", "state", "two ways out are not for different outcomes of one event"),
    (Number::OutcomeMissing, "plan's author", "state", "an event is processed, and there is no way for one of its outcomes"),
    (Number::NoWayToFinal, "plan's author", "state", "no path leads to a final state"),
    (Number::Unbalanced, "plan's author", "", "on a path an event is processed before it is emitted, or left over at the end"),
    (Number::TooManyPending, "plan's author", "", "on a path more than 8 of one event are pending"),
    (Number::Availabilities, "host that opens", "", "there must be one availability for each resource of the plan"),
    (Number::Time, "host that opens", "", "psi, the start time, or an availability is above 10^15"),
    (Number::Slack, "host that opens", "", "the slack must be 1 to 1,000,000"),
    (Number::Short, "host that opens", "activity", "an action or event does not last longer than the slack"),
    (Number::TooShort, "host that lends", "", "the buffer is too short, and is left as it was"),
    (Number::Late, "host that calls", "", "a node was not started within the slack after its start"),
    (Number::Overdue, "machine", "", "a started node was not reported before its end"),
    (Number::Full, "plan's author, host that opens", "", "the window would hold more than 512 nodes"),
    (Number::Beyond, "plan's author, host that opens", "", "a time of the path is above 10^15, or a position above 1,000,000,000"),
    (Number::OutOfLimits, "host that calls", "", "what is stored lies outside its limits, as in a run that was not opened"),
    (Number::ReadingBelow, "host that calls", "", "the reading is below the last one"),
    (Number::NoSuchNode, "host that calls", "", "the node is not loaded, or was already reported"),
    (Number::NotStarted, "host that calls", "", "the node has not been started"),
    (Number::OtherKind, "host that calls", "", "an event needs an outcome, and an action a completion"),
    (Number::OutcomeLacking, "host that calls", "", "the event has no such outcome"),
    (Number::Unlisted, "host that sends", "", "the message's map is not listed, or its number is none that such an answer has"),
    (Number::Length, "host that sends", "", "the message is empty, or its length is not its map's"),
];

impl Number {
    /// Every number, from the lowest on.
    pub fn all() -> impl Iterator<Item = Number> {
        MEANINGS.iter().map(|meaning| meaning.0)
    }

    pub fn of(number: u8) -> Option<Number> {
        Number::all().find(|listed| *listed as u8 == number)
    }

    fn meaning(self) -> &'static (Number, &'static str, &'static str, &'static str) {
        MEANINGS.iter().find(|meaning| meaning.0 == self).expect("every number has a meaning")
    }

    pub fn who(self) -> &'static str {
        self.meaning().1
    }

    pub fn place(self) -> &'static str {
        self.meaning().2
    }

    pub fn sentence(self) -> &'static str {
        self.meaning().3
    }
}
