//! Ways to break this build on purpose. They exist in its own tests only: there each is turned on
//! in turn, and the checks must notice it. In every other build `broken` is plainly false.

macro_rules! toggles {
    ($($name:ident: $what:literal,)*) => {
        #[derive(Clone, Copy, Debug, PartialEq, Eq)]
        pub enum Broken { $($name,)* }

        /// Every toggle with what it breaks.
        pub const ALL: &[(Broken, &str)] = &[$((Broken::$name, $what),)*];
    };
}

toggles! {
    SevenBeforeTwo: "7 is looked for before 2 in the first byte",
    PlaceAfterTheField: "a bad duration is placed after its field",
    DurationLimitOneMore: "60,000,001 is a good duration",
    NinePredecessors: "nine predecessors are read",
    RisingNotStrictly: "a repeated predecessor is read",
    WritesAByteAfter: "the writer touches the byte after the plan",
    ShortBufferFirst: "36 is looked for before 50",
    BeforeOneStageShort: "the last node is never a link of before",
    OrderedOneWayOnly: "two actions count as ordered only from low to high node",
    AnyClaimWillDo: "an action is content with the claim of another resource",
    ReleaseMaySucceed: "a release may have a successor",
    FifteenAfterSixteen: "16 is looked for before 15",
    HighestStateNamed: "the highest state at fault is named",
    OneWayOutIsComplete: "23 passes over states with one way out",
    UnreachableMayStick: "24 passes over unreachable states",
    EmitsBeforeProcessing: "a transition emits, then processes",
    TwentySixFirst: "26 is looked for before 25",
    NinePending: "nine pending instances are good",
    OnlyTheSensedResource: "an outcome holds back only the resources around its event",
    NewestInstanceFirst: "the newest pending instance is processed",
    EventOrderDropped: "nodes of one event in successive activities are not ordered",
    UnnamedNotRaised: "an outcome does not hold back resources the activity leaves unnamed",
    EmptyNotRaised: "an outcome processed with the empty activity holds back nothing",
    NothingRaised: "an outcome holds back nothing",
    InstancesByNumber: "instances inside one activity go by node number",
    MarkerRaisesNothing: "a marker holds back nothing",
    LateAtTheSlack: "41 at exactly start plus slack",
    LateWithoutSlack: "41 as soon as the start is past",
    OverdueOneLater: "42 one microsecond later",
    TiesByNodeFirst: "ties go by node, then position",
    HighPeripheralsFirst: "ties in start go by peripheral from the highest down",
    EventsFirst: "ties in start put events before all actions",
    PositionBeforePeripheral: "ties in start go by position, then peripheral",
    OverdueByPeripheral: "ties of 42 go by peripheral, events after all actions",
    LateByPosition: "ties of 41 go by position and node alone",
    RefusalMovesReading: "a refused call moves the last reading",
    LateBeforeOverdue: "41 is looked for before 42",
    ReadingBeforeKeptStop: "51 is looked for on a stopped run",
    SlackOfUsedActivities: "33 looks only at activities that a transition uses",
    SlackNeverChecked: "33 is never looked for",
    StartsTwice: "a started node can be started again",
    WaitInsteadOfDone: "wait where done is due",
    ReportedStillCounts: "43 counts the node just reported",
    OnePathPerCall: "a call loads one path at most",
    NewestOutcomeFirst: "the outcome reported last decides, not that of the oldest instance",
    FailingPathCounts: "a failing path moves the state",
    FailedReportForgotten: "a report whose loading fails does not count",
    WaitsAtMarkers: "a state waits where its only way out processes an event",
    MarkersNeverOverdue: "42 passes over markers",
    DoneBeforeMarkers: "done while markers are unreported",
    MarkerCompletionTaken: "a marker's completion is taken",
    MarkerLacksNothing: "any outcome of a marker is taken",
    KindBeforeStarted: "54 is looked for before 53",
    HighestPlaces: "the nodes of a path take the highest free places",
    WindowClosesUp: "nodes move up when one before them is reported",
    BareEntryIs50: "a made-up entry that names a claim or a release gives 50",
    EndlessOneLonger: "a made-up path that never waits is ended one transition later",
    NinthKept: "a made-up plan's ninth pending instance is kept",
    MarkerKept: "a marker's outcome is kept",
    MarkerLoads: "a marker's report loads what is decided",
    WaitsByOutcomes: "a made-up state waits by its event's outcomes, not by its ways out",
    EndsWithoutPending: "a made-up path ends before an event that is not pending",
    RowsByTime: "rows of a position are printed by start",
    FreeHeldBackAtWaits: "the awaited event holds back what free prints",
    RowsAtTheHorizon: "rows of the position that gives 44 are printed",
    OutcomeIndexFromOne: "the place of 55 counts outcomes from 1",
    ByteForAMarker: "a byte is read for a marker",
    UnlistedBeforeLength: "61 is looked for before 62",
    NodelessStopWithNode: "43 is taken under the map of 41 and 42",
    NodeStopWithoutNode: "41 is taken under the map of 43 and 44",
    NodeBeforePosition: "node comes before position in a message",
    PositionBigEndian: "the position in a message is big-endian",
    OtherDirectionTaken: "a map of the other direction is taken",
    MessageBeforeRefusal: "a message is written before 61 is looked for",
    MessageAtExactFit: "a buffer that a message fits exactly gets 36",
    ShortBufferBeforeUnlisted: "36 is looked for before 61",
    ByteAfterMessage: "the writer touches the byte after a message",
    BadMessageMovesReading: "a bad message moves the last reading",
    KeptStopBeforeLink: "a kept stop is looked for before 62 and 61",
    LimitsBeforeLink: "50 is looked for before 62 and 61",
    CutMessageTaken: "a message that the input cuts off is taken",
}

/// The toggles of the specified times and of the run.
#[cfg(test)]
pub fn of_the_run() -> impl Iterator<Item = (Broken, &'static str)> {
    let parts = Broken::OnlyTheSensedResource as usize..=Broken::KindBeforeStarted as usize;
    ALL.iter().copied().filter(move |(toggle, _)| parts.contains(&(*toggle as usize)))
}

#[cfg(test)]
mod switch {
    use super::Broken;
    use std::cell::Cell;

    thread_local! {
        static ON: Cell<Option<Broken>> = const { Cell::new(None) };
    }

    pub fn broken(toggle: Broken) -> bool {
        ON.with(|on| on.get() == Some(toggle))
    }

    /// Runs something with one toggle on, on this thread only.
    pub fn with_broken<T>(toggle: Broken, body: impl FnOnce() -> T) -> T {
        ON.with(|on| on.set(Some(toggle)));
        let answer = body();
        ON.with(|on| on.set(None));
        answer
    }
}

#[cfg(test)]
pub use switch::{broken, with_broken};

#[cfg(not(test))]
#[inline(always)]
pub fn broken(_: Broken) -> bool {
    false
}
