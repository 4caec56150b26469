//! Ways to break the tools on purpose. They exist in their own tests only, where each is turned on in turn and a
//! check must notice it. In every other build `broken` is plainly false.

macro_rules! toggles {
    ($($name:ident: $what:literal,)*) => {
        #[derive(Clone, Copy, Debug, PartialEq, Eq)]
        pub enum Broken { $($name,)* }

        /// Every toggle with what it breaks.
        pub const ALL: &[(Broken, &str)] = &[$((Broken::$name, $what),)*];
    };
}

toggles! {
    NameOffByOne: "a name is looked up one place too far",
    PredecessorsUnsorted: "predecessors are written in the order of the text",
    WordOneShort: "the word to a 25 or 26 lacks its last transition",
    BarOneLaneDown: "a bar stands one lane too low",
    DurationDropped: "the printer leaves a duration out",
    FinalForgotten: "a state's `final` is not written into the bytes",
    FieldOneLate: "the field of a refused file is looked for one byte late",
    CycleOpen: "the last node of a cycle is left out",
    OrderedPairNamed: "two ordered nodes are named as unordered",
    LongestChainOneShort: "the chain to a 44 lacks its last node",
    RowTwice: "the picture draws the first row twice",
    TraceMilliseconds: "the trace gives durations in milliseconds",
    HeldOneEarly: "the line of an outcome stands where the event starts",
    OutcomeByOtherEvent: "an outcome's name is looked up in event 0",
    WalkWaitsAtMarkers: "a walk by outcomes waits at a marker",
    OneWayOutIsComplete: "a missing outcome is looked for where a state waits only",
    PathEndsAtMarkers: "the first path ends at a marker",
    ChainWithoutProcessed: "the chain to a 44 goes over no event that is processed",
    ChainByNewest: "the chain to a 44 goes over the newest pending instance",
    MarkersHoldNothing: "the picture has no line for a marker",
}

#[cfg(test)]
mod switch {
    use super::Broken;
    use std::cell::Cell;

    thread_local! {
        static ON: Cell<Option<Broken>> = const { Cell::new(None) };
    }

    pub fn broken(toggle: Broken) -> bool {
        ON.with(|on| on.get() == Some(toggle))
    }

    /// Runs something with one toggle on, on this thread only.
    pub fn with_broken<T>(toggle: Broken, body: impl FnOnce() -> T) -> T {
        ON.with(|on| on.set(Some(toggle)));
        let answer = body();
        ON.with(|on| on.set(None));
        answer
    }
}

#[cfg(test)]
pub use switch::{broken, with_broken};

#[cfg(not(test))]
#[inline(always)]
pub fn broken(_: Broken) -> bool {
    false
}
