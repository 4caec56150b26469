//! The claims of demand 3 by name, so that a log can be told which of them it breaks.

#[derive(Clone, Copy, Debug, PartialEq, Eq, PartialOrd, Ord)]
pub enum Claim {
    Never50,
    StartedByAnAsk,
    StartedOnce,
    OfTheWord,
    OfItsActivity,
    NotEarly,
    NotLate,
    AfterReports,
    Window,
    Done,
    HostSide,
}

impl Claim {
    pub fn message(self) -> &'static str {
        match self {
            Claim::Never50 => "50 after an accepted opening",
            Claim::StartedByAnAsk => "started by a call that is no ask",
            Claim::StartedOnce => "started twice",
            Claim::OfTheWord => "started, but not of the word",
            Claim::OfItsActivity => "started with another activity than its own",
            Claim::NotEarly => "started before its specified start",
            Claim::NotLate => "started later than its specified start and the slack",
            Claim::AfterReports => "started before all that it depends on was reported",
            Claim::Window => "the window is not what is loaded and unreported",
            Claim::Done => "done is not answered exactly at the end",
            Claim::HostSide => "stopped by 41 or 42 although the host kept its side",
        }
    }
}

/// A claim broken at a call, or at the opening, with what is wrong.
#[derive(Clone, Debug)]
pub struct Breach {
    pub claim: Claim,
    pub call: Option<usize>,
    pub detail: String,
}

impl Breach {
    pub fn told(&self) -> String {
        match self.call {
            Some(call) => format!("call {call}: {} ({})", self.claim.message(), self.detail),
            None => format!("opening: {} ({})", self.claim.message(), self.detail),
        }
    }
}
