//! The log of one opening and its calls.

use crate::drive::{decode, Part, RECORD};
use crate::run::{Call, Opening, Reply, Run, Stop};
use crate::specified_times::NodeTime;
use crate::Fault;

#[derive(Clone, Debug)]
pub struct Answered {
    pub call: Call,
    pub reply: Reply,
    /// What the window holds after the call, by position and node, where the build tells it.
    pub window: Option<Vec<NodeTime>>,
}

#[derive(Clone, Debug)]
pub struct Log {
    pub opening: Opening,
    pub answer: Result<(), Fault>,
    /// The window after the opening.
    pub window: Option<Vec<NodeTime>>,
    pub calls: Vec<Answered>,
}

fn window_of(run: &Run) -> Option<Vec<NodeTime>> {
    Some(run.window().iter().map(|entry| entry.time).collect())
}

/// The log of this build. A refused or kept answer must hand back the run as it came in, which
/// is checked on the way.
pub fn record(opening: &Opening, calls: &[Call]) -> Result<Log, String> {
    let (log, changed) = played(opening, calls);
    match changed {
        Some(entry) => Err(format!("{:?} answered {:?} and changed the run", entry.call, entry.reply)),
        None => Ok(log),
    }
}

/// The log of this build, and the first call that changed a run it should have handed back.
pub fn played(opening: &Opening, calls: &[Call]) -> (Log, Option<Answered>) {
    let (answer, mut run) = Run::open(opening);
    let mut log = Log { opening: opening.clone(), answer, window: window_of(&run), calls: vec![] };
    let mut changed = None;
    for &call in calls {
        let before = run.clone();
        let (reply, after) = run.call(call);
        let kept = matches!(reply, Reply::Refused(_)) || before.has_stopped();
        let entry = Answered { call, reply, window: window_of(&after) };
        if kept && before != after && changed.is_none() {
            changed = Some(entry.clone());
        }
        run = after;
        log.calls.push(entry);
    }
    (log, changed)
}

/// The log that records of a drive tell, its questions left out; None where a record says nothing known.
pub fn from_records(input: &[u8], records: &[u8]) -> Option<Log> {
    let (opening, parts) = decode(input)?;
    let mut records = records.chunks_exact(RECORD);
    let first = records.next()?;
    let place = u64::from_le_bytes(first[8..].try_into().ok()?);
    let answer = match first[0] {
        0 => Ok(()),
        5 => Err(Fault { number: first[1], place }),
        _ => return None,
    };
    let call = |(part, record)| match part {
        Part::Call(call) => Some((call, record)),
        Part::Place { .. } => None,
    };
    let answered = |(call, record)| Some(Answered { call, reply: reply_of(record)?, window: None });
    let calls = parts.into_iter().zip(records).filter_map(call).map(answered).collect::<Option<_>>()?;
    Some(Log { opening, answer, window: None, calls })
}

fn reply_of(record: &[u8]) -> Option<Reply> {
    let position = u32::from_le_bytes(record[4..8].try_into().ok()?);
    let (second, node) = (record[1], record[2]);
    Some(match record[0] {
        1 => Reply::Start { position, activity: second, node },
        2 => Reply::Wait,
        3 => Reply::Done,
        4 => Reply::Taken,
        5 => Reply::Refused(second),
        6 if second == 41 || second == 42 => {
            Reply::Stopped(Stop { number: second, node: Some((position, node)) })
        }
        6 => Reply::Stopped(Stop { number: second, node: None }),
        _ => return None,
    })
}
