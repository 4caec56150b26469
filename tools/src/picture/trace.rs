//! The trace: the JSON that Chrome and Perfetto open. A thread for each lane, a complete event (`ph` X) for each row,
//! an instant (`ph` i) for each outcome; `ts` and `dur` are microseconds, as the table's are.

use super::lanes::Lanes;
use super::story::Story;
use crate::names::{Names, Space};
use crate::toggles::{broken, Broken};
use jidlekuvo_reference::plan_file::Plan;
use std::io::{Result, Write};

/// A string of JSON. Names have no control characters.
fn quoted(text: &str) -> String {
    format!("\"{}\"", text.replace('\\', "\\\\").replace('"', "\\\""))
}

pub fn trace(plan: &Plan, names: &Names, story: &Story, out: &mut impl Write) -> Result<()> {
    let lanes = Lanes::of(plan);
    write!(out, "{{\"displayTimeUnit\":\"ms\",\"traceEvents\":[")?;
    write!(out, "\n{{\"ph\":\"M\",\"name\":\"process_name\",\"pid\":1,\"args\":{{\"name\":\"plan\"}}}}")?;
    let mut heading = String::new();
    for lane in 0..lanes.list.len() {
        if lanes.is_heading(lane) {
            heading = lanes.name(lane, names);
            continue;
        }
        let name = quoted(&format!("{heading}: {}", lanes.name(lane, names)));
        write!(out, ",\n{{\"ph\":\"M\",\"name\":\"thread_name\",\"pid\":1,\"tid\":{lane},\"args\":{{\"name\":{name}}}}}")?;
        write!(out, ",\n{{\"ph\":\"M\",\"name\":\"thread_sort_index\",\"pid\":1,\"tid\":{lane},\"args\":{{\"sort_index\":{lane}}}}}")?;
    }
    for row in &story.rows {
        let lane = lanes.of_node(plan.activities[row.activity as usize][row.node as usize].kind);
        let name = quoted(&names.of(Space::Node(row.activity), row.node as usize));
        let activity = quoted(&names.of(Space::Activity, row.activity as usize));
        let duration = (row.end - row.start) / if broken(Broken::TraceMilliseconds) { 1000 } else { 1 };
        write!(out, ",\n{{\"ph\":\"X\",\"name\":{name},\"cat\":{activity},\"pid\":1,\"tid\":{lane},\"ts\":{},\"dur\":{duration}", row.start)?;
        write!(out, ",\"args\":{{\"position\":{}}}}}", row.position)?;
    }
    for held in &story.held {
        let outcome = names.of(Space::Outcome(held.event), held.outcome as usize);
        let name = quoted(&format!("{} {outcome}", names.of(Space::Event, held.event as usize)));
        let lane = lanes.of_node(jidlekuvo_reference::plan_file::Kind::Event(held.event));
        write!(
            out,
            ",\n{{\"ph\":\"i\",\"name\":{name},\"pid\":1,\"tid\":{lane},\"ts\":{},\"s\":\"g\"}}",
            held.at
        )?;
    }
    writeln!(out, "\n]}}")
}
