//! K1 to K12 and the "Others" of document 01.

use crate::generate::{from_hex, plan_t, plans, templates};
use crate::plan_file::{encode, Kind, Node};
use crate::run::{Opening, Reply, Run, Stop};
use crate::timetable::timetable;
use crate::verdict::judge;
use crate::{Fault, HORIZON};

const PRINTED: &str = "\
position activity node start end
0 0 2 0 3000
0 0 3 3000 8000
0 0 4 8000 9000
1 0 2 9000 12000
1 0 3 12000 17000
1 0 4 17000 18000
2 1 1 18000 20000
free 20000 18000
end 2
";

fn same<T: PartialEq + std::fmt::Debug>(what: &str, found: T, wanted: T) -> Result<(), String> {
    match found == wanted {
        true => Ok(()),
        false => Err(format!("{what}: {found:?} instead of {wanted:?}")),
    }
}

fn refusal(bytes: &[u8]) -> Option<(u8, u64)> {
    judge(bytes).err().map(|fault| (fault.number, fault.place))
}

fn timetable_input(plan: &[u8], outcomes: &[u8]) -> Vec<u8> {
    let length = (plan.len() as u16).to_le_bytes();
    [&length[..], plan, outcomes].concat()
}

fn opening(psi: u64, slack: u64, availability: u64) -> Opening {
    Opening { plan: plan_t(), psi, slack, availabilities: vec![availability; 2] }
}

fn opens(opening: &Opening) -> Option<(u8, u64)> {
    Run::open(opening).0.err().map(|fault: Fault| (fault.number, fault.place))
}

fn start(position: u32, activity: u8, node: u8) -> Reply {
    Reply::Start { position, activity, node }
}

fn stop(number: u8, position: u32, node: u8) -> Reply {
    Reply::Stopped(Stop { number, node: Some((position, node)) })
}

/// K1 to K7: files, the timetable and openings.
pub fn k1_to_k7() -> Result<(), String> {
    same("K1", refusal(&[]), Some((1, 0)))?;
    same("K2", refusal(&[0]), Some((7, 0)))?;
    let smallest = from_hex("10 01 00 01 00 00 00 00 00 00 00 00 00");
    same("K3", refusal(&smallest), None)?;
    let (_, run) = Run::open(&Opening { plan: smallest, psi: 5, slack: 1, availabilities: vec![] });
    same("K3 ask", run.ask(0).0, Reply::Done)?;
    same("T's length", plan_t().len(), 93)?;
    same("K4", timetable(&timetable_input(&plan_t(), &[0, 1])).as_str(), PRINTED)?;
    same("K5", refusal(&[plan_t(), vec![0]].concat()), Some((6, 93)))?;
    same("K6", opens(&opening(0, 999, 0)), None)?;
    same("K6", opens(&opening(0, 1000, 0)), Some((33, 0)))?;
    same("K7", opens(&opening(0, 500, HORIZON - 9000)), None)?;
    same("K7", opens(&opening(0, 500, HORIZON - 8999)), Some((44, 0)))
}

/// K8 to K12: T, Ψ 1,000,000, slack 500, availabilities 0.
pub fn k8_to_k12() -> Result<(), String> {
    let run = Run::open(&opening(1_000_000, 500, 0)).1;
    same("K8", run.clone().ask(999_999).0, Reply::Wait)?;
    same("K9", run.clone().ask(1_000_500).0, start(0, 0, 2))?;
    same("K9", run.clone().ask(1_000_501).0, stop(41, 0, 2))?;
    let (reply, started) = run.ask(1_000_000);
    same("K10", reply, start(0, 0, 2))?;
    let (reply, reported) = started.clone().completion(1_002_999, 0, 2);
    same("K10", reply, Reply::Taken)?;
    same("K10", started.completion(1_003_000, 0, 2).0, stop(42, 0, 2))?;
    let (reply, after) = reported.clone().ask(1_003_000);
    same("K11", reply, start(0, 0, 3))?;
    same("K12", reported.ask(1_002_998).0, Reply::Refused(51))?;
    same("K12 later", after.completion(1_002_998, 0, 3).0, Reply::Refused(51))
}

/// "8 and 9 predecessors (3); 512 and 513 nodes in the first path (43)".
pub fn others() -> Result<(), String> {
    for (predecessors, wanted) in [(8u8, None), (9, Some((3, 89)))] {
        let mut plan = plans::wide_plan(0, 0);
        let mut nodes = vec![Node { kind: Kind::Claim(0), duration: 0, predecessors: vec![] }];
        for n in 0..9 {
            nodes.push(Node { kind: Kind::Event(0), duration: 1, predecessors: vec![n] });
        }
        let last = (0..predecessors).map(|n| n + 1).collect();
        nodes.push(Node { kind: Kind::Release(0), duration: 0, predecessors: last });
        plan.activities = vec![nodes];
        let bytes = encode(&plan);
        // 9 head bytes, claim 2, events 8 each, the release's map and resource.
        let place = 1 + 1 + 3 + 2 + 1 + 1 + 2 + 9 * 8 + 2;
        let wanted = wanted.map(|(number, _): (u8, u64)| (number, place as u64));
        let found = crate::plan_file::read(&bytes).err().map(|f| (f.number, f.place));
        same("predecessors", found, wanted)?;
    }
    for (nodes, wanted) in [(512, None), (513, Some((43, 0)))] {
        let plan = encode(&plans::wide_plan(nodes - 1, 1));
        let opening = Opening { plan, psi: 0, slack: 1, availabilities: vec![0, 0] };
        same("nodes in the first path", opens(&opening), wanted)?;
    }
    Ok(())
}

/// The settled points about T's timetable, and input that ends early.
pub fn timetable_points() -> Result<(), String> {
    let waits = "position activity node start end\n0 0 2 0 3000\n0 0 3 3000 8000\n0 0 4 8000 9000\n\
        1 0 2 9000 12000\n1 0 3 12000 17000\n1 0 4 17000 18000\nfree 17000 12000\nwaits 1 0\n";
    same("waits", timetable(&timetable_input(&plan_t(), &[0])).as_str(), waits)?;
    let head = "position activity node start end\n0 0 2 0 3000\n0 0 3 3000 8000\n0 0 4 8000 9000\n";
    let lacks = format!("{head}refused 55 0\n");
    same("55", timetable(&timetable_input(&plan_t(), &[2, 1])), lacks)?;
    let spare = timetable(&timetable_input(&plan_t(), &[0, 1, 9, 9]));
    same("spare outcomes", spare.as_str(), PRINTED)?;
    same("no input", timetable(&[]).as_str(), "refused 1 0\n")?;
    same("half a length", timetable(&[93]).as_str(), "refused 1 0\n")?;
    same("length 0", timetable(&[0, 0]).as_str(), "refused 1 0\n")?;
    let input = timetable_input(&plan_t(), &[]);
    same("cut", timetable(&input[..50]).as_str(), "refused 1 48\n")?;
    same(
        "too long",
        timetable(&timetable_input(&[plan_t(), vec![0]].concat(), &[])).as_str(),
        "refused 6 93\n",
    )?;
    let smallest = from_hex("10 01 00 01 00 00 00 00 00 00 00 00 00");
    let bare = "position activity node start end\nfree\nend 0\n";
    same("no resources", timetable(&timetable_input(&smallest, &[])).as_str(), bare)
}

/// 25 and 26 by counting, and the order between them.
pub fn pending_counts() -> Result<(), String> {
    let cases = [
        ((8, 0, 8), None),
        ((8, 1, 9), None),
        ((9, 0, 9), Some((26, 0))),
        ((8, 2, 10), Some((26, 0))),
        ((3, 0, 4), Some((25, 0))),
        ((3, 0, 2), Some((25, 0))),
        ((9, 0, 8), Some((25, 0))),
        ((9, 0, 10), Some((25, 0))),
        ((0, 1, 1), Some((25, 0))),
    ];
    for ((emitted, again, processed), wanted) in cases {
        let plan = templates::counting_plan(emitted, again, processed);
        same(&format!("counting {emitted} {again} {processed}"), refusal(&encode(&plan)), wanted)?;
    }
    // An initial state that processes what the same transition emits.
    let mut plan = templates::counting_plan(1, 0, 0);
    plan.automaton.transitions[0].input = Some((0, 0));
    same("processed before it is emitted", refusal(&encode(&plan)), Some((25, 0)))
}

/// "Opening checks run 30 to 33, then 44, 43 as refusals", each pair with the earlier one first.
pub fn opening_order() -> Result<(), String> {
    let far = HORIZON + 1;
    let short = Opening { availabilities: vec![far], ..opening(far, 0, 0) };
    same("30 before 31", opens(&short), Some((30, 0)))?;
    same("31 before 32", opens(&opening(0, 0, far)), Some((31, 0)))?;
    same("31 for psi", opens(&opening(far, 0, 0)), Some((31, 0)))?;
    same("32 before 33", opens(&opening(0, 1_000_001, 0)), Some((32, 0)))?;
    same("32 for no slack", opens(&opening(0, 0, HORIZON)), Some((32, 0)))?;
    same("33 before 44", opens(&opening(0, 1000, HORIZON)), Some((33, 0)))?;
    let wide = encode(&plans::wide_plan(512, 1));
    let horizon = Opening { plan: wide, psi: 0, slack: 1, availabilities: vec![HORIZON; 2] };
    same("44 before 43", opens(&horizon), Some((44, 0)))?;
    let damaged = Opening { plan: vec![0], ..short };
    same("the plan is judged first", opens(&damaged), Some((7, 0)))?;
    // Activity 1 of T takes 2,000, activity 0 at least 1,000; an activity nobody uses counts too.
    let mut plan = judge(&plan_t()).map_err(|fault| format!("{fault:?}"))?;
    plan.activities.push(plan.activities[1].clone());
    plan.activities[2][1].duration = 500;
    let unused = Opening { plan: encode(&plan), ..opening(0, 500, 0) };
    same("33 of an unused activity", opens(&unused), Some((33, 2)))
}

/// The large plans: the largest is accepted, the longest is as long as the paper says.
pub fn large_plans() -> Result<(), String> {
    same("largest", refusal(&encode(&plans::largest_plan())), None)?;
    let longest = encode(&plans::longest_readable_plan());
    same("longest", longest.len(), crate::plan_file::LONGEST_PLAN)?;
    same("longest reads", crate::plan_file::read(&longest).is_ok(), true)?;
    same("longest is cyclic", refusal(&longest), Some((11, 0)))
}

#[test]
fn k1_to_k7_hold() {
    k1_to_k7().unwrap();
}

#[test]
fn k8_to_k12_hold() {
    k8_to_k12().unwrap();
}

#[test]
fn others_hold() {
    others().unwrap();
}

#[test]
fn timetable_points_hold() {
    timetable_points().unwrap();
}

#[test]
fn pending_counts_hold() {
    pending_counts().unwrap();
}

#[test]
fn opening_order_holds() {
    opening_order().unwrap();
}

#[test]
fn large_plans_hold() {
    large_plans().unwrap();
}
