//! Openings, mostly good ones.

use super::activity::Durations;
use super::damage::damaged_blindly;
use super::markers::{long_plan, marker_plan};
use super::plans::{any_plan, plan, wide_plan, Style};
use super::tying::tying_plan;
use super::Random;
use crate::plan_file::{encode, Plan};
use crate::run::Opening;
use crate::HORIZON;

fn shortest(plan: &Plan) -> u64 {
    let executed = plan.activities.iter().flatten().filter(|n| n.is_executed());
    executed.map(|n| n.duration as u64).min().unwrap_or(1_000_001)
}

/// The plan of an opening: mostly one that opens.
fn plan_to_open(random: &mut Random) -> Plan {
    match random.below(40) {
        0 => any_plan(random),
        1 => {
            let first = random.pick(&[0, 1, 60, 200, 450]);
            wide_plan(first, 512 - first + random.below(5) - 2)
        }
        2 => wide_plan(random.between(509, 514), 3),
        3 => {
            let durations = random.pick(&[Durations::Any, Durations::WithZeros]);
            plan(random, Style::small(durations))
        }
        4..=8 => plan(random, Style::typical(Durations::Tying)),
        9 | 10 => tying_plan(random),
        19 | 20 => marker_plan(random),
        21 => long_plan(random),
        11..=18 => plan(random, Style::pending(Durations::Tying)),
        _ => plan(random, Style::small(Durations::Tying)),
    }
}

/// Mostly the largest slack with which the plan opens.
fn slack(random: &mut Random, plan: &Plan) -> u64 {
    let shortest = shortest(plan).clamp(2, 1_000_001);
    match random.below(12) {
        0 => 1,
        1..=3 => random.between(1, shortest as usize - 1) as u64,
        _ => shortest - 1,
    }
}

fn psi(random: &mut Random) -> u64 {
    match random.below(8) {
        0 => 0,
        1 => HORIZON,
        2 => random.below(HORIZON as usize) as u64,
        _ => 1_000_000,
    }
}

/// An opening whose nodes tie.
pub fn tying_opening(random: &mut Random) -> Opening {
    let plan = tying_plan(random);
    soon(random, plan)
}

/// An opening of a plan with markers.
pub fn marker_opening(random: &mut Random) -> Opening {
    let plan = marker_plan(random);
    let mut opening = soon(random, plan);
    if random.one_in(4) {
        move_one_away(random, &mut opening.availabilities);
    }
    opening
}

/// All resources are available at once.
fn soon(random: &mut Random, plan: Plan) -> Opening {
    let (slack, psi) = (slack(random, &plan), psi(random));
    let availability = random.pick(&[0, 0, 0, 1_500]);
    Opening { plan: encode(&plan), psi, slack, availabilities: vec![availability; plan.resources as usize] }
}

/// One resource far away from the others: a later path may need it, and 44 comes within the steps of a
/// careful host.
fn move_one_away(random: &mut Random, availabilities: &mut [u64]) {
    availabilities[random.below(availabilities.len())] = HORIZON - random.pick(&[0, 3_000, 20_000]);
}

/// An opening, now and then with a fault.
pub fn opening(random: &mut Random) -> Opening {
    let plan = plan_to_open(random);
    let (slack, psi) = (slack(random, &plan), psi(random));
    let base = match random.below(10) {
        0 | 1 => HORIZON - random.below(60_000) as u64,
        2 => random.below(100_000) as u64,
        _ => 0,
    };
    let spread = random.pick(&[1, 1, 1, 3_000]);
    let near = |random: &mut Random| (base + random.below(spread) as u64).min(HORIZON);
    let mut availabilities: Vec<u64> = (0..plan.resources).map(|_| near(random)).collect();
    if plan.resources > 1 && random.one_in(4) {
        move_one_away(random, &mut availabilities);
    }
    let mut opening = Opening { plan: encode(&plan), psi, slack, availabilities };
    while random.one_in(12) {
        spoil(random, &mut opening);
    }
    opening
}

fn spoil(random: &mut Random, opening: &mut Opening) {
    match random.below(7) {
        0 => opening.availabilities.push(0),
        1 => {
            opening.availabilities.pop();
        }
        2 => opening.psi = random.pick(&[HORIZON + 1, u64::MAX]),
        3 => opening.availabilities.iter_mut().for_each(|a| *a = HORIZON + 1),
        4 => opening.slack = random.pick(&[0, 1_000_001, u64::MAX]),
        5 => opening.slack = opening.slack.saturating_add(1),
        _ => opening.plan = damaged_blindly(random, &opening.plan),
    }
}
