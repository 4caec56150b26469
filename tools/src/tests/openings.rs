//! Refused openings: 30 to 33, 43, 44 explained, with the proved number and place.

use super::markers::{
    has_several_pending, is_refused_by_markers, late_availabilities, long_plan, marked_plan, often_enough,
    taken, MARKED,
};
use crate::explain::opening::explain;
use crate::input::from_text;
use crate::names::Names;
use crate::proved;
use jidlekuvo_reference::compare::hits::Hits;
use jidlekuvo_reference::compare::settings::is_by_hand;
use jidlekuvo_reference::generate::activity::Durations;
use jidlekuvo_reference::generate::plans::{plan, wide_plan, Style};
use jidlekuvo_reference::generate::Random;
use jidlekuvo_reference::plan_file::{encode, read, Plan};
use jidlekuvo_reference::run::Opening;
use jidlekuvo_reference::{Fault, HORIZON};

/// An opening with a fault of a kind, mostly.
fn opening(random: &mut Random, case: usize) -> Opening {
    let found: Plan = match case % 8 {
        4 => wide_plan(random.between(510, 516), 3),
        5 => long_plan(random.between(510, 516)),
        6 => marked_plan(random, &[1, 1]),
        _ => plan(random, Style::small(Durations::Tying)),
    };
    let resources = found.resources as usize;
    let mut opening = Opening { plan: encode(&found), psi: 0, slack: 1, availabilities: vec![0; resources] };
    let far = HORIZON + 1 + random.below(1000) as u64;
    match case % 8 {
        0 => opening.availabilities.resize(random.pick(&[resources + 1, resources - 1]), 0),
        1 if random.one_in(2) => opening.psi = far,
        1 => opening.availabilities[random.below(resources)] = far,
        2 => opening.slack = random.pick(&[0, 1_000_001, u64::MAX]),
        3 => opening.slack = random.pick(&[1_000_000, 1_000, 3_000]),
        4 | 5 => {}
        6 => opening.availabilities = late_availabilities(random, &found),
        _ => {
            let near = |random: &mut Random| HORIZON - random.below(6_000) as u64;
            opening
                .availabilities
                .iter_mut()
                .for_each(|a| *a = if random.one_in(4) { 0 } else { near(random) });
        }
    }
    opening
}

const CROWDED: &str = "43 because of markers";
const FAR: &str = "44 because of markers";
const FAR_OF_SEVERAL: &str = "44 because of markers, several of one pending";

/// What a refused opening shows of markers.
fn kinds(plan: &Plan, opening: &Opening, number: u8) -> Vec<&'static str> {
    match number {
        _ if !is_refused_by_markers(plan, opening, number) => vec![],
        43 => vec![CROWDED],
        _ if has_several_pending(plan, &taken(plan, &[])) => vec![FAR, FAR_OF_SEVERAL],
        _ => vec![FAR],
    }
}

pub fn refusals(seed: u64, cases: usize) -> Result<(), String> {
    let mut hits = Hits::default();
    for case in 0..cases {
        let mut random = Random::new(seed + case as u64);
        let opening = opening(&mut random, case);
        let Some(fault) = proved::open(&opening)? else { continue };
        hits.verdict(Some(fault.number));
        if explain(&opening, &Names::default(), fault).is_none() {
            let told = format!("{} {} is not explained: {opening:?}", fault.number, fault.place);
            return Err(format!("seed {}: {told}", seed + case as u64));
        }
        let found = read(&opening.plan).map_or(vec![], |plan| kinds(&plan, &opening, fault.number));
        found.into_iter().for_each(|kind| hits.hit(kind));
    }
    often_enough(&hits, &[CROWDED, FAR, FAR_OF_SEVERAL], cases, 40)?;
    if cases < 6_000 || is_by_hand() {
        return Ok(());
    }
    hits.print("refused openings explained");
    let wanted = [30, 31, 32, 33, 43, 44].map(|number| format!("number {number}"));
    let few: Vec<String> = wanted.into_iter().filter(|what| hits.count(what) < 100).collect();
    if few.is_empty() {
        Ok(())
    } else {
        Err(format!("met less than 100 times: {few:?}"))
    }
}

fn said(opening: &Opening) -> String {
    let fault = proved::open(opening).unwrap().unwrap();
    format!("{} {}: {}", fault.number, fault.place, explain(opening, &Names::default(), fault).unwrap())
}

#[test]
fn sentences_of_openings() {
    let plan = jidlekuvo_reference::generate::plan_t();
    let good = Opening { plan, psi: 0, slack: 999, availabilities: vec![0, 0] };
    let none = Opening { availabilities: vec![], ..good.clone() };
    assert_eq!(said(&none), "30 0: 0 availabilities for 2 resources");
    let late = Opening { psi: HORIZON + 1, ..good.clone() };
    assert_eq!(said(&late), "31 0: the start time is 1000000000000001, at most 1000000000000000");
    let slack = Opening { slack: 0, ..good.clone() };
    assert_eq!(said(&slack), "32 0: the slack is 0, from 1 to 1000000");
    let short = Opening { slack: 1000, ..good.clone() };
    assert_eq!(said(&short), "33 0: activity a0, node n4 lasts 1000, not above the slack of 1000");
    let far = Opening { availabilities: vec![HORIZON - 8_999; 2], ..good };
    assert_eq!(
        said(&far),
        "44 0: r1 is available at 999999999991001; after it, one after the other: a0 n2 for 3000, a0 n3 for 5000, a0 n4 for 1000: above 1000000000000000"
    );
    let wide = Opening { plan: encode(&wide_plan(512, 3)), psi: 0, slack: 1, availabilities: vec![0, 0] };
    assert_eq!(said(&wide), "43 0: the path from s0 to s10 has 513 actions and events, at most 512");
}

#[test]
fn a_first_path_runs_on_through_markers() {
    let opening =
        |nodes| Opening { plan: encode(&long_plan(nodes)), psi: 0, slack: 1, availabilities: vec![0] };
    assert_eq!(said(&opening(513)), "43 0: the path from s0 to s9 has 513 actions and events, at most 512");
    assert_eq!(proved::open(&opening(512)), Ok(None));
}

#[test]
fn a_chain_goes_over_a_marker() {
    let source = from_text(MARKED.into()).unwrap();
    let opening =
        |head| Opening { plan: source.bytes.clone(), psi: 0, slack: 1, availabilities: vec![head, 0] };
    let far = opening(HORIZON - 5_999);
    let fault = proved::open(&far).unwrap().unwrap();
    assert_eq!(fault, Fault::new(44, 0));
    assert_eq!(
        explain(&far, &source.names, fault).unwrap(),
        "head is available at 999999999994001; after it, one after the other: stitch sew for 3000, stitch mark for 1000, move go for 2000: above 1000000000000000"
    );
    assert_eq!(proved::open(&opening(HORIZON - 6_000)), Ok(None));
}

#[test]
fn a_chain_goes_over_the_oldest_instance() {
    let twice = "late: event sewn for 5000 after early\nearly: event sewn for 1000 after sew\n";
    let plan = MARKED
        .replace("mark: event sewn for 1000 after sew\n", twice)
        .replace("for 2000", "for 20000")
        .replace("look: event thread for 500 after sew\n", "")
        .replace("from asks to end on thread whole\nfrom asks to end on thread broken do move\n", "")
        + "from asks to end on sewn yes\n";
    let source = from_text(plan).unwrap();
    let opening =
        |head| Opening { plan: source.bytes.clone(), psi: 0, slack: 1, availabilities: vec![head, 0] };
    let far = opening(HORIZON - 23_999);
    let fault = proved::open(&far).unwrap().unwrap();
    assert_eq!(
        explain(&far, &source.names, fault).unwrap(),
        "head is available at 999999999976001; after it, one after the other: stitch sew for 3000, stitch early for 1000, move go for 20000: above 1000000000000000"
    );
    assert_eq!(proved::open(&opening(HORIZON - 24_000)), Ok(None));
}
