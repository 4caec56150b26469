//! The two computations of the specified times must agree, and so must the texts from them.

use super::{graph_timetable, judge_hits};
use crate::compare::hits::Hits;
use crate::compare::markers::{self, too_few, OF_TIMETABLES};
use crate::compare::settings::{self, run_cases};
use crate::compare::Failure;
use crate::generate::{inputs, plans, Random};
use crate::plan_file::{encode, Plan, Transition};
use crate::specified_times::incremental::shapes;
use crate::specified_times::{Combined, Moment, NodeTime};
use crate::timetable::{list, split, timetable};
use crate::verdict::judge;
use crate::HORIZON;

/// A word of the automaton, any outcome at each waiting state.
fn random_word(random: &mut Random, plan: &Plan, most: usize) -> Vec<Transition> {
    let mut word: Vec<Transition> = Vec::new();
    let mut state = plan.automaton.initial;
    while word.len() < most {
        let ways = plan.automaton.ways_out(state);
        if ways.is_empty() {
            break;
        }
        word.push(random.pick(&ways));
        state = word[word.len() - 1].to;
    }
    word
}

fn availabilities(random: &mut Random, plan: &Plan) -> Vec<u64> {
    let spread = random.pick(&[1, 1, 5_000, 100_000]);
    (0..plan.resources).map(|_| random.below(spread) as u64).collect()
}

/// Node times and availabilities of a word, one transition at a time.
fn passed(plan: &Plan, word: &[Transition], availabilities: &[u64]) -> (Vec<NodeTime>, Vec<u64>) {
    let shapes = shapes(plan);
    let mut moment = Moment::at_opening(plan, availabilities);
    let mut times = Vec::new();
    for (position, way) in word.iter().enumerate() {
        let passed = moment.pass(plan, &shapes, way, position as u64);
        times.extend(passed.times);
        moment = passed.moment;
    }
    (times, moment.availabilities)
}

/// The incremental times are those of the combined activity, and its availabilities are the
/// completions of the combined activity's releases.
pub fn times_agree(seed: u64, cases: usize, hits: &mut Hits) -> Result<(), String> {
    run_cases(seed, cases, |random| {
        let plan = plans::any_plan(random);
        let word = random_word(random, &plan, 16);
        let availabilities = availabilities(random, &plan);
        let (times, free) = passed(&plan, &word, &availabilities);
        let combined = Combined::of_word(&plan, &word);
        hits.hit(format!("words of {:02} positions", word.len()));
        if times != combined.executed(&availabilities) || free != combined.free(&plan, &availabilities) {
            return Err(Failure::new(format!("times differ over {word:?}"), &encode(&plan)));
        }
        Ok(())
    })
}

fn last_line(text: &str) -> String {
    let line = text.lines().last().unwrap_or("");
    let word = line.split(' ').next().unwrap_or("");
    match word {
        "refused" => line.split(' ').take(2).collect::<Vec<_>>().join(" "),
        _ => word.to_string(),
    }
}

/// The printed texts are those of the combined activity, near the horizon too.
pub fn timetables_agree(seed: u64, cases: usize, hits: &mut Hits) -> Result<(), String> {
    run_cases(seed, cases, |random| {
        let input = inputs::timetable(random, 8);
        let text = timetable(&input);
        hits.hit(last_line(&text));
        let Ok((bytes, outcomes)) = split(&input) else { return Ok(()) };
        let Ok(plan) = judge(bytes) else { return Ok(()) };
        markers::count(&markers::of_timetable(&plan, outcomes), hits);
        let from = random.pick(&[0, 0, HORIZON - 8_000, HORIZON - 30_000]);
        let availabilities = vec![from; plan.resources as usize];
        let text = list(&plan, outcomes, &availabilities);
        if from > 0 {
            hits.hit(format!("near the horizon: {}", last_line(&text)));
        }
        match text == graph_timetable::text(&plan, outcomes, &availabilities) {
            true => Ok(()),
            false => Err(Failure::new(format!("availabilities {availabilities:?}\n{text}"), &input)),
        }
    })
}

#[test]
fn times_are_those_of_the_combined_activity() {
    let seed = settings::seed();
    let mut hits = Hits::default();
    times_agree(seed, settings::cases(10_000), &mut hits).unwrap_or_else(|what| panic!("{what}"));
    hits.print("times");
}

#[test]
fn timetables_are_those_of_the_combined_activity() {
    let seed = settings::seed();
    let mut hits = Hits::default();
    let cases = settings::cases(10_000);
    timetables_agree(seed, cases, &mut hits).unwrap_or_else(|what| panic!("{what}"));
    let wanted = ["end", "waits", "refused 1", "refused 55", "near the horizon: refused 44"];
    judge_hits("timetables", &hits, &wanted.map(String::from));
    let few = too_few(&hits, OF_TIMETABLES, cases, 200);
    assert!(settings::is_by_hand() || few.is_empty(), "too few: {few:?}");
}
