//! The tests of this build. Each check gives a message instead of panicking, so that the mutation
//! check can run the same checks on the build broken on purpose.

mod cases;
mod damaged_logs;
mod demand_3_alone;
mod files;
mod graph_timetable;
mod host_side;
mod link;
mod made_up;
mod made_up_markers;
mod markers;
mod mutations;
mod places;
mod runs;
mod stitching;
mod ties;
mod times;

use crate::compare::hits::Hits;

/// A check over so many generated cases from a seed.
pub type Check = fn(seed: u64, cases: usize, hits: &mut Hits) -> Result<(), String>;

/// Every check, by name.
pub const CHECKS: &[(&str, Check)] = &[
    ("K1 to K7", |_, _, _| cases::k1_to_k7()),
    ("K8 to K12", |_, _, _| cases::k8_to_k12()),
    ("others", |_, _, _| cases::others()),
    ("timetable points", |_, _, _| cases::timetable_points()),
    ("pending counts", |_, _, _| cases::pending_counts()),
    ("opening order", |_, _, _| cases::opening_order()),
    ("large plans", |_, _, _| cases::large_plans()),
    ("made-up runs", |_, _, _| made_up::made_up_runs()),
    ("markers", |_, _, _| markers::markers()),
    ("markers in made-up runs", |_, _, _| made_up_markers::made_up_markers()),
    ("messages by hand", |_, _, _| link::by_hand()),
    ("accepted plans", files::accepted_plans),
    ("damaged fields", files::damaged_fields),
    ("faulty activities", files::faulty_activities),
    ("faulty automata", files::faulty_automata),
    ("unbalanced automata", files::unbalanced_automata),
    ("plans that break a file rule", files::unwritable_plans),
    ("blind damage", files::blind_damage),
    ("times", times::times_agree),
    ("timetables", times::timetables_agree),
    ("call lists", runs::call_lists),
    ("pairs of runs", stitching::pairs_of_runs),
    ("places", places::places_kept),
    ("messages", link::message_lists_answered),
];

/// Judges the table of hits, unless the cases were chosen by hand.
fn judge_hits(title: &str, hits: &Hits, wanted: &[String]) {
    hits.print(title);
    let missing = hits.missing(wanted);
    assert!(crate::compare::settings::is_by_hand() || missing.is_empty(), "never hit: {missing:?}");
}
