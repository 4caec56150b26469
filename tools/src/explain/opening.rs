//! 30 to 33, 43 and 44 of an opening: the value or the node, and its limit.

use super::chain::{self, Chain};
use crate::names::{Names, Space};
use crate::toggles::{broken, Broken};
use jidlekuvo_reference::plan_file::{read, Plan};
use jidlekuvo_reference::run::{Opening, Run};
use jidlekuvo_reference::{Fault, HORIZON};

#[derive(Clone, Debug, PartialEq, Eq)]
pub enum Finding {
    Availabilities { given: usize, resources: usize },
    Start(u64),
    Available { resource: u8, at: u64 },
    Slack(u64),
    Short { activity: u8, node: u8, duration: u64 },
    Crowded { path: Vec<usize>, nodes: usize },
    Far(Chain),
}

/// The sentence for a refused opening; numbers up to 26 are the plan's.
pub fn explain(opening: &Opening, names: &Names, fault: Fault) -> Option<String> {
    if fault.number <= 26 {
        return super::explain(&opening.plan, names, fault);
    }
    let plan = read(&opening.plan).ok()?;
    let finding = find(&plan, opening, fault)?;
    holds(&plan, opening, fault, &finding).then(|| sentence(&plan, names, opening, &finding))
}

fn find(plan: &Plan, opening: &Opening, fault: Fault) -> Option<Finding> {
    let far = || (0..).zip(&opening.availabilities).find(|&(_, &at)| at > HORIZON);
    match fault.number {
        30 => {
            let (given, resources) = (opening.availabilities.len(), plan.resources as usize);
            Some(Finding::Availabilities { given, resources })
        }
        31 if opening.psi > HORIZON => Some(Finding::Start(opening.psi)),
        31 => far().map(|(resource, &at)| Finding::Available { resource, at }),
        32 => Some(Finding::Slack(opening.slack)),
        33 => short(plan, opening.slack, fault.place as usize),
        43 => {
            let path = first_path(plan);
            let nodes = path.iter().map(|&way| executed(plan, way)).sum();
            Some(Finding::Crowded { path, nodes })
        }
        44 => chain::find(plan, &first_path(plan), &opening.availabilities).map(Finding::Far),
        _ => None,
    }
}

fn short(plan: &Plan, slack: u64, activity: usize) -> Option<Finding> {
    let nodes = plan.activities.get(activity)?;
    let (node, found) =
        nodes.iter().enumerate().find(|(_, node)| node.is_executed() && node.duration as u64 <= slack)?;
    Some(Finding::Short { activity: activity as u8, node: node as u8, duration: found.duration as u64 })
}

/// The transitions from the initial state up to a waiting or final one.
fn first_path(plan: &Plan) -> Vec<usize> {
    let automaton = &plan.automaton;
    let mut path = Vec::new();
    let mut state = automaton.initial;
    while path.len() < automaton.transitions.len() {
        let mut ways = automaton.transitions.iter().enumerate().filter(|(_, way)| way.from == state);
        let (Some((number, way)), None) = (ways.next(), ways.next()) else { break };
        if broken(Broken::PathEndsAtMarkers) && way.input.is_some() {
            break;
        }
        path.push(number);
        state = way.to;
    }
    path
}

/// How many actions and events a transition's activity has.
fn executed(plan: &Plan, way: usize) -> usize {
    let activity = plan.automaton.transitions[way].activity;
    activity.map_or(0, |a| plan.activities[a as usize].iter().filter(|node| node.is_executed()).count())
}

fn holds(plan: &Plan, opening: &Opening, fault: Fault, finding: &Finding) -> bool {
    match finding {
        Finding::Availabilities { given, resources } => {
            given != resources
                && *given == opening.availabilities.len()
                && *resources == plan.resources as usize
        }
        Finding::Start(at) => *at == opening.psi && *at > HORIZON,
        Finding::Available { resource, at } => {
            opening.availabilities[*resource as usize] == *at && *at > HORIZON
        }
        Finding::Slack(slack) => *slack == opening.slack && !(1..=1_000_000).contains(slack),
        Finding::Short { activity, node, duration } => {
            let found = &plan.activities[*activity as usize][*node as usize];
            let is_here = *activity as u64 == fault.place && found.is_executed();
            is_here && found.duration as u64 == *duration && *duration <= opening.slack
        }
        Finding::Crowded { path, nodes } => {
            let counted: usize = path.iter().map(|&way| executed(plan, way)).sum();
            chain::is_path(plan, path) && counted == *nodes && *nodes > Run::WINDOW
        }
        Finding::Far(chain) => chain::holds(plan, &opening.availabilities, chain),
    }
}

fn sentence(plan: &Plan, names: &Names, opening: &Opening, finding: &Finding) -> String {
    match finding {
        Finding::Availabilities { given, resources } => {
            format!("{given} availabilities for {resources} resources")
        }
        Finding::Start(at) => format!("the start time is {at}, at most {HORIZON}"),
        Finding::Available { resource, at } => {
            format!(
                "{} is available at {at}, at most {HORIZON}",
                names.of(Space::Resource, *resource as usize)
            )
        }
        Finding::Slack(slack) => format!("the slack is {slack}, from 1 to {}", Run::MOST_SLACK),
        Finding::Short { activity, node, duration } => {
            let (a, n) = (
                names.of(Space::Activity, *activity as usize),
                names.of(Space::Node(*activity), *node as usize),
            );
            format!("activity {a}, node {n} lasts {duration}, not above the slack of {}", opening.slack)
        }
        Finding::Crowded { path, nodes } => {
            let last = path.last().map_or(plan.automaton.initial, |&way| plan.automaton.transitions[way].to);
            let (from, to) = (plan.automaton.initial as usize, last as usize);
            let ends = (names.of(Space::State, from), names.of(Space::State, to));
            let most = Run::WINDOW;
            format!("the path from {} to {} has {nodes} actions and events, at most {most}", ends.0, ends.1)
        }
        Finding::Far(chain) => chain.said(plan, names),
    }
}
