//! "What an activity must satisfy (Def. 1)", numbers 11 to 18.

use crate::plan_file::{Activity, Kind, Node, Plan};
use crate::toggles::{broken, Broken};
use crate::Fault;

/// `before[a][b]`: there are one or more arrows from node a to node b.
pub type Before = Vec<Vec<bool>>;

/// "Before" means by one or more arrows: node after node is tried as a link in between.
pub fn before(activity: &Activity) -> Before {
    let nodes = activity.len();
    let mut before = vec![vec![false; nodes]; nodes];
    for (to, node) in activity.iter().enumerate() {
        for &from in &node.predecessors {
            before[from as usize][to] = true;
        }
    }
    for link in 0..nodes - broken(Broken::BeforeOneStageShort) as usize {
        let after_link = before[link].clone();
        for after in before.iter_mut().filter(|after| after[link]) {
            after.iter_mut().zip(&after_link).for_each(|(known, &new)| *known |= new);
        }
    }
    before
}

struct Judge<'a> {
    plan: &'a Plan,
    activity: &'a Activity,
    before: Before,
}

impl Judge<'_> {
    fn nodes(&self) -> impl Iterator<Item = (usize, &Node)> {
        self.activity.iter().enumerate()
    }

    fn numbers_of(&self, kind: Kind) -> Vec<usize> {
        self.nodes().filter(|(_, node)| node.kind == kind).map(|(n, _)| n).collect()
    }

    fn ordered(&self, a: usize, b: usize) -> bool {
        if broken(Broken::OrderedOneWayOnly) {
            return self.before[a.min(b)][a.max(b)];
        }
        self.before[a][b] || self.before[b][a]
    }

    /// 11: "No cycle."
    fn has_cycle(&self) -> bool {
        self.nodes().any(|(n, _)| self.before[n][n])
    }

    /// 12: "Two actions on one peripheral are ordered (I)."
    fn breaks_i(&self) -> bool {
        let peripheral = |node: &Node| match node.kind {
            Kind::Action { peripheral, .. } => Some(peripheral),
            _ => None,
        };
        self.some_pair_unordered(peripheral)
    }

    /// 18: "Two different nodes of one event are ordered (XI)."
    fn breaks_xi(&self) -> bool {
        let event = |node: &Node| match node.kind {
            Kind::Event(event) => Some(event),
            _ => None,
        };
        self.some_pair_unordered(event)
    }

    fn some_pair_unordered(&self, shared: impl Fn(&Node) -> Option<u8>) -> bool {
        self.nodes().any(|(a, node_a)| {
            self.nodes().any(|(b, node_b)| {
                let alike = shared(node_a).is_some() && shared(node_a) == shared(node_b);
                a != b && alike && !self.ordered(a, b)
            })
        })
    }

    /// 13: "A resource is claimed at most once and released at most once (II, III)".
    fn breaks_ii_or_iii(&self) -> bool {
        (0..self.plan.resources).any(|resource| {
            let claims = self.numbers_of(Kind::Claim(resource)).len();
            let releases = self.numbers_of(Kind::Release(resource)).len();
            claims > 1 || releases > 1
        })
    }

    /// Whether a claim (release) of the resource is before (after) the node.
    fn claimed_before(&self, resource: u8, node: usize) -> bool {
        self.numbers_of(Kind::Claim(resource)).iter().any(|&claim| self.before[claim][node])
    }

    fn released_after(&self, resource: u8, node: usize) -> bool {
        self.numbers_of(Kind::Release(resource)).iter().any(|&release| self.before[node][release])
    }

    /// 14: "An action has a claim of its peripheral's resource before it and a release after it".
    fn breaks_iv_or_v(&self) -> bool {
        self.nodes().any(|(n, node)| {
            let Kind::Action { peripheral, .. } = node.kind else { return false };
            let resource = self.plan.peripherals[peripheral as usize];
            let any = (0..self.plan.resources).any(|r| self.claimed_before(r, n));
            let claimed = self.claimed_before(resource, n) || broken(Broken::AnyClaimWillDo) && any;
            !claimed || !self.released_after(resource, n)
        })
    }

    /// 15: "A release has its claim before it and a claim its release after it (VI, VII)."
    fn breaks_vi_or_vii(&self) -> bool {
        self.nodes().any(|(n, node)| match node.kind {
            Kind::Release(resource) => !self.claimed_before(resource, n),
            Kind::Claim(resource) => !self.released_after(resource, n),
            _ => false,
        })
    }

    /// 16: "Claims have no predecessor, releases no successor (VIII, IX)."
    fn breaks_viii_or_ix(&self) -> bool {
        self.nodes().any(|(n, node)| match node.kind {
            Kind::Claim(_) => self.nodes().any(|(m, _)| self.before[m][n]),
            Kind::Release(_) if broken(Broken::ReleaseMaySucceed) => false,
            Kind::Release(_) => self.nodes().any(|(m, _)| self.before[n][m]),
            _ => false,
        })
    }

    /// 17: "An event has a predecessor (X)."
    fn breaks_x(&self) -> bool {
        self.nodes().any(|(_, node)| matches!(node.kind, Kind::Event(_)) && node.predecessors.is_empty())
    }
}

/// The first rule an activity breaks, 11 to 18.
pub fn activity_number(plan: &Plan, activity: &Activity) -> Option<u8> {
    let judge = Judge { plan, activity, before: before(activity) };
    let mut rules: Vec<(u8, fn(&Judge) -> bool)> = vec![
        (11, |judge| judge.has_cycle()),
        (12, |judge| judge.breaks_i()),
        (13, |judge| judge.breaks_ii_or_iii()),
        (14, |judge| judge.breaks_iv_or_v()),
        (15, |judge| judge.breaks_vi_or_vii()),
        (16, |judge| judge.breaks_viii_or_ix()),
        (17, |judge| judge.breaks_x()),
        (18, |judge| judge.breaks_xi()),
    ];
    if broken(Broken::FifteenAfterSixteen) {
        rules.swap(4, 5);
    }
    rules.into_iter().find(|(_, is_broken)| is_broken(&judge)).map(|(number, _)| number)
}

/// "Then activities in order, place = activity".
pub fn judge_activities(plan: &Plan) -> Result<(), Fault> {
    for (place, activity) in plan.activities.iter().enumerate() {
        if let Some(number) = activity_number(plan, activity) {
            return Err(Fault::new(number, place));
        }
    }
    Ok(())
}
