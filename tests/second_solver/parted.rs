//! The branches of nodes beside two multipliers that are known from the parent's dispatch. A node is closed where a floor of theirs
//! reaches the best cost, and decided where the lower one's choices do not cover, the higher one's do, and no unit ties there. Each
//! branch is reached in edition 1, with a b1 below 0 and with one above.

use crate::refined::{self, Found, Node, Search, PAPER};
use crate::solver::{self, Allocation, Case, Evaluation, Offer, Problem, GREATEST_MULTIPLIER};

/// Of searches of how many nodes the parts are looked at.
const FEW: usize = 60;

/// What a multiplier gives a node: its choices, what these cost and give beyond the demand, its floor, and which units tie.
struct At {
    choices: Allocation,
    cost: i128,
    surplus: i128,
    floor: i128,
    ties: Vec<bool>,
}

/// An evaluated node, beside a multiplier and the next one that are known from its parent's dispatch. The root is beside 0 and 1.
struct Part {
    node: Node,
    problem: Problem,
    found: Option<Found>,
    /// The best cost before it, and before its sibling.
    best: i128,
    best_of_parent: i128,
    multiplier: i128,
    low: At,
    high: At,
    from: Option<From>,
    /// The last multiplier of its own dispatch whose choices cover: whether these tie, and whether they are lowered.
    tied: bool,
    lowered: bool,
    /// The multiplier that its parts are beside.
    next: i128,
}

/// How a node comes of its parent: the unit whose regions are parted; whether it ties in the parent at the higher multiplier, and
/// whether it chooses at both as in the parent; and whether the parent is decided too.
struct From {
    unit: usize,
    tied: bool,
    alike: bool,
    decided: bool,
}

type Branch = (&'static str, fn(&Part) -> bool);

const BRANCHES: [Branch; 33] = [
    ("the known floors reach the best cost just so", |part| part.known_floor() == part.best),
    ("the known floors are above the best cost", |part| part.known_floor() > part.best),
    ("the known floors are one below the best cost", |part| part.known_floor() == part.best - 1),
    ("the lower multiplier's floor alone reaches the best cost", |part| part.low.floor >= part.best && part.high.floor < part.best),
    ("the higher multiplier's floor alone reaches the best cost", |part| part.high.floor >= part.best && part.low.floor < part.best),
    ("the known floors reach a best that is found after its parent", |part| part.is_closed() && part.best < part.best_of_parent),
    ("its floor reaches the best cost, the known ones do not", |part| !part.is_closed() && part.own(|found| found.floor >= part.best)),
    ("no allocation, though the known floors reach the best cost", |part| part.found.is_none() && part.is_closed()),
    ("no allocation, and the known floors do not reach the best cost", |part| part.found.is_none() && !part.is_closed()),
    ("decided, and cheaper than the best", |part| part.decided(|found| found.cost < part.best)),
    ("decided, and of the best cost with other outputs", |part| part.decided(|found| found.ties_best)),
    ("decided, and dearer than the best", |part| part.decided(|found| found.cost > part.best)),
    ("decided, and split", |part| part.decided(|found| found.is_split)),
    ("decided, and not split for its own dispatch alone", |part| part.decided(|found| found.floor >= found.best_after)),
    ("decided, with its parent's floor", |part| part.decided(|found| found.floor == found.parent)),
    ("decided, and just meets the demand", |part| part.is_decided() && part.high.surplus == 0),
    ("decided, and dearer than the best by one", |part| part.decided(|found| found.cost == part.best + 1)),
    ("decided, though units tie at the lower multiplier", |part| part.is_decided() && part.low.has_tie()),
    ("decided, and so was its parent", |part| part.is_decided() && part.came(|from| from.decided)),
    ("decided, the root", |part| part.from.is_none() && part.is_decided()),
    ("decided by 0 and 1", |part| part.from.is_some() && part.multiplier == 0 && part.is_decided()),
    ("undecided, the lower multiplier covers", |part| part.is_undecided() && part.low.surplus > 0),
    ("undecided, the lower multiplier just covers", |part| part.is_undecided() && part.low.surplus == 0),
    ("undecided, neither multiplier covers", |part| part.is_undecided() && part.high.surplus < 0),
    ("undecided for a tie alone", |part| part.is_undecided() && part.is_between()),
    ("undecided for a tie alone, and lowered", |part| part.is_undecided() && part.is_between() && part.lowered),
    ("undecided for a tie that lowers nothing", |part| part.is_undecided() && part.is_between() && !part.lowered),
    ("undecided, ties at the multiplier of its dispatch", |part| part.is_undecided() && part.tied),
    ("the unit's tie is parted", |part| part.came(|from| from.tied && !part.high.ties[from.unit])),
    ("the unit ties as it does not in the parent", |part| part.came(|from| !from.tied && part.high.ties[from.unit])),
    ("another unit ties", |part| part.came(|from| part.high.has_tie() && !part.high.ties[from.unit])),
    ("the unit chooses as in its parent", |part| part.came(|from| from.alike)),
    ("beside 65,535 and 65,536", |part| part.multiplier == GREATEST_MULTIPLIER - 1),
];

impl At {
    fn new(problem: &Problem, multiplier: i128) -> At {
        let Evaluation { choices, least_tied, dual, .. } = problem.evaluate(multiplier);
        At {
            cost: solver::total_cost(&choices),
            surplus: problem.surplus(&choices),
            floor: solver::floor(dual),
            ties: choices.iter().zip(&least_tied).map(|(choice, least)| choice != least).collect(),
            choices,
        }
    }

    fn has_tie(&self) -> bool {
        self.ties.contains(&true)
    }
}

impl From {
    fn new(parent: &Part, low: &At, high: &At) -> From {
        let unit = refined::first_of_several(&parent.node).expect("a node that is split");
        let [low_of_parent, high_of_parent] = [0, 1].map(|next| At::new(&parent.problem, parent.next + next));
        From {
            unit,
            tied: high_of_parent.ties[unit],
            alike: low.choices[unit] == low_of_parent.choices[unit] && high.choices[unit] == high_of_parent.choices[unit],
            decided: parent.is_decided(),
        }
    }
}

impl Part {
    fn new(node: Node, search: &Search, found: Option<Found>, best: i128, parent: Option<&Part>) -> Part {
        let problem = problem_of(search.offers(&node), search.demand_net);
        let multiplier = parent.map_or(0, |parent| parent.next);
        let [low, high] = [0, 1].map(|next| At::new(&problem, multiplier + next));
        let from = parent.map(|parent| From::new(parent, &low, &high));
        let best_of_parent = parent.map_or(best, |parent| parent.found.map_or(best, |found| found.best_after));
        let (tied, lowered, next) = (false, false, 0);
        let mut part = Part { node, problem, found, best, best_of_parent, multiplier, low, high, from, tied, lowered, next };
        if found.is_some() {
            part.dispatch();
        }
        part.check();
        part
    }

    /// Sets what the part's own dispatch tells.
    fn dispatch(&mut self) {
        let dispatch = solver::search(&self.problem);
        let covers = |choices: &Allocation| self.problem.surplus(choices) >= 0;
        let last_covering = dispatch.visits.iter().rev().find(|(_, evaluation)| covers(&evaluation.choices));
        let (last, evaluation) = dispatch.visits.last().expect("an evaluation");
        let lower = last - i128::from(covers(&evaluation.choices));
        self.next = if self.is_decided() { self.multiplier } else { lower.clamp(0, GREATEST_MULTIPLIER - 1) };
        self.tied = last_covering.map_or(false, |(_, evaluation)| evaluation.choices != evaluation.least_tied);
        self.lowered = last_covering.map_or(false, |(_, evaluation)| evaluation.choices != evaluation.lowered);
    }

    /// Asserts what the two multipliers tell: that a closed node has no allocation, or changes nothing and is not split; and what a
    /// decided one's dispatch is.
    fn check(&self) {
        if self.is_closed() {
            assert!(self.found.map_or(true, |found| found.cost >= self.best && !found.is_split), "a closed part");
        }
        if self.is_decided() {
            let found = self.found.expect("an allocation of a decided part");
            let floor = found.parent.max(self.known_floor());
            assert_eq!((found.cost, found.floor), (self.high.cost, floor), "a decided part");
        }
    }

    fn known_floor(&self) -> i128 {
        self.low.floor.max(self.high.floor)
    }

    fn is_closed(&self) -> bool {
        self.known_floor() >= self.best
    }

    /// Whether the demand lies between what both multipliers give.
    fn is_between(&self) -> bool {
        self.low.surplus < 0 && self.high.surplus >= 0
    }

    fn is_decided(&self) -> bool {
        !self.is_closed() && self.is_between() && !self.high.has_tie()
    }

    /// Whether the part has an allocation that neither way is told.
    fn is_undecided(&self) -> bool {
        self.found.is_some() && !self.is_closed() && !self.is_decided()
    }

    /// Whether the part is not the root, and has an allocation of which more is asked.
    fn own(&self, condition: impl Fn(&Found) -> bool) -> bool {
        self.from.is_some() && self.found.as_ref().map_or(false, condition)
    }

    fn decided(&self, condition: impl Fn(&Found) -> bool) -> bool {
        self.is_decided() && self.own(condition)
    }

    fn came(&self, condition: impl Fn(&From) -> bool) -> bool {
        self.from.as_ref().map_or(false, condition)
    }
}

/// A problem whose greatest outputs need not cover.
fn problem_of(offers: Vec<Vec<Offer>>, demand_net: i128) -> Problem {
    let greatest = offers.iter().map(|unit| unit[unit.len() - 1]).collect();
    Problem { demand_net, offers, greatest }
}

/// The evaluated nodes, in their order.
fn parts(case: &Case, search: &Search) -> Vec<Part> {
    let root: Node = case.units.iter().map(|unit| 0..(PAPER.regions)(unit).len()).collect();
    let mut open: Vec<(Node, Option<usize>)> = vec![(root, None)];
    let mut parts: Vec<Part> = Vec::new();
    let mut best = i128::MAX;
    for (place, found) in search.visits.iter().enumerate() {
        let (node, parent) = open.pop().expect("a node to each visit");
        if found.map_or(false, |found| found.is_split) {
            open.extend((PAPER.children)(&node).into_iter().rev().map(|child| (child, Some(place))));
        }
        parts.push(Part::new(node, search, *found, best, parent.map(|place| &parts[place])));
        best = found.map_or(best, |found| found.best_after);
    }
    parts
}

/// What each branch is reached with.
const SITES: [(&str, fn(&Case) -> bool); 3] = [
    ("edition 1", |case| case.edition == 1),
    ("a b1 below 0", |case| case.units.iter().any(|unit| unit.b1 < 0)),
    ("a b1 above 0", |case| case.units.iter().any(|unit| unit.b1 > 0)),
];

pub fn names() -> Vec<String> {
    let of_site = |(site, _): &(&str, _)| BRANCHES.map(|(name, _)| format!("{}, a node: {}", site, name));
    SITES.iter().flat_map(of_site).collect()
}

/// Of each branch whether a search comes to it, in the order of `names`.
pub fn reached(searched: Option<(&Case, &Search)>) -> Vec<bool> {
    let few = searched.filter(|(_, search)| (2..=FEW).contains(&search.visits.len()));
    let parts = few.map_or(vec![], |(case, search)| parts(case, search));
    let of_branch = BRANCHES.map(|(_, meets)| parts.iter().any(meets));
    let is_of = |site: fn(&Case) -> bool| few.map_or(false, |(case, _)| site(case));
    SITES.iter().flat_map(|(_, site)| of_branch.map(|reached| reached && is_of(*site))).collect()
}
