//! The branches of searches within a budget, which the counts of numbers do not tell apart.

use crate::calls::Refine;
use crate::generate::capacity;
use crate::misread;
use crate::parted;
use crate::refined::{self, Found, Refined, Rules, Search, GREATEST_BUDGET, PAPER, ROOM};
use crate::solver::{self, Case, Refused, Unit};
use crate::tally::{Branches, POSSIBLE_OF_STARTS};

/// A call and the number of its refusal, or none; of an answered one also the case, the search and the reply.
pub struct Seen<'a> {
    call: &'a Refine,
    number: Option<u32>,
    /// The number with which dispatch refuses the file.
    fault: Option<u32>,
    searched: Option<Searched<'a>>,
}

struct Searched<'a> {
    case: Case,
    search: &'a Search,
    root: Found,
    refined: Refined,
}

type Branch = (&'static str, fn(&Seen) -> bool);

const BRANCHES: [Branch; 76] = [
    ("a budget of 1, with a gap", |seen| seen.of_budget(1, |searched| searched.refined.gap > 0)),
    ("a budget of 1, without a gap", |seen| seen.of_budget(1, |searched| searched.refined.gap == 0)),
    ("a budget of 2, spent", |seen| seen.of_budget(2, |searched| searched.search.is_spent())),
    ("a budget of 65,536, not spent", |seen| seen.of_budget(65_536, |searched| searched.nodes() > 1)),
    ("a budget of 65,537, more than 1 node", |seen| seen.of_budget(65_537, |searched| searched.nodes() > 1)),
    ("a budget of 100,000, not spent", |seen| seen.of_budget(GREATEST_BUDGET, |searched| !searched.search.is_spent())),
    ("a budget of 100,000, spent", |seen| seen.of_budget(GREATEST_BUDGET, |searched| searched.search.is_spent())),
    ("more nodes than 8 bits count", |seen| seen.searched(|searched| searched.nodes() > 255)),
    ("more nodes than 16 bits count", |seen| seen.searched(|searched| searched.nodes() > 65_535)),
    ("1 node of a larger budget", |seen| seen.ended(|searched| searched.nodes() == 1)),
    ("ended with a gap of 0, after several nodes", |seen| seen.ended(|searched| searched.nodes() > 1 && searched.refined.gap == 0)),
    ("ended with a gap", |seen| seen.ended(|searched| searched.refined.gap > 0)),
    ("ended with the last node of the budget", |seen| {
        seen.searched(|searched| searched.nodes() > 1 && searched.search.is_spent() && searched.search.open.is_empty())
    }),
    ("ended with the last node of the budget, with a gap", |seen| {
        seen.searched(|searched| searched.search.is_spent() && searched.search.open.is_empty() && searched.refined.gap > 0)
    }),
    ("spent, one child not evaluated", |seen| seen.searched(|searched| searched.search.open.len() == 1)),
    ("spent, children of several nodes not evaluated", |seen| seen.searched(|searched| searched.search.open.len() > 2)),
    ("spent, with a gap of 0", |seen| seen.searched(|searched| !searched.search.open.is_empty() && searched.refined.gap == 0)),
    ("the gap is that of a child not evaluated", |seen| {
        seen.searched(|searched| searched.nodes() > 1 && searched.least_open() < searched.least_kept())
    }),
    ("the gap is that of an evaluated node", |seen| {
        seen.searched(|searched| searched.least_kept() < searched.least_open() && !searched.search.open.is_empty())
    }),
    ("cheaper than dispatch", |seen| seen.searched(|searched| searched.refined.cost < searched.root.cost)),
    ("cheaper than dispatch, the budget spent", |seen| {
        seen.searched(|searched| searched.refined.cost < searched.root.cost && !searched.search.open.is_empty())
    }),
    ("dispatch's cost, with a smaller gap", |seen| {
        seen.searched(|searched| searched.refined.cost == searched.root.cost && searched.refined.gap < searched.gap_of_root())
    }),
    ("a higher floor than dispatch's, with a gap", |seen| {
        seen.searched(|searched| searched.refined.gap > 0 && searched.bound() > searched.root.floor)
    }),
    ("nothing gained by several nodes", |seen| {
        seen.searched(|searched| searched.nodes() > 1 && searched.refined.gap > 0 && searched.refined.gap == searched.gap_of_root())
    }),
    ("a dropped node", |seen| seen.dropped() > 0),
    ("several dropped nodes", |seen| seen.dropped() > 1),
    ("a dropped node, the last of the budget", |seen| {
        seen.searched(|searched| searched.search.is_spent() && matches!(searched.search.visits[..], [.., None]))
    }),
    ("a child not split, its floor equal to the best cost", |seen| seen.child(|child, _| child.floor == child.best_after)),
    ("a child not split, its floor above the best cost", |seen| seen.child(|child, _| child.floor > child.best_after)),
    ("a child not split for its own dispatch alone", |seen| {
        seen.child(|child, best| child.floor < best && child.floor >= child.best_after)
    }),
    ("a child of single regions, its floor below the best cost", |seen| {
        seen.child(|child, _| !child.is_split && child.floor < child.best_after)
    }),
    ("a child split", |seen| seen.child(|child, _| child.is_split)),
    ("a child evaluated though its parent's floor has reached the best", |seen| seen.child(|child, best| child.parent >= best)),
    ("a child with its parent's floor", |seen| seen.child(|child, _| child.floor == child.parent)),
    ("a child with a higher floor than its parent", |seen| seen.child(|child, _| child.floor > child.parent)),
    ("a child cheaper than the best", |seen| seen.child(|child, best| child.cost < best)),
    ("a child dearer than the best", |seen| seen.child(|child, best| child.cost > best)),
    ("a child of the best cost with other outputs", |seen| seen.child(|child, _| child.ties_best)),
    ("two children one after the other the best", |seen| seen.children(|child, best| child.cost < best) > 1),
    ("another answer if nothing were lowered", |seen| seen.differs_by(&Rules { dispatch: misread::unlowered, ..PAPER })),
    ("another answer if an equal cost replaced the best", |seen| {
        seen.differs_by(&Rules { replaces: |cost, best| cost <= best, ..PAPER })
    }),
    ("1 unit", |seen| seen.split_case(|case| case.units.len() == 1)),
    ("32 units", |seen| seen.split_case(|case| case.units.len() == 32)),
    ("edition 1", |seen| seen.split_case(|case| case.edition == 1)),
    ("edition 2, a b1 that is not 0", |seen| seen.split_with(|unit| unit.b1 != 0)),
    ("a unit with a b", |seen| seen.split_with(|unit| unit.b != 0)),
    ("equal units", |seen| seen.split_case(|case| case.units.windows(2).any(|pair| pair[0] == pair[1]))),
    ("a unit that must run and one that may stand", |seen| {
        seen.split_with(|unit| unit.mark == 0) && seen.split_with(|unit| unit.mark == 1)
    }),
    ("a first unit of one region", |seen| seen.split_case(|case| regions(&case.units[0]) == 1)),
    ("a unit of six regions", |seen| seen.split_with(|unit| regions(unit) == 6)),
    ("a zone with nothing inside", |seen| seen.split_with(|unit| unit.zones.iter().any(|zone| zone.1 - zone.0 == 1))),
    ("zones that share an edge", |seen| seen.split_with(|unit| !solver::shared_edges(unit).is_empty())),
    ("a unit at a shared edge", |seen| seen.split_outputs(|unit, output| solver::shared_edges(unit).contains(&output))),
    ("a region that the ramp window empties", |seen| seen.split_with(|unit| emptied(unit) > 0)),
    ("two regions that the ramp window empties", |seen| seen.split_with(|unit| emptied(unit) > 1)),
    ("a unit that can only stand", |seen| seen.split_with(|unit| emptied(unit) == unit.zones.len() + 1)),
    ("a ramp window that empties no region", |seen| {
        seen.split_with(|unit| unit.previous > 0 && emptied(unit) == 0 && solver::offers(unit) != solver::offers(&loose(unit)))
    }),
    ("a unit stands, another runs", |seen| seen.split_outputs(|_, output| output == 0) && seen.split_outputs(|_, output| output > 0)),
    ("a demand that is just covered", |seen| seen.split_case(|case| case.demand == capacity(&case.units))),
    ("a surplus of 0", |seen| seen.split(|searched| searched.refined.surplus == 0)),
    ("a surplus that 32 bits do not hold", |seen| seen.split(|searched| searched.refined.surplus > TOP)),
    ("a cost that 32 bits do not hold", |seen| seen.split(|searched| searched.refined.cost > TOP)),
    ("a gap that 32 bits do not hold", |seen| seen.split(|searched| searched.refined.gap > TOP)),
    ("a reply of 94 bytes", |seen| seen.searched(|_| seen.call.room == ROOM)),
    ("a reply of 95 bytes", |seen| seen.searched(|_| seen.call.room == ROOM + 1)),
    ("a reply that 16 bits do not count", |seen| seen.searched(|_| seen.call.room == 65_536)),
    ("1 for a reply of 93 bytes", |seen| seen.gave(1) && seen.call.room == ROOM - 1),
    ("1 for a reply of dispatch's 92 bytes", |seen| seen.gave(1) && seen.call.room == 92),
    ("1 for a reply of no byte", |seen| seen.gave(1) && seen.call.room == 0),
    ("1 before 25 for a budget of 0", |seen| seen.gave(1) && seen.call.budget == 0),
    ("1 before 25 for a budget too great", |seen| seen.gave(1) && seen.call.budget > GREATEST_BUDGET),
    ("25 for a budget of 0", |seen| seen.gave(25) && seen.call.budget == 0),
    ("25 for a budget of 100,001", |seen| seen.gave(25) && seen.call.budget == 100_001),
    ("25 for a budget that 16 bits would cut", |seen| seen.gave(25) && seen.call.budget == 131_073),
    ("25 for a budget past 31 bits", |seen| seen.gave(25) && seen.call.budget == 1 << 31),
    ("25 for 4,294,967,295", |seen| seen.gave(25) && seen.call.budget == u32::MAX),
];

/// The numbers before those of a file.
const FIRST: [u32; 2] = [1, 25];

/// The greatest number of 32 bits.
const TOP: i128 = u32::MAX as i128;
/// Of searches of how many nodes other rules are tried.
const FEW: u32 = 30;

fn loose(unit: &Unit) -> Unit {
    Unit { previous: 0, ..unit.clone() }
}

fn regions(unit: &Unit) -> usize {
    (PAPER.regions)(unit).len()
}

/// How many running regions the ramp window empties.
fn emptied(unit: &Unit) -> usize {
    regions(&loose(unit)) - regions(unit)
}

impl Searched<'_> {
    fn nodes(&self) -> i128 {
        self.refined.nodes
    }

    fn bound(&self) -> i128 {
        self.refined.cost - self.refined.gap
    }

    fn gap_of_root(&self) -> i128 {
        self.root.cost - self.root.floor
    }

    fn least_open(&self) -> i128 {
        refined::least(self.search.floors_of_open(), i128::MAX)
    }

    fn least_kept(&self) -> i128 {
        refined::least(self.search.kept.iter().copied(), i128::MAX)
    }
}

impl<'a> Seen<'a> {
    pub fn new(call: &'a Refine, refined: &'a Result<Search, Refused>) -> Seen<'a> {
        let solvable = solver::decode(&call.file).and_then(|case| solver::problem(&case).map(|_| case));
        let fault = solvable.as_ref().err().map(|refused| refused.0);
        let searched = refined.as_ref().ok().map(|search| Searched {
            case: solvable.expect("an answered case"),
            search,
            root: search.visits[0].expect("the root has an allocation"),
            refined: search.refined(),
        });
        Seen { call, number: refined.as_ref().err().map(|refused| refused.0), fault, searched }
    }

    fn gave(&self, number: u32) -> bool {
        self.number == Some(number)
    }

    fn searched(&self, condition: impl Fn(&Searched) -> bool) -> bool {
        self.searched.as_ref().map_or(false, condition)
    }

    fn of_budget(&self, budget: u32, condition: fn(&Searched) -> bool) -> bool {
        self.call.budget == budget && self.searched(condition)
    }

    /// Whether the search has ended by itself, and more that is asked.
    fn ended(&self, condition: fn(&Searched) -> bool) -> bool {
        self.searched(|searched| !searched.search.is_spent() && condition(searched))
    }

    /// Whether there is more than one node, and more that is asked.
    fn split(&self, condition: impl Fn(&Searched) -> bool) -> bool {
        self.searched(|searched| searched.nodes() > 1 && condition(searched))
    }

    fn split_case(&self, condition: impl Fn(&Case) -> bool) -> bool {
        self.split(|searched| condition(&searched.case))
    }

    fn split_with(&self, condition: fn(&Unit) -> bool) -> bool {
        self.split_case(|case| case.units.iter().any(condition))
    }

    /// Whether a unit and its output in the reply meet a condition.
    fn split_outputs(&self, condition: fn(&Unit, i128) -> bool) -> bool {
        self.split(|searched| {
            let mut pairs = searched.case.units.iter().zip(&searched.refined.outputs);
            pairs.any(|(unit, output)| condition(unit, *output))
        })
    }

    fn visits(&self) -> &[Option<Found>] {
        self.searched.as_ref().map_or(&[], |searched| &searched.search.visits)
    }

    fn dropped(&self) -> usize {
        self.visits().iter().filter(|found| found.is_none()).count()
    }

    /// How many evaluated nodes other than the root, with the best cost before them, meet a condition.
    fn children(&self, condition: fn(&Found, i128) -> bool) -> usize {
        let meets = |found: &&Found| found.best_before.map_or(false, |best| condition(found, best));
        self.visits().iter().flatten().filter(meets).count()
    }

    fn child(&self, condition: fn(&Found, i128) -> bool) -> bool {
        self.children(condition) > 0
    }

    /// Whether other rules give another reply.
    fn differs_by(&self, rules: &Rules) -> bool {
        let reply = |searched: &Searched| refined::search(&searched.case, self.call.budget, rules).map(|search| search.refined());
        self.split(|searched| searched.search.nodes <= FEW && reply(searched).as_ref() != Ok(&searched.refined))
    }

    /// Of each branch whether it is reached, in the order of `names`.
    fn reached(&self) -> Vec<bool> {
        let mut reached: Vec<bool> = BRANCHES.iter().map(|(_, is_reached)| is_reached(self)).collect();
        for first in FIRST {
            let hides = |hidden: &usize| self.gave(first) && self.fault == Some(*hidden as u32);
            reached.extend(POSSIBLE_OF_STARTS.iter().map(hides));
        }
        reached.extend(parted::reached(self.searched.as_ref().map(|searched| (&searched.case, searched.search))));
        reached
    }
}

fn names() -> Vec<String> {
    let mut names: Vec<String> = BRANCHES.iter().map(|(name, _)| name.to_string()).collect();
    for first in FIRST {
        names.extend(POSSIBLE_OF_STARTS.iter().map(|hidden| format!("{} before {}", first, hidden)));
    }
    names.extend(parted::names());
    names
}

/// How often calls came to each branch.
pub struct Budgeted(pub Branches);

impl Default for Budgeted {
    fn default() -> Budgeted {
        Budgeted(Branches::new(names()))
    }
}

impl Budgeted {
    pub fn count(&mut self, seen: &Seen) {
        self.0.count(seen.reached());
    }
}
