//! Closer, within a budget (S-11): a search over nodes, each of which leaves every unit a range of its regions. The rules are a record,
//! so that `misread` can have others.

use crate::solver::{self, refuse_if, Allocation, Case, Offer, Problem, Refused, Unit};
use std::ops::Range;

pub const GREATEST_BUDGET: u32 = 100_000;
/// The least room for a reply.
pub const ROOM: usize = 94;

// ---- the rules

/// What can be read in more than one way.
#[derive(Clone, Copy)]
pub struct Rules {
    /// What is refused before step 1, for the file, the budget and the room.
    pub accept: fn(&[u8], u32, usize) -> Result<Case, Refused>,
    /// The permitted outputs of a unit by region, rising.
    pub regions: fn(&Unit) -> Vec<Vec<Offer>>,
    /// Into what a node is split, in the order of visiting; nothing where it cannot be.
    pub children: fn(&Node) -> Vec<Node>,
    /// The best allocation of a node, and its own floor.
    pub dispatch: fn(&Problem) -> (Allocation, i128),
    /// Whether a cost takes the place of the best one.
    pub replaces: fn(i128, i128) -> bool,
    /// A node's floor, by its parent's and its own.
    pub floor: fn(i128, i128) -> i128,
    /// Whether a node that can be split is.
    pub is_split: fn(&Found) -> bool,
    /// What is done with a node that has no allocation.
    pub drop: fn(&mut Search, &Open),
    pub counts_dropped: bool,
    /// Visits nodes until the budget is spent or none is left.
    pub run: fn(&mut Search),
    /// What nobody spends less than.
    pub bound: fn(&Search) -> i128,
    /// How many nodes the reply tells.
    pub nodes: fn(&Search) -> u32,
    pub encode: fn(&Refined) -> Vec<u8>,
}

/// The rules as the paper has them.
pub const PAPER: Rules = Rules {
    accept,
    regions,
    children: |node| split(node, first_of_several(node), |range| vec![lowest(range), rest(range)]),
    dispatch: |problem| of_search(solver::search(problem)),
    replaces: |cost, best| cost < best,
    floor: |parent, own| parent.max(own),
    is_split: |found| found.floor < found.best_after,
    drop: |_, _| (),
    counts_dropped: true,
    run: depth_first,
    bound: |search| least(search.floors(), search.cost()),
    nodes: |search| search.nodes,
    encode,
};

pub fn accept(file: &[u8], budget: u32, room: usize) -> Result<Case, Refused> {
    refuse_if(room < ROOM, 1)?;
    check_budget(budget)?;
    solver::decode(file)
}

pub fn check_budget(budget: u32) -> Result<(), Refused> {
    refuse_if(!(1..=GREATEST_BUDGET).contains(&budget), 25)
}

// ---- regions

/// Standing, then what lies between zones; none that the ramp window empties.
fn regions(unit: &Unit) -> Vec<Vec<Offer>> {
    offers_between(unit, ends(unit)).into_iter().filter(|region| !region.is_empty()).collect()
}

/// The ends of each region, whatever mark and ramp window say.
pub fn ends(unit: &Unit) -> Vec<(i128, i128)> {
    let limits = solver::limits_and_edges(unit);
    let running = limits.chunks(2).map(|pair| (pair[0], pair[1]));
    std::iter::once((0, 0)).chain(running).collect()
}

/// The permitted outputs between each of these ends.
pub fn offers_between(unit: &Unit, ends: Vec<(i128, i128)>) -> Vec<Vec<Offer>> {
    let offers = solver::offers(unit);
    let between = |(low, high)| offers.iter().copied().filter(|offer| (low..=high).contains(&offer.output)).collect();
    ends.into_iter().map(between).collect()
}

// ---- nodes

/// Of each unit the range of its regions that is left to it.
pub type Node = Vec<Range<usize>>;

/// A node that is not evaluated yet, and its parent's floor.
pub struct Open {
    pub node: Node,
    pub parent: i128,
}

pub fn first_of_several(node: &Node) -> Option<usize> {
    node.iter().position(|range| range.len() > 1)
}

/// The nodes in which a unit has each part of its range, and the others have theirs; none without a unit.
pub fn split(node: &Node, unit: Option<usize>, parts: fn(&Range<usize>) -> Vec<Range<usize>>) -> Vec<Node> {
    let with = |unit: usize, part: Range<usize>| {
        let mut child = node.clone();
        child[unit] = part;
        child
    };
    unit.map_or(vec![], |unit| parts(&node[unit]).into_iter().map(|part| with(unit, part)).collect())
}

pub fn lowest(range: &Range<usize>) -> Range<usize> {
    range.start..range.start + 1
}

pub fn rest(range: &Range<usize>) -> Range<usize> {
    range.start + 1..range.end
}

pub fn of_search(search: solver::Search) -> (Allocation, i128) {
    let floor = search.greatest_floor();
    (search.best, floor)
}

pub fn least(numbers: impl Iterator<Item = i128>, most: i128) -> i128 {
    numbers.fold(most, i128::min)
}

// ---- the search

/// What is found in an evaluated node that has an allocation.
#[derive(Clone, Copy)]
pub struct Found {
    pub cost: i128,
    /// Its parent's floor, and its own.
    pub parent: i128,
    pub floor: i128,
    /// The best cost before it and with it; there is none before the root.
    pub best_before: Option<i128>,
    pub best_after: i128,
    /// Whether it costs what the best costs, with other outputs.
    pub ties_best: bool,
    pub is_split: bool,
}

/// A search over the nodes of a case.
pub struct Search {
    rules: Rules,
    pub demand_net: i128,
    /// By unit and region.
    regions: Vec<Vec<Vec<Offer>>>,
    pub budget: u32,
    pub nodes: u32,
    /// What is found in each evaluated node, in their order.
    pub visits: Vec<Option<Found>>,
    /// Empty before the first node is evaluated.
    pub best: Allocation,
    /// The nodes to be evaluated, the next one last.
    pub open: Vec<Open>,
    /// The floors of the evaluated nodes that are not split.
    pub kept: Vec<i128>,
}

/// Searches a case within a budget.
pub fn search(case: &Case, budget: u32, rules: &Rules) -> Result<Search, Refused> {
    solver::problem(case)?;
    let regions: Vec<Vec<Vec<Offer>>> = case.units.iter().map(rules.regions).collect();
    let root = Open { node: regions.iter().map(|unit| 0..unit.len()).collect(), parent: 0 };
    let demand_net = solver::NET_OF_A_STEP * case.demand;
    let (visits, best, kept) = (vec![], vec![], vec![]);
    let mut search = Search { rules: *rules, demand_net, regions, budget, nodes: 0, visits, best, open: vec![root], kept };
    (rules.run)(&mut search);
    Ok(search)
}

fn depth_first(search: &mut Search) {
    while let Some(open) = search.next() {
        let children = search.visit(&open);
        search.open.extend(children.into_iter().rev());
    }
}

impl Search {
    pub fn cost(&self) -> i128 {
        solver::total_cost(&self.best)
    }

    pub fn floors_of_open(&self) -> impl Iterator<Item = i128> + '_ {
        self.open.iter().map(|open| open.parent)
    }

    /// The floors of the nodes that are not replaced by children.
    pub fn floors(&self) -> impl Iterator<Item = i128> + '_ {
        self.kept.iter().copied().chain(self.floors_of_open())
    }

    pub fn is_spent(&self) -> bool {
        self.nodes >= self.budget
    }

    /// The node to be evaluated next; none where the budget is spent.
    pub fn next(&mut self) -> Option<Open> {
        if self.is_spent() {
            return None;
        }
        self.open.pop()
    }

    /// Evaluates a node. Gives its children, if it is split.
    pub fn visit(&mut self, open: &Open) -> Vec<Open> {
        let visit = self.evaluate(open);
        self.settle(open, visit)
    }

    /// The permitted outputs of each unit that a node leaves.
    pub fn offers(&self, node: &Node) -> Vec<Vec<Offer>> {
        self.regions.iter().zip(node).map(|(unit, range)| unit[range.clone()].concat()).collect()
    }

    /// Dispatches a node and takes its best allocation, if that is cheaper. Gives the place of the visit.
    pub fn evaluate(&mut self, open: &Open) -> usize {
        let problem = solver::problem_of(self.offers(&open.node), self.demand_net).ok();
        let found = problem.map(|problem| self.take(open.parent, (self.rules.dispatch)(&problem)));
        self.nodes += u32::from(found.is_some() || self.rules.counts_dropped);
        self.visits.push(found);
        self.visits.len() - 1
    }

    fn take(&mut self, parent: i128, (allocation, own): (Allocation, i128)) -> Found {
        let cost = solver::total_cost(&allocation);
        let best_before = Some(self.cost()).filter(|_| !self.best.is_empty());
        let ties_best = best_before == Some(cost) && allocation != self.best;
        if best_before.map_or(true, |best| (self.rules.replaces)(cost, best)) {
            self.best = allocation;
        }
        let floor = (self.rules.floor)(parent, own);
        Found { cost, parent, floor, best_before, best_after: self.cost(), ties_best, is_split: false }
    }

    /// Drops an evaluated node, keeps its floor, or splits it: gives its children then.
    pub fn settle(&mut self, open: &Open, visit: usize) -> Vec<Open> {
        let found = match &mut self.visits[visit] {
            Some(found) => found,
            None => {
                (self.rules.drop)(self, open);
                return vec![];
            }
        };
        let children = (self.rules.children)(&open.node);
        found.is_split = !children.is_empty() && (self.rules.is_split)(found);
        let Found { floor, is_split, .. } = *found;
        if is_split {
            return children.into_iter().map(|node| Open { node, parent: floor }).collect();
        }
        self.kept.push(floor);
        vec![]
    }

    pub fn refined(&self) -> Refined {
        let cost = self.cost();
        Refined {
            nodes: i128::from((self.rules.nodes)(self)),
            cost,
            gap: cost - (self.rules.bound)(self),
            surplus: solver::total_net(&self.best) - self.demand_net,
            outputs: self.best.iter().map(|offer| offer.output).collect(),
        }
    }

    /// The bytes of the reply.
    pub fn reply(&self) -> Vec<u8> {
        (self.rules.encode)(&self.refined())
    }
}

// ---- the call

/// The numbers of a reply.
#[derive(Clone, Debug, PartialEq, Eq)]
pub struct Refined {
    pub nodes: i128,
    pub cost: i128,
    pub gap: i128,
    pub surplus: i128,
    pub outputs: Vec<i128>,
}

fn encode(refined: &Refined) -> Vec<u8> {
    solver::encode_counted(refined.nodes, 4, [refined.cost, refined.gap, refined.surplus], &refined.outputs)
}

/// Reads a reply of which the length is known to fit.
pub fn decode(bytes: &[u8]) -> Refined {
    let count = solver::field(bytes, 0, 2) as usize;
    assert_eq!(bytes.len(), 30 + 2 * count, "length of the reply");
    Refined {
        nodes: solver::field(bytes, 2, 4),
        cost: solver::field(bytes, 6, 8),
        gap: solver::field(bytes, 14, 8),
        surplus: solver::field(bytes, 22, 8),
        outputs: (0..count).map(|unit| solver::field(bytes, 30 + 2 * unit, 2)).collect(),
    }
}

/// Searches a file's case within a budget, for a reply of so many bytes.
pub fn refine(file: &[u8], budget: u32, room: usize, rules: &Rules) -> Result<Search, Refused> {
    search(&(rules.accept)(file, budget, room)?, budget, rules)
}

/// Writes a reply as the call in C does, and gives its length or the number of the refusal.
pub fn panel_refine(refined: &Result<Search, Refused>, reply: &mut [u8]) -> u32 {
    solver::number_of(refined.as_ref().map_err(|refused| *refused).map(|search| {
        let bytes = search.reply();
        reply[..bytes.len()].copy_from_slice(&bytes);
        bytes.len()
    }))
}
