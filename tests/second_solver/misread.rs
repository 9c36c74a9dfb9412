//! Wrong readings of the search within a budget, each beside a stated search that tells it from the paper's; and two that no search
//! tells apart.

use crate::generate::small_case;
use crate::random::Random;
use crate::refined::{self, accept, first_of_several, least, lowest, of_search, rest, split};
use crate::refined::{Found, Node, Open, Refined, Rules, Search, PAPER};
use crate::solver::{self, Allocation, Case, Offer, Problem, Refused, Unit};
use crate::vectors;
use std::ops::Range;

/// A wrong reading, the name of a stated search, and the rules.
type Wrong = (&'static str, &'static str, Rules);

const WRONG: [Wrong; 43] = [
    ("a child not evaluated left out of the gap", "U 5,1", Rules { bound: |search| least_kept(search, None), ..PAPER }),
    ("a child not evaluated has the floor 0", "U 5,1", Rules { bound: |search| least_kept(search, Some(0)), ..PAPER }),
    ("a child not evaluated has the root's floor", "UQ 11,3", Rules { bound: with_floor_of_root, ..PAPER }),
    ("evaluated nodes left out of the gap", "Q 3,1", Rules { bound: least_open, ..PAPER }),
    ("the gap of the root", "U 5,5", Rules { bound: floor_of_root, ..PAPER }),
    ("the gap of the best", "U 5,5", Rules { bound: floor_of_best, ..PAPER }),
    ("the greatest floor of the open nodes", "UU 3,2", Rules { bound: greatest_open, ..PAPER }),
    ("regions from above", "U 5,3", Rules { children: |node| split_first(node, from_above), ..PAPER }),
    ("halves, the lower one larger", "U 5,3", Rules { children: |node| split_first(node, larger_half), ..PAPER }),
    ("halves, the lower one smaller", "S 5,5", Rules { children: |node| split_first(node, smaller_half), ..PAPER }),
    ("all regions at once", "U 5,4", Rules { children: |node| split_first(node, each), ..PAPER }),
    ("the rest first", "C 1,2", Rules { children: |node| split_first(node, rest_first), ..PAPER }),
    ("the last unit first", "UU 9,2", Rules { children: |node| split(node, last_of_several(node), lowest_first), ..PAPER }),
    ("the unit of most regions first", "UU 12,4", Rules { children: |node| split(node, of_most(node), lowest_first), ..PAPER }),
    ("breadth first", "UU 9,5", Rules { run: breadth_first, ..PAPER }),
    ("both children evaluated at the split", "UU 9,5", Rules { run: both_at_the_split, ..PAPER }),
    ("no child evaluated where its parent's floor has reached the best", "UC 3,6", Rules { run: without_reached, ..PAPER }),
    ("a node more than the budget", "U 5,3", Rules { run: |search| with_budget(search, search.budget + 1), ..PAPER }),
    ("a node less than the budget", "U 5,3", Rules { run: |search| with_budget(search, search.budget - 1), ..PAPER }),
    ("16 bits of the budget", "U 5,65536", Rules { run: |search| with_budget(search, search.budget % 65_536), ..PAPER }),
    ("a dropped node not counted", "U 5,3", Rules { counts_dropped: false, ..PAPER }),
    ("a dropped node kept in the gap", "U 5,5", Rules { drop: |search, open| search.kept.push(open.parent), ..PAPER }),
    ("a dropped node kept in the gap with its own floor", "HK 15,20", Rules { drop: keep_own_floor, ..PAPER }),
    ("the budget for the number of nodes", "U 5,100", Rules { nodes: |search| search.budget, ..PAPER }),
    ("split although the floor reaches the best cost", "U 1,4", Rules { is_split: |_| true, ..PAPER }),
    ("split unless the floor exceeds the best cost", "U 3,2", Rules { is_split: |found| found.floor <= found.best_after, ..PAPER }),
    ("split unless the floor reaches its own cost", "CQ 9,4", Rules { is_split: |found| found.floor < found.cost, ..PAPER }),
    ("its own dispatch not counted", "U 3,2", Rules { is_split: is_below_best_before, ..PAPER }),
    ("an equal cost replaces the best", "UU 3,5", Rules { replaces: |cost, best| cost <= best, ..PAPER }),
    ("the last cost is the best", "UU 9,5", Rules { replaces: |_, _| true, ..PAPER }),
    ("not lowered in a node", "UU 9,1", Rules { dispatch: unlowered, ..PAPER }),
    ("0 joined with the first running region", "U 5,3", Rules { regions: with_0_joined, ..PAPER }),
    ("regions joined over a zone with nothing inside", "AM 10,4", Rules { regions: with_neighbours_joined, ..PAPER }),
    ("regions that the ramp window empties kept", "RU 9,5", Rules { regions: with_emptied, ..PAPER }),
    ("nodes in 16 bits", "U 5,1", Rules { encode: in_16_bits, ..PAPER }),
    ("outputs from byte 28", "U 5,1", Rules { encode: from_byte_28, ..PAPER }),
    ("1 under 92 bytes", "U 5,1 of 93 bytes", Rules { accept: |file, budget, room| accept(file, budget, room + 2), ..PAPER }),
    ("25 before 1", "U 5,0 of 93 bytes", Rules { accept: budget_first, ..PAPER }),
    ("the file before 1", "no file,1 of 93 bytes", Rules { accept: file_first, ..PAPER }),
    ("the file before 25", "wrong edge,0", Rules { accept: file_before_budget, ..PAPER }),
    ("11 before 25", "U 11,0", Rules { accept: step_1_before_budget, ..PAPER }),
    ("a budget of 0 taken", "U 5,0", Rules { accept: |file, budget, room| accept(file, budget.max(1), room), ..PAPER }),
    ("a budget above 100,000 taken", "U 5,100001", Rules { accept: without_greatest_budget, ..PAPER }),
];

/// A part's own floor is never smaller than that of the whole; and some node that is not replaced has the best outputs, so that its
/// floor is at most their cost.
const UNSEEN: [(&str, Rules); 2] = [
    ("the parent's floor forgotten", Rules { floor: |_, own| own, ..PAPER }),
    ("the gap not cut at the cost", Rules { bound: |search| least(search.floors(), i128::MAX), ..PAPER }),
];

/// How many cases are tried for the readings that are not to be seen, and within which budgets.
const CASES: usize = 200;
const BUDGETS: [u32; 5] = [1, 2, 4, 9, 300];

/// Asserts that each wrong reading is told apart, and that no other is; tells how many wrong ones there are.
pub fn check() -> usize {
    let rows = vectors::refinements();
    for (name, row, rules) in &WRONG {
        let row = rows.iter().find(|other| other.name == *row).expect(row);
        assert_ne!(row.answer(rules), row.answer(&PAPER), "{} is not seen by {}", name, row.name);
    }
    let mut random = Random::new(1);
    for _ in 0..CASES {
        let edition = random.pick(&solver::EDITIONS);
        let case = small_case(&mut random, edition);
        for ((name, rules), budget) in UNSEEN.iter().flat_map(|reading| BUDGETS.map(|budget| (reading, budget))) {
            assert_eq!(reply(&case, budget, rules), reply(&case, budget, &PAPER), "{} is seen by {:?}", name, case);
        }
    }
    WRONG.len()
}

fn reply(case: &Case, budget: u32, rules: &Rules) -> Result<Vec<u8>, Refused> {
    refined::search(case, budget, rules).map(|search| search.reply())
}

// ---- bounds

/// The least floor of the nodes that are evaluated, and of the others this one.
fn least_kept(search: &Search, of_open: Option<i128>) -> i128 {
    let of_open = of_open.filter(|_| !search.open.is_empty());
    least(search.kept.iter().copied().chain(of_open), search.cost())
}

fn least_open(search: &Search) -> i128 {
    least(search.floors_of_open(), search.cost())
}

fn floor_of_root(search: &Search) -> i128 {
    search.visits[0].expect("the root has an allocation").floor
}

fn with_floor_of_root(search: &Search) -> i128 {
    least_kept(search, Some(floor_of_root(search)))
}

fn floor_of_best(search: &Search) -> i128 {
    search.visits.iter().flatten().find(|found| found.cost == search.cost()).expect("the node of the best").floor
}

fn greatest_open(search: &Search) -> i128 {
    search.floors().max().expect("a node that is not replaced").min(search.cost())
}

// ---- children

fn split_first(node: &Node, parts: fn(&Range<usize>) -> Vec<Range<usize>>) -> Vec<Node> {
    split(node, first_of_several(node), parts)
}

fn from_above(range: &Range<usize>) -> Vec<Range<usize>> {
    vec![range.end - 1..range.end, range.start..range.end - 1]
}

fn parted_at(range: &Range<usize>, length: usize) -> Vec<Range<usize>> {
    vec![range.start..range.start + length, range.start + length..range.end]
}

fn larger_half(range: &Range<usize>) -> Vec<Range<usize>> {
    parted_at(range, (range.len() + 1) / 2)
}

fn smaller_half(range: &Range<usize>) -> Vec<Range<usize>> {
    parted_at(range, range.len() / 2)
}

fn each(range: &Range<usize>) -> Vec<Range<usize>> {
    range.clone().map(|region| region..region + 1).collect()
}

fn lowest_first(range: &Range<usize>) -> Vec<Range<usize>> {
    vec![lowest(range), rest(range)]
}

fn rest_first(range: &Range<usize>) -> Vec<Range<usize>> {
    vec![rest(range), lowest(range)]
}

fn last_of_several(node: &Node) -> Option<usize> {
    node.iter().rposition(|range| range.len() > 1)
}

/// The first unit of those that have the most regions.
fn of_most(node: &Node) -> Option<usize> {
    let most = node.iter().map(|range| range.len()).max()?;
    node.iter().position(|range| range.len() == most).filter(|_| most > 1)
}

// ---- orders

fn breadth_first(search: &mut Search) {
    while let Some(open) = search.next() {
        let children = search.visit(&open);
        search.open.splice(0..0, children.into_iter().rev());
    }
}

fn with_budget(search: &mut Search, budget: u32) {
    search.budget = budget;
    (PAPER.run)(search);
}

fn both_at_the_split(search: &mut Search) {
    let root = search.next().expect("the root");
    let visit = search.evaluate(&root);
    let mut evaluated: Vec<(Open, usize)> = vec![(root, visit)];
    while let Some((open, visit)) = evaluated.pop() {
        let place = evaluated.len();
        for child in search.settle(&open, visit) {
            if search.is_spent() {
                search.open.push(child);
            } else {
                let visit = search.evaluate(&child);
                evaluated.insert(place, (child, visit));
            }
        }
    }
}

fn without_reached(search: &mut Search) {
    while let Some(open) = search.next() {
        if !search.best.is_empty() && open.parent >= search.cost() {
            search.kept.push(open.parent);
        } else {
            let children = search.visit(&open);
            search.open.extend(children.into_iter().rev());
        }
    }
}

// ---- nodes

fn is_below_best_before(found: &Found) -> bool {
    found.best_before.map_or(true, |best| found.floor < best)
}

/// The floor that the evaluations give though nothing covers; its parent's where a unit has no output.
fn keep_own_floor(search: &mut Search, open: &Open) {
    let offers = search.offers(&open.node);
    let greatest: Option<Allocation> = offers.iter().map(|unit| unit.last().copied()).collect();
    let demand_net = search.demand_net;
    let own = greatest.map_or(0, |greatest| of_search(solver::search(&Problem { demand_net, offers, greatest })).1);
    search.kept.push(open.parent.max(own));
}

pub fn unlowered(problem: &Problem) -> (Allocation, i128) {
    let search = solver::search(problem);
    let choices = search.unlowered(problem).unwrap_or(&problem.greatest).clone();
    (choices, search.greatest_floor())
}

// ---- regions

fn with_0_joined(unit: &Unit) -> Vec<Vec<Offer>> {
    let mut regions = (PAPER.regions)(unit);
    if unit.mark == 0 && regions.len() > 1 {
        let running = regions.remove(1);
        regions[0].extend(running);
    }
    regions
}

fn with_neighbours_joined(unit: &Unit) -> Vec<Vec<Offer>> {
    let zones = unit.zones.iter().copied().filter(|(lower, upper)| upper - lower > 1).collect();
    (PAPER.regions)(&Unit { zones, ..unit.clone() })
}

fn with_emptied(unit: &Unit) -> Vec<Vec<Offer>> {
    let standing = usize::from(unit.mark == 1);
    refined::offers_between(unit, refined::ends(unit)).split_off(standing)
}

// ---- bytes

fn in_16_bits(refined: &Refined) -> Vec<u8> {
    solver::encode_counted(refined.nodes, 2, [refined.cost, refined.gap, refined.surplus], &refined.outputs)
}

fn from_byte_28(refined: &Refined) -> Vec<u8> {
    let mut bytes = (PAPER.encode)(refined);
    bytes.drain(28..30);
    bytes
}

// ---- refusals

fn without_greatest_budget(file: &[u8], budget: u32, room: usize) -> Result<Case, Refused> {
    accept(file, budget.min(refined::GREATEST_BUDGET), room)
}

fn budget_first(file: &[u8], budget: u32, room: usize) -> Result<Case, Refused> {
    refined::check_budget(budget)?;
    accept(file, budget, room)
}

fn file_first(file: &[u8], budget: u32, room: usize) -> Result<Case, Refused> {
    solver::decode(file)?;
    accept(file, budget, room)
}

fn file_before_budget(file: &[u8], budget: u32, room: usize) -> Result<Case, Refused> {
    accept(file, 1, room)?;
    accept(file, budget, room)
}

fn step_1_before_budget(file: &[u8], budget: u32, room: usize) -> Result<Case, Refused> {
    solver::problem(&accept(file, 1, room)?)?;
    accept(file, budget, room)
}
