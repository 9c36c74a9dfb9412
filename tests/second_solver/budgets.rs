//! Searches within a budget: units of any kind, with budgets that the search spends and budgets that it does not; sites full of ties;
//! budgets and rooms about their limits; files that are refused.

use crate::calls::Refine;
use crate::damage;
use crate::demands::damaged_files;
use crate::generate::{capacity, maybe_set_window, near_a_tie, share_edges, small_unit, tying_unit, with_demand, TIED_KINDS};
use crate::outputs::{answered_case, any_case, case_of};
use crate::random::Random;
use crate::refined::{self, GREATEST_BUDGET, PAPER, ROOM};
use crate::solver::{self, Case, Unit};
use crate::vectors;

/// A number that 16 bits cannot hold.
const LONG: usize = 65_536;
/// How many outputs the solver may have to look at for a search, one unit, multiplier and node after the other.
const MOST_OUTPUTS: usize = 4_000_000;
const MULTIPLIERS: usize = 18;
const LAST: i128 = solver::GREATEST_MULTIPLIER;
/// How many sites full of ties are made at once, which takes the solver little time.
const TIED_SITES: usize = 12;
const STATED_TIES: u64 = 60;

type Kind = fn(&mut Random) -> Vec<Refine>;

/// The kinds of searches; those that are for the nodes themselves are named more than once, to be made more often.
pub const KINDS: [Kind; 21] = [
    any_units,
    any_units,
    any_units,
    few_units,
    few_units,
    few_units,
    round_units,
    round_units,
    round_units,
    several_units,
    equal_units,
    tied_kinds,
    tied_units,
    tied_units,
    met_units,
    steep_units,
    steep_units,
    budgets_about_limits,
    rooms_about_limits,
    budgets_beside_faults,
    damaged,
];

/// The kinds of sites full of ties.
const TIES: [Kind; 4] = [tied_kinds, tied_units, met_units, steep_units];

/// The stated searches, one that visits as many nodes as a budget may have, and sites full of ties that are the same in each run.
pub fn stated() -> Vec<Refine> {
    let rows = vectors::refinements().into_iter().map(|row| Refine { file: row.file, budget: row.budget, room: row.room });
    let ties = (0..STATED_TIES).flat_map(|seed| TIES.map(|kind| kind(&mut Random::new(seed)))).flatten();
    rows.chain([refine(&thirty_two_sets(), GREATEST_BUDGET)]).chain(ties).collect()
}

/// 32 equal sets that cost so much to run that no multiplier starts them: few evaluations to a node, and more nodes than any budget.
fn thirty_two_sets() -> Case {
    let set = Unit { c0: 1_000_000_000, least: 1, greatest: 2, zones: vec![], ..vectors::u() };
    Case { edition: 1, demand: 33, units: vec![set; 32] }
}

fn refine(case: &Case, budget: u32) -> Refine {
    Refine { file: solver::encode(case), budget, room: ROOM }
}

// ---- the kinds

/// A case of any accepted kind.
fn any_units(random: &mut Random) -> Vec<Refine> {
    let case = any_case(random);
    with_budgets(&case, &[1, 2, random.below(10) as u32 + 3, GREATEST_BUDGET], random)
}

/// One to four units, some of them equal.
fn few_units(random: &mut Random) -> Vec<Refine> {
    let count = random.pick(&[1, 2, 2, 3, 3, 4]);
    let case = regional_case(count, random);
    about_the_end(&case, random)
}

/// One to four units like U, with round numbers, so that costs are often equal and floors often reached.
fn round_units(random: &mut Random) -> Vec<Refine> {
    let count = random.pick(&[1, 2, 2, 3, 3, 4]);
    let units: Vec<Unit> = (0..count).map(|_| round_unit(random)).collect();
    let case = with_demand(units, 1, random);
    about_the_end(&case, random)
}

/// Five units to twelve, for which the budget is mostly too small.
fn several_units(random: &mut Random) -> Vec<Refine> {
    let count = random.pick(&[5, 6, 8, 12]);
    let case = regional_case(count, random);
    with_budgets(&case, &[1, 5, 40, 400], random)
}

/// Up to 32 equal units.
fn equal_units(random: &mut Random) -> Vec<Refine> {
    let edition = random.pick(&solver::EDITIONS);
    let count = random.pick(&[2, 3, 5, 16, 31, 32]);
    let case = with_demand(vec![regional_unit(edition, random); count], edition, random);
    with_budgets(&case, &[1, 2, 20, 260], random)
}

/// A case of a kind in which outputs tie.
fn tied_kinds(random: &mut Random) -> Vec<Refine> {
    let edition = random.pick(&solver::EDITIONS);
    let calls = random.pick(&TIED_KINDS)(random, edition);
    let case = case_of(calls, random);
    first_nodes(&case, random)
}

/// Sites full of ties, in both editions.
fn tied_units(random: &mut Random) -> Vec<Refine> {
    (0..TIED_SITES).flat_map(|_| solver::EDITIONS.map(|edition| tied_site(edition, random))).flatten().collect()
}

/// Units of which outputs tie at one multiplier, some of them equal or nearly so, at a demand that some of these outputs just meet.
fn tied_site(edition: i128, random: &mut Random) -> Vec<Refine> {
    let any = random.between(1, 60);
    let multiplier = random.pick(&[1, 1, 2, 16, 64, any, any, any, LAST - 1, LAST]);
    let [one, other] = [0; 2].map(|_| Unit { previous: 0, ..tying_unit(random, edition, multiplier) });
    let near = [dearer_by_one(&one), cheaper_by_one(&one)];
    let sorts = [one.clone(), mirrored(&one, multiplier), random.pick(&near), random.pick(&near), other];
    let units = (0..random.pick(&[2, 2, 3, 3, 4, 5, 6])).map(|_| random.pick(&sorts)).collect();
    let case = met(Case { edition, demand: 0, units }, multiplier, random);
    first_nodes(&case, random)
}

/// Units of any regions, at a demand that their choices at a multiplier near a tie just meet.
fn met_units(random: &mut Random) -> Vec<Refine> {
    let case = regional_case(random.pick(&[2, 3, 4]), random);
    let multiplier = i128::from(near_a_tie(&case, random));
    let case = met(case, multiplier, random);
    first_nodes(&case, random)
}

/// Sites in both editions that come to the last multipliers.
fn steep_units(random: &mut Random) -> Vec<Refine> {
    solver::EDITIONS.map(|edition| steep_site(edition, random)).concat()
}

/// Units whose last steps gain so little that they are given at the last multipliers alone, or just past them, and others.
fn steep_site(edition: i128, random: &mut Random) -> Vec<Refine> {
    let multiplier = random.pick(&[LAST - 1, LAST, LAST + 1]);
    let sorts = [steep_unit(random, edition, multiplier), steep_unit(random, edition, multiplier), regional_unit(edition, random)];
    let units: Vec<Unit> = (0..random.pick(&[1, 2, 2, 3])).map(|_| random.pick(&sorts)).collect();
    let case = met(Case { edition, demand: 0, units }, multiplier, random);
    first_nodes(&case, random)
}

/// Budgets at their limits and past them, also such that 16 bits would cut.
fn budgets_about_limits(random: &mut Random) -> Vec<Refine> {
    let case = regional_case(2, random);
    let limits = [0, 1, 2, 255, 256, 65_535, 65_536, 65_537, 99_999, 100_000, 100_001, 131_072, 131_073, 1 << 31, u32::MAX];
    limits.map(|budget| refine(&case, budget)).to_vec()
}

/// Replies of no room, of just too little, of just enough and of more, also of more than 16 bits count.
fn rooms_about_limits(random: &mut Random) -> Vec<Refine> {
    let case = regional_case(random.pick(&[1, 2, 32]), random);
    let needed = 30 + 2 * case.units.len();
    let mut calls = Vec::new();
    for room in [0, 1, needed - 1, needed, 92, 93, 94, 95, 126, LONG, LONG + 93, LONG + 94] {
        for budget in [0, 1, 3, 100_001] {
            calls.push(Refine { room, ..refine(&case, budget) });
        }
    }
    calls
}

/// Files that are refused, with each number: with budgets that would do and with others, with room and without; in both editions.
fn budgets_beside_faults(random: &mut Random) -> Vec<Refine> {
    let mut calls = Vec::new();
    for edition in solver::EDITIONS {
        for file in damage::refused_files(edition, random) {
            let too_great = random.pick(&[100_001, u32::MAX]);
            for (budget, room) in [(1, 94), (100_000, 95), (0, 94), (too_great, 94), (1, 93), (0, 93), (too_great, 0), (0, 92)] {
                calls.push(Refine { file: file.clone(), budget, room });
            }
        }
        let (case, _) = answered_case(edition, random);
        calls.push(refine(&case, 9));
    }
    calls
}

/// Damaged files of any kind.
fn damaged(random: &mut Random) -> Vec<Refine> {
    let mut calls = Vec::new();
    for mut file in damaged_files(random) {
        if random.chance(20) {
            file.resize(file.len() + LONG, 0);
        }
        calls.push(Refine { file, budget: random.pick(&[1, 2, 9]), room: random.pick(&[94, 94, 94, 93, 200]) });
    }
    calls
}

// ---- cases

/// A unit at low outputs or just below 10,000, at times with shared edges or a ramp window, and with a c0 of the size of what else it
/// burns, so that it is often not well off at any price. Rarely one that may only stand.
fn regional_unit(edition: i128, random: &mut Random) -> Unit {
    let mut unit = small_unit(random, edition);
    if random.chance(3) {
        share_edges(&mut unit, random);
    }
    if random.chance(3) {
        maybe_set_window(&mut unit, random);
    }
    let burnt = solver::cost(&Unit { c0: 0, ..unit.clone() }, unit.greatest);
    let c0 = random.between(0, burnt + 1).min(1_000_000_000);
    unit.c0 = random.pick(&[unit.c0, c0, c0]);
    if random.chance(6) {
        return Unit { mark: 0, ..damage::unable_to_run(&unit) };
    }
    unit
}

/// U with another zone, two or none, and round costs.
fn round_unit(random: &mut Random) -> Unit {
    Unit {
        c0: random.pick(&[0, 0, 1_000, 6_000, 20_000]),
        c1: random.pick(&[0, 10_000, 10_000, 20_000]),
        c2: random.pick(&[0, 1_000, 1_000]),
        mark: random.pick(&[0, 0, 0, 1]),
        previous: random.pick(&[0, 0, 0, 3, 8]),
        up: random.pick(&[0, 1, 5]),
        down: random.pick(&[1, 5]),
        zones: random.pick(&[vec![], vec![(4, 7)], vec![(4, 7)], vec![(4, 5)], vec![(4, 7), (7, 9)]]),
        ..vectors::u()
    }
}

/// So many units of one sort to four.
fn regional_case(count: usize, random: &mut Random) -> Case {
    let edition = random.pick(&solver::EDITIONS);
    let sorts: Vec<Unit> = (0..random.pick(&[1, 2, 3, 4])).map(|_| regional_unit(edition, random)).collect();
    let units = (0..count).map(|_| random.pick(&sorts)).collect();
    with_demand(units, edition, random)
}

/// A unit whose outputs tie at a multiplier, with a b1 of the other sign: its outputs tie there too, and both together give whole steps.
fn mirrored(unit: &Unit, multiplier: i128) -> Unit {
    let c1 = unit.c1 + 2 * multiplier * unit.b1 / solver::COST_SCALE;
    if !(0..=10_000_000).contains(&c1) {
        return unit.clone();
    }
    Unit { b1: -unit.b1, c1, ..unit.clone() }
}

fn dearer_by_one(unit: &Unit) -> Unit {
    Unit { c0: (unit.c0 + 1).min(1_000_000_000), ..unit.clone() }
}

fn cheaper_by_one(unit: &Unit) -> Unit {
    Unit { c1: (unit.c1 - 1).max(0), ..unit.clone() }
}

/// A unit just below 10,000 of which the ends of a zone tie at a multiplier or just before it, with a b1 of either sign in edition
/// 2. As in `tied_outputs` c1 is found in whole numbers, b1 and b × (p + q) being multiples of 100,000.
fn steep_unit(random: &mut Random, edition: i128, multiplier: i128) -> Unit {
    let (b, middle) = random.pick(&[(5_000, 9_990), (4_000, 9_950)]);
    let half = random.between(1, 4);
    let b1 = match (edition, b) {
        (1, _) => 0,
        (_, 5_000) => -100_000 * random.between(0, 100),
        _ => 100_000 * random.between(60, 100),
    };
    let price = multiplier * ((solver::NET_OF_A_STEP - b1 - 2 * b * middle) / solver::COST_SCALE);
    let c2 = random.pick(&[0, 1, 200, 1_000]).min(price / (2 * middle));
    Unit {
        c0: random.pick(&[0, 0, 1_000_000_000]),
        c1: (price - 2 * c2 * middle - random.between(0, 1)).clamp(0, 10_000_000),
        c2,
        b,
        b1,
        least: middle - half - random.between(1, 3),
        greatest: middle + half + random.between(1, 3),
        mark: random.pick(&[0, 1, 1]),
        zones: vec![(middle - half, middle + half)],
        ..vectors::u()
    }
}

/// The case at a demand that some of the outputs that tie at a multiplier meet together, with some of the greatest, or that is a step
/// above; or at one near capacity, so that not all regions are enough for it.
fn met(case: Case, multiplier: i128, random: &mut Random) -> Case {
    let problem = match solver::problem(&case) {
        Ok(problem) if !random.chance(6) => problem,
        _ => return Case { demand: (capacity(&case.units) - random.between(0, 3)).max(0), ..case },
    };
    let evaluation = problem.evaluate(multiplier);
    let lists = [&evaluation.choices, &evaluation.choices, &evaluation.least_tied, &problem.greatest];
    let net: i128 = (0..case.units.len()).map(|unit| random.pick(&lists)[unit].net).sum();
    Case { demand: (net / solver::NET_OF_A_STEP).clamp(0, 320_000) + random.pick(&[0, 0, 0, 1]), ..case }
}

// ---- budgets

/// The first nodes one by one, then some more, and at times all.
fn first_nodes(case: &Case, random: &mut Random) -> Vec<Refine> {
    let some = random.between(4, 60) as u32;
    let most = random.pick(&[some, GREATEST_BUDGET]);
    with_budgets(case, &[1, 2, 3, some, most], random)
}

/// Budgets about the number of nodes after which the search ends by itself, smaller ones and the greatest.
fn about_the_end(case: &Case, random: &mut Random) -> Vec<Refine> {
    let nodes = refined::search(case, most_nodes(case), &PAPER).map_or(1, |search| search.nodes);
    let within = random.between(1, i128::from(nodes)) as u32;
    let long = LONG as u32;
    with_budgets(case, &[1, 2, 3, within, nodes.max(2) - 1, nodes, nodes + 1, long, long + 1, GREATEST_BUDGET], random)
}

/// A call for each of these budgets, or for a smaller one where the solver had to look at too much; one of them with more room.
fn with_budgets(case: &Case, budgets: &[u32], random: &mut Random) -> Vec<Refine> {
    let most = most_nodes(case);
    let mut calls: Vec<Refine> = budgets.iter().map(|budget| refine(case, (*budget).min(most))).collect();
    let place = random.below(calls.len());
    calls[place].room += random.pick(&[0, 1, 2, 30, 1_000]);
    calls
}

/// How many nodes of a case the solver may have to evaluate: any number if all that there are are not too many.
fn most_nodes(case: &Case) -> u32 {
    let regions: Vec<usize> = case.units.iter().map(|unit| (PAPER.regions)(unit).len()).collect();
    let outputs: usize = case.units.iter().map(|unit| solver::offers(unit).len()).sum();
    let most = MOST_OUTPUTS / (MULTIPLIERS * outputs.max(case.units.len()));
    let leaves = regions.iter().fold(1, |product: usize, count| product.saturating_mul(*count));
    if leaves.saturating_mul(2) <= most {
        return GREATEST_BUDGET + 1;
    }
    most.clamp(2, GREATEST_BUDGET as usize) as u32
}
