//! Lists of outputs to be judged: dispatch's own, what lies beside them, other permitted ones, and lists of other lengths.

use crate::calls::Call;
use crate::damage;
use crate::generate::{accepted_kinds, ramps_that_cut_zones};
use crate::random::Random;
use crate::solver::{self, Case, Offer, Unit};
use crate::vectors;

const CHANGED: usize = 6;

fn judge(case: &Case, outputs: Vec<u32>) -> Call {
    Call::Judge { file: solver::encode(case), outputs }
}

fn numbers(outputs: &[i128]) -> Vec<u32> {
    outputs.iter().map(|output| *output as u32).collect()
}

/// A case of any accepted kind, in either edition; each fourth has ramps in all units.
pub fn any_case(random: &mut Random) -> Case {
    let calls = if random.chance(4) {
        let edition = random.pick(&solver::EDITIONS);
        ramps_that_cut_zones(random, edition)
    } else {
        (random.pick(&accepted_kinds()).make)(random)
    };
    case_of(calls, random)
}

/// The case of one of the calls, which dispatches it.
pub fn case_of(calls: Vec<Call>, random: &mut Random) -> Case {
    let cases: Vec<Case> = calls.into_iter().filter_map(dispatched).collect();
    random.pick(&cases)
}

/// The case of a call that dispatches one.
fn dispatched(call: Call) -> Option<Case> {
    match call {
        Call::Dispatch { file, .. } => solver::decode(&file).ok(),
        _ => None,
    }
}

// ---- the kinds

/// The stated judgements.
pub fn judged_vectors(_random: &mut Random) -> Vec<Call> {
    vectors::judgements().into_iter().map(|vector| judge(&vector.case, vector.outputs)).collect()
}

/// Of a case dispatch's own outputs, the same before they are lowered, some with one of them changed, the greatest and any permitted
/// ones; and demands that are just covered, and just not.
pub fn judged_outputs(random: &mut Random) -> Vec<Call> {
    let case = any_case(random);
    let mut lists = vec![greatest(&case), numbers_of(&any_permitted(&case, random))];
    if let Ok(reply) = solver::solve(&case) {
        let own = numbers(&reply.outputs);
        for _ in 0..CHANGED {
            lists.push(with_one_changed(&case, &own, random));
        }
        lists.push(own);
        lists.extend(solver::unlowered(&case).filter(|outputs| *outputs != reply.outputs).map(|outputs| numbers(&outputs)));
    }
    let mut calls: Vec<Call> = lists.into_iter().map(|outputs| judge(&case, outputs)).collect();
    calls.extend(about_the_demand(&case, random));
    calls
}

/// Lists of other lengths, and lists of any length with files that are refused for themselves, with each number; in both editions.
pub fn judged_lists(random: &mut Random) -> Vec<Call> {
    let mut calls = Vec::new();
    for edition in solver::EDITIONS {
        let (case, own) = answered_case(edition, random);
        for outputs in lists_about(&own) {
            calls.push(judge(&case, outputs));
        }
        for file in damage::refused_files(edition, random) {
            for outputs in lists_about(&vec![random.pick(&[0, 1, 5]); 3]) {
                calls.push(Call::Judge { file: file.clone(), outputs });
            }
        }
    }
    calls
}

// ---- outputs

fn numbers_of(allocation: &[Offer]) -> Vec<u32> {
    allocation.iter().map(|offer| offer.output as u32).collect()
}

/// Each unit's greatest permitted output, or its greatest where none is permitted.
fn greatest(case: &Case) -> Vec<u32> {
    case.units.iter().map(|unit| greatest_of(unit) as u32).collect()
}

fn greatest_of(unit: &Unit) -> i128 {
    solver::offers(unit).last().map_or(unit.greatest, |offer| offer.output)
}

/// Any permitted output of each unit that has one.
fn any_permitted(case: &Case, random: &mut Random) -> Vec<Offer> {
    let offers = case.units.iter().map(solver::offers);
    offers.filter(|offers| !offers.is_empty()).map(|offers| random.pick(&offers)).collect()
}

fn with_one_changed(case: &Case, own: &[u32], random: &mut Random) -> Vec<u32> {
    let unit = random.below(own.len());
    let mut outputs = own.to_vec();
    outputs[unit] = other_output(&case.units[unit], i128::from(own[unit]), random) as u32;
    outputs
}

/// An output at which it changes whether a unit may give it, or one beside that; a number that 16 bits would cut to a permitted
/// output; or the greatest number.
fn other_output(unit: &Unit, own: i128, random: &mut Random) -> i128 {
    let mut ends = solver::limits_and_edges(unit);
    ends.extend([0, own]);
    let window = [unit.previous - unit.down, unit.previous + unit.up];
    let end = if unit.previous > 0 && random.chance(3) { random.pick(&window) } else { random.pick(&ends) };
    let near = (end + random.between(-1, 1)).max(0);
    let beyond = 65_536 * random.pick(&[1, 1, 65_535]) + random.pick(&[own, greatest_of(unit)]);
    random.pick(&[near, near, near, near, near, near, beyond, i128::from(u32::MAX)])
}

/// Permitted outputs at the greatest demand that they cover, and at one step more.
fn about_the_demand(case: &Case, random: &mut Random) -> Vec<Call> {
    let allocation = any_permitted(case, random);
    let covered = solver::total_net(&allocation) / solver::NET_OF_A_STEP;
    let judged = |demand: i128| judge(&Case { demand: demand.min(320_000), ..case.clone() }, numbers_of(&allocation));
    vec![judged(covered), judged(covered + 1)]
}

// ---- lengths

/// A case of several units that dispatch answers, and its own outputs.
pub fn answered_case(edition: i128, random: &mut Random) -> (Case, Vec<u32>) {
    loop {
        let case = damage::base(random, edition);
        if let Ok(reply) = solver::solve(&case) {
            return (case, numbers(&reply.outputs));
        }
    }
}

/// A list, and others that are longer or shorter, some of them by what a caller may take for nothing.
fn lists_about(outputs: &[u32]) -> Vec<Vec<u32>> {
    let cut = outputs[..outputs.len() - 1].to_vec();
    let with = |more: &[u32]| [outputs, more].concat();
    vec![
        outputs.to_vec(),
        vec![],
        cut,
        outputs[1..].to_vec(),
        with(&[0]),
        with(&[u32::MAX]),
        with(outputs),
        [outputs; 11].concat(),
        vec![u32::MAX; outputs.len() + 1],
    ]
}
