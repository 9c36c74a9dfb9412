//! Lists of demands for which floors are asked: near the case's own, far from it and at limits; too many, too great, or with too
//! little room for the answers.

use crate::calls::Call;
use crate::damage;
use crate::generate::{capacity, damaged_kinds};
use crate::outputs::{answered_case, any_case};
use crate::random::Random;
use crate::solver::{self, Case};
use crate::vectors;

const MOST_DEMANDS: usize = 96;
const GREATEST_DEMAND: u32 = 320_000;
const DAMAGED: usize = 4;

fn floors(case: &Case, demands: Vec<u32>, room: usize) -> Call {
    Call::Floors { file: solver::encode(case), demands, room }
}

// ---- the kinds

/// The stated floors.
pub fn floored_vectors(_random: &mut Random) -> Vec<Call> {
    vectors::floorings().into_iter().map(|vector| floors(&vector.case, vector.demands, vector.room)).collect()
}

/// Of a case its own demand alone, lists of some demands, and what the demand may be if a forecast errs by up to a fifth.
pub fn floored_demands(random: &mut Random) -> Vec<Call> {
    let case = any_case(random);
    let any = 1 + random.below(MOST_DEMANDS);
    let mut lists = vec![vec![case.demand as u32], about_a_fifth(&case)];
    for length in [random.pick(&[1, 2, 3]), random.pick(&[5, 20, any, MOST_DEMANDS])] {
        lists.push(some_demands(&case, length, random));
    }
    let call = |demands: Vec<u32>, more: usize| floors(&case, demands.clone(), demands.len() + more);
    lists.into_iter().map(|demands| call(demands, random.pick(&[0, 0, 1, 200]))).collect()
}

/// Lists of every number of demands about the limit, lists with one demand too great, and answers with too little room; also with
/// files that are refused for themselves, with each number; in both editions.
pub fn floored_lists(random: &mut Random) -> Vec<Call> {
    let mut calls = Vec::new();
    for edition in solver::EDITIONS {
        let (case, _) = answered_case(edition, random);
        for (demands, room) in lists_about_limits(&case, random) {
            calls.push(floors(&case, demands, room));
        }
        for file in damage::refused_files(edition, random) {
            for (demands, room) in lists_beside_faults(random) {
                calls.push(Call::Floors { file: file.clone(), demands, room });
            }
        }
    }
    calls
}

/// Damaged files of any kind, with a few demands or none.
pub fn floored_damage(random: &mut Random) -> Vec<Call> {
    let list = |random: &mut Random| random.pick(&[vec![], vec![5], vec![0, GREATEST_DEMAND, 7]]);
    damaged_files(random).into_iter().map(|file| Call::Floors { file, demands: list(random), room: 3 }).collect()
}

/// Some files of a damaged kind.
pub fn damaged_files(random: &mut Random) -> Vec<Vec<u8>> {
    let files: Vec<Vec<u8>> = (random.pick(&damaged_kinds()).make)(random).into_iter().filter_map(dispatched).collect();
    (0..DAMAGED.min(files.len())).map(|_| random.pick(&files)).collect()
}

fn dispatched(call: Call) -> Option<Vec<u8>> {
    match call {
        Call::Dispatch { file, .. } => Some(file),
        _ => None,
    }
}

// ---- demands

/// From 80 to 120 % of the case's own, by 5 %.
fn about_a_fifth(case: &Case) -> Vec<u32> {
    (80..=120).step_by(5).map(|percent| within_limit(case.demand * percent / 100)).collect()
}

pub fn within_limit(demand: i128) -> u32 {
    demand.clamp(0, i128::from(GREATEST_DEMAND)) as u32
}

fn some_demands(case: &Case, length: usize, random: &mut Random) -> Vec<u32> {
    let nets = evaluated_nets(case);
    (0..length).map(|_| some_demand(case, &nets, random)).collect()
}

/// What the choices of each evaluated multiplier give in whole steps: there that multiplier's floor is a good one. Nothing where
/// dispatch refuses.
fn evaluated_nets(case: &Case) -> Vec<i128> {
    let visits = solver::problem(case).map_or(vec![], |problem| solver::search(&problem).visits);
    visits.iter().map(|(_, evaluation)| solver::total_net(&evaluation.choices) / solver::NET_OF_A_STEP).collect()
}

/// A demand near the case's own, near a net of the evaluations or near capacity, any, and at the limits.
fn some_demand(case: &Case, nets: &[i128], random: &mut Random) -> u32 {
    let capacity = capacity(&case.units);
    let mut ends = vec![case.demand, case.demand, capacity];
    ends.extend(nets);
    let near = random.pick(&ends) + random.between(-2, 2);
    let (within, any) = (random.between(0, capacity + 1), random.between(0, i128::from(GREATEST_DEMAND)));
    within_limit(random.pick(&[near, near, near, near, near, within, within, any, 0, 1, 319_999, 320_000]))
}

// ---- limits

fn lists_about_limits(case: &Case, random: &mut Random) -> Vec<(Vec<u32>, usize)> {
    let mut lists = Vec::new();
    for length in [0, 1, 2, 95, 96, 97, 256, 352] {
        let demands = some_demands(case, length, random);
        for room in [0, length.saturating_sub(1), length, length + 1] {
            lists.push((demands.clone(), room));
        }
    }
    for (too_great, length) in [(320_001, 1), (320_001, 96), (320_001, 3), (327_680, 3), (u32::MAX, 3)] {
        lists.extend(lists_with(too_great, some_demands(case, length, random)));
    }
    lists
}

/// A list with one demand replaced: the first, one between or the last; with room and without.
fn lists_with(demand: u32, demands: Vec<u32>) -> Vec<(Vec<u32>, usize)> {
    let length = demands.len();
    let mut lists = Vec::new();
    for (place, room) in
        [(0, length), (length / 2, length), (length - 1, length), (length - 1, length - 1), (0, length - 1), (0, 0)]
    {
        let mut replaced = demands.clone();
        replaced[place] = demand;
        lists.push((replaced, room));
    }
    lists
}

/// Lists for files that are refused: one that would do, none, one with a demand too great, too many, and answers without room.
fn lists_beside_faults(random: &mut Random) -> Vec<(Vec<u32>, usize)> {
    let good = vec![random.pick(&[0, 5, GREATEST_DEMAND]); 3];
    let too_great = vec![0, random.pick(&[320_001, u32::MAX])];
    vec![
        (good.clone(), 3),
        (vec![], 0),
        (vec![], 1),
        (too_great.clone(), 2),
        (too_great, 1),
        (vec![5; 97], 97),
        (vec![5; 97], 0),
        (good.clone(), 2),
        (good, 0),
    ]
}
