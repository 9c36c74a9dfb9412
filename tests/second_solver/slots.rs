//! Days: units of any kind with demands that they can follow by their ramps or not; lists that are too long or have a demand too
//! great; too little room; files that are refused.

use crate::calls::Day;
use crate::damage;
use crate::demands::{damaged_files, within_limit};
use crate::generate::{capacity, small_unit, with_demand};
use crate::outputs::any_case;
use crate::random::Random;
use crate::solver::{self, Case, Unit, SLOT};
use crate::vectors;

const MOST_SLOTS: usize = 96;
const HISTORIES: usize = 32;
/// A number that 16 bits cannot hold.
const LONG: usize = 65_536;
/// How many outputs the solver may have to look at for a day, one unit and one slot after the other.
const MOST_OUTPUTS: i128 = 5_000_000;

type Kind = fn(&mut Random) -> Vec<Day>;

/// The kinds of days; those that are for the slots themselves are named more than once, to be made more often.
pub const KINDS: [Kind; 16] = [
    any_units,
    any_units,
    any_units,
    any_units,
    few_units,
    few_units,
    few_units,
    few_units,
    many_units,
    many_units,
    many_units,
    many_units,
    lists_about_limits,
    rooms_about_limits,
    lists_beside_faults,
    damaged,
];

/// The stated days.
pub fn stated() -> Vec<Day> {
    vectors::schedules().iter().map(|schedule| schedule.day()).collect()
}

/// A day with as much room as it needs, or some more.
fn day(file: Vec<u8>, demands: Vec<u32>, random: &mut Random) -> Day {
    let more = random.below(100);
    Day {
        trace_room: SLOT * demands.len() + random.pick(&[0, 0, 0, 1, SLOT, more]),
        histories_room: random.pick(&[HISTORIES, HISTORIES, HISTORIES, 33, 64]),
        answers_room: random.pick(&[1, 1, 1, 2, 9]),
        file,
        demands,
    }
}

// ---- the kinds

/// A case of any accepted kind, with few slots and with more.
fn any_units(random: &mut Random) -> Vec<Day> {
    let case = any_case(random);
    let most = most_slots(&case);
    let lengths = [random.pick(&[0, 1, 2, 3]), random.pick(&[4, 10, 30, MOST_SLOTS])];
    lengths.map(|length| walk(&case, length.min(most), random)).to_vec()
}

/// One to four units, some of them equal, with tight ramps and loose ones, over much of a day.
fn few_units(random: &mut Random) -> Vec<Day> {
    let count = random.pick(&[1, 1, 2, 2, 3, 4]);
    let case = ramped_case(count, small_unit, random);
    let any = random.below(MOST_SLOTS + 1);
    let length = random.pick(&[2, 3, 8, 24, any, MOST_SLOTS]);
    vec![walk(&case, length.min(most_slots(&case)), random)]
}

/// Up to 32 units at low outputs, with up to 96 slots.
fn many_units(random: &mut Random) -> Vec<Day> {
    let any = 5 + random.below(28);
    let count = random.pick(&[any, any, 31, 32, 32]);
    let case = ramped_case(count, low_unit, random);
    let length = random.pick(&[1, 5, 24, MOST_SLOTS, MOST_SLOTS]);
    vec![walk(&case, length, random)]
}

/// Lists of every number of demands about the limit, and lists with one demand too great: first, between or last; each with room
/// for all and with too little for the trace, for the histories or for both.
fn lists_about_limits(random: &mut Random) -> Vec<Day> {
    let case = low_case(random);
    let mut lists = Vec::new();
    for length in [0, 1, 2, 95, 96, 97, 256, 352, LONG + 3] {
        lists.push(some_demands(&case, length, random));
    }
    for (too_great, length) in [(320_001, 1), (320_001, 3), (327_685, 3), (u32::MAX, 3), (LONG as u32 * 5, 3), (320_001, 96)] {
        lists.extend([0, length / 2, length - 1].map(|place| replaced(some_demands(&case, length, random), place, too_great)));
    }
    lists.push(replaced(some_demands(&case, 100, random), 98, 320_001));
    lists.into_iter().flat_map(|demands| with_rooms(&case, demands)).collect()
}

fn with_rooms(case: &Case, demands: Vec<u32>) -> Vec<Day> {
    let needed = SLOT * demands.len();
    let rooms = [(needed, 32), (needed.saturating_sub(1), 32), (needed, 31), (needed.saturating_sub(1), 31), (0, 0)];
    let with = |(trace_room, histories_room)| Day {
        file: solver::encode(case),
        demands: demands.clone(),
        trace_room,
        histories_room,
        answers_room: 1,
    };
    rooms.map(with).to_vec()
}

/// Each of trace, histories and answers with no room, with just too little, with just enough and with more, also with more than 16
/// bits count.
fn rooms_about_limits(random: &mut Random) -> Vec<Day> {
    let case = low_case(random);
    let mut days = Vec::new();
    for length in [0, 1, random.pick(&[2, 3, 8]), MOST_SLOTS] {
        let needed = SLOT * length;
        let whole = Day {
            file: solver::encode(&case),
            demands: some_demands(&case, length, random),
            trace_room: needed,
            histories_room: HISTORIES,
            answers_room: 1,
        };
        for trace_room in
            [0, 2 * length, needed.saturating_sub(SLOT), needed.saturating_sub(1), needed, needed + 1, needed + LONG, LONG]
        {
            days.push(Day { trace_room, ..whole.clone() });
        }
        for histories_room in [0, 1, case.units.len(), 31, 32, 33, LONG, LONG + 31, LONG + 32] {
            days.push(Day { histories_room, ..whole.clone() });
        }
        for answers_room in [0, 1, 2, 9, LONG] {
            days.push(Day { answers_room, ..whole.clone() });
        }
        days.push(Day { trace_room: needed.saturating_sub(1), histories_room: 31, answers_room: 0, ..whole });
    }
    days
}

/// Files that are refused for themselves, with each number, and files that dispatch refuses with 11: beside lists that would do,
/// lists that are refused too, too little room, and no answers; in both editions.
fn lists_beside_faults(random: &mut Random) -> Vec<Day> {
    let mut days = Vec::new();
    for edition in solver::EDITIONS {
        for file in damage::refused_files(edition, random) {
            for (demands, trace_room, histories_room, answers_room) in lists_and_rooms(random) {
                days.push(Day { file: file.clone(), demands, trace_room, histories_room, answers_room });
            }
        }
    }
    days
}

/// Lists of demands with rooms for the trace, the histories and the answers.
fn lists_and_rooms(random: &mut Random) -> Vec<(Vec<u32>, usize, usize, usize)> {
    let good = vec![random.pick(&[0, 5, 320_000]); 3];
    let too_great = vec![0, random.pick(&[320_001, u32::MAX])];
    vec![
        (good.clone(), 54, 32, 1),
        (vec![], 0, 32, 1),
        (vec![], 18, 33, 2),
        (too_great.clone(), 36, 32, 1),
        (too_great.clone(), 35, 31, 1),
        (vec![5; 97], 1_746, 32, 1),
        (vec![5; 97], 0, 0, 1),
        (good.clone(), 53, 32, 1),
        (good.clone(), 54, 31, 1),
        (vec![], 0, 31, 1),
        (good, 54, 32, 0),
        (too_great, 35, 31, 0),
    ]
}

/// Damaged files of any kind, with a few demands or none.
fn damaged(random: &mut Random) -> Vec<Day> {
    let mut days = Vec::new();
    for mut file in damaged_files(random) {
        if random.chance(20) {
            file.resize(file.len() + LONG, 0);
        }
        let demands = random.pick(&[vec![], vec![5], vec![0, 320_000, 7]]);
        days.push(day(file, demands, random));
    }
    days
}

// ---- units

fn low_unit(random: &mut Random, edition: i128) -> Unit {
    loop {
        let unit = small_unit(random, edition);
        if unit.greatest < 100 {
            return unit;
        }
    }
}

/// Three units at low outputs.
fn low_case(random: &mut Random) -> Case {
    ramped_case(3, low_unit, random)
}

/// So many units with ramps, of one sort to three.
fn ramped_case(count: usize, unit: fn(&mut Random, i128) -> Unit, random: &mut Random) -> Case {
    let edition = random.pick(&solver::EDITIONS);
    let sorts: Vec<Unit> = (0..random.pick(&[1, 2, 3, 3])).map(|_| with_ramps(unit(random, edition), random)).collect();
    let units = (0..count).map(|_| random.pick(&sorts)).collect();
    let case = with_demand(units, edition, random);
    let demand = random.pick(&[case.demand, case.demand, case.demand, 320_000]);
    Case { demand, ..case }
}

/// The unit standing or running before the first slot, rarely at an output that it may not have; its ramps tight, loose or of no
/// effect.
fn with_ramps(unit: Unit, random: &mut Random) -> Unit {
    let within = random.between(unit.least, unit.greatest);
    let any = random.between(1, 10_000);
    Unit {
        previous: random.pick(&[0, 0, 0, 0, unit.least, unit.greatest, within, within, within, within, any]),
        up: random.pick(&[0, 1, 1, 2, 3, 5, 10_000, 10_000]),
        down: random.pick(&[0, 1, 1, 2, 3, 5, 10_000, 10_000]),
        ..unit
    }
}

/// How many slots of a case the solver may have to solve.
fn most_slots(case: &Case) -> usize {
    let outputs: i128 = case.units.iter().map(|unit| unit.greatest).sum();
    (MOST_OUTPUTS / outputs).clamp(2, MOST_SLOTS as i128) as usize
}

// ---- demands

/// What the units give at most if no ramp holds them.
fn greatest_demand(case: &Case) -> i128 {
    let standing: Vec<Unit> = case.units.iter().map(|unit| Unit { previous: 0, ..unit.clone() }).collect();
    capacity(&standing)
}

fn walk(case: &Case, length: usize, random: &mut Random) -> Day {
    day(solver::encode(case), some_demands(case, length, random), random)
}

/// Demands that go up and down by small steps and by large ones; in half of the lists some are 0, the most that the units give,
/// one more, or far more.
fn some_demands(case: &Case, length: usize, random: &mut Random) -> Vec<u32> {
    let most = greatest_demand(case);
    let calm = random.chance(2);
    let mut level = random.pick(&[0, case.demand, most / 2, most]);
    let mut demands = Vec::new();
    for _ in 0..length {
        let (small, large) = (random.between(-2, 2), random.between(-most / 2, most / 2));
        level = (level + random.pick(&[0, small, small, small, large])).clamp(0, most);
        let others = [level, level, level, level, level, 0, most, most + 1, 320_000];
        demands.push(within_limit(if calm { level } else { random.pick(&others) }));
    }
    demands
}

fn replaced(mut demands: Vec<u32>, place: usize, demand: u32) -> Vec<u32> {
    demands[place] = demand;
    demands
}
