//! The kinds of test cases. Each kind makes calls from a seeded source of numbers.

use crate::calls::Call;
use crate::damage;
use crate::demands;
use crate::outputs;
use crate::random::Random;
use crate::solver::{self, Case, Unit};
use crate::vectors;

const GREATEST_B1: i128 = 10_000_000;
const GREATEST_DEMAND: i128 = 320_000;

#[derive(Clone)]
pub struct Kind {
    pub name: &'static str,
    /// How often the kind is made for the runner's files.
    pub times: usize,
    pub make: fn(&mut Random) -> Vec<Call>,
}

fn kind(name: &'static str, times: usize, make: fn(&mut Random) -> Vec<Call>) -> Kind {
    Kind { name, times, make }
}

pub fn kinds() -> Vec<Kind> {
    [accepted_kinds(), damaged_kinds(), view_kinds(), judged_kinds(), floored_kinds()].concat()
}

/// Kinds of accepted files: some of each are dispatched.
pub fn accepted_kinds() -> Vec<Kind> {
    vec![
        kind("table", 1, table),
        kind("further-vectors", 1, further_vectors),
        kind("small", 14, |random| small(random, 1)),
        kind("full-size", 6, |random| full_size(random, 1)),
        kind("equal-units", 4, |random| equal_units(random, 1)),
        kind("tied-outputs", 5, |random| tied_outputs(random, 1)),
        kind("lowered-outputs", 16, |random| lowered_outputs(random, 1)),
        kind("free-outputs", 3, |random| free_outputs(random, 1)),
        kind("low-prices", 5, |random| low_prices(random, 1)),
        kind("standing-or-running", 6, |random| standing_or_running(random, 1)),
        kind("single-point-windows", 6, |random| single_point_windows(random, 1)),
        kind("zones-at-edges", 6, |random| zones_at_edges(random, 1)),
        kind("four-zones", 3, |random| four_zones(random, 1)),
        kind("ramps-that-cut-zones", 8, |random| ramps_that_cut_zones(random, 1)),
        kind("shared-edges", 10, |random| shared_edges(random, 1)),
        kind("zero-coefficients", 2, |random| zero_coefficients(random, 1)),
        kind("greatest-coefficients", 3, |random| greatest_coefficients(random, 1)),
        kind("demand-at-capacity", 3, |random| demand_at_capacity(random, 1)),
        kind("large-losses", 6, |random| large_losses(random, 1)),
        kind("exact-demand", 7, |random| exact_demand(random, 1)),
        kind("largest", 1, |random| largest(random, 1)),
        kind("edition-2-vectors", 1, edition_2_vectors),
        kind("edition-2-small", 14, |random| small(random, 2)),
        kind("edition-2-every-count", 1, |random| every_count(random, 2)),
        kind("edition-2-full-size", 4, |random| full_size(random, 2)),
        kind("edition-2-equal-units", 2, |random| equal_units(random, 2)),
        kind("edition-2-tied-outputs", 5, |random| tied_outputs(random, 2)),
        kind("edition-2-lowered-outputs", 10, |random| lowered_outputs(random, 2)),
        kind("edition-2-free-outputs", 2, |random| free_outputs(random, 2)),
        kind("edition-2-low-prices", 3, |random| low_prices(random, 2)),
        kind("edition-2-standing-or-running", 4, |random| standing_or_running(random, 2)),
        kind("edition-2-single-point-windows", 3, |random| single_point_windows(random, 2)),
        kind("edition-2-zones-at-edges", 4, |random| zones_at_edges(random, 2)),
        kind("edition-2-four-zones", 2, |random| four_zones(random, 2)),
        kind("edition-2-ramps-that-cut-zones", 4, |random| ramps_that_cut_zones(random, 2)),
        kind("edition-2-shared-edges", 6, |random| shared_edges(random, 2)),
        kind("edition-2-zero-coefficients", 2, |random| zero_coefficients(random, 2)),
        kind("edition-2-greatest-coefficients", 3, |random| greatest_coefficients(random, 2)),
        kind("edition-2-demand-at-capacity", 3, |random| demand_at_capacity(random, 2)),
        kind("edition-2-large-losses", 6, |random| large_losses(random, 2)),
        kind("edition-2-exact-demand", 7, |random| exact_demand(random, 2)),
        kind("edition-2-largest", 1, |random| largest(random, 2)),
        kind("both-editions", 3, both_editions),
    ]
}

/// Kinds of accepted files in which outputs tie, choices just cover or parts of the outputs do not, by edition.
pub const TIED_KINDS: [fn(&mut Random, i128) -> Vec<Call>; 9] = [
    equal_units,
    tied_outputs,
    lowered_outputs,
    free_outputs,
    low_prices,
    standing_or_running,
    demand_at_capacity,
    large_losses,
    exact_demand,
];

/// Kinds of calls that are refused, most of them for their file or rows.
pub fn damaged_kinds() -> Vec<Kind> {
    vec![
        kind("fields-at-limits", 1, |random| damage::fields_at_limits(random, 1)),
        kind("head-at-limits", 1, |random| damage::head_at_limits(random, 1)),
        kind("cut-and-padded", 1, |random| damage::cut_and_padded(random, 1)),
        kind("wrong-contents", 1, |random| damage::wrong_contents(random, 1)),
        kind("swapped-and-changed-bytes", 4, |random| damage::swapped_and_changed_bytes(random, 1)),
        kind("two-faults", 1, |random| damage::two_faults(random, 1)),
        kind("edition-2-fields-at-limits", 1, |random| damage::fields_at_limits(random, 2)),
        kind("edition-2-head-at-limits", 1, |random| damage::head_at_limits(random, 2)),
        kind("edition-2-cut-and-padded", 1, |random| damage::cut_and_padded(random, 2)),
        kind("edition-2-wrong-contents", 1, |random| damage::wrong_contents(random, 2)),
        kind("edition-2-swapped-and-changed-bytes", 4, |random| damage::swapped_and_changed_bytes(random, 2)),
        kind("edition-2-two-faults", 1, |random| damage::two_faults(random, 2)),
        kind("losses-at-limits", 1, damage::losses_at_limits),
        kind("unpacked-editions", 1, damage::unpacked_editions),
        kind("damaged-rows", 1, damage::damaged_rows),
        kind("short-buffers", 1, |random| in_both_editions(short_buffers, random)),
        kind("multipliers", 1, |random| in_both_editions(multipliers, random)),
    ]
}

fn view_kinds() -> Vec<Kind> {
    vec![
        kind("viewed-registers", 2, viewed_registers),
        kind("views-at-limits", 1, views_at_limits),
        kind("damaged-views", 1, damage::damaged_views),
    ]
}

fn judged_kinds() -> Vec<Kind> {
    vec![
        kind("judged-vectors", 1, outputs::judged_vectors),
        kind("judged-outputs", 40, outputs::judged_outputs),
        kind("judged-lists", 1, outputs::judged_lists),
    ]
}

fn floored_kinds() -> Vec<Kind> {
    vec![
        kind("floored-vectors", 1, demands::floored_vectors),
        kind("floored-demands", 60, demands::floored_demands),
        kind("floored-lists", 1, demands::floored_lists),
        kind("floored-damage", 12, demands::floored_damage),
    ]
}

// ---- calls

/// All calls for a case: dispatch, two pricings, unpacking, and in edition 1, which packing writes, packing of its rows.
pub fn calls_of_case(case: &Case, random: &mut Random) -> Vec<Call> {
    let file = solver::encode(case);
    let mut calls = calls_of_file(&file, random);
    calls.push(Call::Price { multiplier: near_a_tie(case, random), file });
    if case.edition == 1 {
        calls.push(pack(case, random));
    }
    calls
}

/// The calls that take a file.
pub fn calls_of_file(file: &[u8], random: &mut Random) -> Vec<Call> {
    vec![
        Call::Dispatch { file: file.to_vec(), room: random.pick(&[92, 93, 120, 1_600]) },
        Call::Price { file: file.to_vec(), multiplier: any_multiplier(random) },
        Call::Unpack { file: file.to_vec(), room: random.pick(&[608, 609, 640]) },
    ]
}

pub fn pack(case: &Case, random: &mut Random) -> Call {
    let room = solver::encode(case).len() + random.pick(&[0, 1, 120]);
    Call::Pack { demand: case.demand as u32, rows: solver::rows_of(case), room }
}

fn any_multiplier(random: &mut Random) -> u32 {
    let small = random.between(0, 300) as u32;
    let any = random.between(0, 65_536) as u32;
    random.pick(&[0, 1, 65_535, 65_536, small, small, any, any])
}

/// A multiplier near the price at which a unit passes from one output to another, in most cases over a zone.
pub fn near_a_tie(case: &Case, random: &mut Random) -> u32 {
    let unit = random.pick(&case.units);
    let mut spans = vec![(0, unit.greatest)];
    spans.extend(&unit.zones);
    let (lower, upper) = random.pick(&spans);
    let both = random.between(2 * lower, 2 * upper);
    let net = solver::NET_OF_A_STEP - unit.b1 - unit.b * both;
    let price = solver::COST_SCALE * (unit.c1 + unit.c2 * both) / net.max(1) + random.between(-1, 1);
    price.clamp(0, solver::GREATEST_MULTIPLIER) as u32
}

// ---- units and demands

/// A unit with so many zones, whose limits and edges rise from `start` by 1 to `step` each.
fn unit(random: &mut Random, edition: i128, start: i128, step: i128, zones: usize) -> Unit {
    let mut limits = vec![start + random.between(0, step - 1)];
    while limits.len() < 2 + 2 * zones {
        limits.push(limits[limits.len() - 1] + random.between(1, step));
    }
    let edges = &limits[1..=2 * zones];
    let mut unit = Unit {
        least: limits[0],
        greatest: limits[limits.len() - 1],
        zones: edges.chunks(2).map(|pair| (pair[0], pair[1])).collect(),
        mark: random.between(0, 2) / 2,
        ..vectors::u()
    };
    set_coefficients(&mut unit, random);
    if edition == 2 {
        unit.b1 = any_b1(unit.b, random);
    }
    unit
}

fn set_coefficients(unit: &mut Unit, random: &mut Random) {
    let any_c0 = random.between(0, 1_000_000_000);
    unit.c0 = random.pick(&[0, 1, 5_000, any_c0]);
    let (small_c1, any_c1) = (random.between(0, 30_000), random.between(0, 10_000_000));
    unit.c1 = random.pick(&[0, 10_000, small_c1, small_c1, any_c1, any_c1]);
    let any_c2 = random.between(0, 1_000);
    unit.c2 = random.pick(&[0, 1, any_c2, any_c2, 1_000]);
    let any_b = random.between(0, 5_000);
    unit.b = random.pick(&[0, 0, 1, any_b, any_b, 5_000]);
}

/// The greatest b1 that is accepted beside a b.
pub fn greatest_b1(b: i128) -> i128 {
    GREATEST_B1.min(99_999_999 - 19_999 * b)
}

/// An accepted b1 beside a b: of either sign, small or any, none, and at its ends.
fn any_b1(b: i128, random: &mut Random) -> i128 {
    let (small, any) = (random.between(-2_000, 2_000), random.between(-GREATEST_B1, GREATEST_B1));
    random.pick(&[0, small, any, any, any, -any.abs(), -GREATEST_B1, GREATEST_B1]).min(greatest_b1(b))
}

/// A unit of few permitted outputs, at low outputs or just below 10,000.
pub fn small_unit(random: &mut Random, edition: i128) -> Unit {
    let zones = random.pick(&[0, 1, 1, 2, 2, 3, 4]);
    let step = random.pick(&[1, 2, 3, 4]);
    let span = (2 + 2 * zones as i128) * step;
    let start = random.pick(&[1, 1, 1, 10_001 - span]);
    unit(random, edition, start, step, zones)
}

/// A unit whose outputs reach over the whole range.
fn large_unit(random: &mut Random, edition: i128) -> Unit {
    let zones = random.pick(&[0, 1, 2, 3, 4, 4, 4]);
    unit(random, edition, 1, 10_000 / (2 + 2 * zones as i128), zones)
}

/// A point where something changes: a limit or an edge, the one before or after it, or any output.
fn point(unit: &Unit, random: &mut Random) -> i128 {
    let near = random.pick(&solver::limits_and_edges(unit)) + random.between(-1, 1);
    let within = random.between(unit.least, unit.greatest);
    random.pick(&[near, near, near, within, 1, 10_000]).clamp(1, 10_000)
}

/// Gives a unit a ramp window with three points: its ends and the previous output between them.
fn set_window(unit: &mut Unit, mut points: [i128; 3]) {
    points.sort_unstable();
    unit.previous = points[1];
    unit.down = points[1] - points[0];
    unit.up = points[2] - points[1];
}

/// Gives a unit any ramp window, which may reach to 0 and below, or to 10,000 and above.
fn set_any_window(unit: &mut Unit, random: &mut Random) {
    let points = [point(unit, random), point(unit, random), point(unit, random)];
    set_window(unit, points);
    if random.chance(3) {
        unit.down = random.pick(&[unit.previous, unit.previous + 1, 10_000]).min(10_000);
    }
    if random.chance(3) {
        unit.up = random.pick(&[10_000 - unit.previous, 10_001 - unit.previous, 10_000]);
    }
}

/// Gives a unit a ramp window, or steps that have no effect as the previous output is 0, or neither.
pub fn maybe_set_window(unit: &mut Unit, random: &mut Random) {
    if random.chance(2) {
        set_any_window(unit, random);
    } else if random.chance(2) {
        unit.up = random.pick(&[0, 1, 5, 10_000]);
        unit.down = random.pick(&[0, 1, 5, 10_000]);
    }
}

/// The whole steps that the greatest permitted outputs give after losses.
pub fn capacity(units: &[Unit]) -> i128 {
    let greatest_net = |unit: &Unit| solver::offers(unit).last().map_or(0, |offer| offer.net);
    units.iter().map(greatest_net).sum::<i128>() / solver::NET_OF_A_STEP
}

pub fn with_demand(units: Vec<Unit>, edition: i128, random: &mut Random) -> Case {
    let capacity = capacity(&units);
    let any = random.between(0, capacity);
    let demand = random.pick(&[0, 1, any, any, any, any, any, any, capacity - 1, capacity, capacity + 1]);
    Case { edition, demand: demand.clamp(0, GREATEST_DEMAND), units }
}

/// A case of one to four small units, some with ramps.
pub fn small_case(random: &mut Random, edition: i128) -> Case {
    let count = random.pick(&[1, 2, 2, 3, 3, 4]);
    let mut units: Vec<Unit> = (0..count).map(|_| small_unit(random, edition)).collect();
    for unit in &mut units {
        maybe_set_window(unit, random);
    }
    with_demand(units, edition, random)
}

// ---- kinds of accepted files

fn table(random: &mut Random) -> Vec<Call> {
    let mut calls: Vec<Call> = vectors::table().iter().flat_map(|vector| calls_of_case(&vector.case, random)).collect();
    let file = solver::encode(&vectors::table()[0].case);
    for multiplier in vectors::priced_multipliers() {
        calls.push(Call::Price { file: file.clone(), multiplier });
    }
    calls
}

fn further_vectors(random: &mut Random) -> Vec<Call> {
    let vectors = [vectors::further(), vectors::lowered(), vectors::shared_edges()];
    vectors.iter().flatten().flat_map(|vector| calls_of_case(&vector.case, random)).collect()
}

/// The stated cases of edition 2, and their stated pricings.
fn edition_2_vectors(random: &mut Random) -> Vec<Call> {
    let mut calls: Vec<Call> = vectors::edition_2().iter().flat_map(|vector| calls_of_case(&vector.case, random)).collect();
    for (case, multiplier, _) in vectors::pricings_of_edition_2() {
        calls.push(Call::Price { file: solver::encode(&case), multiplier });
    }
    calls
}

fn small(random: &mut Random, edition: i128) -> Vec<Call> {
    let case = small_case(random, edition);
    calls_of_case(&case, random)
}

/// Cases of 1 to 32 small units.
fn every_count(random: &mut Random, edition: i128) -> Vec<Call> {
    let mut calls = Vec::new();
    for count in 1..=32 {
        let units: Vec<Unit> = (0..count).map(|_| Unit { mark: 0, ..small_unit(random, edition) }).collect();
        let file = solver::encode(&with_demand(units, edition, random));
        calls.push(Call::Dispatch { file: file.clone(), room: 92 });
        calls.push(Call::Price { file, multiplier: any_multiplier(random) });
    }
    calls
}

fn full_size(random: &mut Random, edition: i128) -> Vec<Call> {
    let count = random.pick(&[17, 31, 32, 32]);
    let mut units: Vec<Unit> = (0..count).map(|_| large_unit(random, edition)).collect();
    for unit in units.iter_mut().step_by(3) {
        maybe_set_window(unit, random);
        unit.mark = 0;
    }
    let case = with_demand(units, edition, random);
    calls_of_case(&case, random)
}

fn equal_units(random: &mut Random, edition: i128) -> Vec<Call> {
    let unit = small_unit(random, edition);
    let units = vec![unit; random.pick(&[2, 3, 4])];
    let case = with_demand(units, edition, random);
    calls_of_case(&case, random)
}

/// Two outputs that tie exactly at a multiplier, with only forbidden outputs or none between them.
fn tied_outputs(random: &mut Random, edition: i128) -> Vec<Call> {
    let mut unit = Unit { mark: 1, ..small_unit(random, edition) };
    let (lower, upper) = match unit.zones.first() {
        Some(zone) => *zone,
        None => (unit.least, unit.least + 1),
    };
    // 100,000 × (c1 + c2 × (p + q)) = m × (100,000,000 − b1 − b × (p + q)) is solved for c1, in whole numbers as m × b and b1 are
    // multiples of 100,000
    let multiplier = if random.chance(2) { 10_000 } else { random.between(1, 10_000) };
    unit.b = if multiplier == 10_000 { 10 * random.between(0, 20) } else { 0 };
    unit.b1 = if edition == 2 { hundred_thousands(if multiplier > 9_000 { 0 } else { -100 }, random) } else { 0 };
    let step_price = multiplier * (solver::NET_OF_A_STEP - unit.b1) / solver::COST_SCALE;
    let price = step_price - multiplier * unit.b / solver::COST_SCALE * (lower + upper);
    unit.c2 = random.between(0, 1_000).min(price / (lower + upper));
    unit.c1 = price - unit.c2 * (lower + upper);
    let file = solver::encode(&Case { edition, demand: capacity(&[unit.clone()]), units: vec![unit.clone()] });
    let case = with_demand(vec![unit, small_unit(random, edition)], edition, random);
    let mut calls = calls_of_case(&case, random);
    for multiplier in [multiplier - 1, multiplier, multiplier + 1] {
        calls.push(Call::Price { file: file.clone(), multiplier: multiplier as u32 });
    }
    calls
}

/// Units of which outputs tie at one multiplier, some of them equal, and a demand between their least tied outputs and their choices,
/// so that the search comes to it.
fn lowered_outputs(random: &mut Random, edition: i128) -> Vec<Call> {
    let any = random.between(1, 60);
    let multiplier = random.pick(&[0, 16, 64, any, any, any, any, solver::GREATEST_MULTIPLIER]);
    let sorts = [0; 2].map(|_| tying_unit(random, edition, multiplier));
    let units = (0..random.pick(&[1, 2, 2, 3, 3, 4, 4, 32])).map(|_| random.pick(&sorts)).collect();
    let mut case = Case { edition, demand: 0, units };
    if let Ok(problem) = solver::problem(&case) {
        let evaluation = problem.evaluate(multiplier);
        let [least, most] = [evaluation.least_tied, evaluation.choices].map(|outputs| solver::total_net(&outputs));
        case.demand = random.between(least, most) / solver::NET_OF_A_STEP;
    }
    calls_of_case(&case, random)
}

/// A unit without a b of which outputs tie at a multiplier: two neighbours or the edges of a zone, adjacent ones among them; with c2 0
/// all running outputs; for some units standing too, where c1 is the greatest with the greatest output alone.
pub fn tying_unit(random: &mut Random, edition: i128, multiplier: i128) -> Unit {
    let (step, zones) = random.pick(&[(1, 0), (3, 0), (1, 1), (3, 1), (3, 1), (1, 2), (3, 2)]);
    let mut unit = unit(random, edition, 1, step, zones);
    unit.greatest += random.pick(&[0, 0, 3]);
    unit.b1 = if edition == 2 { GREATEST_B1 * random.between(-1, 1) } else { 0 };
    let mut pairs = vec![(unit.least, unit.least + 1), (unit.greatest - 1, unit.greatest)];
    pairs.extend(&unit.zones);
    let (lower, upper) = random.pick(&pairs);
    let step_price = multiplier * (solver::NET_OF_A_STEP - unit.b1) / solver::COST_SCALE;
    let c2 = random.pick(&[0, 1, 200, 1_000]).min(step_price / (lower + upper));
    let c1 = (step_price - c2 * (lower + upper)).min(10_000_000);
    let chosen = if c1 == 10_000_000 { unit.greatest } else { upper };
    let running = Unit { c0: 0, c1, c2, b: 0, ..unit };
    let c0_of_tie = step_price * chosen - solver::cost(&running, chosen);
    let c0 = random.pick(&[0, 0, c0_of_tie]).min(1_000_000_000);
    let mut unit = Unit { c0, ..running };
    if random.chance(4) {
        set_any_window(&mut unit, random);
    }
    unit
}

/// A b1 of whole hundred thousands, from so many of them to a hundred.
fn hundred_thousands(least: i128, random: &mut Random) -> i128 {
    100_000 * random.between(least, 100)
}

/// Units whose every output has the same cost, among others.
fn free_outputs(random: &mut Random, edition: i128) -> Vec<Call> {
    let mut units: Vec<Unit> = (0..3).map(|_| small_unit(random, edition)).collect();
    for unit in units.iter_mut().take(2) {
        unit.c1 = 0;
        unit.c2 = 0;
    }
    let case = with_demand(units, edition, random);
    calls_of_case(&case, random)
}

/// Units that may stand, with constant costs of the size of what else they burn; the price at which one of them is as well off
/// standing as running, and for one of them just so.
fn standing_or_running(random: &mut Random, edition: i128) -> Vec<Call> {
    let mut units: Vec<Unit> = (0..3).map(|_| small_unit(random, edition)).collect();
    for unit in &mut units {
        unit.mark = 0;
        let burnt = solver::cost(&Unit { c0: 0, ..unit.clone() }, unit.greatest);
        unit.c0 = random.between(0, 2 * burnt + 1).min(1_000_000_000);
    }
    let tied_at = random.between(1, 90);
    let b1 = if edition == 2 { hundred_thousands(-100, random) } else { 0 };
    let c0 = tied_at * (solver::NET_OF_A_STEP - b1) / solver::COST_SCALE * units[1].greatest;
    units[1] = Unit { c0, c1: 0, c2: 0, b: 0, b1, ..units[1].clone() };
    let case = with_demand(units.clone(), edition, random);
    let mut calls = calls_of_case(&case, random);
    let unit = random.pick(&units);
    let offer = solver::offers(&unit).pop().expect("a unit that may stand has an output");
    let indifferent = solver::COST_SCALE * offer.cost / offer.net.max(1) + random.between(0, 1);
    for price in [indifferent.min(solver::GREATEST_MULTIPLIER), tied_at] {
        calls.push(Call::Price { multiplier: price as u32, file: solver::encode(&case) });
    }
    calls
}

/// Units so cheap that they change their choices between the multipliers 0 and 1, or soon after.
fn low_prices(random: &mut Random, edition: i128) -> Vec<Call> {
    let mut units: Vec<Unit> = (0..2).map(|_| small_unit(random, edition)).collect();
    for unit in &mut units {
        unit.c1 = random.pick(&[1, 10, 100, 100, 999, 1_000, 1_001]);
        unit.c2 = random.pick(&[0, 0, 1]);
        unit.mark = 0;
    }
    let half = capacity(&units) / 2;
    let case = Case { edition, demand: random.between(1, half.max(1)), units };
    calls_of_case(&case, random)
}

/// A window of one output, or one that reaches a single edge from inside a zone or from outside the limits.
fn single_point_windows(random: &mut Random, edition: i128) -> Vec<Call> {
    let mut units = vec![small_unit(random, edition), small_unit(random, edition)];
    for unit in &mut units {
        let end = random.pick(&solver::limits_and_edges(unit));
        let distance = random.pick(&[0, 0, 1, 2]);
        let previous = (end + random.pick(&[-distance, distance])).clamp(1, 10_000);
        set_window(unit, [previous, previous, end]);
    }
    let case = with_demand(units, edition, random);
    calls_of_case(&case, random)
}

/// Zones one step from the limits, and zones with nothing strictly inside.
fn zones_at_edges(random: &mut Random, edition: i128) -> Vec<Call> {
    let count = random.pick(&[1, 2, 3, 4]);
    let mut units: Vec<Unit> = (0..2).map(|_| unit(random, edition, 1, 2, count)).collect();
    for unit in &mut units {
        unit.least = unit.zones[0].0 - 1;
        unit.greatest = unit.zones[count - 1].1 + 1;
    }
    let case = with_demand(units, edition, random);
    calls_of_case(&case, random)
}

/// A unit of four zones, and a demand in each zone in turn.
fn four_zones(random: &mut Random, edition: i128) -> Vec<Call> {
    let unit = Unit { mark: 1, ..unit(random, edition, 1, 6, 4) };
    let mut calls = Vec::new();
    for (lower, upper) in &unit.zones {
        let case = Case { edition, demand: random.between(*lower, *upper), units: vec![unit.clone()] };
        let file = solver::encode(&case);
        calls.push(Call::Dispatch { file: file.clone(), room: 92 });
        calls.push(Call::Price { multiplier: near_a_tie(&case, random), file });
    }
    calls
}

/// Units of two to four zones of which neighbours share edges, with ramp windows about these; and one that overlaps by a step.
fn shared_edges(random: &mut Random, edition: i128) -> Vec<Call> {
    let mut units = Vec::new();
    for _ in 0..2 {
        let (step, zones) = (random.pick(&[1, 2, 3, 5]), random.pick(&[2, 2, 3, 4]));
        let mut unit = unit(random, edition, 1, step, zones);
        share_edges(&mut unit, random);
        if random.chance(2) {
            let edge = random.pick(&solver::limits_and_edges(&unit));
            let [below, above] = [random.pick(&[0, 0, 1, 2]), random.pick(&[0, 0, 1, 2])];
            set_window(&mut unit, [(edge - below).max(1), edge, edge + above]);
        }
        units.push(unit);
    }
    let case = with_demand(units, edition, random);
    let mut calls = calls_of_case(&case, random);
    let mut overlapping = case;
    overlapping.units[0].zones[1].0 = overlapping.units[0].zones[0].1 - 1;
    calls.extend(calls_of_case(&overlapping, random));
    calls
}

/// Lets some neighbouring zones, or all, share an edge.
pub fn share_edges(unit: &mut Unit, random: &mut Random) {
    let all = random.chance(2);
    for zone in 1..unit.zones.len() {
        if all || random.chance(2) {
            unit.zones[zone - 1].1 = unit.zones[zone].0;
        }
    }
}

pub fn ramps_that_cut_zones(random: &mut Random, edition: i128) -> Vec<Call> {
    let mut units = vec![small_unit(random, edition), small_unit(random, edition)];
    for unit in &mut units {
        set_any_window(unit, random);
    }
    let case = with_demand(units, edition, random);
    calls_of_case(&case, random)
}

/// Units that cost nothing and, but for b1, lose nothing; at a demand that they can give and at any.
fn zero_coefficients(random: &mut Random, edition: i128) -> Vec<Call> {
    let mut units = vec![small_unit(random, edition), large_unit(random, edition)];
    for unit in &mut units {
        *unit = Unit { c0: 0, c1: 0, c2: 0, b: 0, ..unit.clone() };
    }
    let given = Case { edition, demand: random.between(0, capacity(&units)), units: units.clone() };
    let any = with_demand(units, edition, random);
    let mut calls = calls_of_case(&given, random);
    calls.extend(calls_of_case(&any, random));
    calls
}

/// Units of the greatest outputs and costs, with a b of 0 or the greatest and a b1 at either end; also a demand one above capacity.
fn greatest_coefficients(random: &mut Random, edition: i128) -> Vec<Call> {
    let b = random.pick(&[0, 5_000]);
    let b1 = if edition == 2 { random.pick(&[-GREATEST_B1, greatest_b1(b)]) } else { 0 };
    let unit = Unit { c0: 1_000_000_000, b1, least: random.between(1, 9_999), ..vectors::lossy(b) };
    let units = vec![unit; random.pick(&[2, 32])];
    let capacity = capacity(&units).min(GREATEST_DEMAND);
    let above = Case { edition, demand: capacity + 1, units: units.clone() };
    let case = if random.chance(2) { Case { edition, demand: capacity, units } } else { with_demand(units, edition, random) };
    let mut calls = calls_of_case(&case, random);
    calls.push(Call::Dispatch { file: solver::encode(&above), room: 92 });
    calls
}

fn demand_at_capacity(random: &mut Random, edition: i128) -> Vec<Call> {
    let units = if random.chance(4) {
        vec![large_unit(random, edition), small_unit(random, edition)]
    } else {
        small_case(random, edition).units
    };
    let capacity = capacity(&units);
    let mut calls = Vec::new();
    for demand in [0, 1, (capacity - 1).max(0), capacity, capacity + 1] {
        let file = solver::encode(&Case { edition, demand, units: units.clone() });
        calls.push(Call::Dispatch { file: file.clone(), room: 92 });
        calls.push(Call::Price { file, multiplier: any_multiplier(random) });
    }
    calls
}

/// Demands so near to capacity that the choices at 65,536 may not cover.
fn large_losses(random: &mut Random, edition: i128) -> Vec<Call> {
    let mut units: Vec<Unit> = Vec::new();
    for _ in 0..random.pick(&[1, 2, 3]) {
        let b = random.between(2_600, 5_000);
        let b1 = if edition == 2 { any_b1(b, random) } else { 0 };
        units.push(Unit { b1, least: 10_000 - random.between(1, 30), ..vectors::lossy(b) });
    }
    if random.chance(2) {
        units.push(small_unit(random, edition));
    }
    let demand = (capacity(&units) - random.pick(&[0, 0, 1, 2, 20])).max(0);
    calls_of_case(&Case { edition, demand, units }, random)
}

/// Units without losses, or with a b1 of round numbers, and a demand that the choices of some multiplier meet without surplus.
fn exact_demand(random: &mut Random, edition: i128) -> Vec<Call> {
    let mut units = small_case(random, edition).units;
    for unit in &mut units {
        unit.b = 0;
        unit.b1 = if edition == 2 { 5_000_000 * random.between(-2, 2) } else { 0 };
    }
    let mut case = Case { edition, demand: 0, units };
    if let Ok(problem) = solver::problem(&case) {
        let chosen_net = |_| solver::total_net(&problem.evaluate(i128::from(near_a_tie(&case, random))).choices);
        let whole = (0..40).map(chosen_net).find(|net| net % solver::NET_OF_A_STEP == 0);
        case.demand = whole.unwrap_or(0) / solver::NET_OF_A_STEP;
    }
    calls_of_case(&case, random)
}

/// 32 units of four zones, up to the greatest output.
pub fn largest_units(random: &mut Random, edition: i128) -> Vec<Unit> {
    (0..32).map(|_| Unit { greatest: 10_000, mark: 0, ..unit(random, edition, 9_800, 20, 4) }).collect()
}

/// Files of the greatest length, 32 units of four zones up to the greatest output: free, of the greatest costs without a b and with
/// the greatest, and of any; in edition 2 with the least b1, with the greatest, and with any. Each at demand 0, at half of capacity,
/// at capacity and one above.
fn largest(random: &mut Random, edition: i128) -> Vec<Call> {
    let units = largest_units(random, edition);
    let alike =
        |c0, c1, c2, b, b1| -> Vec<Unit> { units.iter().map(|unit| Unit { c0, c1, c2, b, b1, ..unit.clone() }).collect() };
    let (least_b1, most_b1) = if edition == 2 { (-GREATEST_B1, GREATEST_B1) } else { (0, 0) };
    let free = alike(0, 0, 0, 0, least_b1);
    let costly = alike(1_000_000_000, 10_000_000, 1_000, 0, most_b1);
    let lossy = alike(1_000_000_000, 10_000_000, 1_000, 5_000, most_b1.min(greatest_b1(5_000)));
    let mut calls = Vec::new();
    for units in [free, costly, lossy, units.clone()] {
        let capacity = capacity(&units).min(GREATEST_DEMAND);
        for demand in [0, capacity / 2, capacity, capacity + 1] {
            let file = solver::encode(&Case { edition, demand, units: units.clone() });
            calls.push(Call::Dispatch { file, room: 92 });
        }
        let half = Case { edition, demand: capacity / 2, units };
        calls.push(Call::Price { multiplier: near_a_tie(&half, random), file: solver::encode(&half) });
        if edition == 1 {
            calls.push(pack(&half, random));
        }
    }
    calls
}

/// The same units in edition 1, and in edition 2 with b1 0: both are answered alike.
fn both_editions(random: &mut Random) -> Vec<Call> {
    let case = small_case(random, 1);
    let multiplier = near_a_tie(&case, random);
    let [one, two] = [1, 2].map(|edition| solver::encode(&Case { edition, ..case.clone() }));
    let answers = [&one, &two].map(|file| {
        let mut reply = [0; 92];
        (solver::dispatch(file, &mut reply).ok(), reply)
    });
    assert_eq!(answers[0], answers[1], "edition 2 with b1 0 differs");
    let mut calls = Vec::new();
    for file in [one, two] {
        calls.push(Call::Dispatch { file: file.clone(), room: 92 });
        calls.push(Call::Price { file, multiplier });
    }
    calls
}

// ---- buffers and multipliers

fn in_both_editions(make: fn(&mut Random, i128) -> Vec<Call>, random: &mut Random) -> Vec<Call> {
    solver::EDITIONS.into_iter().flat_map(|edition| make(random, edition)).collect()
}

/// Buffers of no room, too short by one, and just long enough; also with a file that is refused for itself.
fn short_buffers(random: &mut Random, edition: i128) -> Vec<Call> {
    let case = small_case(random, edition);
    let file = solver::encode(&case);
    let mut refused_file = file.clone();
    refused_file[0] = 1;
    let mut calls = Vec::new();
    for room in [0, 28, 91, 92] {
        calls.push(Call::Dispatch { file: file.clone(), room });
        calls.push(Call::Dispatch { file: refused_file.clone(), room });
    }
    for room in [0, 19 * case.units.len(), 607, 608] {
        calls.push(Call::Unpack { file: file.clone(), room });
        calls.push(Call::Unpack { file: refused_file.clone(), room });
    }
    let packed = solver::encode(&Case { edition: 1, ..case.clone() }).len();
    for room in [0, packed - 1, packed, packed + 1] {
        calls.push(Call::Pack { demand: case.demand as u32, rows: solver::rows_of(&case), room });
    }
    calls
}

/// Multipliers at and past their limit, also with a file that is refused for itself.
fn multipliers(random: &mut Random, edition: i128) -> Vec<Call> {
    let mut calls = Vec::new();
    let file = solver::encode(&small_case(random, edition));
    for file in [file.clone(), file[..7].to_vec()] {
        let any = random.next() as u32;
        for multiplier in [0, 1, 65_535, 65_536, 65_537, u32::MAX, any % 65_537, any] {
            calls.push(Call::Price { file: file.clone(), multiplier });
        }
    }
    calls
}

// ---- views

/// The reply to a case of 1 to 32 units.
pub fn any_reply(random: &mut Random) -> Vec<u8> {
    let any = random.between(1, 32);
    let count = random.pick(&[1, 2, any, any, any, 32]);
    let edition = random.pick(&[1, 2]);
    let units: Vec<Unit> = (0..count).map(|_| small_unit(random, edition)).collect();
    let case = Case { edition, demand: random.between(0, capacity(&units)), units };
    solver::encode_reply(&solver::solve(&case).expect("a demand within capacity"))
}

pub fn request(function: u8, start: usize, quantity: usize) -> Vec<u8> {
    let [start_high, start_low] = (start as u16).to_be_bytes();
    let [quantity_high, quantity_low] = (quantity as u16).to_be_bytes();
    vec![function, start_high, start_low, quantity_high, quantity_low]
}

fn view(reply: &[u8], request: Vec<u8>, random: &mut Random) -> Call {
    Call::View { reply: reply.to_vec(), request, room: random.pick(&[252, 253, 1_600]) }
}

/// Each register alone, all at once, and some ranges; then all of a reply with any numbers behind n, which no view judges.
fn viewed_registers(random: &mut Random) -> Vec<Call> {
    let reply = any_reply(random);
    let count = reply.len() / 2;
    let mut ranges: Vec<(usize, usize)> = (0..count).map(|register| (register, 1)).collect();
    ranges.push((0, count));
    for _ in 0..4 {
        let start = random.below(count);
        ranges.push((start, 1 + random.below(count - start)));
    }
    let mut calls = Vec::new();
    for (start, quantity) in ranges {
        calls.push(view(&reply, request(3, start, quantity), random));
    }
    let mut any_numbers = reply;
    any_numbers[2..].fill_with(|| random.next() as u8);
    calls.push(view(&any_numbers, request(3, 0, count), random));
    calls
}

/// The stated views; start, quantity and their sum at and past their limits; other functions, some with a fault besides.
fn views_at_limits(random: &mut Random) -> Vec<Call> {
    let (reply, requests) = vectors::viewed_requests();
    let mut calls: Vec<Call> = requests.into_iter().map(|request| view(&reply, request, random)).collect();
    let reply = any_reply(random);
    let count = reply.len() / 2;
    for (start, quantity) in ranges_at_limits(count) {
        calls.push(view(&reply, request(3, start, quantity), random));
    }
    for function in [0, 1, 2, 4, 6, 16, 127, 128, 131, 255, random.next() as u8] {
        let (start, quantity) = random.pick(&[(0, 1), (0, 1), (0, 0), (0, 126), (count, 1), (65_535, 65_535)]);
        calls.push(view(&reply, request(function, start, quantity), random));
    }
    calls
}

/// Starts and quantities for so many registers: all pairs of limits, sums at the end, sums and numbers that 16 or 8 bits cut.
fn ranges_at_limits(count: usize) -> Vec<(usize, usize)> {
    let mut ranges = Vec::new();
    for start in [0, count - 1, count, 65_535] {
        ranges.extend([0, 1, 124, 125, 126, 127, 65_535].map(|quantity| (start, quantity)));
    }
    ranges.extend([(0, count), (0, count + 1), (1, count - 1), (1, count), (count - 2, 2), (count - 1, 2)]);
    ranges.extend([(65_536 - count, count), (256, 1), (32_768, 1), (0, 257), (0, 32_769)]);
    ranges
}
