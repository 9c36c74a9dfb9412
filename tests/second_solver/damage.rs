//! Damaged files, rows and views: fields at and past their limits, faults of every number, and two faults at once.

use crate::calls::Call;
use crate::generate::{any_reply, calls_of_file, greatest_b1, pack, request, small_case, small_unit, with_demand};
use crate::random::Random;
use crate::solver::{self, Case, Unit};

/// The greatest values of the numbers of a row, by index; the rest have limits of their own.
const LIMITS: [(usize, u32); 9] =
    [(0, 1_000_000_000), (1, 10_000_000), (2, 1_000), (3, 5_000), (5, 10_000), (6, 10_000), (7, 10_000), (8, 10_000), (9, 1)];

const B: usize = 3;
const LEAST: usize = 4;
const GREATEST: usize = 5;
const ZONE_COUNT: usize = 10;
const FIRST_EDGE: usize = 11;
/// No row has it: the index of b1 follows those of a row.
const B1: usize = 19;

// ---- one number of a file or of rows

fn set(file: &mut [u8], at: usize, width: usize, value: u32) {
    file[at..at + width].copy_from_slice(&value.to_be_bytes()[4 - width..]);
}

fn get(file: &[u8], at: usize) -> u32 {
    u32::from(file[at]) * 256 + u32::from(file[at + 1])
}

/// Sets the number of a body that has this index in a row, or b1.
fn set_in_body(file: &mut [u8], unit: usize, index: usize, value: u32) {
    let body = get(file, 8 + 4 * unit) as usize;
    let added = if get(file, 0) == 2 { 4 } else { 0 };
    match index {
        0 | 1 => set(file, body + 4 * index, 4, value),
        B1 => set(file, body + 26, 4, value),
        FIRST_EDGE.. => set(file, body + 4 + 2 * index + added, 2, value),
        _ => set(file, body + 4 + 2 * index, 2, value),
    }
}

/// One changed number of a unit.
#[derive(Clone, Copy)]
struct Change {
    unit: usize,
    index: usize,
    value: u32,
}

fn changed_file(case: &Case, changes: &[Change]) -> Vec<u8> {
    let mut file = solver::encode(case);
    for change in changes {
        set_in_body(&mut file, change.unit, change.index, change.value);
    }
    file
}

fn changed_rows(case: &Case, changes: &[Change]) -> Vec<u32> {
    let mut rows = solver::rows_of(case);
    for change in changes {
        rows[19 * change.unit + change.index] = change.value;
    }
    rows
}

fn pack_rows(case: &Case, rows: Vec<u32>) -> Call {
    Call::Pack { demand: case.demand as u32, rows, room: 1_600 }
}

/// Three small units, each with a zone.
pub fn base(random: &mut Random, edition: i128) -> Case {
    let units = (0..3).map(|_| zoned_unit(random, edition)).collect();
    with_demand(units, edition, random)
}

fn zoned_unit(random: &mut Random, edition: i128) -> Unit {
    loop {
        let unit = small_unit(random, edition);
        if !unit.zones.is_empty() {
            return unit;
        }
    }
}

fn unit_of_most_zones(case: &Case) -> usize {
    (0..case.units.len()).max_by_key(|unit| case.units[*unit].zones.len()).expect("a unit")
}

// ---- every field

/// Each number of a row just at and just past its limits.
pub fn fields_at_limits(random: &mut Random, edition: i128) -> Vec<Call> {
    let case = base(random, edition);
    let unit = unit_of_most_zones(&case);
    let mut calls = Vec::new();
    for change in at_limits(&case, unit) {
        calls.extend(calls_of_file(&changed_file(&case, &[change]), random));
        if edition == 1 {
            calls.push(pack_rows(&case, changed_rows(&case, &[change])));
        }
    }
    calls
}

fn at_limits(case: &Case, unit: usize) -> Vec<Change> {
    let change = |index: usize, value: u32| Change { unit, index, value };
    let mut changes = vec![change(LEAST, 0), change(LEAST, 1)];
    for (index, limit) in LIMITS {
        changes.push(change(index, limit));
        changes.push(change(index, limit + 1));
    }
    let zones = case.units[unit].zones.len() as u32;
    for count in [zones - 1, zones + 1, 5, 65_535] {
        changes.push(change(ZONE_COUNT, count));
    }
    let values = solver::limits_and_edges(&case.units[unit]);
    let mut indices = vec![LEAST];
    indices.extend(FIRST_EDGE..FIRST_EDGE + 2 * zones as usize);
    indices.push(GREATEST);
    for (before, index) in values.iter().zip(&indices[1..]) {
        changes.push(change(*index, *before as u32));
        changes.push(change(*index, *before as u32 + 1));
    }
    changes
}

/// b1 at its limits, past them and far past them, and the most that b and b1 may be together.
pub fn losses_at_limits(random: &mut Random) -> Vec<Call> {
    let case = base(random, 2);
    let unit = random.below(3);
    let mut calls = Vec::new();
    for (b, b1) in losses_about_limits() {
        let changes = [Change { unit, index: B, value: b }, Change { unit, index: B1, value: b1 as u32 }];
        calls.extend(calls_of_file(&changed_file(&case, &changes), random));
    }
    calls
}

fn losses_about_limits() -> Vec<(u32, i32)> {
    let mut losses: Vec<(u32, i32)> = Vec::new();
    for b in [0, 1, 4_500] {
        losses.extend([-10_000_000, -10_000_001, 10_000_000, 10_000_001, i32::MIN, i32::MAX].map(|b1| (b, b1)));
    }
    for b in [4_501, 4_999, 5_000] {
        let most = greatest_b1(i128::from(b)) as i32;
        losses.extend([-10_000_000, -10_000_001, -1, 0, most, most + 1, 10_000_000, i32::MIN, i32::MAX].map(|b1| (b, b1)));
    }
    losses
}

/// Edition, count and demand at and past their limits.
pub fn head_at_limits(random: &mut Random, edition: i128) -> Vec<Call> {
    let file = solver::encode(&small_case(random, edition));
    let fields: [(usize, usize, &[u32]); 3] = [
        (0, 2, &[0, 1, 2, 3, 256, 257, 258, 512, 65_535]),
        (2, 2, &[0, 1, 32, 33, 256, 65_535]),
        (4, 4, &[320_000, 320_001, 16_777_216, u32::MAX]),
    ];
    let mut calls = Vec::new();
    for (at, width, values) in fields {
        for value in values {
            let mut changed = file.clone();
            set(&mut changed, at, width, *value);
            calls.extend(calls_of_file(&changed, random));
        }
    }
    calls
}

// ---- lengths and contents

pub fn cut_and_padded(random: &mut Random, edition: i128) -> Vec<Call> {
    let case = small_case(random, edition);
    let file = solver::encode(&case);
    let contents_end = 8 + 4 * case.units.len();
    let mut lengths = vec![0, 1, 7, 8, contents_end - 1, contents_end, file.len() - 1, file.len() - 2];
    lengths.push(random.below(file.len()));
    lengths.extend([file.len() + 1, file.len() + 26, 1_480, 1_481, 1_608, 1_609, 2_560]);
    let mut calls = Vec::new();
    for length in lengths {
        let mut changed = file.clone();
        changed.resize(length, random.pick(&[0, 255]));
        calls.extend(calls_of_file(&changed, random));
    }
    calls
}

/// Entries that name other places than the bodies', and bodies of other lengths than their entries'.
pub fn wrong_contents(random: &mut Random, edition: i128) -> Vec<Call> {
    let case = base(random, edition);
    let unit = random.below(3);
    let file = solver::encode(&case);
    let entry = 8 + 4 * unit;
    let (offset, length) = (get(&file, entry), get(&file, entry + 2));
    let mut changes: Vec<(usize, u32)> =
        [0, 8, offset - 1, offset + 1, offset * 256, 65_535].map(|value| (entry, value)).to_vec();
    changes.extend([0, 22, 26, 27, 30, 34, 38, 42, 46, 50, length - 1, length + 4, 65_535].map(|value| (entry + 2, value)));
    let mut files: Vec<Vec<u8>> = Vec::new();
    for (at, value) in changes {
        let mut changed = file.clone();
        set(&mut changed, at, 2, value);
        files.push(changed);
    }
    files.extend([swapped_entries(&file), shifted_end_of_first_body(&file), unit_more_than_bodies(&file)]);
    files.push(with_gap_before(&file, unit));
    files.extend([22, 25, 26, 27, 28, 30, 46, 50].map(|length| with_last_body_of(&file, length)));
    // the shortest body of edition 1 and the longest of edition 2, alone in their files
    let alone = solver::encode(&Case { units: vec![case.units[unit].clone()], ..case });
    files.extend([26, 46].map(|length| with_last_body_of(&alone, length)));
    files.iter().flat_map(|file| calls_of_file(file, random)).collect()
}

fn swapped_entries(file: &[u8]) -> Vec<u8> {
    let mut file = file.to_vec();
    let (first, second) = file[8..16].split_at_mut(4);
    first.swap_with_slice(second);
    file
}

/// The first body ends four bytes later than its zones do; the contents are as they must be.
fn shifted_end_of_first_body(file: &[u8]) -> Vec<u8> {
    let mut file = file.to_vec();
    let (length, offset, other) = (get(&file, 10), get(&file, 12), get(&file, 14));
    set(&mut file, 10, 2, length + 4);
    set(&mut file, 12, 2, offset + 4);
    set(&mut file, 14, 2, other - 4);
    file
}

/// Four bytes that belong to no body stand before a body; the entries name the bodies where they are.
fn with_gap_before(file: &[u8], unit: usize) -> Vec<u8> {
    let mut file = file.to_vec();
    let gap = get(&file, 8 + 4 * unit) as usize;
    for moved in unit..get(&file, 2) as usize {
        let offset = get(&file, 8 + 4 * moved);
        set(&mut file, 8 + 4 * moved, 2, offset + 4);
    }
    file.splice(gap..gap, [0; 4]);
    file
}

/// The last body has this length, and the contents and the file's end agree with it.
fn with_last_body_of(file: &[u8], length: u32) -> Vec<u8> {
    let mut file = file.to_vec();
    let entry = 4 + 4 * get(&file, 2) as usize;
    set(&mut file, entry + 2, 2, length);
    let offset = get(&file, entry);
    file.resize((offset + length) as usize, 0);
    file
}

fn unit_more_than_bodies(file: &[u8]) -> Vec<u8> {
    let mut file = file.to_vec();
    let count = get(&file, 2);
    set(&mut file, 2, 2, count + 1);
    file
}

// ---- bytes

/// A field with its bytes swapped, all edges of a unit with swapped bytes, and some changed bytes.
pub fn swapped_and_changed_bytes(random: &mut Random, edition: i128) -> Vec<Call> {
    let case = base(random, edition);
    let file = solver::encode(&case);
    let mut field_swapped = file.clone();
    let at = 2 * random.below(file.len() / 2);
    field_swapped.swap(at, at + 1);
    let mut changed = file.clone();
    for _ in 0..random.pick(&[1, 1, 2, 3]) {
        changed[random.below(file.len())] = random.next() as u8;
    }
    let mut bit_changed = file.clone();
    bit_changed[random.below(file.len())] ^= 1 << random.below(8);
    let files = [field_swapped, edges_swapped(&case, random.below(3)), changed, bit_changed];
    files.iter().flat_map(|file| calls_of_file(file, random)).collect()
}

fn edges_swapped(case: &Case, unit: usize) -> Vec<u8> {
    let mut case = case.clone();
    let swapped = |value: i128| i128::from((value as u16).swap_bytes());
    for (lower, upper) in &mut case.units[unit].zones {
        *lower = swapped(*lower);
        *upper = swapped(*upper);
    }
    solver::encode(&case)
}

// ---- two faults

/// The numbers with which a unit is refused, in the order of checking. No unit of edition 1 is refused with 18.
fn numbers_of_units(edition: i128) -> &'static [u32] {
    if edition == 2 {
        &[7, 8, 18, 9, 10]
    } else {
        &[7, 8, 9, 10]
    }
}

/// Changes of a unit that is then refused with this number, one of `numbers_of_units`.
fn fault(number: u32, unit: usize, random: &mut Random) -> Vec<Change> {
    let past = |limits: &[(usize, u32)], random: &mut Random| {
        let (index, limit) = random.pick(limits);
        (index, limit + 1)
    };
    let values = match number {
        7 => vec![(ZONE_COUNT, 5)],
        8 => vec![past(&LIMITS[..4], random)],
        18 => excessive_losses(random),
        9 => vec![random.pick(&[(LEAST, 0), (LEAST, 10_000), (GREATEST, 0), (GREATEST, 10_001), (FIRST_EDGE, 0)])],
        _ => vec![past(&LIMITS[5..], random)],
    };
    values.into_iter().map(|(index, value)| Change { unit, index, value }).collect()
}

/// A b1 below its range, one above it, or one that is too great beside its b alone.
fn excessive_losses(random: &mut Random) -> Vec<(usize, u32)> {
    let b = random.between(4_501, 5_000);
    let beside_b = vec![(B, b as u32), (B1, greatest_b1(b) as u32 + 1)];
    random.pick(&[vec![(B1, -10_000_001_i32 as u32)], vec![(B1, 10_000_001)], beside_b])
}

/// Damages a file so that it is refused with this number, 2 to 6.
fn damage_file(file: &mut Vec<u8>, number: u32, random: &mut Random) {
    match number {
        2 => file.truncate(random.below(8)),
        3 => set(file, 0, 2, random.pick(&[0, 3, 256])),
        4 => set(file, 2, 2, random.pick(&[0, 33, 65_535])),
        5 => set(file, 4, 4, random.pick(&[320_001, u32::MAX])),
        _ => file.push(0),
    }
}

/// Two faults of different places, of one unit, and of two units in either order.
pub fn two_faults(random: &mut Random, edition: i128) -> Vec<Call> {
    let case = base(random, edition);
    let numbers = numbers_of_units(edition);
    let mut calls = Vec::new();
    for first in 2..=6 {
        for second in (first + 1..=6).chain(numbers.iter().copied()) {
            let mut file = damaged_by(&case, second, random);
            damage_file(&mut file, first, random);
            calls.push(any_call_of_file(&file, edition, random));
        }
    }
    for (place, first) in numbers.iter().enumerate() {
        for (other_place, second) in numbers.iter().enumerate() {
            let (unit, other) = random.pick(&[(0, 1), (0, 2), (1, 2)]);
            calls.extend(two_changes(&case, (*first, unit), (*second, other), random));
            if place < other_place {
                calls.extend(two_changes(&case, (*first, unit), (*second, unit), random));
            }
        }
    }
    calls
}

fn damaged_by(case: &Case, number: u32, random: &mut Random) -> Vec<u8> {
    if number >= 7 {
        return changed_file(case, &fault(number, random.below(3), random));
    }
    let mut file = solver::encode(case);
    damage_file(&mut file, number, random);
    file
}

/// Files of three units, one that is refused with each number from 2 to 10 and, in edition 2, 18; and two that are with 11: for their
/// demand, and for a unit that must run and cannot.
pub fn refused_files(edition: i128, random: &mut Random) -> Vec<Vec<u8>> {
    let case = base(random, edition);
    let mut files: Vec<Vec<u8>> = (2..=6).map(|number| damaged_by(&case, number, random)).collect();
    for number in numbers_of_units(edition) {
        files.push(damaged_by(&case, *number, random));
    }
    files.push(solver::encode(&Case { demand: 320_000, ..case.clone() }));
    let mut stuck = case;
    let unit = &mut stuck.units[random.below(3)];
    *unit = Unit { mark: 1, ..unable_to_run(unit) };
    files.push(solver::encode(&stuck));
    files
}

/// A small unit with a ramp window that is outside of its limits.
pub fn unable_to_run(unit: &Unit) -> Unit {
    let previous = if unit.greatest < 10_000 { unit.greatest + 1 } else { unit.least - 1 };
    Unit { previous, up: 0, down: 0, ..unit.clone() }
}

/// A file, and in edition 1 rows, with two faults, each a number and a unit. Where both set one number of a unit, the first has it.
fn two_changes(case: &Case, first: (u32, usize), second: (u32, usize), random: &mut Random) -> Vec<Call> {
    let of_first = fault(first.0, first.1, random);
    let changes = [fault(second.0, second.1, random), of_first].concat();
    let mut calls = vec![any_call_of_file(&changed_file(case, &changes), case.edition, random)];
    if case.edition == 1 {
        calls.push(pack_rows(case, changed_rows(case, &changes)));
    }
    calls
}

/// A call on a file. No unpacking where it is of edition 2: that looks at nothing behind the edition.
fn any_call_of_file(file: &[u8], edition: i128, random: &mut Random) -> Call {
    let calls = calls_of_file(file, random);
    let takers = if edition == 2 { &calls[..2] } else { &calls[..] };
    random.pick(takers)
}

/// Unpacking of each edition, and of numbers that are none: of a whole file, of files with a fault behind the edition or before
/// it, with enough room and with too little.
pub fn unpacked_editions(random: &mut Random) -> Vec<Call> {
    let mut calls = Vec::new();
    for edition in [0, 1, 2, 3, 512] {
        let case = Case { edition, ..base(random, 2) };
        let mut files = vec![solver::encode(&case)];
        for number in [2, 4, 5, 6].iter().chain(numbers_of_units(edition)) {
            files.push(damaged_by(&case, *number, random));
        }
        for file in files {
            calls.push(Call::Unpack { file: file.clone(), room: 608 });
            calls.push(Call::Unpack { file, room: 607 });
        }
    }
    calls
}

// ---- rows

pub fn damaged_rows(random: &mut Random) -> Vec<Call> {
    let case = base(random, 1);
    let mut calls = wrong_row_counts(&case, random);
    calls.extend(beyond_the_fields(&case, random));
    calls.extend(unused_edges(&case, random));
    calls.extend(two_faults_of_packing(&case, random));
    calls.push(pack(&case, random));
    calls
}

/// Lists of rows of every wrong length, first with rows that are right and then with wrong rows and demand.
fn wrong_row_counts(case: &Case, random: &mut Random) -> Vec<Call> {
    let rows: Vec<u32> = solver::rows_of(case).into_iter().cycle().take(640).collect();
    let mut calls = Vec::new();
    for length in [0, 1, 18, 20, 37, 607, 608, 609, 627, 640] {
        calls.push(pack_rows(case, rows[..length].to_vec()));
    }
    for length in [0, 18, 20, 627] {
        let wrong = vec![u32::MAX; length];
        let demand = random.pick(&[0, u32::MAX]);
        calls.push(Call::Pack { demand, rows: wrong, room: 0 });
    }
    calls
}

/// Numbers that a field of 16 bits would cut to a legal value, and the greatest numbers of 32 bits.
fn beyond_the_fields(case: &Case, random: &mut Random) -> Vec<Call> {
    let unit = random.below(3);
    let rows = solver::rows_of(case);
    let mut calls = Vec::new();
    for index in 0..FIRST_EDGE + 2 * case.units[unit].zones.len() {
        let value = rows[19 * unit + index];
        let beyond = if index < 2 { u32::MAX } else { value + 65_536 };
        calls.push(pack_rows(case, changed_rows(case, &[Change { unit, index, value: beyond }])));
    }
    calls
}

/// A unit of no to three zones with a number behind them that is not zero, and zone counts that do not fit the edges.
fn unused_edges(case: &Case, random: &mut Random) -> Vec<Call> {
    let unit = random.below(3);
    let mut case = case.clone();
    case.units[unit].zones.truncate(random.below(4));
    let mut calls = Vec::new();
    for index in FIRST_EDGE + 2 * case.units[unit].zones.len()..19 {
        let value = random.pick(&[1, 65_536, u32::MAX]);
        calls.push(pack_rows(&case, changed_rows(&case, &[Change { unit, index, value }])));
    }
    for value in [0, 2, 5, 65_536, 65_537, u32::MAX] {
        calls.push(pack_rows(&case, changed_rows(&case, &[Change { unit, index: ZONE_COUNT, value }])));
    }
    calls
}

/// 12, 5, a fault of a row, and 13, by twos.
fn two_faults_of_packing(case: &Case, random: &mut Random) -> Vec<Call> {
    let demand = case.demand as u32;
    let rows = solver::rows_of(case);
    let short = rows[..rows.len() - 1].to_vec();
    let mut calls = vec![
        Call::Pack { demand: 320_001, rows: short.clone(), room: 1_600 },
        Call::Pack { demand, rows: short, room: 0 },
        Call::Pack { demand: 320_001, rows: rows.clone(), room: 0 },
        Call::Pack { demand: 320_001, rows: rows.clone(), room: 1_600 },
        Call::Pack { demand: 320_000, rows, room: 1_600 },
    ];
    for number in 7..=10 {
        let wrong = changed_rows(case, &fault(number, random.below(3), random));
        calls.push(Call::Pack { demand: 320_001, rows: wrong.clone(), room: 1_600 });
        calls.push(Call::Pack { demand, rows: wrong, room: 0 });
    }
    calls
}

// ---- views

/// Replies, requests and rooms that are refused, or just not, alone and together.
pub fn damaged_views(random: &mut Random) -> Vec<Call> {
    let reply = any_reply(random);
    let good = request(3, random.below(reply.len() / 2), 1);
    let mut calls = Vec::new();
    for damaged in damaged_replies(&reply, random) {
        calls.push(Call::View { reply: damaged, request: good.clone(), room: 252 });
    }
    for length in [0, 1, 4, 6, 8, 10] {
        calls.push(Call::View { reply: reply.clone(), request: resized(&good, length, random), room: 252 });
    }
    let request_of_exception = random.pick(&[request(4, 0, 1), request(3, 0, 0), request(3, 65_535, 1)]);
    for room in [0, 94, 251, 252, 253] {
        calls.push(Call::View { reply: reply.clone(), request: good.clone(), room });
        calls.push(Call::View { reply: reply.clone(), request: request_of_exception.clone(), room });
    }
    calls.extend(faults_of_views(&reply, &good, random));
    calls
}

fn resized(bytes: &[u8], length: usize, random: &mut Random) -> Vec<u8> {
    let mut bytes = bytes.to_vec();
    bytes.resize(length, random.pick(&[0, 3, 255]));
    bytes
}

/// Replies cut and padded, and with another n, of their own length and of the one that fits this n.
fn damaged_replies(reply: &[u8], random: &mut Random) -> Vec<Vec<u8>> {
    let (length, units) = (reply.len(), get(reply, 0));
    let mut replies: Vec<Vec<u8>> = Vec::new();
    for length in [0, 1, 2, 27, 28, length - 2, length - 1, length + 1, length + 2, 92, 94, length + 256] {
        replies.push(resized(reply, length, random));
    }
    for count in [0, units - 1, units + 1, 33, 256 + units, 256 * units, 65_535] {
        let mut changed = reply.to_vec();
        set(&mut changed, 0, 2, count);
        replies.push(changed);
    }
    for count in [0, 1, 32, 33, 256 + units] {
        let mut fitting = resized(reply, 28 + 2 * count as usize, random);
        set(&mut fitting, 0, 2, count);
        replies.push(fitting);
    }
    replies
}

/// 15, 16 and 17, each two of them and all; and each with a request that gives an exception.
fn faults_of_views(reply: &[u8], good: &[u8], random: &mut Random) -> Vec<Call> {
    let damaged = reply[..reply.len() - random.pick(&[1, 2, 28])].to_vec();
    let short = good[..random.below(5)].to_vec();
    let room = random.pick(&[0, 94, 251]);
    let exception = request(131, 65_535, 0);
    let faults = [
        (damaged.clone(), short.clone(), 252),
        (damaged.clone(), good.to_vec(), room),
        (reply.to_vec(), short.clone(), room),
        (damaged.clone(), short, room),
        (damaged, exception.clone(), 252),
        (reply.to_vec(), [exception.clone(), vec![0]].concat(), 252),
        (reply.to_vec(), exception, room),
    ];
    faults.into_iter().map(|(reply, request, room)| Call::View { reply, request, room }).collect()
}
