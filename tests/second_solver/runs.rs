//! Lists of operations on one run: cases stepped to their end, starts, advances and asks in any order, refused ones, other files
//! handed over, most of them with one byte changed, and contents that no start has made.

use crate::calls::Operation::{self, Advance, Ask, Put, Start};
use crate::damage;
use crate::generate::{capacity, largest_units, small_case};
use crate::outputs::any_case;
use crate::random::Random;
use crate::solver::{self, Case, Numbers, Run, EMPTY, GREATEST_IN_RUN, GREATEST_LENGTH, ZEROS};
use crate::vectors;

const GREATEST_AMOUNT: u64 = GREATEST_IN_RUN as u64;
/// The place of the length among a run's numbers, that of the first output, and how many numbers there are.
const LENGTH: usize = 8;
const FIRST_OUTPUT: usize = 9;
const NUMBERS: usize = ZEROS.len();

/// A kind of lists: its name, how often it is made for the runner's files, and how.
pub type Kind = (&'static str, usize, fn(&mut Random) -> Vec<Operation>);

pub const KINDS: [Kind; 14] = [
    ("stepped-vectors", 1, stepped_vectors),
    ("stepped-small-cases", 16, |random| stepped(&any_small_case(random), random)),
    ("stepped-cases", 14, |random| stepped(&any_case(random), random)),
    ("stepped-large-cases", 2, stepped_large_cases),
    ("listed-operations", 16, listed_operations),
    ("refused-operations", 1, refused_operations),
    ("other-cases", 8, other_cases),
    ("changed-bytes", 4, changed_bytes),
    ("files-of-1608-bytes", 1, greatest_files),
    ("mixed-cases", 16, mixed_cases),
    ("runs-about-limits", 1, runs_about_limits),
    ("lengths-about-limits", 2, lengths_about_limits),
    ("changed-runs", 40, changed_runs),
    ("random-runs", 1, random_runs),
];

// ---- cases

fn any_small_case(random: &mut Random) -> Case {
    let edition = random.pick(&solver::EDITIONS);
    small_case(random, edition)
}

/// A case of at least so many units that is dispatched.
fn large_case(least: usize, random: &mut Random) -> Case {
    loop {
        let case = any_case(random);
        if case.units.len() >= least && evaluations(&case) > 0 {
            return case;
        }
    }
}

/// A small case that is dispatched by at least so many evaluations.
fn long_case(edition: i128, least: i128, random: &mut Random) -> Case {
    loop {
        let case = small_case(random, edition);
        if evaluations(&case) >= least {
            return case;
        }
    }
}

/// How many evaluations a dispatch makes: none where it is refused.
fn evaluations(case: &Case) -> i128 {
    solver::solve(case).map_or(0, |reply| reply.evaluations)
}

/// Whether a start of a file is accepted.
fn is_started(file: &[u8]) -> bool {
    let Run { mut numbers, mut held } = EMPTY;
    solver::start(&mut numbers, &mut held, file).is_ok()
}

/// The numbers of a case's run after so many advances.
fn run_of(case: &Case, advances: i128) -> Numbers {
    let file = solver::encode(case);
    let Run { mut numbers, mut held } = EMPTY;
    solver::start(&mut numbers, &mut held, &file).expect("a case that is dispatched");
    for _ in 0..advances {
        solver::advance(&mut numbers, &held, &file).expect("a case that is dispatched");
    }
    numbers
}

/// Puts numbers into the run with the length of a file, and the file into the bytes that it holds.
fn put_with(numbers: Numbers, file: &[u8]) -> Operation {
    Put(with(numbers, &[(LENGTH, file.len() as u64)]), file.to_vec())
}

// ---- the kinds

/// The stated runs, asked after each advance, and the stated contents.
fn stepped_vectors(_random: &mut Random) -> Vec<Operation> {
    let mut list = vec![];
    for stepping in vectors::steppings() {
        let file = solver::encode(&stepping.case);
        list.extend([Put(ZEROS, vec![]), Ask, Advance(file.clone()), Start(file.clone()), Ask]);
        for _ in 0..=evaluations(&stepping.case) {
            list.extend([Advance(file.clone()), Ask]);
        }
    }
    let file = solver::encode(&vectors::u5());
    for (numbers, _) in vectors::changed_runs() {
        list.extend([Put(numbers, file.clone()), Ask, Advance(file.clone())]);
    }
    list.push(Put(ZEROS, vec![]));
    list.extend(vectors::watched().into_iter().map(|(operation, _, _)| operation));
    list
}

/// A case stepped to its end and further, asked now and then; from zeros, or from what the run held before.
fn stepped(case: &Case, random: &mut Random) -> Vec<Operation> {
    let file = solver::encode(case);
    let mut list = if random.chance(3) { vec![Put(ZEROS, vec![]), Advance(file.clone())] } else { vec![] };
    list.push(Start(file.clone()));
    for _ in 0..=evaluations(case) {
        if random.chance(4) {
            list.push(Ask);
        }
        list.push(Advance(file.clone()));
    }
    list.push(Ask);
    list
}

/// A case of eight units or more, and one of 32.
fn stepped_large_cases(random: &mut Random) -> Vec<Operation> {
    let cases = [8, 32].map(|least| large_case(least, random));
    cases.iter().flat_map(|case| stepped(case, random)).collect()
}

/// Operations in any order, most of them advances with the file of the last start; others have another case, the same with another
/// demand, or a file that is refused.
fn listed_operations(random: &mut Random) -> Vec<Operation> {
    let edition = random.pick(&solver::EDITIONS);
    let case = small_case(random, edition);
    let full = Case { demand: capacity(&case.units), ..case.clone() };
    let good = [case, full, any_small_case(random), any_small_case(random)].map(|case| solver::encode(&case));
    let refused = damage::refused_files(edition, random);
    let mut own = random.pick(&good);
    let mut list = if random.chance(2) { vec![Put(ZEROS, vec![])] } else { vec![] };
    for _ in 0..30 + random.below(20) {
        let operation = match random.below(24) {
            0 => Start(own.clone()),
            1 => {
                own = random.pick(&good);
                Start(own.clone())
            }
            2 => Start(random.pick(&refused)),
            3 => Advance(random.pick(&refused)),
            4 => Advance(random.pick(&good)),
            5..=8 => Ask,
            _ => Advance(own.clone()),
        };
        list.push(operation);
    }
    list
}

/// Files that are refused, with each number, from start and from advance: of zeros, of numbers that do not fit, of a started run and
/// of a finished one; and of runs that hold the file, started and finished. In both editions.
fn refused_operations(random: &mut Random) -> Vec<Operation> {
    let mut list = vec![];
    for edition in solver::EDITIONS {
        let case = long_case(edition, 3, random);
        let own = solver::encode(&case);
        let made = random.between(0, evaluations(&case) - 1);
        let [started, finished] = [made, evaluations(&case)].map(|advances| run_of(&case, advances));
        for numbers in [ZEROS, with(started, &[(0, 2)]), started, finished] {
            list.push(Put(numbers, own.clone()));
            for file in damage::refused_files(edition, random) {
                list.extend([Start(file.clone()), Advance(file)]);
            }
            list.extend([Ask, Advance(own.clone())]);
        }
        for numbers in [started, finished] {
            for file in damage::refused_files(edition, random) {
                list.extend([put_with(numbers, &file), Advance(file)]);
            }
        }
    }
    list
}

/// A run that is handed another case than its own, before and after it is finished, and then started with that.
fn other_cases(random: &mut Random) -> Vec<Operation> {
    let edition = random.pick(&solver::EDITIONS);
    let least = random.pick(&[1, 3, 18]);
    let case = long_case(edition, least, random);
    let (own, other) = (solver::encode(&case), solver::encode(&any_small_case(random)));
    let before = random.between(0, evaluations(&case)) as usize;
    let after = evaluations(&case) as usize - before;
    let mut list = vec![Start(own.clone())];
    list.extend(vec![Advance(own.clone()); before]);
    list.extend([Advance(other.clone()), Ask]);
    list.extend(vec![Advance(own.clone()); after]);
    list.extend([Advance(other.clone()), Advance(own.clone()), Start(other.clone()), Advance(own.clone())]);
    list.extend([Advance(other.clone()), Start(own.clone()), Advance(other), Start(own)]);
    list
}

/// Files that differ from one in a byte or two, or have a byte more or less.
fn changed_files(file: &[u8], random: &mut Random) -> Vec<Vec<u8>> {
    let units = usize::from(file[3]);
    let table = 8 + random.below(4 * units);
    let entry = 8 + 4 * (units - 1);
    let body = usize::from(u16::from_be_bytes([file[entry], file[entry + 1]]));
    let middle = body + random.below(file.len() - body - 1);
    let places = [random.below(8), 4 + random.below(4), table, middle, file.len() - 1];
    let mut files: Vec<Vec<u8>> = places.iter().map(|place| with_byte(file, *place, 1 << random.below(8))).collect();
    files.extend([with_byte(file, 7, 1), with_byte(file, body + 3, 1), with_byte(&with_byte(file, 7, 1), middle, 1)]);
    files.extend([[file, &[random.next() as u8]].concat(), file[..file.len() - 1].to_vec()]);
    files
}

fn with_byte(file: &[u8], place: usize, bits: u8) -> Vec<u8> {
    let mut changed = file.to_vec();
    changed[place] ^= bits;
    changed
}

/// A run handed files that differ from its own in a byte, by advances and by starts, from its start to its end and further: before
/// each of its own advances one, and all of them when it is finished.
fn changed_bytes(random: &mut Random) -> Vec<Operation> {
    let edition = random.pick(&solver::EDITIONS);
    let case = long_case(edition, random.pick(&[1, 3, 16]), random);
    let own = solver::encode(&case);
    let mut list = vec![Start(own.clone())];
    for file in changed_files(&own, random).into_iter().cycle().take(evaluations(&case) as usize) {
        list.extend([Advance(file.clone()), Advance(own.clone())]);
        if random.chance(4) {
            list.push(Ask);
        }
        if !is_started(&file) {
            list.push(Start(file));
        }
    }
    for file in changed_files(&own, random) {
        list.extend([Advance(file.clone()), Ask, Advance(own.clone()), Start(file.clone()), Advance(own.clone())]);
        if is_started(&file) {
            list.extend([Advance(file), Start(own.clone())]);
            list.extend(vec![Advance(own.clone()); evaluations(&case) as usize]);
        }
    }
    list
}

/// A file of the greatest length, its last byte changed, one byte more and one less; then a short file, with the long one's bytes
/// behind it, and the long one again.
fn greatest_files(random: &mut Random) -> Vec<Operation> {
    let units = largest_units(random, 2);
    let demand = capacity(&units) / 2;
    let long = solver::encode(&Case { edition: 2, demand, units });
    assert_eq!(long.len(), GREATEST_LENGTH);
    let changed = with_byte(&long, GREATEST_LENGTH - 1, 1);
    let (more, less) = ([&long[..], &[0]].concat(), long[..GREATEST_LENGTH - 1].to_vec());
    let short = solver::encode(&any_small_case(random));
    let continued = long[..=short.len()].to_vec();
    let mut list = vec![Start(long.clone()), Advance(long.clone()), Advance(changed), Ask, Advance(more), Advance(less)];
    list.extend([Advance(long.clone()), Start(short.clone()), Advance(short.clone()), Advance(continued), Advance(long.clone())]);
    list.extend([Advance([&short[..], &long[short.len()..=short.len()]].concat()), Advance(short), Start(long.clone()), Advance(long)]);
    list
}

/// The numbers of one case's run with the file of another, advanced.
fn mixed_cases(random: &mut Random) -> Vec<Operation> {
    let edition = random.pick(&solver::EDITIONS);
    let least = random.pick(&[1, 3, 18]);
    let case = long_case(edition, least, random);
    let other = solver::encode(&any_small_case(random));
    let before = random.between(0, evaluations(&case));
    let mut list = vec![put_with(run_of(&case, before), &other), Ask];
    list.extend(vec![Advance(other); 1 + random.below(6)]);
    list.push(Ask);
    list
}

/// A run of which each number, or two that belong together, is at a limit of rule 22.4 or past it; asked and advanced.
fn runs_about_limits(random: &mut Random) -> Vec<Operation> {
    let edition = random.pick(&solver::EDITIONS);
    let case = long_case(edition, 18, random);
    let file = solver::encode(&case);
    let numbers = run_of(&case, random.between(0, 2));
    let changed = |changes: Vec<(usize, u64)>| [Put(with(numbers, &changes), file.clone()), Ask, Advance(file.clone())];
    changes_about_limits().into_iter().flat_map(changed).collect()
}

fn with(mut numbers: Numbers, changes: &[(usize, u64)]) -> Numbers {
    for (place, number) in changes {
        numbers[*place] = *number;
    }
    numbers
}

/// Places of a run and the numbers there.
fn changes_about_limits() -> Vec<Vec<(usize, u64)>> {
    let long = 1 << 32;
    let mut changes = vec![];
    for number in [0, 2, long + 1, u64::MAX] {
        changes.extend([vec![(0, number)], vec![(1, number)]]);
    }
    for number in [0, 17, 18, 19, 65_536 + 2, long + 2, u64::MAX] {
        changes.extend([vec![(1, 0), (2, number), (3, 0)], vec![(1, 1), (2, number)]]);
    }
    for (made, low) in (0..=18).flat_map(|made| lows_about_limits(made).into_iter().map(move |low| (made, low))) {
        changes.push(vec![(1, 0), (2, made), (3, low)]);
    }
    changes.push(vec![(1, 1), (2, 18), (3, u64::MAX)]);
    for place in 4..7 {
        changes.extend([GREATEST_AMOUNT, GREATEST_AMOUNT + 1, 1 << 63, u64::MAX].map(|number| vec![(place, number)]));
    }
    changes.extend([0, 1, 32, 33, 65_537, long + 1, u64::MAX].map(|count| vec![(7, count)]));
    for place in FIRST_OUTPUT..NUMBERS {
        changes.extend([10_000, 10_001].map(|output| vec![(place, output)]));
    }
    for place in [FIRST_OUTPUT, NUMBERS - 1] {
        changes.extend([65_536, long, u64::MAX].map(|output| vec![(place, output)]));
    }
    changes
}

/// Numbers that are the greatest low after so many evaluations, or not; and one that would be if 64 bits were all.
fn lows_about_limits(made: u64) -> Vec<u64> {
    let width = 1 << (18 - made);
    let wrapping = u64::MAX - width + 2;
    let mut lows = vec![1, wrapping];
    if width <= 65_536 {
        lows.extend([65_536 - width, 65_537 - width]);
    }
    lows
}

/// Lengths that are about the file's or about the greatest, with any bytes behind the file: asked, advanced with the file, with the
/// bytes of that length and with one more of those that are held; the run under way, and finished.
fn lengths_about_limits(random: &mut Random) -> Vec<Operation> {
    let edition = random.pick(&solver::EDITIONS);
    let case = long_case(edition, 3, random);
    let file = solver::encode(&case);
    let own = file.len() as u64;
    let most = GREATEST_LENGTH as u64;
    let mut held: Vec<u8> = (0..GREATEST_LENGTH).map(|_| random.next() as u8).collect();
    held[..file.len()].copy_from_slice(&file);
    let mut list = vec![];
    for advances in [random.between(0, 2), evaluations(&case)] {
        let numbers = run_of(&case, advances);
        list.push(Put(numbers, held.clone()));
        for length in [own, own - 1, own + 1, 0, 1, 7, most - 1, most, most + 1, 65_536 + own, (1 << 32) + own, u64::MAX] {
            let [same, more] = [length, length.saturating_add(1)].map(|length| held[..length.min(most) as usize].to_vec());
            list.extend([Put(with(numbers, &[(LENGTH, length)]), vec![]), Ask, Advance(file.clone()), Advance(same), Advance(more)]);
        }
    }
    list
}

/// A run of a small case, with one number to three changed by a little or at random, and at times a byte of its file; asked, advanced
/// and at times started.
fn changed_runs(random: &mut Random) -> Vec<Operation> {
    let edition = random.pick(&solver::EDITIONS);
    let case = long_case(edition, 1, random);
    let file = solver::encode(&case);
    let mut numbers = run_of(&case, random.between(0, evaluations(&case)));
    for _ in 0..random.pick(&[1, 1, 2, 3]) {
        let place = random.below(13);
        numbers[place] = changed(numbers[place], random);
    }
    let other = changed_files(&file, random);
    let held = if random.chance(4) { random.pick(&other) } else { file.clone() };
    let mut list = vec![Put(numbers, held.clone()), Ask, Advance(file.clone()), Ask, Advance(held)];
    if random.chance(4) {
        list.extend([Start(file.clone()), Advance(file)]);
    }
    list
}

fn changed(number: u64, random: &mut Random) -> u64 {
    let (small, any, bit) = (random.next() % 20, random.next() % GREATEST_AMOUNT, 1 << random.below(64));
    random.pick(&[number.wrapping_add(1), number.wrapping_sub(1), number ^ bit, small, small, any])
}

/// Numbers of all sizes, of up to 64 bits, all ones, and numbers that fit together, most of them with a file that is held.
fn random_runs(random: &mut Random) -> Vec<Operation> {
    let mut runs = vec![[u64::MAX; NUMBERS], [1; NUMBERS]];
    for bits in [64, 48, 16, 13, 8, 1] {
        runs.push(ZEROS.map(|_| random.next() >> (64 - bits)));
        runs.push(with(ZEROS.map(|_| random.next() >> (64 - bits)), &[(0, 1), (1, 1)]));
    }
    runs.extend((0..40).map(|_| fitting_numbers(random)));
    let mut list = vec![];
    for numbers in runs {
        let file = solver::encode(&any_small_case(random));
        let held = (0..random.below(GREATEST_LENGTH / 8)).map(|_| random.next() as u8).collect();
        let put = if random.chance(4) { Put(numbers, held) } else { put_with(numbers, &file) };
        list.extend([put, Ask, Advance(file.clone()), Advance(file)]);
    }
    list
}

/// The numbers of any started run.
fn fitting_numbers(random: &mut Random) -> Numbers {
    let mut numbers = ZEROS.map(|_| random.next() % 10_001);
    let finished = u64::from(random.chance(5));
    let made = random.next() % (18 + finished);
    let widest = 65_536_u64.saturating_sub(1 << (18 - made));
    let low = if finished == 1 { random.next() } else { random.next() % (widest + 1) };
    numbers[..4].copy_from_slice(&[1, finished, made, low]);
    for amount in &mut numbers[4..7] {
        *amount = random.next() % (1 << random.pick(&[1, 16, 20, 45]));
    }
    numbers[7] = 1 + random.next() % 32;
    numbers[LENGTH] = random.next() % (GREATEST_LENGTH as u64 + 1);
    numbers
}
