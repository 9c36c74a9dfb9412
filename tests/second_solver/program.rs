//! What the programs share that compare the library with the second solver on fresh cases for some seconds.

use crate::random::{seed_of_clock, Random};
use crate::solver::Refused;
use crate::vectors;
use std::time::{Duration, Instant};

/// What a program compares and counts. An error tells a difference.
pub trait Comparison: Default {
    const NAME: &'static str;
    /// So many cases are made at least, as every branch has to be reached.
    const LEAST_CASES: u64;

    /// Makes what is stated, amid random elements of a seed.
    fn stated(&mut self, _seed: u64) -> Result<(), String> {
        Ok(())
    }
    /// Makes the case of a seed.
    fn case(&mut self, seed: u64) -> Result<(), String>;
    fn print(&self);
    /// Asserts that every refusal and every branch was reached.
    fn assert_complete(&self);
}

/// A refusal by the number that a call returns; none for 0.
pub fn refusal(number: u32) -> Option<Refused> {
    Some(Refused(number)).filter(|_| number > 0)
}

/// The same of a call that returns a length; none from 30 on.
pub fn refusal_or_length(number: u32) -> Option<Refused> {
    Some(Refused(number)).filter(|_| number < 30)
}

/// Makes a call by the library and by the solver in equal buffers. Gives the library's number and buffers, or an error that tells how
/// they differ; a refusal has to leave the buffers as they were.
pub fn compared<B: Clone + PartialEq>(
    before: &B,
    library: impl FnOnce(&mut B) -> u32,
    solver: impl FnOnce(&mut B) -> u32,
    refusal: impl FnOnce(u32) -> Option<Refused>,
    difference: impl FnOnce(&B, &B) -> String,
) -> Result<(u32, B), String> {
    let (mut by_library, mut by_solver) = (before.clone(), before.clone());
    let (number, expected) = (library(&mut by_library), solver(&mut by_solver));
    if refusal(expected).is_some() {
        by_solver = before.clone();
    }
    if number == expected && by_library == by_solver {
        return Ok((number, by_library));
    }
    Err(format!("the library returns {}, the solver {}\n{}", number, expected, difference(&by_library, &by_solver)))
}

fn exit_if_wrong(result: Result<(), String>, which: &str) {
    if let Err(text) = result {
        println!("{}\n{}", text.trim_end(), which);
        std::process::exit(1);
    }
}

fn case_or_exit<C: Comparison>(comparison: &mut C, seed: u64) {
    let repeat = format!("case seed {}: repeat it with `tests/second_solver/{} --case {}`", seed, C::NAME, seed);
    exit_if_wrong(comparison.case(seed), &repeat);
}

/// Makes what is stated, then cases of a seed for some seconds.
fn run_for<C: Comparison>(seconds: u64, seed: u64) {
    println!("seed {}", seed);
    let end = Instant::now() + Duration::from_secs(seconds);
    let mut comparison = C::default();
    let mut seeds = Random::new(seed);
    exit_if_wrong(comparison.stated(seed), "a stated case");
    let mut cases = 0;
    while Instant::now() < end || cases < C::LEAST_CASES {
        case_or_exit(&mut comparison, seeds.next());
        cases += 1;
    }
    comparison.print();
    comparison.assert_complete();
    println!("repeat this run with seed {}", seed);
}

/// The program: `NAME SECONDS [SEED]`, or `NAME --case SEED` to repeat one case.
pub fn run<C: Comparison>() {
    let arguments: Vec<String> = std::env::args().skip(1).collect();
    let arguments: Vec<&str> = arguments.iter().map(String::as_str).collect();
    let number = |text: &str| text.parse::<u64>().expect("a number");
    vectors::check();
    match arguments.as_slice() {
        ["--case", seed] => {
            let mut comparison = C::default();
            case_or_exit(&mut comparison, number(seed));
            comparison.print();
        }
        [seconds] => run_for::<C>(number(seconds), seed_of_clock()),
        [seconds, seed] => run_for::<C>(number(seconds), number(seed)),
        _ => panic!("usage: {} SECONDS [SEED], or {} --case SEED", C::NAME, C::NAME),
    }
}
