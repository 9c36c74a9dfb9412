//! Compares the library's search within a budget with the second solver on fresh cases: `refines SECONDS [SEED]`, or
//! `refines --case SEED` to repeat one case. Answers and whole buffers have to be equal, with what lies before and behind the lent
//! parts; the view has to refuse each reply; and what is promised is checked, of small cases by brute force.

use second_solver::budgeted::{Budgeted, Seen};
use second_solver::budgets::{stated, KINDS};
use second_solver::calls::Refine;
use second_solver::hex;
use second_solver::lent::{difference_of, random_byte, random_i64, Lent};
use second_solver::library::{self, shahfureel_refine, shahfureel_view};
use second_solver::misread;
use second_solver::program::{self, compared, refusal, refusal_or_length, Comparison};
use second_solver::promise::{self, Refinements};
use second_solver::random::Random;
use second_solver::refined::{self, Search, PAPER};
use second_solver::solver::{self, Refused};
use second_solver::tally::{Numbers, POSSIBLE_OF_REFINES};

const MOST_ALLOCATIONS: usize = 20_000;
/// A request for the first register.
const REQUEST: [u8; 5] = [3, 0, 0, 0, 1];

// ---- lent buffers

#[derive(Clone, Debug, PartialEq)]
struct Buffers {
    file: Lent<u8>,
    reply: Lent<u8>,
}

impl Buffers {
    fn new(call: &Refine, random: &mut Random) -> Buffers {
        let file = Lent::holding(&call.file, random, random_byte);
        Buffers { file, reply: Lent::random(call.room, random, random_byte) }
    }
}

/// What the view is lent: a reply, and room for its answer.
#[derive(Clone, Debug, PartialEq)]
struct Viewed {
    reply: Lent<u8>,
    answer: Lent<u8>,
    lengths: Lent<i64>,
}

// ---- both answers

fn library_answer(call: &Refine, buffers: &mut Buffers) -> u32 {
    let (file, reply) = (buffers.file.part(), buffers.reply.part());
    // Each pointer is that of a part of a list that lives on, with the part's length; no two parts overlap.
    unsafe { shahfureel_refine(file.as_ptr(), file.len(), call.budget, reply.as_mut_ptr(), reply.len()) }
}

fn library_view(viewed: &mut Viewed) -> u32 {
    let (reply, answer, lengths) = (viewed.reply.part(), viewed.answer.part(), viewed.lengths.part());
    // As above.
    unsafe {
        shahfureel_view(
            reply.as_ptr(),
            reply.len(),
            REQUEST.as_ptr(),
            REQUEST.len(),
            answer.as_mut_ptr(),
            answer.len(),
            lengths.as_mut_ptr(),
            lengths.len(),
        )
    }
}

fn solver_view(viewed: &mut Viewed) -> u32 {
    solver::panel_view(viewed.reply.part(), &REQUEST, viewed.answer.part(), viewed.lengths.part())
}

// ---- comparing

/// Makes one call both ways. Gives the library's answer and buffers, or an error that tells the difference.
fn compare(call: &Refine, by_solver: &Result<Search, Refused>, random: &mut Random) -> Result<(u32, Buffers), String> {
    let before = Buffers::new(call, random);
    let solver_answer = |buffers: &mut Buffers| refined::panel_refine(by_solver, buffers.reply.part());
    compared(&before, |buffers| library_answer(call, buffers), solver_answer, refusal_or_length, difference)
}

fn difference(library: &Buffers, solver: &Buffers) -> String {
    difference_of("input bytes", &library.file, &solver.file) + &difference_of("reply", &library.reply, &solver.reply)
}

fn input_text(call: &Refine) -> String {
    format!("refine: budget {}, file {}\nlent: {} bytes\n", call.budget, hex(&call.file), call.room)
}

/// Hands a reply to the view, which refuses it with 15.
fn check_view(reply: &[u8], random: &mut Random) -> Result<(), String> {
    let before = Viewed {
        reply: Lent::holding(reply, random, random_byte),
        answer: Lent::random(252, random, random_byte),
        lengths: Lent::random(1, random, random_i64),
    };
    let difference = |library: &Viewed, solver: &Viewed| difference_of("answer of the view", &library.answer, &solver.answer);
    let (number, _) = compared(&before, library_view, solver_view, refusal, difference)?;
    match number {
        15 => Ok(()),
        _ => Err(format!("the view answers a reply with {}\n", number)),
    }
}

// ---- cases

#[derive(Default)]
struct Refines {
    numbers: Numbers,
    budgeted: Budgeted,
    promises: Refinements,
    cases: u64,
    nodes: u64,
    views: u64,
}

impl Refines {
    fn calls(&mut self, calls: &[Refine], by_brute_force: bool, random: &mut Random) -> Result<(), String> {
        for call in calls {
            self.call(call, by_brute_force, random).map_err(|text| input_text(call) + &text)?;
        }
        Ok(())
    }

    fn call(&mut self, call: &Refine, by_brute_force: bool, random: &mut Random) -> Result<(), String> {
        let by_solver = refined::refine(&call.file, call.budget, call.room, &PAPER);
        let (number, mut buffers) = compare(call, &by_solver, random)?;
        let refused = refusal_or_length(number);
        let answer = refused.map_or_else(|| Ok(&buffers.reply.part()[..number as usize]), Err);
        if let Ok(reply) = answer {
            check_view(reply, random)?;
            self.views += 1;
            self.nodes += refined::decode(reply).nodes as u64;
        }
        if matches!(refused, None | Some(Refused(11))) {
            let is_small = by_brute_force && is_small(&call.file);
            self.promises.check(&call.file, call.budget, answer, library::dispatch(&call.file), is_small)?;
        }
        self.numbers.count(refused);
        self.budgeted.count(&Seen::new(call, &by_solver));
        Ok(())
    }
}

fn is_small(file: &[u8]) -> bool {
    solver::decode(file).map_or(false, |case| promise::is_small(&case, MOST_ALLOCATIONS, usize::MAX))
}

impl Comparison for Refines {
    const NAME: &'static str = "refines";
    const LEAST_CASES: u64 = 400;

    fn stated(&mut self, seed: u64) -> Result<(), String> {
        println!("{} wrong readings told apart by stated searches", misread::check());
        self.calls(&stated(), true, &mut Random::new(seed))
    }

    /// A kind of the seed, and its calls.
    fn case(&mut self, seed: u64) -> Result<(), String> {
        let mut random = Random::new(seed);
        let calls = random.pick(&KINDS)(&mut random);
        self.cases += 1;
        let by_brute_force = random.chance(2);
        self.calls(&calls, by_brute_force, &mut random)
    }

    fn print(&self) {
        let (calls, cases, nodes, views) = (self.numbers.total(), self.cases, self.nodes, self.views);
        println!("{} calls of {} cases compared, {} nodes; {} replies refused by the view", calls, cases, nodes, views);
        println!("{}", self.promises.line());
        for line in self.numbers.lines("refine").iter().chain(&self.budgeted.0.lines()) {
            println!("{}", line);
        }
    }

    fn assert_complete(&self) {
        self.numbers.assert_complete("refine", POSSIBLE_OF_REFINES);
        self.budgeted.0.assert_complete();
        self.promises.assert_complete();
    }
}

fn main() {
    program::run::<Refines>();
}
