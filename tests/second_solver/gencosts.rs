//! Compares the library's reading of cost rows with the second solver on fresh rows: `gencosts SECONDS [SEED]`, or
//! `gencosts --case SEED` to repeat one case. Answers and whole buffers have to be equal, with what lies before and behind the lent
//! parts; and a row that is made of coefficients has to give them back.

use second_solver::calls::Gencost;
use second_solver::gencost::panel_gencost;
use second_solver::gencost_branches::{Rows, Seen};
use second_solver::gencost_rows::{stated, KINDS};
use second_solver::hex;
use second_solver::lent::{difference_of, random_byte, random_i64, Lent};
use second_solver::library::shahfureel_gencost;
use second_solver::program::{self, compared, refusal, Comparison};
use second_solver::random::Random;
use second_solver::tally::{Numbers, POSSIBLE_OF_GENCOSTS};
use second_solver::{gencost_misread, gencost_vectors};

/// Rows of one case.
const ROWS: usize = 50;

#[derive(Clone, Debug, PartialEq)]
struct Buffers {
    row: Lent<u8>,
    answers: Lent<i64>,
}

impl Buffers {
    fn new(call: &Gencost, random: &mut Random) -> Buffers {
        let row = Lent::holding(&call.row, random, random_byte);
        Buffers { row, answers: Lent::random(call.room, random, random_i64) }
    }
}

fn library_answer(buffers: &mut Buffers) -> u32 {
    let (row, answers) = (buffers.row.part(), buffers.answers.part());
    // Each pointer is that of a part of a list that lives on, with the part's length; no two parts overlap.
    unsafe { shahfureel_gencost(row.as_ptr(), row.len(), answers.as_mut_ptr(), answers.len()) }
}

fn solver_answer(buffers: &mut Buffers) -> u32 {
    panel_gencost(buffers.row.part(), buffers.answers.part())
}

fn difference(library: &Buffers, solver: &Buffers) -> String {
    difference_of("row", &library.row, &solver.row) + &difference_of("answer", &library.answers, &solver.answers)
}

fn input_text(call: &Gencost) -> String {
    format!("gencost: row {}\n{:?}\nlent: {} numbers\n", hex(&call.row), String::from_utf8_lossy(&call.row), call.room)
}

#[derive(Default)]
struct Gencosts {
    numbers: Numbers,
    rows: Rows,
    cases: u64,
    given_back: u64,
}

impl Gencosts {
    fn calls(&mut self, calls: &[Gencost], random: &mut Random) -> Result<(), String> {
        for call in calls {
            self.call(call, random).map_err(|text| input_text(call) + &text)?;
        }
        Ok(())
    }

    fn call(&mut self, call: &Gencost, random: &mut Random) -> Result<(), String> {
        let before = Buffers::new(call, random);
        let (number, mut buffers) = compared(&before, library_answer, solver_answer, refusal, difference)?;
        self.check_given_back(call, number, buffers.answers.part())?;
        self.numbers.count(refusal(number));
        self.rows.count(&Seen::new(call, refusal(number)));
        Ok(())
    }

    /// A row that is made of coefficients gives them back, if there is room.
    fn check_given_back(&mut self, call: &Gencost, number: u32, answers: &[i64]) -> Result<(), String> {
        match call.made_of.filter(|_| call.room >= 3) {
            Some(made_of) if number != 0 || answers[..3] != made_of => Err(format!("the row is made of {:?}\n", made_of)),
            made_of => {
                self.given_back += u64::from(made_of.is_some());
                Ok(())
            }
        }
    }
}

impl Comparison for Gencosts {
    const NAME: &'static str = "gencosts";
    const LEAST_CASES: u64 = 4_000;

    fn stated(&mut self, seed: u64) -> Result<(), String> {
        let (rows, readings) = (gencost_vectors::check(), gencost_misread::check_all());
        println!("{} wrong readings told apart by {} stated rows", readings, rows);
        self.calls(&stated(), &mut Random::new(seed))
    }

    /// Rows of any kind.
    fn case(&mut self, seed: u64) -> Result<(), String> {
        let mut random = Random::new(seed);
        let calls: Vec<Gencost> = (0..ROWS).map(|_| random.pick(&KINDS)(&mut random)).collect();
        self.cases += 1;
        self.calls(&calls, &mut random)
    }

    fn print(&self) {
        let (calls, cases, given_back) = (self.numbers.total(), self.cases, self.given_back);
        println!("{} rows of {} cases compared; {} give back what they are made of", calls, cases, given_back);
        for line in self.numbers.lines("gencost").iter().chain(&self.rows.0.lines()) {
            println!("{}", line);
        }
    }

    fn assert_complete(&self) {
        self.numbers.assert_complete("gencost", POSSIBLE_OF_GENCOSTS);
        self.rows.0.assert_complete();
        assert!(self.given_back > 0, "no row gave back what it is made of");
    }
}

fn main() {
    program::run::<Gencosts>();
}
