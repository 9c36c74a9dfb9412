//! Compares the library's starts, advances and asks of a run with the second solver on fresh lists of operations:
//! `steps SECONDS [SEED]`, or `steps --case SEED` to repeat one list. Answers, numbers and held bytes have to be equal after each
//! operation, with what lies around them; and what is promised of runs is checked.

use second_solver::calls::Operation::{self, Advance, Ask, Put, Start};
use second_solver::hex;
use second_solver::lent::{difference_of, random_byte, random_i64, random_u64, Lent};
use second_solver::library::{shahfureel_run_advance, shahfureel_run_ask, shahfureel_run_start};
use second_solver::program::{self, compared, refusal, Comparison};
use second_solver::promise::{self, Runs};
use second_solver::random::Random;
use second_solver::runs::KINDS;
use second_solver::solver::{self, Held, Run, GREATEST_LENGTH, ZEROS};
use second_solver::stepped::Stepped;
use second_solver::tally::{Numbers, POSSIBLE_OF_ADVANCES_IN_C, POSSIBLE_OF_ASKS_IN_C, POSSIBLE_OF_STARTS};

const MOST_ALLOCATIONS: usize = 20_000;

// ---- lent buffers

/// The run, which stays from operation to operation, and the file and the list for the answers of one.
#[derive(Clone, Debug, PartialEq)]
struct Buffers {
    numbers: Lent<u64>,
    held: Lent<u8>,
    file: Lent<u8>,
    answers: Lent<i64>,
}

impl Buffers {
    fn new(random: &mut Random) -> Buffers {
        Buffers {
            numbers: Lent::holding(&ZEROS, random, random_u64),
            held: Lent::random(GREATEST_LENGTH, random, random_byte),
            file: Lent::random(0, random, random_byte),
            answers: Lent::random(0, random, random_i64),
        }
    }

    /// Lends the file of an operation, and a list for its answers that is long enough, or too short for it.
    fn lend(&mut self, operation: &Operation, is_short: bool, random: &mut Random) {
        let (file, room): (&[u8], usize) = match operation {
            Put(..) => (&[], 0),
            Start(file) => (file, 0),
            Advance(file) if is_short => (file, 0),
            Advance(file) => (file, random.pick(&[1, 1, 1, 2, 9, 38])),
            Ask if is_short => (&[], random.pick(&[0, 1, 37])),
            Ask => (&[], random.pick(&[38, 38, 38, 39, 60])),
        };
        self.file = Lent::holding(file, random, random_byte);
        self.answers = Lent::random(room, random, random_i64);
    }

    fn arrays(&mut self) -> (&mut solver::Numbers, &mut Held) {
        let numbers = self.numbers.part().try_into().expect("41 numbers");
        (numbers, self.held.part().try_into().expect("1,608 bytes"))
    }

    fn run(&mut self) -> Run {
        let (numbers, held) = self.arrays();
        Run { numbers: *numbers, held: *held }
    }
}

// ---- both answers

/// Writes what is put, the same for both.
fn put(operation: &Operation, buffers: &mut Buffers) -> u32 {
    if let Put(numbers, bytes) = operation {
        buffers.numbers.part().copy_from_slice(numbers);
        buffers.held.part()[..bytes.len()].copy_from_slice(bytes);
    }
    0
}

fn library_answer(operation: &Operation, buffers: &mut Buffers) -> u32 {
    let numbers = buffers.numbers.part().as_mut_ptr();
    let held = buffers.held.part().as_mut_ptr();
    let file = buffers.file.part();
    let answers = buffers.answers.part();
    // Each pointer is that of a part of a list that lives on, 41 numbers or 1,608 bytes or with the part's length; no two parts overlap.
    match operation {
        Put(..) => put(operation, buffers),
        Start(_) => unsafe { shahfureel_run_start(numbers, held, file.as_ptr(), file.len()) },
        Advance(_) => unsafe {
            shahfureel_run_advance(numbers, held, file.as_ptr(), file.len(), answers.as_mut_ptr(), answers.len())
        },
        Ask => unsafe { shahfureel_run_ask(numbers, answers.as_mut_ptr(), answers.len()) },
    }
}

fn solver_answer(operation: &Operation, buffers: &mut Buffers) -> u32 {
    let Run { mut numbers, mut held } = buffers.run();
    let answers = buffers.answers.part();
    let number = match operation {
        Put(..) => return put(operation, buffers),
        Start(file) => solver::panel_run_start(&mut numbers, &mut held, file),
        Advance(file) => solver::panel_run_advance(&mut numbers, &held, file, answers),
        Ask => solver::panel_run_ask(&numbers, answers),
    };
    let arrays = buffers.arrays();
    (*arrays.0, *arrays.1) = (numbers, held);
    number
}

// ---- comparing

/// Makes one operation both ways. Gives the library's number, or an error that tells the difference.
fn compare(operation: &Operation, buffers: &mut Buffers) -> Result<u32, String> {
    let by_library = |buffers: &mut Buffers| library_answer(operation, buffers);
    let by_solver = |buffers: &mut Buffers| solver_answer(operation, buffers);
    let (number, after) =
        compared(buffers, by_library, by_solver, refusal, difference).map_err(|text| input_text(operation, buffers) + &text)?;
    *buffers = after;
    Ok(number)
}

fn difference(library: &Buffers, solver: &Buffers) -> String {
    let mut text = difference_of("numbers", &library.numbers, &solver.numbers);
    text += &difference_of("held bytes", &library.held, &solver.held);
    text += &difference_of("input bytes", &library.file, &solver.file);
    text += &difference_of("answers", &library.answers, &solver.answers);
    text
}

fn input_text(operation: &Operation, before: &mut Buffers) -> String {
    let Run { numbers, held } = before.run();
    let name = match operation {
        Put(..) => "put",
        Start(_) => "start",
        Advance(_) => "advance",
        Ask => "ask",
    };
    let (file, room) = (hex(before.file.part()), before.answers.length);
    format!("{}: file {}\nlent: {} answers\nnumbers {:?}\nheld {}\n", name, file, room, numbers, hex(&held))
}

// ---- lists of operations

#[derive(Default)]
struct Steps {
    starts: Numbers,
    advances: Numbers,
    asks: Numbers,
    stepped: Stepped,
    promises: Runs,
    lists: u64,
}

impl Steps {
    /// Makes a list of operations, from numbers that are zeros and any bytes.
    fn list(&mut self, list: Vec<Operation>, random: &mut Random) -> Result<(), String> {
        let mut buffers = Buffers::new(random);
        let by_brute_force = random.chance(4);
        self.lists += 1;
        for operation in [vec![Put(ZEROS, vec![])], list].concat() {
            if matches!(operation, Advance(_) | Ask) && random.chance(12) {
                buffers.lend(&operation, true, random);
                self.compare(&operation, &mut buffers)?;
            }
            buffers.lend(&operation, false, random);
            let before = buffers.run();
            self.compare(&operation, &mut buffers)?;
            self.follow(&operation, before, buffers.run(), by_brute_force)?;
        }
        Ok(())
    }

    fn compare(&mut self, operation: &Operation, buffers: &mut Buffers) -> Result<(), String> {
        let refused = refusal(compare(operation, buffers)?);
        match operation {
            Start(_) => self.starts.count(refused),
            Advance(_) => self.advances.count(refused),
            Ask => self.asks.count(refused),
            Put(..) => {}
        }
        Ok(())
    }

    /// Counts the branches of an operation, and checks what is promised.
    fn follow(&mut self, operation: &Operation, before: Run, after: Run, by_brute_force: bool) -> Result<(), String> {
        let answer = operation.perform(&mut before.clone());
        let is_small = by_brute_force && matches!(operation, Start(file) if is_small(file));
        self.promises.check(operation, &before, &answer, &after, is_small)?;
        self.stepped.count(operation, &before, &answer, &after);
        Ok(())
    }
}

fn is_small(file: &[u8]) -> bool {
    solver::decode(file).map_or(false, |case| promise::is_small(&case, MOST_ALLOCATIONS, usize::MAX))
}

impl Comparison for Steps {
    const NAME: &'static str = "steps";
    const LEAST_CASES: u64 = 100;

    /// Lists of each kind, as many as the runner's files have.
    fn stated(&mut self, seed: u64) -> Result<(), String> {
        let mut random = Random::new(seed);
        for (_, times, make) in KINDS {
            for _ in 0..times {
                self.list(make(&mut random), &mut random)?;
            }
        }
        Ok(())
    }

    fn case(&mut self, seed: u64) -> Result<(), String> {
        let mut random = Random::new(seed);
        let (_, _, make) = random.pick(&KINDS);
        self.list(make(&mut random), &mut random)
    }

    fn print(&self) {
        let operations = self.starts.total() + self.advances.total() + self.asks.total();
        println!("{} operations of {} lists compared", operations, self.lists);
        println!("{}", self.promises.line());
        let counts = [self.starts.lines("start"), self.advances.lines("advance"), self.asks.lines("ask")];
        for line in counts.concat().iter().chain(&self.stepped.branches.lines()) {
            println!("{}", line);
        }
    }

    fn assert_complete(&self) {
        self.starts.assert_complete("start", POSSIBLE_OF_STARTS);
        self.advances.assert_complete("advance", POSSIBLE_OF_ADVANCES_IN_C);
        self.asks.assert_complete("ask", POSSIBLE_OF_ASKS_IN_C);
        self.stepped.branches.assert_complete();
    }
}

fn main() {
    program::run::<Steps>();
}
