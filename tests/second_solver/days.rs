//! Compares the library's day by slots with the second solver on fresh cases: `days SECONDS [SEED]`, or `days --case SEED` to
//! repeat one case. Answers and whole buffers have to be equal, with what lies before and behind the lent parts; and each slot has
//! to be what the library's own dispatch gives for its case.

use second_solver::calls::Day;
use second_solver::hex;
use second_solver::lent::{difference_of, random_byte, random_history, random_i64, random_u32, Lent};
use second_solver::library::{dispatch, shahfureel_day};
use second_solver::program::{self, compared, refusal, Comparison};
use second_solver::random::Random;
use second_solver::slots::{stated, KINDS};
use second_solver::slotted::{Reached, Seen, Slot};
use second_solver::solver::{self, History, Refused, Unit, SLOT};
use second_solver::tally::{Numbers, POSSIBLE_OF_DAYS};

// ---- lent buffers

#[derive(Clone, Debug, PartialEq)]
struct Buffers {
    file: Lent<u8>,
    demands: Lent<u32>,
    trace: Lent<u8>,
    histories: Lent<History>,
    answers: Lent<i64>,
}

impl Buffers {
    fn new(day: &Day, random: &mut Random) -> Buffers {
        Buffers {
            file: Lent::holding(&day.file, random, random_byte),
            demands: Lent::holding(&day.demands, random, random_u32),
            trace: Lent::random(day.trace_room, random, random_byte),
            histories: Lent::random(day.histories_room, random, random_history),
            answers: Lent::random(day.answers_room, random, random_i64),
        }
    }
}

// ---- both answers

fn library_answer(buffers: &mut Buffers) -> u32 {
    let file = buffers.file.part();
    let demands = buffers.demands.part();
    let trace = buffers.trace.part();
    let histories = buffers.histories.part();
    let answers = buffers.answers.part();
    // Each pointer is that of a part of a list that lives on, with the part's length; no two parts overlap.
    unsafe {
        shahfureel_day(
            file.as_ptr(),
            file.len(),
            demands.as_ptr(),
            demands.len(),
            trace.as_mut_ptr(),
            trace.len(),
            histories.as_mut_ptr(),
            histories.len(),
            answers.as_mut_ptr(),
            answers.len(),
        )
    }
}

fn solver_answer(day: &Day, buffers: &mut Buffers) -> u32 {
    let Buffers { trace, histories, answers, .. } = buffers;
    solver::panel_day(&day.file, &day.demands, trace.part(), histories.part(), answers.part())
}

// ---- comparing

/// Makes one call both ways. Gives the library's answer and buffers, or an error that tells the difference.
fn compare(day: &Day, random: &mut Random) -> Result<(u32, Buffers), String> {
    let before = Buffers::new(day, random);
    compared(&before, library_answer, |buffers| solver_answer(day, buffers), refusal, difference)
}

fn difference(library: &Buffers, solver: &Buffers) -> String {
    let mut text = difference_of("input bytes", &library.file, &solver.file);
    text += &difference_of("demands", &library.demands, &solver.demands);
    text += &difference_of("trace", &library.trace, &solver.trace);
    text += &difference_of("histories", &library.histories, &solver.histories);
    text += &difference_of("answers", &library.answers, &solver.answers);
    text
}

fn input_text(day: &Day) -> String {
    format!(
        "day: demands {:?}, file {}\nlent: {} bytes of trace, {} histories, {} answers\n",
        day.demands,
        hex(&day.file),
        day.trace_room,
        day.histories_room,
        day.answers_room
    )
}

// ---- each slot as a dispatch

/// Dispatches by the library the case of each slot of an answered call: the file with the slot's demand, and with the outputs of
/// the last solved slot as its previous outputs.
fn dispatched_slots(day: &Day) -> Vec<Slot> {
    let mut file = day.file.clone();
    let mut slots = Vec::new();
    for demand in &day.demands {
        file[4..8].copy_from_slice(&demand.to_be_bytes());
        let answer = dispatch(&file);
        slots.push(Slot { case: solver::decode(&file).expect("an accepted file"), answer: answer.clone() });
        if let Ok(reply) = answer {
            set_previous(&mut file, &reply.outputs);
        }
    }
    slots
}

fn set_previous(file: &mut [u8], outputs: &[i128]) {
    for (unit, output) in outputs.iter().enumerate() {
        let entry = 8 + 4 * unit;
        let body = usize::from(u16::from_be_bytes([file[entry], file[entry + 1]]));
        file[body + 16..body + 18].copy_from_slice(&(*output as u16).to_be_bytes());
    }
}

/// Checks what the library wrote for an answered call against the dispatches of its slots. An error tells the first difference.
fn check_slots(day: &Day, slots: &[Slot], buffers: &mut Buffers) -> Result<(), String> {
    let trace = buffers.trace.part();
    for (number, (slot, bytes)) in slots.iter().zip(trace.chunks(SLOT)).enumerate() {
        let traced = [solver::field(bytes, 0, 2), solver::field(bytes, 2, 8), solver::field(bytes, 10, 8)];
        let dispatched = match &slot.answer {
            Ok(reply) => [0, reply.cost, reply.gap],
            Err(Refused(number)) => [i128::from(*number), 0, 0],
        };
        if traced != dispatched {
            return Err(format!("slot {} is traced as {:?} and dispatched as {:?}\n", number + 1, traced, dispatched));
        }
    }
    let units = solver::decode(&day.file).expect("an accepted file").units;
    for (unit, history) in buffers.histories.part()[..units.len()].iter().enumerate() {
        let dispatched = history_by(slots, unit, &units[unit]);
        if *history != dispatched {
            return Err(format!("unit {} has the history {:?} and by dispatches {:?}\n", unit + 1, history, dispatched));
        }
    }
    let total = total_by(slots);
    if i128::from(buffers.answers.part()[0]) != total {
        return Err(format!("the total is {} and by dispatches {}\n", buffers.answers.part()[0], total));
    }
    Ok(())
}

/// The history behind the slots of a unit, by its place and as the file has it.
fn history_by(slots: &[Slot], place: usize, unit: &Unit) -> History {
    let moved = |slot: &Slot| Some((slot.case.units[place].previous, slot.answer.as_ref().ok()?.outputs[place]));
    let moves: Vec<(i128, i128)> = slots.iter().filter_map(moved).collect();
    let starts = moves.iter().filter(|(before, after)| *before == 0 && *after > 0).count();
    let previous = moves.last().map_or(unit.previous, |(_, after)| *after);
    History { previous: previous as u16, starts: starts as u16 }
}

fn total_by(slots: &[Slot]) -> i128 {
    slots.iter().filter_map(|slot| slot.answer.as_ref().ok()).map(|reply| reply.cost).sum()
}

// ---- cases

#[derive(Default)]
struct Days {
    numbers: Numbers,
    reached: Reached,
    cases: u64,
    slots: u64,
}

impl Days {
    fn calls(&mut self, days: &[Day], random: &mut Random) -> Result<(), String> {
        for day in days {
            let (number, mut buffers) = compare(day, random).map_err(|text| input_text(day) + &text)?;
            let refused = refusal(number);
            let slots = if refused.is_none() { dispatched_slots(day) } else { vec![] };
            if refused.is_none() {
                check_slots(day, &slots, &mut buffers).map_err(|text| input_text(day) + &text)?;
            }
            self.slots += slots.len() as u64;
            self.numbers.count(refused);
            self.reached.count(&Seen::new(day, refused, slots));
        }
        Ok(())
    }
}

impl Comparison for Days {
    const NAME: &'static str = "days";
    const LEAST_CASES: u64 = 400;

    fn stated(&mut self, seed: u64) -> Result<(), String> {
        self.calls(&stated(), &mut Random::new(seed))
    }

    /// A kind of the seed, and its calls.
    fn case(&mut self, seed: u64) -> Result<(), String> {
        let mut random = Random::new(seed);
        let days = random.pick(&KINDS)(&mut random);
        self.cases += 1;
        self.calls(&days, &mut random)
    }

    fn print(&self) {
        println!("{} calls of {} cases compared, {} slots dispatched", self.numbers.total(), self.cases, self.slots);
        for line in self.numbers.lines("day").iter().chain(&self.reached.0.lines()) {
            println!("{}", line);
        }
    }

    fn assert_complete(&self) {
        self.numbers.assert_complete("day", POSSIBLE_OF_DAYS);
        self.reached.0.assert_complete();
    }
}

fn main() {
    program::run::<Days>();
}
