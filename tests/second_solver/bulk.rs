//! Compares the library's seven first C calls, and packing in edition 2, with the second solver on fresh cases: `bulk SECONDS [SEED]`, or `bulk --case SEED` to
//! repeat one case. Answers and whole buffers have to be equal, with what lies before and behind the lent parts.

use second_solver::branches::Reached;
use second_solver::calls::{bytes_of, Call};
use second_solver::generate::kinds;
use second_solver::hex;
use second_solver::lent::{difference_of, random_byte, random_i64, random_u32, Lent};
use second_solver::library::{
    shahfureel_dispatch, shahfureel_floors, shahfureel_judge, shahfureel_pack, shahfureel_price, shahfureel_unpack, shahfureel_view,
};
use second_solver::packings::Packings;
use second_solver::program::{self, compared, refusal_or_length, Comparison};
use second_solver::promise::{self, Floors, Judgements, Loads};
use second_solver::random::Random;
use second_solver::solver::{self, Judged, Refused};
use second_solver::tally::{Tally, POSSIBLE_IN_C};

const LONG: usize = 65_536;
const MOST_ALLOCATIONS: usize = 200_000;
const MOST_OFFERS: usize = 300;

// ---- lent buffers

/// All buffers of one call; those that a call does not have are empty.
#[derive(Clone, Debug, PartialEq)]
struct Buffers {
    bytes_in: Lent<u8>,
    request_in: Lent<u8>,
    numbers_in: Lent<u32>,
    bytes_out: Lent<u8>,
    rows_out: Lent<u32>,
    floors_out: Lent<i64>,
    answers: Lent<i64>,
}

impl Buffers {
    fn new(call: &Call, random: &mut Random) -> Buffers {
        let (bytes, request, numbers): (&[u8], &[u8], &[u32]) = match call {
            Call::Dispatch { file, .. } | Call::Price { file, .. } | Call::Unpack { file, .. } => (file, &[], &[]),
            Call::Pack { rows, .. } => (&[], &[], rows),
            Call::View { reply, request, .. } => (reply, request, &[]),
            Call::Judge { file, outputs } => (file, &[], outputs),
            Call::Floors { file, demands, .. } => (file, &[], demands),
        };
        let (bytes_out, rows_out) = match call {
            Call::Dispatch { room, .. } => (some_room(*room, 92, random), 0),
            Call::Pack { room, .. } => (some_room(*room, *room, random), 0),
            Call::Unpack { room, .. } => (0, some_room(*room, 608, random)),
            Call::View { room, .. } => (some_room(*room, 252, random), 0),
            Call::Price { .. } | Call::Judge { .. } | Call::Floors { .. } => (0, 0),
        };
        let floors_out = if let Call::Floors { room, .. } = call { *room } else { 0 };
        let answers = some_answers(call, random);
        Buffers {
            bytes_in: Lent::holding(bytes, random, random_byte),
            request_in: Lent::holding(request, random, random_byte),
            numbers_in: Lent::holding(numbers, random, random_u32),
            bytes_out: Lent::random(bytes_out, random, random_byte),
            rows_out: Lent::random(rows_out, random, random_u32),
            floors_out: Lent::random(floors_out, random, random_i64),
            answers: Lent::random(answers, random, random_i64),
        }
    }
}

/// Room for as many answers as the call has, mostly; or for fewer, for more, or rarely for many.
fn some_answers(call: &Call, random: &mut Random) -> usize {
    if random.chance(200) {
        return random.pick(&[256, 257, LONG, LONG + 1]);
    }
    match call {
        Call::Judge { .. } => random.pick(&[0, 3, 4, 4, 4, 4, 4, 4, 4, 4, 4, 4, 5, 9]),
        Call::Floors { .. } => random.pick(&[0, 1, 1, 1, 1, 1, 1, 1, 1, 2, 9]),
        _ => random.pick(&[0, 1, 2, 2, 2, 2, 2, 2, 2, 2, 3, 9]),
    }
}

/// The case's own room, or another near the room that is needed, or any, or rarely one that 16 bits cannot hold.
fn some_room(own: usize, needed: usize, random: &mut Random) -> usize {
    if random.chance(200) {
        return LONG + random.below(needed + 1);
    }
    if random.chance(2) {
        return own;
    }
    let any = random.below(2 * needed + 2);
    random.pick(&[0, needed.saturating_sub(1), needed, needed + 1, any])
}

/// The call, rarely with an input that is longer by what 16 bits cannot hold; at times with another room for floors.
fn sometimes_padded(mut call: Call, random: &mut Random) -> Call {
    match &mut call {
        Call::Dispatch { file, .. } | Call::Price { file, .. } | Call::Unpack { file, .. } if random.chance(200) => {
            file.resize(file.len() + LONG, 0);
        }
        Call::Pack { rows, .. } if random.chance(200) => rows.resize(rows.len() + LONG, 0),
        Call::View { reply, .. } if random.chance(200) => reply.resize(reply.len() + LONG, 0),
        Call::View { request, .. } if random.chance(200) => request.resize(request.len() + LONG, 0),
        Call::Judge { file, .. } if random.chance(200) => file.resize(file.len() + LONG, 0),
        Call::Judge { outputs, .. } if random.chance(200) => outputs.resize(outputs.len() + LONG, 0),
        Call::Floors { file, .. } if random.chance(200) => file.resize(file.len() + LONG, 0),
        Call::Floors { demands, .. } if random.chance(200) => demands.resize(demands.len() + LONG, 0),
        Call::Floors { demands, room, .. } if random.chance(4) => *room = some_room(*room, demands.len(), random),
        _ => {}
    }
    call
}

// ---- both answers

fn library_answer(call: &Call, buffers: &mut Buffers) -> u32 {
    let bytes = buffers.bytes_in.part();
    let request = buffers.request_in.part();
    let numbers = buffers.numbers_in.part();
    let bytes_out = buffers.bytes_out.part();
    let rows_out = buffers.rows_out.part();
    let floors_out = buffers.floors_out.part();
    let answers = buffers.answers.part();
    // Each pointer is that of a part of a list that lives on, with the part's length; no two parts overlap.
    unsafe {
        match call {
            Call::Dispatch { .. } => {
                shahfureel_dispatch(bytes.as_mut_ptr(), bytes.len(), bytes_out.as_mut_ptr(), bytes_out.len())
            }
            Call::Price { multiplier, .. } => {
                shahfureel_price(bytes.as_mut_ptr(), bytes.len(), *multiplier, answers.as_mut_ptr(), answers.len())
            }
            Call::Pack { demand, .. } => {
                shahfureel_pack(*demand, numbers.as_mut_ptr(), numbers.len(), bytes_out.as_mut_ptr(), bytes_out.len())
            }
            Call::Unpack { .. } => shahfureel_unpack(
                bytes.as_mut_ptr(),
                bytes.len(),
                rows_out.as_mut_ptr(),
                rows_out.len(),
                answers.as_mut_ptr(),
                answers.len(),
            ),
            Call::View { .. } => shahfureel_view(
                bytes.as_mut_ptr(),
                bytes.len(),
                request.as_mut_ptr(),
                request.len(),
                bytes_out.as_mut_ptr(),
                bytes_out.len(),
                answers.as_mut_ptr(),
                answers.len(),
            ),
            Call::Judge { .. } => shahfureel_judge(
                bytes.as_mut_ptr(),
                bytes.len(),
                numbers.as_mut_ptr(),
                numbers.len(),
                answers.as_mut_ptr(),
                answers.len(),
            ),
            Call::Floors { .. } => shahfureel_floors(
                bytes.as_mut_ptr(),
                bytes.len(),
                numbers.as_mut_ptr(),
                numbers.len(),
                floors_out.as_mut_ptr(),
                floors_out.len(),
                answers.as_mut_ptr(),
                answers.len(),
            ),
        }
    }
}

fn solver_answer(call: &Call, buffers: &mut Buffers) -> u32 {
    match call {
        Call::Dispatch { file, .. } => solver::panel_dispatch(file, buffers.bytes_out.part()),
        Call::Price { file, multiplier } => solver::panel_price(file, *multiplier, buffers.answers.part()),
        Call::Pack { demand, rows, .. } => solver::panel_pack(*demand, rows, buffers.bytes_out.part()),
        Call::Unpack { file, .. } => solver::panel_unpack(file, buffers.rows_out.part(), buffers.answers.part()),
        Call::View { reply, request, .. } => {
            solver::panel_view(reply, request, buffers.bytes_out.part(), buffers.answers.part())
        }
        Call::Judge { file, outputs } => solver::panel_judge(file, outputs, buffers.answers.part()),
        Call::Floors { file, demands, .. } => {
            solver::panel_floors(file, demands, buffers.floors_out.part(), buffers.answers.part())
        }
    }
}

/// The refusal that a number of a C call stands for.
fn refusal(call: &Call, number: u32) -> Option<Refused> {
    match call {
        Call::Dispatch { .. } | Call::Pack { .. } => refusal_or_length(number),
        Call::Price { .. } | Call::Unpack { .. } | Call::View { .. } | Call::Judge { .. } | Call::Floors { .. } => {
            program::refusal(number)
        }
    }
}

// ---- comparing

/// Makes one call both ways. Gives the library's answer and buffers, or an error that tells the difference.
fn compare(call: &Call, random: &mut Random) -> Result<(u32, Buffers), String> {
    compare_in(call, Buffers::new(call, random))
}

/// The same with so many bytes lent for the answer.
fn compare_with_room(call: &Call, room: usize, random: &mut Random) -> Result<(u32, Buffers), String> {
    let bytes_out = Lent::random(room, random, random_byte);
    compare_in(call, Buffers { bytes_out, ..Buffers::new(call, random) })
}

fn compare_in(call: &Call, before: Buffers) -> Result<(u32, Buffers), String> {
    let by_library = |buffers: &mut Buffers| library_answer(call, buffers);
    let by_solver = |buffers: &mut Buffers| solver_answer(call, buffers);
    let answer = compared(&before, by_library, by_solver, |number| refusal(call, number), difference);
    answer.map_err(|text| format!("{}\n{}{}", input_text(call), room_text(&before), text))
}

fn difference(library: &Buffers, solver: &Buffers) -> String {
    let mut text = difference_of("input bytes", &library.bytes_in, &solver.bytes_in);
    text += &difference_of("request bytes", &library.request_in, &solver.request_in);
    text += &difference_of("input numbers", &library.numbers_in, &solver.numbers_in);
    text += &difference_of("bytes", &library.bytes_out, &solver.bytes_out);
    text += &difference_of("rows", &library.rows_out, &solver.rows_out);
    text += &difference_of("floors", &library.floors_out, &solver.floors_out);
    text += &difference_of("answers", &library.answers, &solver.answers);
    text
}

fn room_text(lent: &Buffers) -> String {
    format!(
        "lent: {} bytes, {} numbers of rows, {} floors, {} answers\n",
        lent.bytes_out.length, lent.rows_out.length, lent.floors_out.length, lent.answers.length
    )
}

fn input_text(call: &Call) -> String {
    match call {
        Call::Dispatch { file, .. } => format!("dispatch: file {}", hex(file)),
        Call::Price { file, multiplier } => format!("price: multiplier {}, file {}", multiplier, hex(file)),
        Call::Pack { demand, rows, .. } => format!("pack: demand {}, rows {}", demand, hex(&bytes_of(rows))),
        Call::Unpack { file, .. } => format!("unpack: file {}", hex(file)),
        Call::View { reply, request, .. } => format!("view: request {}, reply {}", hex(request), hex(reply)),
        Call::Judge { file, outputs } => format!("judge: outputs {:?}, file {}", outputs, hex(file)),
        Call::Floors { file, demands, .. } => format!("floors: demands {:?}, file {}", demands, hex(file)),
    }
}

/// Whether a call has passed the file's checks, and the file is small enough for brute force.
fn is_small(file: &[u8], refused: Option<Refused>) -> Result<bool, String> {
    if !matches!(refused, None | Some(Refused(11)) | Some(Refused(19))) {
        return Ok(false);
    }
    let case = solver::decode(file).map_err(|refused| format!("{} is refused with {}", hex(file), refused.0))?;
    Ok(promise::is_small(&case, MOST_ALLOCATIONS, MOST_OFFERS))
}

/// What the answers of a C call say of outputs.
fn judged(answers: &[i64]) -> Judged {
    match answers[..4] {
        [1, cost, surplus, distance] => {
            Judged::Accepted { cost: cost.into(), surplus: surplus.into(), distance: distance.into() }
        }
        _ => Judged::NotAccepted,
    }
}

// ---- cases and runs

#[derive(Default)]
struct Run {
    tally: Tally,
    reached: Reached,
    cases: u64,
    promises: u64,
    judgements: Judgements,
    floors: Floors,
    loads: Loads,
    packings: Packings,
}

impl Run {
    /// Checks a dispatch of the library against demand 3, or a judgement or floors against what is promised of them, if the case is
    /// small.
    fn check_promise(&mut self, call: &Call, number: u32, buffers: &mut Buffers) -> Result<(), String> {
        let refused = refusal(call, number);
        match call {
            Call::Dispatch { file, .. } if is_small(file, refused)? => {
                let written = buffers.bytes_out.part();
                promise::check(file, refused.map_or_else(|| Ok(&written[..number as usize]), Err))?;
                self.promises += 1;
                Ok(())
            }
            Call::Judge { file, outputs } if is_small(file, refused)? => {
                let answer = refused.map_or_else(|| Ok(judged(buffers.answers.part())), Err);
                self.judgements.check(file, outputs, answer)
            }
            Call::Floors { file, demands, .. } if is_small(file, refused)? => {
                let count = buffers.answers.part().first().map_or(0, |count| *count as usize);
                let list = buffers.floors_out.part();
                self.floors.check(file, demands, refused.map_or_else(|| Ok(&list[..count]), Err))
            }
            _ => Ok(()),
        }
    }

    /// Dispatches an accepted file with two demands: what the lower one costs is held against the higher one.
    fn check_loads(&mut self, file: &[u8], random: &mut Random) -> Result<(), String> {
        let own = u32::from_be_bytes([file[4], file[5], file[6], file[7]]);
        let near = own.saturating_add(1 + random.below(12) as u32).min(320_000);
        let any = random.below(320_001) as u32;
        let other = random.pick(&[0, own / 2, own.saturating_sub(1), near, near, near, any]);
        if other == own {
            return Ok(());
        }
        let mut replies = Vec::new();
        for demand in [own.min(other), own.max(other)] {
            let mut changed = file.to_vec();
            changed[4..8].copy_from_slice(&demand.to_be_bytes());
            let call = Call::Dispatch { file: changed, room: 92 };
            let (number, mut buffers) = compare_with_room(&call, 92, random)?;
            let written = buffers.bytes_out.part();
            replies.push(refusal(&call, number).map_or_else(|| Ok(solver::decode_reply(&written[..number as usize])), Err));
        }
        let higher = replies.pop().expect("two replies");
        let lower = replies.pop().expect("two replies");
        self.loads.check(lower, higher).map_err(|text| format!("{}\nfile {}", text, hex(file)))
    }
}

impl Comparison for Run {
    const NAME: &'static str = "bulk";
    const LEAST_CASES: u64 = 0;

    /// Makes the case of a seed: a kind, its calls, and in one case of 50 the brute force of what is promised.
    fn case(&mut self, seed: u64) -> Result<(), String> {
        let mut random = Random::new(seed);
        let kind = random.pick(&kinds());
        let by_brute_force = random.chance(50);
        for call in (kind.make)(&mut random) {
            let call = sometimes_padded(call, &mut random);
            let (number, mut buffers) = compare(&call, &mut random)?;
            self.tally.count(call.index(), refusal(&call, number));
            self.reached.count(&call, refusal(&call, number));
            if by_brute_force {
                self.check_promise(&call, number, &mut buffers)?;
            }
            if let Call::Pack { demand, rows, .. } = &call {
                self.packings.check(*demand, rows, &mut random)?;
            }
            if let Call::Dispatch { file, .. } = &call {
                if matches!(refusal(&call, number), None | Some(Refused(11))) && random.chance(2) {
                    self.check_loads(file, &mut random)?;
                }
            }
        }
        self.cases += 1;
        Ok(())
    }

    fn print(&self) {
        let (dispatches, judgements, floors) = (self.promises, self.judgements.checked, self.floors.checked);
        let by_brute_force =
            format!("{} dispatches, {} judgements and {} floors by brute force", dispatches, judgements, floors);
        println!("{} calls of {} cases compared, {}", self.tally.total(), self.cases, by_brute_force);
        println!("{}", self.loads.line());
        for line in self.tally.lines().iter().chain(&self.packings.lines()).chain(&self.reached.lines()) {
            println!("{}", line);
        }
    }
    /// A long run has to reach every refusal.
    fn assert_complete(&self) {
        if self.cases >= 1_000 {
            self.tally.assert_complete(POSSIBLE_IN_C);
            self.reached.assert_complete();
            self.loads.assert_complete();
            self.packings.assert_complete();
        }
    }
}

fn main() {
    program::run::<Run>();
}
