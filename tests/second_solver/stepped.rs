//! The branches of sections 22 and 23, a search that is looked at while it runs and that holds its case.

use crate::calls::{Answer, Operation};
use crate::solver::{self, Held, Numbers, Progress, Refused, Run, State, EMPTY, GREATEST_IN_RUN, ZEROS};
use crate::tally::{Branches, POSSIBLE_OF_STARTS};

/// An operation, its answer, the run's numbers before and after it, and the bytes that were held before it.
pub struct Seen<'a> {
    operation: &'a Operation,
    answer: &'a Answer,
    before: &'a Numbers,
    after: &'a Numbers,
    held: &'a Held,
    past: &'a Past,
    /// The number with which a start refuses the file.
    fault: Option<Refused>,
    made: Option<Made>,
}

/// What was before an operation: the file of the start that was accepted before the last accepted one, if nothing was put into the
/// run since; and the last operation with its answer.
#[derive(Default)]
struct Past {
    older: Option<Vec<u8>>,
    last: Option<(Operation, Answer)>,
}

/// The evaluation that an advance makes: of which multiplier it is, whether its choices were lowered, and what it gives.
struct Made {
    multiplier: i128,
    lowered: bool,
    cost: i128,
    surplus: i128,
    floor: i128,
}

type Branch = (&'static str, fn(&Seen) -> bool);

const BRANCHES: [Branch; 76] = [
    ("a start of zeros", |seen| seen.starts(|run| *run == ZEROS)),
    ("a start of numbers that do not fit", |seen| seen.starts(|run| is_unfit(run) && *run != ZEROS)),
    ("a start of an unfinished run, its own file", |seen| seen.starts(is_under_way) && seen.has_own_file()),
    ("a start of an unfinished run, another file", |seen| seen.starts(is_under_way) && seen.has_other_file()),
    ("a start of a finished run, its own file", |seen| seen.starts(is_finished) && seen.has_own_file()),
    ("a start of a finished run, another file", |seen| seen.starts(is_finished) && seen.has_other_file()),
    ("a start that takes back the cost", |seen| seen.starts(is_begun) && seen.before[4] < seen.after[4]),
    ("a start that takes back the floor", |seen| seen.starts(|run| is_begun(run) && run[6] > 0)),
    ("a start of fewer units", |seen| seen.starts(is_begun) && seen.before[7] > seen.after[7]),
    ("a start of more units", |seen| seen.starts(is_begun) && seen.before[7] < seen.after[7]),
    ("a start of 1 unit", |seen| seen.starts(|_| true) && seen.after[7] == 1),
    ("a start of 32 units", |seen| seen.starts(|_| true) && seen.after[7] == 32),
    ("a start at capacity", |seen| seen.starts(|_| true) && seen.after[5] == 0),
    ("a start of edition 2, a b1 that is not 0", |seen| seen.starts(|_| true) && seen.has_b1()),
    ("an advance of zeros", |seen| seen.advances(State::NotStarted) && *seen.before == ZEROS),
    ("an advance of numbers that do not fit", |seen| seen.advances(State::NotStarted) && *seen.before != ZEROS),
    ("an advance of a finished run", |seen| seen.advances(State::Finished) && is_finished(seen.before)),
    ("an advance of a finished run with a low", |seen| seen.advances(State::Finished) && seen.before[1] == 1 && seen.before[3] > 0),
    ("0 covers", |seen| seen.ends(1, |surplus| surplus >= 0)),
    ("0 covers with a surplus", |seen| seen.ends(1, |surplus| surplus > 0)),
    ("0 does not cover", |seen| seen.goes_on(1, |surplus| surplus < 0)),
    ("65,536 does not cover", |seen| seen.ends(2, |surplus| surplus < 0)),
    ("65,536 just covers", |seen| seen.ends(2, |surplus| surplus == 0)),
    ("65,536 covers with a surplus", |seen| seen.goes_on(2, |surplus| surplus > 0)),
    ("the first middle just covers", |seen| seen.ends(3, |surplus| surplus == 0)),
    ("a middle just covers", |seen| (4..18).any(|made| seen.ends(made, |surplus| surplus == 0))),
    ("a middle covers with a surplus, low is 0", |seen| seen.halves(|low, surplus| low == 0 && surplus > 0)),
    ("a middle covers with a surplus, low is not", |seen| seen.halves(|low, surplus| low > 0 && surplus > 0)),
    ("a middle does not cover, low is 0", |seen| seen.halves(|low, surplus| low == 0 && surplus < 0)),
    ("a middle does not cover, low is not", |seen| seen.halves(|low, surplus| low > 0 && surplus < 0)),
    ("the last middle just covers", |seen| seen.ends(18, |surplus| surplus == 0)),
    ("the last middle covers with a surplus", |seen| seen.ends(18, |surplus| surplus > 0)),
    ("the last middle does not cover", |seen| seen.ends(18, |surplus| surplus < 0)),
    ("the last middle is 65,535", |seen| seen.makes(|made| made.multiplier == 65_535)),
    ("an end that takes back low", |seen| seen.makes(|_| is_finished(seen.after) && seen.before[3] > 0)),
    ("choices lowered", |seen| seen.makes(|made| made.lowered)),
    ("a best of less cost", |seen| seen.takes(|cost, before| cost < before)),
    ("a best of the same cost", |seen| seen.takes(|cost, before| cost == before)),
    ("a best of more cost, the numbers of another case", |seen| seen.takes(|cost, before| cost > before)),
    ("the best kept, a cheaper one does not cover", |seen| seen.makes(|made| made.surplus < 0 && made.cost < seen.cost_before())),
    ("a greater floor", |seen| seen.makes(|made| made.floor > seen.floor_before())),
    ("the same floor", |seen| seen.makes(|made| made.floor == seen.floor_before())),
    ("a lower floor, not negative", |seen| seen.makes(|made| made.floor >= 0 && made.floor < seen.floor_before())),
    ("a negative floor, 0 before", |seen| seen.makes(|made| made.floor < 0 && seen.floor_before() == 0)),
    ("a negative floor, a greater one before", |seen| seen.makes(|made| made.floor < 0 && seen.floor_before() > 0)),
    ("a floor above the cost", |seen| seen.makes(|_| seen.after[6] > seen.after[4])),
    ("fewer units than the numbers have, taken", |seen| seen.makes(|made| made.surplus >= 0 && seen.before[7] > seen.after[7])),
    ("more units than the numbers have, taken", |seen| seen.makes(|made| made.surplus >= 0 && seen.before[7] < seen.after[7])),
    ("other units than the numbers have, not taken", |seen| seen.makes(|made| made.surplus < 0 && seen.before[7] != seen.after[7])),
    ("outputs behind the units are cleared", |seen| seen.makes(|made| made.surplus >= 0 && has_more_outputs(seen.before))),
    ("outputs behind the units are kept", |seen| seen.makes(|made| made.surplus < 0 && has_more_outputs(seen.before))),
    ("asked of zeros", |seen| seen.asks(|run| *run == ZEROS)),
    ("asked before an evaluation", |seen| seen.asks(|run| is_begun(run) && run[2] == 0)),
    ("asked between evaluations", |seen| seen.asks(is_under_way)),
    ("asked when finished", |seen| seen.asks(is_finished)),
    ("asked, the floor is the cost", |seen| seen.asks(|run| is_begun(run) && run[4] == run[6])),
    ("asked, the floor is above the cost", |seen| seen.asks(|run| is_begun(run) && run[4] < run[6])),
    ("a start of a longer file", |seen| seen.starts(is_begun) && seen.before[8] < seen.after[8]),
    ("a start of a shorter file, bytes of the old one behind it", |seen| seen.starts(is_begun) && seen.before[8] > seen.after[8]),
    ("a start of 1,608 bytes", |seen| seen.starts(|_| true) && seen.after[8] == 1_608),
    ("a start of a file with one byte changed", |seen| seen.starts(is_begun) && seen.differs(|own, file| one_place(own, file, |_| true))),
    ("a start of the file that got 24", |seen| seen.starts(is_begun) && seen.is_behind_24() && seen.has_file_of_last()),
    ("a start of the run's own file behind 24", |seen| seen.starts(is_begun) && seen.is_behind_24() && seen.has_own_file()),
    ("not started, the file is held", |seen| seen.advances(State::NotStarted) && seen.has_file_at_front()),
    ("not started for the length alone, the file is held", |seen| {
        seen.advances(State::NotStarted) && fails_by(seen.before, 8) && seen.has_file_at_front()
    }),
    ("24, the file of the start before", |seen| seen.is_changed() && seen.has_older_file()),
    ("24, the byte more is held behind the file", |seen| seen.is_changed() && seen.has_next_byte()),
    ("24, all 1,608 bytes but the last", |seen| seen.is_changed() && seen.differs(|own, file| own.len() == 1_608 && is_last(own, file))),
    ("24, 1,609 bytes", |seen| seen.is_changed() && seen.differs(|own, file| own.len() == 1_608 && has_byte_more(own, file))),
    ("24 behind 24", |seen| seen.is_changed() && seen.is_behind_24()),
    ("an evaluation behind 24", |seen| seen.makes(|_| seen.is_behind_24())),
    ("an evaluation behind a refused start", |seen| seen.makes(|_| seen.is_behind_refused_start())),
    ("an evaluation, other bytes behind the file", |seen| seen.makes(|_| seen.has_bytes_behind())),
    ("an evaluation of 1,608 bytes", |seen| seen.makes(|_| seen.before[8] == 1_608)),
    ("finished behind 24", |seen| seen.advances(State::Finished) && is_finished(seen.before) && seen.is_behind_24()),
    ("asked behind 24", |seen| seen.asks(is_begun) && seen.is_behind_24()),
];

/// How a file may differ from the one that a run holds.
type Difference = (&'static str, fn(&[u8], &[u8]) -> bool);

const DIFFERENCES: [Difference; 9] = [
    ("a byte before the demand", |own, file| one_place(own, file, |place| place < 4)),
    ("a byte of the demand", |own, file| one_place(own, file, |place| (4..8).contains(&place))),
    ("a byte of the table", |own, file| one_place(own, file, |place| (8..8 + 4 * usize::from(own[3])).contains(&place))),
    ("a byte inside the last body", |own, file| one_place(own, file, |place| (own.len() - 26..own.len() - 1).contains(&place))),
    ("the last byte", is_last),
    ("many bytes", |own, file| own.len() == file.len() && places(own, file).len() > 1),
    ("a byte more", has_byte_more),
    ("a byte less", |own, file| has_byte_more(file, own)),
    ("no byte at all", |_, file| file.is_empty()),
];

/// The places in which two files differ, as far as both go.
fn places(own: &[u8], file: &[u8]) -> Vec<usize> {
    own.iter().zip(file).enumerate().filter(|(_, (one, other))| one != other).map(|(place, _)| place).collect()
}

/// Whether a file differs in one byte from the one that is held, and its place meets a condition.
fn one_place(own: &[u8], file: &[u8], condition: impl Fn(usize) -> bool) -> bool {
    own.len() == file.len() && matches!(places(own, file)[..], [place] if condition(place))
}

fn is_last(own: &[u8], file: &[u8]) -> bool {
    one_place(own, file, |place| place + 1 == own.len())
}

fn has_byte_more(own: &[u8], file: &[u8]) -> bool {
    file.len() == own.len() + 1 && file.starts_with(own)
}

/// What a run's numbers may be that is at a limit of rule 22.4 or 23.1, or that alone is why it is not started.
type Content = (&'static str, fn(&Numbers) -> bool);

const CONTENTS: [Content; 47] = [
    ("evaluations 17, unfinished", |run| is_begun(run) && run[1..3] == [0, 17]),
    ("evaluations 0, finished", |run| is_begun(run) && run[1..3] == [1, 0]),
    ("evaluations 18, finished", |run| is_begun(run) && run[1..3] == [1, 18]),
    ("a low in a finished run", |run| is_begun(run) && run[1] == 1 && run[3] > 65_536),
    ("low greatest after 3 evaluations", |run| is_begun(run) && run[1..4] == [0, 3, 32_768]),
    ("low greatest after 17 evaluations", |run| is_begun(run) && run[1..4] == [0, 17, 65_534]),
    ("low between those that a search has", |run| is_begun(run) && run[1..4] == [0, 10, 1]),
    ("cost greatest", |run| is_begun(run) && run[4] == GREATEST),
    ("surplus greatest", |run| is_begun(run) && run[5] == GREATEST),
    ("floor greatest", |run| is_begun(run) && run[6] == GREATEST),
    ("count 1", |run| is_begun(run) && run[7] == 1),
    ("count 32", |run| is_begun(run) && run[7] == 32),
    ("length 0", |run| is_begun(run) && run[8] == 0),
    ("length 1,608", |run| is_begun(run) && run[8] == 1_608),
    ("the first output 10,000", |run| is_begun(run) && run[9] == 10_000),
    ("the last output 10,000", |run| is_begun(run) && run[40] == 10_000),
    ("outputs behind the units", |run| is_begun(run) && has_more_outputs(run)),
    ("started 0", |run| fails_by(run, 0) && run[0] == 0),
    ("started 2", |run| fails_by(run, 0) && run[0] == 2),
    ("started that 32 bits would cut to 1", |run| fails_by(run, 0) && run[0] % LONG == 1),
    ("finished 2", |run| fails_by(run, 1) && run[1] == 2),
    ("finished that 32 bits would cut to 1", |run| fails_by(run, 1) && run[1] % LONG == 1),
    ("evaluations 18, not finished", |run| fails_by(run, 2) && run[1..3] == [0, 18]),
    ("evaluations 19, finished", |run| fails_by(run, 2) && run[1..3] == [1, 19]),
    ("evaluations that 16 bits would cut", |run| fails_by(run, 2) && run[2] % 65_536 < 18),
    ("low 1 before the first evaluation", |run| fails_by(run, 3) && run[2..4] == [0, 1]),
    ("low 1 before the second evaluation", |run| fails_by(run, 3) && run[2..4] == [1, 1]),
    ("low 1 before the first middle", |run| fails_by(run, 3) && run[2..4] == [2, 1]),
    ("low too great after 3 evaluations", |run| fails_by(run, 3) && run[2..4] == [3, 32_769]),
    ("low too great after 17 evaluations", |run| fails_by(run, 3) && run[2..4] == [17, 65_535]),
    ("low that 64 bits would cut in the sum", |run| fails_by(run, 3) && run[3] > u64::MAX - 65_536),
    ("cost too great", |run| fails_by(run, 4) && run[4] == GREATEST + 1),
    ("cost past 63 bits", |run| fails_by(run, 4) && run[4] == 1 << 63),
    ("surplus too great", |run| fails_by(run, 5) && run[5] == GREATEST + 1),
    ("surplus past 63 bits", |run| fails_by(run, 5) && run[5] == 1 << 63),
    ("floor too great", |run| fails_by(run, 6) && run[6] == GREATEST + 1),
    ("floor past 63 bits", |run| fails_by(run, 6) && run[6] == 1 << 63),
    ("count 0", |run| fails_by(run, 7) && run[7] == 0),
    ("count 33", |run| fails_by(run, 7) && run[7] == 33),
    ("count that 16 bits would cut", |run| fails_by(run, 7) && run[7] == 65_537),
    ("length 1,609", |run| fails_by(run, 8) && run[8] == 1_609),
    ("length that 16 bits would cut", |run| fails_by(run, 8) && run[8] < LONG && run[8] % 65_536 <= 1_608),
    ("length that 32 bits would cut", |run| fails_by(run, 8) && run[8] > LONG && run[8] % LONG <= 1_608),
    ("length of 64 ones", |run| fails_by(run, 8) && run[8] == u64::MAX),
    ("the first output 10,001", |run| fails_by(run, 9) && run[9] == 10_001),
    ("the last output 10,001", |run| fails_by(run, 40) && run[40] == 10_001),
    ("an output that 16 bits would cut", |run| fails_by(run, 9) && run[9] == 65_536),
];

const GREATEST: u64 = GREATEST_IN_RUN as u64;
const LONG: u64 = 1 << 32;

/// Where a refused file may be handed over.
const REFUSALS: [Branch; 8] = [
    ("a start of a run not started", |seen| seen.is_start() && is_unfit(seen.before)),
    ("a start of an unfinished run", |seen| seen.is_start() && is_unfinished(seen.before)),
    ("a start of a finished run", |seen| seen.is_start() && is_finished(seen.before)),
    ("an advance of a run not started", |seen| seen.is_advance() && is_unfit(seen.before)),
    ("24 of an unfinished run", |seen| seen.is_changed() && is_unfinished(seen.before)),
    ("24 of a finished run", |seen| seen.is_changed() && is_finished(seen.before)),
    ("an advance of an unfinished run that holds it,", |seen| seen.is_advance() && is_unfinished(seen.before) && seen.has_own_file()),
    ("an advance of a finished run that holds it,", |seen| seen.is_advance() && is_finished(seen.before) && seen.has_own_file()),
];

// ---- runs

fn is_begun(run: &Numbers) -> bool {
    Progress::of(run).is_some()
}

fn is_unfit(run: &Numbers) -> bool {
    !is_begun(run)
}

fn is_finished(run: &Numbers) -> bool {
    is_begun(run) && run[1] == 1
}

fn is_unfinished(run: &Numbers) -> bool {
    is_begun(run) && run[1] == 0
}

/// Whether some evaluations are made, and not all.
fn is_under_way(run: &Numbers) -> bool {
    is_unfinished(run) && run[2] > 0
}

fn has_more_outputs(run: &Numbers) -> bool {
    run.iter().skip(9 + run[7] as usize).any(|output| *output > 0)
}

/// Whether a run is not started for the number at this place alone.
fn fails_by(run: &Numbers, place: usize) -> bool {
    let mut mended = *run;
    mended[place] = match place {
        0 | 1 | 7 => 1,
        2 => 18 * u64::from(run[1] == 1),
        _ => 0,
    };
    is_unfit(run) && is_begun(&mended)
}

// ---- what was seen

impl Seen<'_> {
    /// Whether a start was accepted, and the run before it meets a condition.
    fn starts(&self, condition: fn(&Numbers) -> bool) -> bool {
        *self.answer == Answer::Started(Ok(())) && condition(self.before)
    }

    fn advances(&self, state: State) -> bool {
        *self.answer == Answer::Advanced(Ok(state))
    }

    fn asks(&self, condition: fn(&Numbers) -> bool) -> bool {
        matches!(self.operation, Operation::Ask) && condition(self.before)
    }

    fn file(&self) -> Option<&[u8]> {
        match self.operation {
            Operation::Start(file) | Operation::Advance(file) => Some(file),
            Operation::Put(..) | Operation::Ask => None,
        }
    }

    fn is_start(&self) -> bool {
        matches!(self.operation, Operation::Start(_))
    }

    fn is_advance(&self) -> bool {
        matches!(self.operation, Operation::Advance(_))
    }

    fn is_changed(&self) -> bool {
        *self.answer == Answer::Advanced(Err(Refused(24)))
    }

    /// Whether the run is started, and the file that it holds and the one handed over meet a condition.
    fn differs(&self, condition: impl Fn(&[u8], &[u8]) -> bool) -> bool {
        let own = Progress::of(self.before).map(|progress| progress.file(self.held));
        own.zip(self.file()).map_or(false, |(own, file)| condition(own, file))
    }

    fn has_own_file(&self) -> bool {
        self.differs(|own, file| own == file)
    }

    fn has_other_file(&self) -> bool {
        self.differs(|own, file| own != file)
    }

    fn has_file_at_front(&self) -> bool {
        self.file().map_or(false, |file| !file.is_empty() && self.held.starts_with(file))
    }

    /// Whether the file is that of the run and the byte that is held behind it.
    fn has_next_byte(&self) -> bool {
        self.differs(has_byte_more) && self.has_file_at_front()
    }

    fn has_bytes_behind(&self) -> bool {
        self.held.iter().skip(self.before[8] as usize).any(|byte| *byte > 0)
    }

    fn has_older_file(&self) -> bool {
        self.past.older.is_some() && self.past.older.as_deref() == self.file()
    }

    fn last_operation_is(&self, condition: impl Fn(&Operation, &Answer) -> bool) -> bool {
        self.past.last.as_ref().map_or(false, |(operation, answer)| condition(operation, answer))
    }

    fn is_behind_24(&self) -> bool {
        self.last_operation_is(|_, answer| *answer == Answer::Advanced(Err(Refused(24))))
    }

    fn is_behind_refused_start(&self) -> bool {
        self.last_operation_is(|_, answer| matches!(answer, Answer::Started(Err(_))))
    }

    fn has_file_of_last(&self) -> bool {
        self.last_operation_is(|operation, _| matches!(operation, Operation::Advance(file) if Some(&file[..]) == self.file()))
    }

    fn has_b1(&self) -> bool {
        let case = self.file().and_then(|file| solver::decode(file).ok());
        case.map_or(false, |case| case.units.iter().any(|unit| unit.b1 != 0))
    }

    fn cost_before(&self) -> i128 {
        i128::from(self.before[4])
    }

    fn floor_before(&self) -> i128 {
        i128::from(self.before[6])
    }

    fn makes(&self, condition: impl Fn(&Made) -> bool) -> bool {
        self.made.as_ref().map_or(false, condition)
    }

    /// Whether the evaluation of this number is made, its surplus meets a condition, and the run is then finished.
    fn ends(&self, number: u64, condition: fn(i128) -> bool) -> bool {
        self.makes(|made| condition(made.surplus)) && self.after[2] == number && is_finished(self.after)
    }

    /// The same, and the run is then not finished.
    fn goes_on(&self, number: u64, condition: fn(i128) -> bool) -> bool {
        self.makes(|made| condition(made.surplus)) && self.after[2] == number && is_unfinished(self.after)
    }

    /// Whether a middle is evaluated and not the last, and low and surplus meet a condition.
    fn halves(&self, condition: fn(u64, i128) -> bool) -> bool {
        self.makes(|made| condition(self.before[3], made.surplus)) && (3..18).contains(&self.after[2])
    }

    /// Whether the outputs of an evaluation become the best, and its cost and the cost before meet a condition.
    fn takes(&self, condition: fn(i128, i128) -> bool) -> bool {
        self.makes(|made| made.surplus >= 0 && condition(made.cost, self.cost_before()))
    }

    fn is_asked_or_advanced(&self) -> [bool; 2] {
        [matches!(self.operation, Operation::Ask), self.is_advance()]
    }

    /// Of each branch whether it is reached, in the order of `names`.
    fn reached(&self) -> Vec<bool> {
        let mut reached: Vec<bool> = BRANCHES.iter().map(|(_, is_reached)| is_reached(self)).collect();
        for (_, holds) in CONTENTS {
            reached.extend(self.is_asked_or_advanced().map(|taken| taken && holds(self.before)));
        }
        for (_, holds) in DIFFERENCES {
            let is_reached = self.is_changed() && self.differs(holds);
            reached.extend([is_unfinished, is_finished].map(|condition| is_reached && condition(self.before)));
        }
        for number in POSSIBLE_OF_STARTS {
            let has_fault = self.fault == Some(Refused(*number as u32));
            reached.extend(REFUSALS.map(|(_, is_reached)| has_fault && is_reached(self)));
        }
        reached
    }
}

/// The names of all branches.
fn names() -> Vec<String> {
    let mut names: Vec<String> = BRANCHES.iter().map(|(name, _)| name.to_string()).collect();
    for (name, _) in CONTENTS {
        names.extend(["asked", "advanced"].map(|operation| format!("{}, {}", operation, name)));
    }
    for (name, _) in DIFFERENCES {
        names.extend(["an unfinished", "a finished"].map(|state| format!("24 of {} run by {}", state, name)));
    }
    for number in POSSIBLE_OF_STARTS {
        names.extend(REFUSALS.map(|(name, _)| format!("{} with a file of {}", name, number)));
    }
    names
}

fn fault_of(operation: &Operation) -> Option<Refused> {
    let Run { mut numbers, mut held } = EMPTY;
    match operation {
        Operation::Start(file) | Operation::Advance(file) => solver::start(&mut numbers, &mut held, file).err(),
        Operation::Put(..) | Operation::Ask => None,
    }
}

fn made_by(operation: &Operation, before: &Numbers, after: &Numbers) -> Option<Made> {
    let (file, progress) = match (operation, Progress::of(before)) {
        (Operation::Advance(file), Some(progress)) if before != after => (file, progress),
        _ => return None,
    };
    let problem = solver::problem(&solver::decode(file).ok()?).ok()?;
    let multiplier = progress.next();
    let evaluation = problem.evaluate(multiplier);
    Some(Made {
        multiplier,
        lowered: evaluation.lowered != evaluation.choices,
        cost: solver::total_cost(&evaluation.lowered),
        surplus: problem.surplus(&evaluation.lowered),
        floor: solver::floor(evaluation.dual),
    })
}

/// How often operations came to each branch.
pub struct Stepped {
    past: Past,
    /// The file of the last accepted start, if nothing was put into the run since.
    own: Option<Vec<u8>>,
    pub branches: Branches,
}

impl Default for Stepped {
    fn default() -> Stepped {
        Stepped { past: Past::default(), own: None, branches: Branches::new(names()) }
    }
}

impl Stepped {
    pub fn count(&mut self, operation: &Operation, before: &Run, answer: &Answer, after: &Run) {
        let (held, before, after) = (&before.held, &before.numbers, &after.numbers);
        let (fault, made) = (fault_of(operation), made_by(operation, before, after));
        let reached = Seen { operation, answer, before, after, held, past: &self.past, fault, made }.reached();
        self.branches.count(reached);
        match (operation, answer) {
            (Operation::Put(..), _) => (self.past.older, self.own) = (None, None),
            (Operation::Start(file), Answer::Started(Ok(()))) => self.past.older = self.own.replace(file.clone()),
            _ => {}
        }
        self.past.last = Some((operation.clone(), answer.clone()));
    }
}
