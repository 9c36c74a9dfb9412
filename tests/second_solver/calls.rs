//! The calls of the specification, with their inputs and the size of the buffer that is lent: seven that the runner makes too,
//! the operations on its run, and three that it leaves out, the day, the search within a budget and a cost row.

use crate::solver::{self, Asked, Numbers, Refused, Run, State};

#[derive(Clone, Debug)]
pub enum Call {
    Dispatch { file: Vec<u8>, room: usize },
    Price { file: Vec<u8>, multiplier: u32 },
    Pack { demand: u32, rows: Vec<u32>, room: usize },
    Unpack { file: Vec<u8>, room: usize },
    View { reply: Vec<u8>, request: Vec<u8>, room: usize },
    Judge { file: Vec<u8>, outputs: Vec<u32> },
    Floors { file: Vec<u8>, demands: Vec<u32>, room: usize },
}

/// The names of the calls, in the order of their indices.
pub const NAMES: [&str; 7] = ["dispatch", "price", "pack", "unpack", "view", "judge", "floors"];

impl Call {
    pub fn index(&self) -> usize {
        match self {
            Call::Dispatch { .. } => 0,
            Call::Price { .. } => 1,
            Call::Pack { .. } => 2,
            Call::Unpack { .. } => 3,
            Call::View { .. } => 4,
            Call::Judge { .. } => 5,
            Call::Floors { .. } => 6,
        }
    }

    pub fn name(&self) -> &'static str {
        NAMES[self.index()]
    }
}

/// An operation on a run: numbers put into it, and bytes at the start of those that it holds; or one of the three calls.
#[derive(Clone, Debug)]
pub enum Operation {
    Put(Numbers, Vec<u8>),
    Start(Vec<u8>),
    Advance(Vec<u8>),
    Ask,
}

/// What an operation answers.
#[derive(Clone, Debug, PartialEq, Eq)]
pub enum Answer {
    Put,
    Started(Result<(), Refused>),
    Advanced(Result<State, Refused>),
    Asked(Asked),
}

impl Operation {
    /// The answer of the second solver, and the run as it leaves it.
    pub fn perform(&self, run: &mut Run) -> Answer {
        match self {
            Operation::Put(numbers, bytes) => {
                run.numbers = *numbers;
                run.held[..bytes.len()].copy_from_slice(bytes);
                Answer::Put
            }
            Operation::Start(file) => Answer::Started(solver::start(&mut run.numbers, &mut run.held, file)),
            Operation::Advance(file) => Answer::Advanced(solver::advance(&mut run.numbers, &run.held, file)),
            Operation::Ask => Answer::Asked(solver::ask(&run.numbers)),
        }
    }
}

impl Answer {
    pub fn refused(&self) -> Option<Refused> {
        match self {
            Answer::Started(answer) => answer.err(),
            Answer::Advanced(answer) => answer.err(),
            Answer::Put | Answer::Asked(_) => None,
        }
    }
}

/// A call for a day by slots, and how much is lent: bytes of the trace, histories and answers.
#[derive(Clone, Debug)]
pub struct Day {
    pub file: Vec<u8>,
    pub demands: Vec<u32>,
    pub trace_room: usize,
    pub histories_room: usize,
    pub answers_room: usize,
}

/// A call for a search within a budget, and how many bytes of the reply are lent.
#[derive(Clone, Debug)]
pub struct Refine {
    pub file: Vec<u8>,
    pub budget: u32,
    pub room: usize,
}

/// A call for a cost row, and how many answers are lent. Of a row that is made to be read also the answers c0, c1 and c2 that it is made
/// of.
#[derive(Clone, Debug)]
pub struct Gencost {
    pub row: Vec<u8>,
    pub room: usize,
    pub made_of: Option<[i64; 3]>,
}

/// Numbers of 32 bits as bytes, 4 to a number, most significant byte first.
pub fn bytes_of(numbers: &[u32]) -> Vec<u8> {
    numbers.iter().flat_map(|number| number.to_be_bytes()).collect()
}
