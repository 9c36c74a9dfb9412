//! Writes the runner's two files: `write STDIN STDOUT`. The format is in README.md. Prints how many calls each kind of case gave, how often each
//! call was answered, and refused by each number, and how often each branch was reached.

use second_solver::branches::Reached;
use second_solver::calls::{bytes_of, Answer, Call, Operation};
use second_solver::generate::{accepted_kinds, kinds};
use second_solver::promise::{self, Floors, Judgements, Runs};
use second_solver::random::Random;
use second_solver::solver::{self, Asked, Held, Judged, Refused, Run, State, EMPTY};
use second_solver::stepped::Stepped;
use second_solver::tally::{Numbers, Tally, POSSIBLE, POSSIBLE_OF_ADVANCES, POSSIBLE_OF_STARTS};
use second_solver::{hex, runs, vectors};

const SEED: u64 = 1;
const BUFFER_BYTES: usize = 1_600;
const BUFFER_NUMBERS: usize = 640;
const FILL_BYTE: u8 = 0xA5;
const FILL_NUMBER: u32 = 0xA5A5_A5A5;
const FILL_FLOOR: i64 = 0xA5A5_A5A5_A5A5_A5A5_u64 as i64;
const MOST_ALLOCATIONS: usize = 200_000;
const MOST_OFFERS: usize = 400;

/// What the runner reads and what it has to print, and what was counted on the way.
#[derive(Default)]
struct Files {
    records: Vec<Vec<u8>>,
    lines: Vec<String>,
    kinds: Vec<(&'static str, usize)>,
    tally: Tally,
    reached: Reached,
    promises: usize,
    judgements: Judgements,
    floors: Floors,
    operations: Operations,
}

/// The runner's one run, and what was counted of the operations on it.
struct Operations {
    run: Run,
    starts: Numbers,
    advances: Numbers,
    asks: u64,
    stepped: Stepped,
    promises: Runs,
}

impl Default for Operations {
    fn default() -> Operations {
        let (starts, advances, asks) = (Numbers::default(), Numbers::default(), 0);
        Operations { run: EMPTY, starts, advances, asks, stepped: Stepped::default(), promises: Runs::default() }
    }
}

fn main() {
    let arguments: Vec<String> = std::env::args().skip(1).collect();
    let (input_path, output_path) = match arguments.as_slice() {
        [input_path, output_path] => (input_path, output_path),
        _ => panic!("usage: write STDIN STDOUT"),
    };
    let vectors = vectors::check();
    let files = make_files();
    files.tally.assert_complete(POSSIBLE);
    files.reached.assert_complete();
    files.operations.assert_complete();
    assert_every_exception(&files.lines);
    std::fs::write(input_path, input(&files.records)).expect(input_path);
    std::fs::write(output_path, output(&files.lines)).expect(output_path);
    println!("{} vectors as stated", vectors);
    let (dispatches, judgements, floors) = (files.promises, files.judgements.checked, files.floors.checked);
    let by_brute_force =
        format!("{} dispatches, {} judgements and {} floors checked by brute force", dispatches, judgements, floors);
    println!("{} calls, {}", files.tally.total(), by_brute_force);
    println!("{}", files.operations.promises.line());
    let operations = files.operations.lines();
    for line in files.kind_lines().iter().chain(&files.tally.lines()).chain(&files.reached.lines()).chain(&operations) {
        println!("{}", line);
    }
}

fn make_files() -> Files {
    let mut files = Files::default();
    let mut random = Random::new(SEED);
    for (index, kind) in kinds().iter().enumerate() {
        let calls: Vec<Call> = (0..kind.times).flat_map(|_| (kind.make)(&mut random)).collect();
        assert!(!calls.is_empty(), "no call of {}", kind.name);
        let first = files.lines.len();
        for call in &calls {
            files.add_call(call);
        }
        let dispatched = files.lines[first..].iter().any(|line| line.starts_with("dispatch ") && !line.contains("refused"));
        assert!(dispatched || index >= accepted_kinds().len(), "no case of {} is dispatched", kind.name);
        files.kinds.push((kind.name, calls.len()));
    }
    for (name, times, make) in runs::KINDS {
        let operations: Vec<Operation> = (0..times).flat_map(|_| make(&mut random)).collect();
        assert!(!operations.is_empty(), "no operation of {}", name);
        for operation in &operations {
            files.add_operation(operation);
        }
        files.kinds.push((name, operations.len()));
    }
    files
}

/// Asserts that some view is answered with each exception.
fn assert_every_exception(lines: &[String]) {
    for exception in 1..=3 {
        let end = format!("{:02x} kept", exception);
        let occurs = lines.iter().any(|line| line.starts_with("view 2 ") && line.ends_with(&end));
        assert!(occurs, "no view is answered with exception {}", exception);
    }
}

fn input(records: &[Vec<u8>]) -> Vec<u8> {
    let mut bytes = (records.len() as u32).to_be_bytes().to_vec();
    bytes.extend(records.concat());
    bytes
}

fn output(lines: &[String]) -> String {
    lines.iter().map(|line| format!("{}\n", line)).collect()
}

fn record(call: u16, number: u32, room: usize, content: &[u8]) -> Vec<u8> {
    assert!(content.len() <= 4_096);
    let mut bytes = call.to_be_bytes().to_vec();
    bytes.extend(number.to_be_bytes());
    bytes.extend((room as u16).to_be_bytes());
    bytes.extend((content.len() as u16).to_be_bytes());
    bytes.extend(content);
    bytes
}

impl Files {
    fn add_call(&mut self, call: &Call) {
        let (record, line, refused) = match call {
            Call::Dispatch { file, room } => {
                self.check_promise(file);
                let (line, refused) = dispatch(file, *room);
                (record(1, 0, *room, file), line, refused)
            }
            Call::Price { file, multiplier } => {
                let (line, refused) = price(file, *multiplier);
                (record(2, *multiplier, 0, file), line, refused)
            }
            Call::Pack { demand, rows, room } => {
                let (line, refused) = pack(*demand, rows, *room);
                (record(3, *demand, *room, &bytes_of(rows)), line, refused)
            }
            Call::Unpack { file, room } => {
                let (line, refused) = unpack(file, *room);
                (record(4, 0, *room, file), line, refused)
            }
            Call::View { reply, request, room } => {
                let (line, refused) = view(reply, request, *room);
                (record(5, reply.len() as u32, *room, &[&reply[..], request].concat()), line, refused)
            }
            Call::Judge { file, outputs } => {
                self.check_judgement(file, outputs);
                let (line, refused) = judge(file, outputs);
                (record(6, file.len() as u32, 0, &[&file[..], &bytes_of(outputs)].concat()), line, refused)
            }
            Call::Floors { file, demands, room } => {
                self.check_floors(file, demands, *room);
                let (line, refused) = floors(file, demands, *room);
                (record(7, file.len() as u32, *room, &[&file[..], &bytes_of(demands)].concat()), line, refused)
            }
        };
        self.records.push(record);
        self.lines.push(line);
        self.tally.count(call.index(), refused);
        self.reached.count(call, refused);
    }

    fn add_operation(&mut self, operation: &Operation) {
        self.records.push(match operation {
            Operation::Put(numbers, bytes) => record(8, 0, 0, &[&bytes_of_numbers(numbers), &bytes[..]].concat()),
            Operation::Start(file) => record(9, 0, 0, file),
            Operation::Advance(file) => record(10, 0, 0, file),
            Operation::Ask => record(11, 0, 0, &[]),
        });
        let answer = self.operations.perform(operation);
        let Run { numbers, held } = &self.operations.run;
        let sums = if matches!(operation, Operation::Put(..) | Operation::Start(_)) { sums_of(held) } else { String::new() };
        self.lines.push(format!("{}{} {}", words_of(&answer), sums, decimals(numbers)));
    }

    /// One line to a kind, with the count of its calls.
    fn kind_lines(&self) -> Vec<String> {
        self.kinds.iter().map(|(name, count)| format!("kind {} {}", name, count)).collect()
    }

    fn check_promise(&mut self, file: &[u8]) {
        if is_small(file) {
            let mut reply = [0; BUFFER_BYTES];
            let answer = solver::dispatch(file, &mut reply);
            if let Err(message) = promise::check(file, answer.map(|length| &reply[..length])) {
                panic!("{}", message);
            }
            self.promises += 1;
        }
    }

    fn check_judgement(&mut self, file: &[u8], outputs: &[u32]) {
        if is_small(file) {
            if let Err(message) = self.judgements.check(file, outputs, solver::judge(file, outputs)) {
                panic!("{}", message);
            }
        }
    }

    fn check_floors(&mut self, file: &[u8], demands: &[u32], room: usize) {
        let mut list = vec![0; room];
        let answer = solver::floors(file, demands, &mut list);
        if is_small(file) && !matches!(answer, Err(Refused(20 | 21))) {
            if let Err(message) = self.floors.check(file, demands, answer.map(|count| &list[..count])) {
                panic!("{}", message);
            }
        }
    }
}

impl Operations {
    /// Performs an operation, counts it and checks what is promised.
    fn perform(&mut self, operation: &Operation) -> Answer {
        let before = self.run.clone();
        let answer = operation.perform(&mut self.run);
        let is_small = matches!(operation, Operation::Start(file) if is_small(file));
        if let Err(message) = self.promises.check(operation, &before, &answer, &self.run, is_small) {
            panic!("{}", message);
        }
        self.stepped.count(operation, &before, &answer, &self.run);
        match operation {
            Operation::Start(_) => self.starts.count(answer.refused()),
            Operation::Advance(_) => self.advances.count(answer.refused()),
            Operation::Ask => self.asks += 1,
            Operation::Put(..) => {}
        }
        answer
    }

    fn lines(&self) -> Vec<String> {
        let mut lines = [self.starts.lines("start"), self.advances.lines("advance")].concat();
        lines.push(format!("ask answered {}", self.asks));
        lines.extend(self.stepped.branches.lines());
        lines
    }

    fn assert_complete(&self) {
        self.starts.assert_complete("start", POSSIBLE_OF_STARTS);
        self.advances.assert_complete("advance", POSSIBLE_OF_ADVANCES);
        self.stepped.branches.assert_complete();
    }
}

/// The numbers of a run, 8 bytes to a number.
fn bytes_of_numbers(numbers: &[u64]) -> Vec<u8> {
    numbers.iter().flat_map(|number| number.to_be_bytes()).collect()
}

/// The sum of the held bytes, and the sum of the sums of the first, the first two and so on, with a space before each.
fn sums_of(held: &Held) -> String {
    let (mut sum, mut sums) = (0, 0);
    for byte in held {
        sum += u64::from(*byte);
        sums += sum;
    }
    format!(" {} {}", sum, sums)
}

/// Whether a file is accepted and small enough for brute force.
fn is_small(file: &[u8]) -> bool {
    solver::decode(file).map_or(false, |case| promise::is_small(&case, MOST_ALLOCATIONS, MOST_OFFERS))
}

// ---- the line of each call, and the number of its refusal

fn dispatch(file: &[u8], room: usize) -> (String, Option<Refused>) {
    let mut buffer = [FILL_BYTE; BUFFER_BYTES];
    let answer = solver::dispatch(file, &mut buffer[..room]);
    line_of_bytes("dispatch", answer, &buffer)
}

fn pack(demand: u32, rows: &[u32], room: usize) -> (String, Option<Refused>) {
    let mut buffer = [FILL_BYTE; BUFFER_BYTES];
    let answer = solver::pack(demand, rows, &mut buffer[..room]);
    line_of_bytes("pack", answer, &buffer)
}

fn view(reply: &[u8], request: &[u8], room: usize) -> (String, Option<Refused>) {
    let mut buffer = [FILL_BYTE; BUFFER_BYTES];
    let answer = solver::view(reply, request, &mut buffer[..room]);
    line_of_bytes("view", answer, &buffer)
}

fn line_of_bytes(call: &str, answer: Result<usize, Refused>, buffer: &[u8]) -> (String, Option<Refused>) {
    match answer {
        Ok(length) => {
            let written = hex(&buffer[..length]);
            (format!("{} {} {} {}", call, length, written, kept(&buffer[length..], FILL_BYTE)), None)
        }
        Err(refused) => (format!("{} refused {} {}", call, refused.0, kept(buffer, FILL_BYTE)), Some(refused)),
    }
}

fn price(file: &[u8], multiplier: u32) -> (String, Option<Refused>) {
    match solver::price(file, multiplier) {
        Ok(priced) => {
            let covered = if priced.covered { "covered" } else { "uncovered" };
            (format!("price {} {}", priced.dual, covered), None)
        }
        Err(refused) => (format!("price refused {}", refused.0), Some(refused)),
    }
}

fn unpack(file: &[u8], room: usize) -> (String, Option<Refused>) {
    let mut buffer = [FILL_NUMBER; BUFFER_NUMBERS];
    match solver::unpack(file, &mut buffer[..room]) {
        Ok(unpacked) => {
            let (rows, rest) = buffer.split_at(19 * unpacked.count);
            let numbers: String = rows.iter().map(|number| format!("{} ", number)).collect();
            let line = format!("unpack {} {} {}{}", unpacked.demand, unpacked.count, numbers, kept(rest, FILL_NUMBER));
            (line, None)
        }
        Err(refused) => (format!("unpack refused {} {}", refused.0, kept(&buffer, FILL_NUMBER)), Some(refused)),
    }
}

fn judge(file: &[u8], outputs: &[u32]) -> (String, Option<Refused>) {
    match solver::judge(file, outputs) {
        Ok(Judged::Accepted { cost, surplus, distance }) => (format!("judge accepted {} {} {}", cost, surplus, distance), None),
        Ok(Judged::NotAccepted) => ("judge not accepted".to_string(), None),
        Err(refused) => (format!("judge refused {}", refused.0), Some(refused)),
    }
}

fn floors(file: &[u8], demands: &[u32], room: usize) -> (String, Option<Refused>) {
    let mut buffer = [FILL_FLOOR; BUFFER_NUMBERS];
    match solver::floors(file, demands, &mut buffer[..room]) {
        Ok(count) => {
            let (written, rest) = buffer.split_at(count);
            let numbers: String = written.iter().map(|number| format!("{} ", number)).collect();
            (format!("floors {} {}{}", count, numbers, kept(rest, FILL_FLOOR)), None)
        }
        Err(refused) => (format!("floors refused {} {}", refused.0, kept(&buffer, FILL_FLOOR)), Some(refused)),
    }
}

/// What an operation on the run answers, without the run's numbers.
fn words_of(answer: &Answer) -> String {
    match answer {
        Answer::Put => "put".to_string(),
        Answer::Started(Ok(())) => "start begun".to_string(),
        Answer::Started(Err(refused)) => format!("start refused {}", refused.0),
        Answer::Advanced(Ok(state)) => format!("advance {}", word_of(*state)),
        Answer::Advanced(Err(refused)) => format!("advance refused {}", refused.0),
        Answer::Asked(Asked { state, count, evaluations, cost, gap, surplus, outputs }) => {
            let amounts = decimals(&[*count, *evaluations, *cost, *gap, *surplus]);
            format!("ask {} {} {}", word_of(*state), amounts, decimals(outputs))
        }
    }
}

fn word_of(state: State) -> &'static str {
    match state {
        State::NotStarted => "not started",
        State::Unfinished => "unfinished",
        State::Finished => "finished",
    }
}

/// Numbers with a space between two.
fn decimals<T: ToString>(numbers: &[T]) -> String {
    numbers.iter().map(T::to_string).collect::<Vec<String>>().join(" ")
}

fn kept<T: PartialEq>(buffer: &[T], fill: T) -> &'static str {
    if buffer.iter().all(|element| *element == fill) {
        "kept"
    } else {
        "touched"
    }
}
