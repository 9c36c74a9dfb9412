//! The specification as a plain solver: a unit's choice is found by trying every output, and every number has 128 bits.

pub const GREATEST_MULTIPLIER: i128 = 65_536;
pub const NET_OF_A_STEP: i128 = 100_000_000;
pub const COST_SCALE: i128 = 100_000;

/// A refusal, by its number.
#[derive(Clone, Copy, Debug, PartialEq, Eq)]
pub struct Refused(pub u32);

pub fn refuse_if(condition: bool, number: u32) -> Result<(), Refused> {
    if condition {
        Err(Refused(number))
    } else {
        Ok(())
    }
}

// ---- the case file

#[derive(Clone, Debug, PartialEq, Eq)]
pub struct Unit {
    pub c0: i128,
    pub c1: i128,
    pub c2: i128,
    pub b: i128,
    /// The linear loss, which a file of edition 1 does not have: 0 there.
    pub b1: i128,
    pub least: i128,
    pub greatest: i128,
    pub previous: i128,
    pub up: i128,
    pub down: i128,
    pub mark: i128,
    /// Lower and upper edge of each zone.
    pub zones: Vec<(i128, i128)>,
}

/// What a case file holds.
#[derive(Clone, Debug, PartialEq, Eq)]
pub struct Case {
    pub edition: i128,
    pub demand: i128,
    pub units: Vec<Unit>,
}

/// The editions, and the lengths that a body may have in edition 1.
pub const EDITIONS: [i128; 2] = [1, 2];
const LENGTHS: [usize; 5] = [26, 30, 34, 38, 42];

/// By how many bytes a body is longer than in edition 1: edition 2 has b1 before the edges.
fn added(edition: i128) -> usize {
    if edition == 2 {
        4
    } else {
        0
    }
}

pub fn field(bytes: &[u8], at: usize, width: usize) -> i128 {
    bytes[at..at + width].iter().fold(0, |value, byte| value * 256 + i128::from(*byte))
}

/// A field of 32 bits in two's complement.
pub fn signed_field(bytes: &[u8], at: usize) -> i128 {
    let number = field(bytes, at, 4);
    if number < 1 << 31 {
        number
    } else {
        number - (1 << 32)
    }
}

/// Reads a file of either edition and makes every check before step 1.
pub fn decode(file: &[u8]) -> Result<Case, Refused> {
    parts(&EDITIONS, file)?.case()
}

/// A file whose head and contents are as they must be.
pub struct Parts<'a> {
    pub edition: i128,
    pub demand: i128,
    pub bodies: Vec<&'a [u8]>,
}

/// Reads head and contents of a file that is of one of these editions.
pub fn parts<'a>(editions: &[i128], file: &'a [u8]) -> Result<Parts<'a>, Refused> {
    refuse_if(file.len() < 8, 2)?;
    let edition = field(file, 0, 2);
    refuse_if(!editions.contains(&edition), 3)?;
    let count = field(file, 2, 2);
    refuse_if(!(1..=32).contains(&count), 4)?;
    let demand = field(file, 4, 4);
    check_demand(demand)?;
    Ok(Parts { edition, demand, bodies: bodies(file, edition, count as usize)? })
}

impl Parts<'_> {
    fn case(&self) -> Result<Case, Refused> {
        let units = self.bodies.iter().map(|body| decode_body(body, self.edition)).collect::<Result<_, _>>()?;
        Ok(Case { edition: self.edition, demand: self.demand, units })
    }
}

fn check_demand(demand: i128) -> Result<(), Refused> {
    refuse_if(demand > 320_000, 5)
}

/// The parts of the file that the contents name.
fn bodies(file: &[u8], edition: i128, count: usize) -> Result<Vec<&[u8]>, Refused> {
    let lengths = LENGTHS.map(|length| length + added(edition));
    let mut end = 8 + 4 * count;
    refuse_if(file.len() < end, 6)?;
    let mut bodies = Vec::new();
    for entry in 0..count {
        let offset = field(file, 8 + 4 * entry, 2) as usize;
        let length = field(file, 10 + 4 * entry, 2) as usize;
        refuse_if(offset != end || !lengths.contains(&length), 6)?;
        end = offset + length;
        refuse_if(file.len() < end, 6)?;
        bodies.push(&file[offset..end]);
    }
    refuse_if(file.len() != end, 6)?;
    Ok(bodies)
}

pub fn decode_body(body: &[u8], edition: i128) -> Result<Unit, Refused> {
    let zone_count = field(body, 24, 2) as usize;
    let first_edge = 26 + added(edition);
    refuse_if(zone_count > 4 || first_edge + 4 * zone_count != body.len(), 7)?;
    let edge = |index: usize| field(body, first_edge + 2 * index, 2);
    let unit = Unit {
        c0: field(body, 0, 4),
        c1: field(body, 4, 4),
        c2: field(body, 8, 2),
        b: field(body, 10, 2),
        b1: if edition == 2 { signed_field(body, 26) } else { 0 },
        least: field(body, 12, 2),
        greatest: field(body, 14, 2),
        previous: field(body, 16, 2),
        up: field(body, 18, 2),
        down: field(body, 20, 2),
        mark: field(body, 22, 2),
        zones: (0..zone_count).map(|zone| (edge(2 * zone), edge(2 * zone + 1))).collect(),
    };
    check_unit(&unit)?;
    Ok(unit)
}

fn check_unit(unit: &Unit) -> Result<(), Refused> {
    refuse_if(unit.c0 > 1_000_000_000 || unit.c1 > 10_000_000 || unit.c2 > 1_000 || unit.b > 5_000, 8)?;
    refuse_if(unit.b1.abs() > 10_000_000 || unit.b1 + 19_999 * unit.b >= 100_000_000, 18)?;
    refuse_if(unit.least < 1 || unit.least >= unit.greatest || unit.greatest > 10_000 || !zones_fit(unit), 9)?;
    refuse_if(unit.previous > 10_000 || unit.up > 10_000 || unit.down > 10_000 || unit.mark > 1, 10)
}

/// Whether the zones lie between the limits, each with its edges in order; neighbours may share an edge, and overlap nowhere.
fn zones_fit(unit: &Unit) -> bool {
    let between = |zone: &(i128, i128)| unit.least < zone.0 && zone.0 < zone.1 && zone.1 < unit.greatest;
    unit.zones.iter().all(between) && unit.zones.windows(2).all(|pair| pair[0].1 <= pair[1].0)
}

/// The edges that two neighbouring zones of a unit share.
pub fn shared_edges(unit: &Unit) -> Vec<i128> {
    unit.zones.windows(2).filter(|pair| pair[0].1 == pair[1].0).map(|pair| pair[0].1).collect()
}

/// Least, the edges in order, greatest.
pub fn limits_and_edges(unit: &Unit) -> Vec<i128> {
    let mut limits = vec![unit.least];
    for (lower, upper) in &unit.zones {
        limits.push(*lower);
        limits.push(*upper);
    }
    limits.push(unit.greatest);
    limits
}

fn put(bytes: &mut Vec<u8>, value: i128, width: usize) {
    bytes.extend_from_slice(&value.to_be_bytes()[16 - width..]);
}

/// Writes a case as a file, without checks: a field keeps its low bits.
pub fn encode(case: &Case) -> Vec<u8> {
    let mut file = Vec::new();
    put(&mut file, case.edition, 2);
    put(&mut file, case.units.len() as i128, 2);
    put(&mut file, case.demand, 4);
    let mut offset = 8 + 4 * case.units.len();
    for unit in &case.units {
        let length = 26 + added(case.edition) + 4 * unit.zones.len();
        put(&mut file, offset as i128, 2);
        put(&mut file, length as i128, 2);
        offset += length;
    }
    for unit in &case.units {
        encode_body(&mut file, unit, case.edition);
    }
    file
}

fn encode_body(file: &mut Vec<u8>, unit: &Unit, edition: i128) {
    put(file, unit.c0, 4);
    put(file, unit.c1, 4);
    for value in [unit.c2, unit.b, unit.least, unit.greatest, unit.previous, unit.up, unit.down, unit.mark] {
        put(file, value, 2);
    }
    put(file, unit.zones.len() as i128, 2);
    if edition == 2 {
        put(file, unit.b1, 4);
    }
    for (lower, upper) in &unit.zones {
        put(file, *lower, 2);
        put(file, *upper, 2);
    }
}

// ---- the planner's rows

/// Writes a case as rows, without checks: a number keeps its low 32 bits, and b1 has no place.
pub fn rows_of(case: &Case) -> Vec<u32> {
    case.units.iter().flat_map(row_of).collect()
}

fn row_of(unit: &Unit) -> Vec<u32> {
    let mut row = vec![unit.c0, unit.c1, unit.c2, unit.b, unit.least, unit.greatest];
    row.extend([unit.previous, unit.up, unit.down, unit.mark, unit.zones.len() as i128]);
    for (lower, upper) in &unit.zones {
        row.push(*lower);
        row.push(*upper);
    }
    row.resize(19, 0);
    row.into_iter().map(|number| number as u32).collect()
}

fn unit_of_row(row: &[u32], b1: i32) -> Result<Unit, Refused> {
    let zone_count = row[10] as usize;
    refuse_if(zone_count > 4, 7)?;
    let (used, unused) = row[11..].split_at(2 * zone_count);
    refuse_if(unused.iter().any(|edge| *edge != 0), 7)?;
    let number = |index: usize| i128::from(row[index]);
    let unit = Unit {
        c0: number(0),
        c1: number(1),
        c2: number(2),
        b: number(3),
        b1: i128::from(b1),
        least: number(4),
        greatest: number(5),
        previous: number(6),
        up: number(7),
        down: number(8),
        mark: number(9),
        zones: used.chunks(2).map(|pair| (i128::from(pair[0]), i128::from(pair[1]))).collect(),
    };
    check_unit(&unit)?;
    Ok(unit)
}

/// Packs a demand and rows to a file of edition 1; the answer is the file's length.
pub fn pack(demand: u32, rows: &[u32], file: &mut [u8]) -> Result<usize, Refused> {
    pack_in(1, demand, rows, &vec![0; rows.len() / 19], file)
}

/// Packs a demand, rows and a b1 for each of them to a file of edition 2.
pub fn pack2(demand: u32, rows: &[u32], b1: &[i32], file: &mut [u8]) -> Result<usize, Refused> {
    pack_in(2, demand, rows, b1, file)
}

fn pack_in(edition: i128, demand: u32, rows: &[u32], b1: &[i32], file: &mut [u8]) -> Result<usize, Refused> {
    refuse_if(rows.is_empty() || rows.len() % 19 != 0 || rows.len() > 608 || b1.len() != rows.len() / 19, 12)?;
    check_demand(i128::from(demand))?;
    let units = rows.chunks(19).zip(b1).map(|(row, b1)| unit_of_row(row, *b1)).collect::<Result<_, _>>()?;
    let bytes = encode(&Case { edition, demand: i128::from(demand), units });
    refuse_if(file.len() < bytes.len(), 13)?;
    file[..bytes.len()].copy_from_slice(&bytes);
    Ok(bytes.len())
}

#[derive(Clone, Copy, Debug, PartialEq, Eq)]
pub struct Unpacked {
    pub demand: i128,
    pub count: usize,
}

/// Unpacks a file of edition 1; a row could not hold b1.
pub fn unpack(file: &[u8], rows: &mut [u32]) -> Result<Unpacked, Refused> {
    refuse_if(rows.len() < 608, 1)?;
    let case = parts(&[1], file)?.case()?;
    let numbers = rows_of(&case);
    rows[..numbers.len()].copy_from_slice(&numbers);
    Ok(Unpacked { demand: case.demand, count: case.units.len() })
}

// ---- permitted outputs, cost, net

pub fn permitted(unit: &Unit, output: i128) -> bool {
    if output == 0 {
        return unit.mark == 0;
    }
    let within_limits = unit.least <= output && output <= unit.greatest;
    let in_a_zone = unit.zones.iter().any(|(lower, upper)| *lower < output && output < *upper);
    let within_ramp = unit.previous - unit.down <= output && output <= unit.previous + unit.up;
    within_limits && !in_a_zone && (unit.previous == 0 || within_ramp)
}

/// What a unit burns in an hour: nothing if it stands (rule 6.2).
pub fn cost(unit: &Unit, output: i128) -> i128 {
    if output == 0 {
        return 0;
    }
    unit.c0 + unit.c1 * output + unit.c2 * output * output
}

pub fn net(unit: &Unit, output: i128) -> i128 {
    NET_OF_A_STEP * output - unit.b1 * output - unit.b * output * output
}

/// A permitted output of a unit, with its cost and net.
#[derive(Clone, Copy, Debug, PartialEq, Eq)]
pub struct Offer {
    pub output: i128,
    pub cost: i128,
    pub net: i128,
}

/// The permitted outputs of a unit, rising.
pub fn offers(unit: &Unit) -> Vec<Offer> {
    (0..=unit.greatest)
        .filter(|output| permitted(unit, *output))
        .map(|output| Offer { output, cost: cost(unit, output), net: net(unit, output) })
        .collect()
}

pub type Allocation = Vec<Offer>;

pub fn total_cost(allocation: &[Offer]) -> i128 {
    allocation.iter().map(|offer| offer.cost).sum()
}

pub fn total_net(allocation: &[Offer]) -> i128 {
    allocation.iter().map(|offer| offer.net).sum()
}

// ---- choice, floor, bisection

/// A case after step 1: every unit has a permitted output, and the greatest together cover the demand.
pub struct Problem {
    pub demand_net: i128,
    pub offers: Vec<Vec<Offer>>,
    pub greatest: Allocation,
}

/// Step 1.
pub fn problem(case: &Case) -> Result<Problem, Refused> {
    problem_of(case.units.iter().map(offers).collect(), NET_OF_A_STEP * case.demand)
}

/// Step 1 of units with these permitted outputs, rising.
pub fn problem_of(offers: Vec<Vec<Offer>>, demand_net: i128) -> Result<Problem, Refused> {
    let greatest: Option<Allocation> = offers.iter().map(|unit| unit.last().copied()).collect();
    match greatest {
        Some(greatest) if total_net(&greatest) >= demand_net => Ok(Problem { demand_net, offers, greatest }),
        _ => Err(Refused(11)),
    }
}

/// What one multiplier gives: the choices, of each unit the least output that ties with its choice, what the search takes, and the
/// dual value.
pub struct Evaluation {
    pub choices: Allocation,
    pub least_tied: Allocation,
    /// The choices, lowered where they cover.
    pub lowered: Allocation,
    pub dual: i128,
}

pub fn priced_cost(offer: &Offer, multiplier: i128) -> i128 {
    COST_SCALE * offer.cost - multiplier * offer.net
}

/// All offers of least priced cost, rising: the last is the choice, the first the least tied output.
pub fn tied(offers: &[Offer], multiplier: i128) -> Vec<Offer> {
    let mut tied = Vec::new();
    let mut least = priced_cost(&offers[0], multiplier);
    for offer in offers {
        let priced = priced_cost(offer, multiplier);
        if priced < least {
            tied.clear();
            least = priced;
        }
        if priced == least {
            tied.push(*offer);
        }
    }
    tied
}

impl Problem {
    pub fn evaluate(&self, multiplier: i128) -> Evaluation {
        let tied: Vec<Vec<Offer>> = self.offers.iter().map(|unit| tied(unit, multiplier)).collect();
        let choices: Allocation = tied.iter().map(|unit| unit[unit.len() - 1]).collect();
        let least_tied: Allocation = tied.iter().map(|unit| unit[0]).collect();
        let priced: i128 = choices.iter().map(|offer| priced_cost(offer, multiplier)).sum();
        let lowered = self.lowered(&choices, &least_tied);
        Evaluation { choices, least_tied, lowered, dual: priced + multiplier * self.demand_net }
    }

    /// The choices, and where they cover, unit by unit in file order its least tied output instead wherever the whole still covers.
    fn lowered(&self, choices: &[Offer], least_tied: &[Offer]) -> Allocation {
        let mut lowered = choices.to_vec();
        for (unit, least) in least_tied.iter().enumerate() {
            let mut tried = lowered.clone();
            tried[unit] = *least;
            if self.surplus(choices) >= 0 && self.surplus(&tried) >= 0 {
                lowered = tried;
            }
        }
        lowered
    }

    pub fn surplus(&self, allocation: &[Offer]) -> i128 {
        total_net(allocation) - self.demand_net
    }

    /// The offers of these outputs, one to a unit, where all of them are permitted.
    fn allocation(&self, outputs: &[u32]) -> Option<Allocation> {
        self.offers.iter().zip(outputs).map(|(unit, output)| offer_of(unit, i128::from(*output))).collect()
    }
}

fn offer_of(offers: &[Offer], output: i128) -> Option<Offer> {
    offers.iter().find(|offer| offer.output == output).copied()
}

/// The dual value divided by 100,000, rounded up.
pub fn floor(dual: i128) -> i128 {
    -(-dual).div_euclid(COST_SCALE)
}

/// The best allocation, and all multipliers with their evaluations in the order in which they were made.
pub struct Search {
    pub best: Allocation,
    pub visits: Vec<(i128, Evaluation)>,
}

impl Search {
    /// The greatest floor of all evaluations. Demand 3 says that no other multiplier has a greater one.
    pub fn greatest_floor(&self) -> i128 {
        self.visits.iter().map(|(_, evaluation)| floor(evaluation.dual)).max().expect("an evaluation")
    }

    /// The greatest floor that these evaluations give a demand which is so many steps above the case's own, or below it.
    pub fn greatest_floor_moved(&self, steps: i128) -> i128 {
        let moved = |(multiplier, evaluation): &(i128, Evaluation)| floor(evaluation.dual + multiplier * NET_OF_A_STEP * steps);
        self.visits.iter().map(moved).max().expect("an evaluation")
    }

    /// The best before it was lowered, where some multiplier's choices cover.
    pub fn unlowered(&self, problem: &Problem) -> Option<&Allocation> {
        let choices = self.visits.iter().rev().map(|(_, evaluation)| &evaluation.choices);
        choices.into_iter().find(|choices| problem.surplus(choices) >= 0)
    }

    /// Evaluates a multiplier and takes its lowered choices as the best if they cover; tells their surplus.
    fn visit(&mut self, problem: &Problem, multiplier: i128) -> i128 {
        let evaluation = problem.evaluate(multiplier);
        let surplus = problem.surplus(&evaluation.lowered);
        if surplus >= 0 {
            self.best = evaluation.lowered.clone();
        }
        self.visits.push((multiplier, evaluation));
        surplus
    }
}

/// Steps 2 to 4.
pub fn search(problem: &Problem) -> Search {
    let mut search = Search { best: problem.greatest.clone(), visits: Vec::new() };
    if search.visit(problem, 0) >= 0 {
        return search;
    }
    if search.visit(problem, GREATEST_MULTIPLIER) <= 0 {
        return search;
    }
    let (mut low, mut high) = (0, GREATEST_MULTIPLIER);
    while high - low > 1 {
        let middle = (low + high) / 2;
        match search.visit(problem, middle) {
            0 => return search,
            surplus if surplus > 0 => high = middle,
            _ => low = middle,
        }
    }
    search
}

/// The outputs of the best before they were lowered, where some multiplier's choices cover.
pub fn unlowered(case: &Case) -> Option<Vec<i128>> {
    let problem = problem(case).ok()?;
    let search = search(&problem);
    search.unlowered(&problem).map(|choices| choices.iter().map(|offer| offer.output).collect())
}

// ---- the reply

#[derive(Clone, Debug, PartialEq, Eq)]
pub struct Reply {
    pub evaluations: i128,
    pub cost: i128,
    pub gap: i128,
    pub surplus: i128,
    pub outputs: Vec<i128>,
}

pub fn solve(case: &Case) -> Result<Reply, Refused> {
    let problem = problem(case)?;
    let search = search(&problem);
    let cost = total_cost(&search.best);
    Ok(Reply {
        evaluations: search.visits.len() as i128,
        cost,
        gap: cost - search.greatest_floor(),
        surplus: problem.surplus(&search.best),
        outputs: search.best.iter().map(|offer| offer.output).collect(),
    })
}

pub fn encode_reply(reply: &Reply) -> Vec<u8> {
    encode_counted(reply.evaluations, 2, [reply.cost, reply.gap, reply.surplus], &reply.outputs)
}

/// The number of units, a count of so many bytes, the amounts and the outputs.
pub fn encode_counted(count: i128, width: usize, amounts: [i128; 3], outputs: &[i128]) -> Vec<u8> {
    let mut bytes = Vec::new();
    put(&mut bytes, outputs.len() as i128, 2);
    put(&mut bytes, count, width);
    for amount in amounts {
        put(&mut bytes, amount, 8);
    }
    for output in outputs {
        put(&mut bytes, *output, 2);
    }
    bytes
}

/// Reads a reply of which the length is known to fit.
pub fn decode_reply(bytes: &[u8]) -> Reply {
    let count = field(bytes, 0, 2) as usize;
    assert_eq!(bytes.len(), 28 + 2 * count, "length of the reply");
    Reply {
        evaluations: field(bytes, 2, 2),
        cost: field(bytes, 4, 8),
        gap: field(bytes, 12, 8),
        surplus: field(bytes, 20, 8),
        outputs: (0..count).map(|unit| field(bytes, 28 + 2 * unit, 2)).collect(),
    }
}

/// Dispatches a file; the answer is the reply's length.
pub fn dispatch(file: &[u8], reply: &mut [u8]) -> Result<usize, Refused> {
    refuse_if(reply.len() < 92, 1)?;
    let bytes = encode_reply(&solve(&decode(file)?)?);
    reply[..bytes.len()].copy_from_slice(&bytes);
    Ok(bytes.len())
}

#[derive(Clone, Copy, Debug, PartialEq, Eq)]
pub struct Priced {
    pub dual: i128,
    pub covered: bool,
}

pub fn price(file: &[u8], multiplier: u32) -> Result<Priced, Refused> {
    check_multiplier(multiplier)?;
    let problem = problem(&decode(file)?)?;
    let evaluation = problem.evaluate(i128::from(multiplier));
    Ok(Priced { dual: evaluation.dual, covered: problem.surplus(&evaluation.choices) >= 0 })
}

fn check_multiplier(multiplier: u32) -> Result<(), Refused> {
    refuse_if(i128::from(multiplier) > GREATEST_MULTIPLIER, 14)
}

// ---- outputs that someone gives

/// What is said of outputs; of accepted ones their cost, their surplus and the distance above the greatest floor.
#[derive(Clone, Copy, Debug, PartialEq, Eq)]
pub enum Judged {
    Accepted { cost: i128, surplus: i128, distance: i128 },
    NotAccepted,
}

/// Judges a list of outputs against a file: accepted where each is permitted and together they cover the demand.
pub fn judge(file: &[u8], outputs: &[u32]) -> Result<Judged, Refused> {
    let problem = problem(&decode(file)?)?;
    refuse_if(outputs.len() != problem.offers.len(), 19)?;
    let covering = problem.allocation(outputs).filter(|allocation| problem.surplus(allocation) >= 0);
    Ok(covering.map_or(Judged::NotAccepted, |allocation| {
        let cost = total_cost(&allocation);
        let distance = cost - search(&problem).greatest_floor();
        Judged::Accepted { cost, surplus: problem.surplus(&allocation), distance }
    }))
}

// ---- lists of demands

/// Whether a list of demands is one that a call answers for.
fn fits(demands: &[u32]) -> bool {
    demands.len() <= 96 && demands.iter().all(|demand| *demand <= 320_000)
}

// ---- floors for other demands

/// Writes for each of some demands the greatest floor that the multipliers evaluated for the case's own give it; the answer is how
/// many floors that are.
pub fn floors(file: &[u8], demands: &[u32], floors: &mut [i64]) -> Result<usize, Refused> {
    refuse_if(!fits(demands), 20)?;
    refuse_if(floors.len() < demands.len(), 21)?;
    let case = decode(file)?;
    let search = search(&problem(&case)?);
    for (demand, floor) in demands.iter().zip(floors) {
        let greatest = search.greatest_floor_moved(i128::from(*demand) - case.demand);
        *floor = i64::try_from(greatest).expect("a floor of 64 bits");
    }
    Ok(demands.len())
}

// ---- a day by slots

/// What a unit gave last, and how often it was started.
#[repr(C)]
#[derive(Clone, Copy, Debug, PartialEq, Eq)]
pub struct History {
    pub previous: u16,
    pub starts: u16,
}

/// The length of a slot in the trace.
pub const SLOT: usize = 18;

/// Solves a slot for each demand, one after the other, and writes the trace and the histories; the answer is the total.
pub fn day(file: &[u8], demands: &[u32], trace: &mut [u8], histories: &mut [History]) -> Result<i128, Refused> {
    refuse_if(!fits(demands), 22)?;
    refuse_if(trace.len() < SLOT * demands.len() || histories.len() < 32, 23)?;
    let case = decode(file)?;
    for (history, unit) in histories.iter_mut().zip(&case.units) {
        *history = History { previous: unit.previous as u16, starts: 0 };
    }
    let mut total = 0;
    for (demand, bytes) in demands.iter().zip(trace.chunks_mut(SLOT)) {
        let answer = solve(&slot_case(&case, *demand, histories));
        bytes.copy_from_slice(&encode_slot(&answer));
        if let Ok(reply) = answer {
            total += reply.cost;
            move_on(histories, &reply.outputs);
        }
    }
    Ok(total)
}

/// The units with the previous outputs of their histories, and the slot's demand.
fn slot_case(case: &Case, demand: u32, histories: &[History]) -> Case {
    let with = |(unit, history): (&Unit, &History)| Unit { previous: i128::from(history.previous), ..unit.clone() };
    Case { edition: case.edition, demand: i128::from(demand), units: case.units.iter().zip(histories).map(with).collect() }
}

fn move_on(histories: &mut [History], outputs: &[i128]) {
    for (history, output) in histories.iter_mut().zip(outputs) {
        history.starts += u16::from(history.previous == 0 && *output != 0);
        history.previous = *output as u16;
    }
}

/// What the trace has of a slot: its status, and its cost and gap, which are 0 where it is refused.
fn encode_slot(answer: &Result<Reply, Refused>) -> Vec<u8> {
    let (status, cost, gap) = match answer {
        Ok(reply) => (0, reply.cost, reply.gap),
        Err(Refused(number)) => (i128::from(*number), 0, 0),
    };
    let mut bytes = Vec::new();
    put(&mut bytes, status, 2);
    put(&mut bytes, cost, 8);
    put(&mut bytes, gap, 8);
    bytes
}

// ---- a search that is looked at while it runs

/// The numbers of a run: started, finished, evaluations, low, cost, surplus, floor, count, length, and 32 outputs.
pub type Numbers = [u64; 41];

/// The bytes that a run holds: its file, and behind it what is not looked at.
pub type Held = [u8; GREATEST_LENGTH];

/// The greatest length of a file that is accepted.
pub const GREATEST_LENGTH: usize = 1_608;

/// Numbers that are not started.
pub const ZEROS: Numbers = [0; 41];

/// A run.
#[derive(Clone, Debug, PartialEq, Eq)]
pub struct Run {
    pub numbers: Numbers,
    pub held: Held,
}

/// A run of zeros.
pub const EMPTY: Run = Run { numbers: ZEROS, held: [0; GREATEST_LENGTH] };

/// What cost, surplus and floor of a started run are at most.
pub const GREATEST_IN_RUN: i128 = 35_200_000_000_000;

/// The numbers of a started run, by their names.
#[derive(Clone, Debug, PartialEq, Eq)]
pub struct Progress {
    pub finished: bool,
    pub evaluations: i128,
    pub low: i128,
    pub cost: i128,
    pub surplus: i128,
    pub floor: i128,
    pub count: i128,
    /// Of the file that is held.
    pub length: i128,
    /// 32 of them, zeros behind those of the units.
    pub outputs: Vec<i128>,
}

impl Progress {
    /// None where the numbers do not fit together (rules 22.4 and 23.1).
    pub fn of(run: &Numbers) -> Option<Progress> {
        let numbers = run.map(i128::from);
        let progress = Progress {
            finished: run[1] == 1,
            evaluations: numbers[2],
            low: numbers[3],
            cost: numbers[4],
            surplus: numbers[5],
            floor: numbers[6],
            count: numbers[7],
            length: numbers[8],
            outputs: numbers[9..].to_vec(),
        };
        Some(progress).filter(|progress| run[0] == 1 && run[1] <= 1 && progress.fits())
    }

    fn fits(&self) -> bool {
        let amounts = [self.cost, self.surplus, self.floor];
        let is_a_stage = if self.finished { self.evaluations <= 18 } else { self.evaluations <= 17 && self.low_fits() };
        is_a_stage
            && amounts.iter().all(|amount| *amount <= GREATEST_IN_RUN)
            && (1..=32).contains(&self.count)
            && self.length <= GREATEST_LENGTH as i128
            && self.outputs.iter().all(|output| *output <= 10_000)
    }

    fn low_fits(&self) -> bool {
        self.low == 0 || self.low + (1 << (18 - self.evaluations)) <= GREATEST_MULTIPLIER
    }

    fn numbers(&self) -> Numbers {
        let mut numbers = vec![1, i128::from(self.finished), self.evaluations, self.low];
        numbers.extend([self.cost, self.surplus, self.floor, self.count, self.length]);
        numbers.extend(&self.outputs);
        let numbers: Vec<u64> = numbers.into_iter().map(|number| u64::try_from(number).expect("a number of a run")).collect();
        numbers.try_into().expect("41 numbers")
    }

    /// The file of the run.
    pub fn file<'a>(&self, held: &'a Held) -> &'a [u8] {
        &held[..self.length as usize]
    }

    /// What is evaluated next (rule 22.3).
    pub fn next(&self) -> i128 {
        match self.evaluations {
            0 => 0,
            1 => GREATEST_MULTIPLIER,
            made => self.low + (1 << (17 - made)),
        }
    }

    fn state(&self) -> State {
        if self.finished {
            State::Finished
        } else {
            State::Unfinished
        }
    }

    /// Takes an allocation as the best.
    fn take(&mut self, problem: &Problem, allocation: &[Offer]) {
        self.cost = total_cost(allocation);
        self.surplus = problem.surplus(allocation);
        self.outputs = allocation.iter().map(|offer| offer.output).collect();
        self.outputs.resize(32, 0);
    }

    /// One evaluation more, of a run that is not finished.
    fn evaluate(&mut self, problem: &Problem) {
        let multiplier = self.next();
        let evaluation = problem.evaluate(multiplier);
        let surplus = problem.surplus(&evaluation.lowered);
        if surplus >= 0 {
            self.take(problem, &evaluation.lowered);
        }
        self.count = problem.offers.len() as i128;
        self.floor = self.floor.max(floor(evaluation.dual));
        self.evaluations += 1;
        self.finished = match self.evaluations {
            1 => surplus >= 0,
            2 => surplus <= 0,
            made => surplus == 0 || made == 18,
        };
        if self.finished {
            self.low = 0;
        } else if self.evaluations > 2 && surplus < 0 {
            self.low = multiplier;
        }
    }
}

/// Where a run stands; its number in C.
#[derive(Clone, Copy, Debug, PartialEq, Eq)]
pub enum State {
    NotStarted = 0,
    Unfinished = 1,
    Finished = 2,
}

/// What is told of a run: zeros of one that is not started.
#[derive(Clone, Debug, PartialEq, Eq)]
pub struct Asked {
    pub state: State,
    pub count: i128,
    pub evaluations: i128,
    pub cost: i128,
    pub gap: i128,
    pub surplus: i128,
    /// 32 of them.
    pub outputs: Vec<i128>,
}

/// Starts a run of a file: its best are the greatest outputs, and it holds the file.
pub fn start(run: &mut Numbers, held: &mut Held, file: &[u8]) -> Result<(), Refused> {
    let problem = problem(&decode(file)?)?;
    let (count, length) = (problem.offers.len() as i128, file.len() as i128);
    let (finished, evaluations, low, floor) = (false, 0, 0, 0);
    let mut progress = Progress { finished, evaluations, low, cost: 0, surplus: 0, floor, count, length, outputs: vec![] };
    progress.take(&problem, &problem.greatest);
    *run = progress.numbers();
    held[..file.len()].copy_from_slice(file);
    Ok(())
}

/// Makes the next evaluation of a run, if the file is the one that it holds, and tells where it then stands.
pub fn advance(run: &mut Numbers, held: &Held, file: &[u8]) -> Result<State, Refused> {
    let mut progress = match Progress::of(run) {
        Some(progress) => progress,
        None => return Ok(State::NotStarted),
    };
    refuse_if(progress.file(held) != file, 24)?;
    let problem = problem(&decode(file)?)?;
    if !progress.finished {
        progress.evaluate(&problem);
        *run = progress.numbers();
    }
    Ok(progress.state())
}

/// Tells what a run has so far.
pub fn ask(run: &Numbers) -> Asked {
    let nothing = Asked { state: State::NotStarted, count: 0, evaluations: 0, cost: 0, gap: 0, surplus: 0, outputs: vec![0; 32] };
    Progress::of(run).map_or(nothing, |progress| Asked {
        state: progress.state(),
        count: progress.count,
        evaluations: progress.evaluations,
        cost: progress.cost,
        gap: (progress.cost - progress.floor).max(0),
        surplus: progress.surplus,
        outputs: progress.outputs,
    })
}

// ---- the Modbus view

fn is_reply(bytes: &[u8]) -> bool {
    let fits = |count: i128| (1..=32).contains(&count) && bytes.len() as i128 == 28 + 2 * count;
    bytes.len() >= 2 && fits(field(bytes, 0, 2))
}

/// The reply as numbers of 16 bits: a field of 64 bits is four of them, the highest first.
fn registers(reply: &Reply) -> Vec<i128> {
    let mut registers = vec![reply.outputs.len() as i128, reply.evaluations];
    for value in [reply.cost, reply.gap, reply.surplus] {
        registers.extend([48, 32, 16, 0].map(|low_bits| (value >> low_bits) % 65_536));
    }
    registers.extend(&reply.outputs);
    registers
}

/// The registers that are asked for, or the number of the exception.
fn read(registers: &[i128], function: i128, start: i128, quantity: i128) -> Result<Vec<i128>, i128> {
    if function != 3 {
        return Err(1);
    }
    if !(1..=125).contains(&quantity) {
        return Err(3);
    }
    if start + quantity > registers.len() as i128 {
        return Err(2);
    }
    Ok(registers.iter().skip(start as usize).take(quantity as usize).copied().collect())
}

fn encode_answer(function: i128, answer: Result<Vec<i128>, i128>) -> Vec<u8> {
    let mut bytes = Vec::new();
    match answer {
        Ok(values) => {
            put(&mut bytes, function, 1);
            put(&mut bytes, 2 * values.len() as i128, 1);
            for value in values {
                put(&mut bytes, value, 2);
            }
        }
        Err(exception) => {
            put(&mut bytes, 128 + function % 128, 1);
            put(&mut bytes, exception, 1);
        }
    }
    bytes
}

/// Answers a request for registers of a reply; the answer is the length of what is written.
pub fn view(reply: &[u8], request: &[u8], answer: &mut [u8]) -> Result<usize, Refused> {
    refuse_if(!is_reply(reply), 15)?;
    refuse_if(request.len() != 5, 16)?;
    refuse_if(answer.len() < 252, 17)?;
    let (function, start, quantity) = (field(request, 0, 1), field(request, 1, 2), field(request, 3, 2));
    let bytes = encode_answer(function, read(&registers(&decode_reply(reply)), function, start, quantity));
    answer[..bytes.len()].copy_from_slice(&bytes);
    Ok(bytes.len())
}

// ---- the C forms

pub fn number_of(answer: Result<usize, Refused>) -> u32 {
    match answer {
        Ok(length) => length as u32,
        Err(Refused(number)) => number,
    }
}

pub fn panel_dispatch(file: &[u8], reply: &mut [u8]) -> u32 {
    number_of(dispatch(file, reply))
}

pub fn panel_pack(demand: u32, rows: &[u32], file: &mut [u8]) -> u32 {
    number_of(pack(demand, rows, file))
}

pub fn panel_pack2(demand: u32, rows: &[u32], b1: &[i32], file: &mut [u8]) -> u32 {
    number_of(pack2(demand, rows, b1, file))
}

pub fn panel_price(file: &[u8], multiplier: u32, answers: &mut [i64]) -> u32 {
    let priced =
        check_multiplier(multiplier).and_then(|()| refuse_if(answers.len() < 2, 1)).and_then(|()| price(file, multiplier));
    number_of(priced.map(|priced| {
        answers[0] = i64::try_from(priced.dual).expect("a dual value of 64 bits");
        answers[1] = i64::from(priced.covered);
        0
    }))
}

pub fn panel_unpack(file: &[u8], rows: &mut [u32], answers: &mut [i64]) -> u32 {
    let unpacked = refuse_if(answers.len() < 2, 1).and_then(|()| unpack(file, rows));
    number_of(unpacked.map(|unpacked| {
        answers[0] = unpacked.demand as i64;
        answers[1] = unpacked.count as i64;
        0
    }))
}

pub fn panel_view(reply: &[u8], request: &[u8], answer: &mut [u8], lengths: &mut [i64]) -> u32 {
    let viewed = refuse_if(lengths.is_empty(), 1).and_then(|()| view(reply, request, answer));
    number_of(viewed.map(|length| {
        lengths[0] = length as i64;
        0
    }))
}

pub fn panel_judge(file: &[u8], outputs: &[u32], answers: &mut [i64]) -> u32 {
    let judged = refuse_if(answers.len() < 4, 1).and_then(|()| judge(file, outputs));
    number_of(judged.map(|judged| {
        let numbers = match judged {
            Judged::Accepted { cost, surplus, distance } => [1, cost, surplus, distance],
            Judged::NotAccepted => [0; 4],
        };
        answers[..4].copy_from_slice(&numbers.map(|number| i64::try_from(number).expect("a number of 64 bits")));
        0
    }))
}

pub fn panel_floors(file: &[u8], demands: &[u32], list: &mut [i64], answers: &mut [i64]) -> u32 {
    let written = refuse_if(answers.is_empty(), 1).and_then(|()| floors(file, demands, list));
    number_of(written.map(|count| {
        answers[0] = count as i64;
        0
    }))
}

pub fn panel_day(file: &[u8], demands: &[u32], trace: &mut [u8], histories: &mut [History], answers: &mut [i64]) -> u32 {
    let solved = refuse_if(answers.is_empty(), 1).and_then(|()| day(file, demands, trace, histories));
    number_of(solved.map(|total| {
        answers[0] = i64::try_from(total).expect("a total of 64 bits");
        0
    }))
}

pub fn panel_run_start(run: &mut Numbers, held: &mut Held, file: &[u8]) -> u32 {
    number_of(start(run, held, file).map(|()| 0))
}

pub fn panel_run_advance(run: &mut Numbers, held: &Held, file: &[u8], answers: &mut [i64]) -> u32 {
    let advanced = refuse_if(answers.is_empty(), 1).and_then(|()| advance(run, held, file));
    number_of(advanced.map(|state| {
        answers[0] = state as i64;
        0
    }))
}

pub fn panel_run_ask(run: &Numbers, answers: &mut [i64]) -> u32 {
    number_of(refuse_if(answers.len() < 38, 1).map(|()| {
        let Asked { state, count, evaluations, cost, gap, surplus, outputs } = ask(run);
        let numbers = [&[state as i128, count, evaluations, cost, gap, surplus], &outputs[..]].concat();
        for (answer, number) in answers.iter_mut().zip(numbers) {
            *answer = i64::try_from(number).expect("a number of 64 bits");
        }
        0
    }))
}
