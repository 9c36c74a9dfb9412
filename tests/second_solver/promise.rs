//! Demand 3, and what is promised of judgements and of floors for other demands, by brute force: all allocations of a small case, and
//! all multipliers from 0 to 65,536. Of two demands of one case, that the greater is never cheaper. What is promised of a run at
//! every moment since its start. And of searches within budgets: all allocations of a small case, and of two budgets that the larger
//! one has neither a greater cost nor a greater gap.

use crate::calls::{Answer, Operation};
use crate::hex;
use crate::refined::{self, Refined};
use crate::solver::{self, Allocation, Case, Judged, Offer, Problem, Refused, Reply, Run, Search, State, ZEROS};

/// Whether a case is small enough: how many allocations it has, and how many permitted outputs for each multiplier to try.
pub fn is_small(case: &Case, most_allocations: usize, most_offers: usize) -> bool {
    let counts: Vec<usize> = case.units.iter().map(|unit| solver::offers(unit).len()).collect();
    let allocations = counts.iter().fold(1, |product: usize, count| product.saturating_mul(*count));
    allocations <= most_allocations && counts.iter().sum::<usize>() <= most_offers
}

/// Checks every sentence of demand 3 for an accepted file and the answer of dispatch. An error has the sentence that fails,
/// and the file.
pub fn check(file: &[u8], answer: Result<&[u8], Refused>) -> Result<(), String> {
    let case = solver::decode(file).expect("an accepted file");
    let offers: Vec<Vec<Offer>> = case.units.iter().map(solver::offers).collect();
    let demand_net = solver::NET_OF_A_STEP * case.demand;
    let cheapest = cheapest_covering(&offers, demand_net);
    let failed = match (answer, cheapest) {
        (Err(Refused(11)), None) => None,
        (Ok(bytes), Some(cheapest)) => broken_sentence(&offers, demand_net, cheapest, &solver::decode_reply(bytes)),
        _ => Some("11 exactly when nothing covers"),
    };
    match failed {
        None => Ok(()),
        Some(sentence) => Err(format!("not so: {}\nfile {}\nanswer {:?}", sentence, hex(file), answer.map(hex))),
    }
}

/// The least cost of the allocations that cover, by trying all.
fn cheapest_covering(offers: &[Vec<Offer>], net_needed: i128) -> Option<i128> {
    match offers.split_first() {
        None if net_needed <= 0 => Some(0),
        None => None,
        Some((unit, others)) => {
            unit.iter().filter_map(|offer| Some(offer.cost + cheapest_covering(others, net_needed - offer.net)?)).min()
        }
    }
}

/// The first sentence that the reply breaks.
fn broken_sentence(offers: &[Vec<Offer>], demand_net: i128, cheapest: i128, reply: &Reply) -> Option<&'static str> {
    let allocation = match permitted_allocation(offers, &reply.outputs) {
        Some(allocation) => allocation,
        None => return Some("the outputs are permitted"),
    };
    let trials = all_trials(offers, demand_net);
    let greatest_floor = greatest_floor(&trials);
    let (best, evaluations) = bisection(&trials);
    let best = best.map_or_else(|| greatest_outputs(offers), |multiplier| lowered(&tied(offers, multiplier), demand_net));
    let sentences = [
        (allocation == best, "the outputs are those of the bisection"),
        (solver::total_net(&allocation) >= demand_net, "the outputs cover the demand"),
        (solver::total_cost(&allocation) == reply.cost, "the cost is exact"),
        (solver::total_net(&allocation) - demand_net == reply.surplus, "the surplus is exact"),
        (cheapest >= reply.cost - reply.gap, "nobody spends less than cost - gap"),
        (greatest_floor == reply.cost - reply.gap, "cost - gap is the greatest floor"),
        (trials.iter().all(|trial| trial.surplus < 0 || trial.cost >= reply.cost), "no covering choices, lowered, cost less"),
        (trials.iter().all(|trial| trial.surplus < 0 || trial.unlowered_cost >= reply.cost), "no covering choices cost less"),
        (trials.iter().all(|trial| (trial.surplus < 0) == (trial.unlowered_surplus < 0)), "lowering keeps what covers"),
        (evaluations == reply.evaluations, "the evaluations are exact"),
        ((1..=18).contains(&reply.evaluations), "the evaluations are 1 to 18"),
    ];
    sentences.iter().find(|(holds, _)| !holds).map(|(_, sentence)| *sentence)
}

fn permitted_allocation(offers: &[Vec<Offer>], outputs: &[i128]) -> Option<Allocation> {
    if offers.len() != outputs.len() {
        return None;
    }
    let find = |(unit, output): (&Vec<Offer>, &i128)| unit.iter().find(|offer| offer.output == *output).copied();
    offers.iter().zip(outputs).map(find).collect()
}

fn greatest_outputs(offers: &[Vec<Offer>]) -> Allocation {
    offers.iter().map(|unit| *unit.last().expect("a permitted output")).collect()
}

/// A unit's least tied output and its choice.
struct Tied {
    least: Offer,
    choice: Offer,
}

fn tied(offers: &[Vec<Offer>], multiplier: i128) -> Vec<Tied> {
    let price = |offer: &&Offer| solver::priced_cost(offer, multiplier);
    let of_unit = |unit: &Vec<Offer>| Tied {
        least: *unit.iter().min_by_key(price).expect("an offer"),
        choice: *unit.iter().rev().min_by_key(price).expect("an offer"),
    };
    offers.iter().map(of_unit).collect()
}

fn choices(tied: &[Tied]) -> Allocation {
    tied.iter().map(|unit| unit.choice).collect()
}

/// The choices, each lowered as far as the surplus that is left lets it, in file order; none where there is no surplus.
fn lowered(tied: &[Tied], demand_net: i128) -> Allocation {
    let mut left = solver::total_net(&choices(tied)) - demand_net;
    let mut lower = |unit: &Tied| {
        let given_up = unit.choice.net - unit.least.net;
        if given_up > left {
            return unit.choice;
        }
        left -= given_up;
        unit.least
    };
    tied.iter().map(&mut lower).collect()
}

/// What one multiplier gives: cost and surplus of its lowered choices, and of the choices themselves.
struct Trial {
    cost: i128,
    surplus: i128,
    unlowered_cost: i128,
    unlowered_surplus: i128,
    floor: i128,
}

/// The trials of all multipliers, in order.
fn all_trials(offers: &[Vec<Offer>], demand_net: i128) -> Vec<Trial> {
    (0..=solver::GREATEST_MULTIPLIER).map(|multiplier| trial(offers, demand_net, multiplier)).collect()
}

fn trial(offers: &[Vec<Offer>], demand_net: i128, multiplier: i128) -> Trial {
    let tied = tied(offers, multiplier);
    let (choices, lowered) = (choices(&tied), lowered(&tied, demand_net));
    let priced: i128 = choices.iter().map(|offer| solver::priced_cost(offer, multiplier)).sum();
    Trial {
        cost: solver::total_cost(&lowered),
        surplus: solver::total_net(&lowered) - demand_net,
        unlowered_cost: solver::total_cost(&choices),
        unlowered_surplus: solver::total_net(&choices) - demand_net,
        floor: rounded_up(priced + multiplier * demand_net),
    }
}

fn greatest_floor(trials: &[Trial]) -> i128 {
    trials.iter().map(|trial| trial.floor).max().expect("a multiplier")
}

/// The least whole number that is, times 100,000, not below the dual value.
fn rounded_up(dual: i128) -> i128 {
    let quotient = dual / solver::COST_SCALE;
    if quotient * solver::COST_SCALE < dual {
        quotient + 1
    } else {
        quotient
    }
}

/// The multiplier whose lowered choices the bisection gives, or none for the greatest outputs; and how many it evaluates.
fn bisection(trials: &[Trial]) -> (Option<i128>, i128) {
    let top = trials.len() - 1;
    if trials[0].surplus >= 0 {
        (Some(0), 1)
    } else if trials[top].surplus < 0 {
        (None, 2)
    } else if trials[top].surplus == 0 {
        (Some(top as i128), 2)
    } else {
        let (multiplier, middles) = halved(trials, 0, top);
        (Some(multiplier as i128), 2 + middles)
    }
}

/// The multiplier of the best between two ends of which the higher covers, and how many middles are evaluated.
fn halved(trials: &[Trial], low: usize, high: usize) -> (usize, i128) {
    if high - low == 1 {
        return (high, 0);
    }
    let middle = (low + high) / 2;
    let (multiplier, middles) = match trials[middle].surplus {
        0 => (middle, 0),
        surplus if surplus > 0 => halved(trials, low, middle),
        _ => halved(trials, middle, high),
    };
    (multiplier, middles + 1)
}

// ---- judgements

/// What brute force finds of a case: the permitted outputs, and if some cover the demand, how cheaply and above which floor.
struct Known {
    offers: Vec<Vec<Offer>>,
    demand_net: i128,
    covered: Option<Covered>,
}

struct Covered {
    cheapest: i128,
    greatest_floor: i128,
    reply: Reply,
}

impl Known {
    fn of(case: &Case) -> Known {
        let offers: Vec<Vec<Offer>> = case.units.iter().map(solver::offers).collect();
        let demand_net = solver::NET_OF_A_STEP * case.demand;
        let covered = cheapest_covering(&offers, demand_net).map(|cheapest| Covered {
            cheapest,
            greatest_floor: greatest_floor(&all_trials(&offers, demand_net)),
            reply: solver::solve(case).expect("a reply, as something covers"),
        });
        Known { offers, demand_net, covered }
    }

    /// The first sentence that the answer for these outputs breaks.
    fn broken_sentence(&self, outputs: &[u32], answer: Result<Judged, Refused>) -> Option<&'static str> {
        let outputs: Vec<i128> = outputs.iter().map(|output| i128::from(*output)).collect();
        match (&self.covered, answer) {
            (None, Err(Refused(11))) => None,
            (None, _) | (Some(_), Err(Refused(11))) => Some("11 exactly when nothing covers"),
            (Some(_), Err(Refused(19))) if outputs.len() != self.offers.len() => None,
            (Some(covered), Ok(judged)) if outputs.len() == self.offers.len() => self.broken_by(covered, &outputs, judged),
            _ => Some("19 exactly for a list of another length"),
        }
    }

    fn broken_by(&self, covered: &Covered, outputs: &[i128], judged: Judged) -> Option<&'static str> {
        let covers = |allocation: &Allocation| solver::total_net(allocation) >= self.demand_net;
        let (allocation, cost, surplus, distance) = match (permitted_allocation(&self.offers, outputs).filter(covers), judged) {
            (None, Judged::NotAccepted) => return None,
            (Some(allocation), Judged::Accepted { cost, surplus, distance }) => (allocation, cost, surplus, distance),
            _ => return Some("accepted exactly where all outputs are permitted and together cover"),
        };
        let reply = &covered.reply;
        let of_reply = (reply.cost, reply.surplus, reply.gap);
        let sentences = [
            (solver::total_cost(&allocation) == cost, "the cost is exact"),
            (solver::total_net(&allocation) - self.demand_net == surplus, "the surplus is exact"),
            (cost - distance == covered.greatest_floor, "cost - distance is the greatest floor of all multipliers"),
            (distance >= 0, "the distance is not negative"),
            (covered.cheapest >= cost - distance, "nobody spends less than cost - distance"),
            (outputs != reply.outputs || (cost, surplus, distance) == of_reply, "dispatch's own are judged as it replies"),
        ];
        sentences.iter().find(|(holds, _)| !holds).map(|(_, sentence)| *sentence)
    }
}

/// Checks judgements of small cases. It keeps what it found of the last file, as the lists for one file follow one another.
#[derive(Default)]
pub struct Judgements {
    last: Option<(Vec<u8>, Known)>,
    pub checked: u64,
}

impl Judgements {
    /// Checks every sentence for an accepted file, a list and the answer. An error has the sentence that fails, and the call.
    pub fn check(&mut self, file: &[u8], outputs: &[u32], answer: Result<Judged, Refused>) -> Result<(), String> {
        let last = self.last.take().filter(|(of_file, _)| of_file == file);
        let known = last.map_or_else(|| Known::of(&solver::decode(file).expect("an accepted file")), |(_, known)| known);
        let broken = known.broken_sentence(outputs, answer);
        self.last = Some((file.to_vec(), known));
        self.checked += 1;
        broken.map_or(Ok(()), |sentence| {
            Err(format!("not so: {}\nfile {}\noutputs {:?}\nanswer {:?}", sentence, hex(file), outputs, answer))
        })
    }
}

// ---- floors for other demands

/// What brute force finds of a case that dispatch answers: the permitted outputs, the multipliers that the bisection evaluates, and
/// the greatest floor of all multipliers for the case's own demand.
struct Evaluated {
    offers: Vec<Vec<Offer>>,
    multipliers: Vec<i128>,
    greatest_floor: i128,
    reply: Reply,
}

impl Evaluated {
    /// None where nothing covers the case's own demand.
    fn of(case: &Case) -> Option<Evaluated> {
        let offers: Vec<Vec<Offer>> = case.units.iter().map(solver::offers).collect();
        let demand_net = solver::NET_OF_A_STEP * case.demand;
        cheapest_covering(&offers, demand_net)?;
        let trials = all_trials(&offers, demand_net);
        let multipliers = evaluated(&trials);
        let reply = solver::solve(case).expect("a reply, as something covers");
        Some(Evaluated { offers, multipliers, greatest_floor: greatest_floor(&trials), reply })
    }

    /// The first sentence that these floors break.
    fn broken_sentence(&self, own: i128, demands: &[u32], floors: &[i64]) -> Option<&'static str> {
        if demands.len() != floors.len() {
            return Some("there is a floor for each demand");
        }
        let pairs: Vec<(i128, i128)> =
            demands.iter().zip(floors).map(|(d, floor)| (i128::from(*d), i128::from(*floor))).collect();
        pairs.iter().find_map(|(demand, floor)| self.broken_at(own, *demand, *floor)).or_else(|| broken_order(&pairs))
    }

    fn broken_at(&self, own: i128, demand: i128, floor: i128) -> Option<&'static str> {
        let demand_net = solver::NET_OF_A_STEP * demand;
        // the floor of a multiplier in a case that has this demand
        let floor_of = |multiplier: &i128| trial(&self.offers, demand_net, *multiplier).floor;
        let cheapest = cheapest_covering(&self.offers, demand_net);
        let of_reply = self.reply.cost - self.reply.gap;
        let sentences = [
            (self.multipliers.iter().map(floor_of).max() == Some(floor), "a floor is the greatest of those evaluated"),
            (cheapest.map_or(true, |cheapest| cheapest >= floor), "nobody covers a demand for less than its floor"),
            (demand != own || floor == of_reply, "the floor for the case's own demand is cost - gap"),
            (demand != own || floor == self.greatest_floor, "the floor for the case's own demand is the greatest of all"),
            (floor >= 0, "no floor is negative"),
        ];
        sentences.iter().find(|(holds, _)| !holds).map(|(_, sentence)| *sentence)
    }
}

/// The multipliers that the bisection evaluates, in order.
fn evaluated(trials: &[Trial]) -> Vec<i128> {
    let top = trials.len() - 1;
    if trials[0].surplus >= 0 {
        return vec![0];
    }
    let mut multipliers = vec![0, top as i128];
    if trials[top].surplus > 0 {
        let (mut low, mut high) = (0, top);
        while high - low > 1 && trials[(low + high) / 2].surplus != 0 {
            let middle = (low + high) / 2;
            multipliers.push(middle as i128);
            (low, high) = if trials[middle].surplus > 0 { (low, middle) } else { (middle, high) };
        }
        if high - low > 1 {
            multipliers.push((low + high) as i128 / 2);
        }
    }
    multipliers
}

fn broken_order(pairs: &[(i128, i128)]) -> Option<&'static str> {
    let mut sorted = pairs.to_vec();
    sorted.sort_unstable();
    let rises = sorted.windows(2).all(|two| two[0].1 <= two[1].1 && (two[0].0 < two[1].0 || two[0].1 == two[1].1));
    if rises {
        None
    } else {
        Some("no floor falls as the demand rises")
    }
}

/// Checks floors of small cases. It keeps what it found of the last file, as the lists for one file follow one another.
#[derive(Default)]
pub struct Floors {
    last: Option<(Vec<u8>, Option<Evaluated>)>,
    pub checked: u64,
}

impl Floors {
    /// Checks every sentence for an accepted file, a list that is not refused and the answer. An error has the sentence that fails,
    /// and the call.
    pub fn check(&mut self, file: &[u8], demands: &[u32], answer: Result<&[i64], Refused>) -> Result<(), String> {
        let case = solver::decode(file).expect("an accepted file");
        let last = self.last.take().filter(|(of_file, _)| of_file == file);
        let evaluated = last.map_or_else(|| Evaluated::of(&case), |(_, evaluated)| evaluated);
        let broken = match (&evaluated, answer) {
            (None, Err(Refused(11))) => None,
            (Some(evaluated), Ok(floors)) => evaluated.broken_sentence(case.demand, demands, floors),
            _ => Some("11 exactly when nothing covers"),
        };
        self.last = Some((file.to_vec(), evaluated));
        self.checked += demands.len() as u64;
        broken.map_or(Ok(()), |sentence| {
            Err(format!("not so: {}\nfile {}\ndemands {:?}\nanswer {:?}", sentence, hex(file), demands, answer))
        })
    }
}

// ---- two demands of one case

/// Checks dispatches of files that differ only in demand.
#[derive(Default)]
pub struct Loads {
    checked: u64,
    dearer: u64,
    greater_floor_alone: u64,
    higher_refused: u64,
}

impl Loads {
    /// Checks every sentence for two such answers, the lower demand's first. An error has the sentence that fails.
    pub fn check(&mut self, lower: Result<Reply, Refused>, higher: Result<Reply, Refused>) -> Result<(), String> {
        let floor = |reply: &Reply| reply.cost - reply.gap;
        let broken = match (&lower, &higher) {
            (Err(Refused(11)), Ok(_)) => Some("if the higher demand is solved so is the lower"),
            (Ok(lower), Ok(higher)) if lower.cost > higher.cost => Some("the lower demand costs no more"),
            (Ok(lower), Ok(higher)) if floor(lower) > floor(higher) => Some("the lower demand has no greater floor"),
            (Ok(_), Ok(_)) => None,
            (Ok(_), Err(Refused(11))) | (Err(Refused(11)), Err(Refused(11))) => None,
            _ => Some("an accepted file is solved or refused with 11"),
        };
        self.checked += 1;
        if let (Ok(lower), Ok(higher)) = (&lower, &higher) {
            self.dearer += u64::from(lower.cost < higher.cost);
            self.greater_floor_alone += u64::from(lower.cost == higher.cost && floor(lower) < floor(higher));
        }
        self.higher_refused += u64::from(lower.is_ok() && higher.is_err());
        broken.map_or(Ok(()), |sentence| Err(format!("not so: {}\nlower {:?}\nhigher {:?}", sentence, lower, higher)))
    }

    pub fn line(&self) -> String {
        format!(
            "{} pairs of demands of one file: the higher dearer in {}, only its floor greater in {}, refused in {}",
            self.checked, self.dearer, self.greater_floor_alone, self.higher_refused
        )
    }

    pub fn assert_complete(&self) {
        assert!(self.dearer > 0 && self.greater_floor_alone > 0 && self.higher_refused > 0, "a kind of pair is missing: {}", self.line());
    }
}

// ---- runs

/// What is known of a run since its last accepted start: the file, its case, search and reply, and how many advances there were with
/// the same bytes. Of a small case the least cost of the allocations that cover, too.
struct Followed {
    file: Vec<u8>,
    problem: Problem,
    search: Search,
    reply: Reply,
    cheapest: Option<i128>,
    advances: usize,
}

impl Followed {
    fn of(file: &[u8], is_small: bool) -> Followed {
        let case = solver::decode(file).expect("a started file");
        let problem = solver::problem(&case).expect("a started case");
        let mut bytes = [0; 92];
        let length = solver::dispatch(file, &mut bytes).expect("a reply to a started file");
        let cheapest = if is_small { cheapest_covering(&problem.offers, problem.demand_net) } else { None };
        let (search, reply) = (solver::search(&problem), solver::decode_reply(&bytes[..length]));
        Followed { file: file.to_vec(), problem, search, reply, cheapest, advances: 0 }
    }

    /// The best and the greatest floor of the evaluations that are made, from the whole search.
    fn so_far(&self) -> (&[Offer], i128) {
        let visits = &self.search.visits[..self.evaluations()];
        let covering = visits.iter().rev().find(|(_, evaluation)| self.problem.surplus(&evaluation.lowered) >= 0);
        let best = covering.map_or(&self.problem.greatest, |(_, evaluation)| &evaluation.lowered);
        (best, visits.iter().map(|(_, evaluation)| solver::floor(evaluation.dual)).fold(0, i128::max))
    }

    fn evaluations(&self) -> usize {
        self.advances.min(self.search.visits.len())
    }

    /// The first sentence that a run breaks.
    fn broken_sentence(&self, run: &Run) -> Option<&'static str> {
        let Run { numbers, held } = run;
        let asked = solver::ask(numbers);
        let outputs = &asked.outputs[..self.problem.offers.len()];
        let allocation = match permitted_allocation(&self.problem.offers, outputs) {
            Some(allocation) => allocation,
            None => return Some("the outputs are permitted"),
        };
        let (best, floor) = self.so_far();
        let is_finished = asked.state == State::Finished;
        let told = (asked.evaluations, asked.cost, asked.gap, asked.surplus, outputs);
        let reply = &self.reply;
        let length = self.file.len();
        let sentences = [
            (numbers[8] == length as u64 && held[..length] == self.file, "the run holds the file of the last accepted start"),
            (asked.count as usize == outputs.len(), "the count is the number of units"),
            (is_finished == (self.advances as i128 >= reply.evaluations), "finished exactly after dispatch's evaluations"),
            (asked.evaluations == self.evaluations() as i128, "one evaluation to an advance"),
            (allocation == best && i128::from(numbers[6]) == floor, "a run is the search so far"),
            (asked.surplus >= 0 && solver::total_net(&allocation) - self.problem.demand_net == asked.surplus, "the outputs cover"),
            (solver::total_cost(&allocation) == asked.cost, "the cost is exact"),
            (asked.cost - asked.gap == floor, "cost - gap is the greatest floor so far"),
            (self.cheapest.map_or(true, |cheapest| cheapest >= asked.cost - asked.gap), "nobody spends less than cost - gap"),
            (
                !is_finished || told == (reply.evaluations, reply.cost, reply.gap, reply.surplus, &reply.outputs[..]),
                "a finished run is dispatch's reply",
            ),
        ];
        sentences.iter().find(|(holds, _)| !holds).map(|(_, sentence)| *sentence)
    }
}

/// Follows one run through its operations.
#[derive(Default)]
pub struct Runs {
    followed: Option<Followed>,
    /// Whether numbers other than zeros were put into it, and no start was accepted since.
    is_made_up: bool,
    /// How many moments were checked, how many of them by brute force, and how many runs came to their end.
    moments: u64,
    by_brute_force: u64,
    ends: u64,
}

impl Runs {
    /// Checks every sentence for an operation, its answer and the run before and after it. An error has the sentence that fails, and
    /// the operation.
    pub fn check(&mut self, operation: &Operation, before: &Run, answer: &Answer, after: &Run, is_small: bool) -> Result<(), String> {
        let refusal = self.broken_refusal(operation, answer);
        self.follow(operation, answer, is_small);
        let change = refusal.or_else(|| broken_change(operation, before, answer, after));
        let broken = change.or_else(|| self.broken_moment(operation, before, after));
        broken.map_or(Ok(()), |sentence| {
            Err(format!("not so: {}\n{:?}\nof {:?}\nanswer {:?}\nthen {:?}", sentence, operation, before, answer, after))
        })
    }

    pub fn line(&self) -> String {
        let (moments, by_brute_force, ends) = (self.moments, self.by_brute_force, self.ends);
        format!("{} moments of runs checked, {} of them by brute force; {} runs stepped to their end", moments, by_brute_force, ends)
    }

    fn follow(&mut self, operation: &Operation, answer: &Answer, is_small: bool) {
        match (operation, answer, &mut self.followed) {
            (Operation::Put(numbers, _), _, followed) => {
                self.is_made_up = *numbers != ZEROS;
                *followed = None;
            }
            (Operation::Start(file), Answer::Started(Ok(())), followed) => {
                self.is_made_up = false;
                *followed = Some(Followed::of(file, is_small));
            }
            (Operation::Advance(file), _, Some(followed)) if *file == followed.file => {
                followed.advances += 1;
                self.ends += u64::from(followed.advances == followed.search.visits.len());
            }
            _ => {}
        }
    }

    /// An advance of a run that a start has made is refused exactly where the bytes differ, and then with 24.
    fn broken_refusal(&self, operation: &Operation, answer: &Answer) -> Option<&'static str> {
        let (file, followed) = match (operation, &self.followed) {
            (Operation::Advance(file), Some(followed)) => (file, followed),
            _ => return None,
        };
        let number = if *file == followed.file { None } else { Some(Refused(24)) };
        Some("an advance is refused exactly where the bytes differ, with 24").filter(|_| answer.refused() != number)
    }

    fn broken_moment(&mut self, operation: &Operation, before: &Run, after: &Run) -> Option<&'static str> {
        let followed = match &self.followed {
            Some(followed) => followed,
            None if self.is_made_up || after.numbers == ZEROS => return None,
            None => return Some("zeros stay until a start is accepted"),
        };
        self.moments += 1;
        self.by_brute_force += u64::from(followed.cheapest.is_some());
        let is_start = matches!(operation, Operation::Start(_)) && followed.advances == 0;
        if !is_start && (after.numbers[4] > before.numbers[4] || after.numbers[6] < before.numbers[6]) {
            return Some("between two starts cost never rises and floor never falls");
        }
        followed.broken_sentence(after)
    }
}

/// What an operation may not do to any run.
fn broken_change(operation: &Operation, before: &Run, answer: &Answer, after: &Run) -> Option<&'static str> {
    let state = solver::ask(&before.numbers).state;
    let is_advance = matches!(operation, Operation::Advance(_));
    let not_started = match answer {
        Answer::Advanced(answer) => *answer == Ok(State::NotStarted),
        Answer::Asked(asked) => asked.state == State::NotStarted,
        _ => false,
    };
    let may_change = match answer {
        Answer::Put | Answer::Started(Ok(())) => true,
        Answer::Advanced(Ok(_)) => state == State::Unfinished,
        _ => false,
    };
    // how many of the held bytes may be others than before
    let taken = match (operation, answer) {
        (Operation::Put(_, bytes), _) => bytes.len(),
        (Operation::Start(file), Answer::Started(Ok(()))) => file.len(),
        _ => 0,
    };
    let asks_or_advances = is_advance || matches!(operation, Operation::Ask);
    let sentences = [
        (may_change || before == after, "asks, refusals and advances of a run that is not started or finished change nothing"),
        (before.held[taken..] == after.held[taken..], "bytes behind the file of an accepted start stay"),
        (!asks_or_advances || before.numbers != ZEROS || not_started, "zeros are not started"),
        (!not_started || state == State::NotStarted, "advance and ask agree on what is not started"),
        (!is_advance || state == State::NotStarted || !not_started, "a started run is advanced"),
    ];
    sentences.iter().find(|(holds, _)| !holds).map(|(_, sentence)| *sentence)
}

// ---- searches within a budget

/// What is known of a case that dispatch answers: its permitted outputs, dispatch's reply and the replies so far by their budgets. Of
/// a small case the least cost of the allocations that cover, too.
struct Budgeted {
    problem: Problem,
    dispatched: Reply,
    cheapest: Option<i128>,
    replies: Vec<(u32, Vec<u8>)>,
}

impl Budgeted {
    /// The first sentence that a reply breaks.
    fn broken_sentence(&self, budget: u32, reply: &Refined) -> Option<&'static str> {
        let allocation = match permitted_allocation(&self.problem.offers, &reply.outputs) {
            Some(allocation) => allocation,
            None => return Some("the outputs are permitted"),
        };
        let dispatched = &self.dispatched;
        let of_dispatch = (dispatched.cost, dispatched.gap, dispatched.surplus, &dispatched.outputs);
        let is_bounded = |cheapest: i128| cheapest >= reply.cost - reply.gap;
        let is_optimal = |cheapest: i128| reply.gap > 0 || reply.cost == cheapest;
        let sentences = [
            (solver::total_net(&allocation) >= self.problem.demand_net, "the outputs cover the demand"),
            (solver::total_cost(&allocation) == reply.cost, "the cost is exact"),
            (solver::total_net(&allocation) - self.problem.demand_net == reply.surplus, "the surplus is exact"),
            (reply.gap <= reply.cost, "the gap is at most the cost"),
            (self.cheapest.map_or(true, is_bounded), "nobody spends less than cost - gap"),
            (self.cheapest.map_or(true, is_optimal), "without a gap nobody spends less"),
            (1 <= reply.nodes && reply.nodes <= i128::from(budget), "the nodes are 1 to the budget"),
            (
                budget > 1 || (reply.cost, reply.gap, reply.surplus, &reply.outputs) == of_dispatch,
                "a budget of 1 has dispatch's outputs, cost, gap and surplus",
            ),
            (reply.cost <= dispatched.cost && reply.gap <= dispatched.gap, "neither cost nor gap is above dispatch's"),
        ];
        sentences.iter().find(|(holds, _)| !holds).map(|(_, sentence)| *sentence)
    }

    /// The first sentence that a reply breaks beside an earlier one for the same file.
    fn broken_pair(&self, budget: u32, bytes: &[u8]) -> Option<&'static str> {
        let ordered = |(other, reply): &(u32, Vec<u8>)| {
            let (one, two) = ((*other, &reply[..]), (budget, bytes));
            broken_order_of_budgets(one.min(two), one.max(two))
        };
        self.replies.iter().find_map(ordered)
    }
}

fn broken_order_of_budgets(smaller: (u32, &[u8]), larger: (u32, &[u8])) -> Option<&'static str> {
    let [less, more] = [smaller.1, larger.1].map(refined::decode);
    let is_ended = less.nodes < i128::from(smaller.0);
    let sentences = [
        (more.cost <= less.cost, "a larger budget does not raise the cost"),
        (more.gap <= less.gap, "a larger budget does not raise the gap"),
        (more.nodes >= less.nodes, "a larger budget has no fewer nodes"),
        (!is_ended || smaller.1 == larger.1, "fewer nodes than the budget: a larger one gives the same bytes"),
        (smaller.0 != larger.0 || smaller.1 == larger.1, "equal budgets give the same bytes"),
    ];
    sentences.iter().find(|(holds, _)| !holds).map(|(_, sentence)| *sentence)
}

/// Checks searches within budgets. It keeps what it found of the last file, as the budgets for one file follow one another.
#[derive(Default)]
pub struct Refinements {
    last: Option<(Vec<u8>, Budgeted)>,
    checked: u64,
    by_brute_force: u64,
    optimal: u64,
    pairs: u64,
    nothing_covers: u64,
}

impl Refinements {
    /// Checks every sentence for an accepted file, a budget and the answer, beside dispatch's answer. An error has the sentence that
    /// fails, and both answers.
    pub fn check(
        &mut self,
        file: &[u8],
        budget: u32,
        answer: Result<&[u8], Refused>,
        dispatched: Result<Reply, Refused>,
        is_small: bool,
    ) -> Result<(), String> {
        let broken = match (&answer, &dispatched) {
            (Ok(bytes), Ok(reply)) => self.broken_reply(file, budget, bytes, reply, is_small),
            (Err(Refused(11)), Err(Refused(11))) => self.broken_refusal(file, is_small),
            _ => Some("11 exactly where dispatch gives it"),
        };
        broken.map_or(Ok(()), |sentence| {
            Err(format!("not so: {}\nanswer {:?}\ndispatch {:?}", sentence, answer.map(refined::decode), dispatched))
        })
    }

    fn broken_reply(&mut self, file: &[u8], budget: u32, bytes: &[u8], dispatched: &Reply, is_small: bool) -> Option<&'static str> {
        let reply = refined::decode(bytes);
        let mut budgeted = self.take(file, dispatched, is_small);
        let broken = budgeted.broken_sentence(budget, &reply).or_else(|| budgeted.broken_pair(budget, bytes));
        self.checked += 1;
        self.by_brute_force += u64::from(budgeted.cheapest.is_some());
        self.optimal += u64::from(budgeted.cheapest.is_some() && reply.gap == 0 && reply.nodes > 1);
        self.pairs += budgeted.replies.len() as u64;
        budgeted.replies.push((budget, bytes.to_vec()));
        self.last = Some((file.to_vec(), budgeted));
        broken
    }

    /// What is known of the last file, if that is this one, or else found of this one.
    fn take(&mut self, file: &[u8], dispatched: &Reply, is_small: bool) -> Budgeted {
        let find = || {
            let problem = solver::problem(&solver::decode(file).expect("an accepted file")).expect("an answered case");
            let cheapest = if is_small { cheapest_covering(&problem.offers, problem.demand_net) } else { None };
            Budgeted { problem, dispatched: dispatched.clone(), cheapest, replies: vec![] }
        };
        self.last.take().filter(|(of_file, _)| of_file == file).map_or_else(find, |(_, budgeted)| budgeted)
    }

    fn broken_refusal(&mut self, file: &[u8], is_small: bool) -> Option<&'static str> {
        let case = solver::decode(file).expect("an accepted file");
        let offers: Vec<Vec<Offer>> = case.units.iter().map(solver::offers).collect();
        self.nothing_covers += u64::from(is_small);
        let covers = is_small && cheapest_covering(&offers, solver::NET_OF_A_STEP * case.demand).is_some();
        Some("11 only where nothing covers").filter(|_| covers)
    }

    pub fn line(&self) -> String {
        format!(
            "{} replies and {} pairs of budgets checked; by brute force {} replies, {} of several nodes without a gap, and {} refusals with 11",
            self.checked, self.pairs, self.by_brute_force, self.optimal, self.nothing_covers
        )
    }

    pub fn assert_complete(&self) {
        let counts = [self.by_brute_force, self.optimal, self.pairs, self.nothing_covers];
        assert!(counts.iter().all(|count| *count > 0), "a kind of check is missing: {}", self.line());
    }
}
