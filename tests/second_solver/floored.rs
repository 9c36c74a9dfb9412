//! The branches of section 20, floors for other demands, which the counts of numbers do not tell apart.

use crate::solver::{self, Case, Problem, Refused, Search};

/// A call that asks for floors, and the number of its refusal, or none; of a file that dispatch answers also the search.
pub struct Seen<'a> {
    file: &'a [u8],
    demands: &'a [u32],
    room: usize,
    number: Option<u32>,
    solved: Option<Solved>,
}

struct Solved {
    case: Case,
    problem: Problem,
    search: Search,
}

/// One demand of an answered call: how far it is from the case's own, and the multipliers of the greatest floor, by their places in
/// the search.
struct Asked<'a> {
    solved: &'a Solved,
    demand: i128,
    steps: i128,
    best: Vec<usize>,
}

type Branch = (&'static str, fn(&Seen) -> bool);

pub const BRANCHES: [Branch; 83] = [
    ("floors for no demand", |seen| seen.answered(|_| seen.demands.is_empty())),
    ("floors for 1 demand", |seen| seen.answered(|_| seen.demands.len() == 1)),
    ("floors for 96 demands", |seen| seen.answered(|_| seen.demands.len() == 96)),
    ("floors for as many demands as there is room", |seen| seen.answered(|_| seen.demands.len() == seen.room)),
    ("floors with room for more", |seen| seen.answered(|_| seen.demands.len() < seen.room && !seen.demands.is_empty())),
    ("floors with room for more, no demand", |seen| seen.answered(|_| seen.demands.is_empty() && seen.room > 0)),
    ("floors for demands that fall", |seen| seen.answered(|_| seen.demands.windows(2).any(|pair| pair[0] > pair[1]))),
    ("floors for a demand twice", |seen| seen.answered(|_| (1..seen.demands.len()).any(|at| seen.is_repeated(at)))),
    ("floors of 1 unit", |seen| seen.asked(|asked| asked.solved.case.units.len() == 1)),
    ("floors of 32 units", |seen| seen.asked(|asked| asked.solved.case.units.len() == 32)),
    ("floors of edition 2, a b1 that is not 0", |seen| {
        seen.asked(|asked| asked.solved.case.units.iter().any(|unit| unit.b1 != 0))
    }),
    ("floors of a unit whose zones share an edge", |seen| {
        seen.asked(|asked| asked.solved.case.units.iter().any(|unit| !solver::shared_edges(unit).is_empty()))
    }),
    ("floors of a case with demand 0", |seen| seen.asked(|asked| asked.solved.case.demand == 0)),
    ("floors of a case at capacity", |seen| seen.asked(|asked| !asked.solved.covers(asked.solved.case.demand + 1))),
    ("a floor for the case's own demand", |seen| seen.asked(|asked| asked.steps == 0)),
    ("a floor for a demand below it", |seen| seen.asked(|asked| asked.steps < 0)),
    ("a floor for a demand above it", |seen| seen.asked(|asked| asked.steps > 0)),
    ("a floor for demand 0", |seen| seen.asked(|asked| asked.demand == 0)),
    ("a floor for demand 320,000", |seen| seen.asked(|asked| asked.demand == 320_000)),
    ("a floor for a demand that is just covered", |seen| seen.asked(|asked| asked.is_capacity())),
    ("a floor for a demand that nothing covers", |seen| seen.asked(|asked| !asked.solved.covers(asked.demand))),
    ("a floor after 1 evaluation", |seen| seen.asked(|asked| asked.steps != 0 && asked.evaluations() == 1)),
    ("a floor after 2 evaluations, 65,536 covers", |seen| seen.asked(|asked| asked.ends_with(2, |surplus| surplus == 0))),
    ("a floor after 2 evaluations, 65,536 does not", |seen| seen.asked(|asked| asked.ends_with(2, |surplus| surplus < 0))),
    ("a floor after 3 to 17 evaluations", |seen| seen.asked(|asked| (3..18).contains(&asked.evaluations()))),
    ("a floor after 18 evaluations", |seen| seen.asked(|asked| asked.evaluations() == 18)),
    ("the greatest floor at 0 alone", |seen| seen.asked(|asked| asked.evaluations() > 1 && asked.best == [0])),
    ("the greatest floor at 65,536 alone", |seen| seen.asked(|asked| asked.best == [1])),
    ("the greatest floor at one middle alone, the first", |seen| {
        seen.asked(|asked| asked.evaluations() > 3 && asked.best == [2])
    }),
    ("the greatest floor at one middle alone, between", |seen| seen.asked(|asked| asked.is_between())),
    ("the greatest floor at one middle alone, the last", |seen| seen.asked(|asked| asked.is_last() && asked.evaluations() > 3)),
    ("the greatest floor at several multipliers", |seen| seen.asked(|asked| asked.best.len() > 1)),
    ("the greatest floor at other multipliers than the case's own", |seen| seen.asked(|asked| asked.moves())),
    ("the greatest floor rounded up", |seen| seen.asked(|asked| asked.is_rounded())),
    ("the greatest floor just divided", |seen| seen.asked(|asked| asked.floor() > 0 && !asked.is_rounded())),
    ("a floor of 0", |seen| seen.asked(|asked| asked.floor() == 0)),
    ("a floor that 32 bits do not hold", |seen| seen.asked(|asked| asked.floor() > i128::from(u32::MAX))),
    ("a floor below what a dispatch at that demand proves", |seen| seen.first_proves(|floor, proved| floor < proved)),
    ("a floor as great as a dispatch at that demand proves", |seen| seen.first_proves(|floor, proved| floor == proved)),
    ("20 for 97 demands", |seen| seen.gave(20) && seen.demands.len() == 97),
    ("20 for more demands than 8 bits count", |seen| seen.gave(20) && seen.demands.len() > 255),
    ("20 for many demands, with room", |seen| seen.gave(20) && seen.demands.len() > 96 && seen.room >= seen.demands.len()),
    ("20 for many demands, without room", |seen| seen.gave(20) && seen.demands.len() > 96 && seen.room < seen.demands.len()),
    ("20 for 320,001", |seen| seen.too_great(|demand, _| demand == 320_001)),
    ("20 for a demand that 16 bits would cut", |seen| seen.too_great(|demand, _| demand % 65_536 == 0)),
    ("20 for 4,294,967,295", |seen| seen.too_great(|demand, _| demand == u32::MAX)),
    ("20 for the first of several demands", |seen| seen.too_great(|_, at| at == 0 && seen.demands.len() > 1)),
    ("20 for one between", |seen| seen.too_great(|_, at| at > 0 && at + 1 < seen.demands.len())),
    ("20 for the last of several demands", |seen| seen.too_great(|_, at| at > 0 && at + 1 == seen.demands.len())),
    ("20 for the last of 96 demands", |seen| seen.too_great(|_, at| at == 95)),
    ("20 for a demand, without room", |seen| seen.too_great(|_, at| at < seen.room && seen.room < seen.demands.len())),
    ("20 for a demand without a place", |seen| seen.too_great(|_, at| at >= seen.room)),
    ("21 for no place", |seen| seen.gave(21) && seen.room == 0),
    ("21 for a place too few", |seen| seen.gave(21) && seen.room > 0 && seen.room + 1 == seen.demands.len()),
    ("21 for 96 demands", |seen| seen.gave(21) && seen.demands.len() == 96),
    ("20 before 2", |seen| seen.before(20, 2)),
    ("20 before 3", |seen| seen.before(20, 3)),
    ("20 before 4", |seen| seen.before(20, 4)),
    ("20 before 5", |seen| seen.before(20, 5)),
    ("20 before 6", |seen| seen.before(20, 6)),
    ("20 before 7 to 10", |seen| (7..=10).any(|number| seen.before(20, number))),
    ("20 before 18", |seen| seen.before(20, 18)),
    ("20 before 11", |seen| seen.before(20, 11)),
    ("21 before 2", |seen| seen.before(21, 2)),
    ("21 before 3", |seen| seen.before(21, 3)),
    ("21 before 4", |seen| seen.before(21, 4)),
    ("21 before 5", |seen| seen.before(21, 5)),
    ("21 before 6", |seen| seen.before(21, 6)),
    ("21 before 7 to 10", |seen| (7..=10).any(|number| seen.before(21, number))),
    ("21 before 18", |seen| seen.before(21, 18)),
    ("21 before 11", |seen| seen.before(21, 11)),
    ("2 with no demand", |seen| seen.without_demands(2)),
    ("3 with no demand", |seen| seen.without_demands(3)),
    ("4 with no demand", |seen| seen.without_demands(4)),
    ("5 with no demand", |seen| seen.without_demands(5)),
    ("6 with no demand", |seen| seen.without_demands(6)),
    ("7 with no demand", |seen| seen.without_demands(7)),
    ("8 with no demand", |seen| seen.without_demands(8)),
    ("9 with no demand", |seen| seen.without_demands(9)),
    ("10 with no demand", |seen| seen.without_demands(10)),
    ("18 with no demand", |seen| seen.without_demands(18)),
    ("11 with no demand", |seen| seen.without_demands(11)),
    ("11 for the case's own demand, the others covered", |seen| seen.own_is_too_great()),
];

impl Solved {
    fn of(file: &[u8]) -> Option<Solved> {
        let case = solver::decode(file).ok()?;
        let problem = solver::problem(&case).ok()?;
        let search = solver::search(&problem);
        Some(Solved { case, problem, search })
    }

    fn covers(&self, demand: i128) -> bool {
        solver::total_net(&self.problem.greatest) >= solver::NET_OF_A_STEP * demand
    }

    /// The dual value of each evaluation for a demand so many steps above the case's own.
    fn duals(&self, steps: i128) -> Vec<i128> {
        let visits = self.search.visits.iter();
        visits.map(|(multiplier, evaluation)| evaluation.dual + multiplier * solver::NET_OF_A_STEP * steps).collect()
    }

    /// The places of the evaluations with the greatest floor.
    fn best(&self, steps: i128) -> Vec<usize> {
        let floors: Vec<i128> = self.duals(steps).into_iter().map(solver::floor).collect();
        let greatest = self.search.greatest_floor_moved(steps);
        (0..floors.len()).filter(|at| floors[*at] == greatest).collect()
    }
}

impl Asked<'_> {
    fn evaluations(&self) -> usize {
        self.solved.search.visits.len()
    }

    /// Whether so many evaluations were made, and the surplus of the last meets a condition.
    fn ends_with(&self, evaluations: usize, condition: fn(i128) -> bool) -> bool {
        let last = &self.solved.search.visits[self.evaluations() - 1].1;
        self.evaluations() == evaluations && condition(self.solved.problem.surplus(&last.lowered))
    }

    fn is_capacity(&self) -> bool {
        self.solved.covers(self.demand) && !self.solved.covers(self.demand + 1)
    }

    fn is_last(&self) -> bool {
        self.best == [self.evaluations() - 1]
    }

    /// Whether one middle alone has the greatest floor, neither the first nor the last.
    fn is_between(&self) -> bool {
        self.best.len() == 1 && self.best[0] > 2 && !self.is_last()
    }

    /// Whether no multiplier that is best for the case's own demand is best for this one.
    fn moves(&self) -> bool {
        let own = self.solved.best(0);
        !self.best.iter().any(|at| own.contains(at))
    }

    fn floor(&self) -> i128 {
        self.solved.search.greatest_floor_moved(self.steps)
    }

    /// Whether no evaluation gives this floor without rounding.
    fn is_rounded(&self) -> bool {
        !self.solved.duals(self.steps).contains(&(solver::COST_SCALE * self.floor()))
    }
}

impl Seen<'_> {
    pub fn new<'a>(file: &'a [u8], demands: &'a [u32], room: usize, refused: Option<Refused>) -> Seen<'a> {
        Seen { file, demands, room, number: refused.map(|refused| refused.0), solved: Solved::of(file) }
    }

    fn gave(&self, number: u32) -> bool {
        self.number == Some(number)
    }

    fn answered(&self, condition: impl Fn(&Solved) -> bool) -> bool {
        self.solved.as_ref().map_or(false, |solved| self.number.is_none() && condition(solved))
    }

    fn is_repeated(&self, at: usize) -> bool {
        self.demands[..at].contains(&self.demands[at])
    }

    /// Whether some demand of an answered call meets a condition.
    fn asked(&self, condition: fn(&Asked) -> bool) -> bool {
        self.answered(|solved| self.demands.iter().any(|demand| condition(&asked(solved, *demand))))
    }

    /// Whether the first demand, not the case's own, can be dispatched, and its floor and the one proved there meet a condition.
    fn first_proves(&self, condition: fn(i128, i128) -> bool) -> bool {
        let proves = |solved: &Solved, demand: i128| {
            let reply = solver::solve(&Case { demand, ..solved.case.clone() });
            let floor = solved.search.greatest_floor_moved(demand - solved.case.demand);
            demand != solved.case.demand && reply.map_or(false, |reply| condition(floor, reply.cost - reply.gap))
        };
        self.answered(|solved| self.demands.first().map_or(false, |demand| proves(solved, i128::from(*demand))))
    }

    /// Whether 20 was given for just one demand of at most 96, and it and its place meet a condition.
    fn too_great(&self, condition: impl Fn(u32, usize) -> bool) -> bool {
        let places: Vec<usize> = (0..self.demands.len()).filter(|at| self.demands[*at] > 320_000).collect();
        match places[..] {
            [at] => self.gave(20) && self.demands.len() <= 96 && condition(self.demands[at], at),
            _ => false,
        }
    }

    /// The number with which dispatch refuses the file.
    fn number_of_file(&self) -> Option<u32> {
        let refused = solver::decode(self.file).and_then(|case| solver::problem(&case).map(|_| ())).err();
        refused.map(|refused| refused.0)
    }

    fn before(&self, number: u32, hidden: u32) -> bool {
        self.gave(number) && self.number_of_file() == Some(hidden)
    }

    fn without_demands(&self, number: u32) -> bool {
        self.gave(number) && self.demands.is_empty()
    }

    /// Whether 11 was given, though the units together cover every demand of the list.
    fn own_is_too_great(&self) -> bool {
        let most = self.demands.iter().max().map(|demand| i128::from(*demand));
        let covers = |demand: i128| {
            let case = solver::decode(self.file).ok();
            case.map_or(false, |case| solver::problem(&Case { demand, ..case }).is_ok())
        };
        self.gave(11) && most.map_or(false, covers)
    }
}

fn asked(solved: &Solved, demand: u32) -> Asked<'_> {
    let demand = i128::from(demand);
    let steps = demand - solved.case.demand;
    Asked { solved, demand, steps, best: solved.best(steps) }
}
