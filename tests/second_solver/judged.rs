//! The branches of section 19, which the counts of numbers do not tell apart.

use crate::solver::{self, Case, Judged, Refused, Reply, Unit};

/// A call that judges, and the number of its refusal, or none; of a file that dispatch answers, also the case and the reply, and the
/// reply's outputs before lowering.
pub struct Seen<'a> {
    file: &'a [u8],
    outputs: &'a [u32],
    number: Option<u32>,
    solved: Option<(Case, Reply)>,
    unlowered: Option<Vec<i128>>,
}

type Branch = (&'static str, fn(&Seen) -> bool);

pub const BRANCHES: [Branch; 52] = [
    ("accepted, dispatch's own outputs", |seen| seen.accepted(|_, reply| seen.given() == reply.outputs)),
    ("accepted, dispatch's own outputs, some of them lowered", |seen| {
        seen.accepted(|_, reply| seen.given() == reply.outputs && seen.unlowered.as_ref() != Some(&reply.outputs))
    }),
    ("accepted, dearer than dispatch's own, of which some are lowered from these", |seen| {
        seen.accepted(|case, reply| seen.unlowered == Some(seen.given()) && seen.cost(case) > reply.cost)
    }),
    ("accepted, cheaper than dispatch's own", |seen| seen.accepted(|case, reply| seen.cost(case) < reply.cost)),
    ("accepted, dearer than dispatch's own", |seen| seen.accepted(|case, reply| seen.cost(case) > reply.cost)),
    ("accepted, distance 0", |seen| seen.accepted(|case, reply| seen.cost(case) == reply.cost - reply.gap)),
    ("accepted, distance above 0", |seen| seen.accepted(|case, reply| seen.cost(case) > reply.cost - reply.gap)),
    ("accepted, surplus 0", |seen| seen.accepted(|case, _| seen.surplus(case) == 0)),
    ("accepted, a surplus below a step", |seen| seen.accepted(|case, _| (1..100_000_000).contains(&seen.surplus(case)))),
    ("accepted, 1 unit", |seen| seen.accepted(|case, _| case.units.len() == 1)),
    ("accepted, 32 units", |seen| seen.accepted(|case, _| case.units.len() == 32)),
    ("accepted, edition 2", |seen| seen.accepted(|case, _| case.edition == 2)),
    ("accepted, a least output", |seen| seen.accepted_with(|unit, p| p == unit.least)),
    ("accepted, a greatest output", |seen| seen.accepted_with(|unit, p| p == unit.greatest)),
    ("accepted, a lower edge", |seen| seen.accepted_with(|unit, p| unit.zones.iter().any(|zone| p == zone.0))),
    ("accepted, an upper edge", |seen| seen.accepted_with(|unit, p| unit.zones.iter().any(|zone| p == zone.1))),
    ("accepted, a shared edge", |seen| seen.accepted_with(|unit, p| solver::shared_edges(unit).contains(&p))),
    ("not accepted, beside a shared edge", |seen| {
        seen.wrong(|unit, p| solver::shared_edges(unit).iter().any(|edge| (edge - p).abs() == 1))
    }),
    ("accepted, the lower end of a ramp window", |seen| seen.accepted_with(|unit, p| p > 0 && p == window(unit).0)),
    ("accepted, the upper end of a ramp window", |seen| seen.accepted_with(|unit, p| p > 0 && p == window(unit).1)),
    ("accepted, 0 below a ramp window", |seen| seen.accepted_with(|unit, p| p == 0 && window(unit).0 > 0)),
    ("accepted, 0 of a unit with a c0", |seen| seen.accepted_with(|unit, p| p == 0 && unit.c0 > 0)),
    ("not accepted, permitted, short by less than a step", |seen| seen.short(|missing| missing < 100_000_000)),
    ("not accepted, permitted, short by a step or more", |seen| seen.short(|missing| missing >= 100_000_000)),
    ("not accepted, one not permitted, though they cover", |seen| seen.wrong_in(|case, _| seen.surplus(case) >= 0)),
    ("not accepted, one not permitted, nor do they cover", |seen| seen.wrong_in(|case, _| seen.surplus(case) < 0)),
    ("not accepted, the first of several not permitted", |seen| seen.wrong_in(|case, at| at == 0 && case.units.len() > 1)),
    ("not accepted, the last of several not permitted", |seen| seen.wrong_in(|case, at| at > 0 && at + 1 == case.units.len())),
    ("not accepted, edition 2", |seen| seen.wrong_in(|case, _| case.edition == 2)),
    ("not accepted, 0 of a unit that must run", |seen| seen.wrong(|_, p| p == 0)),
    ("not accepted, below least", |seen| seen.wrong(|unit, p| p > 0 && p < unit.least)),
    ("not accepted, above greatest", |seen| seen.wrong(|unit, p| p > unit.greatest && p <= 10_000)),
    ("not accepted, inside a zone", |seen| seen.wrong(|unit, p| unit.zones.iter().any(|zone| zone.0 < p && p < zone.1))),
    ("not accepted, below a ramp window alone", |seen| seen.wrong(|unit, p| p < window(unit).0 && without_ramp(unit, p))),
    ("not accepted, above a ramp window alone", |seen| seen.wrong(|unit, p| p > window(unit).1 && without_ramp(unit, p))),
    ("not accepted, 65,536 above a permitted output", |seen| seen.wrong(|unit, p| solver::permitted(unit, p - 65_536))),
    ("not accepted, 4,294,967,295", |seen| seen.wrong(|_, p| p == i128::from(u32::MAX))),
    ("19 for no output", |seen| seen.gave(19) && seen.outputs.is_empty()),
    ("19 for an output too few", |seen| seen.gave(19) && seen.has_units(seen.outputs.len() + 1)),
    ("19 for an output too many", |seen| seen.gave(19) && seen.has_units(seen.outputs.len().wrapping_sub(1))),
    ("19 for accepted outputs and more", |seen| seen.gave(19) && seen.begins_accepted()),
    ("2 before 19", |seen| seen.before_19(2)),
    ("3 before 19", |seen| seen.before_19(3)),
    ("4 before 19", |seen| seen.before_19(4)),
    ("5 before 19", |seen| seen.before_19(5)),
    ("6 before 19", |seen| seen.before_19(6)),
    ("7 before 19", |seen| seen.before_19(7)),
    ("8 before 19", |seen| seen.before_19(8)),
    ("9 before 19", |seen| seen.before_19(9)),
    ("10 before 19", |seen| seen.before_19(10)),
    ("11 before 19", |seen| seen.before_19(11)),
    ("18 before 19", |seen| seen.before_19(18)),
];

/// The ends of the ramp window; all outputs where there is none.
fn window(unit: &Unit) -> (i128, i128) {
    if unit.previous == 0 {
        (0, i128::MAX)
    } else {
        (unit.previous - unit.down, unit.previous + unit.up)
    }
}

fn without_ramp(unit: &Unit, output: i128) -> bool {
    output > 0 && solver::permitted(&Unit { previous: 0, ..unit.clone() }, output)
}

impl Seen<'_> {
    pub fn new<'a>(file: &'a [u8], outputs: &'a [u32], refused: Option<Refused>) -> Seen<'a> {
        let case = solver::decode(file).ok();
        let unlowered = case.as_ref().and_then(solver::unlowered);
        let solved = case.and_then(|case| solver::solve(&case).ok().map(|reply| (case, reply)));
        Seen { file, outputs, number: refused.map(|refused| refused.0), solved, unlowered }
    }

    fn given(&self) -> Vec<i128> {
        self.outputs.iter().map(|output| i128::from(*output)).collect()
    }

    fn gave(&self, number: u32) -> bool {
        self.number == Some(number)
    }

    /// The case and the reply, where there is an output for each unit and so an answer.
    fn answered(&self) -> Option<&(Case, Reply)> {
        self.solved.as_ref().filter(|_| self.number.is_none())
    }

    fn cost(&self, case: &Case) -> i128 {
        case.units.iter().zip(self.given()).map(|(unit, output)| solver::cost(unit, output)).sum()
    }

    fn surplus(&self, case: &Case) -> i128 {
        let net: i128 = case.units.iter().zip(self.given()).map(|(unit, output)| solver::net(unit, output)).sum();
        net - solver::NET_OF_A_STEP * case.demand
    }

    /// The places of the outputs that are not permitted.
    fn not_permitted(&self, case: &Case) -> Vec<usize> {
        let given = self.given();
        (0..given.len()).filter(|at| !solver::permitted(&case.units[*at], given[*at])).collect()
    }

    fn accepted(&self, condition: impl Fn(&Case, &Reply) -> bool) -> bool {
        let accepts = |case: &Case| self.not_permitted(case).is_empty() && self.surplus(case) >= 0;
        self.answered().map_or(false, |(case, reply)| accepts(case) && condition(case, reply))
    }

    fn accepted_with(&self, condition: fn(&Unit, i128) -> bool) -> bool {
        self.accepted(|case, _| case.units.iter().zip(self.given()).any(|(unit, output)| condition(unit, output)))
    }

    /// Whether all is permitted and does not cover, and what is missing meets a condition.
    fn short(&self, condition: fn(i128) -> bool) -> bool {
        let missing = |case: &Case| -self.surplus(case);
        let is_short = |case: &Case| self.not_permitted(case).is_empty() && missing(case) > 0;
        self.answered().map_or(false, |(case, _)| is_short(case) && condition(missing(case)))
    }

    /// Whether just one output is not permitted, and its place meets a condition.
    fn wrong_in(&self, condition: impl Fn(&Case, usize) -> bool) -> bool {
        self.answered().map_or(false, |(case, _)| match self.not_permitted(case)[..] {
            [at] => condition(case, at),
            _ => false,
        })
    }

    /// Whether just one output is not permitted, and meets a condition.
    fn wrong(&self, condition: fn(&Unit, i128) -> bool) -> bool {
        self.wrong_in(|case, at| condition(&case.units[at], self.given()[at]))
    }

    /// Whether the file's head names so many units.
    fn has_units(&self, count: usize) -> bool {
        self.file.len() >= 4 && solver::field(self.file, 2, 2) == count as i128
    }

    /// Whether the outputs are more than the units, and the first of them are accepted.
    fn begins_accepted(&self) -> bool {
        let count = self.solved.as_ref().map_or(0, |(case, _)| case.units.len());
        let begins = |outputs: &[u32]| matches!(solver::judge(self.file, outputs), Ok(Judged::Accepted { .. }));
        self.outputs.get(..count).map_or(false, begins)
    }

    fn before_19(&self, number: u32) -> bool {
        self.gave(number) && !self.has_units(self.outputs.len())
    }
}
