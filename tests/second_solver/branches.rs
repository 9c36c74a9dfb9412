//! What the counts of numbers do not tell apart: the branches of the rules on editions, on 18 and on shared edges, and how often calls came to each of
//! them and of those of `lowered`, `judged` and `floored`.

use crate::calls::Call;
use crate::floored;
use crate::judged;
use crate::lowered;
use crate::solver::{self, Case, Refused, Unit};

/// A call on a file, and the number of its refusal, or none.
struct Seen<'a> {
    file: &'a [u8],
    unpacking: bool,
    number: Option<u32>,
}

type Branch = (&'static str, fn(&Seen) -> bool);

const BRANCHES: [Branch; 42] = [
    ("edition 2 answered, b1 of all units 0", |seen| seen.answered(|units| units.iter().all(|unit| unit.b1 == 0))),
    ("edition 2 answered, a b1 below 0", |seen| seen.answered_with(|unit| unit.b1 < 0)),
    ("edition 2 answered, a b1 above 0", |seen| seen.answered_with(|unit| unit.b1 > 0)),
    ("edition 2 answered, a b1 of -10,000,000", |seen| seen.answered_with(|unit| unit.b1 == -10_000_000)),
    ("edition 2 answered, a b1 of 10,000,000", |seen| seen.answered_with(|unit| unit.b1 == 10_000_000)),
    ("edition 2 answered, b1 + 19,999 b = 99,999,999", |seen| seen.answered_with(|unit| slope(unit) == 99_999_999)),
    ("edition 2 answered, a unit without zones", |seen| seen.answered_with(|unit| unit.zones.is_empty())),
    ("edition 2 answered, a unit of 1 zone", |seen| seen.answered_with(|unit| unit.zones.len() == 1)),
    ("edition 2 answered, a unit of 2 zones", |seen| seen.answered_with(|unit| unit.zones.len() == 2)),
    ("edition 2 answered, a unit of 3 zones", |seen| seen.answered_with(|unit| unit.zones.len() == 3)),
    ("edition 2 answered, a unit of 4 zones", |seen| seen.answered_with(|unit| unit.zones.len() == 4)),
    ("edition 2 answered, 1,608 bytes", |seen| seen.answered(|_| seen.file.len() == 1_608)),
    ("3 for edition 0", |seen| seen.gave(3) && seen.edition() == Some(0)),
    ("3 for edition 3", |seen| seen.gave(3) && seen.edition() == Some(3)),
    ("6 for a body of 26 bytes in edition 2", |seen| seen.gave(6) && seen.edition() == Some(2) && !seen.has_6_as(1)),
    ("6 for a body of 46 bytes in edition 1", |seen| seen.gave(6) && seen.edition() == Some(1) && !seen.has_6_as(2)),
    ("18 for a b1 below its range", |seen| seen.first_refused_has(18, |_, b1| b1 < -10_000_000)),
    ("18 for a b1 above its range", |seen| seen.first_refused_has(18, |_, b1| b1 > 10_000_000)),
    ("18 for a b1 of its range beside its b", |seen| seen.first_refused_has(18, |_, b1| b1.abs() <= 10_000_000)),
    ("18 for b1 + 19,999 b = 100,000,000", |seen| seen.first_refused_has(18, |b, b1| b1 + 19_999 * b == 100_000_000)),
    ("8 before 18 of the same unit", |seen| seen.first_refused_hides(8, 18)),
    ("18 before 9 of the same unit", |seen| seen.first_refused_hides(18, 9)),
    ("18 before 10 of the same unit", |seen| seen.first_refused_hides(18, 10)),
    ("9 before 18 of a later unit", |seen| seen.later_refused(9, 18)),
    ("10 before 18 of a later unit", |seen| seen.later_refused(10, 18)),
    ("18 before 7 of a later unit", |seen| seen.later_refused(18, 7)),
    ("18 before 8 of a later unit", |seen| seen.later_refused(18, 8)),
    ("unpacking edition 2: 1 before 3", |seen| seen.unpacking && seen.gave(1) && seen.edition() == Some(2)),
    ("unpacking edition 2: 2 before 3", |seen| seen.unpacking && seen.gave(2) && seen.edition() == Some(2)),
    ("unpacking edition 2: 3 for an accepted file", |seen| seen.unpacked_2() && solver::decode(seen.file).is_ok()),
    ("unpacking edition 2: 3 before 4", |seen| seen.unpacked_2() && seen.verdict() == Some(4)),
    ("unpacking edition 2: 3 before 5", |seen| seen.unpacked_2() && seen.verdict() == Some(5)),
    ("unpacking edition 2: 3 before 6", |seen| seen.unpacked_2() && seen.verdict() == Some(6)),
    ("unpacking edition 2: 3 before 18", |seen| seen.unpacked_2() && seen.verdict() == Some(18)),
    ("answered, two zones that share an edge", |seen| seen.shares(1, |unit| unit.zones.len() == 2)),
    ("answered, three zones that share two edges", |seen| seen.shares(2, |unit| unit.zones.len() == 3)),
    ("answered, four zones that share three edges", |seen| seen.shares(3, |unit| unit.zones.len() == 4)),
    ("answered, a shared edge alone in the ramp window", |seen| seen.shares(1, |unit| window_of_a_shared_edge(unit))),
    ("answered, a shared edge outside the ramp window", |seen| seen.shares(1, |unit| shared_edge_cut_off(unit))),
    ("edition 2 answered, a shared edge", |seen| seen.edition() == Some(2) && seen.shares(1, |_| true)),
    ("unpacked, a shared edge", |seen| seen.unpacking && seen.shares(1, |_| true)),
    ("dispatched, a unit at a shared edge", |seen| !seen.unpacking && seen.gives_a_shared_edge()),
];

fn window_of_a_shared_edge(unit: &Unit) -> bool {
    let running: Vec<i128> = solver::offers(unit).iter().map(|offer| offer.output).filter(|output| *output > 0).collect();
    unit.previous > 0 && running.len() == 1 && solver::shared_edges(unit).contains(&running[0])
}

fn shared_edge_cut_off(unit: &Unit) -> bool {
    let outputs: Vec<i128> = solver::offers(unit).iter().map(|offer| offer.output).collect();
    solver::shared_edges(unit).iter().any(|edge| !outputs.contains(edge))
}

fn slope(unit: &Unit) -> i128 {
    unit.b1 + 19_999 * unit.b
}

/// Of a body's numbers those that this number is about, put in range: 8 and 18 are looked at.
fn mended(body: &[u8], number: u32) -> Vec<u8> {
    let mut body = body.to_vec();
    if number == 18 {
        body[26..30].fill(0);
    } else {
        let b = solver::field(&body, 10, 2).min(5_000) as u16;
        body[..10].fill(0);
        body[10..12].copy_from_slice(&b.to_be_bytes());
    }
    body
}

fn number_of(body: &[u8]) -> Option<u32> {
    solver::decode_body(body, 2).err().map(|refused| refused.0)
}

impl Seen<'_> {
    fn gave(&self, number: u32) -> bool {
        self.number == Some(number)
    }

    fn edition(&self) -> Option<i128> {
        self.file.get(..2).map(|bytes| solver::field(bytes, 0, 2))
    }

    /// The number of the file's own checks.
    fn verdict(&self) -> Option<u32> {
        solver::decode(self.file).err().map(|refused| refused.0)
    }

    /// Whether the file would be refused with 6 as one of another edition.
    fn has_6_as(&self, edition: u8) -> bool {
        let mut file = self.file.to_vec();
        file[1] = edition;
        matches!(solver::parts(&solver::EDITIONS, &file), Err(Refused(6)))
    }

    fn answered(&self, condition: impl Fn(&[Unit]) -> bool) -> bool {
        let taken = self.number.is_none() && self.edition() == Some(2);
        taken && solver::decode(self.file).map_or(false, |case| condition(&case.units))
    }

    fn answered_with(&self, condition: fn(&Unit) -> bool) -> bool {
        self.answered(|units| units.iter().any(condition))
    }

    /// Whether the call was answered and a unit of the file has so many shared edges, and more that is asked.
    fn shares(&self, edges: usize, condition: fn(&Unit) -> bool) -> bool {
        let asked = |unit: &Unit| solver::shared_edges(unit).len() >= edges && condition(unit);
        self.number.is_none() && solver::decode(self.file).map_or(false, |case| case.units.iter().any(asked))
    }

    fn gives_a_shared_edge(&self) -> bool {
        let gives = |case: &Case| {
            let outputs = solver::solve(case).map_or(Vec::new(), |reply| reply.outputs);
            case.units.iter().zip(outputs).any(|(unit, output)| solver::shared_edges(unit).contains(&output))
        };
        self.shares(1, |_| true) && solver::decode(self.file).map_or(false, |case| gives(&case))
    }

    fn unpacked_2(&self) -> bool {
        self.unpacking && self.gave(3) && self.edition() == Some(2)
    }

    /// The first body of an edition 2 file for which the call gave this number, and the bodies behind it.
    fn refused_body(&self, number: u32) -> Option<(&[u8], Vec<&[u8]>)> {
        let parts = solver::parts(&[2], self.file).ok().filter(|_| self.gave(number))?;
        let first = parts.bodies.iter().position(|body| number_of(body) == Some(number))?;
        Some((parts.bodies[first], parts.bodies[first + 1..].to_vec()))
    }

    fn first_refused_has(&self, number: u32, condition: fn(i128, i128) -> bool) -> bool {
        let losses = |body: &[u8]| condition(solver::field(body, 10, 2), solver::signed_field(body, 26));
        self.refused_body(number).map_or(false, |(body, _)| losses(body))
    }

    fn first_refused_hides(&self, number: u32, hidden: u32) -> bool {
        self.refused_body(number).map_or(false, |(body, _)| number_of(&mended(body, number)) == Some(hidden))
    }

    fn later_refused(&self, number: u32, hidden: u32) -> bool {
        let hides = |later: &[&[u8]]| later.iter().any(|body| number_of(body) == Some(hidden));
        self.refused_body(number).map_or(false, |(_, later)| hides(&later))
    }
}

/// Where the counts of `judged` start, behind those of `lowered`.
const JUDGED: usize = BRANCHES.len() + lowered::BRANCHES.len();

/// Where those of `floored` start.
const FLOORED: usize = JUDGED + judged::BRANCHES.len();

/// How often calls came to each branch: those above, then those of `lowered`, of `judged` and of `floored`.
pub struct Reached([u64; FLOORED + floored::BRANCHES.len()]);

impl Default for Reached {
    fn default() -> Reached {
        Reached([0; FLOORED + floored::BRANCHES.len()])
    }
}

impl Reached {
    pub fn count(&mut self, call: &Call, refused: Option<Refused>) {
        match call {
            Call::Dispatch { file, .. } => {
                self.count_file(file, false, refused);
                self.count_lowered(file, refused);
            }
            Call::Price { file, .. } => self.count_file(file, false, refused),
            Call::Unpack { file, .. } => self.count_file(file, true, refused),
            Call::Judge { file, outputs } => self.count_judged(file, outputs, refused),
            Call::Floors { file, demands, room } => self.count_floored(file, demands, *room, refused),
            Call::Pack { .. } | Call::View { .. } => {}
        }
    }

    fn count_file(&mut self, file: &[u8], unpacking: bool, refused: Option<Refused>) {
        let seen = Seen { file, unpacking, number: refused.map(|refused| refused.0) };
        for (count, (_, reached)) in self.0.iter_mut().zip(BRANCHES) {
            *count += u64::from(reached(&seen));
        }
    }

    fn count_lowered(&mut self, file: &[u8], refused: Option<Refused>) {
        if refused.is_none() {
            let seen = lowered::Seen::new(file);
            for (count, (_, reached)) in self.0[BRANCHES.len()..].iter_mut().zip(lowered::BRANCHES) {
                *count += u64::from(reached(&seen));
            }
        }
    }

    fn count_judged(&mut self, file: &[u8], outputs: &[u32], refused: Option<Refused>) {
        let seen = judged::Seen::new(file, outputs, refused);
        for (count, (_, reached)) in self.0[JUDGED..].iter_mut().zip(judged::BRANCHES) {
            *count += u64::from(reached(&seen));
        }
    }

    fn count_floored(&mut self, file: &[u8], demands: &[u32], room: usize, refused: Option<Refused>) {
        let seen = floored::Seen::new(file, demands, room, refused);
        for (count, (_, reached)) in self.0[FLOORED..].iter_mut().zip(floored::BRANCHES) {
            *count += u64::from(reached(&seen));
        }
    }

    /// The name of each branch, and its count.
    fn counts(&self) -> impl Iterator<Item = (&'static str, u64)> + '_ {
        let own = BRANCHES.iter().map(|branch| branch.0);
        let others = lowered::BRANCHES.iter().map(|branch| branch.0).chain(judged::BRANCHES.iter().map(|branch| branch.0));
        own.chain(others).chain(floored::BRANCHES.iter().map(|branch| branch.0)).zip(self.0.iter().copied())
    }

    pub fn lines(&self) -> Vec<String> {
        self.counts().map(|(name, count)| format!("{}: {}", name, count)).collect()
    }

    pub fn assert_complete(&self) {
        for (name, count) in self.counts() {
            assert!(count > 0, "no call came to: {}", name);
        }
    }
}
