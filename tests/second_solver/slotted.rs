//! The branches of section 21, a day by slots, which the counts of numbers do not tell apart.

use crate::calls::Day;
use crate::generate::capacity;
use crate::solver::{self, Case, Refused, Reply, Unit, SLOT};
use crate::tally::Branches;

/// A slot of an answered call: its own case, and what dispatch gives for it.
pub struct Slot {
    pub case: Case,
    pub answer: Result<Reply, Refused>,
}

/// A call for a day, and the number of its refusal, or none; of an answered one also the case of the file and the slots.
pub struct Seen<'a> {
    day: &'a Day,
    number: Option<u32>,
    solved: Option<Solved>,
}

struct Solved {
    case: Case,
    slots: Vec<Slot>,
}

type Branch = (&'static str, fn(&Seen) -> bool);

const BRANCHES: [Branch; 122] = [
    ("a day of no slot", |seen| seen.answered(|solved| solved.slots.is_empty())),
    ("a day of no slot, a unit that ran before", |seen| {
        seen.answered(|solved| solved.slots.is_empty() && solved.case.units.iter().any(|unit| unit.previous > 0))
    }),
    ("a day of 1 slot", |seen| seen.answered(|solved| solved.slots.len() == 1)),
    ("a day of 2 to 95 slots", |seen| seen.answered(|solved| (2..96).contains(&solved.slots.len()))),
    ("a day of 96 slots", |seen| seen.answered(|solved| solved.slots.len() == 96)),
    ("a day of 96 slots, all of them solved", |seen| seen.answered(|solved| solved.solved_slots().count() == 96)),
    ("a day of 1 unit", |seen| seen.solved(|solved| solved.case.units.len() == 1)),
    ("a day of 32 units", |seen| seen.solved(|solved| solved.case.units.len() == 32)),
    ("a day of 32 units and 96 slots", |seen| seen.solved(|solved| solved.case.units.len() == 32 && solved.slots.len() == 96)),
    ("a day of edition 1", |seen| seen.solved(|solved| solved.case.edition == 1)),
    ("a day of edition 2, a b1 that is not 0", |seen| seen.solved_with(|unit| unit.b1 != 0)),
    ("a day of a unit whose zones share an edge", |seen| seen.solved_with(|unit| !solver::shared_edges(unit).is_empty())),
    ("a day of equal units", |seen| seen.solved(|solved| solved.case.units.windows(2).any(|pair| pair[0] == pair[1]))),
    ("a day of a unit that must run and one that may stand", |seen| {
        seen.solved_with(|unit| unit.mark == 0) && seen.solved_with(|unit| unit.mark == 1)
    }),
    ("a day of demands that rise and fall", |seen| seen.rises_and_falls()),
    ("a day solved though dispatch refuses the file with 11", |seen| {
        seen.solved(|solved| solver::problem(&solved.case).is_err())
    }),
    ("a slot with the file's own demand", |seen| seen.slot(|slot, solved| slot.case.demand == solved.case.demand)),
    ("a slot of demand 0", |seen| seen.slot(|slot, _| slot.case.demand == 0)),
    ("a slot of a demand that is just covered", |seen| seen.early_slot(|slot| slot.case.demand == capacity(&slot.case.units))),
    ("a slot with a gap", |seen| seen.slot(|slot, _| slot.reply().gap > 0)),
    ("a slot that costs something, with a gap of 0", |seen| {
        seen.slot(|slot, _| slot.reply().gap == 0 && slot.reply().cost > 0)
    }),
    ("a slot whose cost 32 bits do not hold", |seen| seen.slot(|slot, _| slot.reply().cost > TOP)),
    ("a slot whose gap 32 bits do not hold", |seen| seen.slot(|slot, _| slot.reply().gap > TOP)),
    ("a slot after 1 evaluation", |seen| seen.slot(|slot, _| slot.reply().evaluations == 1)),
    ("a slot after 2 evaluations", |seen| seen.slot(|slot, _| slot.reply().evaluations == 2)),
    ("a slot after 18 evaluations", |seen| seen.slot(|slot, _| slot.reply().evaluations == 18)),
    ("a slot behind the first whose outputs are lowered", |seen| seen.lowers_second()),
    ("a total that 32 bits do not hold", |seen| seen.solved(|solved| solved.total() > TOP)),
    ("a total that 32 bits do not hold, of costs that they do", |seen| {
        seen.solved(|solved| solved.total() > TOP && solved.solved_slots().all(|slot| slot.reply().cost <= TOP))
    }),
    ("a total of 0", |seen| seen.solved(|solved| solved.total() == 0)),
    ("two slots of one demand, at other costs", |seen| seen.answered(|solved| solved.costs_differ())),
    ("11 in the first slot, a later one solved", |seen| seen.answered(|solved| solved.first_is_refused())),
    ("11 in a slot between solved ones", |seen| seen.answered(|solved| !solved.behind_refused().is_empty())),
    ("11 in the last slot, an earlier one solved", |seen| seen.answered(|solved| solved.last_is_refused())),
    ("11 in the only slot", |seen| seen.answered(|solved| solved.slots.len() == 1 && solved.slots[0].answer.is_err())),
    ("11 in every slot of several", |seen| {
        seen.answered(|solved| solved.slots.len() > 1 && solved.solved_slots().count() == 0)
    }),
    ("11 in two slots one behind the other, then a solved one", |seen| seen.answered(|solved| solved.two_refused())),
    ("11 in every slot, as a unit must run and cannot", |seen| seen.answered(|solved| solved.is_stuck())),
    ("11 in a slot one step above what is covered", |seen| {
        seen.answered(|solved| solved.first_refused(|case| case.demand == capacity(&case.units) + 1))
    }),
    ("11 in a slot for its ramp windows alone", |seen| {
        seen.answered(|solved| solved.first_refused(|case| solver::problem(&without_windows(case)).is_ok()))
    }),
    ("a start in slot 1", |seen| seen.in_first(|unit, output| unit.previous == 0 && output > 0)),
    ("no start in slot 1, as the unit ran before", |seen| seen.in_first(|unit, output| unit.previous > 0 && output > 0)),
    ("no start in slot 1, as the unit stays standing", |seen| seen.in_first(|unit, output| unit.previous == 0 && output == 0)),
    ("a unit that ran before stands in slot 1", |seen| seen.in_first(|unit, output| unit.previous > 0 && output == 0)),
    ("a start in a later slot", |seen| seen.outputs(|outputs| outputs.len() > 2 && outputs[1] == 0 && starts(outputs) > 0)),
    ("a unit that stops and starts again", |seen| seen.outputs(starts_again)),
    ("a unit that starts twice", |seen| seen.outputs(|outputs| starts(outputs) == 2)),
    ("a unit that starts 10 times or more", |seen| seen.outputs(|outputs| starts(outputs) >= 10)),
    ("a unit that runs all day without a start", |seen| {
        seen.outputs(|outputs| outputs.len() > 2 && outputs.iter().all(|output| *output > 0))
    }),
    ("a unit that stands all day", |seen| {
        seen.outputs(|outputs| outputs.len() > 2 && outputs.iter().all(|output| *output == 0))
    }),
    ("units with other numbers of starts", |seen| seen.solved(|solved| solved.starts_differ())),
    ("a unit that moves in each of two slots", |seen| {
        seen.outputs(|outputs| outputs.windows(3).any(|three| three[0] != three[1] && three[1] != three[2] && three[1] > 0))
    }),
    ("a previous output that the unit may not have, a slot solved", |seen| {
        seen.in_first(|unit, _| unit.previous > 0 && !solver::permitted(&loose(unit), unit.previous))
    }),
    ("a start behind a refused slot, as the unit stood before it", |seen| {
        seen.over_refused(|before, after| before == 0 && after > 0)
    }),
    ("no start behind a refused slot, as the unit ran before it", |seen| {
        seen.over_refused(|before, after| before > 0 && after > 0)
    }),
    ("a window carried over a refused slot", |seen| seen.answered(|solved| solved.carries_window())),
    ("the file's window carried over refused slots", |seen| seen.answered(|solved| solved.carries_window_of_file())),
    ("no window behind a slot in which a unit stood", |seen| seen.outputs_of(leaves_window)),
    ("a trace of just the slots", |seen| seen.solved(|_| seen.day.trace_room == seen.needed())),
    ("a trace with a byte more", |seen| seen.solved(|_| seen.day.trace_room == seen.needed() + 1)),
    ("a trace with bytes, no demand", |seen| seen.answered(|_| seen.needed() == 0 && seen.day.trace_room > 0)),
    ("a trace that 16 bits do not count", |seen| seen.solved(|_| seen.day.trace_room >= LONG)),
    ("32 histories", |seen| seen.answered(|_| seen.day.histories_room == 32)),
    ("33 histories", |seen| seen.answered(|_| seen.day.histories_room == 33)),
    ("histories that 16 bits do not count", |seen| seen.answered(|_| seen.day.histories_room >= LONG)),
    ("1 answer", |seen| seen.answered(|_| seen.day.answers_room == 1)),
    ("2 answers", |seen| seen.answered(|_| seen.day.answers_room == 2)),
    ("answers that 16 bits do not count", |seen| seen.answered(|_| seen.day.answers_room >= LONG)),
    ("22 for 97 demands", |seen| seen.gave(22) && seen.day.demands.len() == 97),
    ("22 for more demands than 8 bits count", |seen| seen.gave(22) && seen.day.demands.len() == 256),
    ("22 for more demands than 16 bits count", |seen| seen.gave(22) && seen.day.demands.len() > LONG),
    ("22 for many demands, with room", |seen| seen.gave(22) && seen.day.demands.len() > 96 && !seen.has_too_little_room()),
    ("22 for 320,001", |seen| seen.too_great(|demand, _| demand == 320_001)),
    ("22 for a demand that 16 bits would cut", |seen| seen.too_great(|demand, _| demand == 327_685)),
    ("22 for 4,294,967,295", |seen| seen.too_great(|demand, _| demand == u32::MAX)),
    ("22 for the first of several demands", |seen| seen.too_great(|_, at| at == 0 && seen.day.demands.len() > 1)),
    ("22 for one between", |seen| seen.too_great(|_, at| at > 0 && at + 1 < seen.day.demands.len())),
    ("22 for the last of several demands", |seen| seen.too_great(|_, at| at > 0 && at + 1 == seen.day.demands.len())),
    ("22 for the last of 96 demands", |seen| seen.too_great(|_, at| at == 95)),
    ("22 for many demands before 23", |seen| seen.gave(22) && seen.day.demands.len() > 96 && seen.has_too_little_room()),
    ("22 for a demand before 23 for the trace", |seen| seen.too_great(|_, _| seen.has_short_trace())),
    ("22 for a demand before 23 for the histories", |seen| seen.too_great(|_, _| seen.day.histories_room < 32)),
    ("23 for a trace a byte too short", |seen| seen.gave(23) && seen.day.trace_room + 1 == seen.needed()),
    ("23 for a trace without a byte", |seen| seen.gave(23) && seen.has_short_trace() && seen.day.trace_room == 0),
    ("23 for a trace of 96 slots", |seen| seen.gave(23) && seen.has_short_trace() && seen.day.demands.len() == 96),
    ("23 for 31 histories", |seen| seen.gave(23) && !seen.has_short_trace() && seen.day.histories_room == 31),
    ("23 for no history", |seen| seen.gave(23) && !seen.has_short_trace() && seen.day.histories_room == 0),
    ("23 for a history to a unit", |seen| seen.gave(23) && !seen.has_short_trace() && seen.has_history_to_a_unit()),
    ("23 for the histories, no demand", |seen| seen.gave(23) && seen.day.demands.is_empty()),
    ("1 before 22", |seen| seen.gave(1) && seen.day.demands.iter().any(|demand| *demand > 320_000)),
    ("1 before 23", |seen| seen.gave(1) && seen.has_too_little_room()),
    ("1 before a number of the file", |seen| seen.gave(1) && solver::decode(&seen.day.file).is_err()),
    ("22 before 2", |seen| seen.before(22, 2)),
    ("22 before 3", |seen| seen.before(22, 3)),
    ("22 before 4", |seen| seen.before(22, 4)),
    ("22 before 5", |seen| seen.before(22, 5)),
    ("22 before 6", |seen| seen.before(22, 6)),
    ("22 before 7", |seen| seen.before(22, 7)),
    ("22 before 8", |seen| seen.before(22, 8)),
    ("22 before 9", |seen| seen.before(22, 9)),
    ("22 before 10", |seen| seen.before(22, 10)),
    ("22 before 18", |seen| seen.before(22, 18)),
    ("23 before 2", |seen| seen.before(23, 2)),
    ("23 before 3", |seen| seen.before(23, 3)),
    ("23 before 4", |seen| seen.before(23, 4)),
    ("23 before 5", |seen| seen.before(23, 5)),
    ("23 before 6", |seen| seen.before(23, 6)),
    ("23 before 7", |seen| seen.before(23, 7)),
    ("23 before 8", |seen| seen.before(23, 8)),
    ("23 before 9", |seen| seen.before(23, 9)),
    ("23 before 10", |seen| seen.before(23, 10)),
    ("23 before 18", |seen| seen.before(23, 18)),
    ("2 with no demand", |seen| seen.without_demands(2)),
    ("3 with no demand", |seen| seen.without_demands(3)),
    ("4 with no demand", |seen| seen.without_demands(4)),
    ("5 with no demand", |seen| seen.without_demands(5)),
    ("6 with no demand", |seen| seen.without_demands(6)),
    ("7 with no demand", |seen| seen.without_demands(7)),
    ("8 with no demand", |seen| seen.without_demands(8)),
    ("9 with no demand", |seen| seen.without_demands(9)),
    ("10 with no demand", |seen| seen.without_demands(10)),
    ("18 with no demand", |seen| seen.without_demands(18)),
];

/// The greatest number of 32 bits.
const TOP: i128 = u32::MAX as i128;
/// A number that 16 bits cannot hold.
const LONG: usize = 65_536;
/// Of how many slots a branch is asked that takes a while.
const EARLY: usize = 3;

/// The unit without its ramp window.
fn loose(unit: &Unit) -> Unit {
    Unit { previous: 0, ..unit.clone() }
}

fn without_windows(case: &Case) -> Case {
    Case { units: case.units.iter().map(loose).collect(), ..case.clone() }
}

// ---- the outputs of one unit: its previous output in the file, then those of the solved slots

fn starts(outputs: &[i128]) -> usize {
    outputs.windows(2).filter(|two| two[0] == 0 && two[1] > 0).count()
}

/// Whether the unit runs in a slot, stands in a later one and runs in one that is later still.
fn starts_again(outputs: &[i128]) -> bool {
    let ran = outputs.iter().skip(1).position(|output| *output > 0);
    ran.map_or(false, |slot| starts(&outputs[slot + 1..]) > 0)
}

/// Whether the unit, behind a slot in which it stood, runs at an output to which no ramp leads from the one at which it last ran.
fn leaves_window(unit: &Unit, outputs: &[i128]) -> bool {
    let outside = |before: i128, output: i128| output < before - unit.down || output > before + unit.up;
    outputs.windows(3).any(|three| three[0] > 0 && three[1] == 0 && three[2] > 0 && outside(three[0], three[2]))
}

impl Slot {
    /// The reply for a slot that is solved.
    fn reply(&self) -> &Reply {
        self.answer.as_ref().expect("a solved slot")
    }

    /// Whether it is solved with other outputs than a case.
    fn differs_from(&self, case: &Case) -> bool {
        solver::solve(case).map_or(true, |reply| reply.outputs != self.reply().outputs)
    }
}

impl Solved {
    fn solved_slots(&self) -> impl Iterator<Item = &Slot> {
        self.slots.iter().filter(|slot| slot.answer.is_ok())
    }

    fn total(&self) -> i128 {
        self.solved_slots().map(|slot| slot.reply().cost).sum()
    }

    fn costs_differ(&self) -> bool {
        let first = self.solved_slots().next();
        let differs =
            |slot: &Slot, first: &Slot| slot.case.demand == first.case.demand && slot.reply().cost != first.reply().cost;
        first.map_or(false, |first| self.solved_slots().any(|slot| differs(slot, first)))
    }

    /// The outputs of a unit: its previous output in the file, then those of the solved slots.
    fn outputs(&self, unit: usize) -> Vec<i128> {
        let given = self.solved_slots().map(|slot| slot.reply().outputs[unit]);
        std::iter::once(self.case.units[unit].previous).chain(given).collect()
    }

    fn starts_differ(&self) -> bool {
        let starts: Vec<usize> = (0..self.case.units.len()).map(|unit| starts(&self.outputs(unit))).collect();
        starts.windows(2).any(|two| two[0] != two[1] && two[0] > 0 && two[1] > 0)
    }

    fn first_is_refused(&self) -> bool {
        self.slots.first().map_or(false, |slot| slot.answer.is_err()) && self.solved_slots().count() > 0
    }

    fn last_is_refused(&self) -> bool {
        self.slots.last().map_or(false, |slot| slot.answer.is_err()) && self.solved_slots().count() > 0
    }

    fn two_refused(&self) -> bool {
        let are = |three: &[Slot]| three[0].answer.is_err() && three[1].answer.is_err() && three[2].answer.is_ok();
        self.slots.windows(3).any(are)
    }

    fn is_stuck(&self) -> bool {
        !self.slots.is_empty() && self.case.units.iter().any(|unit| unit.mark == 1 && solver::offers(unit).is_empty())
    }

    /// Whether the case of the first refused slot meets a condition.
    fn first_refused(&self, condition: fn(&Case) -> bool) -> bool {
        self.slots.iter().find(|slot| slot.answer.is_err()).map_or(false, |slot| condition(&slot.case))
    }

    /// The solved slots just behind refused ones that have a solved one before them.
    fn behind_refused(&self) -> Vec<&Slot> {
        let first = self.slots.iter().position(|slot| slot.answer.is_ok()).unwrap_or(0);
        let pairs = self.slots[first..].windows(2);
        pairs.filter(|two| two[0].answer.is_err() && two[1].answer.is_ok()).map(|two| &two[1]).collect()
    }

    /// Whether such a slot has other outputs than with the windows of the file, and than with none.
    fn carries_window(&self) -> bool {
        let carries = |slot: &Slot| {
            let of_file = Case { demand: slot.case.demand, ..self.case.clone() };
            slot.differs_from(&of_file) && slot.differs_from(&without_windows(&slot.case))
        };
        self.behind_refused().into_iter().take(EARLY).any(carries)
    }

    /// Whether the first solved slot is behind refused ones, and has other outputs than without windows.
    fn carries_window_of_file(&self) -> bool {
        let first = self.solved_slots().next();
        self.first_is_refused() && first.map_or(false, |slot| slot.differs_from(&without_windows(&slot.case)))
    }
}

impl Seen<'_> {
    /// The slots are those of an answered call.
    pub fn new(day: &Day, refused: Option<Refused>, slots: Vec<Slot>) -> Seen<'_> {
        let case = solver::decode(&day.file).ok().filter(|_| refused.is_none());
        Seen { day, number: refused.map(|refused| refused.0), solved: case.map(|case| Solved { case, slots }) }
    }

    fn gave(&self, number: u32) -> bool {
        self.number == Some(number)
    }

    fn answered(&self, condition: impl Fn(&Solved) -> bool) -> bool {
        self.solved.as_ref().map_or(false, condition)
    }

    /// Whether some slot is solved, and more that is asked.
    fn solved(&self, condition: impl Fn(&Solved) -> bool) -> bool {
        self.answered(|solved| solved.solved_slots().count() > 0 && condition(solved))
    }

    fn solved_with(&self, condition: fn(&Unit) -> bool) -> bool {
        self.solved(|solved| solved.case.units.iter().any(condition))
    }

    /// Whether some solved slot meets a condition.
    fn slot(&self, condition: fn(&Slot, &Solved) -> bool) -> bool {
        self.answered(|solved| solved.solved_slots().any(|slot| condition(slot, solved)))
    }

    /// The same, asked of the first ones alone.
    fn early_slot(&self, condition: fn(&Slot) -> bool) -> bool {
        self.answered(|solved| solved.solved_slots().take(EARLY).any(condition))
    }

    fn lowers_second(&self) -> bool {
        let lowers = |slot: &Slot| solver::unlowered(&slot.case).map_or(false, |outputs| outputs != slot.reply().outputs);
        self.answered(|solved| solved.slots.iter().skip(1).take(EARLY).filter(|slot| slot.answer.is_ok()).any(lowers))
    }

    fn rises_and_falls(&self) -> bool {
        let pairs = || self.day.demands.windows(2);
        self.solved(|_| pairs().any(|two| two[0] < two[1]) && pairs().any(|two| two[0] > two[1]))
    }

    /// Whether the first slot is solved, and a unit and its output there meet a condition.
    fn in_first(&self, condition: fn(&Unit, i128) -> bool) -> bool {
        let meets =
            |slot: &Slot| slot.case.units.iter().zip(&slot.reply().outputs).any(|(unit, output)| condition(unit, *output));
        self.answered(|solved| solved.slots.iter().take(1).filter(|slot| slot.answer.is_ok()).any(meets))
    }

    /// Whether the outputs of some unit meet a condition: its previous output in the file, then those of the solved slots.
    fn outputs(&self, condition: fn(&[i128]) -> bool) -> bool {
        self.solved(|solved| (0..solved.case.units.len()).any(|unit| condition(&solved.outputs(unit))))
    }

    fn outputs_of(&self, condition: fn(&Unit, &[i128]) -> bool) -> bool {
        let meets = |solved: &Solved, unit: usize| condition(&solved.case.units[unit], &solved.outputs(unit));
        self.solved(|solved| (0..solved.case.units.len()).any(|unit| meets(solved, unit)))
    }

    /// Whether a unit's outputs before a refused slot, that is its previous output, and behind it meet a condition.
    fn over_refused(&self, condition: fn(i128, i128) -> bool) -> bool {
        let meets = |slot: &Slot| {
            let mut pairs = slot.case.units.iter().zip(&slot.reply().outputs);
            pairs.any(|(unit, output)| condition(unit.previous, *output))
        };
        self.answered(|solved| solved.behind_refused().into_iter().any(meets))
    }

    // ---- lists and rooms

    fn needed(&self) -> usize {
        SLOT * self.day.demands.len()
    }

    fn has_short_trace(&self) -> bool {
        self.day.trace_room < self.needed()
    }

    fn has_too_little_room(&self) -> bool {
        self.has_short_trace() || self.day.histories_room < 32
    }

    fn has_history_to_a_unit(&self) -> bool {
        solver::decode(&self.day.file).map_or(false, |case| case.units.len() == self.day.histories_room)
    }

    /// Whether 22 was given for just one demand of at most 96, and it and its place meet a condition.
    fn too_great(&self, condition: impl Fn(u32, usize) -> bool) -> bool {
        let demands = &self.day.demands;
        let places: Vec<usize> = (0..demands.len()).filter(|at| demands[*at] > 320_000).collect();
        match places[..] {
            [at] => self.gave(22) && demands.len() <= 96 && condition(demands[at], at),
            _ => false,
        }
    }

    fn before(&self, number: u32, hidden: u32) -> bool {
        self.gave(number) && solver::decode(&self.day.file).err() == Some(Refused(hidden))
    }

    fn without_demands(&self, number: u32) -> bool {
        self.gave(number) && self.day.demands.is_empty()
    }
}

/// How often calls came to each branch.
pub struct Reached(pub Branches);

impl Default for Reached {
    fn default() -> Reached {
        Reached(Branches::new(BRANCHES.iter().map(|(name, _)| name.to_string()).collect()))
    }
}

impl Reached {
    pub fn count(&mut self, seen: &Seen) {
        self.0.count(BRANCHES.iter().map(|(_, reached)| reached(seen)).collect());
    }
}
