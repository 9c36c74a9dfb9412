//! The branches of the rules on tied outputs and on lowering them, which the counts of numbers do not tell apart.

use crate::solver::{self, Case, Evaluation, Offer, Problem, Search, Unit};

/// A dispatch that is answered: its case and its search.
pub struct Seen {
    case: Case,
    problem: Problem,
    search: Search,
}

/// An evaluation of the search, and a unit in it.
struct Place<'a> {
    unit: &'a Unit,
    offers: &'a [Offer],
    multiplier: i128,
    least: Offer,
    choice: Offer,
    taken: Offer,
    /// The surplus of the choices, and that of what is taken.
    surplus: i128,
    left: i128,
}

type Branch = (&'static str, fn(&Seen) -> bool);

pub const BRANCHES: [Branch; 28] = [
    ("lowered at 0", |seen| seen.lowered(|place| place.multiplier == 0)),
    ("lowered at 65,536", |seen| seen.lowered(|place| place.multiplier == solver::GREATEST_MULTIPLIER)),
    ("lowered at a middle", |seen| seen.lowered(|place| (1..solver::GREATEST_MULTIPLIER).contains(&place.multiplier))),
    ("lowered, two units or more", |seen| seen.evaluated(|places| count(places, |place| place.is_lowered()) > 1)),
    ("lowered, all of several units", |seen| {
        seen.evaluated(|places| places.len() > 1 && places.iter().all(|place| place.is_lowered()))
    }),
    ("lowered, only the first of several that tie", |seen| seen.evaluated(first_alone)),
    ("lowered behind one that is kept for cover", |seen| seen.evaluated(|places| in_order(places, |place| place.is_kept()))),
    ("kept, as an earlier one is lowered", |seen| seen.kept(|place| place.given_up() <= place.surplus)),
    ("kept, though an output between would cover", |seen| seen.kept(|place| place.could_go_between())),
    ("kept, as the demand is just met", |seen| seen.kept(|place| place.surplus == 0)),
    ("tied choices that do not cover", |seen| seen.tied(|place| place.surplus < 0)),
    ("65,536 does not cover, with a tie", |seen| {
        seen.search.visits.len() == 2 && seen.last(|place| place.is_tied() && place.surplus < 0)
    }),
    ("step 3 ends by lowering alone", |seen| seen.search.visits.len() == 2 && seen.last(|place| place.meets_by_lowering())),
    ("step 4 ends by lowering alone", |seen| seen.search.visits.len() > 2 && seen.last(|place| place.meets_by_lowering())),
    ("step 4 ends by lowering alone, before the last middle", |seen| {
        (3..18).contains(&seen.search.visits.len()) && seen.last(|place| place.meets_by_lowering())
    }),
    ("lowered, and the search goes on", |seen| seen.lowered(|place| place.multiplier > 0 && place.left > 0)),
    ("lowered by a step of one interval", |seen| seen.lowered(|place| place.given_steps() == 1 && place.zones() == 0)),
    ("lowered over a zone", |seen| {
        seen.lowered(|place| place.least.output > 0 && place.zones() > 0 && place.given_steps() > 1)
    }),
    ("lowered over a zone with nothing inside", |seen| seen.lowered(|place| place.given_steps() == 1 && place.zones() == 1)),
    ("lowered over a whole range", |seen| seen.lowered(|place| place.least.output > 0 && place.tied_outputs().len() > 2)),
    ("lowered to standing", |seen| seen.lowered(|place| place.least.output == 0 && place.tied_outputs().len() == 2)),
    ("lowered to standing, past another tied output", |seen| {
        seen.lowered(|place| place.least.output == 0 && place.tied_outputs().len() > 2)
    }),
    ("lowered, a unit with a b", |seen| seen.lowered(|place| place.unit.b > 0)),
    ("lowered, a unit with a b1", |seen| seen.lowered(|place| place.unit.b1 != 0)),
    ("lowered, a unit with a ramp window", |seen| seen.lowered(|place| place.unit.previous > 0)),
    ("a reply with a lowered output", |seen| seen.replied(|place| place.is_lowered())),
    ("a reply that lowering makes cheaper", |seen| seen.replied(|place| place.taken.cost < place.choice.cost)),
    ("a reply with a lowered output and a surplus", |seen| seen.replied(|place| place.is_lowered() && place.left > 0)),
];

fn count(places: &[Place], condition: fn(&Place) -> bool) -> usize {
    places.iter().filter(|place| condition(place)).count()
}

/// Whether a unit meets a condition and a later one is lowered.
fn in_order(places: &[Place], condition: fn(&Place) -> bool) -> bool {
    let last = places.iter().rposition(Place::is_lowered);
    last.map_or(false, |last| places[..last].iter().any(condition))
}

fn first_alone(places: &[Place]) -> bool {
    let tied: Vec<bool> = places.iter().filter(|place| place.is_tied()).map(Place::is_lowered).collect();
    tied.len() > 1 && tied[0] && !tied[1..].contains(&true)
}

impl Place<'_> {
    fn is_tied(&self) -> bool {
        self.least != self.choice
    }

    fn is_lowered(&self) -> bool {
        self.taken != self.choice
    }

    /// Whether the choices cover, and this unit keeps its own though another output ties with it.
    fn is_kept(&self) -> bool {
        self.is_tied() && !self.is_lowered() && self.surplus >= 0
    }

    fn given_up(&self) -> i128 {
        self.choice.net - self.least.net
    }

    fn given_steps(&self) -> i128 {
        self.choice.output - self.least.output
    }

    /// How many zones lie between the least tied output and the choice.
    fn zones(&self) -> usize {
        let between = |zone: &&(i128, i128)| self.least.output <= zone.0 && zone.1 <= self.choice.output;
        self.unit.zones.iter().filter(between).count()
    }

    fn tied_outputs(&self) -> Vec<Offer> {
        solver::tied(self.offers, self.multiplier)
    }

    /// Whether what is taken would cover with another tied output of this unit instead.
    fn could_go_between(&self) -> bool {
        self.tied_outputs().iter().any(|offer| *offer != self.choice && self.choice.net - offer.net <= self.left)
    }

    fn meets_by_lowering(&self) -> bool {
        self.surplus > 0 && self.left == 0
    }
}

impl Seen {
    /// Of a file that dispatch answers.
    pub fn new(file: &[u8]) -> Seen {
        let case = solver::decode(file).expect("an accepted file");
        let problem = solver::problem(&case).expect("a demand within capacity");
        let search = solver::search(&problem);
        Seen { case, problem, search }
    }

    fn places(&self, multiplier: i128, evaluation: &Evaluation) -> Vec<Place<'_>> {
        let surplus = self.problem.surplus(&evaluation.choices);
        let left = self.problem.surplus(&evaluation.lowered);
        let place = |at: usize| Place {
            unit: &self.case.units[at],
            offers: &self.problem.offers[at],
            multiplier,
            least: evaluation.least_tied[at],
            choice: evaluation.choices[at],
            taken: evaluation.lowered[at],
            surplus,
            left,
        };
        (0..self.case.units.len()).map(place).collect()
    }

    /// Whether the units of some evaluation meet a condition.
    fn evaluated(&self, condition: impl Fn(&[Place]) -> bool) -> bool {
        self.search.visits.iter().any(|(multiplier, evaluation)| condition(&self.places(*multiplier, evaluation)))
    }

    fn tied(&self, condition: fn(&Place) -> bool) -> bool {
        self.evaluated(|places| places.iter().any(|place| place.is_tied() && condition(place)))
    }

    fn lowered(&self, condition: fn(&Place) -> bool) -> bool {
        self.evaluated(|places| places.iter().any(|place| place.is_lowered() && condition(place)))
    }

    fn kept(&self, condition: fn(&Place) -> bool) -> bool {
        self.evaluated(|places| places.iter().any(|place| place.is_kept() && condition(place)))
    }

    /// Whether some unit of the last evaluation meets a condition.
    fn last(&self, condition: fn(&Place) -> bool) -> bool {
        let last = self.search.visits.last();
        last.map_or(false, |(multiplier, evaluation)| self.places(*multiplier, evaluation).iter().any(condition))
    }

    /// Whether some unit meets a condition in the evaluation that gave the reply.
    fn replied(&self, condition: fn(&Place) -> bool) -> bool {
        let covers = |evaluation: &Evaluation| self.problem.surplus(&evaluation.lowered) >= 0;
        let best = self.search.visits.iter().rev().find(|(_, evaluation)| covers(evaluation));
        best.map_or(false, |(multiplier, evaluation)| self.places(*multiplier, evaluation).iter().any(condition))
    }
}
