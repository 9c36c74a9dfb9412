"""Shahfureel from Python: a site's sets by name, in MW and money, to outputs whose distance from the best is proved.

    from shahfureel import read, dispatch
    answer = dispatch(read("examples/harbour.csv"), "23.5")
    print(answer.outputs["diesel 2"], answer.cost, answer.bound)

`library` has every call of include/shahfureel.h in steps and millionths; `site`, `table` and `answers` have what the commands are made
of. `python3 -m shahfureel` is the command.
"""

from __future__ import annotations

import warnings
from pathlib import Path
from typing import Mapping, Sequence

from . import answers, planning, table
from .answers import Answer, Floor, Judgement, PlannedDay
from .exact import Exact
from .library import NoLibrary, Refusal
from .planning import Plan
from .site import Inexact, Set, Site, site_of_case, steps_of
from .table import Faults

__version__ = "1.14.2"
__all__ = [
    "Answer", "Exact", "Faults", "Floor", "Inexact", "Judgement", "NoLibrary", "Plan", "PlannedDay", "Refusal", "Set", "Site",
    "day", "dispatch", "floors", "judge", "plan", "read", "refine", "site_of_case",
]  # fmt: skip


def read(path: str | Path) -> Site:
    """The site of a CSV file. What was passed over or taken as it is, is told by a warning each."""
    site, notes = table.read_site(str(path), Path(path).read_bytes())
    for note in notes:
        warnings.warn(f"{path}: {note}", stacklevel=2)
    return site


def dispatch(site: Site, demand: Exact) -> Answer:
    """The dispatch of a site at a demand in MW. Raises Refusal, with number 11 where nothing covers it."""
    return answers.dispatch(site, steps_of(demand))


def refine(site: Site, demand: Exact, budget: int = 100_000) -> Answer:
    """The best outputs found with budgets of 1, 10, 100 nodes and so on up to this one, which is 1 to 100,000."""
    return list(answers.refine(site, steps_of(demand), budget))[-1][1]


def plan(site: Site, demand: Exact, effort: int = planning.EFFORT) -> Plan:
    """The cheapest outputs that are found, accepted by the judge, and how far above the best they are at most."""
    return planning.plan(site, steps_of(demand), effort)


def judge(site: Site, demand: Exact, outputs: Sequence[Exact] | Mapping[str, Exact]) -> Judgement:
    """Outputs of one's own in MW, by order or by name; 0 for a set that stands."""
    return answers.judge(site, steps_of(demand), site.outputs_of(outputs))


def floors(site: Site, demand: Exact, demands: Sequence[Exact] | None = None) -> list[Floor]:
    """What other demands cost at least, from the search of this one."""
    return answers.floors(site, steps_of(demand), None if demands is None else [steps_of(other) for other in demands])


def day(site: Site, demands: Sequence[Exact], planned: bool = False) -> PlannedDay:
    """A day slot by slot, each demand in MW: dispatched, or each slot planned."""
    slots = [(str(k), steps_of(demand)) for k, demand in enumerate(demands, 1)]
    return planning.day(site, slots) if planned else answers.day(site, slots)
