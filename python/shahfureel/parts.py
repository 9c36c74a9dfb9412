"""Lower bounds of a case from other cases: what the proved call says of each part of its dispatches, carried back to the case.

A part of a case's dispatches is told by whole numbers: between which two the total output lies, how many sets run, and what each set
gives. For a part another case is made that permits all of the part's outputs, at costs that are shifted by so much a step and so much a
set that runs (Lagrangian relaxation), and in which losses may be left out where the total is known. What nobody spends less than there
bounds the part; the least of the bounds of parts that together hold everything bounds the case (branch and bound). This is proved of the
definitions (docs/SPECIFICATION.md, section 26). What must be right here, and is tested and not proved: `replaces`, which checks of every
case made that it is one of those that the proof speaks of; `bound`, which is rule 26.9; `whole` and `by_...`, which are rule 26.10; and
the unit of a row (units.py).
"""

from __future__ import annotations

from dataclasses import dataclass, replace
from functools import cached_property
from math import isqrt
from typing import Sequence

from . import library
from .library import Reply
from .units import Run, Unit, unit_of

COSTS_MAX = (1_000_000_000, 10_000_000, 1_000)  # of c0, c1 and c2 in a case file
OUTPUT_MAX = 10_000
EVERYTHING = 1 << 80  # a bound above every cost: of a part in which nothing covers


@dataclass(frozen=True)
class Rows:
    """A case as rows of 19 numbers, with a b1 for each in edition 2, and its demand in steps."""

    demand: int
    rows: tuple[tuple[int, ...], ...]
    b1: tuple[int, ...] | None = None

    @cached_property
    def units(self) -> list[Unit]:
        return [unit_of(row, b1) for row, b1 in zip(self.rows, self.b1 or (0,) * len(self.rows))]

    def pack(self) -> bytes:
        if self.b1 is None:
            return library.pack(self.demand, self.rows)
        return library.pack2(self.demand, self.rows, self.b1)


@dataclass(frozen=True)
class Part:
    """Dispatches whose total output, number of running units and outputs, unit by unit, lie in these ranges, ends included."""

    total: Run
    running: Run
    ranges: tuple[Run, ...]

    def holds(self, outputs: Sequence[int]) -> bool:
        numbers = (sum(outputs), sum(1 for p in outputs if p), *outputs)
        return all(low <= number <= high for number, (low, high) in zip(numbers, (self.total, self.running, *self.ranges)))


@dataclass(frozen=True)
class Shift:
    """How the other case's costs differ: a share of the money, to which so much is added for a step and for a unit that runs, and from
    which a credit is taken for a unit that runs; and whether losses are left out, the demand being the least total then."""

    share: int = 1
    step: int = 0
    start: int = 0
    credit: int = 0
    lossless: bool = False


# ---- parts that together hold everything, or a part


def whole(case: Rows) -> Part:
    """All dispatches of a case."""
    ranges = tuple((0, row[5]) for row in case.rows)
    return Part((0, sum(high for _, high in ranges)), (0, len(ranges)), ranges)


def _below_and_from(run: Run, at: int) -> list[Run]:
    low, high = run
    return [(low, min(high, at - 1)), (max(low, at), high)]


def by_total(part: Part, m: int) -> list[Part]:
    """Total output below m, and m or more."""
    return [replace(part, total=run) for run in _below_and_from(part.total, m)]


def by_running(part: Part, n: int) -> list[Part]:
    """Fewer than n units running, and n or more."""
    return [replace(part, running=run) for run in _below_and_from(part.running, n)]


def by_output(part: Part, i: int, p: int) -> list[Part]:
    """Unit i below p, and at p or more."""
    return [replace(part, ranges=(*part.ranges[:i], run, *part.ranges[i + 1 :])) for run in _below_and_from(part.ranges[i], p)]


# ---- the other case of a part


def shifted(case: Rows, part: Part, shift: Shift, near: Sequence[int]) -> Rows | None:
    """The other case of a part; None where a case file cannot hold it. `near` are outputs at which its costs are to be close."""
    rows = []
    for row, unit, run, p in zip(case.rows, case.units, part.ranges, near):
        kept, costs = _kept(row, unit, run), _costs(row, shift, p)
        if kept is None or costs is None:
            return None
        rows.append((*costs, 0 if shift.lossless else row[3], *kept))
    return Rows(part.total[0], tuple(rows)) if shift.lossless else Rows(case.demand, tuple(rows), case.b1)


def _costs(row: Sequence[int], shift: Shift, near: int) -> tuple[int, int, int] | None:
    """A share of the costs, rounded down. What c2 loses is given back to c1 and c0 by the tangent at an output."""
    c0, c1, c2 = row[:3]
    lost = c2 % shift.share
    touch = min(near, isqrt(c0 // lost)) if lost else 0
    costs = (
        (c0 - lost * touch * touch) // shift.share + shift.start - shift.credit,
        (c1 + 2 * lost * touch) // shift.share + shift.step,
        c2 // shift.share,
    )
    return costs if all(0 <= cost <= most for cost, most in zip(costs, COSTS_MAX)) else None


def _kept(row: Sequence[int], unit: Unit, run: Run) -> tuple[int, ...] | None:
    """Limits, previous output, ramps, mark and zones of a row kept to a range: the ramp window is what keeps it there, and where the
    range has no running output lies beside them all."""
    low, high = run
    inside = [(max(low, a), min(high, b)) for a, b in unit.runs if max(low, a) <= min(high, b)]
    mark = 1 if low > 0 else row[9]
    limits, zones = row[4:6], row[10:]
    if inside == list(unit.runs):
        return (*limits, *row[6:9], mark, *zones)
    if inside:
        return (*limits, inside[-1][1], 0, inside[-1][1] - inside[0][0], mark, *zones)
    beside = next((p for p in (row[5] + 1, row[4] - 1, *_inside(row)) if 1 <= p <= OUTPUT_MAX), None)
    return None if beside is None else (*limits, beside, 0, 0, mark, *zones)


def _inside(row: Sequence[int]) -> list[int]:
    """An output strictly inside each zone that has one."""
    edges = row[11 : 11 + 2 * row[10]]
    return [low + 1 for low, high in zip(edges[::2], edges[1::2]) if high - low > 1]


# ---- what the proof asks of it


def replaces(case: Rows, other: Rows, part: Part, shift: Shift) -> bool:
    """Whether the other case is one that the proof speaks of: by a shift as rule 26.3 has it, unit by unit, it permits what the part's
    range leaves and costs no more than the share and the shift say; and what covers in the case covers in it, by rule 26.7 or 26.8."""
    if shift.share < 1 or min(shift.step, shift.start, shift.credit) < 0:
        return False
    if not len(case.rows) == len(other.rows) == len(part.ranges):
        return False
    if other.demand > (part.total[0] if shift.lossless else case.demand):
        return False
    return all(_replaces(unit, by, run, shift) for unit, by, run in zip(case.units, other.units, part.ranges))


def _replaces(unit: Unit, by: Unit, run: Run, shift: Shift) -> bool:
    low, high = run
    if low <= 0 <= high and unit.may_stand and not by.may_stand:
        return False
    if (by.b, by.b1) != ((0, 0) if shift.lossless else (unit.b, unit.b1)):
        return False
    inside = [(max(low, a, 1), min(high, b)) for a, b in unit.runs]
    return all(
        a > b or (any(c <= a and b <= d for c, d in by.runs) and _costs_no_more(unit, by, shift, (a, b))) for a, b in inside
    )


def _costs_no_more(unit: Unit, by: Unit, shift: Shift, run: Run) -> bool:
    """share * (cost there + credit) <= cost here + share * (step * p + start) at every p of an interval: what is left is a parabola."""
    square = unit.c2 - shift.share * by.c2
    linear = unit.c1 - shift.share * (by.c1 - shift.step)
    constant = unit.c0 - shift.share * (by.c0 + shift.credit - shift.start)
    low, high = run
    turns = [-linear // (2 * square) + k for k in (0, 1)] if square > 0 else []
    return all((square * p + linear) * p + constant >= 0 for p in (low, high, *(p for p in turns if low <= p <= high)))


# ---- the bound


@dataclass(frozen=True)
class Bound:
    """For less than `least` nobody covers the demand by a dispatch of the part; and the reply that says it, if there is one."""

    least: int
    reply: Reply | None = None


def bound(case: Rows, part: Part, shift: Shift, near: Sequence[int], budget: int) -> Bound | None:
    """What the proved call says of a part (rule 26.9); None where a case file cannot hold the other case."""
    if any(low > high for low, high in (part.total, part.running, *part.ranges)):
        return Bound(EVERYTHING)  # nothing lies in it
    other = shifted(case, part, shift, near)
    if other is None:
        return None
    if not replaces(case, other, part, shift):
        raise AssertionError("the case made for a part is none that the proof speaks of")
    reply = library.if_covered(lambda: library.refine(other.pack(), budget))
    if reply is None:
        return Bound(EVERYTHING)  # rule 26.6
    (fewest, most), farthest = part.running, part.total[1]
    credit = reply.cost - reply.gap + shift.credit * fewest
    return Bound(shift.share * (credit - shift.step * farthest - shift.start * most), reply)
