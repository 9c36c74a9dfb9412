"""A unit's permitted outputs, cost and net, from the numbers of its row (rules 5.1 to 7.1).

A plan's outputs do not rest on this, since the library judges them. The check of cases in parts.py does, and words on what a set may do.
"""

from __future__ import annotations

from dataclasses import dataclass
from typing import Sequence

STEP = 100_000_000  # hundred-millionths of a step

Run = tuple[int, int]


@dataclass(frozen=True)
class Unit:
    """The coefficients of a row, its running outputs as intervals from the lowest on, and whether it may stand."""

    c0: int
    c1: int
    c2: int
    b: int
    b1: int
    runs: tuple[Run, ...]
    may_stand: bool

    def cost(self, p: int) -> int:
        return self.c0 + (self.c1 + self.c2 * p) * p if p else 0

    def net(self, p: int) -> int:
        return (STEP - self.b1 - self.b * p) * p

    def region(self, p: int) -> Run:
        """The interval that an output lies in; (0, 0) of one that stands."""
        return next(((low, high) for low, high in self.runs if low <= p <= high), (0, 0))

    def spans(self) -> list[Run]:
        """The running outputs with intervals that touch as one."""
        found: list[Run] = []
        for low, high in self.runs:
            if found and low <= found[-1][1] + 1:
                low = found.pop()[0]
            found.append((low, high))
        return found

    def regions(self) -> list[Run]:
        return [*([(0, 0)] if self.may_stand else []), *self.runs]


def unit_of(row: Sequence[int], b1: int = 0) -> Unit:
    """The unit of a row of 19 numbers."""
    c0, c1, c2, b, least, greatest, previous, up, down, mark, zones, *edges = row
    ends = [least, *edges[: 2 * zones], greatest]
    first, last = (previous - down, previous + up) if previous else (least, greatest)
    cut = ((max(low, first), min(high, last)) for low, high in zip(ends[::2], ends[1::2]))
    return Unit(c0, c1, c2, b, b1, tuple((low, high) for low, high in cut if low <= high), mark == 0)


def total_cost(units: Sequence[Unit], outputs: Sequence[int]) -> int:
    return sum(unit.cost(p) for unit, p in zip(units, outputs))


def total_net(units: Sequence[Unit], outputs: Sequence[int]) -> int:
    return sum(unit.net(p) for unit, p in zip(units, outputs))
