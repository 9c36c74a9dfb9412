"""Better outputs, each unit within its region: at one price for all, with the surplus lowered, and with pairs exchanged.

Nothing here is proved, and nothing that is printed rests on it: outputs are judged by the library before they are shown.
"""

from __future__ import annotations

import heapq
from typing import Iterator, Sequence

from .units import STEP, Run, Unit, total_net


def balanced(units: Sequence[Unit], regions: Sequence[Run], target: int) -> list[int] | None:
    """Outputs within the regions at one price for all, the lowest at which they cover; None where the regions cannot."""
    if sum(unit.net(high) for unit, (_, high) in zip(units, regions)) < target:
        return None
    low, high = 0.0, 1.0
    for _ in range(40):
        middle = (low + high) / 2
        covered = total_net(units, _at(units, regions, middle)) >= target
        low, high = (low, middle) if covered else (middle, high)
    return _at(units, regions, high)


def _at(units: Sequence[Unit], regions: Sequence[Run], price: float) -> list[int]:
    return [_cheapest(unit, region, price) for unit, region in zip(units, regions)]


def _cheapest(unit: Unit, region: Run, price: float) -> int:
    """The output of a region at which cost less the price of its net is least, or one beside it."""
    low, high = region
    rise, bend = price * (STEP - unit.b1) - unit.c1, 2 * (unit.c2 + price * unit.b)
    if bend <= 0:
        return high if rise > 0 else low
    return min(max(round(rise / bend), low), high)


def lowered(units: Sequence[Unit], regions: Sequence[Run], outputs: Sequence[int], target: int) -> list[int]:
    """Covering outputs with their surplus lowered step by step within the regions, the dearest step first. A step that is too great for
    what is left of the surplus stays so: the surplus falls, and what a unit's steps net rises as it is lowered."""
    found, surplus = list(outputs), total_net(units, outputs) - target

    def step(i: int) -> tuple[int, int]:
        return units[i].cost(found[i] - 1) - units[i].cost(found[i]), i

    heap = [step(i) for i, (low, _) in enumerate(regions) if found[i] > low]
    heapq.heapify(heap)
    while heap:
        saved, i = heapq.heappop(heap)
        net = units[i].net(found[i]) - units[i].net(found[i] - 1)
        if saved <= 0 and net <= surplus:
            found[i], surplus = found[i] - 1, surplus - net
            if found[i] > regions[i][0]:
                heapq.heappush(heap, step(i))
    return found


def reach_of(outputs: Sequence[int]) -> int:
    """How many steps a unit moves at most in an exchange: the fewer units run, the more."""
    return max(3, min(100, 4_000 // (sum(1 for p in outputs if p) ** 2 + 1)))


def exchanged(
    units: Sequence[Unit], regions: Sequence[Run], outputs: Sequence[int], target: int, reach: int
) -> Iterator[list[int]]:
    """Covering outputs made cheaper by exchanges: one unit moves by up to so many steps, another by as many as are then needed; each
    time by the pair that saves most."""
    found = list(outputs)
    while True:
        best = min(_exchanges(units, regions, found, total_net(units, found) - target, reach), default=None)
        if best is None or best[0] >= 0:
            return
        _, i, p, j, q = best
        found[i], found[j] = p, q
        found = lowered(units, regions, found, target)
        yield found


def _exchanges(
    units: Sequence[Unit], regions: Sequence[Run], found: Sequence[int], surplus: int, reach: int
) -> Iterator[tuple[int, int, int, int, int]]:
    """What it changes in cost to move one unit by a few steps and another by as many as are then needed: (change, i, p, j, q)."""
    running = [i for i, (_, high) in enumerate(regions) if high]
    costs, nets = ([ask(p) for ask, p in zip(asks, found)] for asks in ([u.cost for u in units], [u.net for u in units]))
    for i in running:
        unit, (low, high) = units[i], regions[i]
        for p in range(max(low, found[i] - reach), min(high, found[i] + reach) + 1):
            if p == found[i]:
                continue
            change, need = unit.cost(p) - costs[i], nets[i] - unit.net(p) - surplus
            for j in running:
                if j != i:
                    q = _reaching(units[j], regions[j], found[j], nets[j] + need)
                    if q is not None:
                        yield change + units[j].cost(q) - costs[j], i, p, j, q


def _reaching(unit: Unit, region: Run, start: int, net: int) -> int | None:
    """The lowest output of a region with so much net, near a start; None where the region has none."""
    low, high = region
    slope = STEP - unit.b1 - unit.b * (2 * start - 1)  # of the last step; above 0 (rule 2.11)
    p = min(max(start - (unit.net(start) - net) // slope, low), high)
    while p < high and unit.net(p) < net:
        p += 1
    while p > low and unit.net(p - 1) >= net:
        p -= 1
    return p if unit.net(p) >= net else None
