"""Plans: outputs looked for by whatever finds them, believed only once the proved judge accepts them, beside a bound that is proved.

It refines within a budget, improves what comes of it (improving.py), and where outputs and bound are still apart, divides the dispatches
into parts (parts.py): by the total output, by how many sets run, by what one set gives, the weakest part first. What a part's own case
replies is improved in turn. Effort is counted in nodes, not in seconds, so that the same question has the same answer everywhere.
"""

from __future__ import annotations

import heapq
from dataclasses import dataclass, replace
from decimal import Decimal
from itertools import count
from typing import Callable, Iterator, Sequence

from . import answers, library
from .answers import Answer, PlannedDay, PlannedSlot
from .exact import LINEAR_LOSS, MONEY_PLACES, POWER, decimal, units
from .improving import balanced, exchanged, lowered, reach_of
from .library import Refusal, Reply
from .parts import EVERYTHING, Bound, Part, Rows, Shift, bound, by_output, by_running, by_total, whole
from .shifts import Climb
from .site import Site
from .units import STEP, Run, total_cost, total_net

EFFORT = 4_000_000  # in nodes of the proved search, with what else it does counted as nodes: one to two seconds on most sites
SLOT_EFFORT = EFFORT // 10  # of a slot of a day
CALL, CALL_UNIT, NODE_UNIT, TRIED = 500, 64, 16, 8  # a call, and each unit of it; so many units double a node; a step or exchange tried
CLOSE = 100_000  # a plan is close enough within its cost divided by this: a thousandth of a percent
NODES = 1_000  # the budget of a part's case; more of it for the best shift
NEAR = 2_000  # outputs within their cost divided by this of the best are worth exchanging pairs
WAYS = 3  # to divide at one set's outputs
ABOVE_PLACES = 4

BEST, NEARLY = "nothing is cheaper", "the search ended: no more than a thousandth of a percent is open"
SPENT = "the effort is spent: with more of it (--effort) cheaper outputs may be found, or a higher bound"
STUCK = "the search ended: it finds no way to raise the bound further"
STOPPED = "stopped: a longer search may find cheaper outputs, or a higher bound"


@dataclass(frozen=True)
class Plan:
    """Outputs that the judge accepted, with the greatest bound that is proved; beside them dispatch's own reply and the refined one,
    and the bounds that the judge and refining have alone. `parts` is of how many parts the bound is proved; 1 is the case itself."""

    answer: Answer
    dispatched: Answer
    refined: Answer
    bound_judged: Decimal
    bound_refined: Decimal
    parts: int
    nodes: int
    end: str  # why the search ended

    @property
    def above_percent(self) -> Decimal | None:
        return above_percent(self.answer)


def above_percent(answer: Answer) -> Decimal | None:
    """How far above the best outputs are at most, in percent of the bound, rounded up; None where the bound is 0 and they cost more."""
    gap, least = (units(money, MONEY_PLACES) for money in (answer.gap, answer.bound))
    return answers.percent_up(gap, least, ABOVE_PLACES) if least or not gap else None


def plan(site: Site, demand: int, effort: int = EFFORT, stop: Callable[[], bool] = lambda: False) -> Plan:
    """Plans a site at a demand in steps. Raises Refusal, with number 11 where nothing covers it."""
    return _Search(site, demand, effort, stop).plan()


def day(site: Site, slots: Sequence[tuple[str, int]], effort: int = SLOT_EFFORT, stop: Callable[[], bool] = lambda: False) -> PlannedDay:
    """Plans slots of (time, demand in steps) one after the other, each from the outputs of the last that was covered. A slot's plan is
    certified, the day as a whole is not. From the slot on that a stop comes in, slots are still planned, but as little as can be."""
    planned: list[PlannedSlot] = []
    previous = [one.row()[6] for one in site.sets]
    starts, total, stopped = [0] * len(previous), decimal(0, MONEY_PLACES), ""
    for time, demand in slots:
        here = site.after(previous)
        found = library.if_covered(lambda: plan(here, demand, effort, stop))
        stopped = stopped or (time if stop() else "")
        if found is None:
            why = "; ".join(answers.why_not_covered(site, demand, previous, "from their outputs before, "))
            planned.append(PlannedSlot(time, decimal(demand, 1), None, why))
            continue
        answer = found.answer
        planned.append(PlannedSlot(time, answer.demand, answer))
        outputs = [POWER.units(mw) for mw in answer.outputs.values()]
        starts = [before + (not last and now > 0) for before, last, now in zip(starts, previous, outputs)]
        previous, total = outputs, total + answer.cost
    return PlannedDay(tuple(planned), dict(zip(site.names, starts)), total, stopped)


@dataclass(frozen=True)
class _Node:
    """A part, the bound that is proved of it, and the shift and reply of its own best bound."""

    part: Part
    least: int
    shift: Shift
    reply: Reply | None


class _Search:
    def __init__(self, site: Site, demand: int, effort: int, stop: Callable[[], bool]) -> None:
        self.site, self.demand, self.stop = site, demand, stop
        rows = [tuple(one.row(site.money)) for one in site.sets]
        losses = [LINEAR_LOSS.units(one.L1) for one in site.sets]
        self.order = sorted(range(len(rows)), key=lambda i: -_dearness(rows[i]))
        b1 = tuple(losses[i] for i in self.order) if site.linear else None
        self.case = Rows(demand, tuple(rows[i] for i in self.order), b1)
        self.file, self.everything = self.case.pack(), whole(self.case)
        self.units, self.target = self.case.units, STEP * demand
        self.left, self.nodes = effort, 0
        self.cost, self.surplus, self.outputs = EVERYTHING, 0, [0] * len(rows)
        self.seen: set[tuple[tuple[Run, ...], int]] = set()

    def spend(self, nodes: int) -> None:
        """Counts a call."""
        self.nodes += nodes
        self.left -= nodes + nodes * len(self.units) // NODE_UNIT + CALL + CALL_UNIT * len(self.units)

    def ended(self) -> bool:
        return self.left <= 0 or self.stop()

    def close(self, least: int) -> bool:
        return (self.cost - least) * CLOSE <= self.cost

    # ---- outputs

    def consider(self, outputs: Sequence[int]) -> None:
        """Takes outputs that the judge accepts, if they are cheaper than the best, or as cheap with less surplus."""
        try:
            judged = library.judge(self.file, outputs)
        except (Refusal, ValueError):
            return
        if judged.accepted and (judged.cost, judged.surplus) < (self.cost, self.surplus):
            self.cost, self.surplus, self.outputs = judged.cost, judged.surplus, list(outputs)

    def improve(self, outputs: Sequence[int]) -> None:
        """Improves outputs within their regions, and those of one price in these regions, unless they had their turn."""
        regions = tuple(unit.region(p) for unit, p in zip(self.units, outputs))
        if (regions, 0) not in self.seen:
            self.seen.add((regions, 0))
            self.improve_from(regions, balanced(self.units, regions, self.target))
        if (regions, sum(outputs)) not in self.seen and total_net(self.units, outputs) >= self.target:
            self.seen.add((regions, sum(outputs)))
            self.improve_from(regions, outputs)

    def improve_from(self, regions: Sequence[Run], start: Sequence[int] | None) -> None:
        """Lowers the surplus; and where that comes near the best, exchanges pairs too."""
        if start is None:
            return
        found = lowered(self.units, regions, start, self.target)
        self.left -= TRIED * (sum(start) - sum(found))
        if total_cost(self.units, found) * NEAR < self.cost * (NEAR + 1):
            tried = TRIED * 2 * reach_of(found) * sum(1 for p in found if p) ** 2
            for found in exchanged(self.units, regions, found, self.target, reach_of(found)):
                self.left -= tried
                if self.ended():
                    break
        self.consider(found)

    # ---- bounds

    def refine(self) -> Reply:
        """The case itself refined by budgets 1, 10, 100 and so on, each reply improved."""
        budget = 1
        while True:
            reply = library.refine(self.file, budget)
            self.spend(reply.nodes or 0)
            self.consider(reply.outputs)
            self.improve(reply.outputs)
            closed = reply.cost - reply.gap >= self.cost
            if (reply.nodes or 0) < budget or budget == library.BUDGET_MAX or closed or self.ended():
                return reply
            budget *= 10

    def ask(self, part: Part, shift: Shift, budget: int = NODES) -> Bound | None:
        """The bound of a part by a shift, its reply improved."""
        near = [p or (row[4] + row[5]) // 2 for p, row in zip(self.outputs, self.case.rows)]
        found = bound(self.case, part, shift, near, budget)
        if found and found.least > self.cost and part.holds(self.outputs):
            raise AssertionError("a part's bound is above outputs of the part that the judge accepted")
        reply = None if found is None else found.reply
        self.spend((reply.nodes or 0) if reply else 0)
        if reply:
            self.improve(reply.outputs)
        return found

    def node(self, part: Part, parent: _Node) -> _Node:
        """A part with the best bound that is found for it; never a lower one than the part it comes from."""
        best: _Node | None = None
        firsts = [Shift(lossless=True)] if part.total[0] > self.everything.total[0] else []
        if not firsts or part.total[1] < self.everything.total[1]:
            firsts.append(replace(parent.shift, lossless=False))
        for first in firsts:
            for shift, found in Climb(self.case, self.everything, part, first, lambda shift: self.ask(part, shift)).tried():
                if best is None or found.least > best.least:
                    best = _Node(part, found.least, shift, found.reply)
                if best.least >= self.cost or self.ended():
                    return self.at_least(best, parent)
        budget = NODES
        while best and best.reply and best.reply.nodes == budget < library.BUDGET_MAX and best.least < self.cost and not self.ended():
            budget *= 10
            more = self.ask(part, best.shift, budget)
            if more is None or more.least <= best.least:
                break
            best = _Node(part, more.least, best.shift, more.reply)
        return self.at_least(best or replace(parent, part=part), parent)

    def at_least(self, node: _Node, parent: _Node) -> _Node:
        return replace(node, least=max(node.least, parent.least))

    # ---- parts

    def divided(self, node: _Node) -> list[_Node] | None:
        """The parts of a part by the way whose weakest bound is highest, or by the first that closes half of what is open."""
        best: list[_Node] | None = None
        for parts in self.ways(node):
            nodes = [self.node(part, node) for part in parts]
            if best is None or self.worth(nodes) > self.worth(best):
                best = nodes
            if 2 * (self.cost - self.worth(best)[0]) <= self.cost - node.least or self.ended():
                break
        return best

    def worth(self, nodes: Sequence[_Node]) -> tuple[int, int]:
        """The weakest bound, and all together."""
        bounds = [min(one.least, self.cost) for one in nodes]
        return min(bounds), sum(bounds)

    def ways(self, node: _Node) -> Iterator[list[Part]]:
        """Ways to divide a part: at the total of the best outputs, at their number of sets that run, and at one set's outputs."""
        part = node.part
        total, running = sum(self.outputs), sum(1 for p in self.outputs if p)
        for m in (total, total + 1):
            if part.total[0] < m <= part.total[1]:
                yield by_total(part, m)
        for n in (running, running + 1):
            if part.running[0] < n <= part.running[1]:
                yield by_running(part, n)
        yield from self.by_outputs(node)

    def by_outputs(self, node: _Node) -> list[list[Part]]:
        """The best ways to divide at one set's outputs, beside its region and its output in the best: by bounds at the part's shift."""
        found: list[tuple[list[int], int, list[Part]]] = []
        for i, (unit, p) in enumerate(zip(self.units, self.outputs)):
            regions = unit.regions()
            k = regions.index(unit.region(p))
            for at in sorted({low for low, _ in regions[max(k, 1) : k + 2]} | ({p, p + 1} if p else set())):
                if node.part.ranges[i][0] < at <= node.part.ranges[i][1]:
                    parts = by_output(node.part, i, at)
                    bounds = [self.ask(part, node.shift, NODES // 10) for part in parts]
                    found.append((sorted(-EVERYTHING if one is None else one.least for one in bounds), len(found), parts))
                if self.ended():
                    return []
        return [parts for _, _, parts in sorted(found, reverse=True)[:WAYS]]

    # ---- the search

    def plan(self) -> Plan:
        dispatched = answers.dispatch(self.site, self.demand)
        own = [POWER.units(mw) for mw in dispatched.outputs.values()]
        self.consider([own[place] for place in self.order])
        refined = self.refine()
        root = _Node(self.everything, refined.cost - refined.gap, Shift(), refined)
        order = count()
        heap, stuck = [(root.least, next(order), root)], False
        while not (stuck or self.close(heap[0][0]) or self.ended()):
            node = heap[0][2]
            nodes = self.divided(node)
            stuck = nodes is None or self.worth(nodes) <= (node.least, len(nodes) * node.least)
            if nodes and not stuck:
                heapq.heappop(heap)
                for one in nodes:
                    heapq.heappush(heap, (one.least, next(order), one))
        return self.told(dispatched, refined, heap[0][0], len(heap))

    def told(self, dispatched: Answer, refined: Reply, by_parts: int, parts: int) -> Plan:
        """The plan in the site's own order, judged once more as the case that was given."""
        outputs = self.restored(self.outputs)
        judged = library.judge(self.site.pack(self.demand), outputs)
        if not judged.accepted or judged.cost != self.cost:
            raise AssertionError("the judge says another thing of the case as it was given")
        own, told = judged.cost - judged.distance, refined.cost - refined.gap
        least = max(own, told, by_parts)
        if least > judged.cost:
            raise AssertionError("a bound is above outputs that the judge accepted")
        answer = answers.answer_of(self.site, self.demand, outputs, judged.cost, judged.cost - least, judged.surplus)
        best = answers.answer_of(
            self.site, self.demand, self.restored(refined.outputs), refined.cost, refined.gap, refined.surplus, nodes=refined.nodes
        )
        bounds = (decimal(number * self.site.money, MONEY_PLACES) for number in (own, told))
        end = BEST if least == judged.cost else NEARLY if self.close(least) else STOPPED if self.stop() else SPENT if self.left <= 0 else STUCK
        return Plan(answer, dispatched, best, *bounds, parts if by_parts > max(own, told) else 1, self.nodes, end)

    def restored(self, outputs: Sequence[int]) -> list[int]:
        """Outputs in the site's own order."""
        found = [0] * len(outputs)
        for place, p in zip(self.order, outputs):
            found[place] = p
        return found


def _dearness(row: Sequence[int]) -> float:
    """What a step costs at the greatest output. Dear sets come first: the search lets the first sets stand first."""
    c0, c1, c2, greatest = row[0], row[1], row[2], row[5]
    return c0 / greatest + c1 + c2 * greatest
