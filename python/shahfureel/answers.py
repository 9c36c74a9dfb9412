"""What the library's answers say of a site, in MW and money and by the sets' names; and in words why something is refused.

An answer's numbers are exact decimals: money has six places, a surplus nine. Percentages are rounded up to hundredths, since each says
how far from the best something is at most.
"""

from __future__ import annotations

import functools
from dataclasses import dataclass, field
from decimal import Decimal
from typing import Callable, Iterator, Sequence

from . import library
from .exact import MONEY_PLACES, PERCENT_PLACES, SURPLUS_PLACES, decimal, shown
from .library import Number, Refusal
from .site import Site
from .units import Unit, unit_of

GAP_PERCENT, SURPLUS_PERCENT = 5, 2
STEP = 100_000_000  # hundred-millionths of a step


def percent_up(part: int, whole: int, places: int = PERCENT_PLACES) -> Decimal:
    """A part in percent, rounded up to hundredths or to so many places; 0 of nothing."""
    return decimal(-(-(10 ** (2 + places)) * part // whole) if whole else 0, places)


@dataclass(frozen=True)
class Answer:
    """Outputs that cover a demand: what each set gives (0: it stands), what they cost, how far above the best that is at most (the
    gap, or of judged outputs the distance), for how much less nobody covers the demand, and what is given beyond it."""

    site: Site
    demand: Decimal
    outputs: dict[str, Decimal]
    cost: Decimal
    gap: Decimal
    gap_percent: Decimal
    bound: Decimal
    surplus: Decimal
    covers: Decimal
    great_gap: bool
    great_surplus: bool
    evaluations: int | None = None
    nodes: int | None = None
    data: bytes = field(default=b"", repr=False)


def answer_of(site: Site, demand: int, outputs: Sequence[int], cost: int, gap: int, surplus: int, **more: object) -> Answer:
    """An answer from the library's numbers."""
    money = site.money
    return Answer(
        site,
        decimal(demand, 1),
        {name: decimal(steps, 1) for name, steps in zip(site.names, outputs)},
        decimal(cost * money, MONEY_PLACES),
        decimal(gap * money, MONEY_PLACES),
        percent_up(gap, cost),
        decimal((cost - gap) * money, MONEY_PLACES),
        decimal(surplus, SURPLUS_PLACES),
        decimal(demand + surplus // STEP, 1),
        100 * gap > GAP_PERCENT * cost,
        100 * surplus > SURPLUS_PERCENT * demand * STEP,
        **more,  # type: ignore[arg-type]
    )


def _replied(site: Site, demand: int, reply: library.Reply) -> Answer:
    return answer_of(
        site, demand, reply.outputs, reply.cost, reply.gap, reply.surplus, evaluations=reply.evaluations, nodes=reply.nodes, data=reply.data
    )


def dispatch(site: Site, demand: int) -> Answer:
    """The dispatch of a site at a demand in steps."""
    return _replied(site, demand, library.dispatch(site.pack(demand)))


def refine(site: Site, demand: int, budget_max: int = library.BUDGET_MAX) -> Iterator[tuple[int, Answer, str]]:
    """The site refined by budgets 1, 10, 100 and so on, each a call of its own: the budget, the answer, and why it is the last."""
    if not 1 <= budget_max <= library.BUDGET_MAX:  # a search that ends earlier would not come to it
        raise Refusal(Number.BUDGET_OUT_OF_RANGE)
    file, budget = site.pack(demand), 1
    while True:
        answer = _replied(site, demand, library.refine(file, budget))
        ended = (answer.nodes or 0) < budget
        why = "the gap is 0: nobody covers this demand for less" if not answer.gap else ""
        why = why or ("the search has ended: a larger budget changes nothing" if ended else "")
        if not why and budget == budget_max:
            largest = budget == library.BUDGET_MAX
            why = "the search goes on, but this is the largest budget" if largest else "the search goes on, but this is the budget given"
        yield budget, answer, why
        if why:
            return
        budget = min(10 * budget, budget_max)


# ---- outputs of one's own


@dataclass(frozen=True)
class Judgement:
    """Outputs that are judged: the answer, and what dispatch's own cost; or why they are not accepted."""

    accepted: bool
    answer: Answer | None
    dispatched: Answer | None
    reasons: tuple[str, ...] = ()


def judge(site: Site, demand: int, outputs: Sequence[int], words: Sequence[str] = ()) -> Judgement:
    """Judges outputs in steps, one to a set; `words` are the outputs as they were given."""
    told = library.judge(site.pack(demand), outputs)
    if told.accepted:
        answer = answer_of(site, demand, outputs, told.cost, told.distance, told.surplus)
        return Judgement(True, answer, dispatch(site, demand))
    words = words or [shown(decimal(steps, 1)) for steps in outputs]
    return Judgement(False, None, None, tuple(_why_not(site, demand, outputs, words)))


def _why_not(site: Site, demand: int, outputs: Sequence[int], words: Sequence[str]) -> Iterator[str]:
    """Judged again at no demand: accepted there, outputs are permitted, and their surplus is all that they give."""
    nothing = library.judge(site.pack(0), outputs)
    if nothing.accepted:
        short = demand * STEP - nothing.surplus
        yield (
            f"after losses they give {shown(decimal(nothing.surplus, SURPLUS_PLACES))} MW, and the demand is"
            f" {shown(decimal(demand, 1))} MW: {shown(decimal(short, SURPLUS_PLACES))} MW too little"
        )
        return
    for i, steps in enumerate(outputs):
        if not library.judge(site.alone(i).pack(0), [steps]).accepted:
            what = f"give {words[i]} MW" if steps else "stand"
            yield f"{site.names[i]} may not {what}; it may {permitted(unit_of(site.sets[i].row()))}"


def permitted(unit: Unit) -> str:
    """What a set alone may do, in words."""
    spans = [" to ".join(shown(decimal(end, 1)) for end in sorted({*run})) for run in unit.spans()]
    gives = f"give {' or '.join(spans)} MW" if spans else ""
    return " or ".join(part for part in ("stand" if unit.may_stand else "", gives) if part)


# ---- other demands


@dataclass(frozen=True)
class Floor:
    """A demand, its part of the expected one in percent, what it costs at least, and whether the sets can cover it."""

    percent: int | None
    demand: Decimal
    least_cost: Decimal
    covered: bool


PARTS = range(80, 121, 5)


def floors(site: Site, demand: int, demands: Sequence[int] | None = None) -> list[Floor]:
    """What other demands cost at least; without a list, 80 to 120 % of this one, rounded to steps."""
    parts: list[int | None] = list(PARTS) if demands is None else [None] * len(demands)
    asked = [(demand * part + 50) // 100 for part in PARTS] if demands is None else list(demands)
    kept = [(part, steps) for part, steps in zip(parts, asked) if steps <= library.DEMAND_MAX]
    file, told = site.pack(demand), []
    for first in range(0, len(kept), library.DEMANDS_MAX):
        told += library.floors(file, [steps for _, steps in kept[first : first + library.DEMANDS_MAX]])
    if not kept:
        library.floors(file, [])
    return [
        Floor(part, decimal(steps, 1), decimal(floor * site.money, MONEY_PLACES), covers(site, steps))
        for (part, steps), floor in zip(kept, told)
    ]


def covers(site: Site, demand: int, previous: Sequence[int] | None = None) -> bool:
    """Whether the sets can cover a demand."""
    return library.if_covered(lambda: library.dispatch(site.pack(demand, previous))) is not None


@functools.lru_cache(maxsize=8)
def most(site: Site, previous: tuple[int, ...] | None = None) -> int | None:
    """The greatest demand that the sets can cover, in steps; None where they cover none at all."""
    if not covers(site, 0, previous):
        return None
    low, high = 0, library.DEMAND_MAX + 1
    while high - low > 1:
        middle = (low + high) // 2
        low, high = (middle, high) if covers(site, middle, previous) else (low, middle)
    return low


# ---- a day


@dataclass(frozen=True)
class PlannedSlot:
    """A slot of a day: its answer, or in words why it is refused."""

    time: str
    demand: Decimal
    answer: Answer | None
    refused: str = ""


@dataclass(frozen=True)
class PlannedDay:
    """A day's slots, how often each set is started, and the sum of the costs an hour of the slots that are not refused; and from which
    slot on the planning was stopped, if it was."""

    slots: tuple[PlannedSlot, ...]
    starts: dict[str, int]
    total: Decimal
    stopped: str = ""


def day(site: Site, slots: Sequence[tuple[str, int]], each: Callable[[], object] = lambda: None) -> PlannedDay:
    """Plans slots of (time, demand in steps), each from the outputs of the last that was covered. A call takes 96 of them; a longer
    list goes on from there. Each slot is also dispatched by itself, for its outputs and its surplus, and must cost the same. `each` is
    called for each slot, and may end it all by what it raises."""
    planned: list[PlannedSlot] = []
    starts, total = [0] * len(site.sets), 0
    previous = [one.row()[6] for one in site.sets]
    for first in range(0, len(slots), library.DEMANDS_MAX):
        part = slots[first : first + library.DEMANDS_MAX]
        told = library.day(site.pack(0, previous), [demand for _, demand in part])
        for (time, demand), slot in zip(part, told.slots):
            each()
            if slot.status:
                why = "; ".join(why_not_covered(site, demand, previous, "from their outputs before, "))
                planned.append(PlannedSlot(time, decimal(demand, 1), None, why))
                continue
            reply = library.dispatch(site.pack(demand, previous))
            if (reply.cost, reply.gap) != (slot.cost, slot.gap):
                raise AssertionError(f"slot {time}: the day and the dispatch of its case differ")
            planned.append(PlannedSlot(time, decimal(demand, 1), _replied(site, demand, reply)))
            previous = list(reply.outputs)
        if previous != [history.previous for history in told.histories]:
            raise AssertionError("the outputs of the day and of its dispatches differ")
        starts = [before + history.starts for before, history in zip(starts, told.histories)]
        total += told.total
    return PlannedDay(tuple(planned), dict(zip(site.names, starts)), decimal(total * site.money, MONEY_PLACES))


# ---- refusals in words


def why_not_covered(site: Site, demand: int, previous: Sequence[int] | None = None, before: str = "demand: ") -> Iterator[str]:
    """Why nothing covers a demand: sets that must run and cannot, or together too little."""
    greatest = most(site, None if previous is None else tuple(previous))
    if greatest is not None:
        yield (
            f"{before}these sets cannot cover {shown(decimal(demand, 1))} MW; the most that they can cover now, after losses, is"
            f" {shown(decimal(greatest, 1))} MW: add a set, or raise greatest or up"
        )
        return
    for i, one in enumerate(site.sets):
        now = None if previous is None else [previous[i]]
        if not covers(site.alone(i), 0, now):
            row = one.row()
            last, up, down = row[6] if now is None else now[0], row[7], row[8]
            yield (
                f"{one.place}: it must run, and previous, up and down let it go from {shown(decimal(max(last - down, 0), 1))} to"
                f" {shown(decimal(last + up, 1))} MW, where least, greatest and zones permit nothing: widen up or down, or let it stand"
            )
