"""What the page asks: a JSON object in, a JSON object out, over the package; nothing of HTTP.

Amounts are texts on both sides, exact decimals in MW or money. What is not of the form that a call takes is `Malformed`; what is asked
in good form and refused, by the rules or by the checks of numbers, is `Refused`, in words.
"""

from __future__ import annotations

import re
from dataclasses import dataclass
from decimal import Decimal
from typing import Any, Callable, Sequence

from .. import __version__, answers, exact, library, planning, report, table
from ..answers import Answer
from ..exact import DEMAND, POWER, Quantity, shown
from ..given import Refused, Usage, demand_of
from ..library import Number, Refusal
from ..site import Site, steps_of
from ..table import Faults
from ..units import unit_of
from .held import Held, Read

SMALL_PERCENT = 1
SLOTS_MAX, PLANNED_MAX = 1_000, 96  # of a day that is dispatched, and of one that is planned: seconds
Body = dict[str, Any]
Stop = Callable[[], bool]


class Malformed(Exception):
    """A request that has not the form of its call; the text says why."""


def _mw(steps: int) -> str:
    return shown(exact.decimal(steps, 1))


# ---- the form of a request


def _is_text(value: object) -> bool:
    """Whether this is a text; half of a surrogate pair is none."""
    return isinstance(value, str) and not re.search("[\ud800-\udfff]", value)


def _are_texts(value: object) -> bool:
    return isinstance(value, list) and all(map(_is_text, value))


FORMS: dict[str, tuple[str, Callable[[object], bool]]] = {
    "demand": ('a text such as "23.5"', _is_text),
    "demands": ("a text, lines of time and MW", _is_text),
    "outputs": ('a list of texts such as "8.0", one to a set', _are_texts),
    "previous": ('a list of texts such as "8.0", one to a set', _are_texts),
    "budget": ("a whole number from 1 to 100,000", lambda value: type(value) is int),
    "plan": ("true or false", lambda value: type(value) is bool),
}


def _check_form(request: Body, needed: Sequence[str]) -> None:
    strange = [key for key in request if key not in (*needed, "previous")]
    if strange:
        raise Malformed(f"there is no field {exact.quoted(strange[0])} here; the fields are {', '.join((*needed, 'previous'))}")
    missing = [key for key in needed if key not in request]
    if missing:
        raise Malformed(f"the field {missing[0]} is missing: give {FORMS[missing[0]][0]}")
    for key, value in request.items():
        words, fits = FORMS[key]
        if not fits(value):
            raise Malformed(f"the field {key} is not of its form: give {words}")


# ---- the numbers of a request


def _amounts(site: Site, words: Sequence[str], what: str, quantity: Quantity) -> list[int]:
    """MW of each set, in steps; every fault is told by the set's name."""
    if len(words) != len(site.sets):
        raise Faults([f"{what}: sets {len(site.sets)}, numbers given {len(words)}: give one for each set, 0 for one that stands"])
    steps, faults = [], []
    for name, word in zip(site.names, words):
        try:
            steps.append(demand_of(word, f"{what} of {name}", quantity) or 0)
        except Usage as fault:
            faults.append(str(fault))
    if faults:
        raise Faults(faults)
    return steps


@dataclass(frozen=True)
class Question:
    """A request in good form, with the site that it is about."""

    screen: Screen
    read: Read
    site: Site
    request: Body
    stop: Stop

    @property
    def demand(self) -> int:
        steps = demand_of(self.request["demand"])
        assert steps is not None  # a text is there
        return steps


# ---- answers


def _gap_words(answer: Answer, advice: str) -> tuple[str, str]:
    """The size of a gap, by its part of the cost, and the gap in words."""
    part = f"{shown(answer.gap_percent)} % of the cost could be saved"
    if not answer.gap:
        return "none", "none: nobody covers this demand for less"
    if answer.great_gap:
        return "great", f"great: up to {part}{advice}"
    size = "small" if 100 * answer.gap <= SMALL_PERCENT * answer.cost else "middle"
    return size, f"{size}: at most {part}"


def _answer(answer: Answer, advised: bool = True) -> Body:
    """An answer; with the advice to refine or plan, where that is still to be had."""
    size, words = _gap_words(answer, ": refine or plan" if advised else "")
    amounts = ("demand", "cost", "gap", "gap_percent", "bound", "surplus", "covers")
    return {
        **{name: shown(getattr(answer, name)) for name in amounts},
        "outputs": [shown(mw) for mw in answer.outputs.values()],
        "size": size,
        "gap_words": words,
        "warnings": [report.surplus_warning(answer, "plan, " if advised else "")] if answer.great_surplus else [],
    }


def _set(site: Site, i: int) -> Body:
    """A set as the page draws it."""
    one, row = site.sets[i], site.sets[i].row()
    least, greatest, previous, up, down = row[4:9]
    unit, free = unit_of(row), previous == 0 or (one.up is None and one.down is None)
    return {
        "name": one.name,
        "least": _mw(least),
        "greatest": _mw(greatest),
        "previous": _mw(previous),
        "zones": [[_mw(POWER.units(edge)) for edge in zone] for zone in one.zones],
        "window": None if free else [_mw(max(least, previous - down)), _mw(min(greatest, previous + up))],
        "permitted": [[_mw(low), _mw(high)] for low, high in unit.spans()],
        "may_stand": unit.may_stand,
    }


def _site(asked: Question) -> Body:
    demand, most = asked.screen.demand, answers.most(asked.site)
    demand = asked.read.demand if demand is None else demand
    return {
        "name": asked.screen.held.name,
        "demand": None if demand is None else _mw(demand),
        "day": asked.screen.day,
        "sets": [_set(asked.site, i) for i in range(len(asked.site.sets))],
        "most": None if most is None else _mw(most),
        "version": __version__,
        "notes": list(asked.read.notes),
        "fault": asked.read.fault,
    }


def _dispatch(asked: Question) -> Body:
    answer = answers.dispatch(asked.site, asked.demand)
    return {**_answer(answer), "evaluations": answer.evaluations}


def _refine(asked: Question) -> Body:
    most = asked.request["budget"]
    if not 1 <= most <= library.BUDGET_MAX:
        raise Refused([f"budget: {most} is not a budget from 1 to 100,000"], Number.BUDGET_OUT_OF_RANGE)
    for budget, answer, why in answers.refine(asked.site, asked.demand, most):
        asked.stop()
    goes_on = answer.gap and answer.nodes == budget < library.BUDGET_MAX
    return {**_answer(answer), "budget": budget, "nodes": answer.nodes, "ended": "" if goes_on else why}


def _plan(asked: Question) -> Body:
    plan = planning.plan(asked.site, asked.demand, stop=asked.stop)
    spent = "the effort is spent: the command plan with more of it (--effort) may find cheaper outputs, or a higher bound"
    return {
        **_answer(plan.answer, advised=False),
        "end": spent if plan.end == planning.SPENT else plan.end,
        "above_percent": None if plan.above_percent is None else shown(plan.above_percent),
        "bounds": {"judged": shown(plan.bound_judged), "refined": shown(plan.bound_refined)},
        "parts": plan.parts,
    }


def _run(asked: Question) -> Body:
    """A dispatch from its start on, evaluation by evaluation. All the way it has outputs that cover the demand."""
    demand = asked.demand
    file, run, steps = asked.site.pack(demand), library.Run(), []
    run.start(file)
    has = run.ask()
    while True:
        answer = answers.answer_of(asked.site, demand, has.outputs, has.cost, has.gap, has.surplus)
        finished = has.state == library.Run.FINISHED
        steps.append({**_answer(answer, advised=finished), "evaluations": has.evaluations, "finished": finished})
        if finished:
            return {"demand": _mw(demand), "steps": steps}
        run.advance(file)
        has = run.ask()


def _judge(asked: Question) -> Body:
    demand, words = asked.demand, [word.strip() for word in asked.request["outputs"]]
    told = answers.judge(asked.site, demand, _amounts(asked.site, words, "output", DEMAND), words)
    if told.answer is None or told.dispatched is None:
        return {"accepted": False, "demand": _mw(demand), "reasons": list(told.reasons)}
    own = told.dispatched.cost
    return {"accepted": True, **_answer(told.answer), "dispatch_cost": shown(own), "less": shown(own - told.answer.cost)}


def _floors(asked: Question) -> Body:
    demand = asked.demand
    if demand == 0:
        raise Faults(["demand: it is 0, and so is every part of it: give the demand that you expect"])

    def cost(mw: Decimal) -> str:
        return shown(answers.dispatch(asked.site, steps_of(mw)).cost)

    floors = [
        {
            "percent": floor.percent,
            "demand": shown(floor.demand),
            "least_cost": shown(floor.least_cost),
            "covered": floor.covered,
            "dispatch_cost": cost(floor.demand) if floor.covered else None,
        }
        for floor in answers.floors(asked.site, demand)
    ]
    return {"demand": _mw(demand), "floors": floors}


def _day(asked: Question) -> Body:
    planned = asked.request["plan"]
    slots, notes = table.read_demands("demands", asked.request["demands"].encode())
    most, how = (PLANNED_MAX, "planned") if planned else (SLOTS_MAX, "dispatched")
    if len(slots) > most:
        raise Faults([f"demands: {len(slots)} slots, and at most {most} are {how} on the screen: give fewer, or use the command day"])
    if table.apart([time for time, _ in slots], 60):
        notes = [*notes, "the times are not an hour apart: each cost is that of an hour, and the total is their sum"]
    demands = [(time, steps_of(mw)) for time, mw in slots]
    day = dispatched = answers.day(asked.site, demands, asked.stop)
    beside = ("", "")
    if planned:
        day = planning.day(asked.site, demands, stop=asked.stop)
        beside = report.beside_dispatched(day, dispatched, 60, "dispatch the day")
    return {
        "slots": [
            {
                "time": slot.time,
                "demand": shown(slot.demand),
                "answer": None if slot.answer is None else _answer(slot.answer, advised=not planned),
                "refused": slot.refused,
            }
            for slot in day.slots
        ],
        "starts": list(day.starts.values()),
        "total": shown(day.total),
        "beside": [said for said in beside if said],
        "notes": notes,
    }


CALLS: dict[str, tuple[tuple[str, ...], Callable[[Question], Body]]] = {
    "site": ((), _site),
    "dispatch": (("demand",), _dispatch),
    "refine": (("demand", "budget"), _refine),
    "plan": (("demand",), _plan),
    "run": (("demand",), _run),
    "judge": (("demand", "outputs"), _judge),
    "floors": (("demand",), _floors),
    "day": (("demands", "plan"), _day),
}


@dataclass(frozen=True)
class Screen:
    """The file that is held, and what the page begins with: a demand in steps, and the text of a day's demands."""

    held: Held
    demand: int | None = None
    day: str | None = None

    def answer(self, name: str, request: Body, stop: Stop = lambda: False) -> Body:
        """The answer to a call. `stop` is asked from time to time, and ends it by what it raises."""
        needed, call = CALLS[name]
        _check_form(request, needed)
        read = self.held.now()
        site = read.site
        try:
            if "previous" in request:
                site = site.after(_amounts(site, request["previous"], "previous", POWER))
            asked = Question(self, read, site, request, stop)
            return {"site": read.id, **call(asked)}
        except Usage as fault:
            raise Refused([str(fault)]) from None
        except Faults as fault:
            raise Refused(table.first(fault.lines)) from None
        except Refusal as refusal:
            if refusal.number != Number.NO_ALLOCATION:
                raise Refused([str(refusal)], refusal.number) from None
            raise Refused(list(answers.why_not_covered(site, asked.demand)), refusal.number) from None
