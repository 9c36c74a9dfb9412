"""An answer in three forms: words for people, JSON for programs, CSV for spreadsheets; numbers in each as exact decimals."""

from __future__ import annotations

import csv
import io
import json
from dataclasses import dataclass, field
from decimal import Decimal
from typing import Sequence

from .answers import Answer, Floor, Judgement, PlannedDay, PlannedSlot
from .exact import MONEY_PLACES, POWER, decimal, shown, units
from .planning import Plan, above_percent
from .site import Set, Site
from .table import NEEDED


@dataclass
class Report:
    """What a command says: lines, an object, rows, warnings in words, and the status."""

    lines: list[str]
    json: dict[str, object]
    rows: list[list[object]]
    warnings: list[str] = field(default_factory=list)
    status: int = 0

    def text(self, form: str, notes: Sequence[str] = ()) -> str:
        """What is printed; in JSON with the notes, if there are any."""
        if form == "json":
            body: dict[str, object] = {**self.json, "words": self.warnings, **({"notes": list(notes)} if notes else {})}
            return to_json(body) + "\n"
        if form == "csv":
            sink = io.StringIO()
            csv.writer(sink, lineterminator="\n").writerows([_cell(value) for value in row] for row in self.rows)
            return sink.getvalue()
        return "".join(line + "\n" for line in [*self.lines, *self.warnings])


def _cell(value: object) -> object:
    if isinstance(value, Decimal):
        return shown(value)
    if isinstance(value, bool):
        return "yes" if value else "no"
    return "" if value is None else value


def to_json(value: object, indent: str = "") -> str:
    """JSON with decimals as exact numbers, which the standard library would make floats."""
    inner = indent + "  "
    if isinstance(value, Decimal):
        return shown(value)
    if isinstance(value, dict):
        items = [f"{inner}{json.dumps(str(key))}: {to_json(item, inner)}" for key, item in value.items()]
        return "{\n" + ",\n".join(items) + f"\n{indent}}}" if items else "{}"
    if isinstance(value, (list, tuple)):
        parts = [f"{inner}{to_json(item, inner)}" for item in value]
        return "[\n" + ",\n".join(parts) + f"\n{indent}]" if parts else "[]"
    return json.dumps(value)


# ---- parts


def output_lines(answer: Answer) -> list[str]:
    return [f"{name} gives {shown(mw)} MW" if mw else f"{name} stands" for name, mw in answer.outputs.items()]


def cost_lines(answer: Answer, gap: str = "gap") -> list[str]:
    return [
        f"cost an hour: {shown(answer.cost)}",
        f"{gap}: at most so much above the best: {shown(answer.gap)}, {shown(answer.gap_percent)} % of the cost",
        f"nobody covers this demand for less than {shown(answer.bound)}",
        f"surplus: {shown(answer.surplus)} MW",
    ]


def answer_json(answer: Answer, gap: str = "gap") -> dict[str, object]:
    return {
        "demand_mw": answer.demand,
        "sets": [{"name": name, "mw": mw, "runs": bool(mw)} for name, mw in answer.outputs.items()],
        "cost_an_hour": answer.cost,
        gap: answer.gap,
        f"{gap}_percent": answer.gap_percent,
        "nobody_for_less_than": answer.bound,
        "surplus_mw": answer.surplus,
        **({"prices_tried": answer.evaluations} if answer.evaluations is not None else {}),
        **({"nodes": answer.nodes} if answer.nodes is not None else {}),
        "money_times": answer.site.money,
    }


COST_TITLES = ["demand MW", "cost an hour", "gap", "gap %", "nobody for less than", "surplus MW"]


def cost_cells(answer: Answer) -> list[object]:
    return [answer.demand, answer.cost, answer.gap, answer.gap_percent, answer.bound, answer.surplus]


def surplus_warning(answer: Answer, first: str = "") -> str:
    """What can be done about a surplus; where the gap is 0 nothing is cheaper, and giving less would spare nothing."""
    less = f"{first}give less by hand, or move load into this interval"
    none = "no outputs that cover the demand are cheaper; load can be moved into this interval"
    return f"the surplus is above 2 % of the demand: these outputs cover {shown(answer.covers)} MW; {less if answer.gap else none}"


# ---- whole answers


def dispatched(answer: Answer, plan_by: str) -> Report:
    """A dispatch; `plan_by` is the command that looks for cheaper outputs."""
    warnings = []
    if answer.great_gap:
        warnings.append(f"the gap is above 5 %: other outputs may be cheaper; to look for them: {plan_by}")
    if answer.great_surplus:
        warnings.append(surplus_warning(answer, "plan, "))
    rows: list[list[object]] = [[*COST_TITLES, *answer.outputs], [*cost_cells(answer), *answer.outputs.values()]]
    return Report([*output_lines(answer), *cost_lines(answer)], answer_json(answer), rows, warnings)


def refined_head() -> str:
    return "budget  nodes     cost an hour              gap    gap %"


def refined_line(budget: int, answer: Answer) -> str:
    return f"{budget:6} {answer.nodes:6} {shown(answer.cost):>16} {shown(answer.gap):>16} {shown(answer.gap_percent):>8}"


def refined(steps: Sequence[tuple[int, Answer]], why: str) -> Report:
    """The budgets that were tried, why no more were, and the best outputs."""
    budget, best = steps[-1]
    warnings = []
    if best.great_gap:
        warnings.append("the gap is still above 5 %: the command plan looks further")
    if best.great_surplus:
        warnings.append(surplus_warning(best))
    lines = [refined_head(), *(refined_line(*step) for step in steps), why, *output_lines(best), *cost_lines(best)]
    body = {
        "budgets": [{"budget": b, "nodes": a.nodes, "cost_an_hour": a.cost, "gap": a.gap, "gap_percent": a.gap_percent} for b, a in steps],
        "end": why,
        "budget": budget,
        **answer_json(best),
    }
    rows: list[list[object]] = [["budget", "nodes", *COST_TITLES, *best.outputs]]
    rows += [[b, a.nodes, *cost_cells(a), *a.outputs.values()] for b, a in steps]
    return Report(lines, body, rows, warnings)


def judged(judgement: Judgement, names: Sequence[str], given: Sequence[object]) -> Report:
    """Outputs of one's own, accepted or not."""
    answer, own = judgement.answer, judgement.dispatched
    if answer is None or own is None:
        rows: list[list[object]] = [["accepted", *names, "reasons"], [False, *given, "; ".join(judgement.reasons)]]
        return Report(["not accepted", *judgement.reasons], {"accepted": False, "reasons": list(judgement.reasons)}, rows, [], 1)
    difference = own.cost - answer.cost
    compared = "as much" if not difference else f"{shown(abs(difference))} {'more' if difference > 0 else 'less'}"
    warnings = []
    if answer.great_gap:
        warnings.append("the distance is above 5 %: other outputs may be cheaper; the command plan looks for them")
    if answer.great_surplus:
        warnings.append(surplus_warning(answer))
    lines = [*output_lines(answer), *cost_lines(answer, "distance")]
    lines.append(f"dispatch's own outputs cost {shown(own.cost)}: {compared}")
    body = {"accepted": True, **answer_json(answer, "distance"), "dispatch_cost_an_hour": own.cost}
    rows = [["accepted", *_titles("distance"), "dispatch's cost an hour", *answer.outputs]]
    rows.append([True, *cost_cells(answer), own.cost, *answer.outputs.values()])
    return Report(lines, body, rows, warnings)


def planned(plan: Plan) -> Report:
    """A plan, with dispatch's own reply beside it."""
    answer, own = plan.answer, plan.dispatched
    rows = [
        ("", "plan", "dispatch"),
        *((name, _given(mw), _given(own.outputs[name])) for name, mw in answer.outputs.items()),
        ("cost an hour", shown(answer.cost), shown(own.cost)),
        ("surplus, MW", shown(answer.surplus), shown(own.surplus)),
        ("nobody covers this demand for less than", shown(answer.bound), shown(own.bound)),
        ("at most so much above the best", shown(answer.gap), shown(own.gap)),
        ("in percent of the bound", *("-" if part is None else shown(part) for part in map(above_percent, (answer, own)))),
    ]
    widths = [max(len(row[k]) for row in rows) for k in range(3)]
    lines = [f"{a:<{widths[0]}}  {b:>{widths[1]}}  {c:>{widths[2]}}" for a, b, c in rows]
    warnings = [surplus_warning(answer)] if answer.great_surplus else []
    body = {
        **answer_json(answer, "above_best"),
        "above_best_percent": plan.above_percent,
        "bounds": {
            "judged": plan.bound_judged,
            "refined": plan.bound_refined,
            **({"parts": answer.bound, "number_of_parts": plan.parts} if plan.parts > 1 else {}),
        },
        "end": plan.end,
        "nodes": plan.nodes,
        "dispatch": answer_json(own),
        "refined": answer_json(plan.refined),
    }
    table: list[list[object]] = [[*_titles("above the best"), "dispatch's cost an hour", "refined cost an hour", "end", *answer.outputs]]
    cells = [answer.demand, answer.cost, answer.gap, plan.above_percent, answer.bound, answer.surplus]
    table.append([*cells, own.cost, plan.refined.cost, plan.end, *answer.outputs.values()])
    return Report([*lines, _bounds(plan), plan.end], body, table, warnings)


def _titles(gap: str) -> list[str]:
    """The titles of costs, with another word for the gap."""
    return [title.replace("gap", gap) for title in COST_TITLES]


def _given(mw: Decimal) -> str:
    return f"{shown(mw)} MW" if mw else "stands"


def _bounds(plan: Plan) -> str:
    """Which call proved which bound."""
    own = f"{shown(plan.bound_judged)} by judging, {shown(plan.bound_refined)} by refining"
    return f"the bound is {own}" + (f", {shown(plan.answer.bound)} by refining {plan.parts} parts" if plan.parts > 1 else "")


def floored(floors: Sequence[Floor], asked: int) -> Report:
    """What other demands cost at least, of so many that were asked for."""
    parts = bool(floors) and floors[0].percent is not None
    lines = ["part of the demand, MW, and what an hour costs at least:" if parts else "demand, MW, and what an hour costs at least:"]
    for floor in floors:
        part = f"{floor.percent:3} % " if parts else ""
        behind = "" if floor.covered else ", but these sets cannot cover it"
        lines.append(f"{part}{shown(floor.demand):>9} {shown(floor.least_cost):>16}{behind}")
    if len(floors) < asked:
        lines.append("a demand above 32,000 MW is left out")
    body = [
        {**({"percent": f.percent} if parts else {}), "demand_mw": f.demand, "costs_at_least": f.least_cost, "covered": f.covered}
        for f in floors
    ]
    rows: list[list[object]] = [[*(["percent"] if parts else []), "demand MW", "costs at least", "covered"]]
    rows += [[*([f.percent] if parts else []), f.demand, f.least_cost, f.covered] for f in floors]
    return Report(lines, {"floors": body}, rows)


def day_planned(day: PlannedDay, minutes: int, dispatched: PlannedDay | None = None) -> Report:
    """A day slot by slot; of one whose slots are planned, what it costs dispatched."""
    names = list(day.starts)
    width = max([4, *(len(slot.time) for slot in day.slots)])
    widths = [max(6, len(name)) for name in names]
    lines = [f"{'time':<{width}} demand MW     cost an hour    gap %  " + " ".join(f"{n:>{w}}" for n, w in zip(names, widths))]
    for slot in day.slots:
        line = f"{slot.time:<{width}} {shown(slot.demand):>9}"
        if slot.answer is None:
            lines.append(f"{line}  refused: {slot.refused}")
            continue
        mw = " ".join(f"{shown(value):>{w}}" for value, w in zip(slot.answer.outputs.values(), widths))
        lines.append(f"{line} {shown(slot.answer.cost):>16} {shown(slot.answer.gap_percent):>8}  {mw}")
    starts = " ".join(f"{count:>{w}}" for count, w in zip(day.starts.values(), widths))
    lines.append(f"{'starts of each set':<{width + 37}}{starts}")
    refused = [slot.time for slot in day.slots if slot.answer is None]
    spent, exactly = _share(day.total, minutes)
    lines.append(f"cost of the {'slots that are not refused' if refused else 'day'}: {'' if exactly else 'about '}{shown(spent)}")
    beside, unlike = beside_dispatched(day, dispatched, minutes, "leave out --plan") if dispatched is not None else ("", "")
    lines += [beside] if beside else []
    solved = [(slot.time, slot.answer) for slot in day.slots if slot.answer is not None]
    warnings = [f"refused: {_listed(refused)}; the cost is not that of the whole day"] if refused else []
    warnings += [unlike] if unlike else []
    warnings += [f"stopped: from {day.stopped} on little was searched"] if day.stopped else []
    gaps = [t for t, a in solved if a.great_gap]
    surpluses, best = ([t for t, a in solved if a.great_surplus and bool(a.gap) == more] for more in (True, False))
    if gaps:
        more = "let it search longer with --effort" if dispatched else "with --plan they are looked for"
        warnings.append(f"the gap is above 5 % in {_listed(gaps)}: other outputs may be cheaper there; {more}")
    if surpluses:
        warnings.append(
            f"the surplus is above 2 % of the demand in {_listed(surpluses)}: give less by hand there, or move load into these slots"
        )
    if best:
        warnings.append(
            f"the surplus is above 2 % of the demand in {_listed(best)}, where no outputs that cover the demand are cheaper; load can be"
            " moved into these slots"
        )
    body = {
        "slots": [_slot_json(slot) for slot in day.slots],
        "starts": day.starts,
        "minutes": minutes,
        "cost": spent,
        "cost_is_exact": exactly,
        **({} if dispatched is None else {"dispatched": day_planned(dispatched, minutes).json}),
    }
    rows: list[list[object]] = [["time", *COST_TITLES, *names, "refused"]]
    for slot in day.slots:
        if slot.answer is None:
            rows.append([slot.time, slot.demand, *[None] * (5 + len(names)), slot.refused])
        else:
            rows.append([slot.time, *cost_cells(slot.answer), *slot.answer.outputs.values(), ""])
    rows.append(["starts", *[None] * 6, *day.starts.values(), None])
    rows.append(["cost", None, spent, *[None] * (5 + len(names))])
    if dispatched is not None and not unlike:
        rows.append(["cost dispatched", None, _share(dispatched.total, minutes)[0], *[None] * (5 + len(names))])
    return Report(lines, body, rows, warnings, 1 if refused else 0)


def beside_dispatched(day: PlannedDay, dispatched: PlannedDay, minutes: int, advice: str) -> tuple[str, str]:
    """What the day costs dispatched slot by slot; and where other slots are refused so, which, with how to have it dispatched. No claim is
    made for a day as a whole: what one slot saves another may cost."""
    spent, exactly = _share(dispatched.total, minutes)
    said = f"dispatched slot by slot it costs {'' if exactly else 'about '}{shown(spent)}"
    pairs = [(a.time, a.answer is None, b.answer is None) for a, b in zip(day.slots, dispatched.slots)]
    lost, won = ([time for time, *refused in pairs if refused == which] for which in ([True, False], [False, True]))
    if lost or won:
        also = [f"dispatched, {_listed(lost)} is covered: {advice}, or give the slot before more demand"] if lost else []
        also += [f"dispatched, {_listed(won)} is refused"] if won else []
        return said, "; ".join(["the two costs are not of the same slots", *also])
    difference = spent - _share(day.total, minutes)[0]
    compared = "as much" if not difference else f"{shown(abs(difference))} {'more' if difference > 0 else 'less'}"
    return f"{said}: {compared}", ""


def _slot_json(slot: PlannedSlot) -> dict[str, object]:
    if slot.answer is None:
        return {"time": slot.time, "demand_mw": slot.demand, "refused": slot.refused}
    return {"time": slot.time, **answer_json(slot.answer)}


def _share(total: Decimal, minutes: int) -> tuple[Decimal, bool]:
    """What slots of so many minutes cost, of a sum of costs an hour; in millionths, or rounded up to them."""
    millionths = units(total, MONEY_PLACES) * minutes
    return decimal(-(-millionths // 60), MONEY_PLACES), millionths % 60 == 0


def _listed(times: Sequence[str]) -> str:
    """Times by name, at most eight of them."""
    named = ", ".join(times[:8])
    return named if len(times) <= 8 else f"{named} and {len(times) - 8} more"


# ---- a site


def _mw(value: Decimal) -> str:
    return shown(decimal(POWER.units(value), 1))


def set_words(one: Set) -> str:
    """A set in words."""
    zones = "".join(f", not strictly between {_mw(low)} and {_mw(high)}" for low, high in one.zones)
    gave = f"gave {_mw(one.previous)} MW before" if one.previous else "stood before"
    ramps = [f"may {verb} by {_mw(limit)}" for verb, limit in (("rise", one.up), ("fall", one.down)) if limit is not None]
    losses = f"{shown(one.L)} P^2" + (f" {'-' if one.L1 < 0 else '+'} {shown(abs(one.L1))} P" if one.L1 else "")
    return (
        f"{one.name}: {'must run' if one.must_run else 'may stand'}, {_mw(one.least)} to {_mw(one.greatest)} MW{zones};"
        f" {', '.join([gave, *ramps])}; at P MW costs {shown(one.A)} + {shown(one.B)} P + {shown(one.C)} P^2 an hour, loses {losses} MW"
    )


def site_shown(site: Site, demand: Decimal | None) -> Report:
    """A site in words, and as a CSV file that can be read again."""
    edition = 2 if site.linear else 1
    of = f", demand {shown(demand)} MW" if demand is not None else ""
    lines = [f"{len(site.sets)} set{'s' if len(site.sets) > 1 else ''}{of}; as a case file of edition {edition}"]
    columns = [*NEEDED[:5], *(["L1"] if site.linear else []), *NEEDED[5:]]
    rows: list[list[object]] = [list(columns)]
    rows += [[_site_cell(one, column) for column in columns] for one in site.sets]
    body = {
        **({"demand_mw": demand} if demand is not None else {}),
        "edition": edition,
        "money_times": site.money,
        "sets": [
            {column.replace(" ", "_"): getattr(one, column.replace(" ", "_")) for column in columns} for one in site.sets
        ],
    }
    return Report([*lines, *map(set_words, site.sets)], body, rows)


def _site_cell(one: Set, column: str) -> object:
    if column == "zones":
        return " ".join(f"{_mw(low)}-{_mw(high)}" for low, high in one.zones)
    return getattr(one, column.replace(" ", "_"))
