"""Debian's CBC beside plans, on the same sites: how far above the plan's bound its outputs are, and what it claims itself.
Usage: cbc.py FOLDER [SECONDS]

A site becomes a mixed integer linear model. Each interval of a set has a binary (at most one of a set is on), a whole output, within the
interval where the binary is on and 0 where it is not, and a square, which is kept up by lines alone that lie on or below p * p at every
whole p. Cost and losses rise with it. So each dispatch of the site is one of the model too, at the same cost and net, and what the model
costs at least the site costs at least. CBC has so many seconds of wall clock for it, and one thread. Its outputs are made to cover in
whole steps, within the intervals that it chose (column CBC), and exchanged in pairs as a plan's are (column exchanged).

Nothing of CBC is proved, and nothing is believed: it reckons in floating point, with tolerances, and prints its bound rounded. Its
outputs count at what the judge prices them, above the plan's bound, which is proved. What it claims is the distance from its own bound.
A plan ends within a thousandth of a percent; CBC goes on to the model's best. Seconds are of processor time, of the plan and of CBC.
"""

import re
import resource
import statistics
import subprocess
import sys
import tempfile
import time
from pathlib import Path

from shahfureel import library, planning, site_of_case
from shahfureel.exact import LINEAR_LOSS
from shahfureel.improving import balanced, exchanged, lowered, reach_of
from shahfureel.units import STEP, total_net, unit_of
from table import group_of

LINES = 16  # to an interval: fewer weaken the model's bound, with more CBC comes less far
MONEY = 1_000_000  # millionths of the currency
NOTHING = float("inf")


def lines(low, high):
    """Each m whose line is in the model: through the squares of m and m + 1, and no whole number's square is below it."""
    count = min(LINES, max(high - low, 1))
    return [low + (2 * k + 1) * (high - low) // (2 * count) for k in range(count)]


def model(units, demand):
    """The model in LP format: money in the currency, power in steps, an interval's square divided by its highest output."""
    costs, nets, rows, outputs, binaries = [], [], [], {}, []
    for i, unit in enumerate(units):
        on = [f"y{i}_{k}" for k in range(len(unit.runs))]
        for k, (low, high) in enumerate(unit.runs):
            y, p, s = on[k], f"p{i}_{k}", f"s{i}_{k}"
            costs.append(f"{unit.c0 / MONEY!r} {y} + {unit.c1 / MONEY!r} {p} + {unit.c2 * high / MONEY!r} {s}")
            nets.append(f"{(STEP - unit.b1) / STEP!r} {p} - {unit.b * high / STEP!r} {s}")
            rows += [f"{p} - {low} {y} >= 0", f"{p} - {high} {y} <= 0"]
            rows += [f"{s} - {(2 * m + 1) / high!r} {p} + {m * (m + 1) / high!r} {y} >= 0" for m in lines(low, high)]
            outputs[p] = high
        if on:
            rows.append(f"{' + '.join(on)} {'<=' if unit.may_stand else '='} 1")
        binaries += on
    rows.append("\n + ".join(nets) + f" >= {demand}")
    named = [f"r{n}: {row}" for n, row in enumerate(rows)]
    bounds = [f"{p} <= {high}" for p, high in outputs.items()]
    head = ["Minimize", "cost: " + "\n + ".join(costs), "Subject To", *named, "Bounds", *bounds]
    return "\n".join([*head, "Generals", *outputs, "Binaries", *binaries, "End", ""])


def solved(text, seconds):
    """CBC's values by name, its bound in millionths, whether it ended within the limit, and its processor time."""
    spent = lambda: sum(resource.getrusage(resource.RUSAGE_CHILDREN)[:2])
    with tempfile.TemporaryDirectory() as folder:
        given, found = Path(folder, "site.lp"), Path(folder, "found")
        given.write_text(text)
        before = spent()
        words = ["cbc", given, "-timeMode", "elapsed", "-sec", str(seconds), "-solve", "-solu", found]
        log = subprocess.run(words, capture_output=True, text=True, check=True).stdout
        took = spent() - before
        values = [line.split()[-3:-1] for line in found.read_text().splitlines()[1:]]
    told = [float(re.search(rf"^{what}: +(\S+)$", log, re.M)[1]) for what in ("Objective value", "Lower bound") if f"\n{what}:" in log]
    return {name: float(value) for name, value in values}, MONEY * told[-1] if told else 0, "Result - Optimal" in log, took


def covering(units, values, target):
    """Outputs that cover in whole steps, within the intervals that CBC chose: its own, where they do, and those at one price for all."""
    regions, own = [(0, 0)] * len(units), [0] * len(units)
    for i, unit in enumerate(units):
        for k, (low, high) in enumerate(unit.runs):
            if values.get(f"y{i}_{k}", 0) > 0.5:
                regions[i], own[i] = (low, high), min(max(round(values.get(f"p{i}_{k}", 0)), low), high)
    for outputs in (own, balanced(units, regions, target)):
        if outputs and total_net(units, outputs) >= target:
            yield lowered(units, regions, outputs, target)


def exchanged_pairs(units, outputs, target):
    """As a plan exchanges them."""
    regions = [unit.region(p) for unit, p in zip(units, outputs)]
    return [outputs, *exchanged(units, regions, outputs, target, reach_of(outputs))][-1]


def measured(path, seconds):
    """Plan, CBC, exchanged and claimed in percent above a bound, the seconds of both, whether CBC ended, and whether it is cheaper."""
    case = path.read_bytes()
    site, demand = site_of_case(case)
    start = time.process_time()
    plan = planning.plan(site, demand)
    planned = time.process_time() - start
    units = [unit_of(one.row(site.money), LINEAR_LOSS.units(one.L1)) for one in site.sets]
    values, bound, ended, took = solved(model(units, demand), seconds)
    found = list(covering(units, values, STEP * demand))
    judged = [library.judge(case, outputs) for outputs in found]
    better = [library.judge(case, exchanged_pairs(units, outputs, STEP * demand)) for outputs in found]
    plain, best = (min((one.cost for one in some if one.accepted), default=NOTHING) for some in (judged, better))
    cost, least = (int(MONEY * money) for money in (plan.answer.cost, plan.answer.bound))
    above = lambda price, of: 100 * (price - of) / of if of else 0.0 if price == of else NOTHING
    percents = [above(cost, least), above(plain, least), above(best, least), above(best, bound)]
    return [*percents, planned, took, ended, (best > cost) - (best < cost)]


def row(name, found):
    columns = list(zip(*found))
    two = lambda column, places: f"{statistics.median(column):.{places}f} | {max(column):.{places}f}"
    percents = [two(column, 4) for column in columns[:4]]
    plan, cbc = (two(column, 2) for column in columns[4:6])
    return f"| {name} | {len(found)} | {percents[0]} | {plan} | {' | '.join(percents[1:])} | {sum(columns[6])} | {cbc} |"


def main(folder, seconds="2"):
    groups = {}
    for path in sorted(Path(folder).glob("*.case")):
        groups.setdefault(group_of(path), []).append(measured(path, float(seconds)))
    every = [one for found in groups.values() for one in found]
    head = "zones units sites plan worst seconds most CBC worst exchanged worst claims worst ended seconds most".split()
    print(f"| {' | '.join(head)} |")
    print("|---" * len(head) + "|")
    for (zones, units), found in sorted(groups.items()):
        print(row(f"{zones} | {units}", found))
    print(row("all | ", every))
    cheaper, dearer = (sum(one[7] == sign for one in every) for sign in (-1, 1))
    print(f"\nCBC's outputs, exchanged, are cheaper than the plan's on {cheaper} sites and dearer on {dearer}; the least that it claims is")
    print(f"{min(one[3] for one in every):.7f} percent (below 0, its bound would be above what the judge accepted).")


if __name__ == "__main__":
    main(*sys.argv[1:])
