"""The table of plans in docs/PERFORMANCE.md: of each group of sites how far above the best dispatch, refining and a plan are at most, and
how long a plan takes. Usage: table.py FOLDER"""

import statistics
import sys
import time
from pathlib import Path

from shahfureel import planning, site_of_case


def measured(path):
    """(dispatch, refined, plan) in percent above the best at most, each against the plan's bound but the refined against its own, and
    the seconds of processor time of the plan."""
    site, demand = site_of_case(path.read_bytes())
    start = time.process_time()
    plan = planning.plan(site, demand)
    seconds = time.process_time() - start
    bound = plan.answer.bound
    above = lambda cost, of: float(100 * (cost - of) / of) if of else 0.0
    return above(plan.dispatched.cost, bound), above(plan.refined.cost, plan.refined.bound), above(plan.answer.cost, bound), seconds


def group_of(path):
    """The units, zones and edition of a site by its name."""
    first, _, rest = path.stem.partition("-")
    return rest.rpartition("-")[0] if rest != "equal" else "equal", int(first)


def row(name, found):
    columns = list(zip(*found))
    parts = [f"{statistics.median(column):.4f} | {max(column):.4f}" for column in columns[:3]]
    return f"| {name} | {len(found)} | {' | '.join(parts)} | {statistics.median(columns[3]):.2f} | {max(columns[3]):.2f} |"


def main(folder):
    groups = {}
    for path in sorted(Path(folder).glob("*.case")):
        groups.setdefault(group_of(path), []).append(measured(path))
    print("| zones | units | sites | dispatch | worst | refined | worst | plan | worst | seconds | most |")
    print("|---|---|---|---|---|---|---|---|---|---|---|")
    for (zones, units), found in sorted(groups.items()):
        print(row(f"{zones} | {units}", found))
    print(row("all | ", [one for found in groups.values() for one in found]))


if __name__ == "__main__":
    main(sys.argv[1])
