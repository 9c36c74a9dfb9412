"""What docs/PLANNER.md says in its tables and sentences, against the command, the models and trying all outputs. (tests/guides holds the
commands that it shows against what they print.)"""

from __future__ import annotations

import os
import re
import subprocess
from decimal import Decimal

import pytest
from best import best_costs
from conftest import ROOT
from model import units_of
from nodes import Search

import shahfureel
from shahfureel import answers, exact, read

GUIDE = (ROOT / "docs/PLANNER.md").read_text(encoding="utf-8")
HARBOUR = ROOT / "examples/harbour.csv"


def rows(pattern):
    return re.findall(pattern, GUIDE, re.M)


def steps(text):
    return exact.units(Decimal(text), 1)


def test_demands_side_by_side():
    found = rows(r"^\| ([\d.]+) \| (\d+\.\d{6}) \| (\d+\.\d{6}) \| (\d+\.\d{6}) \|$")
    assert len(found) == 3
    for demand, cost, bound, gap in found:
        answer = shahfureel.dispatch(read(HARBOUR), demand)
        assert [str(answer.cost), str(answer.bound), str(answer.gap)] == [cost, bound, gap]


def test_floors_beside_the_best():
    found = rows(r"^\| (\d+) % \| ([\d.]+) \| ([\d.]+) \| ([\d.]+) \| ([\d.]+), ([\d.]+) % \|$")
    told = answers.floors(read(HARBOUR), 235)
    best = best_costs(read(HARBOUR).case("23.5"), [steps(row[1]) for row in found])
    assert len(found) == 9
    for (percent, demand, floor, cost, above, part), one, least in zip(found, told, best):
        assert (int(percent), demand, floor) == (one.percent, str(one.demand), str(one.least_cost))
        distance = exact.decimal(least, 6) - one.least_cost
        assert (cost, above) == (str(exact.decimal(least, 6)), str(distance)) and part == f"{100 * distance / Decimal(cost):.2f}"


def test_refined_beside_the_model_and_the_best():
    found = rows(r"^\| ([\d.]+) \| ([\d.]+) \| ([\d.]+) \| ([\d.]+) \| ([\d.]+) \| (\d+) \|$")
    best = dict(rows(r"^\| \d+ % \| ([\d.]+) \| [\d.]+ \| ([\d.]+) \|"))
    units = list(units_of(read(HARBOUR).case("23.5")))
    assert len(found) == 9
    for demand, *said in found:
        first, last = (Search(units, steps(demand), budget) for budget in (1, 100))
        money = [str(exact.decimal(n, 6)) for n in (first.best[1], first.gap(), last.best[1], last.gap())]
        assert said == [*money, str(last.nodes)] and said[2] == best[demand] and last.nodes < 100
        *_, (_, refined, _) = answers.refine(read(HARBOUR), steps(demand))
        assert [str(refined.cost), str(refined.gap), str(refined.nodes)] == said[2:]


@pytest.mark.parametrize("name", ["harbour", "island", "turbines", "u5", "vibration", "full", "full-2"])
def test_refining_is_that_of_the_model(name):
    case = (ROOT / f"examples/{name}.case").read_bytes()
    site, demand = shahfureel.site_of_case(case)
    for budget, answer, _ in answers.refine(site, demand, 10 if name.startswith("full") else 100):
        search = Search(list(units_of(case)), demand, budget)
        outputs, cost, _ = search.best
        assert (answer.nodes, answer.cost, answer.gap) == (search.nodes, exact.decimal(cost, 6), exact.decimal(search.gap(), 6))
        assert [exact.units(mw, 1) for mw in answer.outputs.values()] == outputs


def test_two_days_of_which_the_one_with_more_demand_is_cheaper():
    said = rows(r"([\d.]+) MW and then (?:for )?([\d.]+) MW[^.;]*?costs? ([\d.]+\d)")
    assert len(said) == 2 and Decimal(said[0][0]) < Decimal(said[1][0]) and Decimal(said[0][2]) > Decimal(said[1][2])
    for first, second, total in said:
        assert str(shahfureel.day(read(HARBOUR), [first, second]).total) == total


def marked(path, *names):
    text = path.read_text(encoding="utf-8")
    for name in names:
        text = re.sub(rf"^({name}.*?,\s*)no,", r"\1yes,", text, flags=re.M)
    return shahfureel.table.read_site("x", text.encode())[0]


ALIKE = ROOT / "examples/alike.csv"
ALL = ("diesel 1", "diesel 2", "diesel 3")


@pytest.mark.parametrize("path, names, demand, cost, outputs", [
    (HARBOUR, ("diesel 2",), "23.5", "1438.636600", "10.0 8.6 0.0 5.0"),
    (ALIKE, ALL, "5", "620.430000", "3.0 3.0 3.0"),
    (ALIKE, ALL, "25", "1641.451200", "8.4 8.4 8.4"),
    (ALIKE, ("diesel 1",), "5", "338.540900", None),
    (ALIKE, (), "29.9", "1947.000000", "10.0 10.0 10.0"),
])
def test_sets_marked_as_must_run(path, names, demand, cost, outputs):
    answer = shahfureel.dispatch(marked(path, *names), demand)
    assert str(answer.cost) == cost and cost in GUIDE
    assert outputs is None or " ".join(map(str, answer.outputs.values())) == outputs


def test_figures_of_sets_alike():
    site = read(ALIKE)
    assert str(shahfureel.dispatch(site, 5).bound) == "324.584280" and "324.584280" in GUIDE
    assert str(shahfureel.dispatch(site, "29.9").gap_percent) == "0.31"
    by_hand = shahfureel.judge(site, 25, ["8.4", "8.4", "8.3"]).answer
    assert (str(by_hand.cost), str(by_hand.gap), str(by_hand.gap_percent)) == ("1635.100900", "12.116620", "0.75") and "12.116620" in GUIDE
    refined = shahfureel.refine(site, 25)
    assert str(refined.bound) == "1629.147193" and str(by_hand.cost - refined.bound) == "5.953707" and "5.953707" in GUIDE


def test_the_island_without_linear_losses():
    text = (ROOT / "examples/island.csv").read_text(encoding="utf-8")
    plain = "\n".join(",".join(field for k, field in enumerate(line.split(",")) if k != 5) for line in text.splitlines() if line[0] != "#")
    answer = shahfureel.dispatch(shahfureel.table.read_site("x", plain.encode())[0], 15)
    assert " ".join(map(str, answer.outputs.values())) == "11.6 0.0 1.0 2.5" and str(answer.cost) == "950.935400" and "950.935400" in GUIDE


def test_the_examples_of_the_readme_as_they_stand():
    """Each command that README shows with its answer, typed as it stands there."""
    blocks = re.findall(r"^```\n(.*?)^```$", (ROOT / "README.md").read_text(encoding="utf-8"), re.M | re.S)
    shown = [(typed, said) for typed, said in zip(blocks, blocks[1:]) if typed.startswith("python3 -m shahfureel")]
    # README leaves the day's answer to the guide, and the screen's to its picture
    shown = [(typed, said) for typed, said in shown if not re.search(" (day|screen) ", typed)]
    assert len(shown) == 3
    environment = {name: value for name, value in os.environ.items() if not name.startswith("PYTHON")}
    for typed, said in shown:
        done = subprocess.run(["bash", "-c", typed], capture_output=True, text=True, check=False, cwd=ROOT,
                              env={**environment, "PYTHONDONTWRITEBYTECODE": "1", "PYTHONPATH": "python"})
        assert (done.returncode, done.stderr, done.stdout) == (0, "", said)
