"""Plans: every one that is printed is one that the judge accepted, with a bound that nothing goes below, whatever looks for them; and the
goal's figures on a sample of the benchmark's sites."""

from __future__ import annotations

import itertools
import json
import random
import re
import statistics
import subprocess
import time
from dataclasses import replace
from decimal import Decimal

import pytest
from conftest import ROOT
from hypothesis import given, settings
from hypothesis import strategies as st
from model import permitted, units_of
from test_parts import dispatches, small_sets

import shahfureel
from shahfureel import Refusal, library, planning, read, report, site_of_case

HARBOUR = ROOT / "examples/harbour.csv"
STEP = 100_000_000


def steps(answer):
    return [int(10 * mw) for mw in answer.outputs.values()]


def held(site, demand, plan):
    """A plan is what the judge says of its outputs, and its bound is not below those of the calls."""
    judged = library.judge(site.pack(demand), steps(plan.answer))
    assert judged.accepted
    money = 10**6 / Decimal(site.money)
    assert (plan.answer.cost * money, plan.answer.surplus * 10**9) == (judged.cost, judged.surplus)
    assert plan.answer.bound >= max(plan.bound_judged, plan.bound_refined) and plan.answer.bound <= plan.answer.cost
    assert plan.answer.cost <= min(plan.refined.cost, plan.dispatched.cost)
    assert plan.bound_judged * money == judged.cost - judged.distance


# ---- nothing is believed that is not proved


@settings(max_examples=150)
@given(small_sets())
def test_a_plan_of_a_small_site_beside_trying_all(sets):
    site, demand = site_of_case(sets.pack())
    best = min((cost for _, cost in dispatches(sets)), default=None)
    if best is None:
        with pytest.raises(Refusal) as refused:
            planning.plan(site, demand)
        assert refused.value.number == 11
        return
    plan = planning.plan(site, demand)
    held(site, demand, plan)
    assert plan.answer.bound * 10**6 <= best <= plan.answer.cost * 10**6


def lies(seed):
    """Improvers that lie: outputs at random, none, too many, below 0, in prohibited zones, too little."""
    chance = random.Random(seed)
    kinds = [
        lambda units, outputs: [chance.randint(0, 120) for _ in units],
        lambda units, outputs: [0] * len(units),
        lambda units, outputs: [],
        lambda units, outputs: [*outputs, 5],
        lambda units, outputs: [-1, *outputs[1:]],
        lambda units, outputs: [max(0, p - 1) for p in outputs],
        lambda units, outputs: [p + 1 for p in outputs],
        lambda units, outputs: [50 for _ in units],
    ]
    return lambda units, regions, outputs, *_: kinds[chance.randrange(len(kinds))](units, list(outputs))


@pytest.mark.parametrize("seed", range(6))
def test_a_lying_improver_changes_nothing_that_is_believed(seed, monkeypatch):
    honest = {demand: planning.plan(read(HARBOUR), demand) for demand in (188, 235, 282)}
    lie = lies(seed)
    monkeypatch.setattr(planning, "lowered", lie)
    monkeypatch.setattr(planning, "balanced", lambda units, regions, target: lie(units, regions, [60] * len(units)))
    monkeypatch.setattr(planning, "exchanged", lambda *given: iter([lie(*given), lie(*given)]))
    for demand, told in honest.items():
        plan = planning.plan(read(HARBOUR), demand)
        held(read(HARBOUR), demand, plan)
        assert plan.answer.bound <= told.answer.cost  # which is the best, by trying all (test_guide.py)


def test_a_lying_improver_is_not_printed(say, monkeypatch):
    monkeypatch.setattr(planning, "lowered", lambda units, *_: [1] * len(units))
    monkeypatch.setattr(planning, "exchanged", lambda *_: iter([[1, 1, 1, 1]]))
    said = say("plan", HARBOUR, "23.5", "--json")
    assert said.status == 0
    outputs = [int(10 * one["mw"]) for one in json.loads(said.out, parse_float=Decimal)["sets"]]
    assert library.judge(read(HARBOUR).case("23.5"), outputs).accepted


@pytest.mark.parametrize("name", ["step", "start", "credit"])
def test_a_bound_by_a_lying_shift_is_not_printed(name, monkeypatch):
    """Multipliers below 0 are none of those that the proof speaks of."""
    from shahfureel.shifts import Climb

    honest = Climb._shift
    monkeypatch.setattr(Climb, "_shift", lambda self: replace(honest(self), **{name: -1000}))
    with pytest.raises(AssertionError, match="none that the proof speaks of"):
        planning.plan(read(HARBOUR), 235)


def test_a_bound_above_what_the_judge_accepted_is_not_printed(monkeypatch):
    honest = planning.bound
    told = lambda *given: replace(honest(*given), least=10**12)  # noqa: E731
    monkeypatch.setattr(planning, "bound", told)
    with pytest.raises(AssertionError, match="above outputs"):
        planning.plan(read(HARBOUR), 235)


def test_a_bound_by_a_lying_part_is_not_printed(monkeypatch):
    """A search that hands over cases that are dearer than they may be ends, and prints nothing."""
    from shahfureel import parts

    honest = parts._costs
    monkeypatch.setattr(parts, "_costs", lambda row, shift, near: tuple(cost + 1 for cost in honest(row, shift, near)))
    with pytest.raises(AssertionError, match="none that the proof speaks of"):
        planning.plan(read(HARBOUR), 235)


# ---- figures


@pytest.mark.parametrize("demand", [188, 200, 212, 223, 235, 247, 259, 270, 282])
def test_the_harbour_is_planned_at_the_best_there_is(demand):
    from best import best_costs

    plan = planning.plan(read(HARBOUR), demand)
    (best,) = best_costs(read(HARBOUR).pack(demand), [demand])
    assert plan.answer.cost == plan.answer.bound == Decimal(best) / 10**6 and plan.parts > 1


@pytest.fixture(scope="module")
def sites(tmp_path_factory):
    """Two sites of each group of the benchmark, and those of equal sets."""
    folder = tmp_path_factory.mktemp("sites")
    program = folder / "write"
    sources = [ROOT / name for name in ("bench/plans/sites.c", "bench/cases.c", "bench/plain.c", "target/lib/libshahfureel.a")]
    subprocess.run(["gcc", "-O2", "-std=c99", f"-I{ROOT}/include", f"-I{ROOT}/bench", "-o", program, *sources], check=True)
    subprocess.run([program, folder, "2"], check=True)
    return sorted(folder.glob("*.case"))


def test_the_goal_on_a_sample_of_the_benchmark(sites):
    above = []
    for path in sites:
        site, demand = site_of_case(path.read_bytes())
        start = time.process_time()
        plan = planning.plan(site, demand)
        assert time.process_time() - start < 6  # two seconds where nothing else runs
        held(site, demand, plan)
        assert plan.above_percent >= 100 * (plan.answer.cost / plan.answer.bound - 1) > plan.above_percent - Decimal("0.0001")
        above.append(plan.above_percent)
    assert len(above) == 31
    assert statistics.median(above) <= Decimal("0.01") and max(above) <= Decimal("0.1")


def test_the_same_question_has_the_same_answer():
    site, demand = site_of_case((ROOT / "examples/full.case").read_bytes())
    first, second = (planning.plan(site, demand, 500_000) for _ in range(2))
    assert (first.answer.outputs, first.answer.bound, first.nodes) == (second.answer.outputs, second.answer.bound, second.nodes)


def test_costs_that_are_divided_are_multiplied_again(site):
    """Costs a thousand times as high: the same outputs, and money a thousand times as high."""
    lines = HARBOUR.read_text().splitlines()[3:]
    high = [line.split(",") for line in lines]
    for fields in high:
        fields[1:4] = [str(1000 * Decimal(field.strip())) for field in fields[1:4]]
    plan, other = planning.plan(read(HARBOUR), 235), planning.plan(read(site(*(",".join(f) for f in high))), 235)
    assert other.answer.site.money > 1 and other.answer.outputs == plan.answer.outputs
    assert other.answer.cost == 1000 * plan.answer.cost and other.answer.bound <= other.answer.cost


def test_the_order_of_the_sets_does_not_matter_for_the_outputs(site):
    lines = HARBOUR.read_text().splitlines()[3:]
    for order in itertools.islice(itertools.permutations(lines), 0, 24, 7):
        plan = shahfureel.plan(read(site(*order)), "23.5")
        assert {name: str(mw) for name, mw in plan.answer.outputs.items()} == {
            "diesel 1": "10.0", "diesel 2": "8.6", "standby": "0.0", "hydro": "5.0"}  # fmt: skip


# ---- the command


def test_a_plan_in_words_json_and_csv(say):
    said = say("plan", HARBOUR, "23.5")
    assert (said.status, said.err) == (0, "")
    assert said.out == (
        "                                                plan     dispatch\n"
        "diesel 1                                     10.0 MW      10.0 MW\n"
        "diesel 2                                      8.6 MW       9.5 MW\n"
        "standby                                       stands       stands\n"
        "hydro                                         5.0 MW       5.0 MW\n"
        "cost an hour                             1438.636600  1497.171250\n"
        "surplus, MW                              0.092633280  0.992112000\n"
        "nobody covers this demand for less than  1438.636600  1420.808390\n"
        "at most so much above the best              0.000000    76.362860\n"
        "in percent of the bound                       0.0000       5.3747\n"
        "the bound is 1420.808390 by judging, 1432.616384 by refining, 1438.636600 by refining 2 parts\n"
        "nothing is cheaper\n"
    )
    body = json.loads(say("plan", HARBOUR, "23.5", "--json").out, parse_float=Decimal)
    assert body["cost_an_hour"] == body["nobody_for_less_than"] == Decimal("1438.636600") and body["above_best"] == 0
    assert body["bounds"] == {
        "judged": Decimal("1420.808390"), "refined": Decimal("1432.616384"), "parts": Decimal("1438.636600"), "number_of_parts": 2}  # fmt: skip
    assert body["end"] == planning.BEST and body["above_best_percent"] == 0
    assert body["dispatch"]["cost_an_hour"] == Decimal("1497.171250") and body["refined"]["nodes"] == 11
    head, line = (row.split(",") for row in say("plan", HARBOUR, "23.5", "--csv").out.splitlines())
    told = dict(zip(head, line))
    assert told["end"] == planning.BEST and told["diesel 2"] == "8.6" and told["above the best %"] == "0.0000" and told["dispatch's cost an hour"] == "1497.171250"


def test_of_outputs_that_cost_the_same_those_with_less_surplus(site):
    """Wind costs nothing a MW: dispatch has it at its greatest output, a plan at what is needed."""
    sets = read(site("diesel,50,80,0.05,0.00003,3,10,5,5,5,yes,", "wind,0,0,0,0,0.1,10,0,,,no,", "sun,0,0,0,0,0.1,10,0,,,no,"))
    plan = shahfureel.plan(sets, 8)
    assert plan.answer.cost == plan.dispatched.cost and plan.answer.surplus < Decimal("0.1") < 4 < plan.dispatched.surplus


def test_a_demand_may_stand_behind_the_options(say):
    assert say("plan", HARBOUR, "--effort", "1,000,000", "23.5") == say("plan", HARBOUR, "23.5", "--effort", "1000000")
    assert say("plan", HARBOUR, "23.5", "24").status == say("plan", HARBOUR, "--nothing", "24").status == 2


def test_slots_that_are_not_hours_are_noticed(say, tmp_path):
    demands = tmp_path / "day.csv"
    demands.write_text("time,MW\n23:30,20\n23:45,20\n00:00,20\n")
    note = "note: the times are 15 minutes apart, and a slot is taken to last 60: if it lasts 15, give --minutes 15\n"
    assert say("day", HARBOUR, demands).err == note and say("day", HARBOUR, demands, "--minutes", "15").err == ""
    for times in ("a b c", "00:00 01:00 02:00", "00:00 00:15 00:45", "7:00"):
        demands.write_text("time,MW\n" + "".join(f"{time},20\n" for time in times.split()))
        assert say("day", HARBOUR, demands).err == ""


def test_no_percentage_of_a_bound_that_is_0(say, site):
    """Where nothing is proved but that nobody spends less than 0, no percentage says how far above the best outputs are."""
    sets = site("wind,1,0,0,0,0.1,1000,0,,,no,")
    assert re.search(r"^in percent of the bound +- +-$", say("plan", sets, "0.1", "--effort", "1").out, re.M)
    assert json.loads(say("plan", sets, "0.1", "--effort", "1", "--json").out)["above_best_percent"] is None
    head, line = (row.split(",") for row in say("plan", sets, "0.1", "--effort", "1", "--csv").out.splitlines())
    assert dict(zip(head, line))["above the best %"] == ""
    free = site("wind,0,0,0,0,0.1,1000,0,,,no,", name="free.csv")
    assert re.search(r"^in percent of the bound +0\.0000 +0\.0000$", say("plan", free, "0.1").out, re.M)


def test_steps_that_net_nothing_more_are_planned(site):
    """At L 0.0005 the last step below 1,000 MW nets hardly anything, and the next would net nothing."""
    sets = site("hydro,20,0,0,0.0005,10,1000,0,,,no,", "diesel,120,60,0.05,0.0005,300,1000,0,,,yes,")
    for demand in (100, 300, 520, 700, 999):
        held(read(sets), 10 * demand, planning.plan(read(sets), 10 * demand))


def test_a_plan_is_never_dearer_than_the_dispatch_beside_it():
    """Ties are lowered in the order of the file, and the search has another."""
    chance = random.Random(7)
    for _ in range(300):
        rows = [
            (chance.choice([0, 1000]), 10_000 * chance.randint(0, 2), 1000 * chance.randint(0, 1), 0, least, least + chance.randint(1, 6),
             0, 0, 0, 0, 0, *[0] * 8)
            for least in (chance.randint(1, 3) for _ in range(chance.randint(1, 4)))
        ]  # fmt: skip
        demand = chance.randint(0, sum(row[5] for row in rows))
        site, _ = site_of_case(library.pack(demand, rows))
        for effort in (1, 5_000):
            held(site, demand, planning.plan(site, demand, effort))


def test_what_cannot_be_planned_is_said(say):
    said = say("plan", HARBOUR, "99")
    assert (said.status, said.out) == (1, "") and "cannot cover 99.0 MW" in said.err
    for word in ("0", "x", "1000000001", "-1"):
        assert say("plan", HARBOUR, "23.5", f"--effort={word}").status == 2
    assert say("plan", HARBOUR).status == 2
    assert say("day", HARBOUR, ROOT / "examples/harbour-day.csv", "--effort", "9").err == "--effort is how long a plan looks: give --plan too\n"


def test_a_plan_ends_when_it_is_told_to():
    """Stopped at once it has still refined, and been judged; and it says that it stopped."""
    site, demand = site_of_case((ROOT / "examples/full.case").read_bytes())
    plan = planning.plan(site, demand, stop=lambda: True)
    held(site, demand, plan)
    assert plan.end == planning.STOPPED and plan.parts == 1
    small = planning.plan(site, demand, 1)
    held(site, demand, small)
    assert small.end == planning.SPENT


# ---- a day


def test_a_day_planned_slot_by_slot():
    site = read(HARBOUR)
    slots = [(str(k), demand) for k, demand in enumerate([165, 146, 310, 126, 200, 282, 320_000, 235])]
    day = planning.day(site, slots)
    previous, starts, total = [80, 75, 0, 30], [0] * 4, 0
    for (_, demand), slot in zip(slots, day.slots):
        try:
            plan = planning.plan(site.after(previous), demand, planning.SLOT_EFFORT)
        except Refusal:
            assert slot.answer is None and "cannot cover" in slot.refused
            continue
        assert slot.answer.outputs == plan.answer.outputs and slot.answer.bound == plan.answer.bound
        assert library.judge(site.pack(demand, previous), steps(slot.answer)).accepted
        starts = [count + (before == 0 < now) for count, before, now in zip(starts, previous, steps(slot.answer))]
        previous, total = steps(slot.answer), total + slot.answer.cost
    assert [slot.answer is None for slot in day.slots] == [False, False, True, False, False, False, True, False]
    assert list(day.starts.values()) == starts and day.total == total


def test_a_planned_day_in_words_and_json(say):
    said = say("day", HARBOUR, ROOT / "examples/harbour-day.csv", "--plan")
    assert said.status == 1
    assert "cost of the slots that are not refused: 26336.449850\ndispatched slot by slot it costs 30909.040150: 4572.590300 more\n" in said.out
    body = json.loads(say("day", HARBOUR, ROOT / "examples/harbour-day.csv", "--plan", "--json").out, parse_float=Decimal)
    assert body["cost"] == Decimal("26336.449850") and body["dispatched"]["cost"] == Decimal("30909.040150")


def test_a_planned_day_may_refuse_a_slot_that_a_dispatched_one_covers(say, tmp_path):
    """From lower outputs a set may not rise so far: what is saved in one slot can leave another uncovered, and it is said."""
    demands = tmp_path / "day.csv"
    demands.write_text("time,MW\n08:00,20.7\n09:00,30.3\n")
    planned, dispatched = say("day", HARBOUR, demands, "--plan"), say("day", HARBOUR, demands)
    assert (planned.status, dispatched.status) == (1, 0) and "refused: 09:00" in planned.out
    costs = [slot.answer.cost for slot in shahfureel.day(read(HARBOUR), ["20.7", "30.3"]).slots]
    assert f"dispatched slot by slot it costs {sum(costs)}\n" in planned.out
    unlike = (
        "the two costs are not of the same slots; dispatched, 09:00 is covered: leave out --plan, or give the slot before more demand"
    )
    assert "cost dispatched" not in say("day", HARBOUR, demands, "--plan", "--csv").out
    assert unlike in planned.out.splitlines() and unlike in json.loads(say("day", HARBOUR, demands, "--plan", "--json").out)["words"]


def test_slots_of_one_name_are_told_apart_by_their_place(say, tmp_path):
    demands = tmp_path / "day.csv"
    demands.write_text("time,MW\nx,20.7\nx,30.3\nx,31.5\n")
    assert "the two costs are not of the same slots; dispatched, x is covered: leave out" in say("day", HARBOUR, demands, "--plan").out


def test_a_planned_day_as_csv_has_the_cost_dispatched(say):
    rows = say("day", HARBOUR, ROOT / "examples/harbour-day.csv", "--plan", "--csv").out.splitlines()
    assert rows[-2].startswith("cost,,26336.449850,") and rows[-1].startswith("cost dispatched,,30909.040150,")
    assert len({row.count(",") for row in rows if '"' not in row}) == 1


def test_a_day_that_is_stopped_says_from_where_on():
    asked = iter([False] * 200)
    slots = [(f"{hour:02}:00", 200 + hour) for hour in range(24)]
    day = planning.day(read(HARBOUR), slots, stop=lambda: next(asked, True))
    last = planning.day(read(HARBOUR), slots[:1], stop=lambda: True)
    assert last.stopped == "00:00"
    assert day.stopped in [time for time, _ in slots[1:]] and all(slot.answer for slot in day.slots)
    assert f"stopped: from {day.stopped} on little was searched" in report.day_planned(day, 60, day).warnings
    assert planning.day(read(HARBOUR), slots[:2]).stopped == ""


# ---- the model that the search reckons with is the library's


@settings(max_examples=100)
@given(small_sets())
def test_units_are_those_of_the_model(sets):
    for unit, modelled in zip(sets.units, units_of(sets.pack())):
        outputs = ([0] if unit.may_stand else []) + [p for low, high in unit.runs for p in range(low, high + 1)]
        assert [(p, unit.cost(p), unit.net(p)) for p in outputs] == permitted(modelled)
