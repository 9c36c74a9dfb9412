"""Bounds by parts: held against trying all outputs, by a model that shares nothing with the library; and cases that are not what the
proof speaks of are caught."""

from __future__ import annotations

import itertools
from dataclasses import replace

import pytest
from hypothesis import assume, given, settings
from hypothesis import strategies as st
from model import cost, net, permitted, units_of

from shahfureel import parts
from shahfureel.parts import EVERYTHING, Part, Rows, Shift

STEP = 100_000_000


@st.composite
def small_sets(draw, most=3):
    """A few sets of few outputs, so that all can be tried."""
    rows, b1 = [], []
    for _ in range(draw(st.integers(1, most))):
        least = draw(st.integers(1, 6))
        steps = sorted(draw(st.sets(st.integers(least + 1, least + 14), min_size=1, max_size=5)))
        zones = min((len(steps) - 1) // 2, draw(st.integers(0, 2)))
        edges, greatest = steps[: 2 * zones], steps[-1]
        previous = draw(st.sampled_from([0, 0, least, greatest, draw(st.integers(0, 30))]))
        costs = [draw(st.integers(0, high)) for high in (5_000_000, 1_000_000, 1_000)]
        head = [*costs, draw(st.sampled_from([0, 0, 300, 4_000])), least, greatest, previous, draw(st.integers(0, 9)), draw(st.integers(0, 9))]
        rows.append((*head, draw(st.sampled_from([0, 0, 0, 1])), zones, *edges, *[0] * (8 - 2 * zones)))
        b1.append(draw(st.sampled_from([0, 10_000_000, -10_000_000, 1_234_567])))
    demand = draw(st.integers(0, sum(row[5] for row in rows)))
    return Rows(demand, tuple(rows), tuple(b1) if draw(st.booleans()) else None)


def dispatches(sets):
    """(outputs, cost) of everything that is permitted and covers, by the model."""
    units = list(units_of(sets.pack()))
    for chosen in itertools.product(*(permitted(u) for u in units)):
        if sum(n for _, _, n in chosen) >= STEP * sets.demand:
            yield [p for p, _, _ in chosen], sum(c for _, c, _ in chosen)


@st.composite
def parts_of(draw, sets):
    part = parts.whole(sets)
    total, running = part.total[1], len(sets.rows)
    first = draw(st.integers(0, total))
    part = replace(part, total=draw(st.sampled_from([part.total, (first, total), (0, first), (first, min(first + 2, total))])))
    few = draw(st.integers(0, running))
    part = replace(part, running=draw(st.sampled_from([part.running, (few, running), (0, few), (few, few)])))
    for i, (low, high) in enumerate(part.ranges):
        at = draw(st.integers(low, high + 1))
        part = draw(st.sampled_from([part, *parts.by_output(part, i, at)]))
    return part


@st.composite
def shifts(draw, part, sets):
    lossless = part.total[0] > 0 and draw(st.booleans())
    credit = draw(st.sampled_from([0, draw(st.integers(0, min(row[0] for row in sets.rows)))]))
    step, start = (draw(st.sampled_from([0, draw(st.integers(0, high))])) for high in (9_000_000, 900_000_000))
    return Shift(draw(st.sampled_from([1, 1, 2, 3, 7, 40, 1_000])), step, start, credit, lossless)


@settings(max_examples=400)
@given(st.data())
def test_no_dispatch_of_a_part_costs_less_than_its_bound(data):
    sets = data.draw(small_sets())
    part = data.draw(parts_of(sets))
    shift = data.draw(shifts(part, sets))
    near = [data.draw(st.integers(0, 25)) for _ in sets.rows]
    found = parts.bound(sets, part, shift, near, data.draw(st.sampled_from([1, 3, 100])))
    if found is None:
        return
    costs = [cost for outputs, cost in dispatches(sets) if part.holds(outputs)]
    assert found.least <= min(costs, default=EVERYTHING)


@given(st.data())
def test_parts_together_hold_every_dispatch_once(data):
    sets = data.draw(small_sets())
    part = data.draw(parts_of(sets))
    i = data.draw(st.integers(0, len(sets.rows) - 1))
    ways = [parts.by_total(part, data.draw(st.integers(0, 40))), parts.by_running(part, data.draw(st.integers(0, 4)))]
    ways.append(parts.by_output(part, i, data.draw(st.integers(0, 25))))
    for outputs, _ in dispatches(sets):
        assert parts.whole(sets).holds(outputs)
        for way in ways:
            assert sum(one.holds(outputs) for one in way) == part.holds(outputs)


@settings(max_examples=300)
@given(st.data())
def test_a_case_that_is_taken_is_one_that_the_proof_speaks_of(data):
    """Whatever case is offered: if it is taken, rules 26.3, 26.7 and 26.8 hold of it output by output."""
    sets = data.draw(small_sets(2))
    part = data.draw(parts_of(sets))
    shift = data.draw(shifts(part, sets))
    other = parts.shifted(sets, part, shift, [data.draw(st.integers(0, 25)) for _ in sets.rows])
    assume(other is not None)
    rows = [list(row) for row in other.rows]
    for _ in range(data.draw(st.integers(0, 2))):
        row = rows[data.draw(st.integers(0, len(rows) - 1))]
        place = data.draw(st.sampled_from([0, 1, 2, 3, 6, 7, 8, 9]))
        row[place] = max(0, row[place] + data.draw(st.sampled_from([-1, 1, -7, 50])))
    demand = max(0, other.demand + data.draw(st.sampled_from([0, 0, 1, -1])))
    offered = Rows(demand, tuple(map(tuple, rows)), other.b1)
    if any(row[9] > 1 or row[2] > 1_000 for row in rows) or not parts.replaces(sets, offered, part, shift):
        return
    assert offered.demand <= (part.total[0] if shift.lossless else sets.demand)
    for u, v, (low, high) in zip(units_of(sets.pack()), units_of(offered.pack()), part.ranges):
        permits = {p for p, _, _ in permitted(v)}
        for p, c, n in permitted(u):
            if low <= p <= high:
                runs = 1 if p else 0
                assert p in permits
                assert shift.share * (cost(v, p) + shift.credit * runs) <= c + shift.share * (shift.step * p + shift.start * runs)
                assert net(v, p) >= (STEP * p if shift.lossless else n)


HARBOUR = Rows(
    235,
    (
        (120000000, 6200000, 900, 300, 30, 100, 80, 20, 20, 1, 1, 45, 55, 0, 0, 0, 0, 0, 0),
        (120000000, 6350000, 850, 320, 30, 100, 75, 20, 20, 0, 2, 45, 55, 70, 74, 0, 0, 0, 0),
    ),
)


@pytest.mark.parametrize(
    "row",
    [
        lambda row: (row[0] + 1, *row[1:]),  # dearer
        lambda row: (row[0], row[1] + 1, *row[2:]),
        lambda row: (*row[:2], row[2] + 1, *row[3:]),
        lambda row: (*row[:3], row[3] + 1, *row[4:]),  # other losses
        lambda row: (*row[:8], row[8] - 1, *row[9:]),  # fewer outputs
        lambda row: (*row[:5], row[5] - 6, *row[6:]),
        lambda row: (*row[:9], 1, *row[10:]),  # it must run
        lambda row: (*row[:11], 44, 56, *row[13:]),  # a wider zone
    ],
)
@pytest.mark.parametrize("shift", [Shift(), Shift(step=7), Shift(share=3, start=5)])
def test_a_case_that_is_another_is_caught(row, shift, monkeypatch):
    part, near = parts.whole(HARBOUR), (80, 80)
    assert parts.bound(HARBOUR, part, shift, near, 10) is not None
    honest = parts.shifted

    def lying(*given):
        other = honest(*given)
        return Rows(other.demand, (other.rows[0], row(other.rows[1])), other.b1)

    monkeypatch.setattr(parts, "shifted", lying)
    with pytest.raises(AssertionError, match="none that the proof speaks of"):
        parts.bound(HARBOUR, part, shift, near, 10)


@pytest.mark.parametrize("demand", [1, 1000])
def test_a_demand_that_is_higher_is_caught(demand, monkeypatch):
    honest = parts.shifted
    monkeypatch.setattr(parts, "shifted", lambda *given: replace(honest(*given), demand=honest(*given).demand + demand))
    for shift, part in ((Shift(), parts.whole(HARBOUR)), (Shift(lossless=True), parts.by_total(parts.whole(HARBOUR), 150)[1])):
        with pytest.raises(AssertionError, match="none that the proof speaks of"):
            parts.bound(HARBOUR, part, shift, (80, 80), 10)


def test_a_set_without_an_output_in_its_box_leaves_nothing():
    part = Part((0, 200), (0, 2), ((0, 29), (0, 100)))  # the first must run, from 30 on
    assert parts.bound(HARBOUR, part, Shift(), (80, 80), 10).least == EVERYTHING
