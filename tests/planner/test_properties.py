"""Properties of sites, numbers and files that are made at random."""

from __future__ import annotations

import csv
import io
import re
from dataclasses import replace
from decimal import Decimal
from fractions import Fraction

from conftest import GOOD, HEADER
from hypothesis import assume, given, settings
from hypothesis import strategies as st
from model import day as modelled_day
from model import units_of

from shahfureel import Faults, Inexact, Refusal, Set, Site, answers, exact, library, report, site_of_case, table
from shahfureel.site import COSTS

NAMES = st.text(st.characters(blacklist_categories=("C", "Z")), min_size=1, max_size=12).filter(lambda name: not name.startswith("#"))


@st.composite
def edges(draw, count):
    """Rising steps, least to greatest, where a zone may start at the end of the one before."""
    steps = sorted(draw(st.sets(st.integers(1, 400), min_size=2 + 2 * count, max_size=2 + 2 * count)))
    zones = [[steps[1 + 2 * k], steps[2 + 2 * k]] for k in range(count)]
    for k in range(1, count):
        if draw(st.booleans()):
            zones[k][0] = zones[k - 1][1]
    return steps[0], steps[-1], zones


@st.composite
def sets(draw, name, most=1):
    """A set that a case file can hold, with costs up to so many times its limits."""
    least, greatest, zones = draw(edges(draw(st.integers(0, 4))))
    mw = lambda steps: exact.decimal(steps, 1)  # noqa: E731
    ramp = st.none() | st.integers(0, 400).map(mw)
    cost = lambda column: exact.decimal(  # noqa: E731
        draw(st.integers(0, most * COSTS[column].units(COSTS[column].limit) // 20)) * draw(st.sampled_from([1, 10])), COSTS[column].places)
    return Set(
        name, cost("A"), cost("B"), cost("C"), exact.decimal(draw(st.integers(0, 4500)), 7), mw(least), mw(greatest),
        mw(draw(st.integers(0, 400))), draw(ramp), draw(ramp), draw(st.booleans()), tuple((mw(a), mw(b)) for a, b in zones),
        exact.decimal(draw(st.sampled_from([0, 0, 1, -1]) | st.integers(-(10**7), 10**6)), 8),
    )  # fmt: skip


@st.composite
def sites(draw, most=1, count=4):
    names = draw(st.lists(NAMES, min_size=1, max_size=count, unique=True))
    return Site(tuple(draw(sets(name, most)) for name in names), draw(st.booleans()))


@given(sites(), st.integers(0, 1000))
def test_a_site_goes_to_a_case_file_and_back(site, demand):
    case = site.pack(demand)
    back, own = site_of_case(case, site.names)
    assert own == demand and back.sets == site.sets and back.linear == site.linear and back.pack(demand) == case
    if not site.linear:
        assert library.unpack(case) == (demand, [one.row() for one in site.sets])


@given(sites(), st.sampled_from(",;\t"), st.booleans())
def test_a_site_goes_to_csv_and_back(site, separator, comma):
    """As it is shown, in any form that is taken."""
    rows = report.site_shown(site, None).rows
    sink = io.StringIO()
    csv.writer(sink, delimiter=separator, lineterminator="\r\n", quoting=csv.QUOTE_ALL).writerows(
        [[point(value, comma and separator != ",") for value in row] for row in rows])
    try:
        back, notes = table.read_site("x", sink.getvalue().encode())
    except Faults as fault:  # 1,200 alone, in a file without another decimal comma, could be 1200
        assert comma and all("can be read as" in line for line in fault.lines)
        return
    assert back.sets == site.sets and notes == []


def point(value, comma):
    if isinstance(value, bool):
        return "TRUE" if value else "FALSE"
    text = exact.shown(value) if isinstance(value, Decimal) else "" if value is None else value
    is_number = isinstance(value, Decimal) or (text[:1].isdigit() and "-" in text)
    return text.replace(".", ",") if comma and is_number else text


@settings(max_examples=25)
@given(sites(count=3), st.lists(st.integers(0, 900), min_size=1, max_size=4))
def test_a_day_is_that_of_the_model(site, demands):
    """The model has the rules from the specification and shares nothing with the library."""
    slots, starts = modelled_day(list(units_of(site.pack(0))), demands)
    told = answers.day(site, [(str(k), demand) for k, demand in enumerate(demands)])
    assert list(told.starts.values()) == starts
    for slot, modelled in zip(told.slots, slots):
        if modelled is None:
            assert slot.answer is None and slot.refused
            continue
        outputs, cost, gap = modelled
        assert [exact.units(mw, 1) for mw in slot.answer.outputs.values()] == outputs
        assert (slot.answer.cost, slot.answer.gap) == (exact.decimal(cost, 6), exact.decimal(gap, 6))


@given(sites(), st.integers(0, 1200))
def test_dispatch_judge_floors_and_refining_agree(site, demand):
    try:
        answer = answers.dispatch(site, demand)
    except Refusal as refusal:
        assert refusal.number == 11 and list(answers.why_not_covered(site, demand))
        return
    steps = [exact.units(mw, 1) for mw in answer.outputs.values()]
    judged = answers.judge(site, demand, steps)
    assert judged.accepted and (judged.answer.cost, judged.answer.gap, judged.answer.surplus) == (answer.cost, answer.gap, answer.surplus)
    assert answers.floors(site, demand, [demand])[0].least_cost == answer.bound == answer.cost - answer.gap
    *_, (_, refined, _) = answers.refine(site, demand, 100)
    assert refined.cost <= answer.cost and refined.bound >= answer.bound
    assert answer.great_gap == (Fraction(answer.gap) * 20 > Fraction(answer.cost))
    assert answer.great_surplus == (Fraction(answer.surplus) * 50 > Fraction(answer.demand))
    # the cost is that of the outputs, by the sets' own numbers
    spent = sum(Fraction(one.A) + Fraction(one.B) * Fraction(mw) + Fraction(one.C) * Fraction(mw) ** 2
                for one, mw in zip(site.sets, answer.outputs.values()) if mw)
    assert spent == Fraction(answer.cost)


@given(sites(), st.integers(1, 5000), st.integers(0, 600))
def test_scaling_is_exact(plain, times, demand):
    """Costs above the limits: divided so that all are whole and within them, and the answer's cost is that of the outputs all the same."""
    dearer = [{column: Decimal(getattr(one, column)) * times for column in COSTS} for one in plain.sets]
    try:
        site = Site(tuple(replace(one, **costs) for one, costs in zip(plain.sets, dearer)), plain.linear)
    except Inexact as error:  # 4999 divides all, but may be more than ten times what is needed
        assert error.faults
        return
    case = site.pack(demand)
    back, _ = site_of_case(case, site.names, site.money)
    assert back.sets == site.sets
    costs = [cost for one in site.sets for cost in one.costs()]
    limits = [quantity.units(quantity.limit) for quantity in COSTS.values()] * len(site.sets)
    fits = lambda money: all(cost % money == 0 and cost // money <= limit for cost, limit in zip(costs, limits))  # noqa: E731
    assert fits(site.money) and not any(fits(money) for money in range(1, min(site.money, 3000)))
    try:
        answer = answers.dispatch(site, demand)
    except Refusal:
        assume(False)
    spent = sum(Fraction(one.A) + Fraction(one.B) * Fraction(mw) + Fraction(one.C) * Fraction(mw) ** 2
                for one, mw in zip(site.sets, answer.outputs.values()) if mw)
    assert spent == Fraction(answer.cost)
    reply = library.dispatch(case)
    assert Fraction(answer.gap) == Fraction(reply.gap * site.money, 10**6) and answer.bound == answer.cost - answer.gap
    assert answers.floors(site, demand, [demand])[0].least_cost == answer.bound


@given(st.integers(0, 10**15), st.integers(0, 12), st.integers(-6, 6), st.integers(0, 4))
def test_numbers_are_read_exactly(number, places, power, zeros):
    text = f"{number:0{places + 1}}"
    text = f"{'0' * zeros}{text[:-places]}.{text[-places:]}{'0' * zeros}" if places else f"{'0' * zeros}{text}"
    value = exact.read(f"{text}E{power}" if power else text)
    assert Fraction(value) == Fraction(number, 10**places) * Fraction(10) ** power
    assert exact.read(exact.shown(value)) == value
    assert exact.whole(value, 3) == ((Fraction(value) * 1000).denominator == 1)
    assert exact.units(value, 3) == int(Fraction(value) * 1000)


SITE = f"{HEADER}\n{GOOD}\nb{GOOD[1:]}\n".encode()
DAY = b"time,MW\n00:00,16.5\n01:00,14\n"
NAMED = re.compile(r"line [1-9][0-9]*[:,] .+|x: its? .+|the columns, with commas between: .+")


def named(fault):
    """That each fault has its place, and none is long."""
    assert fault.lines and all(NAMED.fullmatch(line) and len(line) < 400 for line in fault.lines), fault.lines
    return True


@given(st.binary(max_size=300))
def test_any_bytes_are_a_table_or_named_faults(data):
    for read in (table.read_site, table.read_demands):
        try:
            read("x", data)
        except Faults as fault:
            assert named(fault)


@settings(max_examples=150)
@given(st.integers(0, len(SITE)), st.integers(0, 3), st.binary(max_size=3) | st.sampled_from([b",", b'"', b"\n", b"\r", b"#", b".", b"-", b"9"]))
def test_good_files_with_bytes_spoiled_are_a_table_or_named_faults(at, cut, put):
    for good, read in ((SITE, table.read_site), (DAY, table.read_demands)):
        place = at % (len(good) + 1)
        try:
            found, _ = read("x", good[:place] + put + good[place + cut :])
        except Faults as fault:
            assert named(fault)
        else:
            assert found.pack(0) if isinstance(found, Site) else found and all(exact.DEMAND.fault(mw) is None for _, mw in found)


FIELD = st.sampled_from(
    ["", "1", "0.1", "1,5", "-1", "1e400", "1e-400", "nan", "yes", "no", '"', '""', '"a', 'a"', "#", "1-2", "2..3", "3 to 4", "a", "\u00e9", "=1+1",
     "\t", ";", " ", "1" * 400, "0x1", "\u0661", "5-Mar", "1.000,5"])


@settings(max_examples=200)
@given(st.lists(st.tuples(st.sampled_from("ab"), st.sampled_from(table.NEEDED), FIELD), min_size=1, max_size=2), st.sampled_from(",;\t"),
       st.permutations(table.NEEDED))
def test_a_field_or_two_spoiled_are_a_site_or_faults_of_their_lines(spoiled, separator, columns):
    """Two good sets, of which a field or two are spoiled: what is not spoiled is read as before, and no fault is found in it."""
    good = dict(zip(HEADER.split(","), GOOD.split(",")))
    lines = {name: {**good, "name": name} for name in "ab"}
    for name, column, field in spoiled:
        lines[name][column] = field
    text = "\n".join(separator.join(fields) for fields in [columns, *([one[column] for column in columns] for one in lines.values())])
    touched = {name for name, _, _ in spoiled}
    try:
        site, _ = table.read_site("x", text.encode())
    except Faults as fault:
        places = tuple(f"line {2 + 'ab'.index(name)}" for name in touched)
        assert named(fault) and (all(line.startswith(places) for line in fault.lines) or fault.lines == ["x: it has no sets"])
    else:
        assert site.pack(0) and len(site.sets) <= 2
        whole, _ = table.read_site("x", SITE)
        assert all(one in site.sets for one in whole.sets if one.name not in touched)
