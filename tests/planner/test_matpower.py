"""MATPOWER cases: those in examples/ as recorded, what each column becomes, every fault in its words, and files that are odd or hostile."""

from __future__ import annotations

import csv
import io
import json
import random
import re
import time
from decimal import Decimal
from fractions import Fraction

import pytest
from conftest import ROOT
from hypothesis import given, settings
from hypothesis import strategies as st

import shahfureel
from shahfureel import Faults, Refusal, Set, Site, exact, library, matpower, matpower_text, report, table
from shahfureel.site import COSTS

WHOLE = ROOT / "examples/matpower-whole.m"
GEN = "1 20 0 9 -9 1 100 1 50 10"
COST = "2 0 0 3 0.02 20 100"
BUS = "1 3 30.5"
MW = "is not a whole number of 0.1 MW: the nearest that will do is {}, which --round takes"
PLAIN = "is not a plain number like 12, -0.5 or 1e-3"
NOT_PLAIN = "mpc.gen is not plain numbers in one pair of brackets, and nothing is worked out: write the numbers"
CHANGED = "mpc.{} is changed here, which is not worked out: write the matrix as it is after that"
OPEN = "a bracket is opened here, and not closed before the file ends"
NO_MATRIX = "x.m: it has no mpc.{} = [...]: give a case of MATPOWER's version 2, whose matrices are fields of mpc"
NO_BUS = "x.m: it has no mpc.bus = [...], of which the sum of Pd is the demand: give the demand in MW behind the file"


def text(gen=(GEN,), gencost=(COST,), bus=(BUS,), end=""):
    """A case of rows: bus in line 1 and on, then gen, then gencost, each row in a line of its own."""
    parts = (("bus", bus), ("gen", gen), ("gencost", gencost))
    return "".join(f"mpc.{name} = [{chr(10).join(rows)}];\n" for name, rows in parts) + end


def read(source, **options):
    return matpower.read("x.m", source.encode() if isinstance(source, str) else source, **options)


def faults(source, **options):
    with pytest.raises(Faults) as fault:
        read(source, **options)
    return fault.value.lines


def changed(row, **columns):
    """A row with other words in these columns: c9="60"."""
    words = row.split(" ")
    for name, word in columns.items():
        words[int(name[1:]) - 1] = word
    return " ".join(words)


def one(gen=GEN, gencost=COST, **options):
    """The only set of a case."""
    return read(text([gen], [gencost]), **options).site.sets[0]


# ---- the examples

RECORDED = [
    ("whole", 0, []), ("whole-ramp", 0, ["--ramp", "10", "--may-stand"]), ("square", 1, []), ("fine", 0, ["--round"]), ("wrong", 1, []),
]


@pytest.mark.parametrize("name, status, options", RECORDED, ids=[name for name, _, _ in RECORDED])
def test_recorded(say, name, status, options):
    said = say("matpower", f"examples/matpower-{name.split('-')[0]}.m", *options)
    record = (ROOT / f"examples/matpower-{name}.txt").read_text(encoding="utf-8")
    assert (said.status, said.err + said.out) == (status, record) and (said.out == "") == (status == 1)


def test_a_case_that_is_taken_whole():
    case = read(WHOLE.read_bytes())
    zero = Decimal(0)
    assert case.demand == 2750 and case.site == Site((
        Set("gen 1 bus 1", 240, "18.5", "0.02", zero, 30, 120, zero, None, None, True),
        Set("gen 2 bus 1", 180, 20, "0.025", zero, 25, 100, zero, None, None, True),
        Set("gen 3 bus 2", 60, "24.25", "0.03", zero, "10.5", 80, zero, None, None, True),
        Set("gen 4 bus 3", 15, 38, zero, zero, "0.1", 40, zero, None, None, False),
    ))
    assert [one.place for one in case.site.sets] == [f"line {15 + k}, gen {k} bus {bus}" for k, bus in ((1, 1), (2, 1), (3, 2), (4, 3))]
    assert case.notes == [
        "line 19, gen row 4: gen 4 bus 3 may stand, or give 0.1 MW and more, since its Pmin is 0: at 0 MW it costs nothing",
        "line 20, gen row 5: gen 5 bus 4 is out of service, and left out",
        matpower.NO_PLACE,
    ]
    ramped = read(WHOLE.read_bytes(), ramp=30, may_stand=True).site.sets
    assert [(one.previous, one.up, one.down, one.must_run) for one in ramped] == [
        (90, 60, 60, False), (80, 60, 60, False), (65, 45, 45, False), (40, None, None, False)]


def test_the_squares_are_28_and_the_fine_one_27():
    for name, words, number in (("square", ("0.11", "0.1225"), 28), ("fine", ("0.00834",), 27)):
        for word in words:
            assert word in (ROOT / f"examples/matpower-{name}.m").read_text(encoding="utf-8")
            with pytest.raises(Refusal) as refusal:
                library.gencost(f"2 0 0 3 {word} 0 0".encode())
            assert refusal.value.number == number


def test_a_written_site_has_costs_above_the_limits(say, tmp_path):
    """As the guide says: a CSV file holds what is above a case file's limits, exactly. With --round too: nothing is too fine."""
    site = tmp_path / "site.csv"
    for more in ([], ["--round"]):
        assert say("matpower", "examples/matpower-square.m", *more, "--site", site).status == 0
        made = table.read_site("x", site.read_bytes())[0]
        assert [one.C for one in made.sets] == [Decimal("0.11"), Decimal("0.085"), Decimal("0.1225")] and made.money > 1
        site.unlink()
    said = f"are planned so at 315 MW for {shahfureel.plan(made, 315).answer.cost}."
    assert said in (ROOT / "docs/PLANNER.md").read_text(encoding="utf-8")


# ---- what the columns become


def test_must_run_and_may_stand():
    assert one().must_run and not one(may_stand=True).must_run
    for may_stand in (False, True):
        zero = one(changed(GEN, c10="0"), may_stand=may_stand)
        assert (zero.least, zero.must_run) == (Decimal("0.1"), False)
    assert one(changed(GEN, c9="0.2", c10="0.0")).greatest == Decimal("0.2")


@pytest.mark.parametrize("status, serves", [("1", True), ("2", True), ("0.5", True), ("0", False), ("-1", False), ("-0", False)])
def test_service(status, serves):
    """As in MATPOWER: above 0 it is in service. A unit that is not may have any numbers."""
    case = read(text([GEN, changed(GEN, c8=status, c9="60" if serves else "-5")], [COST, COST if serves else "1 0 0 9 -1 -1 -1"]))
    assert len(case.site.sets) == 1 + serves
    assert ("line 3, gen row 2: gen 2 bus 1 is out of service, and left out" in case.notes) == (not serves)


RAMPED = GEN + " 0 0 0 0 0 0 0 5.5 16 0 0"


@pytest.mark.parametrize("row, ramp, expected", [
    (RAMPED, None, ("0", None)), (RAMPED, 10, ("20", "5.5")), (RAMPED, 30, ("20", "16")),
    (GEN, 10, ("20", None)), (changed(RAMPED, c18="0"), 10, ("20", None)), (changed(RAMPED, c18="9999"), 10, ("20", None)),
    (changed(RAMPED, c2="0"), 10, ("0", "5.5")), (changed(RAMPED, c2="-3.05"), None, ("0", None)),
    (changed(RAMPED, c19="-1"), 10, ("20", "5.5")), (changed(RAMPED, c2="999.9", c18="999.9"), 10, ("999.9", "999.9")),
])
def test_ramps(row, ramp, expected):
    made = one(row, ramp=ramp)
    assert (made.previous, made.up, made.down) == (Decimal(expected[0]), *[expected[1] and Decimal(expected[1])] * 2)


def test_ramps_that_are_finer(say):
    fine = changed(RAMPED, c2="20.06", c18="0.04")
    assert faults(text([fine]), ramp=10) == [
        f"line 2, gen row 1, column 2 (Pg): 20.06 {MW.format('20.1')}", f"line 2, gen row 1, column 18 (ramp_10): 0.04 {MW.format('0')}"]
    case = read(text([fine]), ramp=10, nearest=True)
    assert (case.site.sets[0].previous, case.site.sets[0].up) == (Decimal("20.1"), 0) and case.notes[:2] == [
        "line 2, gen row 1, column 2 (Pg): 20.06 is taken as 20.1, 0.04 more",
        "line 2, gen row 1, column 18 (ramp_10): 0.04 is taken as 0, 0.04 less"]
    assert faults(text([changed(RAMPED, c2="-3", c19="-1")]), ramp=30) == [
        "line 2, gen row 1, column 2 (Pg): -3 is negative, and must be 0 or more",
        "line 2, gen row 1, column 19 (ramp_30): -1 is negative, and must be 0 or more"]
    with pytest.raises(ValueError):
        read(text(), ramp=20)


@pytest.mark.parametrize("row, costs", [
    ("2 0 0 3 0.02 20 100", "100 20 0.02"), ("2 0 0 1 80", "80 0 0"), ("2 0 0 2 20 80", "80 20 0"), ("2 0 0 2 20 80 0 0", "80 20 0"),
    ("2 0 0 4 0 0.02 20 100", "100 20 0.02"), ("2 0 0 6 0 -0 0e5 .02 20. 100.000", "100 20 0.02"), ("2e0 -5 -7 3.0 2e-2 2D1 +1d2", "100 20 0.02"),
    ("2 0 0 3 0.1 100 1000", "1000 100 0.1"), ("2 0 0 3 0.00010 1e-5 0.000001000", "0.000001 0.00001 0.0001"), ("2 0 0 1 0", "0 0 0"),
])
def test_costs(row, costs):
    made = one(gencost=row)
    assert [made.A, made.B, made.C] == [Decimal(word) for word in costs.split()] and made.L == made.L1 == 0


def test_reactive_costs_are_left_out():
    case = read(text([GEN, GEN], [COST, COST, "1 0 0 3 -1 -1 -1", "9 9 9 9 9 9 9"]))
    assert len(case.site.sets) == 2 and case.notes == [
        "line 6, gencost rows 3 to 4: they are for reactive power, and left out", matpower.NO_PLACE]


def test_the_demand():
    assert read(text(bus=["1 3 0.05", "2 1 40.25", "3 1 -10.3", "4 1 1e-1"])).demand == 301
    assert read(text(bus=["1 3 32000"])).demand == 320_000 and read(text(bus=["1 3 -0"])).demand == 0
    near = read(text(bus=["1 3 40.05"]), nearest=True)
    assert near.demand == 401 and near.notes[0] == "line 1, mpc.bus: the sum of Pd, 40.05 MW, is taken as 40.1, 0.05 more"
    isolated = read(text(bus=["1 3 30", "2 4 5", "3 4 0"]))
    assert isolated.demand == 300 and isolated.notes[0] == (
        "line 2, bus row 2: it is isolated (its type is 4), and its Pd left out, as MATPOWER does")
    alone = read(text([GEN, changed(GEN, c1="2")], [COST, COST], bus=["1 3 30", "2 4 5"]))
    assert len(alone.site.sets) == 1 and "gen row 2: gen 2 bus 2 is at an isolated bus (its type is 4), and left out" in alone.notes[1]
    # what is not needed is no fault and is not said, and is known only where it can be asked for
    assert read(text(), demand_needed=False).demand == 305
    assert read(text(bus=["1 3 30", "2 4 5"]), demand_needed=False) == matpower.Case(read(text()).site, 300, [matpower.NO_PLACE])
    for bus in (["1 3 40.05"], ["1 3 Inf"], ["1 3 5", "1 3"], ["1 3"], ["1 3 -1"], ["1 3 1e5"]):
        assert read(text(bus=bus), demand_needed=False, nearest=True).demand is None and faults(text(bus=bus))
    for source in (text().split("\n", 1)[1], text(end="mpc.bus(1, 3) = 5;"), text(end="mpc.bus = [1 2 3];")):
        assert read(source, demand_needed=False).site == read(text()).site and faults(source)


# ---- what cannot be taken

FAULTS = [
    (dict(gen=[changed(GEN, c9="1200")]), "line 2, gen row 1, column 9 (Pmax): 1200 is above 1,000 MW"),
    (dict(gen=[changed(GEN, c9="1000.04")]), "line 2, gen row 1, column 9 (Pmax): 1000.04 is above 1,000 MW"),
    (dict(gen=[changed(GEN, c9="1e300")]), "line 2, gen row 1, column 9 (Pmax): 1e300 is above 1,000 MW"),
    (dict(gen=[changed(GEN, c9="-3")]), "line 2, gen row 1, column 9 (Pmax): -3 is negative, and must be 0 or more"),
    (dict(gen=[changed(GEN, c10="-1e-9")]), "line 2, gen row 1, column 10 (Pmin): -1e-9 is negative, and must be 0 or more"),
    (dict(gen=[changed(GEN, c10="50")]), "line 2, gen row 1, column 10 (Pmin): 50 is not below Pmax, which is 50"),
    (dict(gen=[changed(GEN, c9="0", c10="0")]), "line 2, gen row 1, column 10 (Pmin): 0 is not below Pmax, which is 0"),
    (dict(gen=[changed(GEN, c9="0.1", c10="0")]), "line 2, gen row 1, column 9 (Pmax): 0.1 is below 0.2 MW, and Pmin is 0: a set that runs"
     " gives 0.1 MW or more, and its Pmax is above that"),
    (dict(gen=[changed(GEN, c1="1.5")]), "line 2, gen row 1, column 1 (bus): 1.5 is not the number of a bus, 1 or more"),
    (dict(gen=[changed(GEN, c1="0")]), "line 2, gen row 1, column 1 (bus): 0 is not the number of a bus, 1 or more"),
    (dict(gen=[changed(GEN, c8="0")]), "line 2: mpc.gen has no unit in service"),
    (dict(gencost=["1 0 0 2 0 0 50 900"]), "line 3, gencost row 1, column 1 (model): 1 is a piecewise linear cost, and only 2, a polynomial, is"
     " taken"),
    (dict(gencost=["3 0 0 2 0 0"]), "line 3, gencost row 1, column 1 (model): 3 is no model of costs, and only 2, a polynomial, is taken"),
    (dict(gencost=["2 0 0 4 1e-9 0 0 0"]), "line 3, gencost row 1, column 5 (cube): 1e-9 is not 0, and costs here end at the square"),
    (dict(gencost=["2 0 0 6 0 -2 0 0 0 0"]), "line 3, gencost row 1, column 6 (power of 4): -2 is not 0, and costs here end at the square"),
    (dict(gencost=["2 0 0 3 -0.01 20 0"]), "line 3, gencost row 1, column 5 (square): -0.01 is negative, and must be 0 or more"),
    (dict(gencost=["2 0 0 2 -20 0"]), "line 3, gencost row 1, column 5 (linear): -20 is negative, and must be 0 or more"),
    (dict(gencost=["2 0 0 2 20 0 7"]), "line 3, gencost row 1, column 7: 7 stands behind the coefficients, which are 2 by column 4 (n), where"
     " only 0 may stand"),
    *((dict(gencost=[f"2 0 0 {n} 20 0"]), f"line 3, gencost row 1, column 4 (n): {n} is not a number of coefficients, which is 1 to 2 in so"
       " many columns") for n in ("0", "3", "-1", "1.5", "1e300")),
    (dict(bus=["1 3 32000", "1 3 0.1"]), "line 1, mpc.bus: the sum of Pd, 32000.1 MW, is above 32,000 MW"),
    (dict(bus=["1 3 5", "1 3 -5.1"]), "line 1, mpc.bus: the sum of Pd, -0.1 MW, is negative"),
    (dict(bus=["1 3 1e300", "1 3 1e-300"]), f"line 1, mpc.bus: the sum of Pd, 1{'0' * 39}... (602 characters) MW, is above 32,000 MW"),
    (dict(gen=[GEN, GEN], gencost=[COST] * 3), "line 4: mpc.gencost has 3 rows, and mpc.gen 2: it must have as many, or twice as many"),
    (dict(gen=[GEN, GEN], gencost=[COST] * 5), "line 4: mpc.gencost has 5 rows, and mpc.gen 2: it must have as many, or twice as many"),
    (dict(gen=[GEN, GEN]), "line 4: mpc.gencost has 1 row, and mpc.gen 2: it must have as many, or twice as many"),
    (dict(gen=[GEN] * 33, gencost=[COST] * 33), "line 34, gen row 33: it is the 33rd unit in service, and a site has at most 32"),
]


@pytest.mark.parametrize("rows, message", FAULTS)
def test_faults(rows, message):
    """With and without --round, which changes nothing of these."""
    assert faults(text(**rows)) == faults(text(**rows), nearest=True) == [message]


def test_thirty_two_units_are_taken():
    assert len(read(text([GEN] * 32 + [changed(GEN, c8="0")], [COST] * 33)).site.sets) == 32


@pytest.mark.parametrize("rows, place, word, why, near, difference", [
    (dict(gen=[changed(GEN, c9="50.05")]), "gen row 1, column 9 (Pmax)", "50.05", "is not a whole number of 0.1 MW", "50.1", "0.05 more"),
    (dict(gen=[changed(GEN, c10="9.9499")]), "gen row 1, column 10 (Pmin)", "9.9499", "is not a whole number of 0.1 MW", "9.9", "0.0499 less"),
    (dict(gencost=["2 0 0 3 0.00834 0 0"]), "gencost row 1, column 5 (square)", "0.00834", "is not a whole number of 0.0001", "0.0083",
     "0.00004 less"),
    (dict(gencost=["2 0 0 2 1.000005 0"]), "gencost row 1, column 5 (linear)", "1.000005", "is not a whole number of 0.00001", "1.00001",
     "0.000005 more"),
    (dict(gencost=["2 0 0 1 1e-7"]), "gencost row 1, column 5 (constant)", "1e-7", "is not a whole number of 0.000001", "0", "0.0000001 less"),
    (dict(gencost=["2 0 0 3 0.12345 0 0"]), "gencost row 1, column 5 (square)", "0.12345", "is above 0.1", "0.1", "0.02345 less"),
    (dict(gencost=["2 0 0 3 0 100.00001 0"]), "gencost row 1, column 6 (linear)", "100.00001", "is above 100", "100", "0.00001 less"),
    (dict(gencost=["2 0 0 1 2e3"]), "gencost row 1, column 5 (constant)", "2e3", "is above 1,000", "1000", "1000 less"),
])
def test_the_nearest(rows, place, word, why, near, difference):
    line = 2 if "gen" in rows else 3
    instead = "; --site writes it as it is" if "above" in why else ""
    assert faults(text(**rows)) == [f"line {line}, {place}: {word} {why}: the nearest that will do is {near}, which --round takes{instead}"]
    taken = read(text(**rows), nearest=True)
    assert taken.notes[0] == f"line {line}, {place}: {word} is taken as {near}, {difference}"
    made = taken.site.sets[0]
    assert Decimal(near) in (made.greatest, made.least, made.A, made.B, made.C)


def test_what_the_nearest_make_is_looked_at_again():
    assert faults(text([changed(GEN, c9="10.04", c10="9.96")]), nearest=True) == [
        "line 2, gen row 1, column 10 (Pmin): 9.96 is not below Pmax, which is 10"]
    zero = read(text([changed(GEN, c10="0.04")]), nearest=True)
    assert not zero.site.sets[0].must_run and [note.split(": ")[1] for note in zero.notes[:2]] == [
        "0.04 is taken as 0, 0.04 less", "gen 1 bus 1 may stand, or give 0.1 MW and more, since its Pmin is 0"]


NUMBERS = st.builds(lambda digits, places: exact.decimal(digits, places), st.integers(0, 10**9), st.integers(0, 12))


EDGES = st.sampled_from(["0.1", "100", "1000", "0.10001", "0.00005", "0"]).map(Decimal)


@given(st.sampled_from([("A", "0 0 {}"), ("B", "0 {} 0"), ("C", "{} 0 0")]), NUMBERS | EDGES)
def test_a_coefficient_is_taken_where_the_library_takes_it(of, value):
    """Exactly so; and the nearest is one that it takes, than which none is nearer."""
    name, form = of
    row, unit = form.format(exact.shown(value)), exact.decimal(1, COSTS[name].places)
    try:
        library.gencost(f"2 0 0 3 {row}".encode())
    except Refusal as refusal:
        (fault,) = faults(text(gencost=[f"2 0 0 3 {row}"]))
        assert refusal.number in (27, 28) and (("is above" in fault) == (value > COSTS[name].limit)) and (refusal.number == 27 or "is above" in fault)
        made = getattr(one(gencost=f"2 0 0 3 {row}", nearest=True), name)
        distance = abs(Fraction(made) - Fraction(value))
        assert f"will do is {exact.shown(made)}," in fault and Decimal(0) <= made <= COSTS[name].limit
        assert made == COSTS[name].limit < value or distance <= Fraction(unit) / 2
    else:
        assert getattr(one(gencost=f"2 0 0 3 {row}"), name) == value


# ---- how a file may be written


def same(source):
    case, plain = read(source), read(text())
    return case.site == plain.site and case.demand == plain.demand and case.notes == plain.notes


@pytest.mark.parametrize("change", [
    lambda t: "\ufeff" + t,
    lambda t: t.replace("\n", "\r\n"),
    lambda t: t.replace("\n", "\r"),
    lambda t: t.replace(" ", "\t"),
    lambda t: t.replace(";", ""),
    lambda t: t.rstrip(";\n"),
    lambda t: t.replace("\n", " "),
    lambda t: t.replace(";\n", ", "),
    lambda t: t.replace(" = ", "="),
    lambda t: t.replace("mpc.gen ", "mpc . gen "),
    lambda t: t.replace("[", "[\n\n").replace("]", "\n;;\n]"),
    lambda t: t.replace("1 20 0", "1, 20 ,0").replace(" 50 10", ",50,10,"),
    lambda t: t.replace("9 -9", "9 ... the rest ' of ] a line\n   -9"),
    lambda t: t.replace("= [", "= ...\n ["),
    lambda t: t.replace("20 100", "20 100 % ] ' \" ; 7\n"),
    lambda t: t.replace("[2 0", "[% [ 1 2\n2 0"),
    lambda t: t.replace("[2 0", "[\n  %{  \n 1 2 3]; mpc.gen = [\n %{\n x\n %}\n'\n%}\n2 0"),
    lambda t: "%{\nmpc.gen = [1 2 3];\n%}\n" + t,
    lambda t: t + "%{\nmpc.gen = [1 2 3];\n",
    lambda t: t + "  %{ no block\n",
    lambda t: "% mpc.gen = [1 2];\nfunction mpc = f(x)\nmpc = struct();\n" + t,
    lambda t: "s = 'mpc.gen = [1; % it''s';\nu = \"it's [\"\"%\";\nv = x'; w = [1 2]'; y = x.'; z = {'[', \"]\"};\n" + t,
    lambda t: "error 'not [ closed\ndisp(['a%b' ; 'c;d'])\n" + t,
    lambda t: t + "x = f(1, 2\ny = )]};\n",
    lambda t: t + "function mpc = g(x)\nx.y = 1;\n",
    lambda t: "function x = g\nwhile a\nif b, c = 1; end\nend\ntry\nd = 1;\ncatch e\nend\nend\n" + t,
    lambda t: "if isfield(mpc, 'gen') x = mpc.gen(1, 9); end\nif a == b, c = 1; end\nfor k = mpc.gen(:, 1)', disp(k), end\n" + t,
    lambda t: t + "if any(mpc.gen(:, 9) >= 5) x = 3; end\n[a, b] = deal(mpc.gen, mpc.bus);\nf = @(x) x == mpc.gen;\n",
    lambda t: t + "mpc.genfuel = {'gas'; 'oil % ;'};\nmpc.bus_name = {\n'a'\n'b]'\n};\nmpc.gen_extra(1, 2) = 5;\nxmpc.gen = 4; mpc.a.gen = 3;\n",
    lambda t: t + "mpc.branch = [1/3 Inf pi; NaN -Inf 'x' {[(1)]} 2^2];\nmpc.gencosts = 7; mpc.('a b');\n",
])
def test_ways_to_write_a_case(change):
    changed_text = change(text())
    assert changed_text != text() and same(changed_text)


def test_bytes_that_are_no_utf_8_may_stand_in_remarks():
    assert same(b"% caf\xe9 \xff\xfe\x01\n" + text().encode())
    assert faults(b"mpc.gen = [\xe9];")[0] == f"line 1, gen row 1, column 1 (bus): \ufffd {PLAIN}"


WORDS = ["Inf", "-Inf", "inf", "NaN", "pi", "1/3", "5*2", "2^2", "1-2", "1+2", "1:3", "5'", "'9'", '"9"', "'a ; % b'", "(5)", "[5]", "{5}",
         "f(1, 2)", "[1 2; 3]", "x", "@f", "0x1F", "5i", "1e", "1e+", ".", "1.2.3", "--5", "~1", "5!", "1\u00a05", "\u0665", "1_000", "#"]


@pytest.mark.parametrize("word", WORDS)
@pytest.mark.parametrize("matrix, column", [("gen", 9), ("gen", 4), ("gencost", 2), ("bus", 3)])
def test_words_that_are_no_plain_numbers(word, matrix, column):
    """In every column of the three matrices, read or not, and also of a unit out of service; Inf and NaN where a column is read."""
    rows = {"gen": [GEN, changed(GEN, c8="0")], "gencost": [COST, COST], "bus": [BUS, BUS]}
    rows[matrix][1] = changed(rows[matrix][1], **{f"c{column}": word})
    line, named = {"bus": 2, "gen": 4, "gencost": 6}[matrix], matpower_text.COLUMNS[matrix][column - 1]
    if word.lower().lstrip("-") in ("inf", "nan") and (matrix, column) in (("gen", 4), ("gencost", 2)):
        assert read(text(**rows)).site == read(text(gen=[GEN, changed(GEN, c8="0")], gencost=[COST, COST])).site
        return
    assert faults(text(**rows)) == [f"line {line}, {matrix} row 2, column {column} ({named}): {word.replace(chr(160), '?')} {PLAIN}"]


ALONE = "is a sign without a number: write the two without a blank between them, or what the sum comes to"


@pytest.mark.parametrize("source, expected", [
    (text([changed(GEN, c5="- 9")]), [f"line 2, gen row 1, column 5 (Qmin): - {ALONE}"]),
    (text(gencost=["2 0 0 x 0 0 -5"]), [f"line 3, gencost row 1, column 4 (n): x {PLAIN}"]),
    (text(gencost=["2 0 0 3 0 0 5 - 3"]), [f"line 3, gencost row 1, column 8: - {ALONE}"]),
    (text([GEN, changed(GEN, c9="150 / 3"), changed(GEN, c9="1200")], [COST] * 3), [
        f"line 3, gen row 2, column 10 (Pmin): / {PLAIN}", "line 4, gen row 3, column 9 (Pmax): 1200 is above 1,000 MW"]),
    (text([changed(GEN, c5="- 9"), GEN, GEN + " 0"], [COST] * 3), [
        f"line 2, gen row 1, column 5 (Qmin): - {ALONE}", "line 4, gen row 3: it has 11 columns, and row 2 has 10"]),
    (text([changed(GEN, c9="1e400")]), ["line 2, gen row 1, column 9 (Pmax): 1e400 is so large that MATPOWER would take it for Inf"]),
    (text(gencost=["2 1e99999999999 0 3 0 0 1e-401"]), ["line 3, gencost row 1, column 2 (startup): 1e99999999999 is so large that MATPOWER"
     " would take it for Inf", "line 3, gencost row 1, column 7: 1e-401 has more than 400 places behind its point"]),
    (text(gencost=[f"2 0 0 1 {'9' * 400}"]), [f"line 3, gencost row 1, column 5: {'9' * 40}... (400 characters) is so large that MATPOWER"
     " would take it for Inf"]),
    (text(["1,,2 0 0 0 0 1 1 50 10"]), ["line 2, gen row 1: there is no number before a comma"]),
    (text([", " + GEN]), ["line 2, gen row 1: there is no number before a comma"]),
    (text([GEN, GEN + " 0", GEN, "1 2"], [COST] * 4), ["line 3, gen row 2: it has 11 columns, and row 1 has 10",
                                                       "line 5, gen row 4: it has 2 columns, and row 1 has 10"]),
    (text([GEN, changed(GEN, c9="60") + " 0", changed(GEN, c9="1200")], [COST, "2", COST]),
     ["line 3, gen row 2: it has 11 columns, and row 1 has 10", "line 4, gen row 3, column 9 (Pmax): 1200 is above 1,000 MW",
      "line 6, gencost row 2: it has 1 column, and row 1 has 7"]),
    (text(["1 20 0 9 -9 1 100 1 50"]), ["line 2, gen row 1: it has 9 columns, and 10 are needed, up to Pmin"]),
    (text(gencost=["2 0 0 3"]), ["line 3, gencost row 1: it has 4 columns, and 5 are needed, up to coefficients"]),
    (text(bus=["1 3"]), ["line 1, bus row 1: it has 2 columns, and 3 are needed, up to Pd"]),
    (text([]), ["line 2: mpc.gen has no rows"]),
    (text(end="mpc.gen = [1 2 3];\nmpc.bus = mpc.bus;"), ["line 4: mpc.gen is set here, and was in line 2: leave one of the two",
                                                           "line 5: mpc.bus is set here, and was in line 1: leave one of the two"]),
    (text(end="mpc.gen(1,9) = 60;"), [f"line 4: {CHANGED.format('gen')}"]),
    (text(end="mpc.gen(1,\n9) = 60;"), []),
    (text(end="mpc.gencost(1, :) = [];"), [f"line 4: {CHANGED.format('gencost')}"]),
    (text(end="mpc.bus(:, [PD, QD]) = mpc.bus(:, [PD, QD]) / 1e3;"), [f"line 4: {CHANGED.format('bus')}"]),
    (text(end="[x, mpc.gen(1, 1)] = f(2);"), [f"line 4: {CHANGED.format('gen')}"]),
    (text(end="if x mpc.gen(1, 1) = 2; end"), [f"line 4: {CHANGED.format('gen')}"]),
    *((text(end=f"if x {sign} y mpc.gen(1, 1) = 2; end"), [f"line 4: {CHANGED.format('gen')}"]) for sign in ("==", "~=", "<=", ">=", "!=")),
    (text([changed(GEN, c9="1200")]).replace("\n", "\r"), ["line 2, gen row 1, column 9 (Pmax): 1200 is above 1,000 MW"]),
    (text([changed(GEN, c9="1200")]).replace("\n", "\r\n"), ["line 2, gen row 1, column 9 (Pmax): 1200 is above 1,000 MW"]),
    (text(end="mpc(1).gen{2} = 3; mpc.gen(1, 9) += 5;"), [f"line 4: {CHANGED.format('gen')}"] * 2),
    (text(end="mpc.('gen') = [];"), ["line 4: a field of mpc is changed here, which is not worked out: write the matrix as it is after that"]),
    (text(end="mpc = scale(mpc);\n[mpc, x] = f(mpc);"), [f"line {k}: mpc is set here as a whole, after its matrices, which is not worked out:"
                                                        " leave this out" for k in (4, 5)]),
    (text().replace("mpc.gen ", "if x\nmpc.gen "), [
        f"line {line}: mpc.{name} is set inside a condition or a loop, which is not followed: set it outside" for line, name in (
            (3, "gen"), (4, "gencost"))]),
    *((text().replace("mpc.gen = [", f"mpc.gen = {begin}").replace("10];", f"10{end}"), [f"line 2: {NOT_PLAIN}"]) for begin, end in (
        ("[", "]';"), ("[", "] * 2;"), ("2 * [", "];"), ("f([", "]);"), ("@(x) [", "];"), ("[", "](1, :);"), ("{", "};"), ("[", "]];"),
        ("[", "] [1];"), ("'[", "]';"), ("", ";"))),
    (text().replace("10];", "10;"), [f"line 2: {OPEN}"]),
    (text()[: text().index("];\nmpc.gencost")], [f"line 2: {OPEN}"]),
    (text([changed(GEN, c9="1200")]) + "x = {1, [2\n", ["line 2, gen row 1, column 9 (Pmax): 1200 is above 1,000 MW", f"line 4: {OPEN}"]),
    (text().replace("10];", "10);"), [f"line 2: {OPEN}"]),
    (text([GEN.replace("50", "[50")]), [f"line 2: {OPEN}"]),
    ("", [NO_MATRIX.format("gen"), NO_MATRIX.format("gencost"), NO_BUS]),
    ("gen = [1 2]; s.gen = [1];\n", [NO_MATRIX.format("gen"), NO_MATRIX.format("gencost"), NO_BUS]),
    (text().split("\n")[1], [NO_MATRIX.format("gencost"), NO_BUS]),
    (text([changed(GEN, c9="1200")]).replace("mpc.gencost", "x"), ["line 2, gen row 1, column 9 (Pmax): 1200 is above 1,000 MW",
                                                                   NO_MATRIX.format("gencost")]),
    (b"\x00\x01", ["x.m: it is no text: give the case as a file of MATLAB code, CASE.m, and not as a MAT file"]),
    (text().encode("utf-16"), ["x.m: it is in UTF-16, which some programs call Unicode text: save it as plain text, in UTF-8"]),
    (text().encode("utf-16-le"), ["x.m: it is no text: give the case as a file of MATLAB code, CASE.m, and not as a MAT file"]),
    (b"\x89PNG\r\n\x1a\n\xff\xd8", [NO_MATRIX.format("gen"), NO_MATRIX.format("gencost"), NO_BUS]),
    (b" " * 1_000_001, ["x.m: it has more than 1,000,000 bytes"]),
])
def test_odd_and_hostile_files(source, expected):
    if expected:
        assert faults(source) == expected
    else:  # a line ends within parentheses: no such line is MATLAB's, and none is set
        assert same(source)


def test_two_numbers_where_a_sign_follows_a_blank():
    assert same(text([GEN.replace("9 -9", "9   -9")])) and same(text([GEN.replace("9 -9 1", "9,-9,+1")]))


LONG = [
    "[", "(", "{", "[(", "[)", "]", "'", '"', "%{\n", "%}\n", "...\n", "mpc.gen ", "mpc.gen...\n", "mpc.gen()", "mpc.gen = [1];", "mpc.gen(1) = 2;",
    "1 ", "x ", "- ", ",", ";", ".", "a.", "''", "=", "1e9", "\n", "if x\n", "[mpc,",
]  # fmt: skip


@pytest.mark.parametrize("unit", LONG)
@pytest.mark.parametrize("before", ["", "mpc.gen = ["])
def test_long_files_of_one_thing(unit, before):
    """Of whatever a file is made, the time to read it grows as its length does: with its square these would take a minute."""
    start = time.process_time()
    assert faults(before + unit * (30_000 // len(unit)) + "\nx = 1;")
    assert time.process_time() - start < 5


# ---- made at random

STEPS = st.integers(0, 10_000)


@st.composite
def units(draw):
    """A set as a MATPOWER case with ramps can hold it."""
    least = draw(st.integers(1, 9_998))
    greatest = draw(st.integers(least + 1, 10_000))
    a, b, c = (exact.decimal(draw(st.integers(0, q.units(q.limit))), q.places) for q in COSTS.values())
    ramp = draw(st.none() | st.integers(1, 9_999).map(lambda steps: exact.decimal(steps, 1)))
    mw = [exact.decimal(steps, 1) for steps in (least, greatest, draw(STEPS))]
    return Set("x", a, b, c, 0, *mw, ramp, ramp, True)


SPELLED = [
    exact.shown, lambda v: f"+{v:f}", lambda v: f"{v:f}" + ("000" if "." in f"{v:f}" else ".0"), lambda v: f"{v:e}",
    lambda v: f"{v:E}".replace("E", "D"), lambda v: f"00{v:f}", lambda v: f"{v * 1000:f}e-3",
    lambda v: exact.shown(v).replace("0.", ".", 1) if 0 < v < 1 else exact.shown(v),
]
BETWEEN = [" ", "\t", ", ", ",", " ...\n", " ,", "  ... % [ '\n\t"]
BEHIND = [";", "\n", ";\n", " ; % it's ] here\n", "\r\n", ";\n\n% a row: [1 2];\n", ",\n", " ...\n;", "\n%{\n 1 2 ];\n%}\n"]


def spelled(value, choose):
    value = Decimal(value)
    return "-" + choose(SPELLED[2:])(-value) if value < 0 else choose(SPELLED)(value)


def written(name, rows, choose):
    """A matrix, with each number and each place between two written in a way of its own."""
    lines = (choose(BETWEEN).join(spelled(value, choose) for value in row) + choose(BEHIND) for row in rows)
    return f"mpc.{name} = [{''.join(lines)}]{choose([';', ''])}{choose([chr(10), ', ', ' ; '])}"


def gen_row(unit, status=1):
    return [7, unit.previous, 0, -5, 5, 1, 100, status, unit.greatest, unit.least, *[0] * 7, unit.up or 0, 0, 0, 0]


@given(st.lists(units(), min_size=1, max_size=4), st.lists(st.integers(-9_999, 99_999), min_size=1, max_size=4), st.integers(0, 2**32))
def test_a_site_goes_to_a_case_and_back(sets, loads, seed):
    """In whatever order and form its matrices are written, with units out of service between."""
    chance = random.Random(seed)
    parts = [
        written("gen", [row for unit in sets for row in (gen_row(unit), gen_row(unit, 0))], chance.choice),
        written("gencost", [row for unit in sets for row in [[2, 10, 0, 3, unit.C, unit.B, unit.A]] * 2], chance.choice),
        written("bus", [[k, 1, exact.decimal(load, 1)] for k, load in enumerate(loads, 1)], chance.choice),
    ]
    chance.shuffle(parts)
    demand = sum(loads) if 0 <= sum(loads) <= 320_000 else None
    case = read("".join(parts), ramp=10, demand_needed=demand is not None)
    assert case.demand == demand and case.site.sets == tuple(
        Set(f"gen {2 * k + 1} bus 7", s.A, s.B, s.C, 0, s.least, s.greatest, s.previous, s.up, s.down, True) for k, s in enumerate(sets))
    assert library.unpack(case.site.pack(0))[1] == [s.row() for s in sets] and len(case.notes) == len(sets) + 1


def fine(source, **options):
    """Reads what may be anything: a case whose site is one, or faults in lines of their own."""
    try:
        case = read(source, **options)
    except Faults as fault:
        assert fault.lines and all(line and "\n" not in line and line.isprintable() for line in fault.lines)
        numbers = [int(match[1]) for match in (re.match(r"line (\d+)", line) for line in fault.lines) if match]
        assert numbers == sorted(numbers)
        return
    assert case.site.pack(case.demand or 0) and case.notes[-1] == matpower.NO_PLACE
    assert table.read_site("x", report.site_shown(case.site, None).text("csv").encode())[0].sets == case.site.sets


@given(st.binary(max_size=200), st.booleans())
def test_any_bytes(data, behind):
    fine(data)
    fine(text().encode() + data if behind else data + text().encode())


PIECES = st.sampled_from([
    "[", "]", "(", ")", "{", "}", "'", '"', "%", "%{\n", "\n%}\n", "...", "\n", "\r", ";", ",", " ", "-", "+", "=", "==", "mpc", "mpc.gen",
    "mpc.gen = [", "e", "0",
    "1", "-5", "0.04", "1e400", "1e-7", "Inf", "NaN", "if x\n", "end\n", "function", "\ufeff", "\u00e9", "\t", ".", "99999", "d2", "#", "\0",
])  # fmt: skip


@settings(max_examples=120)
@given(st.sampled_from(["whole", "square", "fine", "wrong"]), st.data())
def test_cases_that_were_damaged(name, data):
    source = (ROOT / f"examples/matpower-{name}.m").read_text(encoding="utf-8")
    for _ in range(data.draw(st.integers(1, 3))):
        start = data.draw(st.integers(0, len(source)))
        cut = data.draw(st.sampled_from([0, 0, 1, 2, 5, 50, len(source)]))
        source = source[:start] + "".join(data.draw(st.lists(PIECES, max_size=3))) + source[start + cut :]
    fine(source, nearest=data.draw(st.booleans()), ramp=data.draw(st.sampled_from([None, 10, 30])), demand_needed=data.draw(st.booleans()))


# ---- the command


def test_status_and_forms(say, tmp_path):
    path = "examples/matpower-whole.m"
    plain = say("matpower", path)
    told = json.loads(say("matpower", path, "--json").out, parse_float=str)
    assert told["demand_mw"] == "275.0" and [one["name"] for one in told["sets"]][2:] == ["gen 3 bus 2", "gen 4 bus 3"]
    rows = list(csv.reader(io.StringIO(say("matpower", path, "--csv").out)))
    assert rows[0][-1] == "gen 4 bus 3" and len({len(row) for row in rows}) == 1
    assert say("matpower", path, "--help").out.startswith("usage: python3 -m shahfureel matpower") and plain.status == 0
    # a demand that is given, and one that nothing covers
    assert re.search(r"^gen 4 bus 3 +40\.0 MW", say("matpower", path, "340").out, re.M)
    short = say("matpower", path, "340.1")
    assert (short.status, short.out) == (1, "") and short.err.startswith("note: line 19, gen row 4")
    assert "\ndemand: these sets cannot cover 340.1 MW; the most" in short.err
    assert json.loads(say("matpower", path, "340.1", "--json").out)["refused"] == 11
    # faults end with 1, in JSON too
    wrong = say("matpower", "examples/matpower-wrong.m", "--json")
    assert wrong.status == 1 and json.loads(wrong.out) == {"refused": "MATPOWER case", "words": wrong.err.splitlines()}
    many = tmp_path / "many.m"
    many.write_text(text(["x " * 90]))
    assert len(say("matpower", many).err.splitlines()) == 51 and say("matpower", many).err.endswith("and 40 more\n")
    # usage, and files that are not there
    for words in (["x"], ["23.55"], ["--ramp", "20"], ["--site", "-"], ["--site", "x.case"], ["--times", "2"], ["--effort", "0"]):
        assert say("matpower", path, *words).status == 2 and say("matpower", path, *words).out == ""
    assert say("matpower", tmp_path / "none.m") == (2, "", f"{tmp_path / 'none.m'}: No such file or directory\n")
    assert say("matpower", tmp_path) == (2, "", f"{tmp_path}: Is a directory\n")
    assert say("matpower", "-", stdin=(ROOT / path).read_bytes()) == plain


def test_a_demand_that_is_given_needs_no_bus(say, tmp_path):
    case = tmp_path / "a.m"
    case.write_text(text(bus=["1 3 Inf"]))
    assert say("matpower", case).err == f"line 1, bus row 1, column 3 (Pd): Inf {PLAIN}\n"
    assert re.match(r"gen 1 bus 1 +30\.0 MW", say("matpower", case, "30").out.splitlines()[1])


def test_ramps_that_a_unit_which_must_run_cannot_keep(say, tmp_path):
    case = tmp_path / "a.m"
    case.write_text(text([changed(RAMPED, c2="2")]))
    said = say("matpower", case, "--ramp", "10")
    assert said.status == 1
    assert "\nline 2, gen 1 bus 1: it must run, and previous, up and down let it go from 0.0 to 7.5 MW" in said.err
    assert say("matpower", case).status == 0


def test_a_site_is_written(say, tmp_path):
    path, site = "examples/matpower-whole.m", tmp_path / "site.csv"
    said = say("matpower", path, "--ramp", "10", "--site", site)
    assert (said.status, said.out) == (0, f"{site}: a site of 4 sets; the demand is 275.0 MW\n") and said.err.startswith("note: line 19")
    made, notes = table.read_site("x", site.read_bytes())
    assert made == read(WHOLE.read_bytes(), ramp=10).site and notes == []
    assert say("plan", site, "275").out == say("matpower", path, "--ramp", "10").out
    # as JSON and CSV, with another demand, and without one
    body = json.loads(say("matpower", path, "280", "--site", site, "--json").out)
    assert body.pop("notes") == read(WHOLE.read_bytes()).notes
    assert body == {"file": str(site), "demand_mw": 280.0, "sets": list(made.names), "words": []}
    assert say("matpower", path, "--site", site, "--csv").out == f"file,demand MW,sets\n{site},275.0,4\n"
    alone = tmp_path / "alone.m"
    alone.write_text(text(bus=["1 3 0.05"]))
    assert say("matpower", alone, "--site", site).out == f"{site}: a site of 1 set\n"


def test_what_is_not_written(say, tmp_path):
    """Not where the case cannot be taken, not over the case, and not where nothing can be."""
    site, case = tmp_path / "site.csv", tmp_path / "case.m"
    assert say("matpower", "examples/matpower-wrong.m", "--site", site).status == 1 and not site.exists()
    case.write_text(text())
    for spelled in (case, tmp_path / "." / "case.m", tmp_path / "link.m"):
        if not spelled.exists():
            spelled.symlink_to(case)
        assert say("matpower", case, "--site", spelled) == (2, "", f"{spelled}: the site would replace the case\n")
    assert case.read_text() == text()
    assert say("matpower", case, "--site", tmp_path / "no" / "site.csv").status == 2
    assert sorted(path.name for path in tmp_path.iterdir()) == ["case.m", "link.m"]
