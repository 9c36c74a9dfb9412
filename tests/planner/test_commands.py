"""The command as it is typed: what it prints in words, as JSON and as CSV, its status, and what it says where it cannot answer."""

from __future__ import annotations

import csv
import io
import json
import os
import pty
import signal
import subprocess
import sys
from decimal import Decimal
from pathlib import Path

import model
import pytest
from conftest import GOOD, HEADER, ROOT

import shahfureel
from shahfureel import NoLibrary, commands, library

HARBOUR = "examples/harbour.csv"
SHORT = (
    "demand: these sets cannot cover {} MW; the most that they can cover now, after losses, is {} MW: add a set, or raise greatest or up\n"
)
AGAIN = "it is no case file, or a damaged one: make it anew, as the command case does\n"


def record(name):
    return (ROOT / "examples" / name).read_text(encoding="utf-8")


def numbers(out):
    """An answer without the sets' names and the command to type next."""
    return [line.split(" gives ")[-1] for line in out.splitlines() if not line.endswith("stands") and "to look for" not in line]


# ---- the examples as recorded

RECORDED = [
    ("harbour-23.5.txt", ["dispatch", HARBOUR, "23.5"]),
    ("island-15.txt", ["dispatch", "examples/island.csv", "15"]),
    ("turbines-54.9.txt", ["dispatch", "examples/turbines.csv", "54.9"]),
    ("vibration-26.5.txt", ["dispatch", "examples/vibration.csv", "26.5"]),
    ("u5-0.5.txt", ["dispatch", "examples/u5.csv", "0.5"]),
    ("alike-5.txt", ["dispatch", "examples/alike.csv", "5"]),
    ("alike-25.txt", ["dispatch", "examples/alike.csv", "25"]),
    ("harbour-by-hand.txt", ["judge", HARBOUR, "--demand", "23.5", "10", "8.6", "0", "5"]),
    ("harbour-by-hand.txt", ["judge", HARBOUR, "--demand", "23.5", "hydro=5", "standby=.0", "diesel 2=08.60", "diesel 1=10.0"]),
    ("harbour-floors.txt", ["floors", HARBOUR, "23.5"]),
    ("harbour-refine.txt", ["refine", HARBOUR, "23.5"]),
]


@pytest.mark.parametrize("name, words", RECORDED, ids=[name for name, _ in RECORDED])
def test_recorded(say, name, words):
    said = say(*words)
    assert (said.out, said.err, said.status) == (record(name), "", 0)


def test_a_recorded_day(say):
    said = say("day", HARBOUR, "examples/harbour-day.csv")
    assert (said.status, said.out, said.err) == (1, record("harbour-day.txt"), "")


@pytest.mark.parametrize("name, demand, status", [("harbour", "30.8", 1), ("mistakes", "23.5", 2)])
def test_recorded_refusals(say, name, demand, status):
    said = say("dispatch", f"examples/{name}.csv", demand)
    assert (said.status, said.out, said.err) == (status, "", record(f"{name}-{demand}.txt"))


@pytest.mark.parametrize("name, demand", [("harbour", "23.5"), ("island", "15"), ("turbines", "54.9"), ("u5", "0.5"), ("vibration", "26.5"),
                                          ("harbour-peak", "30.8")])
def test_case_files(say, tmp_path, name, demand):
    path = tmp_path / "a.case"
    source = HARBOUR if name == "harbour-peak" else f"examples/{name}.csv"
    said = say("case", source, demand, path)
    kept = (ROOT / f"examples/{name}.case").read_bytes()
    assert path.read_bytes() == kept and said.status == 0 and f"{len(kept)} bytes" in said.out
    # the case file has the same answer, its units by number; and its CSV makes it again
    from_csv, from_case = say("dispatch", source, demand), say("dispatch", path)
    assert from_case.status == from_csv.status and numbers(from_case.out) == numbers(from_csv.out)
    shown = say("show", path, "--csv").out
    assert say("case", "-", demand, path, stdin=shown.encode()).status == 0 and path.read_bytes() == kept
    assert say("case", path, demand, tmp_path / "b.case").status == 0 and (tmp_path / "b.case").read_bytes() == kept


# ---- the forms of an answer

EACH = [
    ["dispatch", HARBOUR, "23.5"], ["refine", HARBOUR, "23.5"], ["floors", HARBOUR, "23.5"], ["show", HARBOUR],
    ["judge", HARBOUR, "--demand", "23.5", "10", "8.6", "0", "5"], ["judge", HARBOUR, "--demand", "23.5", "10", "8.5", "0", "5"],
    ["day", HARBOUR, "examples/harbour-day.csv"], ["gencost", "examples/gencost-rows.txt"], ["case", HARBOUR, "23.5", os.devnull],
]


@pytest.mark.parametrize("words", EACH, ids=lambda words: words[0])
def test_every_command_in_every_form(say, words):
    text = say(*words)
    as_json, as_csv = say(*words, "--json"), say(*words, "--csv")
    assert text.status == as_json.status == as_csv.status
    told = json.loads(as_json.out, parse_float=Decimal)
    rows = list(csv.reader(io.StringIO(as_csv.out)))
    assert isinstance(told, dict) and len({len(row) for row in rows}) == 1
    if words[0] not in ("floors", "gencost"):
        assert "diesel 1" in as_csv.out and "standby" in as_csv.out
        if told.get("accepted", True):
            assert "diesel 1" in as_json.out and "standby" in as_json.out
        else:  # of outputs that are not accepted JSON has the reasons
            assert text.status == 1 and told["reasons"] and text.out == "\n".join(["not accepted", *told["reasons"], ""])
    # what is said in words is said in each form
    for words_of in told["words"]:
        assert words_of in text.out and words_of in as_csv.err
    assert say(words[0], "--help").out.startswith(f"usage: python3 -m shahfureel {words[0]}")


def test_json_is_exact(say):
    told = json.loads(say("dispatch", HARBOUR, "23.5", "--json").out, parse_float=str)
    assert told["cost_an_hour"] == "1497.171250" and told["surplus_mw"] == "0.992112000" and told["sets"][2] == {
        "name": "standby", "mw": "0.0", "runs": False}


def test_a_refusal_as_json(say):
    said = say("dispatch", HARBOUR, "30.8", "--json")
    assert said.status == 1 and json.loads(said.out) == {"refused": 11, "words": [SHORT.format("30.8", "30.4").strip()]}


def test_great_gaps_and_surpluses_are_said(say, site):
    said = say("dispatch", "examples/alike.csv", "25").out.splitlines()[-2:]
    assert said == [
        "the gap is above 5 %: other outputs may be cheaper; to look for them: python3 -m shahfureel plan examples/alike.csv 25.0",
        "the surplus is above 2 % of the demand: these outputs cover 29.9 MW; plan, give less by hand, or move load into this interval",
    ]
    assert "above" not in say("dispatch", "examples/alike.csv", "29.9").out.replace("above the best", "")
    # exactly 2 % is not above
    must_run = site("a,0,10,0,0,5.1,10,0,,,yes,")
    assert "the surplus is" not in say("dispatch", must_run, "5").out and "the surplus is above 2 %" in say("dispatch", must_run, "4.9").out
    assert "the distance is above 5 %" in say("judge", "examples/u5.csv", "--demand", "0.5", "0.8").out
    assert "the gap is still above 5 %" in say("refine", "examples/alike.csv", "5", "--budget", "1").out


def test_a_surplus_where_nothing_is_cheaper(say, site):
    """Where the gap is 0, refining or giving less by hand would spare nothing."""
    cheapest = "no outputs that cover the demand are cheaper; load can be moved into this interval"
    must_run = site("a,0,10,0,0,5.1,10,0,,,yes,")
    for words in (["dispatch", must_run, "4.9"], ["refine", must_run, "4.9"], ["judge", must_run, "--demand", "4.9", "5.1"]):
        said = say(*words).out
        assert "at most so much above the best: 0.000000" in said and "by hand" not in said
        assert said.endswith(f"the surplus is above 2 % of the demand: these outputs cover 5.1 MW; {cheapest}\n")
    assert say("refine", "examples/u5.case").out.endswith(f"these outputs cover 0.7 MW; {cheapest}\n")
    assert say("day", must_run, "-", stdin=b"early,4.9\nlate,6\n").out.endswith(
        "the surplus is above 2 % of the demand in early, where no outputs that cover the demand are cheaper; load can be moved into these"
        " slots\n")


def test_money_is_multiplied_again(say, site):
    path = site("a,1200,150,0.09,0,3,10,0,,,no,", "b,120,62.5,0.085,0,3,10,0,,,no,")
    said = say("dispatch", path, "12")
    assert said.err == (
        "note: costs are above what a case file holds: it has those of all sets divided by 2; money here is multiplied by it again, exactly\n"
    )
    # 1200 + 150 * 10 + 0.09 * 100, and 120 + 62.5 * 10 + 0.085 * 100
    assert said.out.splitlines()[:3] == ["a gives 10.0 MW", "b gives 10.0 MW", "cost an hour: 3462.500000"]
    case = path.with_name("a.case")
    assert say("case", path, "12", case).out.endswith(
        "money in it is divided by 2: with --times 2 the commands multiply it again\n")
    assert say("dispatch", case).out.splitlines()[2] == "cost an hour: 1731.250000"
    assert say("dispatch", case, "--times", "2").out.splitlines()[2:4] == said.out.splitlines()[2:4]
    assert say("dispatch", path, "12", "--times", "2") == (2, "", f"{path}: --times is for a case file, whose money was divided\n")


# ---- demands, outputs, budgets

NO_NUMBER = "is not a number like 12 or 12.5"


@pytest.mark.parametrize("word, message", [
    ("five", f"five {NO_NUMBER}"), ("", f"nothing stands there, and that {NO_NUMBER}"), ("-5", f"-5 {NO_NUMBER}"),
    ("23,5", f"23,5 {NO_NUMBER}"), ("nan", f"nan {NO_NUMBER}"),
    ("23.55", "23.55 is not a whole number of 0.1 MW: the nearest are 23.5 and 23.6"),
    ("0.04", "0.04 is not a whole number of 0.1 MW: the nearest are 0.0 and 0.1"),
    ("23.4" + "9" * 40, f"23.4{'9' * 40} is not a whole number of 0.1 MW: the nearest are 23.4 and 23.5"),
    ("32000.1", "32000.1 is above 32,000 MW"), ("1e400", "1e400 is above 32,000 MW"),
])
def test_wrong_demands(say, word, message):
    said = say("dispatch", HARBOUR, word)
    assert (said.status, said.out, said.err) == (2, "", f"demand: {message}\n")


def test_a_demand_is_asked_for(say):
    for command in ("dispatch", "refine", "plan"):
        assert say(command, HARBOUR) == (2, "", "a CSV file has no demand of its own: give one in MW, such as 23.5\n")
    before = "a CSV file has no demand of its own: give one in MW, such as 23.5, before --at\n"
    assert say("floors", HARBOUR, "--at", "22.3", "23.5") == (2, "", before)
    assert say("judge", HARBOUR, "1", "2", "3", "4") == (2, "", "a CSV file has no demand of its own: give one in MW, as --demand 23.5\n")
    assert say("dispatch", "examples/harbour.case", "30.8") == (1, "", SHORT.format("30.8", "30.4"))


REFUSED = [
    ("examples/island.csv", "30", SHORT.format("30.0", "29.8")),
    ("examples/harbour-peak.case", None, SHORT.format("30.8", "30.4")),
]


@pytest.mark.parametrize("command", ["dispatch", "refine", "floors", "judge"])
@pytest.mark.parametrize("path, demand, message", REFUSED)
def test_too_little(say, command, path, demand, message):
    words = [*(["--demand", demand] if demand and command == "judge" else [demand] if demand else []), *(["1"] * 4 if command == "judge" else [])]
    assert say(command, path, *words) == (1, "", message)


def test_sets_that_must_run_and_cannot(say, site):
    stuck = "it must run, and previous, up and down let it go from {} to {} MW, where least, greatest and zones permit nothing: widen up or down, or let it stand\n"
    path = site(GOOD, "b,1,2,0.01,0.00001,3,10,5,0.1,0.1,yes,4.5-5.5", "c,1,2,0.01,0.00001,3,10,0.9,2,,yes,")
    expected = "line 3, set b: " + stuck.format("4.9", "5.1") + "line 4, set c: " + stuck.format("0.0", "2.9")
    assert say("dispatch", path, "5") == (1, "", expected)
    case = path.with_name("a.case")
    assert say("case", path, "5", case).status == 0
    assert say("dispatch", case).err == expected.replace("line 3, set b", "unit 2").replace("line 4, set c", "unit 3")
    day = path.with_name("d.csv")
    day.write_text("5\n6\n".replace("5", "1,5", 1).replace("6", "2,6", 1))
    said = say("day", path, day)
    assert said.status == 1 and "refused: line 3, set b: it must run" in said.out


NOT_ACCEPTED = [
    ("examples/harbour.case", "10 7.2 0 5", "unit 2 may not give 7.2 MW; it may stand or give 5.5 to 7.0 or 7.4 to 9.5 MW"),
    (HARBOUR, "10 7.2 0 5", "diesel 2 may not give 7.2 MW; it may stand or give 5.5 to 7.0 or 7.4 to 9.5 MW"),
    (HARBOUR, "0 8.6 9 5", "diesel 1 may not stand; it may give 6.0 to 10.0 MW\nstandby may not give 9 MW; it may stand or give 1.5 to 6.0 MW"),
    (HARBOUR, "10 8.5 0 5", "after losses they give 23.492688000 MW, and the demand is 23.5 MW: 0.007312000 MW too little"),
    ("examples/u5.case", "0.4", "after losses they give 0.400000000 MW, and the demand is 0.5 MW: 0.100000000 MW too little"),
    ("examples/u5.case", "0", "after losses they give 0.000000000 MW, and the demand is 0.5 MW: 0.500000000 MW too little"),
    ("examples/u5.case", "0.5", "unit 1 may not give 0.5 MW; it may stand or give 0.2 to 0.4 or 0.7 to 1.0 MW"),
    # numbers of steps that 16, 32 or 64 bits would cut to 7 or 4
    *(("examples/u5.case", large, f"unit 1 may not give {large} MW; it may stand or give 0.2 to 0.4 or 0.7 to 1.0 MW")
      for large in ("6554.3", "429496730.3", "429496730", "1844674407370955162.3", "1E30")),
    ("examples/island.case", "8.7 4 4 1", "unit 4 may not give 1 MW; it may stand or give 0.4 to 0.9 or 1.2 to 2.5 MW"),
]


@pytest.mark.parametrize("path, outputs, message", NOT_ACCEPTED)
def test_outputs_that_are_not_accepted(say, path, outputs, message):
    demand = ["--demand", "23.5"] if path == HARBOUR else []
    assert say("judge", path, *demand, *outputs.split()) == (1, f"not accepted\n{message}\n", "")


def changed(tmp_path, *places, base="u5"):
    data = bytearray((ROOT / f"examples/{base}.case").read_bytes())
    for at, byte in zip(places[::2], places[1::2]):
        data[at] = byte
    path = tmp_path / "changed.case"
    path.write_bytes(data)
    return path


def test_windows_of_one_output_or_none(say, tmp_path):
    assert say("judge", changed(tmp_path, 29, 7), "0.8").out == "not accepted\nunit 1 may not give 0.8 MW; it may stand or give 0.7 MW\n"
    assert say("judge", changed(tmp_path, 29, 5, 7, 0), "0.7").out == "not accepted\nunit 1 may not give 0.7 MW; it may stand\n"


def test_own_outputs_are_accepted_as_dispatched(say):
    for case in sorted((ROOT / "examples").glob("*.case")):
        told = say("dispatch", case, "--json")
        if told.status:
            continue
        told = json.loads(told.out, parse_float=str)
        judged = json.loads(say("judge", case, *(one["mw"] for one in told["sets"]), "--json").out, parse_float=str)
        assert judged["accepted"] and judged["dispatch_cost_an_hour"] == judged["cost_an_hour"] == told["cost_an_hour"]
        assert judged["distance"] == told["gap"] and judged["surplus_mw"] == told["surplus_mw"]


@pytest.mark.parametrize("outputs, message", [
    (["10,0", "8.6", "-1", "x"], "".join(f"{word}: this is not a number of MW like 12 or 12.5\n" for word in ("10,0", "-1", "x"))),
    (["", ".", "1..2", "0.75"], "".join(f"{word}: this is not a number of MW like 12 or 12.5\n" for word in ("", ".", "1..2"))
     + "0.75: this is not a whole number of 0.1 MW\n"),
    (["10", "8.6", "5"], f"{HARBOUR}: sets 4, outputs given 3: give one for each set, 0 for one that stands\n"),
    (["1"] * 40, f"{HARBOUR}: sets 4, outputs given 40: give one for each set, 0 for one that stands\n"),
    (["diesel 1=10", "diesel 2=8.6"], "no output for standby, hydro: give one for each set, 0 for one that stands\n"),
    (["diesel 1=10", "5", "wind=3", "diesel 1=9"], "5: give all outputs by name, NAME=MW, or none\nwind=3: there is no set wind; the sets are"
     " diesel 1, diesel 2, standby, hydro\ndiesel 1=9: diesel 1 is given twice\n"),
])
def test_outputs_that_cannot_be_taken(say, outputs, message):
    assert say("judge", HARBOUR, "--demand", "23.5", *outputs) == (2, "", message)


def test_judged_beside_dispatch(say):
    said = say("judge", "examples/u5.case", "0.8")
    assert said.out.startswith(
        "unit 1 gives 0.8 MW\ncost an hour: 0.144000\ndistance: at most so much above the best: 0.067000, 46.53 % of the cost\n"
        "nobody covers this demand for less than 0.077000\nsurplus: 0.300000000 MW\ndispatch's own outputs cost 0.119000: 0.025000 less\n"
    )
    assert "0.119000: as much\n" in say("judge", "examples/u5.case", "0.7").out


def test_floors(say, tmp_path):
    zero = say("floors", HARBOUR, "0")
    assert zero == (2, "", "demand: it is 0, and so is every part of it: give the demand that you expect\n")
    said = say("floors", changed(tmp_path, 7, 9)).out.splitlines()
    assert said[1] == " 80 %       0.7         0.119000" and said[-1] == "120 %       1.1        65.736000, but these sets cannot cover it"
    said = say("floors", HARBOUR, "23.5", "--at", "22.3", "24.7", "320")
    assert said.out.splitlines()[:3] == [
        "demand, MW, and what an hour costs at least:", "     22.3      1328.444390", "     24.7      1514.201435"]
    assert said.out.endswith(", but these sets cannot cover it\n")
    assert say("floors", HARBOUR, "23.5", "--at", "x", "1.23").err == (
        f"--at: x {NO_NUMBER}\n--at: 1.23 is not a whole number of 0.1 MW: the nearest are 1.2 and 1.3\n")


def test_floors_above_the_greatest_demand(say, site):
    path = site(*(f"{i},0,1,0,0,0.1,1000,0,,,no," for i in range(30)))
    said = say("floors", path, "29000").out.splitlines()
    assert len(said) == 9 and said[-1] == "a demand above 32,000 MW is left out"
    assert len(say("floors", path, "26666.6").out.splitlines()) == 10


def test_budgets(say):
    said = say("refine", "examples/full.case", "--budget", "50")
    assert [line.split()[0] for line in said.out.splitlines()[1:4]] == ["1", "10", "50"]
    assert said.out.splitlines()[4] == "the search goes on, but this is the budget given"
    whole = say("refine", "examples/full.case").out.splitlines()
    assert whole[7] == "the search goes on, but this is the largest budget" and [int(line.split()[1]) for line in whole[1:7]] == [
        10**k for k in range(6)]
    costs = [Decimal(line.split()[2]) for line in whole[1:7]]
    assert costs == sorted(costs, reverse=True)
    assert "the gap is 0: nobody covers this demand for less" in say("refine", "examples/u5.case").out
    for word in ("0", "100001", "x", "-1", "1e3"):
        assert say("refine", HARBOUR, "23.5", "--budget", word).status == 2


def test_days(say, tmp_path):
    demands = tmp_path / "d.csv"
    demands.write_text("time,MW\n1,12.5\n2,14.6\n")
    assert say("day", HARBOUR, demands).out.splitlines()[4] == "cost of the day: 2117.892800"
    assert say("day", HARBOUR, demands, "--minutes", "15").out.splitlines()[4] == "cost of the day: 529.473200"
    assert say("day", HARBOUR, demands, "--minutes", "7").out.splitlines()[4] == "cost of the day: about 247.087494"
    assert say("day", HARBOUR, demands, "--minutes", "0").status == 2
    both = say("day", "-", "-", stdin=(ROOT / HARBOUR).read_bytes())
    assert both == (2, "", "the sets and the demands cannot both be standard input\n")
    assert say("day", HARBOUR, "-", stdin=demands.read_bytes()).status == 0
    # a case's own demand is none of a day's business; 200 slots are three calls
    demands.write_text("".join(f"{k},{10 + k % 7}\n" for k in range(200)))
    one, other = say("day", "examples/harbour.case", demands), say("day", "examples/harbour-peak.case", demands)
    assert one.out == other.out and len(one.out.splitlines()) > 200 and one.status == 0
    told = json.loads(say("day", HARBOUR, demands, "--json").out, parse_float=Decimal)
    case = (ROOT / "examples/harbour.case").read_bytes()
    slots, starts = model.day(list(model.units_of(case)), [100 + 10 * (k % 7) for k in range(200)])
    assert list(told["starts"].values()) == starts and max(starts) > 20
    assert told["cost"] == Decimal(sum(slot[1] for slot in slots)).scaleb(-6)


def test_faults_and_notes_of_a_day_name_their_file(say, site, tmp_path):
    sets, demands, none = site(GOOD.replace("8,2,2", "8,2.55,2")), tmp_path / "d.csv", tmp_path / "none.csv"
    demands.write_text("time,MW\n1,x\n")
    up, mw = f"{sets}: line 2, column up: 2.55 is not a whole number of 0.1 MW\n", f"{demands}: line 2, column MW: x {NO_NUMBER}\n"
    missing = f"{none}: No such file or directory\n"
    assert say("day", sets, demands) == (2, "", up + mw)
    assert say("day", HARBOUR, demands) == (2, "", mw) and say("day", sets, "examples/harbour-day.csv") == (2, "", up)
    assert say("day", sets, none) == (2, "", up + missing) and say("day", none, demands) == (2, "", missing + mw)
    noted = site(GOOD + ",x", header=HEADER + ",remark", name="noted.csv")
    said = say("day", noted, "-", stdin=b"time,MW,wind\n1,8,2\n")
    passed = 'note: {}: line 1: there is no column "{}": it is passed over\n'
    assert said.status == 0 and said.err == passed.format(noted, "remark") + passed.format("standard input", "wind")


def test_no_more_than_50_lines_on_a_file(say, site, tmp_path):
    sets, demands = site(*(f"{i},x,x{GOOD[5:]}" for i in range(30))), tmp_path / "d.csv"
    demands.write_text("time,MW\n" + "1,x\n" * 51)
    said = say("day", sets, demands).err.splitlines()
    assert len(said) == 102 and said[49].startswith(f"{sets}: line 26, column B: x") and said[50] == "and 10 more"
    assert said[51].startswith(f"{demands}: line 2") and said[101] == "and 1 more"
    said = say("dispatch", sets, "y").err.splitlines()
    assert len(said) == 52 and said[50:] == ["and 10 more", f"demand: y {NO_NUMBER}"]
    demands.write_text("time,MW\n" + "1,x\n" * 50)
    assert say("day", HARBOUR, demands).err.count("\n") == 50
    noted = site(GOOD + ",x" * 60, header=HEADER + "".join(f",remark {k}" for k in range(60)))
    said = say("dispatch", noted, "8").err.splitlines()
    assert len(said) == 51 and said[50] == "note: and 10 more"


# ---- show


def test_cost_rows(say):
    said = say("gencost", "examples/gencost-rows.txt")
    in_c = record("gencost-answers.txt").splitlines()  # what examples/gencost.c says, in a case file's numbers
    assert said.status == 1 and said.err == "" and said.out.splitlines()[3:] == in_c[3:]
    assert said.out.splitlines()[:3] == ["row 1: A 600, B 1.2, C 0.085", "row 2: A 0, B 20, C 0.05", "row 3: A 150, B 40, C 0.01"]
    rows = "2 0 0 3 0.1 100 1000\n\n 2 x x 3 x x x\t\n2 0 0 3 0 0 \xe9\n" + "2 0 0 3 0 0 " + "0" * 300
    assert say("gencost", stdin=rows.encode("latin-1")).out.splitlines() == [
        "row 1: A 1000, B 100, C 0.1",
        "row 2: refused with 26; it has not seven words",
        "row 3: refused with 26; a blank stands before its first word or behind its last; "
        + "; ".join(f"{name} x {NO_NUMBER}" for name in ("startup", "shutdown", "square", "linear", "constant")),
        f"row 4: refused with 26; constant ? {NO_NUMBER}",
        "row 5: refused with 26; it has more than 256 bytes",
    ]
    assert say("gencost", stdin=b"") == (0, "", "")
    windows = (ROOT / "examples/gencost-rows.txt").read_bytes().replace(b"\n", b"\r\n")
    assert say("gencost", "-", stdin=windows) == said
    assert say("gencost", stdin=b"2 0 0 3 0 0 0\r\r\n").out == f"row 1: refused with 26; constant 0? {NO_NUMBER}\n"


def test_show(say, tmp_path):
    said = say("show", "examples/island.case").out.splitlines()
    assert said[0] == "4 sets, demand 15.0 MW; as a case file of edition 2"
    assert said[1] == (
        "unit 1: must run, 4.0 to 12.0 MW, not strictly between 6.5 and 7.2; gave 9.0 MW before, may rise by 3.0, may fall by 3.0; at P MW"
        " costs 80 + 66 P + 0.09 P^2 an hour, loses 0.0003 P^2 + 0.03 P MW"
    )
    case = (ROOT / "examples/harbour.case").read_bytes()
    reply = tmp_path / "reply"
    for data, kind in ((library.dispatch(case).data, "dispatch, 18 prices tried"), (library.refine(case, 100).data, "refining, 11 nodes")):
        reply.write_bytes(data)
        said = say("show", reply, "--of", HARBOUR).out.splitlines()
        assert said[0] == f"a reply of {kind}" and said[1] == "diesel 1 gives 10.0 MW"
        assert say("show", reply).out.splitlines()[1] == "unit 1 gives 10.0 MW"
        assert say("show", reply, "--of", "examples/u5.csv").err == "examples/u5.csv: it has 1 sets, and the reply 4\n"
        damaged = bytearray(data)
        damaged[-2 * 4 - 16] = 1  # the first byte of the gap
        reply.write_bytes(damaged)
        for more in ([], ["--json"], ["--of", HARBOUR]):
            assert say("show", reply, *more) == (2, "", f"{reply}: it is damaged, or no reply: its gap is above its cost\n")
    for name in ("u5", "harbour", "island", "full", "full-2"):
        assert "demand" in say("show", f"examples/{name}.case").out
    assert say("show", HARBOUR, "--of", HARBOUR) == (2, "", f"{HARBOUR}: --of is for a reply, and this is none\n")


# ---- files


@pytest.mark.parametrize("command", ["dispatch", "show", "judge"])
def test_files_that_are_no_case(say, tmp_path, command):
    outputs = ["0.7"] if command == "judge" else []

    def refused(number, path):
        said = say(command, path, *outputs)
        assert (said.status, said.out) == (2, "")
        assert said.err == f"{path}: refused with {number}: {library.refusal_text(number)}\n{AGAIN}"

    for number, *places in [(3, 1, 3), (4, 3, 33), (5, 4, 1), (5, 4, 255, 5, 255), (6, 9, 13), (7, 37, 5), (8, 16, 1), (9, 25, 0), (10, 35, 2)]:
        refused(number, changed(tmp_path, *places))
    refused(18, changed(tmp_path, 50, 0x7F, base="island"))
    path = tmp_path / "x.case"
    for number, data in [(2, b""), (2, (ROOT / "examples/u5.case").read_bytes()[:7]), (6, (ROOT / "examples/full-2.case").read_bytes() + b"x")]:
        path.write_bytes(data)
        refused(number, path)


def test_files_that_cannot_be_read(say, tmp_path):
    for words in (["dispatch", "{}", "5"], ["show", "{}"], ["day", HARBOUR, "{}"], ["gencost", "{}"]):
        for path, why in ((tmp_path / "none", "No such file or directory"), (tmp_path, "Is a directory")):
            assert say(*(word.format(path) for word in words)) == (2, "", f"{path}: {why}\n")
    assert say("dispatch", "a\0b", "5").status == 2
    assert say("dispatch", tmp_path / "none", "x").err == f"{tmp_path}/none: No such file or directory\ndemand: x {NO_NUMBER}\n"


def test_a_case_file_is_never_written_over_the_sets(say, tmp_path, monkeypatch):
    kept = tmp_path / "kept.csv"
    kept.write_bytes((ROOT / HARBOUR).read_bytes())
    (tmp_path / "linked.csv").symlink_to("kept.csv")
    os.link(kept, tmp_path / "second.csv")
    monkeypatch.chdir(tmp_path)
    paths = ["kept.csv", "./kept.csv", str(kept), f"../{tmp_path.name}/kept.csv", "linked.csv", "second.csv"]
    for path in paths:
        assert say("case", "kept.csv", "23.5", path) == (2, "", f"{path}: the case file would replace the sets\n")
        assert say("case", path, "23.5", "kept.csv") == (2, "", "kept.csv: the case file would replace the sets\n")
    with open(kept, "rb") as source:
        monkeypatch.setattr(sys, "stdin", io.TextIOWrapper(source))
        assert say("case", "-", "23.5", "kept.csv") == (2, "", "kept.csv: the case file would replace what is read\n")
    assert kept.read_bytes() == (ROOT / HARBOUR).read_bytes()
    # a link to another file: the file it leads to is written, and the link stays
    (tmp_path / "out").symlink_to("made.case")
    assert say("case", "kept.csv", "23.5", "out").status == 0 and (tmp_path / "out").is_symlink() and (tmp_path / "made.case").exists()
    assert sorted(path.name for path in tmp_path.iterdir()) == ["kept.csv", "linked.csv", "made.case", "out", "second.csv"]


def test_files_that_cannot_be_written(say, tmp_path):
    assert say("case", HARBOUR, "23.5", tmp_path / "none/a.case") == (2, "", f"{tmp_path}/none/a.case: No such file or directory\n")
    assert say("case", HARBOUR, "23.5", "/dev/full") == (2, "", "/dev/full: No space left on device\n")
    assert say("case", HARBOUR, "23.5", tmp_path) == (2, "", f"{tmp_path}: Is a directory\n")
    assert say("case", HARBOUR, "23.5", "/proc/a.case").status == 2
    assert say("case", "examples/mistakes.csv", "23.5", tmp_path / "a.case").status == 2 and not list(tmp_path.iterdir())


def test_a_case_file_is_not_for_standard_output(say, tmp_path, monkeypatch):
    monkeypatch.chdir(tmp_path)
    said = say("case", ROOT / HARBOUR, "23.5", "-")
    assert said == (2, "", "-: a case file is not written to standard output: name a file, or ./- if it is to have this name\n")
    assert not list(tmp_path.iterdir())
    assert say("case", ROOT / HARBOUR, "23.5", "./-").status == 0 and (tmp_path / "-").exists()


def test_a_write_that_fails_leaves_the_old_file(say, tmp_path, monkeypatch):
    path = tmp_path / "a.case"
    path.write_bytes(b"old")

    def fail(*_):
        raise KeyboardInterrupt

    monkeypatch.setattr(os, "replace", fail)
    assert say("case", HARBOUR, "23.5", path).status == 130
    assert path.read_bytes() == b"old" and list(tmp_path.iterdir()) == [path]


# ---- as a process of its own

ENVIRONMENT = {**os.environ, "PYTHONPATH": str(ROOT / "python"), "PYTHONDONTWRITEBYTECODE": "1"}
COMMAND = [sys.executable, "-m", "shahfureel"]


def process(script, **more):
    return subprocess.run(["bash", "-c", script], capture_output=True, text=True, env={**ENVIRONMENT, **more}, cwd=ROOT, check=False)


def test_streams():
    typed = f"{sys.executable} -m shahfureel dispatch {HARBOUR} 23.5"
    full = process(f"{typed} >/dev/full")
    assert (full.returncode, full.stderr) == (2, "standard output: No space left on device\n")
    closed = process(f"{typed} >&-")
    assert (closed.returncode, closed.stderr) == (2, "standard output: it is closed\n")
    given = process(f"{typed.replace(HARBOUR, '-')} <{HARBOUR} | head -n 1")
    assert (given.stdout, given.stderr) == ("diesel 1 gives 10.0 MW\n", "")
    none = process(f"{typed.replace(HARBOUR, '-')} <&-")
    assert (none.returncode, none.stderr) == (2, "standard input: it is closed\n")


def test_names_that_a_terminal_cannot_show(tmp_path):
    path = tmp_path / "x.csv"
    path.write_text(f"{HEADER}\nh\u00f4pital{GOOD[1:]}\n", encoding="utf-8")
    said = process(f"{sys.executable} -m shahfureel dispatch {path} 5", PYTHONIOENCODING="ascii")
    assert said.returncode == 0 and said.stdout.startswith("h\\xf4pital gives")


def test_the_library_is_missing(tmp_path):
    typed = f"{sys.executable} -m shahfureel dispatch {HARBOUR} 23.5"
    said = process(typed, SHAHFUREEL_LIBRARY=str(tmp_path / "none.so"))
    assert said.returncode == 2 and f"It was looked for at\n  {tmp_path}/none.so\nMake it" in said.stderr and "tools/library" in said.stderr
    broken = tmp_path / "broken.so"
    broken.write_bytes(b"no library")
    said = process(typed, SHAHFUREEL_LIBRARY=str(broken))
    assert said.returncode == 2 and "it cannot be loaded" in said.stderr and "Traceback" not in said.stderr
    assert process(f"{sys.executable} -m shahfureel --help", SHAHFUREEL_LIBRARY=str(broken)).returncode == 0
    assert process(typed, SHAHFUREEL_LIBRARY=str(ROOT / "target/lib")).returncode == 0


@pytest.mark.parametrize("version, taken", [("2.0.0", False), ("10.14.0", False), ("0.9.1", False), ("1.0.0", True), ("1.99.3", True)])
def test_a_library_of_another_version(tmp_path, version, taken):
    calls = "".join(f"int shahfureel_{name}(void) {{ return 0; }}\n" for name in library._CALLS if name != "version")
    path = tmp_path / "other.so"
    subprocess.run(["gcc", "-shared", "-fPIC", "-x", "c", "-o", path, "-"], check=True, text=True,
                   input=f'{calls}const char *shahfureel_version(void) {{ return "{version}"; }}\n')
    if taken:
        assert library._load(str(path)).shahfureel_version() == version.encode()
        return
    with pytest.raises(NoLibrary) as fault:
        library._load(str(path))
    own = shahfureel.__version__
    assert str(fault.value).startswith(f"{path}: it is of version {version}, and this package is of {own}: the first numbers must be the same")


def test_refining_on_a_terminal_shows_each_budget():
    outer, inner = pty.openpty()
    done = subprocess.run([*COMMAND, "refine", HARBOUR, "23.5"], stdout=subprocess.PIPE, stderr=inner, env=ENVIRONMENT, cwd=ROOT, check=True)
    os.close(inner)
    shown = os.read(outer, 100_000).decode().replace("\r\n", "\n")
    assert shown.splitlines() == done.stdout.decode().splitlines()[:4]


def test_an_interrupt_between_two_budgets(say, monkeypatch):
    """Behind an interrupt no further budget is tried, and the answer is whole."""
    seen = []
    refine = library.refine

    def interrupted(file, budget):
        seen.append(budget)
        if budget == 100:
            os.kill(os.getpid(), signal.SIGINT)
        return refine(file, budget)

    monkeypatch.setattr(library, "refine", interrupted)
    before = signal.getsignal(signal.SIGINT)
    said = say("refine", "examples/full.case")
    assert seen == [1, 10, 100] and said.status == 0 and signal.getsignal(signal.SIGINT) == before
    assert "stopped behind a budget of 100: the search would go on\nunit 1" in said.out


def test_usage(say):
    assert say().status == 2 and say("plan").status == 2 and say("dispatch").status == 2
    assert say("dispatch", HARBOUR, "1", "2").status == 2 and say("dispatch", "--json", "--csv", HARBOUR, "1").status == 2
    for words in ([], ["plan"], ["dispatch"], ["refine", HARBOUR, "1", "--budget", "0"]):
        said = say(*words)
        assert said.status == 2 and said.out == "" and said.err.startswith("usage: python3 -m shahfureel ") and "error: " in said.err
    assert say("--help").status == 0 and commands.parser("x").prog == "x"


def test_help_says_what_is_taken_and_returned(say):
    def words(*typed):
        return " ".join(say(*typed).out.split())

    assert "SITE a case file, a reply of dispatch or refining, or a CSV file of sets; - is standard input" in words("show", "--help")
    assert "1: refused, because nothing covers the demand (of a day: that of a slot), or outputs not accepted." in words("--help")
    assert "FILE the file to write; - is refused" in words("case", "--help")
