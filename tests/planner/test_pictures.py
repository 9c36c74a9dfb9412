"""Pictures: what is in them, counted beside the day's own numbers, and what happens where there can be none."""

from __future__ import annotations

import csv
import io
import re
import subprocess
import sys
import xml.etree.ElementTree as ElementTree
from collections import Counter
from dataclasses import replace
from decimal import Decimal

import matplotlib.figure  # here, since it looks through the fonts when it is imported first, and may say so
import pytest
from conftest import ROOT
from matplotlib import image

import shahfureel
from shahfureel import answers, day_picture, drawing, floors_picture, read, table
from shahfureel.site import steps_of

SVG = "{http://www.w3.org/2000/svg}"
HARBOUR, DAY = "examples/harbour.csv", "examples/harbour-day.csv"
HARBOUR_DAY = ["day", HARBOUR, DAY]


class Drawing:
    """An SVG file by its texts and the groups with an id."""

    def __init__(self, path):
        root = ElementTree.fromstring(path.read_bytes())
        self.texts = ["".join(text.itertext()) for text in root.iter(f"{SVG}text")]
        self.groups = {group.get("id"): group for group in root.iter(f"{SVG}g") if group.get("id")}

    def count(self, name, what):
        """How many shapes a group draws; defined shapes that others use do not count."""
        if name not in self.groups:
            return 0
        defined = [shape for defs in self.groups[name].iter(f"{SVG}defs") for shape in defs.iter(SVG + what)]
        return len(list(self.groups[name].iter(SVG + what))) - len(defined)

    def starting(self, start):
        return [name for name in self.groups if re.fullmatch(re.escape(start) + r"-\d+", name)]


def rows_of(say, *words):
    return list(csv.DictReader(io.StringIO(say(*words, "--csv").out)))


def limited_moves(site_path, rows, names):
    """Moves by a whole ramp limit, counted from the two CSV files alone, in tenths."""

    def tenths(text):
        return round(10 * float(text))

    with open(ROOT / site_path, encoding="utf-8") as source:
        lines = [line for line in source if not line.startswith("#")]
    sets = [{k.strip(): v.strip() for k, v in row.items()} for row in csv.DictReader(lines)]
    last = {one["name"]: tenths(one["previous"]) for one in sets}
    rises = falls = 0
    for row in rows:
        if row["refused"] or not row["demand MW"]:
            continue
        for one in sets:
            before, now = last[one["name"]], tenths(row[one["name"]])
            last[one["name"]] = now
            if before == 0 or now == 0:
                continue
            rises += one["up"] not in ("", "0") and now - before == tenths(one["up"])
            falls += one["down"] not in ("", "0") and before - now == tenths(one["down"])
    return rises, falls


@pytest.fixture(scope="module")
def harbour_day(tmp_path_factory):
    """The harbour's day drawn by the package."""
    slots, _ = table.read_demands(DAY, (ROOT / DAY).read_bytes())
    site, path = read(ROOT / HARBOUR), tmp_path_factory.mktemp("day") / "day.svg"
    assert day_picture.day(answers.day(site, [(time, steps_of(mw)) for time, mw in slots]), site, str(path), []) == []
    return path


@pytest.fixture
def odd():
    """The harbour with names that a program could take for something else."""
    names = ["$x_1$ & <b>", "_hidden \\$ \\alpha", "дизель №1", "発電機 “一”"]
    return shahfureel.Site(tuple(replace(one, name=name) for one, name in zip(read(HARBOUR).sets, names)))


# ---- a day


def test_a_day_has_what_it_says(say, harbour_day, tmp_path):
    path = tmp_path / "day.svg"
    said = say(*HARBOUR_DAY, "--picture", path)
    plain = say(*HARBOUR_DAY)
    line = f"{path}: a picture of the day\n"
    assert (said.status, said.err) == (1, "") and line in said.out and said.out.replace(line, "") == plain.out
    assert path.read_bytes() == harbour_day.read_bytes()
    drawn, rows = Drawing(path), rows_of(say, *HARBOUR_DAY)[:-2]
    names = list(read(HARBOUR).names)
    solved = [row for row in rows if not row["refused"]]
    assert set(names) < set(drawn.texts) and len(drawn.starting("set")) == len(names)
    assert all(drawn.count(f"set-{i + 1}", "path") for i in range(len(names)))
    great = [row for row in solved if float(row["gap %"]) > 5]
    assert (drawn.count("gaps", "path"), drawn.count("great-gaps", "path")) == (len(solved) - len(great), len(great)) == (8, 15)
    rises, falls = limited_moves(HARBOUR, rows, names)
    assert (drawn.count("rises", "use"), drawn.count("falls", "use")) == (rises, falls) == (3, 0)
    assert drawn.texts.count("refused") == len(drawn.starting("refused")) == len(rows) - len(solved) == 1
    for words in ("demand (above: losses, surplus)", "outputs, one upon another, MW", "time", "gap above 5 %", "gap up to 5 %", "5 %", "rose by its ramp limit",
                  "refused: not covered", "Outputs of 4 sets in 24 slots, dispatched, 1 refused"):
        assert words in drawn.texts
    assert "gap, % of the cost: at most so much above the best" in " ".join(drawn.texts) and "fell by its ramp limit" not in drawn.texts
    assert [text for text in drawn.texts if re.fullmatch(r"\d\d:\d\d", text)] == [row["time"] for row in rows[::2]]


def test_moves_both_ways_and_refused_runs(say, tmp_path):
    demands = [200, 320, 330, 210, 310, 150, 120, 310, 100, 310, 80, 0, 60, 200, 250]
    path, given = tmp_path / "day.svg", tmp_path / "demands.csv"
    given.write_text("time,MW\n" + "".join(f"slot {k},{mw / 10}\n" for k, mw in enumerate(demands)))
    assert say("day", HARBOUR, given, "--picture", path).status == 1
    drawn, rows = Drawing(path), rows_of(say, "day", HARBOUR, given)[:-2]
    rises, falls = limited_moves(HARBOUR, rows, read(HARBOUR).names)
    assert (drawn.count("rises", "use"), drawn.count("falls", "use")) == (rises, falls) and rises and falls
    assert len(drawn.starting("refused")) == len(drawn.starting("refused-gap")) == 4  # slots 1 and 2 are one run
    assert "rose by its ramp limit" in drawn.texts and "fell by its ramp limit" in drawn.texts


def test_other_forms_stay_pure(say, tmp_path):
    path = tmp_path / "a.svg"
    for words in ([*HARBOUR_DAY, "--csv"], ["floors", HARBOUR, "23.5", "--json"]):
        assert say(*words, "--picture", path) == say(*words) and path.stat().st_size > 10_000
        path.unlink()


def test_the_same_day_gives_the_same_bytes(say, harbour_day, tmp_path):
    """What a user has set elsewhere changes nothing, and stays."""
    with matplotlib.rc_context({"svg.fonttype": "path", "font.size": 20}):
        say(*HARBOUR_DAY, "--picture", tmp_path / "a.SVG")
        assert (matplotlib.rcParams["svg.fonttype"], matplotlib.rcParams["font.size"]) == ("path", 20)
    data = harbour_day.read_bytes()
    assert (tmp_path / "a.SVG").read_bytes() == data and b"<dc:date>" not in data


def test_a_png_is_not_blank(say, tmp_path):
    path = tmp_path / "day.PNG"
    assert say(*HARBOUR_DAY, "--picture", path).status == 1
    data = path.read_bytes()
    assert data[:8] == b"\x89PNG\r\n\x1a\n" and data[12:16] == b"IHDR"
    width, height = (int.from_bytes(data[k : k + 4], "big") for k in (16, 20))
    assert 1300 < width < 2600 and 800 < height < 1600
    pixels = (image.imread(str(path), format="png")[:, :, :3] * 255).round().astype(int)
    assert pixels.shape[:2] == (height, width)
    numbers = (pixels[:, :, 0] << 16 | pixels[:, :, 1] << 8 | pixels[:, :, 2]).ravel()
    parts = Counter(numbers[::7].tolist())
    assert len(parts) > 50 and parts[0xFFFFFF] < 0.75 * sum(parts.values())
    for place in range(4):  # every set has an area in its own colour
        assert parts[int(day_picture.fill(place)["facecolor"][1:], 16)] > 0.005 * sum(parts.values())


def test_small_and_empty_days(tmp_path):
    harbour = read(HARBOUR)
    free = shahfureel.Site(tuple(replace(one, must_run=False) for one in harbour.sets))
    cases = [
        (harbour, ["23.5"], 1, 0, "Outputs of 4 sets in 1 slot, dispatched"),
        (harbour, ["60", "70"], 0, 1, "Outputs of 4 sets in 2 slots, dispatched, 2 refused"),
        (free, ["0", "0"], 2, 0, "Outputs of 4 sets in 2 slots, dispatched"),
        (free.alone(3), ["5"], 0, 1, "Outputs of 1 set in 1 slot, dispatched, 1 refused"),
    ]
    for site, demands, bars, runs, title in cases:
        path = tmp_path / "day.svg"
        assert day_picture.day(shahfureel.day(site, demands), site, str(path), []) == []
        drawn = Drawing(path)
        assert len(drawn.starting("set")) == len(site.sets) and title in drawn.texts
        assert drawn.count("gaps", "path") + drawn.count("great-gaps", "path") == bars
        assert len(drawn.starting("refused")) == drawn.texts.count("refused") == runs
        assert all(any(text.startswith(name) for text in drawn.texts) for name in site.names)
        if demands == ["23.5"]:
            assert "standby, never runs" in drawn.texts and drawn.count("set-3", "path") == 0
    with pytest.raises(drawing.NoPicture, match="a day without slots has no picture"):
        day_picture.day(shahfureel.day(harbour, []), harbour, str(path), [])


def test_names_stand_as_they_are(odd, tmp_path):
    times = ["1 < 2 & $a$ $b$", "\x01ctrl", "a time with very many letters", "4"]
    planned = answers.day(odd, [(time, 235) for time in times])
    path = tmp_path / "day.svg"
    assert day_picture.day(planned, odd, str(path), []) == []
    drawn = Drawing(path)
    assert {*odd.names, times[0], " ctrl", "a time w…letters", "4"} <= {text.removesuffix(", never runs") for text in drawn.texts}
    (note,) = day_picture.day(planned, odd, str(tmp_path / "day.png"), [])
    assert note == f"{tmp_path / 'day.png'}: letters that no font here has are drawn as boxes; an .svg has them as text"


def test_long_names_keep_their_ends():
    assert drawing.literal("abcdefghij", 10) == "abcdefghij" and drawing.literal("abcdefghijk", 10) == "abcde…hijk"
    assert drawing.literal("a very long name of set 17", 13) == "a very…set 17" and drawing.literal("$", 5) == "\\$"


def test_a_full_site_over_a_huge_day(tmp_path):
    """32 sets and 500 slots: a band for each, a bar for each, at most a dozen times, two columns of names."""
    site, demand = shahfureel.site_of_case((ROOT / "examples/full.case").read_bytes())
    planned = answers.day(site, [(f"t{k}", demand - 600 + 37 * k % 900) for k in range(500)])
    path = tmp_path / "day.svg"
    assert day_picture.day(planned, site, str(path), []) == []
    drawn = Drawing(path)
    solved = sum(slot.answer is not None for slot in planned.slots)
    assert len(drawn.starting("set")) == 32 and set(site.names) <= {text.removesuffix(", never runs") for text in drawn.texts}
    assert drawn.count("gaps", "path") + drawn.count("great-gaps", "path") == solved
    assert 6 <= len([text for text in drawn.texts if re.fullmatch(r"t\d+", text)]) <= 12
    before, counted = [one.previous for one in site.sets], {1: 0, -1: 0}
    for slot in planned.slots:
        if slot.answer is None:
            continue
        now = list(slot.answer.outputs.values())
        for one, last, mw in zip(site.sets, before, now):
            if last > 0 and mw > 0 and one.up is not None and one.down is not None:
                counted[1] += mw - last == one.up
                counted[-1] += last - mw == one.down
        before = now
    assert (drawn.count("rises", "use"), drawn.count("falls", "use")) == (counted[1], counted[-1]) and all(counted.values())


def test_fills_can_be_told_apart():
    """No two sets have both alike; of those with one hatch the greys of a print are far apart."""
    fills = [(day_picture.fill(i)["facecolor"], day_picture.fill(i)["hatch"]) for i in range(32)]
    assert len(set(fills)) == 32
    assert all(one[0] != other[0] and one[1] != other[1] for one, other in zip(fills, fills[1:]))

    def grey(colour):
        return sum(part * int(colour[k : k + 2], 16) for part, k in ((0.299, 1), (0.587, 3), (0.114, 5)))

    for hatch in day_picture.HATCHES:
        greys = sorted(grey(colour) for colour, other in fills if other == hatch)
        assert len(greys) == 4 and all(b - a > 25 for a, b in zip(greys, greys[1:]))


# ---- floors


def test_floors_beside_dispatches(say, tmp_path):
    path = tmp_path / "floors.svg"
    said, plain = say("floors", HARBOUR, "23.5", "--picture", path), say("floors", HARBOUR, "23.5")
    assert said == (0, plain.out + f"{path}: a picture of these floors, beside dispatches\n", "")
    drawn = Drawing(path)
    assert drawn.count("dispatches", "use") == drawn.count("own-bounds", "use") == 95  # 18.8 to 28.2 MW
    assert drawn.count("bound", "path") == 1 and drawn.count("uncovered", "use") == 0
    for words in ("demand, MW", "cost an hour", "nobody covers the demand for less", "expected demand: 23.5 MW",
                  "cost of a demand's own dispatch; a plan may cost less", "its own bound: cost less gap", "bound by the one search at the expected demand"):
        assert words in drawn.texts


def test_floors_of_demands_that_are_named(say, tmp_path):
    path = tmp_path / "floors.svg"
    said = say("floors", HARBOUR, "23.5", "--picture", path, "--at", "32", "20", "15", "20", "99")
    assert said.status == 0 and said.out.count("cannot cover it") == 2
    drawn = Drawing(path)
    assert (drawn.count("dispatches", "use"), drawn.count("own-bounds", "use"), drawn.count("uncovered", "use")) == (2, 2, 2)
    assert "these sets cannot cover it" in drawn.texts and "uncovered-span" in drawn.groups
    # one demand, none, and one far off
    for words in (["23.5", "--at", "23.5"], ["0", "--at", "0"], ["23.5", "--at", "30000"]):
        assert say("floors", HARBOUR, *words, "--picture", path).status == 0
        assert "nobody covers the demand for less" in Drawing(path).texts


def test_what_the_picture_of_floors_compares():
    site = read(HARBOUR)
    compared = floors_picture.compare(site, 280, None)
    demands = [floor.demand for floor in compared.bounds]
    assert len(demands) <= 96 and demands == sorted(set(demands)) and Decimal("28.0") in demands
    assert (demands[0], demands[-1]) == (Decimal("22.4"), Decimal("33.6"))
    assert [answer is not None for _, answer in compared.dispatched] == [floor.covered for floor in compared.bounds]
    # a floor is below its own dispatch's bound, and no greater demand has a lower one: so steps may be drawn between them
    costs = [floor.least_cost for floor in compared.bounds]
    assert costs == sorted(costs)
    assert all(floor.least_cost <= answer.bound for floor, (_, answer) in zip(compared.bounds, compared.dispatched) if answer is not None)
    for first, last in ((0, 1), (0, 94), (0, 95), (5, 5), (25_600, 38_400)):
        grid = floors_picture._grid(first, last, [first])
        assert len(grid) <= 96 and (grid[0], grid[-1]) == (first, last)


def test_a_refusal_has_no_picture(say, tmp_path):
    path = tmp_path / "floors.svg"
    assert say("floors", HARBOUR, "99", "--picture", path).status == 1 and not path.exists()


# ---- where there can be none


@pytest.mark.parametrize("words", [HARBOUR_DAY, ["floors", HARBOUR, "23.5"]], ids=["day", "floors"])
def test_another_suffix_is_refused_first(say, monkeypatch, tmp_path, words):
    monkeypatch.setattr(answers, "day", None)
    monkeypatch.setattr(answers, "floors", None)
    for name in ("day.pdf", "day", "-", "svg", "day.svg.txt"):
        said = say(*words, "--picture", name)
        assert said == (2, "", f"{name}: a picture is an .svg or a .png file: let its name end so\n")
    assert say(words[0], "no such file.csv", *words[2:], "--picture", "a.pdf").err.startswith("a.pdf: ")


def test_inputs_are_never_replaced(say, tmp_path, monkeypatch):
    site, demands = tmp_path / "site.svg", tmp_path / "demands.png"
    site.write_bytes((ROOT / HARBOUR).read_bytes())
    demands.write_bytes((ROOT / DAY).read_bytes())
    (tmp_path / "link.svg").symlink_to(site)
    monkeypatch.chdir(tmp_path)
    monkeypatch.setattr(answers, "day", None)  # nothing is computed before
    before = sorted(tmp_path.iterdir())
    again = f"../{tmp_path.name}/demands.png"
    for name, what in ((site, "sets"), ("./site.svg", "sets"), ("link.svg", "sets"), (demands, "demands"), (again, "demands")):
        said = say("day", site, demands, "--picture", name)
        assert said == (2, "", f"{name}: the picture would replace the {what}\n")
    assert say("floors", site, "23.5", "--picture", "site.svg") == (2, "", "site.svg: the picture would replace the sets\n")
    assert site.read_bytes() == (ROOT / HARBOUR).read_bytes() and demands.read_bytes() == (ROOT / DAY).read_bytes()
    with open(site, encoding="utf-8") as source:
        monkeypatch.setattr(sys, "stdin", source)
        assert say("day", "-", demands, "--picture", "site.svg") == (2, "", "site.svg: the picture would replace what is read\n")
    said = say("floors", site, "23.5", "--picture", "no/such/folder.svg")
    assert said == (2, "", "no/such/folder.svg: its folder is not there: make it first\n")
    assert sorted(tmp_path.iterdir()) == before


def test_without_matplotlib(tmp_path):
    """The commands need it only for a picture, and then say so before they compute anything."""
    (tmp_path / "matplotlib.py").write_text("raise ImportError('No module named matplotlib')\n")
    words = [sys.executable, "-m", "shahfureel", *HARBOUR_DAY]
    environment = {"PYTHONPATH": f"{tmp_path}:python", "PYTHONDONTWRITEBYTECODE": "1"}
    picture = ["--picture", str(tmp_path / "a.svg")]
    done = subprocess.run([*words, *picture], capture_output=True, text=True, check=False, cwd=ROOT, env=environment)
    assert (done.returncode, done.stdout) == (2, "") and not (tmp_path / "a.svg").exists()
    assert done.stderr == (
        f"a picture needs matplotlib, and {sys.executable} has none that works (No module named matplotlib): on Debian, apt install"
        " python3-matplotlib, and /usr/bin/python3 has it; elsewhere, pip install matplotlib\n"
    )
    done = subprocess.run(words, capture_output=True, text=True, check=False, cwd=ROOT, env=environment)
    assert (done.returncode, done.stderr) == (1, "")


# ---- the guide


def test_the_picture_of_the_guide(harbour_day):
    """Byte for byte by the matplotlib that drew it; by another one in its texts, bands, bars and marks."""
    kept, made = ROOT / "docs/harbour-day.svg", harbour_day
    assert "](harbour-day.svg)" in (ROOT / "docs/PLANNER.md").read_text(encoding="utf-8")
    if f"Matplotlib v{matplotlib.__version__}," in kept.read_text(encoding="utf-8"):
        assert kept.read_bytes() == made.read_bytes()
    one, other = Drawing(kept), Drawing(made)
    shown = [[text for text in drawing.texts if not re.fullmatch(r"[\d.]+", text)] for drawing in (one, other)]
    assert shown[0] == shown[1]
    shapes = [("gaps", "path"), ("great-gaps", "path"), ("rises", "use"), ("falls", "use"), *((f"set-{i}", "path") for i in range(1, 5))]
    assert all(one.count(*shape) == other.count(*shape) for shape in shapes)
