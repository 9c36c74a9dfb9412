"""Every call from Python: as the header declares it, and as the small examples in C say of the same case files."""

from __future__ import annotations

import ctypes
import re
import subprocess
import threading
from decimal import Decimal

import pytest
from conftest import ROOT

import shahfureel
from shahfureel import Refusal, answers, exact, library

CASES = sorted((ROOT / "examples").glob("*.case"))
HEADER = (ROOT / "include/shahfureel.h").read_text(encoding="utf-8")
U5, HARBOUR, PEAK = ((ROOT / f"examples/{name}.case").read_bytes() for name in ("u5", "harbour", "harbour-peak"))


def refused(number, call, *arguments):
    with pytest.raises(Refusal) as refusal:
        call(*arguments)
    assert refusal.value.number == number
    return refusal.value


def recorded(case):
    """The words of examples/NAME.out: units, evaluations, cost, gap, surplus and the outputs; or None of a refusal."""
    first, *rest = case.with_suffix(".out").read_text().splitlines()
    if first.startswith("refused"):
        return None
    return [int(word) for word in first.split()[1::2]], tuple(int(line.split()[1]) for line in rest)


def test_refusals_are_those_of_the_header():
    listed = re.findall(r"^    SHAHFUREEL_(\w+) = (\d+)", HEADER.split("enum shahfureel_refusal {")[1].split("};")[0], re.M)
    assert {name: int(number) for name, number in listed} == {number.name: int(number) for number in library.Number}
    for name, number in listed:
        refusal = Refusal(int(number))
        assert refusal.name == name and refusal.text and refusal.text in str(refusal) and str(refusal).startswith(f"refused with {number}")
    assert Refusal(99).name == "UNKNOWN"


def test_sizes_are_those_of_the_header():
    sizes = dict(re.findall(r"#define SHAHFUREEL_(\w+) (\d+)u", HEADER))
    for name in ("UNITS_MAX", "FILE_BYTES_MAX", "REPLY_BYTES", "REFINE_REPLY_BYTES", "BUDGET_MAX", "ROW_NUMBERS", "ROWS_NUMBERS",
                 "JUDGE_ANSWERS", "DEMANDS_MAX", "SLOT_BYTES", "HISTORIES", "RUN_NUMBERS", "RUN_BYTES", "RUN_ANSWERS", "MULTIPLIER_MAX",
                 "DEMAND_MAX", "RAMP_UNLIMITED", "LENGTH_MIN", "VIEW_ANSWER_BYTES", "GENCOST_ANSWERS", "REFINE_STACK_BYTES"):  # fmt: skip
        assert getattr(library, name) == int(sizes[name]), name


def test_every_call_of_the_header_is_declared():
    plain = re.sub(r"/\*.*?\*/", "", HEADER, flags=re.S)
    calls = set(re.findall(r"^(?:uint32_t|const char \*) ?\*?shahfureel_(\w+)\(", plain, re.M))
    assert calls and calls <= set(library._CALLS) and set(library._CALLS) == calls
    for name in calls:
        parameters = [one for one in re.search(rf"shahfureel_{name}\(([^)]*)\);", plain)[1].split(",") if one != "void"]
        assert len(parameters) == len(library._CALLS[name]), name
        for parameter, kind in zip(parameters, library._CALLS[name]):
            assert ("*" in parameter or "[" in parameter) == (kind is ctypes.c_char_p or hasattr(kind, "contents")), (name, parameter)
            assert ("size_t" in parameter) == (kind is ctypes.c_size_t), (name, parameter)


@pytest.mark.parametrize("case", CASES, ids=lambda case: case.stem)
def test_calls_on_the_examples(case):
    file, told = case.read_bytes(), recorded(case)
    demand = int.from_bytes(file[4:8], "big")
    if told is None:
        for call, more in ((library.dispatch, []), (library.judge, [[]]), (library.floors, [[]]), (library.refine, [1]), (library.Run().start, [])):
            assert refused(11, call, file, *more).name == "NO_ALLOCATION"
        assert [slot.status for slot in library.day(file, [demand]).slots] == [11]
        return
    (units, evaluations, cost, gap, surplus), outputs = told
    reply = library.dispatch(file)
    assert (len(reply.outputs), reply.evaluations, reply.cost, reply.gap, reply.surplus) == (units, evaluations, cost, gap, surplus)
    assert reply.outputs == outputs and len(reply.data) == 28 + 2 * units and library.read_reply(reply.data) == reply
    refined = library.refine(file, 1)
    assert (refined.outputs, refined.cost, refined.gap, refined.surplus, refined.nodes) == (outputs, cost, gap, surplus, 1)
    assert library.judge(file, outputs) == library.Judged(True, cost, surplus, gap)
    assert library.floors(file, [demand]) == [cost - gap]
    day = library.day(file, [demand])
    assert day.slots == (library.Slot(0, cost, gap),) and day.total == cost and tuple(h.previous for h in day.histories) == outputs
    run = library.Run()
    run.start(file)
    state = 0
    for _ in range(evaluations):
        state = run.advance(file)
    assert state == library.Run.FINISHED and run.ask() == library.Asked(2, evaluations, cost, gap, surplus, outputs)
    dual = library.price(file, 0)
    assert dual.covers == (evaluations == 1)
    registers = library.view(reply.data, bytes([3, 0, 0, 0, 14 + units]))
    assert registers[:2] == bytes([3, 2 * (14 + units)]) and registers[2:] == reply.data
    if file[1] == 1:
        own, rows = library.unpack(file)
        assert own == demand and library.pack(own, rows) == file
        in_2 = library.pack2(own, rows, [0] * units)
        assert in_2[1] == 2 and library.dispatch(in_2).data == reply.data
    else:
        refused(3, library.unpack, file)


@pytest.mark.parametrize("budget", [0, -1, 100_001, 2**32 + 1])
def test_a_budget_out_of_range_is_refused_where_the_search_ends_before_it(budget):
    site, demand = shahfureel.site_of_case(U5)
    assert refused(25, shahfureel.refine, site, exact.decimal(demand, 1), budget).name == "BUDGET_OUT_OF_RANGE"
    assert refused(25, next, answers.refine(site, demand, budget))


def test_budgets_at_their_ends():
    site, demand = shahfureel.site_of_case(HARBOUR)
    assert shahfureel.refine(site, exact.decimal(demand, 1), 1).nodes == 1
    assert shahfureel.refine(site, exact.decimal(demand, 1), 100_000).nodes == 11


def test_in_c_and_in_python():
    """What the small examples in C print, for lists of every kind."""

    def in_c(name, *words):
        done = subprocess.run([ROOT / "target/planner-test" / name, *map(str, words)], capture_output=True, text=True, check=False)
        return done.stdout.split() if done.returncode == 0 else done.stderr.split()

    for case in CASES:
        file = case.read_bytes()
        demands = [0, 1, 50, 165, 146, 308, 320000]
        if recorded(case):
            floors = library.floors(file, demands)
            assert in_c("floors", case, *demands) == [str(number) for pair in zip(demands, floors) for number in pair]
            for budget in (1, 7, 1000):
                told = library.refine(file, 1)
                for larger in (10, 100, 1000):
                    if told.gap and told.nodes in (1, 10, 100) and larger // 10 < budget:
                        told = library.refine(file, min(larger, budget))
                words = ["units", len(told.outputs), "nodes", told.nodes, "cost", told.cost, "gap", told.gap, "surplus", told.surplus]
                words += [number for pair in enumerate(told.outputs, 1) for number in pair]
                assert in_c("refine", case, budget) == [str(word) for word in words]
        day = library.day(file, demands)
        words = []
        for k, slot in enumerate(day.slots, 1):
            words += ["status", slot.status, "cost", slot.cost, "gap", slot.gap]
            words += [] if slot.status else [one.previous for one in library.day(file, demands[:k]).histories]
        words += ["total", day.total]
        words += [word for i, one in enumerate(day.histories, 1) for word in (i, "previous", one.previous, "starts", one.starts)]
        assert in_c("day", case, *demands) == [str(word) for word in words]


def test_no_number_is_cut():
    for large in (2**32 + 7, 2**64 + 7, 10**30):
        assert not library.judge(U5, [large]).accepted
        refused(20, library.floors, U5, [large])
        refused(22, library.day, U5, [large])
        refused(25, library.refine, U5, large)
        refused(14, library.price, U5, large)
        refused(5, library.pack, large, [[0] * 19])
        demand, rows = library.unpack(U5)
        for place, number in ((0, 8), (1, 8), (2, 8), (3, 8), (4, 9), (5, 9), (6, 10), (7, 10), (8, 10), (9, 10), (10, 7), (11, 9), (18, 7)):
            row = list(rows[0])
            row[place] = large
            refused(number, library.pack, demand, [row])
        refused(18, library.pack2, demand, rows, [large])
        refused(18, library.pack2, demand, rows, [-large])
    for call in (library.floors, library.day, library.judge):
        with pytest.raises(ValueError, match="-1 is below 0"):
            call(U5, [-1])
        with pytest.raises(TypeError):
            call(U5, [0.5])
    with pytest.raises(ValueError, match="-1 is below 0"):
        library.refine(U5, -1)


def test_lengths_and_lists():
    refused(2, library.dispatch, b"")
    refused(2, library.day, b"", [5])
    refused(25, library.refine, b"", 0)
    refused(19, library.judge, HARBOUR, [100, 86, 50])
    refused(20, library.floors, U5, range(97))
    refused(22, library.day, U5, range(97))
    refused(12, library.pack, 5, [])
    refused(12, library.pack, 5, [[0] * 18])
    refused(15, library.view, b"", b"")
    refused(16, library.view, library.dispatch(U5).data, b"")
    refused(15, library.view, library.refine(U5, 1).data, bytes(5))
    assert library.floors(U5, []) == [] and library.day(U5, []).total == 0
    assert library.dispatch(bytearray(U5)).data == library.dispatch(memoryview(U5)).data
    with pytest.raises(TypeError):
        library.dispatch(5)


def test_runs():
    run = library.Run()
    assert run.ask().state == 0 and run.advance(U5) == 0 and run.advance(b"") == 0
    refused(11, run.start, PEAK)
    refused(2, run.start, b"")
    run.start(U5)
    assert (run.ask().cost, run.ask().gap) == (200_000, 200_000) and run.advance(U5) == 1
    refused(24, run.advance, HARBOUR)
    refused(24, run.advance, U5[:-1])
    assert [run.advance(U5) for _ in range(18)] == [1] * 16 + [2] * 2
    assert run.ask() == library.Asked(2, 18, 119_000, 42_000, 200_000_000, (7,))


def test_cost_rows():
    assert library.gencost(b"2 1500 0 3 0.085 1.2 600") == (600_000_000, 120_000, 850)
    refused(26, library.gencost, b"2 0 0 3 0 0 0\0")
    refused(27, library.gencost, b"2 0 0 3 0.00834 3.25 0")
    refused(28, library.gencost, b"2 1500 0 3 0.11 5 150")


def test_threads():
    answers = []

    def refine():
        answers.append(library.refine(HARBOUR, 100).data)

    threads = [threading.Thread(target=refine) for _ in range(8)]
    for thread in threads:
        thread.start()
    for thread in threads:
        thread.join()
    assert answers == [library.refine(HARBOUR, 100).data] * 8


def test_a_thread_with_too_little_stack():
    caught = []

    def refine():
        try:
            library.refine(HARBOUR, 100)
        except RuntimeError as error:
            caught.append(str(error))

    threading.stack_size(64 * 1024)
    try:
        thread = threading.Thread(target=refine)
        thread.start()
        thread.join()
    finally:
        threading.stack_size(0)
    assert len(caught) == 1 and "threading.stack_size(" in caught[0]


# ---- in MW and money


def test_the_package_in_mw_and_money():
    harbour = shahfureel.read("examples/harbour.csv")
    answer = shahfureel.dispatch(harbour, "23.5")
    assert answer.outputs == {"diesel 1": 10, "diesel 2": Decimal("9.5"), "standby": 0, "hydro": 5}
    assert (answer.cost, answer.gap, answer.bound) == (Decimal("1497.171250"), Decimal("76.362860"), Decimal("1420.808390"))
    assert shahfureel.refine(harbour, "23.5").cost == Decimal("1438.636600")
    assert shahfureel.judge(harbour, "23.5", {"hydro": 5, "diesel 1": 10, "standby": 0, "diesel 2": "8.6"}).accepted
    with pytest.raises(ValueError, match="no set has the name wind"):
        shahfureel.judge(harbour, "23.5", {"wind": 5})
    with pytest.raises(ValueError, match="no output is given for diesel 2"):
        shahfureel.judge(harbour, "23.5", {"diesel 1": 5})
    with pytest.raises(TypeError, match="23.5 is a float and so not exact: give Decimal"):
        shahfureel.dispatch(harbour, 23.5)
    with pytest.raises(ValueError, match="23.55 is not a whole number of 0.1 MW"):
        shahfureel.dispatch(harbour, "23.55")
    with pytest.raises(Refusal) as refusal:
        shahfureel.dispatch(harbour, "30.8")
    assert refusal.value.number == 11
    assert shahfureel.floors(harbour, "23.5", ["22.3"])[0].least_cost == Decimal("1328.444390")
    day = shahfureel.day(harbour, ["12.6", "14.6"])
    assert day.total == Decimal("1367.104200") and day.starts == dict.fromkeys(harbour.names, 0)


def test_sets_by_hand():
    one = shahfureel.Set("a", "1", 2, Decimal("0.01"), "1E-5", 3, 10, 8, 2, 2, True, (("4.5", "5.5"),))
    site = shahfureel.Site((one,))
    assert shahfureel.dispatch(site, 5).outputs == {"a": 6}
    with pytest.raises(ValueError, match="set b, least: 3.05 is not a whole number of 0.1 MW"):
        shahfureel.Set("b", 1, 2, 0, 0, "3.05", 10, 0)
    with pytest.raises(ValueError, match="a is the name of another set too"):
        shahfureel.Site((one, one))
    with pytest.raises(ValueError, match="a site has 1 to 32 sets, and not 0"):
        shahfureel.Site(())


def test_versions_agree():
    assert f'#define SHAHFUREEL_VERSION "{shahfureel.__version__}"' in HEADER and library.version() == shahfureel.__version__
