"""The screen's server: what it answers, what it refuses and in which words, and clients and files that do what they should not."""

from __future__ import annotations

import io
import json
import os
import random
import re
import signal
import socket
import struct
import threading
import time
from concurrent.futures import ThreadPoolExecutor
from contextlib import ExitStack, redirect_stderr, redirect_stdout
from dataclasses import replace
from itertools import count

import pytest
from conftest import ROOT, SECONDS

from shahfureel import __version__, commands, planning
from shahfureel.screen import Held, Screen, held, server

DAY = (ROOT / "examples/harbour-day.csv").read_text()
HARBOUR = (ROOT / "examples/harbour.csv").read_text()
POLICY = (
    "default-src 'none'; script-src 'self'; style-src 'self'; connect-src 'self'; img-src 'self' data:; base-uri 'none';"
    " form-action 'none'; frame-ancestors 'none'"
)


def request(port, body=b'{"demand": "23.5"}', name="dispatch"):
    """A request as its bytes."""
    head = f"POST /api/{name} HTTP/1.1\r\nHost: 127.0.0.1:{port}\r\nContent-Type: application/json\r\nContent-Length: {len(body)}\r\n\r\n"
    return head.encode() + body


def connect(port):
    return socket.create_connection(("127.0.0.1", port), timeout=SECONDS)


def rest_of(connection):
    """All that still comes."""
    data = b""
    while True:
        try:
            part = connection.recv(65_536)
        except ConnectionError:
            return data
        if not part:
            return data
        data += part


def raw(port, data):
    """The status of the answer to these bytes, and its object; (0, {}) where there is none."""
    with connect(port) as connection:
        try:
            connection.sendall(data)
        except ConnectionError:
            pass
        answer = rest_of(connection)
    if not answer:
        return 0, {}
    head, _, body = answer.partition(b"\r\n\r\n")
    assert f"Content-Length: {len(body)}\r\n".encode() in head
    return int(head.split()[1]), json.loads(body) if b"application/json" in head else {}


@pytest.fixture(autouse=True)
def at_root(monkeypatch):
    monkeypatch.chdir(ROOT)


def typed(*words):
    """The status of a command, its standard output and its standard error."""
    with redirect_stdout(io.StringIO()) as out, redirect_stderr(io.StringIO()) as err:
        try:
            status = commands.main(words)
        except SystemExit as end:
            status = end.code
    return status, out.getvalue(), err.getvalue()


def told_by(*words):
    """What a command prints as JSON, its numbers as texts."""
    return json.loads(typed(*words, "--json")[1], parse_float=str)


@pytest.fixture
def local(monkeypatch):
    """local(NAME=VALUE, ...): a server of this process, with other limits."""
    servers = []

    def run(site="harbour.csv", **limits):
        for name, value in limits.items():
            monkeypatch.setattr(server, name, value)
        servers.append(server.Server(Screen(Held(str(ROOT / "examples" / site))), 0))
        threading.Thread(target=servers[-1].serve_forever, args=(0.02,), daemon=True).start()
        servers[-1].port = servers[-1].server_address[1]
        return servers[-1]

    yield run
    for one in servers:
        one.ending = True
        one.shutdown()
        one.server_close()


def until(true, seconds=5.0):
    """Waits for something; whether it came."""
    end = time.monotonic() + seconds
    while not true() and time.monotonic() < end:
        time.sleep(0.01)
    return true()


# ---- the page, and what is asked in another way


def test_page(harbour):
    kinds = {"/": "text/html; charset=utf-8", "/page.css": "text/css; charset=utf-8", "/page.js": "text/javascript; charset=utf-8"}
    for (path, kind), name in zip(kinds.items(), ("page.html", "page.css", "page.js")):
        data = (ROOT / "python/shahfureel/screen" / name).read_bytes()
        for asked in (path, f"{path}?anything=1"):
            status, headers, got = harbour.send("GET", asked)
            assert (status, got, headers["Content-Type"], headers["Content-Length"]) == (200, data, kind, str(len(data)))
        status, headers, got = harbour.send("HEAD", path, headers={"Host": f"LOCALHOST:{harbour.port}"})
        assert (status, got, headers["Content-Length"]) == (200, b"", str(len(data)))


def test_headers_of_every_answer(harbour):
    refused = b'{"demand": "x"}'
    for method, path, body in (
        ("GET", "/", None), ("GET", "/none", None), ("PUT", "/", None), ("POST", "/api/site", b"{}"), ("POST", "/api/dispatch", refused),
    ):  # fmt: skip
        headers = dict(harbour.send(method, path, body)[1])
        kind, length = headers.pop("Content-Type"), headers.pop("Content-Length")
        assert kind and int(length) and headers.pop("Allow", "GET, HEAD") == "GET, HEAD"
        assert headers == {
            "Content-Security-Policy": POLICY,
            "X-Content-Type-Options": "nosniff",
            "Referrer-Policy": "no-referrer",
            "Cache-Control": "no-store",
            "Cross-Origin-Resource-Policy": "same-origin",
            "Cross-Origin-Opener-Policy": "same-origin",
            "Connection": "close",
        }


@pytest.mark.parametrize(
    "status, words, method, path, body, headers",
    [
        (403, "open that", "GET", "/", None, {"Host": "example.com"}),
        (403, "open that", "GET", "/", None, {"Host": "127.0.0.1"}),
        (403, "open that", "GET", "/", None, {"Host": None}),
        (403, "open that", "POST", "/api/site", b"{}", {"Host": "rebound.example:8642"}),
        (403, "another page may not ask", "POST", "/api/site", b"{}", {"Origin": "http://example.com"}),
        (403, "another page may not ask", "POST", "/api/site", b"{}", {"Origin": "null"}),
        (403, "another page may not ask", "POST", "/api/site", b"{}", {"Sec-Fetch-Site": "cross-site"}),
        (403, "another page may not ask", "POST", "/api/site", b"{}", {"Sec-Fetch-Site": "same-site"}),
        (404, "the page is at /", "GET", "/favicon.ico", None, {}),
        (404, "the page is at /", "GET", "/../page.html", None, {}),
        (404, "the page is at /", "GET", "/page.html", None, {}),
        (400, "with a path from / on", "GET", "http://127.0.0.1/", None, {}),
        (404, "the page is at /", "POST", "/api/", b"{}", {}),
        (404, "the page is at /", "POST", "/api/none", b"{}", {}),
        (404, "the page is at /", "BREW", "/pot", None, {}),
        (405, "GET or HEAD is", "POST", "/", b"{}", {}),
        (405, "GET or HEAD is", "OPTIONS", "/page.js", None, {}),
        (405, "POST is", "GET", "/api/site", None, {}),
        (405, "POST is", "DELETE", "/api/plan", None, {}),
        (411, "Content-Length is missing", "POST", "/api/site", b"{}", {"Content-Length": None}),
        (400, "no number of bytes", "POST", "/api/site", b"{}", {"Content-Length": "-2"}),
        (400, "no number of bytes", "POST", "/api/site", b"{}", {"Content-Length": "2, 2"}),
        (413, "more than 65536 bytes", "POST", "/api/site", b"{}", {"Content-Length": "65537"}),
        (413, "more than 65536 bytes", "POST", "/api/site", b"{}", {"Content-Length": "9" * 5_000}),
        (413, "more than 65536 bytes", "POST", "/api/site", b" " * 70_000, {}),
        (415, "must be JSON", "POST", "/api/site", b"{}", {"Content-Type": None}),
        (415, "must be JSON", "POST", "/api/site", b"{}", {"Content-Type": "text/plain"}),
        (415, "must be JSON", "POST", "/api/site", b"{}", {"Content-Type": "multipart/form-data; boundary=a"}),
        (501, "Transfer-Encoding is not taken", "POST", "/api/site", b"{}", {"Transfer-Encoding": "chunked"}),
        (414, "more than 8192 bytes", "GET", "/?" + "a" * 9_000, None, {}),
        (431, "more than 16384 bytes", "GET", "/", None, {"X-A": "a" * 17_000}),
        (431, "Too many headers", "GET", "/", None, {f"X-{k}": "a" for k in range(200)}),
    ],
)  # fmt: skip
def test_refused_by_form(harbour, status, words, method, path, body, headers):
    got, _, data = harbour.send(method, path, body, headers)
    assert got == status and words in json.loads(data)["fault"]


def test_taken_by_form(harbour):
    for headers in (
        {"Origin": f"http://127.0.0.1:{harbour.port}", "Sec-Fetch-Site": "same-origin"},
        {"Host": f"localhost:{harbour.port}", "Origin": f"http://localhost:{harbour.port}", "Sec-Fetch-Site": "none"},
        {"Content-Type": "Application/JSON; charset=utf-8", "Content-Length": "0002"},
        {"Expect": "100-continue"},
    ):
        assert harbour.send("POST", "/api/site", b"{}", headers)[0] == 200
    spaces = b'{"demand": "23.5"}'.ljust(65_536)
    assert harbour.send("POST", "/api/dispatch", spaces)[0] == 200
    assert harbour.send("GET", "/page.css", headers={"Sec-Fetch-Site": "cross-site"})[0] == 200  # a link that is followed


BODIES = {
    b"": "no JSON",
    b"{": "no JSON",
    b"[]": "no object",
    b'"demand"': "no object",
    b'{"demand": "23.5"} {}': "no JSON",
    b'\xef\xbb\xbf{"demand": "23.5"}': "no JSON",
    b'{"demand": "\xff"}': "no JSON in UTF-8",
    '{"demand": "23.5"}'.encode("utf-16"): "no JSON",
    b"[" * 60_000: "nested too deeply",
    b'{"demand": ' + b'{"a":' * 10_000 + b"1" + b"}" * 10_001: "nested too deeply",
    b'{"demand": "23.5", "demand": "23.5"}': "twice",
    b'{"demand": {"a": 1, "a": 2}}': "twice",
    b'{"demand": 23}': 'give a text such as "23.5"',
    b'{"demand": 23.5}': "amounts are texts",
    b'{"demand": 1e999999}': "amounts are texts",
    b'{"demand": NaN}': "amounts are texts",
    b'{"demand": -Infinity}': "amounts are texts",
    b'{"demand": ' + b"9" * 5_000 + b"}": "amounts are texts",
    b'{"demand": true}': "give a text",
    b'{"demand": null}': "give a text",
    b'{"demand": ["23.5"]}': "give a text",
    b'{"demand": "\\ud800"}': "give a text",
    b"{}": "the field demand is missing",
    b'{"demand": "23.5", "budget": 1}': "no field budget here; the fields are demand, previous",
    b'{"demand": "23.5", "previous": null}': "the field previous is not of its form",
    b'{"demand": "23.5", "previous": "8"}': "the field previous is not of its form",
    b'{"demand": "23.5", "previous": ["8", 7.5, "0", "3"]}': "amounts are texts",
    b'{"demand": "23.5", "previous": ["8", 7, "0", "3"]}': "the field previous is not of its form",
    b'{"demand": "23.5", "previous": ["8", ["7"], "0", "3"]}': "the field previous is not of its form",
}


def test_bodies(harbour):
    for body, words in BODIES.items():
        status, _, data = harbour.send("POST", "/api/dispatch", body)
        assert status == 400 and words in json.loads(data)["fault"], (body[:80], data[:200])
    for budget in ("true", "1.0", '"1"', "null", "[1]"):
        assert harbour.send("POST", "/api/refine", f'{{"demand": "23.5", "budget": {budget}}}'.encode())[0] == 400, budget
    for plan in ("1", "0", '"true"', "null"):
        assert harbour.send("POST", "/api/day", f'{{"demands": "1,20", "plan": {plan}}}'.encode())[0] == 400, plan


# ---- the calls


def test_site(harbour):
    status, told = harbour.ask("site")
    assert status == 200 and re.fullmatch("[0-9a-f]{16}", told.pop("site")) and told.pop("day") == DAY
    sets = told.pop("sets")
    assert told == {"name": "harbour.csv", "demand": "23.5", "most": "30.4", "version": __version__, "notes": [], "fault": None}
    assert [one["name"] for one in sets] == ["diesel 1", "diesel 2", "standby", "hydro"]
    assert sets[1] == {
        "name": "diesel 2", "least": "3.0", "greatest": "10.0", "previous": "7.5",
        "zones": [["4.5", "5.5"], ["7.0", "7.4"]], "window": ["5.5", "9.5"], "permitted": [["5.5", "7.0"], ["7.4", "9.5"]],
        "may_stand": True,
    }  # fmt: skip
    assert (sets[2]["window"], sets[2]["permitted"]) == (None, [["1.5", "6.0"]])
    assert (sets[0]["may_stand"], sets[1]["may_stand"]) == (False, True)
    told = harbour.ask("site", previous=["4", "0", "2", "5"])[1]
    assert [one["previous"] for one in told["sets"]] == ["4.0", "0.0", "2.0", "5.0"] and told["most"] == "26.9"
    assert [one["window"] for one in told["sets"]] == [["3.0", "6.0"], None, None, ["1.0", "5.0"]]
    assert told["sets"][0]["permitted"] == [["3.0", "4.5"], ["5.5", "6.0"]]


def same(told, json_told, gap="gap"):
    """An answer of the screen is that of a command."""
    assert told["outputs"] == [one["mw"] for one in json_told["sets"]]
    pairs = {"demand": "demand_mw", "cost": "cost_an_hour", "gap": gap, "bound": "nobody_for_less_than", "surplus": "surplus_mw"}
    assert {name: told[name] for name in pairs} == {name: json_told[other] for name, other in pairs.items()}


def test_dispatch_refine_plan_judge(harbour):
    status, told = harbour.ask("dispatch", demand=" 23.5 ")
    same(told, told_by("dispatch", "examples/harbour.csv", "23.5"))
    assert (status, told["size"], told["covers"], told["evaluations"]) == (200, "great", "24.4", 18)
    assert told["gap_words"] == "great: up to 5.11 % of the cost could be saved: refine or plan"
    assert told["warnings"] == [
        "the surplus is above 2 % of the demand: these outputs cover 24.4 MW; plan, give less by hand, or move load into this interval"
    ]
    told = harbour.ask("refine", demand="23.5", budget=100_000)[1]
    same(told, told_by("refine", "examples/harbour.csv", "23.5"))
    assert (told["size"], told["gap_words"]) == ("small", "small: at most 0.42 % of the cost could be saved")
    assert (told["budget"], told["nodes"], told["ended"]) == (100, 11, "the search has ended: a larger budget changes nothing")
    told = harbour.ask("refine", demand="23.5", budget=1)[1]
    assert (told["budget"], told["nodes"], told["ended"], told["size"]) == (1, 1, "", "great")
    told = harbour.ask("plan", demand="23.5")[1]
    same(told, told_by("plan", "examples/harbour.csv", "23.5"), "above_best")
    assert (told["size"], told["gap_words"], told["warnings"]) == ("none", "none: nobody covers this demand for less", [])
    assert (told["end"], told["above_percent"], told["parts"]) == ("nothing is cheaper", "0.0000", 2)
    assert told["bounds"] == {"judged": "1420.808390", "refined": "1432.616384"}
    told = harbour.ask("judge", demand="23.5", outputs=["10", "9.5 ", "0", "4.5"])[1]
    same(told, told_by("judge", "--demand", "23.5", "examples/harbour.csv", "10", "9.5", "0", "4.5"), "distance")
    assert (told["accepted"], told["dispatch_cost"], told["less"]) == (True, "1497.171250", "1.547500")
    told = harbour.ask("judge", demand="23.5", outputs=["10", "9.5", "1.5", "5"])[1]
    assert told["accepted"] and told["less"].startswith("-")
    told = harbour.ask("judge", demand="23.5", outputs=["10", "5", "0", "12000"])[1]
    assert told.pop("site") and told == {
        "accepted": False,
        "demand": "23.5",
        "reasons": [
            "diesel 2 may not give 5 MW; it may stand or give 5.5 to 7.0 or 7.4 to 9.5 MW",
            "hydro may not give 12000 MW; it may stand or give 1.0 to 2.0 or 2.8 to 5.0 MW",
        ],
    }


def test_sizes_of_gaps(harbour):
    """By the part of the cost that the gap is: none, up to 1 %, up to 5 %, more."""
    sizes = set()
    for steps in range(110, 300, 3):
        told = harbour.ask("dispatch", demand=f"{steps / 10:.1f}")[1]
        part = float(told["gap"]) / float(told["cost"])
        assert told["size"] == ("none" if not part else "small" if part <= 0.01 else "middle" if part <= 0.05 else "great"), told
        assert told["gap_words"].startswith(told["size"] + ": ") and (told["size"] == "none") == ("%" not in told["gap_words"])
        sizes.add(told["size"])
    assert {"small", "middle", "great"} <= sizes


def test_run(harbour):
    """Every evaluation from the start on, as examples/run.c prints it."""
    told = harbour.ask("run", demand="23.5")[1]
    lines = (ROOT / "examples/harbour-run.txt").read_text().splitlines()[1:]
    assert [[str(s["evaluations"]), s["cost"], s["bound"], s["gap"]] for s in told["steps"]] == [line.split() for line in lines]
    assert [step["finished"] for step in told["steps"]] == [False] * 18 + [True]
    assert told["steps"][0]["gap_words"] == "great: up to 100.00 % of the cost could be saved"
    dispatched = harbour.ask("dispatch", demand="23.5")[1]
    assert {**dispatched, "finished": True} == {"site": told["site"], **told["steps"][-1]}


def test_floors(harbour):
    told = harbour.ask("floors", demand="23.5")[1]
    floors = told_by("floors", "examples/harbour.csv", "23.5")["floors"]
    names = ("percent", "demand", "least_cost", "covered")
    assert [[floor[name] for name in names] for floor in told["floors"]] == [list(floor.values()) for floor in floors]
    assert told["floors"][4]["dispatch_cost"] == "1497.171250" and told["demand"] == "23.5"
    assert [floor["dispatch_cost"] is None for floor in harbour.ask("floors", demand="28")[1]["floors"]] == [False] * 6 + [True] * 3


def test_day(harbour):
    for plan, words in ((False, []), (True, ["--plan"])):
        told = harbour.ask("day", demands=DAY, plan=plan)[1]
        by_command = told_by("day", "examples/harbour.csv", "examples/harbour-day.csv", *words)
        assert len(told["slots"]) == len(by_command["slots"])
        for slot, other in zip(told["slots"], by_command["slots"]):
            assert slot["time"] == other["time"] and slot["refused"] == other.get("refused", "")
            if "refused" in other:
                assert slot["answer"] is None
            else:
                same(slot["answer"], other)
        assert (told["starts"], told["total"]) == (list(by_command["starts"].values()), by_command["cost"])
    assert told["beside"] == ["dispatched slot by slot it costs 30909.040150: 4572.590300 more"]
    lost = harbour.ask("day", demands="1,20.7\n2,30.3\n", plan=True)[1]
    assert lost["slots"][1]["answer"] is None and lost["beside"][1] == (
        "the two costs are not of the same slots; dispatched, 2 is covered: dispatch the day, or give the slot before more demand"
    )
    told = harbour.ask("day", demands="time,MW,note\n00:00,20,\n00:30,99,\n", plan=False, previous=["8", "7.5", "0", "3"])[1]
    last = told["slots"][1]
    assert last["answer"] is None and last["refused"].startswith("from their outputs before, these sets cannot cover 99.0 MW")
    assert told["notes"] == [
        'line 1: there is no column "note": it is passed over',
        "the times are not an hour apart: each cost is that of an hour, and the total is their sum",
    ]


def test_previous(harbour):
    previous = ["4", "0", "2", "5"]
    told = harbour.ask("dispatch", demand="23.5", previous=previous)[1]
    assert float(told["outputs"][0]) <= 6
    for name, more in (("run", {}), ("plan", {}), ("refine", {"budget": 10}), ("floors", {}), ("judge", {"outputs": told["outputs"]})):
        status, other = harbour.ask(name, demand="23.5", previous=previous, **more)
        assert status == 200 and other["demand"] == "23.5" and other.get("accepted", True), name
    assert harbour.ask("dispatch", demand="27", previous=previous)[0] == 422 and harbour.ask("dispatch", demand="27")[0] == 200


NUMBER = "is not a number like 12 or 12.5"
MUST_RUN = (
    "line 4, set diesel 1: it must run, and previous, up and down let it go from 18.0 to 22.0 MW, where least, greatest and zones permit"
    " nothing: widen up or down, or let it stand"
)


@pytest.mark.parametrize(
    "name, asked, number, words",
    [
        ("dispatch", {"demand": ""}, None, [f"demand: nothing stands there, and that {NUMBER}"]),
        ("dispatch", {"demand": "x" * 100}, None, [f"demand: {'x' * 40}... (100 characters) {NUMBER}"]),
        ("dispatch", {"demand": "1e999999"}, None, ["demand: 1e999999 is above 32,000 MW"]),
        ("dispatch", {"demand": "1e-99999"}, None, ["demand: 1e-99999 is not a whole number of 0.1 MW: the nearest are 0.0 and 0.1"]),
        ("dispatch", {"demand": "NaN"}, None, [f"demand: NaN {NUMBER}"]),
        ("dispatch", {"demand": "-1"}, None, [f"demand: -1 {NUMBER}"]),
        ("dispatch", {"demand": "23.55"}, None, ["demand: 23.55 is not a whole number of 0.1 MW: the nearest are 23.5 and 23.6"]),
        ("plan", {"demand": "30.5"}, 11, [
            "demand: these sets cannot cover 30.5 MW; the most that they can cover now, after losses, is 30.4 MW: add a set, or raise"
            " greatest or up"]),
        ("run", {"demand": "20", "previous": ["20", "0", "0", "0"]}, 11, [MUST_RUN]),
        ("refine", {"demand": "23.5", "budget": 0}, 25, ["budget: 0 is not a budget from 1 to 100,000"]),
        ("refine", {"demand": "23.5", "budget": 100_001}, 25, ["budget: 100001 is not a budget from 1 to 100,000"]),
        ("floors", {"demand": "0"}, None, ["demand: it is 0, and so is every part of it: give the demand that you expect"]),
        ("judge", {"demand": "23.5", "outputs": ["", "x", "0", "1.23"]}, None, [
            f"output of diesel 1: nothing stands there, and that {NUMBER}", f"output of diesel 2: x {NUMBER}",
            "output of hydro: 1.23 is not a whole number of 0.1 MW: the nearest are 1.2 and 1.3"]),
        ("judge", {"demand": "23.5", "outputs": ["1"]}, None, [
            "output: sets 4, numbers given 1: give one for each set, 0 for one that stands"]),
        ("site", {"previous": []}, None, ["previous: sets 4, numbers given 0: give one for each set, 0 for one that stands"]),
        ("site", {"previous": ["8", "7.25", "1000.1", "-1"]}, None, [
            "previous of diesel 2: 7.25 is not a whole number of 0.1 MW: the nearest are 7.2 and 7.3",
            "previous of standby: 1000.1 is above 1,000 MW", f"previous of hydro: -1 {NUMBER}"]),
        ("day", {"demands": "", "plan": False}, None, ["demands: it has no line of columns"]),
        ("day", {"demands": "time,MW\n1,x\n2,-1\n", "plan": False}, None, [
            f"line 2, column MW: x {NUMBER}", f"line 3, column MW: -1 {NUMBER}"]),
        ("day", {"demands": "\0", "plan": False}, None, ["line 1: it holds a character that is no text: save the sheet as CSV, in UTF-8"]),
        ("day", {"demands": "1,20\n" * 97, "plan": True}, None, [
            "demands: 97 slots, and at most 96 are planned on the screen: give fewer, or use the command day"]),
        ("day", {"demands": "1,20\n" * 1001, "plan": False}, None, [
            "demands: 1001 slots, and at most 1000 are dispatched on the screen: give fewer, or use the command day"]),
    ],
)  # fmt: skip
def test_refused_in_words(harbour, name, asked, number, words):
    assert harbour.ask(name, **asked) == (422, {"refused": number, "words": words})


def test_huge_texts(harbour):
    """Numbers of as many digits as a request holds."""
    for word in ("9" * 60_000, "0." + "0" * 60_000 + "1", "1e" + "9" * 60_000, "0" * 60_000 + "x", "-" * 60_000):
        status, told = harbour.ask("dispatch", demand=word)
        assert status == 422 and len(told["words"][0]) < 200
    assert harbour.ask("dispatch", demand="0" * 60_000 + "23.5")[1]["demand"] == "23.5"


# ---- clients


def test_garbage(harbour):
    rng = random.Random(1)
    good = request(harbour.port)
    assert raw(harbour.port, good)[0] == 200
    tried = [b"\0" * 100 + b"\n\n", b"\r\n\r\n", b"\n\n", b"\x16\x03\x01\x02\x00\x01\x00\n\n"]
    tried += [b"GET /\r\n\r\n", b"GET / HTTP/9.9\r\n\r\n", b"PRI * HTTP/2.0\r\n\r\n"]
    for before, after in (
        (b"Host", b"Host "), (b"Content-Type", b" Content-Type"), (b"\r\n\r\n", b"\r\nno header\r\n\r\n"),
        (b"\r\nHost", b"\r\nHost: a\r\nHost"), (b"HTTP/1.1", b"HTTP/1.1 \0"), (b"Host: ", b"Host: \0"),
    ):  # fmt: skip
        tried.append(good.replace(before, after))
    for data in tried:
        status, told = raw(harbour.port, data)
        assert status in (400, 403, 505) and told["fault"], data
    for _ in range(150):
        data = bytearray(good)
        for _ in range(rng.randrange(1, 4)):
            at = rng.randrange(len(data))
            data[at : at + rng.randrange(3)] = rng.randbytes(rng.randrange(3))
        # whatever has become of its length, it is complete
        status, told = raw_ended(harbour.port, bytes(data) + b"\r\n\r\n")
        assert status in (0, 200) or (400 <= status < 506 and (told.get("fault") or told.get("words"))), bytes(data)
        assert status != 500, bytes(data)


def raw_ended(port, data):
    """As raw, by a client that says that no more comes."""
    with connect(port) as connection:
        connection.sendall(data)
        connection.shutdown(socket.SHUT_WR)
        answer = rest_of(connection)
    return (int(answer.split()[1]), json.loads(answer.partition(b"\r\n\r\n")[2])) if answer else (0, {})


def test_line_ends_and_pipelines(harbour):
    good = request(harbour.port)
    head, body = good.split(b"\r\n\r\n")
    assert raw(harbour.port, head.replace(b"\r\n", b"\n") + b"\n\n" + body)[0] == 200
    # of requests that come in one, the first is answered, wholly, and the connection ends
    assert raw(harbour.port, good * 200)[0] == 200
    assert raw(harbour.port, good + b"\0" * 3_000_000)[0] == 200


def test_clients_that_go_at_any_moment(local):
    one = local(CLOSE_SECONDS=0.3)
    good = request(one.port)
    for at in range(0, len(good) + 1, 3):
        for reset in (False, True):
            with connect(one.port) as connection:
                if reset:
                    connection.setsockopt(socket.SOL_SOCKET, socket.SO_LINGER, struct.pack("ii", 1, 0))
                connection.sendall(good[:at])
    assert raw(one.port, good)[0] == 200 and until(lambda: not one.clients)


def test_slow_clients(local):
    """A request that is not complete in time, whatever comes of it byte by byte; an answer that is not taken."""
    one = local(REQUEST_SECONDS=0.6, ANSWER_SECONDS=0.5, CLOSE_SECONDS=0.3)
    good = request(one.port)
    begun = time.monotonic()
    with ExitStack() as stack:
        mute, begins, short, drips = (stack.enter_context(connect(one.port)) for _ in range(4))
        begins.sendall(good[:40])  # a header that never ends
        short.sendall(good[:-1])
        for byte in good[:20]:
            drips.sendall(bytes([byte]))
            time.sleep(0.02)
        asked = time.monotonic()
        assert raw(one.port, good)[0] == 200 and time.monotonic() - asked < 0.5  # nobody waits for them
        for connection in (begins, short, drips):
            assert rest_of(connection).startswith(b"HTTP/1.1 408 ")
        assert rest_of(mute) == b"" and time.monotonic() - begun < 5
    one.pages["/"] = ("text/html", b" " * 30_000_000)
    with connect(one.port) as deaf:
        deaf.sendall(f"GET / HTTP/1.1\r\nHost: 127.0.0.1:{one.port}\r\n\r\n".encode())
        assert until(lambda: one.clients) and until(lambda: not one.clients, 3)
        assert 0 < len(rest_of(deaf)) < 30_000_000
    assert raw(one.port, good)[0] == 200


def test_slow_clients_make_room(local):
    """With all places taken by clients that send nothing, or a byte now and then, those that ask are answered."""
    one, end = local(), threading.Event()

    def drip(connection):
        while not end.wait(0.02):
            try:
                connection.sendall(b"a")
            except OSError:
                return

    with ExitStack() as stack:
        slow = [stack.enter_context(connect(one.port)) for _ in range(60)]
        pool = stack.enter_context(ThreadPoolExecutor(60))
        stack.callback(end.set)
        for connection in slow:
            pool.submit(drip, connection)
        begun = time.monotonic()
        assert all(raw(one.port, request(one.port))[0] == 200 for _ in range(20)) and time.monotonic() - begun < 3
    with ExitStack() as stack:
        silent = [stack.enter_context(connect(one.port)) for _ in range(server.CLIENTS_MAX + 8)]
        begun = time.monotonic()
        assert all(raw(one.port, request(one.port))[0] == 200 for _ in range(20))
        assert time.monotonic() - begun < 5 and len(one.clients) <= server.CLIENTS_MAX
        silent[-1].sendall(request(one.port))  # the last that came is still there
        assert rest_of(silent[-1]).startswith(b"HTTP/1.1 200 ")


def test_many_clients(harbour):
    """200 at once, each answered."""
    page = f"GET /page.js HTTP/1.1\r\nHost: 127.0.0.1:{harbour.port}\r\n\r\n".encode()
    with ExitStack() as stack:
        clients = []
        for k in range(200):
            clients.append(stack.enter_context(connect(harbour.port)))
            clients[-1].sendall(page if k % 2 else request(harbour.port))
        assert all(rest_of(client).startswith(b"HTTP/1.1 200 ") for client in clients)


def test_busy(local, monkeypatch):
    """Plans hold their places: another one waits a moment, and is told so. What is quick is answered all the same."""
    one, go = local(PLACE_SECONDS=0.1), threading.Event()
    monkeypatch.setattr(planning, "plan", lambda site, demand, stop: go.wait(SECONDS) and real(site, demand, stop=stop))
    with ThreadPoolExecutor(8) as pool:
        plans = [pool.submit(raw, one.port, request(one.port, name="plan")) for _ in range(server.COMPUTING_MAX - 1)]
        assert until(lambda: one.places._value == 1)
        with connect(one.port) as connection:
            connection.sendall(request(one.port, name="plan"))
            answer = rest_of(connection)
        assert answer.startswith(b"HTTP/1.1 503 ") and b"\r\nRetry-After: 1\r\n" in answer and b"busy" in answer
        assert raw(one.port, request(one.port))[0] == 200
        one.places.acquire()  # and where not one place is left, pages are served
        assert raw(one.port, request(one.port))[0] == 503
        assert raw(one.port, f"GET / HTTP/1.1\r\nHost: 127.0.0.1:{one.port}\r\n\r\n".encode())[0] == 200
        one.places.release()
        go.set()
        assert [plan.result()[0] for plan in plans] == [200] * (server.COMPUTING_MAX - 1)
    assert until(lambda: one.places._value == server.COMPUTING_MAX == one.long_places._value + 1)


real = planning.plan


def test_a_client_that_has_gone_stops_its_plan(local, monkeypatch):
    stopped = threading.Event()

    def plan(site, demand, stop):
        with pytest.raises(server.Fault, match="closed at your side"):
            until(stop, SECONDS)
        stopped.set()
        return real(site, demand, stop=stop)

    monkeypatch.setattr(planning, "plan", plan)
    one = local()
    for behind in (b"", b"more of it"):  # bytes that are not read yet do not hide the end
        stopped.clear()
        with connect(one.port) as connection:
            connection.sendall(request(one.port, name="plan") + behind)
            assert until(lambda: one.places._value < server.COMPUTING_MAX) and not stopped.wait(0.2)
        assert stopped.wait(2) and until(lambda: not one.clients)


def test_a_fault_of_its_own(local, monkeypatch, capfd):
    one = local()
    monkeypatch.setattr(planning, "plan", lambda site, demand, stop: [][1])
    fault = "the server has a fault of its own: its standard error names it; ask again"
    assert raw(one.port, request(one.port, name="plan")) == (500, {"fault": fault})
    assert re.fullmatch(
        r"fault of the screen: 'POST /api/plan HTTP/1.1': IndexError: list index out of range \(test_server.py, line [0-9]+\)\n",
        capfd.readouterr().err,
    )
    monkeypatch.setattr(planning, "plan", lambda site, demand, stop: open("/nowhere/at/all"))
    assert raw(one.port, request(one.port, name="plan"))[0] == 500 and "No such file" in capfd.readouterr().err
    assert raw(one.port, request(one.port))[0] == 200 and one.places._value == server.COMPUTING_MAX


# ---- the file


def test_the_file_changes(start):
    screen, written = start(), count(1)

    def put(text):
        screen.path.write_text(text)
        os.utime(screen.path, (1, next(written)))  # another time each, whatever the clock tells apart

    first, cost = screen.ask("site")[1], screen.ask("dispatch", demand="23.5")[1]["cost"]
    assert first["demand"] is None and first["day"] is None
    put(HARBOUR.replace("diesel 1, 120", "diesel 1, 121"))
    other = screen.ask("dispatch", demand="23.5")[1]
    assert other["cost"] != cost and other["site"] != first["site"]
    second = screen.ask("site")[1]
    assert second["site"] == other["site"]
    faults = {
        "rubbish": "line 1: it is no line of columns, and the first line must be one",
        HARBOUR.replace("62,", "x,"): "line 4, column B: x is not a number like 12 or 12.5",
        HARBOUR[:300]: "",
        "": "it has no line of columns",
    }
    for text, words in faults.items():
        put(text)
        told = screen.ask("site")[1]
        assert told["fault"].startswith(f"{screen.path}: ") and words in told["fault"]
        assert {**told, "fault": None} == second and screen.ask("dispatch", demand="23.5")[1] == other  # the last that could be taken
    beside = screen.path.with_suffix(".beside")
    screen.path.rename(beside)
    told = screen.ask("site")[1]
    assert "No such file or directory" in told["fault"] and screen.ask("dispatch", demand="23.5")[1]["cost"] == other["cost"]
    os.mkfifo(screen.path)
    assert "it is no plain file" in screen.ask("site")[1]["fault"]
    screen.path.unlink()
    beside.write_text(HARBOUR)
    beside.rename(screen.path)
    told = screen.ask("site")[1]
    assert told == first
    assert sorted(path.name for path in screen.path.parent.iterdir()) == ["harbour.csv"]  # it has written nothing


def test_a_file_that_is_half_written(tmp_path, monkeypatch):
    """Half a file can be a site too; it is taken once it is whole. One that never is, is not taken."""
    path = tmp_path / "site.csv"
    path.write_text(HARBOUR)
    one = Held(str(path))
    monkeypatch.setattr(held, "QUIET", 0.8)
    lines = HARBOUR.replace("diesel 1, 120", "diesel 1, 122").splitlines(keepends=True)
    before = one.now()
    with ThreadPoolExecutor(1) as pool, path.open("w") as sink:
        sink.writelines(lines[:-1])  # three sets of four
        sink.flush()
        asked = pool.submit(one.now)
        time.sleep(0.1)
        sink.writelines(lines[-1:])
        sink.flush()
        meanwhile = asked.result()
    fault = f"{path}: it is being written: wait until that is done"
    assert meanwhile == replace(before, fault=fault) == one.now()
    time.sleep(held.QUIET)
    after = one.now()
    assert len(after.site.sets) == 4 and after.fault is None and after.id != before.id
    monkeypatch.setattr(held.time, "sleep", lambda _: path.write_text(HARBOUR))
    path.write_text("".join(lines[:-1]))
    assert one.now() == replace(after, fault=fault) == one.now()


def test_the_file_is_replaced_while_requests_run(start):
    """Every answer is of one file or of the other, and says of which."""
    screen = start()
    texts = [HARBOUR, HARBOUR.replace("diesel 1, 120", "diesel 1, 130"), "rubbish"]
    stop, answers = threading.Event(), set()

    def write():
        beside, k = screen.path.with_suffix(".beside"), 0
        while not stop.wait(0.4):  # in between it is the same for long enough to be taken
            beside.write_text(texts[k % 3])
            beside.rename(screen.path)
            k += 1

    def ask(_):
        status, told = screen.ask("dispatch", demand="23.5")
        return status, told["site"], told["cost"]

    writer = threading.Thread(target=write)
    writer.start()
    try:
        with ThreadPoolExecutor(4) as pool:
            assert until(lambda: answers.update(pool.map(ask, range(100))) or len(answers) > 1, SECONDS)
    finally:
        stop.set()
        writer.join()
    assert {status for status, *_ in answers} == {200} and {cost for *_, cost in answers} == {"1497.171250", "1507.171250"}
    ids = {}
    for _, site, cost in answers:
        assert ids.setdefault(site, cost) == cost


def test_case_files(start):
    screen = start("harbour.case")
    told = screen.ask("site")[1]
    assert (told["name"], told["demand"]) == ("harbour.case", "23.5")
    assert [one["name"] for one in told["sets"]] == ["unit 1", "unit 2", "unit 3", "unit 4"]
    assert screen.ask("dispatch", demand="23.5")[1]["cost"] == "1497.171250"
    other = start("harbour.case", "--times", "2", "20")
    assert other.ask("site")[1]["demand"] == "20.0" and other.ask("dispatch", demand="23.5")[1]["cost"] == "2994.342500"


def test_notes(start, tmp_path):
    """What was passed over, and costs that are divided, are noted on the screen; on standard error too, before it serves."""
    path = tmp_path / "site.csv"
    path.write_text("name,A,B,C,L,least,greatest,previous,up,down,must run,zones,fuel\na,20000,1000,0,0,1,10,0,,,no,,oil\n")
    screen = start("site.csv")
    notes = screen.ask("site")[1]["notes"]
    assert notes[0] == 'line 1: there is no column "fuel": it is passed over'
    assert notes[1].startswith("costs are above what a case file holds")
    assert screen.ask("dispatch", demand="10")[1]["cost"] == "30000.000000"
    assert screen.end() == (0, "".join(f"note: {path}: {note}\n" for note in notes))


# ---- the command


def test_ends_while_it_computes(start):
    """By Ctrl-C and by SIGTERM: at once, with status 0 and without a word."""
    for number in (signal.SIGINT, signal.SIGTERM):
        screen = start("full.case")
        with ExitStack() as stack:
            for name, body in (("plan", b'{"demand": "180.1"}'), ("day", json.dumps({"demands": "1,180.1\n" * 96, "plan": True}).encode())):
                connection = stack.enter_context(connect(screen.port))
                connection.sendall(request(screen.port, body, name))
            stack.enter_context(connect(screen.port))
            time.sleep(0.3)
            begun = time.monotonic()
            assert screen.end(number) == (0, "") and time.monotonic() - begun < 3
    with pytest.raises(ConnectionError):
        connect(screen.port)


def refused(*words):
    status, out, err = typed("screen", *words)
    assert status == 2 and out == ""
    return err


def test_what_cannot_be_served(harbour, tmp_path):
    assert refused("examples/harbour.csv", "--port", str(harbour.port)) == (
        f"port {harbour.port}: it is taken, by another screen perhaps: give another one by --port, or --port 0 for any that is free\n"
    )
    assert refused("-") == "-: the screen reads its file again when it changes: name a file\n"
    wrong = tmp_path / "wrong.csv"
    wrong.write_text("time,MW\n1,x\n")
    assert refused("examples/none.csv", "x", "--day", str(wrong)) == (
        f"demand: x {NUMBER}\nexamples/none.csv: No such file or directory\n{wrong}: line 2, column MW: x {NUMBER}\n"
    )
    wrong.write_text("1,20\n" * 12_001)
    assert refused("examples/harbour.csv", "--day", str(wrong)) == (
        f"{wrong}: it has more than 60,000 bytes, which is too much for the screen: use the command day\n"
    )
    assert refused("/dev/null") == "/dev/null: it is no plain file, which it must be, since it is read again when it changes\n"
    for port in ("-1", "65536", "x", "١"):
        assert f"{port} is not a port from 0 to 65535" in refused("examples/harbour.csv", f"--port={port}")
    assert "unrecognized arguments: --json" in refused("examples/harbour.csv", "--json")


def test_help():
    status, out, _ = typed("screen", "--help")
    assert status == 0 and "8642 if not given; 0: any that is free" in " ".join(out.split()) and "--csv" not in out
