"""The commands: which answer is printed to what is typed.

Status 0: answered. 1: refused, because nothing covers the demand (of a day: that of a slot), or outputs that are not accepted, or a
MATPOWER case that cannot be taken. 2: usage, or a file that cannot be read, taken or written.
"""

from __future__ import annotations

import argparse
import os
import shlex
import signal
import sys
import threading
from contextlib import contextmanager
from dataclasses import replace
from decimal import Decimal
from types import FrameType
from typing import Callable, Iterator, Sequence

from . import answers, day_picture, drawing, exact, files, floors_picture, gencost, library, matpower, planning, report, table
from .arguments import parser
from .drawing import NoPicture
from .files import FileFault, spoken
from .given import Given, Refused, Taken, Usage, demand_of, lines_of, named, outputs_of, read_site, site_of
from .library import NoLibrary
from .report import Report
from .site import Set, Site, steps_of
from .table import Faults


def _command(arguments: argparse.Namespace, name: str, demand: int) -> str:
    """A command to type next, on the same site."""
    of = "SITE" if arguments.site == "-" else shlex.quote(arguments.site)
    times = "" if arguments.times is None else f" --times {arguments.times}"
    return f"{arguments.prog} {name} {of} {exact.shown(exact.decimal(demand, 1))}{times}"


def dispatch(arguments: argparse.Namespace, given: Given) -> Report:
    demand = given.needed()
    return given.covered(
        lambda: report.dispatched(answers.dispatch(given.site, demand), _command(arguments, "plan", demand))
    )


@contextmanager
def _interrupt() -> Iterator[Callable[[], bool]]:
    """Whether an interrupt has come: while this holds it ends nothing but what asks."""
    stopped = False

    def stop(_signal: int, _frame: FrameType | None) -> None:
        nonlocal stopped
        stopped = True

    if threading.current_thread() is not threading.main_thread():  # where no signal can be taken
        yield lambda: stopped
        return
    before = signal.signal(signal.SIGINT, stop)
    try:
        yield lambda: stopped
    finally:
        signal.signal(signal.SIGINT, before)


def refine(arguments: argparse.Namespace, given: Given) -> Report:
    demand, seen = given.needed(), sys.stderr is not None and sys.stderr.isatty()

    def ask(stopped: Callable[[], bool]) -> Report:
        steps, end = [], ""
        for budget, answer, why in answers.refine(given.site, demand, arguments.budget):
            steps.append((budget, answer))
            end = why or (f"stopped behind a budget of {budget}: the search would go on" if stopped() else "")
            if seen:
                print("\n".join(([report.refined_head()] if budget == 1 else []) + [report.refined_line(budget, answer)]), file=sys.stderr)
            if end:
                break
        return report.refined(steps, end)

    with _interrupt() as stopped:
        return given.covered(lambda: ask(stopped))


def plan(arguments: argparse.Namespace, given: Given) -> Report:
    demand = given.needed()
    with _interrupt() as stopped:
        return given.covered(lambda: report.planned(planning.plan(given.site, demand, arguments.effort, stopped)))


def judge(arguments: argparse.Namespace, given: Given) -> Report:
    demand = given.needed()
    steps, words = outputs_of(given.site, arguments.outputs, spoken(given.path))
    return given.covered(lambda: report.judged(answers.judge(given.site, demand, steps, words), given.site.names, words))


def floors(arguments: argparse.Namespace, given: Given) -> Report:
    demand = given.needed()
    if arguments.at is None:
        if demand == 0:
            raise Faults(["demand: it is 0, and so is every part of it: give the demand that you expect"])
        told = given.covered(lambda: report.floored(answers.floors(given.site, demand), len(answers.PARTS)))
        return _floors_drawn(arguments, given, demand, None, told)
    others: list[int] = []
    faults = []
    for word in arguments.at:
        try:
            others.append(demand_of(word, "--at") or 0)
        except Usage as fault:
            faults.append(str(fault))
    if faults:
        raise Faults(faults)
    told = given.covered(lambda: report.floored(answers.floors(given.site, demand, others), len(others)))
    return _floors_drawn(arguments, given, demand, others, told)


def _floors_drawn(arguments: argparse.Namespace, given: Given, demand: int, others: list[int] | None, told: Report) -> Report:
    if arguments.picture is not None:
        given.notes += floors_picture.floors(given.site, demand, others, arguments.picture, [arguments.site])
        told.lines.append(f"{arguments.picture}: a picture of these floors, beside dispatches")
    return told


def day(arguments: argparse.Namespace) -> tuple[Report, list[str]]:
    """A day of two files, of which both are read before a fault of either is told."""
    if arguments.effort is not None and not arguments.plan:
        raise Usage("--effort is how long a plan looks: give --plan too")
    if arguments.site == arguments.demands == "-":
        raise Usage("the sets and the demands cannot both be standard input")
    given: Given | None = None
    slots: list[tuple[str, Decimal]] = []
    notes: list[str] = []
    faults: list[list[str]] = []
    try:
        given = Given(arguments)
        notes += named(arguments.site, given.notes)
    except (Faults, FileFault) as fault:
        faults.append(named(arguments.site, lines_of(fault)))
    try:
        slots, found = table.read_demands(spoken(arguments.demands), files.read(arguments.demands, table.BYTES_MAX))
        notes += named(arguments.demands, found)
    except (Faults, FileFault) as fault:
        faults.append(named(arguments.demands, lines_of(fault)))
    if given is None or faults:
        raise Faults(*faults)
    notes += table.apart([time for time, _ in slots], arguments.minutes)
    demands = [(time, steps_of(mw)) for time, mw in slots]
    shown = dispatched = answers.day(given.site, demands)
    if arguments.plan:
        with _interrupt() as stopped:
            shown = planning.day(given.site, demands, arguments.effort or planning.SLOT_EFFORT, stopped)
    told = report.day_planned(shown, arguments.minutes, dispatched if arguments.plan else None)
    if arguments.picture is not None:
        how = "planned" if arguments.plan else "dispatched"
        notes += day_picture.day(shown, given.site, arguments.picture, [arguments.site, arguments.demands], how)
        told.lines.append(f"{arguments.picture}: a picture of the day")
    return told, notes


def case(arguments: argparse.Namespace, given: Given) -> Report:
    if arguments.file == "-":
        raise Usage("-: a case file is not written to standard output: name a file, or ./- if it is to have this name")
    demand = given.needed()
    data = given.site.pack(demand)
    files.write(arguments.file, data, [arguments.site])
    edition, units = data[1], len(given.site.sets)
    line = f"{arguments.file}: a case file of edition {edition}, {units} set{'s' if units > 1 else ''}, {len(data)} bytes"
    body = {"file": arguments.file, "edition": edition, "bytes": len(data), "demand_mw": exact.decimal(demand, 1)}
    body |= {"sets": list(given.site.names), "money_times": given.site.money}
    warnings = []
    if given.site.money > 1:
        warnings.append(f"money in it is divided by {given.site.money}: with --times {given.site.money} the commands multiply it again")
    rows: list[list[object]] = [["file", "edition", "bytes", "demand MW", "money times", *given.site.names]]
    rows.append([arguments.file, edition, len(data), exact.decimal(demand, 1), given.site.money, *given.site.names])
    return Report([line], body, rows, warnings)


def show(arguments: argparse.Namespace) -> tuple[Report, list[str]]:
    """A reply, a case file or a CSV file in words. A reply is known by its length: no case file is as short for its first field."""
    data = files.read(arguments.site, table.BYTES_MAX)
    units = int.from_bytes(data[:2], "big")
    if 1 <= units <= library.UNITS_MAX and len(data) in (28 + 2 * units, 30 + 2 * units):
        return _show_reply(arguments, data, units), []
    if arguments.of is not None:
        raise Usage(f"{spoken(arguments.site)}: --of is for a reply, and this is none")
    site, demand, notes, _ = site_of(arguments.site, data, arguments.times)
    return report.site_shown(site, None if demand is None else exact.decimal(demand, 1)), notes


def _show_reply(arguments: argparse.Namespace, data: bytes, units: int) -> Report:
    refining = len(data) == 30 + 2 * units
    reply = library.read_refined(data) if refining else library.read_reply(data)
    if reply.gap > reply.cost:
        raise Faults([f"{spoken(arguments.site)}: it is damaged, or no reply: its gap is above its cost"])
    of = read_site(arguments.of, arguments.times)[0] if arguments.of else _unknown(units, arguments.times or 1)
    if len(of.sets) != units:
        raise Faults([f"{spoken(arguments.of)}: it has {len(of.sets)} sets, and the reply {units}"])
    more = {"evaluations": reply.evaluations, "nodes": reply.nodes}
    answer = answers.answer_of(of, 0, reply.outputs, reply.cost, reply.gap, reply.surplus, **more)
    # a reply does not hold its demand
    told = report.dispatched(replace(answer, great_surplus=False), "the command plan, with the site and its demand")
    kind = f"a reply of refining, {reply.nodes} nodes" if refining else f"a reply of dispatch, {reply.evaluations} prices tried"
    told.lines.insert(0, kind)
    told.json = {"reply": kind, **{key: value for key, value in told.json.items() if key != "demand_mw"}}
    told.rows = [row[1:] for row in told.rows]
    return told


def _unknown(units: int, money: int) -> Site:
    """Sets of which nothing is known but their number."""
    zero, some = Decimal(0), Decimal("0.1")
    return Site(tuple(Set(f"unit {i + 1}", zero, zero, zero, zero, some, some, zero) for i in range(units)), money=money)


def costs(arguments: argparse.Namespace) -> Report:
    data = files.read(arguments.rows, table.BYTES_MAX)
    if len(data) > table.BYTES_MAX:
        raise Faults([f"{spoken(arguments.rows)}: it has more than 1,000,000 bytes"])
    rows = [row.removesuffix(b"\r") for row in data.split(b"\n")]
    return gencost.report(rows[:-1] if rows[-1] == b"" else rows)


# ---- a MATPOWER case


def matpower_case(arguments: argparse.Namespace) -> tuple[Report, list[str]]:
    """The answer to a MATPOWER case, or its site as a CSV file."""
    demand = demand_of(arguments.demand)
    if arguments.file == "-":
        raise Usage("-: a site is not written to standard output: name a file, or ./- if it is to have this name")
    if (arguments.file or "").endswith(".case"):
        raise Usage(f"{arguments.file}: a site is written as a CSV file, which is not to be taken for a case file: give it another name")
    data, needed = files.read(arguments.case, table.BYTES_MAX), demand is None and arguments.file is None
    try:
        taken = matpower.read(
            spoken(arguments.case), data,
            may_stand=arguments.may_stand, ramp=arguments.ramp, nearest=arguments.round, demand_needed=needed,
            high_costs=arguments.file is not None,
        )  # fmt: skip
    except Faults as fault:
        raise Refused(table.first(fault.lines)) from None
    demand = taken.demand if demand is None else demand
    if arguments.file is not None:
        return _matpower_site(arguments, taken.site, demand), taken.notes
    assert demand is not None  # it is needed, and there
    return plan(arguments, Taken(arguments, taken.site, demand, taken.notes)), taken.notes


def _matpower_site(arguments: argparse.Namespace, site: Site, demand: int | None) -> Report:
    """Writes the site of a case as a CSV file, and says which."""
    if files.same_file(arguments.case, arguments.file):
        raise FileFault(arguments.file, "the site would replace the case")
    files.write(arguments.file, report.site_shown(site, None).text("csv").encode(), [arguments.case])
    mw = None if demand is None else exact.decimal(demand, 1)
    number = f"{len(site.sets)} set{'s' if len(site.sets) > 1 else ''}"
    of = f"; the demand is {exact.shown(mw)} MW" if mw is not None else ""
    body = {"file": arguments.file, **({} if mw is None else {"demand_mw": mw}), "sets": list(site.names)}
    rows: list[list[object]] = [["file", "demand MW", "sets"], [arguments.file, mw, len(site.sets)]]
    return Report([f"{arguments.file}: a site of {number}{of}"], body, rows)


# ---- the screen


def screen(arguments: argparse.Namespace) -> int:
    """Serves the screen until it is interrupted. All that it begins with is read before a fault of any is told."""
    from .screen import Held, Screen, read_day, serve  # the other commands need no server

    if arguments.site == "-":
        raise Usage("-: the screen reads its file again when it changes: name a file")
    faults: list[list[str]] = []
    demand: int | None = None
    held: Held | None = None
    day: tuple[str | None, list[str]] = (None, [])
    try:
        demand = demand_of(arguments.demand)
    except Usage as fault:
        faults.append([str(fault)])
    try:
        held = Held(arguments.site, arguments.times)
    except (Faults, FileFault) as fault:
        faults.append(named(arguments.site, lines_of(fault)))
    try:
        day = day if arguments.day is None else read_day(arguments.day)
    except (Faults, FileFault) as fault:
        faults.append(named(arguments.day, lines_of(fault)))
    if held is None or faults:
        raise Faults(*faults)
    text, notes = day
    _say([f"note: {note}" for note in table.first([*named(arguments.site, held.now().notes), *notes])])
    return serve(Screen(held, demand, text), arguments.port, lambda url: _print(f"{url}\nCtrl-C ends it\n"))


# ---- the command line


def run(arguments: argparse.Namespace) -> tuple[Report, list[str]]:
    """The answer to a command line, and the notes."""
    if getattr(arguments, "picture", None) is not None:
        drawing.check(arguments.picture, [arguments.site, *([arguments.demands] if arguments.command == "day" else [])])
    if arguments.command == "matpower":
        return matpower_case(arguments)
    if arguments.command == "gencost":
        return costs(arguments), []
    if arguments.command == "show":
        return show(arguments)
    if arguments.command == "day":
        return day(arguments)
    given = Given(arguments)
    commands = {"dispatch": dispatch, "refine": refine, "plan": plan, "judge": judge, "floors": floors, "case": case}
    return commands[arguments.command](arguments, given), given.notes


def _say(lines: Sequence[str]) -> None:
    for line in lines if sys.stderr is not None else ():  # print would take standard output
        print(line, file=sys.stderr)


def _print(text: str) -> int:
    """Writes standard output at once; a reader that has gone away is no fault worth a message."""
    if sys.stdout is None:
        _say(["standard output: it is closed"])
        return 2
    try:
        if hasattr(sys.stdout, "reconfigure"):
            sys.stdout.reconfigure(errors="backslashreplace")
        sys.stdout.write(text)
        sys.stdout.flush()
        return 0
    except BrokenPipeError:
        why = ""
    except (OSError, ValueError) as error:
        why = f"standard output: {getattr(error, 'strerror', None) or error}"
    if why:
        _say([why])
    try:  # what could not be written is not to be tried again when Python ends
        os.dup2(os.open(os.devnull, os.O_WRONLY), sys.stdout.fileno())
    except (OSError, ValueError):
        pass
    return 2


def _parsed(top: argparse.ArgumentParser, words: Sequence[str] | None) -> argparse.Namespace:
    """What is typed. A demand may stand behind the options too, which argparse does not look for there."""
    arguments, more = top.parse_known_args(words)
    if len(more) == 1 and not more[0].startswith("-") and getattr(arguments, "demand", "") is None:
        arguments.demand = more.pop()
    if more:
        top.error(f"unrecognized arguments: {' '.join(more)}")
    return arguments


def main(words: Sequence[str] | None = None, prog: str = "shahfureel") -> int:
    """Runs the command line and returns its status."""
    arguments = _parsed(parser(prog), words)
    try:
        if arguments.command == "screen":
            return screen(arguments)
        told, notes = run(arguments)
    except (Faults, FileFault, NoLibrary, NoPicture, Usage) as fault:
        _say(str(fault).split("\n"))
        return 2
    except Refused as refused:
        _say([*(f"note: {note}" for note in table.first(refused.notes)), *refused.lines])
        if arguments.form == "json":
            body = {"refused": refused.number or "MATPOWER case", "words": refused.lines, **({"notes": refused.notes} if refused.notes else {})}
            _print(report.to_json(body) + "\n")
        return 1
    except KeyboardInterrupt:
        return 130
    _say([f"note: {note}" for note in table.first(notes)])
    if arguments.form == "csv":
        _say(told.warnings)
    return _print(told.text(arguments.form, notes)) or told.status
