"""What a command line gives: a site, a demand, outputs; each read and checked, with every fault told at once."""

from __future__ import annotations

import argparse
from typing import Callable, Sequence

from . import answers, exact, files, library, table
from .exact import Quantity
from .files import FileFault, spoken
from .library import Refusal
from .report import Report
from .site import Site, site_of_case, steps_of
from .table import Faults


class Refused(Exception):
    """An answer that is a refusal: lines that say why, and the notes on what was asked."""

    def __init__(self, lines: Sequence[str], number: int | None = None, notes: Sequence[str] = ()) -> None:
        self.lines, self.number, self.notes = list(lines), number, list(notes)
        super().__init__("\n".join(lines))


class Usage(Exception):
    """What is typed cannot be taken; the text says why."""


class Given:
    """The site and the demand of a command line, and the notes on them."""

    def __init__(self, arguments: argparse.Namespace) -> None:
        self.path: str = arguments.site
        self.command: str = arguments.command
        self.notes: list[str] = []
        faults: list[str] = []
        self.demand: int | None = None
        try:
            self.demand = demand_of(getattr(arguments, "demand", None))
        except Usage as fault:
            faults.append(str(fault))
        try:
            self.site, own, self.notes, self.is_case = read_site(self.path, getattr(arguments, "times", None))
        except (Faults, FileFault) as fault:
            raise Faults(lines_of(fault), faults) from None
        if faults:
            raise Faults(faults)
        if self.demand is None:
            self.demand = own
        self.notes += [] if self.is_case else money_note(self.site)

    def needed(self) -> int:
        """The demand, which must be there."""
        if self.demand is None:
            how = {"judge": "as --demand 23.5", "floors": "such as 23.5, before --at"}.get(self.command, "such as 23.5")
            raise Usage(f"a CSV file has no demand of its own: give one in MW, {how}")
        return self.demand

    def covered(self, ask: Callable[[], Report]) -> Report:
        """An answer, or the refusal in words where nothing covers the demand."""
        answer = library.if_covered(ask)
        if answer is None:
            raise Refused(list(answers.why_not_covered(self.site, self.needed())), library.Number.NO_ALLOCATION, self.notes)
        return answer


class Taken(Given):
    """A site and a demand that are there already."""

    def __init__(self, arguments: argparse.Namespace, site: Site, demand: int, notes: Sequence[str]) -> None:
        self.path, self.command = arguments.case, arguments.command
        self.site, self.demand, self.notes, self.is_case = site, demand, list(notes), False


def money_note(site: Site) -> list[str]:
    """A note where the costs of a CSV file are above what a case file holds."""
    if site.money == 1:
        return []
    return [
        f"costs are above what a case file holds: it has those of all sets divided by {exact.grouped(site.money)}; money here is"
        " multiplied by it again, exactly"
    ]


def lines_of(fault: Faults | FileFault) -> list[str]:
    return fault.lines if isinstance(fault, Faults) else [str(fault)]


def named(path: str, lines: Sequence[str]) -> list[str]:
    """Lines on a file, each with its name."""
    name = f"{spoken(path)}: "
    return [line if line.startswith(name) else name + line for line in lines]


def read_site(path: str, times: int | None = None) -> tuple[Site, int | None, list[str], bool]:
    """The site of a CSV or case file, its own demand if it has one, the notes, and whether it is a case file."""
    return site_of(path, files.read(path, table.BYTES_MAX), times)


def site_of(path: str, data: bytes, times: int | None) -> tuple[Site, int | None, list[str], bool]:
    """The same of a file's bytes. A case file begins with a zero byte, which no text does."""
    if path.endswith(".case") or (data[:1] == b"\0" and data[1:2] < b" "):
        try:
            site, demand = site_of_case(data, (), times or 1)
        except Refusal as refusal:
            again = "it is no case file, or a damaged one: make it anew, as the command case does"
            raise Faults([f"{spoken(path)}: {refusal}", again]) from None
        except ValueError as fault:
            raise Faults([f"{spoken(path)}: by --times {times} {fault}: its money was divided by a smaller number"]) from None
        return site, demand, [], True
    if times is not None:
        raise Faults([f"{spoken(path)}: --times is for a case file, whose money was divided"])
    site, notes = table.read_site(spoken(path), data)
    return site, None, notes, False


def demand_of(word: str | None, what: str = "demand", quantity: Quantity = exact.DEMAND) -> int | None:
    """A demand, or other MW, in steps."""
    if word is None:
        return None
    value = exact.read(word.strip())
    if value is None:
        said = f"{exact.quoted(word)} is" if word.strip() else "nothing stands there, and that is"
        raise Usage(f"{what}: {said} not a number like 12 or 12.5")
    fault = table.demand_fault(value, quantity)
    if fault:
        raise Usage(f"{what}: {exact.quoted(word)} {fault}")
    return steps_of(value, quantity)


def outputs_of(site: Site, words: Sequence[str], name: str) -> tuple[list[int], list[str]]:
    """Outputs in steps and as given, from MW in the order of the sets, or from NAME=MW."""
    faults: list[str] = []
    if any("=" in word for word in words):
        words = _by_name(site, words, faults)
    steps = []
    for word in words:
        value = exact.read(word)
        if value is None or value < 0:
            faults.append(f"{exact.quoted(word)}: this is not a number of MW like 12 or 12.5")
        elif not exact.whole(value, 1):
            faults.append(f"{exact.quoted(word)}: this is not a whole number of 0.1 MW")
        else:
            steps.append(steps_of(value, None))
    if faults:
        raise Faults(faults)
    if len(words) != len(site.sets):
        raise Faults([f"{name}: sets {len(site.sets)}, outputs given {len(words)}: give one for each set, 0 for one that stands"])
    return steps, list(words)


def _by_name(site: Site, words: Sequence[str], faults: list[str]) -> list[str]:
    """The outputs of NAME=MW in the order of the sets."""
    given: dict[str, str] = {}
    for word in words:
        name, equals, mw = word.rpartition("=")
        name = name.strip()
        if not equals:
            faults.append(f"{word}: give all outputs by name, NAME=MW, or none")
        elif name not in site.names:
            faults.append(f"{word}: there is no set {name}; the sets are {', '.join(site.names)}")
        elif name in given:
            faults.append(f"{word}: {name} is given twice")
        else:
            given[name] = mw.strip()
    missing = [name for name in site.names if name not in given]
    if missing and not faults:
        faults.append(f"no output for {', '.join(missing)}: give one for each set, 0 for one that stands")
    return [given[name] for name in site.names if name in given]
