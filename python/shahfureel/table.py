"""CSV as spreadsheets and scripts save it: read into a site or into the demands of a day, or refused with every fault by line and
column at once.

A separator is found by the header: commas, semicolons or tabs. Where it is not a comma, numbers may have decimal commas; where that
could be read in two ways it is refused. Notes are what was passed over or taken as it is.
"""

from __future__ import annotations

import re
from dataclasses import dataclass, field, replace
from decimal import Decimal
from typing import Callable, Iterator, Sequence

from . import exact, library, site
from .exact import POWER, Quantity, shown
from .site import Set, Site

BYTES_MAX = 1_000_000
LINES_MAX = 50  # of faults or notes that are shown
SEPARATORS = (",", ";", "\t")
NEEDED = ("name", "A", "B", "C", "L", "least", "greatest", "previous", "up", "down", "must run", "zones")
TITLES = {title.casefold(): title for title in (*NEEDED, "L1")}
DAY_TITLES = {
    **dict.fromkeys(("time", "hour", "slot", "from", "start", "date", "datetime", "date and time", "timestamp"), "time"),
    **dict.fromkeys(("mw", "demand", "load", "demand mw", "load mw"), "MW"),
}
COLUMNS = (
    "the columns, with commas between: name, A, B, C, L, least, greatest, previous, up, down, must run, zones;"
    " also L1 where losses have a linear part"
)
YES, NO = ("yes", "true", "1"), ("no", "false", "0")
BLANKS = " \t\u00a0\u202f"
_THOUSANDS = re.compile(r"[1-9][0-9]{0,2}[.,][0-9]{3}")
_CLOCK = re.compile(r"([01]?[0-9]|2[0-3]):([0-5][0-9])(?::00)?")
_DATE = re.compile(r"[0-9]+[-/. ]+[^\W\d_]+.*|[^\W\d_]+[-/. ]+[0-9]+.*|[0-9]+([-/.])[0-9]+\1[0-9]+.*")


class Faults(Exception):
    """What is wrong with a file, or with several, line by line; the text has the first lines of each."""

    def __init__(self, *files: list[str]) -> None:
        self.lines = [line for lines in files for line in lines]
        super().__init__("\n".join(line for lines in files for line in first(lines)))


def first(lines: Sequence[str]) -> list[str]:
    """The first 50 lines, and how many more there are."""
    return [*lines[:LINES_MAX], *([f"and {len(lines) - LINES_MAX} more"] if len(lines) > LINES_MAX else [])]


class _LineFault(Exception):
    pass


@dataclass
class Line:
    """A line's number and its fields."""

    number: int
    fields: list[str]


@dataclass
class Table:
    """A file's header and lines, and which field has which column."""

    separator: str
    header: Line
    lines: list[Line]
    columns: dict[str, int] = field(default_factory=dict)
    notes: list[str] = field(default_factory=list)
    faults: list[str] = field(default_factory=list)
    comma: bool = False
    doubtful: bool = False

    def value(self, line: Line, column: str) -> str:
        return line.fields[self.columns[column]] if column in self.columns else ""

    def wrong(self, line: Line, column: str, text: str, what: str) -> None:
        said = f"{exact.quoted(text)} {what}" if text else f"nothing stands there, and that {what}"
        self.faults.append(f"line {line.number}, column {column}: {said}")


# ---- bytes, lines, fields


def text_of(name: str, data: bytes, notes: list[str]) -> str:
    """The text of a file's bytes."""
    if len(data) > BYTES_MAX:
        raise Faults([f"{name}: it has more than 1,000,000 bytes"])
    if data[:2] in (b"\xff\xfe", b"\xfe\xff"):
        raise Faults([f"{name}: it is in UTF-16, which some programs call Unicode text: save the sheet as CSV, in UTF-8"])
    try:
        return data.decode("utf-8-sig")
    except UnicodeDecodeError as error:
        line = data.count(b"\n", 0, error.start) + 1
        notes.append(f"line {line}: it is not in UTF-8, and is read as Windows-1252: look at the names, or save the sheet in UTF-8")
        return data.decode("cp1252", "replace")


def _lines(text: str) -> Iterator[tuple[int, str]]:
    """The lines that count, by number: no comments, no empty ones."""
    for number, line in enumerate(re.split(r"\r\n|\n|\r(?!\n)", text), 1):
        if re.search(r"[\x00-\x08\x0a-\x1f\x7f-\x9f\ufffd]", line):
            raise Faults([f"line {number}: it holds a character that is no text: save the sheet as CSV, in UTF-8"])
        opening = line.lstrip(BLANKS)
        inner = opening[1:].lstrip(BLANKS) if opening.startswith('"') else opening
        if not inner.startswith("#") and line.strip(BLANKS + ",;"):
            yield number, line


def _fields(line: str, separator: str) -> list[str]:
    """A line's fields, without quotes and the blanks around them."""
    fields, at = [], 0
    blanks = BLANKS.replace("\t", "") if separator == "\t" else BLANKS
    while True:
        while at < len(line) and line[at] in blanks:
            at += 1
        if line[at : at + 1] == '"':
            end = at + 1
            while line[end : end + 1] != '"' or line[end : end + 2] == '""':
                if end >= len(line):
                    raise _LineFault("a quoted field does not end in its line")
                end += 2 if line[end] == '"' else 1
            value = line[at + 1 : end].replace('""', '"')
            at = end + 1
            while at < len(line) and line[at] in blanks:
                at += 1
            if at < len(line) and line[at] != separator:
                raise _LineFault("a quoted field goes on behind its quotes")
        else:
            end = line.find(separator, at)
            end = len(line) if end < 0 else end
            value, at = line[at:end], end
        fields.append(value.strip(BLANKS))
        if at >= len(line):
            return fields
        at += 1


def _title(text: str) -> str:
    """A column's title as it is compared: small letters, one blank between words, without MW behind it."""
    plain = re.sub(r"[\s_-]+", " ", text).strip().casefold()
    return re.sub(r"\s*(\(mw\)|\[mw\]|\bin mw)$", "", plain)


def _separator_of(line: str, titles: dict[str, str], bare: Callable[[list[str]], bool] | None) -> str:
    """The separator by which most of a header's titles are known; else one that parts a line of time and MW; else a comma."""

    def known(separator: str) -> int:
        try:
            fields = _fields(line, separator)
        except _LineFault:
            return 0
        return 2 * sum(_title(text) in titles for text in fields) + (bare is not None and separator != "," and bare(fields))

    return max(SEPARATORS, key=known)


def read_table(name: str, data: bytes, titles: dict[str, str], bare: Callable[[list[str]], bool] | None = None) -> Table:
    """A file's header and lines. With `bare` a first line of which that is true is no header, but a line of time and MW."""
    notes: list[str] = []
    lines = list(_lines(text_of(name, data, notes)))
    separator = ""
    if lines and re.fullmatch(r"sep=.", lines[0][1].strip(" \r").strip('"'), re.IGNORECASE):
        separator = lines.pop(0)[1].strip(" \r").strip('"')[4:]
        if separator not in SEPARATORS:
            raise Faults([f"{name}: its first line names {separator} as separator; a comma, a semicolon or a tab is taken"])
    if not lines:
        raise Faults([f"{name}: it has no line of columns"])
    separator = separator or _separator_of(lines[0][1], titles, bare)
    parsed, faults = [], []
    for number, line in lines:
        try:
            parsed.append(Line(number, _fields(line, separator)))
        except _LineFault as fault:
            faults.append(f"line {number}: {fault}")
    if faults and (not parsed or parsed[0].number != lines[0][0]):
        raise Faults(faults)
    header = parsed[0]
    table = Table(separator, header, parsed[1:], notes=notes, faults=faults)
    if bare and bare(header.fields):
        table.lines, table.columns = parsed, {"time": 0, "MW": 1}
        return table
    _read_header(table, titles)
    return table


def _read_header(table: Table, titles: dict[str, str]) -> None:
    """Finds the columns. What is missing ends the reading; what is unknown is passed over with a note."""
    place, strange, doubled = f"line {table.header.number}", [], []
    for i, text in enumerate(table.header.fields):
        column = titles.get(_title(text))
        if column is None:
            if text or any(line.fields[i : i + 1] not in ([], [""]) for line in table.lines):
                strange.append(f'{place}: there is no column "{exact.quoted(text)}"')
        elif column in table.columns:
            doubled.append(f"{place}: {_twice(column, table.header.fields[table.columns[column]], text)}")
        else:
            table.columns[column] = i
    needed = NEEDED if "A" in titles.values() else ("MW",)
    words = COLUMNS if needed is NEEDED else "the columns, with commas between: time, MW"
    if len(table.columns) < min(3, len(needed)) and len(table.header.fields) > len(table.columns):
        raise Faults([f"{place}: it is no line of columns, and the first line must be one", words])
    missing = [f"{place}: column {column} is missing" for column in needed if column not in table.columns]
    if missing or doubled:
        raise Faults([*strange, *doubled, *missing, words])
    table.notes += [f"{note}: it is passed over" for note in strange]


def _twice(column: str, one: str, other: str) -> str:
    """That two titles are one column, by the titles as they stand where they differ."""
    if _title(one) == _title(other):
        return f"column {column} is there twice"
    return f'"{exact.quoted(one)}" and "{exact.quoted(other)}" are both column {column}: give one of them another title, and it is passed over'


# ---- numbers of a file


def _set_comma(table: Table, columns: tuple[str, ...]) -> None:
    """Settles whether a comma in numbers is a decimal comma: never where it parts fields; not where numbers have points; and where
    all numbers with a comma could be thousands, it is left open and each of them refused. So are numbers with a point between
    semicolons, where decimal commas are usual, if none has a comma and all of them could be thousands."""
    if table.separator == ",":
        return
    words = [
        word
        for line in table.lines
        if len(line.fields) == len(table.header.fields)
        for column in columns
        for word in re.split(r"\s+|\s*[-–—]\s*(?=[0-9])|\.\.+", table.value(line, column))
    ]
    points = [word for word in words if re.fullmatch(r"-?[0-9]*\.[0-9]+([eE][+-]?[0-9]+)?", word)]
    commas = [word for word in words if re.fullmatch(r"-?[0-9]*,[0-9]+([eE][+-]?[0-9]+)?", word)]
    table.comma = bool(commas) and not points and not all(map(_THOUSANDS.fullmatch, commas))
    table.doubtful = table.separator == ";" and not commas and all(map(_THOUSANDS.fullmatch, points))


def _number(table: Table, text: str) -> tuple[Decimal | None, str]:
    """A field's number; or none, and why."""
    if "," in text and table.separator != ",":
        if table.comma and "." not in text:
            return exact.read(text.replace(",", ".", 1)), ""
        if re.fullmatch(r"-?[0-9]*,[0-9]+", text):
            if _THOUSANDS.fullmatch(text):
                return None, f"can be read as {text.replace(',', '')} or as {text.replace(',', '.')}: write it without a comma"
            return None, "has a comma, and other numbers of this file have a point: write all of them alike"
    if table.doubtful and "." in text and _THOUSANDS.fullmatch(text):
        return None, f"can be read as {text.replace('.', '')} or as {text}0: write it in one of these ways"
    return exact.read(text), ""


def _read_number(table: Table, line: Line, column: str, text: str, quantity: Quantity) -> Decimal | None:
    form = "is not a number like 0.02 or -0.02" if quantity.signed else "is not a number like 12 or 12.5"
    value, why = _number(table, text)
    fault = why or form if value is None else quantity.fault(value)
    if fault:
        table.wrong(line, column, text, fault)
        return None
    return value


def _read_zones(table: Table, line: Line, text: str) -> tuple[tuple[Decimal, Decimal], ...] | None:
    """Zones such as 4.5-5.5, 4.5..5.5 or 4.5 to 5.5, with blanks or semicolons between them."""
    zones, fine = [], True
    rest = re.sub(r"\s+to\s+", "..", text, flags=re.IGNORECASE)
    rest = re.sub(r"(?<=[0-9])\s+[-–—]\s+(?=[0-9.,])", "..", rest)
    for word in rest.replace(";", " ").split():
        edges, date = re.fullmatch(r"(.+?)\.\.\.?(.+)|([^-–—]+)[-–—]([^-–—]+)", word), _DATE.fullmatch(word)
        if edges is None or date:
            hint = ": a spreadsheet makes a date of such a zone; give the column the format text" if date else ""
            table.wrong(line, "zones", word, f"is not a zone like 4.5-5.5{hint}")
            fine = False
            continue
        pair = [part for part in edges.groups() if part is not None]
        low, high = (_read_number(table, line, "zones", part, POWER) for part in pair)
        if low is None or high is None:
            fine = False
        else:
            zones.append((low, high))
    return tuple(zones) if fine else None


# ---- a site


def read_site(name: str, data: bytes) -> tuple[Site, list[str]]:
    """The site of a CSV file, and the notes. Raises Faults with all that cannot be taken."""
    table = read_table(name, data, TITLES)
    _set_comma(table, (*site.QUANTITIES, "zones"))
    sets: list[Set] = []
    names: set[str] = set()
    count = 0
    for line in table.lines:
        if count == library.UNITS_MAX:
            table.faults.append(f"line {line.number}: a 33rd set, and a site has at most 32")
            break
        count += 1
        one = _read_set(table, line, names)
        if one is not None:
            sets.append(one)
    if not count and not table.faults:
        raise Faults([f"{name}: it has no sets"])
    _check_sets(table, sets)
    if table.faults:
        raise Faults(sorted(table.faults, key=_line_number))
    return Site(tuple(sets), "L1" in table.columns), table.notes


def _line_number(fault: str) -> int:
    match = re.match(r"line ([0-9]+)", fault)
    return int(match[1]) if match else 0


def _read_set(table: Table, line: Line, names: set[str]) -> Set | None:
    if len(line.fields) != len(table.header.fields):
        table.faults.append(
            f"line {line.number}: it has {len(line.fields)} fields, and the header has {len(table.header.fields)}"
        )
        return None
    before = len(table.faults)
    numbers: dict[str, Decimal | None] = {}
    for column, quantity in site.QUANTITIES.items():
        text = table.value(line, column)
        if not text and column in ("up", "down", "L1"):
            numbers[column] = Decimal(0) if column == "L1" else None
        elif column != "L1" or column in table.columns:
            numbers[column] = _read_number(table, line, column, text, quantity)
    mark = table.value(line, "must run")
    if mark.casefold() not in YES + NO:
        table.wrong(line, "must run", mark, "is neither yes nor no")
    zones = _read_zones(table, line, table.value(line, "zones"))
    name = table.value(line, "name")
    if not name:
        table.wrong(line, "name", name, "is no name")
    elif name.startswith("#"):
        table.wrong(line, "name", name, "begins with #: put the # before the whole line, to take the set out")
    elif name in names:
        table.wrong(line, "name", name, "is the name of another set too")
    names.add(name)
    if len(table.faults) > before or zones is None:
        return None
    place = f"line {line.number}, set {name}"
    return Set(name=name, must_run=mark.casefold() in YES, zones=zones, place=place, **numbers)  # type: ignore[arg-type]


def _check_sets(table: Table, sets: list[Set]) -> None:
    """What only shows of a whole set, or of all of them: the library refuses it, or the costs cannot be divided exactly."""
    linear = "L1" in table.columns
    for one in sets:
        try:
            Site((replace(one, **dict.fromkeys(site.COSTS, Decimal(0))),), linear).pack(0)
        except library.Refusal as refusal:
            table.faults.append(f"{one.place}: {why_refused(one, refusal)}")
    try:
        site.money_of(sets)
    except site.Inexact as error:
        for i, column, why in error.faults:
            table.faults.append(f"{sets[i].place.split(',')[0]}, column {column}: {why}")


def why_refused(one: Set, refusal: library.Refusal) -> str:
    """Why a set is refused by itself."""
    if refusal.number == library.Number.ZONE_COUNT_INVALID:
        return "it has more than four zones: join some of them"
    if refusal.number == library.Number.LIMITS_INVALID:
        edges = [one.least, *(edge for zone in one.zones for edge in zone), one.greatest]
        return (
            "least, the edges of the zones and greatest must rise, from 0.1 MW or more (a zone may start where the one before ends);"
            " they are " + " ".join(shown(exact.decimal(POWER.units(edge), 1)) for edge in edges)
        )
    if refusal.number == library.Number.LOSSES_OUT_OF_RANGE:
        return "L1 + 1999.9 L is not below 1: near 1,000 MW its losses would grow as fast as its output"
    return f"it is {refusal}"


# ---- the demands of a day


def read_demands(name: str, data: bytes) -> tuple[list[tuple[str, Decimal]], list[str]]:
    """The slots of a day, time and MW, from a CSV file, and the notes."""

    def bare(fields: list[str]) -> bool:
        return len(fields) == 2 and exact.read(fields[1].replace(",", ".", 1)) is not None

    table = read_table(name, data, DAY_TITLES, bare)
    _set_comma(table, ("MW",))
    slots: list[tuple[str, Decimal]] = []
    for line in table.lines:
        if len(line.fields) != len(table.header.fields):
            table.faults.append(
                f"line {line.number}: it has {len(line.fields)} fields, and the header has {len(table.header.fields)}"
            )
            continue
        text = table.value(line, "MW")
        value = _read_demand(table, line, text)
        if value is not None:
            slots.append((table.value(line, "time") or str(len(slots) + 1), value))
    if not table.lines and not table.faults:
        raise Faults([f"{name}: it has no demands"])
    if table.faults:
        raise Faults(sorted(table.faults, key=_line_number))
    return slots, table.notes


def apart(times: Sequence[str], minutes: int) -> list[str]:
    """A note where times of the day are evenly apart, but not by as many minutes as a slot is said to last."""
    clocks = [_CLOCK.fullmatch(time) for time in times]
    at = [60 * int(clock[1]) + int(clock[2]) for clock in clocks if clock]
    steps = {(later - sooner) % 1440 for sooner, later in zip(at, at[1:])}
    if len(at) < len(times) or len(steps) != 1 or steps <= {0, minutes}:
        return []
    (step,) = steps
    return [f"the times are {step} minutes apart, and a slot is taken to last {minutes}: if it lasts {step}, give --minutes {step}"]


def _read_demand(table: Table, line: Line, text: str) -> Decimal | None:
    value, why = _number(table, text)
    fault = why or "is not a number like 12 or 12.5" if value is None else demand_fault(value)
    if fault:
        table.wrong(line, "MW", text, fault)
        return None
    return value


def demand_fault(value: Decimal, quantity: Quantity = exact.DEMAND) -> str | None:
    """What is wrong with a demand, or with other MW; of one between two steps, which two are nearest."""
    fault = quantity.fault(value)
    if fault and fault.startswith("is not a whole"):
        below, above = exact.nearest(value, quantity)
        return f"is not a whole number of {quantity.unit}: the nearest are {shown(below)} and {shown(above)}"
    return fault
