"""The text of a MATPOWER case: its matrices gen, gencost and bus as words with their numbers, line and column; or what is wrong with them.

The file is read and never run. The three matrices must be plain numbers in brackets, each set once; what sets or changes them in another
way is a fault, since what it comes to is not worked out. The rest of the file may hold anything.
"""

from __future__ import annotations

import re
from bisect import bisect_right
from dataclasses import dataclass
from decimal import Decimal
from typing import Iterator, NamedTuple, Sequence

from . import exact, table
from .table import Faults

COLUMNS: dict[str, list[str]] = {
    "gen": (
        "bus Pg Qg Qmax Qmin Vg mBase status Pmax Pmin Pc1 Pc2 Qc1min Qc1max Qc2min Qc2max ramp_agc ramp_10 ramp_30 ramp_q apf"
    ).split(),
    "gencost": "model startup shutdown n".split(),
    "bus": "bus type Pd Qd Gs Bs area Vm Va baseKV zone Vmax Vmin".split(),
}
NEEDED = {"gen": 10, "gencost": 5, "bus": 3}  # so many columns at least
PLACES_MAX = 400  # behind the point; MATPOWER's own numbers have fewer that count

# columns of which a number is needed; elsewhere Inf and NaN may stand
READ = {"gen": {0, 1, 7, 8, 9, 17, 18}, "bus": {0, 1, 2}}
_ENDLESS = re.compile(r"[+-]?(?:inf|nan)", re.I)

_NUMBER = re.compile(r"[+-]?(?:[0-9]+\.?[0-9]*|\.[0-9]+)(?:[eEdD][+-]?[0-9]+)?")
_TOKEN = re.compile(
    r"(?P<more>\.\.\.[^\n]*\n?)|(?P<line>\n)|(?P<blank>[ \t]+)|(?P<remark>%[^\n]*)|(?P<open>[\[({])|(?P<close>[\])}])|(?P<stop>[;,])"
    r"|(?P<set>=(?!=))|(?P<text>\"[^\"\n]*(?:\"\"[^\"\n]*)*\"?|(?<![\w)\]}.'\"])'[^'\n]*(?:''[^'\n]*)*'?)"
    r"|(?P<word>(?:[^ \t\n\[\](){};,=%'\"~!<>.]+|\.(?!\.\.))+|[=~!<>]=|.)"
)
_BLOCK = re.compile(r"^[ \t]*%([{}])[ \t]*$", re.M)
_OPENS = {"]": "[", ")": "(", "}": "{"}
_BEGINS = ("if", "for", "while", "switch", "try", "parfor")
_ENDS = ("end", "endif", "endfor", "endwhile", "endswitch", "end_try_catch", "endparfor")
# what is set, without what stands in its parentheses: a matrix; a part of one, or a field that is not named; all of mpc
_MATRIX = re.compile(r"mpc ?\. ?(gen|gencost|bus)")
_PART = re.compile(r"(?<![\w.])mpc ?(?:\(\) ?)?\. ?(?:(gen|gencost|bus)(?!\w)|\(\))(?: ?(?:\(\)|\{\}|\. ?\w+))* ?[-+*/^|&]?$")
_WHOLE = re.compile(r"(?<![\w.])mpc ?(?:\(\)|\{\})?$")
_OPERATOR = re.compile(r"[-+*/\\^:.~!&|<>]+")


def text_of(name: str, data: bytes) -> str:
    """The text of a file's bytes, with one kind of line end. Bytes that are not UTF-8 may stand in remarks."""
    if len(data) > table.BYTES_MAX:
        raise Faults([f"{name}: it has more than 1,000,000 bytes"])
    if data[:2] in (b"\xff\xfe", b"\xfe\xff"):
        raise Faults([f"{name}: it is in UTF-16, which some programs call Unicode text: save it as plain text, in UTF-8"])
    if b"\0" in data:
        raise Faults([f"{name}: it is no text: give the case as a file of MATLAB code, CASE.m, and not as a MAT file"])
    return data.decode("utf-8-sig", "replace").replace("\r\n", "\n").replace("\r", "\n")


class _Fault(NamedTuple):
    at: int
    words: str
    of: str


class _Token(NamedTuple):
    kind: str
    text: str
    at: int
    depth: int  # how many brackets are open around it


@dataclass
class Cell:
    """A word of a matrix, and its number if it is one."""

    matrix: str
    row: int
    column: int
    text: str
    at: int
    value: Decimal | None = None


Row = list[Cell]


@dataclass
class Matrix:
    """A matrix: how many rows it has, and by number those that are as long as the first."""

    count: int
    rows: dict[int, Row]


class Told:
    """A text, and the faults and notes on it, each with its place."""

    def __init__(self, text: str) -> None:
        self.text = text
        self.starts = [0, *(match.end() for match in re.finditer("\n", text))]
        self.faults: list[_Fault] = []
        self.notes: list[tuple[int, str]] = []
        self.open = False  # a bracket is not closed, and what follows it is not read

    def line(self, at: int) -> int:
        return bisect_right(self.starts, at)

    def fault(self, at: int, words: str, of: str = "", placed: bool = True) -> None:
        self.faults.append(_Fault(at, f"line {self.line(at)}{words}" if placed else words, of))

    def place(self, cell: Cell, name: str = "") -> str:
        names = COLUMNS[cell.matrix]
        name = name or (names[cell.column] if cell.column < len(names) else "")
        named = f" ({name})" if name else ""
        return f", {cell.matrix} row {cell.row}, column {cell.column + 1}{named}: {quoted(cell.text)}"

    def wrong(self, cell: Cell, words: str, name: str = "") -> None:
        self.fault(cell.at, f"{self.place(cell, name)} {words}", cell.matrix)

    def note(self, at: int, words: str) -> None:
        self.notes.append((at, f"line {self.line(at)}{words}"))


def quoted(text: str) -> str:
    """A word as messages repeat it, in one line."""
    return exact.quoted("".join(letter if letter.isprintable() else "?" for letter in text))


def counted(number: int, what: str = "column") -> str:
    return f"{number} {what}{'s' if number != 1 else ''}"


def _tokens(text: str) -> Iterator[tuple[str, str, int]]:
    """The text's parts by kind. Remarks are left out, and a line that goes on behind ... is one line."""
    at = 0
    while at < len(text):
        match = _TOKEN.match(text, at)
        assert match is not None and match.lastgroup is not None
        kind, at = match.lastgroup, match.end()
        if kind == "remark":
            block = _BLOCK.match(text, text.rfind("\n", 0, match.start()) + 1) if match[0].rstrip(" \t") == "%{" else None
            at = _block_end(text, block.start()) if block else at
        else:
            yield ("blank" if kind == "more" else kind), match[0], match.start()


def _block_end(text: str, at: int) -> int:
    """The end of a block of remarks, %{ to %}, in which others may lie."""
    depth = 0
    for match in _BLOCK.finditer(text, at):
        depth += 1 if match[1] == "{" else -1
        if not depth:
            return match.end()
    return len(text)


def _statements(told: Told) -> Iterator[list[_Token]]:
    """The statements of the text. One whose bracket is not closed is a fault, and left out with all that follows."""
    statement: list[_Token] = []
    stack: list[_Token] = []
    opened = dict.fromkeys(_OPENS.values(), 0)
    for kind, text, at in _tokens(told.text):
        if kind == "line":
            while stack and stack[-1].text == "(":  # no line ends within these
                opened[stack.pop().text] -= 1
        if kind == "close" and opened[_OPENS[text]]:
            last = ""
            while last != _OPENS[text]:
                last = stack.pop().text
                opened[last] -= 1
        if not stack and kind in ("line", "stop"):
            yield statement
            statement = []
            continue
        statement.append(_Token(kind, text, at, len(stack)))
        if kind == "open":
            stack.append(statement[-1])
            opened[text] += 1
    if opened["["] or opened["{"]:
        told.open = True
        told.fault(stack[0].at, ": a bracket is opened here, and not closed before the file ends")
    else:
        yield statement


# ---- the matrices


def matrices_of(told: Told) -> dict[str, Matrix]:
    """Those of the three matrices that are set as they must be."""
    found: dict[str, Matrix] = {}
    set_at: dict[str, int] = {}
    depth = 0
    for statement in _statements(told):
        words = [token for token in statement if token.kind != "blank"]
        if not words or words[0].text == "function":
            continue
        depth = max(0, depth + (words[0].text in _BEGINS) - (words[0].text in _ENDS))
        place = next((k for k, token in enumerate(statement) if token.kind == "set" and not token.depth), None)
        if place is None or words[0].kind == "set":
            continue
        targets = _targets(statement[:place])
        match = _MATRIX.fullmatch(targets[0]) if len(targets) == 1 else None
        if match is None:
            _check_targets(told, targets, words[0].at, set_at)
        elif _set_once(told, match[1], words[0].at, depth, set_at):
            matrix = _matrix(told, match[1], statement[place + 1 :], words[0].at)
            found.update({match[1]: matrix} if matrix else {})
    return found


def _targets(tokens: Sequence[_Token]) -> list[str]:
    """What is set, without what stands in its parentheses; of [a, b] = ... each by itself."""
    several = next(token.text for token in tokens if token.kind != "blank") == "["
    text = "".join(" " if token.kind == "blank" else token.text for token in tokens if token.depth <= several)
    return text.strip(" []").replace(",", " ").split() if several else [" ".join(text.split())]


def _set_once(told: Told, name: str, at: int, depth: int, set_at: dict[str, int]) -> bool:
    """Whether a matrix is set for the first time. It must be set for certain, too."""
    if name in set_at:
        first = told.line(set_at[name])
        told.fault(at, f": mpc.{name} is set here, and was in line {first}: leave one of the two", name)
        return False
    set_at[name] = at
    if depth:
        told.fault(at, f": mpc.{name} is set inside a condition or a loop, which is not followed: set it outside", name)
    return True


def _check_targets(told: Told, targets: Sequence[str], at: int, set_at: dict[str, int]) -> None:
    """What is set is none of the three matrices; nor may it be a part of one, or, where they are set already, all of mpc."""
    for target in targets:
        part = _PART.search(target)
        if part:
            what = f"mpc.{part[1]}" if part[1] else "a field of mpc"
            told.fault(at, f": {what} is changed here, which is not worked out: write the matrix as it is after that", part[1] or "")
        elif set_at and _WHOLE.search(target):
            told.fault(at, ": mpc is set here as a whole, after its matrices, which is not worked out: leave this out")


def _matrix(told: Told, name: str, tokens: Sequence[_Token], at: int) -> Matrix | None:
    """A matrix, from what stands behind its =."""
    words = [token for token in tokens if token.kind != "blank"]
    closes = [token for token in words if token.kind == "close" and not token.depth]
    if not closes or words[0].text != "[" or words[-1] is not closes[0]:
        told.fault(at, f": mpc.{name} is not plain numbers in one pair of brackets, and nothing is worked out: write the numbers", name)
        return None
    rows = [row for row in _cells(told, name, tokens[tokens.index(words[0]) + 1 : tokens.index(words[-1])]) if row]
    if not rows:
        told.fault(at, f": mpc.{name} has no rows", name)
        return None
    clear = [row for row in rows if not any(cell.value is None and _OPERATOR.fullmatch(cell.text) for cell in row)]
    return _even(told, name, clear, len(rows)) if clear else None


def _even(told: Told, name: str, rows: Sequence[Row], count: int) -> Matrix | None:
    """The matrix of the rows that are as long as the first, if they are long enough. Rows with an operator by itself, by which numbers
    move into other columns, are not among them."""
    first, columns, needed = rows[0][0], len(rows[0]), NEEDED[name]
    for row in rows:
        if len(row) != columns:
            words = f"it has {counted(len(row))}, and row {first.row} has {columns}"
            told.fault(row[0].at, f", {name} row {row[0].row}: {words}", name)
    if columns < needed:
        last = (COLUMNS[name] + ["coefficients"])[needed - 1]
        told.fault(first.at, f", {name} row {first.row}: it has {counted(columns)}, and {needed} are needed, up to {last}", name)
        return None
    return Matrix(count, {row[0].row: row for row in rows if len(row) == columns})


def _cells(told: Told, name: str, tokens: Sequence[_Token]) -> Iterator[Row]:
    """The cells of a matrix row by row: words parted by blanks or commas, rows by semicolons or line ends."""
    row: Row = []
    number, start, end, comma = 1, -1, -1, False
    for token in [*tokens, _Token("line", "", len(told.text), 1)]:
        parts = token.depth == 1 and token.kind in ("blank", "stop", "line")
        if not parts:
            start, end = (token.at if start < 0 else start), token.at + len(token.text)
            continue
        if start >= 0:
            row.append(_cell(told, Cell(name, number, len(row), told.text[start:end], start)))
            start, comma = -1, False
        if token.text == ",":
            if comma or not row:
                told.fault(token.at, f", {name} row {number}: there is no number before a comma", name)
            comma = True
        elif token.kind != "blank":
            yield row
            number, row, comma = number + bool(row), [], False


def _cell(told: Told, cell: Cell) -> Cell:
    """A cell with its number, of which as much is asked as that MATPOWER could read it too."""
    if _ENDLESS.fullmatch(cell.text) and cell.column not in READ.get(cell.matrix, {0, *range(3, cell.column + 1)}):
        return cell
    if not _NUMBER.fullmatch(cell.text):
        alone = "is a sign without a number: write the two without a blank between them, or what the sum comes to"
        told.wrong(cell, alone if cell.text in ("+", "-") else "is not a plain number like 12, -0.5 or 1e-3")
        return cell
    value = exact.read(re.sub("[dD]", "e", cell.text.lstrip("+")))
    assert value is not None
    places = value.as_tuple().exponent
    assert isinstance(places, int)
    if value.adjusted() > 308:
        told.wrong(cell, "is so large that MATPOWER would take it for Inf")
    elif places < -PLACES_MAX:
        told.wrong(cell, f"has more than {PLACES_MAX} places behind its point")
    else:
        cell.value = value
    return cell
