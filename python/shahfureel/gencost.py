"""Costs from a MATPOWER case: rows of its gencost matrix as A, B and C of a site, exactly; or in words which word of a row is at fault."""

from __future__ import annotations

from decimal import Decimal

from . import library
from .exact import decimal, exact, shown
from .report import Report
from .site import COSTS

RIGHT = b"2 0 0 3 0 0 0".split()  # a row that is read
NO_NUMBER = "is not a number like 12 or 12.5"
WORDS: list[tuple[str, dict[int, str]]] = [
    ("model", {26: "is not 2, a polynomial"}),
    ("startup", {26: NO_NUMBER}),
    ("shutdown", {26: NO_NUMBER}),
    ("number of coefficients", {26: "is not 3"}),
    ("square", {26: NO_NUMBER, 27: "is no whole number of 0.0001", 28: "is above 0.1"}),
    ("linear", {26: NO_NUMBER, 27: "is no whole number of 0.00001", 28: "is above 100"}),
    ("constant", {26: NO_NUMBER, 27: "is no whole number of 0.000001", 28: "is above 1,000"}),
]


def costs(row: bytes) -> tuple[Decimal, Decimal, Decimal]:
    """A, B and C of a row; raises Refusal."""
    numbers = zip(library.gencost(row), COSTS.values())
    a, b, c = (exact(decimal(number, quantity.places)) for number, quantity in numbers)
    return a, b, c


def faults(row: bytes, number: int) -> list[str]:
    """What is wrong with a row that is refused: each of its words is read alone, in a row that is right in all others."""
    words = row.replace(b"\t", b" ").split(b" ")
    words = [word for word in words if word]
    if len(row) > 256:
        return ["it has more than 256 bytes"]
    if len(words) != len(WORDS):
        return ["it has not seven words"]
    found = ["a blank stands before its first word or behind its last"] if row[:1] in b" \t" or row[-1:] in b" \t" else []
    for k, (name, words_of) in enumerate(WORDS):
        try:
            library.gencost(b" ".join([*RIGHT[:k], words[k], *RIGHT[k + 1 :]]))
        except library.Refusal as refusal:
            if refusal.number == number:
                plain = "".join(chr(byte) if 33 <= byte <= 126 else "?" for byte in words[k])
                found.append(f"{name} {plain} {words_of[number]}")
    return found


def report(rows: list[bytes]) -> Report:
    """What is read of rows, one to a line."""
    lines, told, cells, status = [], [], [["row", "A", "B", "C", "refused"]], 0
    for i, row in enumerate(rows, 1):
        try:
            a, b, c = costs(row)
            lines.append(f"row {i}: A {shown(a)}, B {shown(b)}, C {shown(c)}")
            told.append({"row": i, "A": a, "B": b, "C": c})
            cells.append([i, a, b, c, ""])  # type: ignore[list-item]
        except library.Refusal as refusal:
            why = "; ".join([f"refused with {refusal.number}", *faults(row, refusal.number)])
            lines.append(f"row {i}: {why}")
            told.append({"row": i, "refused": why})
            cells.append([i, None, None, None, why])  # type: ignore[list-item]
            status = 1
    return Report(lines, {"rows": told}, cells, [], status)  # type: ignore[arg-type]
