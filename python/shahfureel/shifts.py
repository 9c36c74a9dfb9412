"""The best shift of a part: what to add for a step and for a set that runs, or to credit to it, so that the bound is greatest.

The bound is concave in each of these numbers, so one after the other is widened until the bound falls, and then narrowed between the
neighbours of the best. A bound's truth does not rest on which shift is taken: `parts.replaces` refuses one that the proof has not.
"""

from __future__ import annotations

from typing import Callable, Iterator

from .parts import COSTS_MAX, EVERYTHING, Bound, Part, Rows, Shift

SCALE = 256  # the first step is the greatest coefficient divided by this
WIDER = 4
TURNS, NARROWINGS = 2, 8
FINE = 50  # it is narrow enough at this part of the number itself
MOST = 1 << 40

Ask = Callable[[Shift], "Bound | None"]


class Climb:
    """The shifts of a part from a first one on, each asked for its bound."""

    def __init__(self, case: Rows, everything: Part, part: Part, first: Shift, ask: Ask) -> None:
        self.rows, self.lossless, self.ask = case.rows, first.lossless, ask
        wanted = {
            "step": part.total[1] < everything.total[1] and not first.lossless,
            "start": part.running[1] < everything.running[1],
            "credit": part.running[0] > everything.running[0],
        }
        self.names = [name for name, has in wanted.items() if has]
        # in the case's own money, not in shares of it
        self.at = {name: first.share * getattr(first, name) if has else 0 for name, has in wanted.items()}

    def tried(self) -> Iterator[tuple[Shift, Bound]]:
        """Every shift on the way, with its bound."""
        yield from self._here()
        for _ in range(TURNS if len(self.names) > 1 else 1):
            for name in self.names:
                yield from self._along(name)

    def _shift(self) -> Shift:
        """The shift at these numbers: of shares so small that a case file holds its costs."""
        rows, at = self.rows, self.at
        room = COSTS_MAX[1] - 2 * max(row[5] for row in rows)
        share = -(-(max(row[1] for row in rows) + at["step"]) // room) if at["step"] else 1
        share = max(share, -(-(max(row[0] for row in rows) + at["start"]) // COSTS_MAX[0]) if at["start"] else 1)
        return Shift(share, at["step"] // share, at["start"] // share, at["credit"] // share, self.lossless)

    def _here(self) -> Iterator[tuple[Shift, Bound]]:
        shift = self._shift()
        found = self.ask(shift)
        if found is not None:
            yield shift, found

    def _along(self, name: str) -> Iterator[tuple[Shift, Bound]]:
        rows, start = self.rows, self.at[name]
        scale = max(1, max(row[1] if name == "step" else row[0] for row in rows) // SCALE)
        most = min(row[0] for row in rows) if name == "credit" else MOST
        known: dict[int, int] = {}

        def value(number: int) -> Iterator[tuple[Shift, Bound]]:
            known[number], self.at[name] = -EVERYTHING, number
            for shift, found in self._here():
                known[number] = found.least
                yield shift, found

        for number in sorted({start // WIDER, start}):
            yield from value(number)
        number = min(WIDER * start or scale, most)
        while number not in known:
            yield from value(number)
            if known[number] < max(known.values()) and (start or number > WIDER * scale):
                break
            number = min(WIDER * number, most)
        for _ in range(NARROWINGS):
            middle = _between(known)
            if middle is None:
                break
            yield from value(middle)
        self.at[name] = max(known, key=lambda number: known[number])


def _between(known: dict[int, int]) -> int | None:
    """The middle of the wider of the two gaps beside the best number; None where both are narrow."""
    numbers = sorted(known)
    k = numbers.index(max(numbers, key=lambda number: known[number]))
    below, best, above = numbers[max(k - 1, 0)], numbers[k], numbers[min(k + 1, len(numbers) - 1)]
    width, middle = max((best - below, (best + below) // 2), (above - best, (above + best) // 2))
    return None if width < 2 or FINE * width < best else middle
