"""Numbers as people write them, read and shown exactly: nothing here goes through floating point, and nothing is rounded unseen."""

from __future__ import annotations

import re
from dataclasses import dataclass
from decimal import Decimal
from typing import Union

Exact = Union[Decimal, int, str]

_NUMBER = re.compile(r"(-?)([0-9]*)(?:\.([0-9]*))?(?:[eE]([+-]?)([0-9]+))?")
_FAR = 10_000_000  # an exponent that no number of a site comes near


def read(text: str) -> Decimal | None:
    """A number such as 12, 12.5, .5, -0.02 or 3E-05, exactly and without zeros behind; or None."""
    match = _NUMBER.fullmatch(text)
    if match is None or not (match[2] or match[3]):
        return None
    fraction, power = match[3] or "", (match[5] or "").lstrip("0") or "0"
    size = int(power) if len(power) < 8 else _FAR
    exponent = -size if match[4] == "-" else size
    digits = (match[2] + fraction).lstrip("0")
    kept = digits.rstrip("0")
    if not kept:
        return Decimal(0)
    return Decimal(f"{match[1]}{kept}E{exponent - len(fraction) + len(digits) - len(kept)}")


def exact(value: Exact) -> Decimal:
    """A number from a Decimal, a whole number or a text. A float is refused: 0.1 as a float is not 0.1."""
    if isinstance(value, float):
        raise TypeError(f"{value!r} is a float and so not exact: give Decimal({str(value)!r}) or {str(value)!r}")
    read_value = read(str(value))
    if read_value is None:
        raise ValueError(f"{value} is not a number like 12 or 12.5")
    return read_value


def decimal(number: int, places: int) -> Decimal:
    """So many units of the given decimal place, with all its places: decimal(100, 1) is 10.0."""
    return Decimal((number < 0, tuple(map(int, str(abs(number)))), -places))


def shown(value: Decimal) -> str:
    """A number in plain digits."""
    return format(value, "f")


def quoted(text: str) -> str:
    """A text as messages repeat it: the start of a long one."""
    return text if len(text) <= 80 else f"{text[:40]}... ({len(text)} characters)"


def grouped(value: int) -> str:
    """A whole number with commas, as limits are named."""
    return format(value, ",")


@dataclass(frozen=True)
class Quantity:
    """How a planner's number becomes a whole one: a number of units of a decimal place, up to a limit; and its word for MW."""

    places: int
    limit: Decimal
    word: str = ""
    signed: bool = False

    @property
    def unit(self) -> str:
        return shown(decimal(1, self.places)) + self.word

    @property
    def most(self) -> str:
        return format(self.limit, ",f") + self.word

    def fault(self, value: Decimal) -> str | None:
        """What is wrong with a value, or None."""
        if value < 0 and not self.signed:
            return "is not a number like 12 or 12.5"
        if value > self.limit:
            return f"is above {self.most}"
        if value < -self.limit:
            return f"is below -{self.most}"
        if not whole(value, self.places):
            return f"is not a whole number of {self.unit}{self._meant(value)}"
        return None

    def _meant(self, value: Decimal) -> str:
        """Of a number that misses a whole one by very little, as programs that count in binary write 0.01, which one it misses."""
        finer = units(abs(value), self.places + 4)
        if finer % 10_000 not in (0, 9_999) or finer < 9_999:
            return ""
        meant = shown(exact(decimal((finer + 1) // 10_000, self.places)))
        return f": {'-' if value < 0 else ''}{meant} is, if a program has written it so"

    def units(self, value: Decimal) -> int:
        """A value without a fault as a whole number of units."""
        return units(value, self.places)


def units(value: Decimal, places: int) -> int:
    """A number as units of the given decimal place, exactly or else towards 0."""
    sign, digits, exponent = value.as_tuple()
    assert isinstance(exponent, int)
    shift = exponent + places
    kept = digits + (0,) * shift if shift >= 0 else digits[:shift]
    number = int("".join(map(str, kept)) or "0")
    return -number if sign else number


def whole(value: Decimal, places: int) -> bool:
    """Whether a number is a whole number of units of the given decimal place."""
    _, digits, exponent = value.as_tuple()
    assert isinstance(exponent, int)
    return exponent >= -places or not any(digits[exponent + places :])


POWER = Quantity(1, Decimal(1000), " MW")
DEMAND = Quantity(1, Decimal(32000), " MW")
SQUARE_LOSS = Quantity(7, Decimal("0.0005"))
LINEAR_LOSS = Quantity(8, Decimal("0.1"), signed=True)
MONEY_PLACES, SURPLUS_PLACES, PERCENT_PLACES = 6, 9, 2


def nearest(value: Decimal, quantity: Quantity) -> tuple[Decimal, Decimal]:
    """The two nearest numbers of whole units, below and above a number that is not negative."""
    below = units(value, quantity.places)
    return decimal(below, quantity.places), decimal(below + 1, quantity.places)
