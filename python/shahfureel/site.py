"""A site: its sets by name, in MW and money, exactly; to a case file and back.

A case file holds costs up to limits (B up to 100 per MWh). Where a site's are higher, those of all sets are divided by one whole
number, exactly or not at all, and `money` is that number: money in the file's answers is multiplied by it.
"""

from __future__ import annotations

import struct
from dataclasses import dataclass, field, replace
from decimal import Decimal
from math import gcd
from typing import Iterator, Mapping, Sequence

from . import library
from .exact import DEMAND, LINEAR_LOSS, POWER, SQUARE_LOSS, Exact, Quantity, decimal, exact, shown, whole

MONEY_MAX = 1_000_000_000
ZONES_MAX = 4

# the costs as a case file holds them; a site's may be MONEY_MAX times as high
COSTS: dict[str, Quantity] = {
    "A": Quantity(6, Decimal(1000)),
    "B": Quantity(5, Decimal(100)),
    "C": Quantity(4, Decimal("0.1")),
}
SITE_COSTS = {name: Quantity(q.places, exact(q.limit * MONEY_MAX)) for name, q in COSTS.items()}
QUANTITIES: dict[str, Quantity] = {
    **SITE_COSTS,
    "L": SQUARE_LOSS,
    "L1": LINEAR_LOSS,
    **dict.fromkeys(("least", "greatest", "previous", "up", "down"), POWER),
}


@dataclass(frozen=True)
class Set:
    """A generating set. At P MW it costs A + B P + C P^2 an hour and loses L P^2 + L1 P MW; standing it costs nothing.

    Powers are in MW; `up` and `down` are None where nothing limits them. `place` is where it was read, for messages.
    """

    name: str
    A: Decimal
    B: Decimal
    C: Decimal
    L: Decimal
    least: Decimal
    greatest: Decimal
    previous: Decimal
    up: Decimal | None = None
    down: Decimal | None = None
    must_run: bool = False
    zones: tuple[tuple[Decimal, Decimal], ...] = ()
    L1: Decimal = Decimal(0)
    place: str = field(default="", compare=False)

    def __post_init__(self) -> None:
        for name, quantity in QUANTITIES.items():
            given = getattr(self, name)
            if given is not None or name not in ("up", "down"):
                object.__setattr__(self, name, self._checked(name, given, quantity))
        for name in ("up", "down"):
            if getattr(self, name) == POWER.limit:  # so it stands in a case file
                object.__setattr__(self, name, None)
        zones = tuple((self._checked("zones", a, POWER), self._checked("zones", b, POWER)) for a, b in self.zones)
        object.__setattr__(self, "zones", zones)
        if not self.place:
            object.__setattr__(self, "place", f"set {self.name}")

    def _checked(self, column: str, given: Exact, quantity: Quantity) -> Decimal:
        value = exact(given)
        fault = quantity.fault(value)
        if fault:
            raise ValueError(f"set {self.name}, {column}: {given} {fault}")
        return value

    def costs(self) -> tuple[int, int, int]:
        """c0, c1 and c2 before they are divided."""
        return tuple(SITE_COSTS[name].units(getattr(self, name)) for name in COSTS)  # type: ignore[return-value]

    def row(self, money: int = 1) -> list[int]:
        """The 19 numbers of a row, with the costs divided."""
        steps = [POWER.units(value) for value in (self.least, self.greatest, self.previous)]
        ramps = [library.RAMP_UNLIMITED if value is None else POWER.units(value) for value in (self.up, self.down)]
        edges = [POWER.units(edge) for zone in self.zones for edge in zone]
        kept = edges[: 2 * ZONES_MAX]
        head = [*(cost // money for cost in self.costs()), SQUARE_LOSS.units(self.L), *steps, *ramps]
        return [*head, int(self.must_run), len(self.zones), *kept, *[0] * (2 * ZONES_MAX - len(kept))]


def set_of(name: str, row: Sequence[int], b1: int = 0, money: int = 1) -> Set:
    """The set of a row: what `Set.row` makes, the other way."""
    c0, c1, c2, b, least, greatest, previous, up, down, mark, zones, *edges = row
    a_cost, b_cost, c_cost = (decimal(cost * money, quantity.places) for cost, quantity in zip((c0, c1, c2), COSTS.values()))
    mw = [decimal(steps, POWER.places) for steps in edges]
    return Set(
        name,
        a_cost,
        b_cost,
        c_cost,
        decimal(b, SQUARE_LOSS.places),
        decimal(least, POWER.places),
        decimal(greatest, POWER.places),
        decimal(previous, POWER.places),
        decimal(up, POWER.places),
        decimal(down, POWER.places),
        mark == 1,
        tuple((mw[2 * k], mw[2 * k + 1]) for k in range(zones)),
        decimal(b1, LINEAR_LOSS.places),
        name,
    )


class Inexact(ValueError):
    """Costs above the limits of a case file that no number divides exactly: (place in the list, column, why) of each that is too
    fine."""

    def __init__(self, faults: Sequence[tuple[int, str, str]]) -> None:
        self.faults = list(faults)
        super().__init__("; ".join(f"{column}: {why}" for _, column, why in faults))


def money_of(sets: Sequence[Set]) -> int:
    """The least number that divides the costs of all sets exactly and brings them within a case file's limits; 1 if they are. It is at
    most ten times the least that would do: a price of energy is found to a hundredth of the divided money, and so more coarsely."""
    limits = [quantity.units(quantity.limit) for quantity in COSTS.values()]
    costs = [one.costs() for one in sets]
    need = max((-(-cost // limit) for three in costs for cost, limit in zip(three, limits)), default=1)
    if need <= 1:
        return 1
    fit = [number for number in _divisors(gcd(*(cost for three in costs for cost in three))) if need <= number <= 10 * need]
    if not fit:
        raise Inexact(list(_too_fine(sets, need)))
    return min(fit)


def _divisors(number: int) -> list[int]:
    """The divisors of a number; what is left of it without factors below 100,000 counts as one factor."""
    found, factor = [1], 2
    while factor < 100_000 and factor * factor <= number:
        before = found
        while number % factor == 0:
            number //= factor
            before = [divisor * factor for divisor in before]
            found = found + before
        factor += 1
    return found + [divisor * number for divisor in found] if number > 1 else found


def _too_fine(sets: Sequence[Set], need: int) -> Iterator[tuple[int, str, str]]:
    """Which costs do not become whole when all are divided by the power of ten that is needed."""
    power = len(str(need - 1))
    high = next(
        f"{name} of {one.name}, {shown(getattr(one, name))}, is above {quantity.most}"
        for one in sets
        for name, quantity in COSTS.items()
        if getattr(one, name) > quantity.limit and getattr(one, name) * 10 > quantity.limit * 10 ** power
    )
    for i, one in enumerate(sets):
        for name, quantity in COSTS.items():
            value = getattr(one, name)
            if not whole(value, quantity.places - power):
                unit = shown(decimal(1, quantity.places - power)) if quantity.places > power else str(10 ** (power - quantity.places))
                yield i, name, (
                    f"{shown(value)} is not a whole number of {unit}, and must be: {high}, so that a case file holds the costs of all"
                    f" sets divided by {10 ** power}; round it, if the costs may change by that"
                )


@dataclass(frozen=True)
class Site:
    """Up to 32 sets. `linear` says that losses have a linear part, so that its case files are of edition 2."""

    sets: tuple[Set, ...]
    linear: bool = False
    money: int = 0

    def __post_init__(self) -> None:
        object.__setattr__(self, "sets", tuple(self.sets))
        names = [one.name for one in self.sets]
        if not 1 <= len(names) <= library.UNITS_MAX:
            raise ValueError(f"a site has 1 to {library.UNITS_MAX} sets, and not {len(names)}")
        doubled = sorted({name for name in names if names.count(name) > 1})
        if doubled:
            raise ValueError(f"{doubled[0]} is the name of another set too")
        object.__setattr__(self, "linear", self.linear or any(one.L1 for one in self.sets))
        if not self.money:
            object.__setattr__(self, "money", money_of(self.sets))
        elif any(cost % self.money for one in self.sets for cost in one.costs()):
            raise ValueError(f"{self.money} does not divide the costs of all sets exactly: leave money out, and it is found")

    @property
    def names(self) -> tuple[str, ...]:
        return tuple(one.name for one in self.sets)

    def case(self, demand: Exact) -> bytes:
        """The case file of the site at a demand in MW. Raises Refusal where the sets cannot stand in one."""
        return self.pack(steps_of(demand))

    def pack(self, demand: int, previous: Sequence[int] | None = None) -> bytes:
        """The same at a demand in steps, where wanted with other previous outputs, in steps."""
        rows = [one.row(self.money) for one in self.sets]
        for row, steps in zip(rows, previous or ()):
            row[6] = steps
        if self.linear:
            return library.pack2(demand, rows, [LINEAR_LOSS.units(one.L1) for one in self.sets])
        return library.pack(demand, rows)

    def after(self, outputs: Sequence[int]) -> Site:
        """The site with these outputs, in steps, as the previous ones."""
        sets = (replace(one, previous=decimal(steps, POWER.places)) for one, steps in zip(self.sets, outputs))
        return replace(self, sets=tuple(sets))

    def alone(self, place: int) -> Site:
        """The site of one of its sets."""
        return replace(self, sets=(self.sets[place],))

    def outputs_of(self, given: Sequence[Exact] | Mapping[str, Exact]) -> list[int]:
        """Outputs in MW, by order or by name, in steps. Above all that a set may give, a number stays so."""
        if isinstance(given, Mapping):
            strange, missing = [n for n in given if n not in self.names], [n for n in self.names if n not in given]
            if strange or missing:
                raise ValueError(f"no set has the name {strange[0]}" if strange else f"no output is given for {missing[0]}")
            given = [given[name] for name in self.names]
        return [steps_of(value, None) for value in given]


def steps_of(value: Exact, quantity: Quantity | None = DEMAND) -> int:
    """MW as steps of 0.1 MW; without a quantity of any height, up to the most that a call takes."""
    mw = exact(value)
    fault = (quantity or POWER).fault(mw)
    if fault and (quantity or not fault.startswith("is above") or not whole(mw, 1)):
        raise ValueError(f"{value} {fault}")
    return POWER.units(min(mw, Decimal(2**32)))


def site_of_case(data: bytes, names: Sequence[str] = (), money: int = 1) -> tuple[Site, int]:
    """The site of a case file of either edition, and its demand in steps. Raises Refusal for what is no case file."""
    library.day(data, [])  # checks all of it, and dispatches nothing
    edition, count, demand = struct.unpack_from(">HHI", data)
    names = list(names) or [f"unit {i + 1}" for i in range(count)]
    sets = []
    for i in range(count):
        offset, length = struct.unpack_from(">HH", data, 8 + 4 * i)
        head = struct.unpack_from(">IIHHHHHHHHH", data, offset)
        (b1,) = struct.unpack_from(">i", data, offset + 26) if edition == 2 else (0,)
        edges = struct.unpack_from(f">{2 * head[10]}H", data, offset + (30 if edition == 2 else 26))
        sets.append(set_of(names[i], [*head, *edges], b1, money))
    return Site(tuple(sets), edition == 2, money), demand
