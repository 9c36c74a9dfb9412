"""A MATPOWER case as a site: its matrices gen and gencost, and bus for the demand, exactly; or all that cannot be taken, by line and
column. Notes are what was left out or changed.
"""

from __future__ import annotations

from dataclasses import dataclass
from decimal import Context, Decimal, Inexact
from typing import Sequence

from . import exact, gencost, library
from .exact import DEMAND, POWER, Quantity, shown
from .matpower_text import COLUMNS, Cell, Matrix, Row, Told, counted, matrices_of, quoted, text_of
from .site import COSTS, SITE_COSTS, Set, Site
from .table import Faults

BUS, PG, STATUS, PMAX, PMIN = 0, 1, 7, 8, 9
RAMPS = {10: 17, 30: 18}
TYPE, PD = 1, 2
DEGREES = (("constant", "A"), ("linear", "B"), ("square", "C"))
LEAST = Decimal("0.1")  # of a set that runs
ISOLATED = 4
NO_PLACE = (
    "startup and shutdown costs, the network and its losses, reactive power and voltages have no place in a site, and are left out"
)

_EXACT = Context(prec=2000, traps=[Inexact])


@dataclass(frozen=True)
class Case:
    """A MATPOWER case: its units as a site; its demand in steps, or None where there is none that can be had; and what was left out,
    changed or rounded."""

    site: Site
    demand: int | None
    notes: list[str]


def read(
    name: str,
    data: bytes,
    *,
    may_stand: bool = False,
    ramp: int | None = None,
    nearest: bool = False,
    demand_needed: bool = True,
    high_costs: bool = False,
) -> Case:
    """The case of a file's bytes; raises Faults with all that cannot be taken, in the order of the file.

    Units in service must run, unless `may_stand`. With a `ramp` of 10 or 30 minutes that column limits them, from Pg on. With `nearest`
    what is too fine or a cost above its limit becomes the nearest that will do. Without `demand_needed` nothing of bus is a fault. With
    `high_costs` they may be above the limits of a case file, as in a site of a CSV file.
    """
    if ramp not in (None, *RAMPS):
        raise ValueError(f"a ramp is one of 10 or 30 minutes, and not of {ramp}")
    told = Told(text_of(name, data))
    matrices = matrices_of(told)
    reader = _Reader(told, may_stand, ramp, nearest, high_costs)
    demand = reader.demand(matrices.get("bus"), demand_needed)
    sets = reader.sets(matrices.get("gen"), matrices.get("gencost"))
    for missing in COLUMNS if not told.open else ():
        if missing not in matrices and not any(fault.of == missing for fault in told.faults):
            told.fault(len(told.text), f"{name}: {_missing(missing)}", missing, False)
    faults = [fault.words for fault in sorted(told.faults, key=lambda fault: fault.at) if demand_needed or fault.of != "bus"]
    if faults:
        raise Faults(faults)
    notes = [words for _, words in sorted(told.notes, key=lambda note: note[0])]
    return Case(Site(tuple(sets)), demand, [*notes, NO_PLACE])


def _missing(name: str) -> str:
    if name == "bus":
        return "it has no mpc.bus = [...], of which the sum of Pd is the demand: give the demand in MW behind the file"
    return f"it has no mpc.{name} = [...]: give a case of MATPOWER's version 2, whose matrices are fields of mpc"


# ---- a site


def _nearest(value: Decimal, quantity: Quantity) -> Decimal:
    """The nearest number that will do; of two that are as near the greater one."""
    finer = exact.units(min(value, quantity.limit), quantity.places + 1)
    return exact.exact(exact.decimal((finer + 5) // 10, quantity.places))


def _difference(value: Decimal, taken: Decimal) -> str:
    """By how much a number is changed."""
    return f"{shown(exact.exact(_EXACT.subtract(max(value, taken), min(value, taken))))} {'more' if taken > value else 'less'}"


class _Reader:
    """Makes sets and a demand of the matrices; what it cannot take it tells, and goes on."""

    def __init__(self, told: Told, may_stand: bool, ramp: int | None, nearest: bool, high_costs: bool) -> None:
        self.told, self.may_stand, self.ramp, self.nearest = told, may_stand, ramp, nearest
        self.costs = SITE_COSTS if high_costs else COSTS
        self.isolated: set[Decimal] = set()

    def taken(self, cell: Cell, quantity: Quantity, name: str = "", cut: bool = False) -> Decimal | None:
        """A cell's number as one of whole units up to a limit. With `cut` the limit is the nearest to what is above it."""
        value = cell.value
        if value is None:
            return None
        above = value > quantity.limit
        if value < 0:
            self.told.wrong(cell, "is negative, and must be 0 or more", name)
        elif above and not cut:
            self.told.wrong(cell, f"is above {quantity.most}", name)
        elif not above and exact.whole(value, quantity.places):
            return value
        else:
            why = f"is above {quantity.most}" if above else f"is not a whole number of {quantity.unit}"
            near = _nearest(value, quantity)
            return self._rounded(cell, value, near, why, name, "; --site writes it as it is" if above else "")
        return None

    def _rounded(self, cell: Cell, value: Decimal, near: Decimal, why: str, name: str, instead: str) -> Decimal | None:
        if self.nearest:
            self.told.note(cell.at, f"{self.told.place(cell, name)} is taken as {shown(near)}, {_difference(value, near)}")
            return near
        self.told.wrong(cell, f"{why}: the nearest that will do is {shown(near)}, which --round takes{instead}", name)
        return None

    def sets(self, gens: Matrix | None, costs: Matrix | None) -> list[Set]:
        """The sets in service."""
        if gens and costs:
            self._check_count(gens, costs)
        rows = list(gens.rows.values()) if gens else []
        serving = [row for row in rows if self._serves(row)]
        if rows and not serving and all(row[STATUS].value is not None for row in rows):
            self.told.fault(rows[0][0].at, ": mpc.gen has no unit in service", "gen")
        if len(serving) > library.UNITS_MAX:
            row = serving[library.UNITS_MAX]
            self.told.fault(row[0].at, f", gen row {row[0].row}: it is the 33rd unit in service, and a site has at most 32", "gen")
        made = [self._set(row, costs.rows.get(row[0].row) if costs else None) for row in serving]
        return [one for one in made if one is not None]

    def _check_count(self, gens: Matrix, costs: Matrix) -> None:
        first = next(iter(costs.rows.values()))
        if costs.count == 2 * gens.count:
            words = f", gencost rows {gens.count + 1} to {costs.count}: they are for reactive power, and left out"
            self.told.note(costs.rows.get(gens.count + 1, first)[0].at, words)
        elif costs.count != gens.count:
            words = f": mpc.gencost has {counted(costs.count, 'row')}, and mpc.gen {gens.count}: it must have as many, or twice as many"
            self.told.fault(first[0].at, words, "gencost")

    def _serves(self, row: Row) -> bool:
        """Whether a unit is in service: its status is above 0, and its bus not isolated."""
        status, alone = row[STATUS].value, row[BUS].value in self.isolated
        if status is not None and (status <= 0 or alone):
            why = "is out of service" if status <= 0 else "is at an isolated bus (its type is 4)"
            self.told.note(row[0].at, f", gen row {row[0].row}: {self._name(row)} {why}, and left out")
        return status is not None and status > 0 and not alone

    def _name(self, row: Row) -> str:
        bus = row[BUS].value
        return f"gen {row[0].row} bus {quoted(row[BUS].text) if bus is None else exact.quoted(shown(bus))}"

    def _set(self, row: Row, cost_row: Row | None) -> Set | None:
        """A unit in service as a set, if nothing is wrong with it."""
        bus, before = row[BUS].value, len(self.told.faults)
        if bus is not None and not (0 < bus < 10**9 and exact.whole(bus, 0)):
            self.told.wrong(row[BUS], "is not the number of a bus, 1 or more")
        previous = None if self.ramp is None else self.taken(row[PG], POWER)
        ramp = None if self.ramp is None else self._ramp(row, RAMPS[self.ramp])
        limits, costs = self._limits(row), self._costs(cost_row) if cost_row else None
        if limits is None or costs is None or len(self.told.faults) > before:
            return None
        (least, greatest), (a, b, c), name = limits, costs, self._name(row)
        return Set(
            name, a, b, c, Decimal(0), max(least, LEAST), greatest, previous or Decimal(0), ramp, ramp,
            must_run=bool(least) and not self.may_stand, place=f"line {self.told.line(row[0].at)}, {name}",
        )  # fmt: skip

    def _limits(self, row: Row) -> tuple[Decimal, Decimal] | None:
        """Pmin and Pmax."""
        greatest, least = self.taken(row[PMAX], POWER), self.taken(row[PMIN], POWER)
        if greatest is None or least is None:
            return None
        if least >= greatest:
            self.told.wrong(row[PMIN], f"is not below Pmax, which is {shown(greatest)}")
        elif not least and greatest <= LEAST:
            self.told.wrong(row[PMAX], "is below 0.2 MW, and Pmin is 0: a set that runs gives 0.1 MW or more, and its Pmax is above that")
        elif not least:
            what = f"{self._name(row)} may stand, or give 0.1 MW and more, since its Pmin is 0: at 0 MW it costs nothing"
            self.told.note(row[PMIN].at, f", gen row {row[0].row}: {what}")
        return least, greatest

    def _ramp(self, row: Row, column: int) -> Decimal | None:
        """By how much a unit may change; None where nothing limits it: 0, no such column, or as much as any set gives."""
        value = row[column].value if column < len(row) else None
        return None if not value or value >= POWER.limit else self.taken(row[column], POWER)

    def _costs(self, row: Row) -> tuple[Decimal, Decimal, Decimal] | None:
        """A, B and C, by the library's own reading of a row that is written out."""
        model, count = row[0].value, row[3].value
        if model is not None and model != 2:
            line = "is a piecewise linear cost" if model == 1 else "is no model of costs"
            self.told.wrong(row[0], f"{line}, and only 2, a polynomial, is taken")
            return None
        if model is None or count is None:
            return None
        if not (1 <= count <= len(row) - 4 and exact.whole(count, 0)):
            self.told.wrong(row[3], f"is not a number of coefficients, which is 1 to {len(row) - 4} in so many columns")
            return None
        return self._polynomial(row[4:], int(count))

    def _polynomial(self, cells: Sequence[Cell], count: int) -> tuple[Decimal, Decimal, Decimal] | None:
        for cell in cells[count:]:
            if cell.value:
                self.told.wrong(cell, f"stands behind the coefficients, which are {count} by column 4 (n), where only 0 may stand")
        values: list[Decimal | None] = [Decimal(0)] * 3
        for degree, cell in enumerate(reversed(cells[:count])):
            if degree < 3:
                name, column = DEGREES[degree]
                values[degree] = self.taken(cell, self.costs[column], name, cut=True)
            elif cell.value:
                name = "cube" if degree == 3 else f"power of {degree}"
                self.told.wrong(cell, "is not 0, and costs here end at the square", name)
        known = [value for value in values if value is not None]
        if len(known) < 3:
            return None
        if any(value > COSTS[column].limit for value, (_, column) in zip(known, DEGREES)):
            return known[0], known[1], known[2]  # more than a cost row may have
        return gencost.costs(f"2 0 0 3 {shown(known[2])} {shown(known[1])} {shown(known[0])}".encode())

    def demand(self, buses: Matrix | None, needed: bool) -> int | None:
        """The sum of Pd in steps, if all of them are known and it is one that can be asked for."""
        rows = list(buses.rows.values()) if buses else []
        self.isolated = {row[BUS].value for row in rows if row[TYPE].value == ISOLATED and row[BUS].value is not None}
        cells = [row[PD] for row in rows if row[BUS].value not in self.isolated]
        if not buses or len(rows) < buses.count or any(cell.value is None for cell in cells):
            return None
        total = Decimal(0)
        for cell in cells:
            total = _EXACT.add(total, cell.value or 0)
        total = exact.exact(total)
        fault, said = _demand_fault(total), f"the sum of Pd, {exact.quoted(shown(total))} MW,"
        near = _nearest(total, DEMAND)
        if fault.startswith("is not") and self.nearest and needed:
            self.told.note(rows[0][0].at, f", mpc.bus: {said} is taken as {shown(near)}, {_difference(total, near)}")
        elif fault:
            hint = f": the nearest that will do is {shown(near)}, which --round takes" if fault.startswith("is not") else ""
            self.told.fault(rows[0][0].at, f", mpc.bus: {said} {fault}{hint}", "bus")
            return None
        if needed:
            self._say_isolated(rows)
        return DEMAND.units(near)

    def _say_isolated(self, rows: list[Row]) -> None:
        for row in rows:
            if row[BUS].value in self.isolated and row[PD].value:
                self.told.note(row[0].at, f", bus row {row[0].row}: it is isolated (its type is 4), and its Pd left out, as MATPOWER does")


def _demand_fault(total: Decimal) -> str:
    if total < 0:
        return "is negative"
    if total > DEMAND.limit:
        return f"is above {DEMAND.most}"
    return "" if exact.whole(total, DEMAND.places) else f"is not a whole number of {DEMAND.unit}"
