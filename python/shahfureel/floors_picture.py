"""The picture of floors: what other demands cost at least, all from the search of the expected one, beside their dispatches."""

from __future__ import annotations

from dataclasses import dataclass
from decimal import Decimal
from typing import TYPE_CHECKING, Any, Sequence

from . import answers, library
from .answers import Answer
from .drawing import DASHED, INK, PANEL, REFUSED_FILL, REFUSED_INK, check, counted, legend, written
from .exact import decimal, shown
from .site import Site

if TYPE_CHECKING:
    from matplotlib.axes import Axes
    from matplotlib.figure import Figure

DEMANDS_DRAWN = 96
BOUND = "#DCE6EE"
NOBODY = "nobody covers the demand for less"
COST_MARK: dict[str, Any] = {"linestyle": "none", "marker": "o", "markersize": 4.5, "markerfacecolor": "#E69F00", "markeredgecolor": INK}
BOUND_MARK: dict[str, Any] = {"linestyle": "none", "marker": "_", "markersize": 5, "markeredgecolor": INK, "markeredgewidth": 1.2}
NOT_MARK: dict[str, Any] = {"linestyle": "none", "marker": "x", "markersize": 6, "markeredgecolor": REFUSED_INK, "markeredgewidth": 1.5}
BOUND_LINE: dict[str, Any] = {"color": "#0072B2", "linewidth": 1.8}


def floors(site: Site, demand: int, demands: Sequence[int] | None, path: str, inputs: Sequence[str]) -> list[str]:
    """Draws what other demands (without a list, 80 to 120 % of this one) cost at least, beside their dispatches; demands are in steps."""
    check(path, inputs)
    compared = compare(site, demand, demands)
    return written(path, inputs, lambda: _floors(compared))


@dataclass(frozen=True)
class Compared:
    """Floors of demands close to each other, all from the search of the expected one; and dispatches of the demands that are asked
    for, None where the sets cannot cover it."""

    expected: Decimal
    bounds: list[answers.Floor]
    dispatched: list[tuple[Decimal, Answer | None]]
    sets: int


def compare(site: Site, demand: int, demands: Sequence[int] | None) -> Compared:
    """What the picture of floors shows."""
    if demands is None:
        first, last = ((demand * part + 50) // 100 for part in (answers.PARTS[0], answers.PARTS[-1]))
        grid = _grid(first, min(last, library.DEMAND_MAX), [demand])
        asked = grid
    else:
        asked = sorted(set(demands))
        grid = _grid(min([demand, *asked]), max([demand, *asked]), [demand, *asked])
    return Compared(
        decimal(demand, 1),
        answers.floors(site, demand, grid),
        [(decimal(steps, 1), library.if_covered(lambda: answers.dispatch(site, steps))) for steps in asked],
        len(site.sets),
    )


def _grid(first: int, last: int, needed: Sequence[int]) -> list[int]:
    """Demands from the first to the last, as far apart as the next, and those that are needed."""
    apart = -(-(last - first) // (DEMANDS_DRAWN - 2)) or 1
    return sorted({*needed, *range(first, last, apart), last})


def _floors(compared: Compared) -> Figure:
    from matplotlib.figure import Figure
    from matplotlib.ticker import FuncFormatter

    axes = Figure(figsize=(PANEL, 4.8)).add_axes((0, 0, 1, 1))
    covered = [(float(mw), answer) for mw, answer in compared.dispatched if answer is not None]
    uncovered = [float(mw) for mw, answer in compared.dispatched if answer is None]
    _limits(axes, compared.bounds, [answer for _, answer in covered])
    _bound(axes, compared.bounds)
    _dispatches(axes, covered)
    axes.axvline(float(compared.expected), zorder=2, gid="expected", **DASHED)
    end = min([float(floor.demand) for floor in compared.bounds if not floor.covered], default=axes.get_xlim()[1])
    _uncovered(axes, uncovered, end)
    said = _nobody(axes, compared.bounds, end)
    axes.set_title(f"What an hour costs at least, beside dispatches: {counted(compared.sets, 'set')}")
    axes.set_xlabel("demand, MW")
    axes.set_ylabel("cost an hour")
    axes.yaxis.set_major_formatter(FuncFormatter(lambda value, _: f"{value:,.6f}".rstrip("0").rstrip(".")))
    _floors_legend(axes, compared.expected, bool(uncovered), said)
    return axes.figure


def _limits(axes: Axes, bounds: Sequence[answers.Floor], covered: Sequence[Answer]) -> None:
    """All demands, and what those cost that are covered: the floor of another one can be enormous."""
    money = [float(floor.least_cost) for floor in bounds if floor.covered]
    money += [float(value) for answer in covered for value in (answer.cost, answer.bound)]
    low, high = min(money), max(money)
    room = (high - low) or max(high, 1.0) * 0.2
    axes.set_ylim(max(0.0, low - 0.22 * room), high + 0.08 * room)
    left, right = float(bounds[0].demand), float(bounds[-1].demand)
    side = 0.025 * (right - left) or 0.5
    axes.set_xlim(max(0.0, left - side), right + side)


def _bound(axes: Axes, bounds: Sequence[answers.Floor]) -> None:
    """The bound as steps: between two demands that of the lower one holds, since no greater demand has a lower floor."""
    places = [float(floor.demand) for floor in bounds]
    costs = [float(floor.least_cost) for floor in bounds]
    places.append(axes.get_xlim()[1])
    costs.append(costs[-1])
    axes.fill_between(places, costs, axes.get_ylim()[0], step="post", facecolor=BOUND, linewidth=0, zorder=1, gid="nobody")
    axes.step(places, costs, where="post", zorder=3, gid="bound", **BOUND_LINE)


def _dispatches(axes: Axes, covered: Sequence[tuple[float, Answer]]) -> None:
    if covered:
        places = [mw for mw, _ in covered]
        axes.plot(places, [float(answer.cost) for _, answer in covered], gid="dispatches", zorder=4, clip_on=False, **COST_MARK)
        axes.plot(places, [float(answer.bound) for _, answer in covered], gid="own-bounds", zorder=4, clip_on=False, **BOUND_MARK)


def _nobody(axes: Axes, bounds: Sequence[answers.Floor], end: float) -> bool:
    """The words in the area below the bound, if there is room."""
    (left, right), (low, high) = axes.get_xlim(), axes.get_ylim()
    first = end - 0.4 * (right - left)
    below = max((float(floor.least_cost) for floor in bounds if float(floor.demand) <= first), default=low)
    if below < low + 0.14 * (high - low):
        return False
    box = {"facecolor": BOUND, "edgecolor": "none", "boxstyle": "square,pad=0.2"}  # over the line of the expected demand
    place, foot = end - 0.02 * (right - left), axes.get_xaxis_transform()
    axes.text(place, 0.06, NOBODY, transform=foot, ha="right", color="#003E66", zorder=5, bbox=box)
    return True


def _uncovered(axes: Axes, asked: Sequence[float], first: float) -> None:
    """Demands that the sets cannot cover: a mark at the foot for each that is asked for, and all from the first on shaded."""
    if first < axes.get_xlim()[1]:
        axes.axvspan(first, axes.get_xlim()[1], zorder=1.5, gid="uncovered-span", **REFUSED_FILL)
    if asked:
        axes.plot(asked, [0.015] * len(asked), transform=axes.get_xaxis_transform(), zorder=5, gid="uncovered", **NOT_MARK)


def _floors_legend(axes: Axes, expected: Decimal, uncovered: bool, said: bool) -> None:
    """Below the panel, in two columns."""
    from matplotlib.lines import Line2D
    from matplotlib.patches import Patch

    entries: list[tuple[Any, str]] = [
        (Line2D([], [], **COST_MARK), "cost of a demand's own dispatch; a plan may cost less"),
        (Line2D([], [], **BOUND_MARK), "its own bound: cost less gap"),
        (Line2D([], [], **DASHED), f"expected demand: {shown(expected)} MW"),
        (Line2D([], [], **BOUND_LINE), "bound by the one search at the expected demand"),
    ]
    if not said:
        entries.append((Patch(facecolor=BOUND), NOBODY))
    if uncovered:
        entries.append((Line2D([], [], **NOT_MARK), "these sets cannot cover it"))
    legend(axes, entries, 2, loc="upper left", bbox_to_anchor=(0, -0.125))
