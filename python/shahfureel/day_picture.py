"""The picture of a day: outputs stacked by set, the demand as a line, ramps and refused slots marked, and the gap of each slot below."""

from __future__ import annotations

from decimal import Decimal
from typing import TYPE_CHECKING, Any, Iterator, Sequence

from . import answers
from .answers import Answer, PlannedDay
from .drawing import DASHED, INK, PANEL, REFUSED_FILL, REFUSED_INK, NoPicture, beside, counted, darker, legend, literal, written
from .site import Site

if TYPE_CHECKING:
    from matplotlib.axes import Axes
    from matplotlib.figure import Figure

TIMES_SHOWN = 12
SLOTS_MANY = 192
POLYGON_MAX = 480  # slots of one polygon: matplotlib cannot fill one with too many corners
NAME_MAX, TIME_MAX = 24, 16

# Colours that colour-blind people can tell apart: Okabe and Ito's, with a lighter blue and a light grey. Of every second one, 0 2 4 6 and
# 1 3 5 7, the greys of a print are far apart: those come to have the same hatch.
COLOURS = ("#88CCEE", "#E69F00", "#009E73", "#F0E442", "#DDDDDD", "#0072B2", "#CC79A7", "#D55E00")
HATCHES = ("", "//", "--", "\\\\", "||", "..", "xx", "oo")
SOME_GAP, GREAT_GAP = "#9DB7CE", "#D55E00"


def day(planned: PlannedDay, site: Site, path: str, inputs: Sequence[str], how: str = "dispatched") -> list[str]:
    """Draws a day into a file, never one of the inputs; says what could not be drawn as it should. `how` its outputs were found."""
    if not planned.slots:
        raise NoPicture(f"{path}: a day without slots has no picture")
    return written(path, inputs, lambda: _day(planned, site, how))


def moves(planned: PlannedDay, site: Site) -> Iterator[tuple[int, int, int]]:
    """Slot, set, and 1 or -1: where a set that ran before rises or falls by all that up or down lets it."""
    before = [one.previous for one in site.sets]
    for k, slot in enumerate(planned.slots):
        if slot.answer is None:
            continue
        now = [slot.answer.outputs[name] for name in site.names]
        for i, (one, last, mw) in enumerate(zip(site.sets, before, now)):
            if last and mw and one.up and mw == last + one.up:
                yield k, i, 1
            elif last and mw and one.down and mw == last - one.down:
                yield k, i, -1
        before = now


def fill(place: int) -> dict[str, Any]:
    """The colour and hatch of a set: no two of 32 have both alike, and neighbours neither."""
    turn, column = divmod(place, len(COLOURS))
    colour, hatch = COLOURS[column], HATCHES[(column + 2 * turn) % len(HATCHES)]
    return {"facecolor": colour, "edgecolor": darker(colour), "hatch": hatch}


def _width(slots: int) -> float:
    return PANEL * min(2.0, max(1.0, slots / SLOTS_MANY))


def _runs(marks: Sequence[bool], most: int | None = None) -> Iterator[tuple[int, int]]:
    """The first and the one behind the last of each run of marked slots."""
    first = None
    for k, mark in enumerate([*marks, False]):
        if first is not None and (not mark or k - first == most):
            yield first, k
            first = None
        if mark and first is None:
            first = k


def _steps(first: int, levels: Sequence[float]) -> list[tuple[float, float]]:
    """The corners of levels that hold for a slot each."""
    corners: list[tuple[float, float]] = []
    for k, level in enumerate(levels, first):
        if corners and corners[-1][1] == level:
            corners[-1] = (k + 1, level)
        else:
            corners += [(k, level), (k + 1, level)]
    return corners


def _stacks(planned: PlannedDay, site: Site) -> list[list[float]]:
    """For each slot the sums of the first 0, 1, 2 ... sets' outputs; of a refused one all are 0."""
    found = []
    for slot in planned.slots:
        sums = [Decimal(0)]
        for name in site.names:
            sums.append(sums[-1] + (slot.answer.outputs[name] if slot.answer else 0))
        found.append([float(mw) for mw in sums])
    return found


def _day(planned: PlannedDay, site: Site, how: str) -> Figure:
    slots, stacks = planned.slots, _stacks(planned, site)
    refused = [slot.answer is None for slot in slots]
    entries = _day_entries(planned, site, any(refused))
    columns = 1 if len(entries) <= 20 else 2
    high = max(4.0, 0.235 * -(-len(entries) // columns), 0.17 * len(site.sets))
    upper, lower = _panels(_width(len(slots)), high)
    most = max([*(float(slot.demand) for slot in slots), *(sums[-1] for sums in stacks)])
    above = 0.74 / high if any(refused) else 0.05  # room for the word that marks them
    upper.set_ylim(0, most / (1 - above) or 1)
    upper.set_xlim(0, len(slots))
    _bands(upper, stacks, len(site.sets))
    _demand(upper, [float(slot.demand) for slot in slots])
    _ramps(upper, stacks, list(moves(planned, site)))
    left_out = f", {sum(refused)} refused" if any(refused) else ""
    upper.set_title(f"Outputs of {counted(len(site.sets), 'set')} in {counted(len(slots), 'slot')}, {how}{left_out}")
    upper.set_ylabel("outputs, one upon another, MW")
    legend(upper, entries, columns, loc="upper left", bbox_to_anchor=beside(upper))
    _gaps(lower, [slot.answer for slot in slots])
    _refused(upper, lower, refused)
    _times(lower, [slot.time for slot in slots])
    return upper.figure


def _panels(width: float, high: float) -> tuple[Axes, Axes]:
    """Two panels, one above the other, of which the lower has the times; in inches."""
    from matplotlib.figure import Figure

    low, between = 1.7, 0.22
    total = high + low + between
    figure = Figure(figsize=(width, total))
    upper = figure.add_axes((0, (low + between) / total, 1, high / total))
    upper.tick_params(labelbottom=False)
    return upper, figure.add_axes((0, 0, 1, low / total), sharex=upper)


def _day_entries(planned: PlannedDay, site: Site, refused: bool) -> list[tuple[Any, str]]:
    """The legend: the demand, the sets as they lie upon each other, and what is marked."""
    from matplotlib.lines import Line2D
    from matplotlib.patches import Patch

    solved = [slot.answer for slot in planned.slots if slot.answer is not None]
    entries: list[tuple[Any, str]] = [(Line2D([], [], color=INK, linewidth=2), "demand (above: losses, surplus)")]
    for i, name in reversed(list(enumerate(site.names))):
        never = ", never runs" if solved and not any(answer.outputs[name] for answer in solved) else ""
        entries.append((Patch(linewidth=0.5, **fill(i)), literal(name, NAME_MAX) + never))
    directions = {direction for _, _, direction in moves(planned, site)}
    for direction, words in ((1, "rose by its ramp limit"), (-1, "fell by its ramp limit")):
        if direction in directions:
            entries.append((Line2D([], [], **_mark(direction, 7)), words))
    if refused:
        entries.append((Patch(**REFUSED_FILL), "refused: not covered"))
    return entries


def _bands(axes: Axes, stacks: Sequence[Sequence[float]], sets: int) -> None:
    from matplotlib.collections import PolyCollection

    edge = 0.5 if len(stacks) <= SLOTS_MANY else 0
    for i in range(sets):
        polygons = []
        for first, end in _runs([sums[i + 1] > sums[i] for sums in stacks], POLYGON_MAX):
            part = stacks[first:end]
            polygons.append(_steps(first, [sums[i + 1] for sums in part]) + _steps(first, [sums[i] for sums in part])[::-1])
        axes.add_collection(PolyCollection(polygons, gid=f"set-{i + 1}", zorder=2, linewidth=edge, **fill(i)), autolim=False)


def _demand(axes: Axes, demands: Sequence[float]) -> None:
    from matplotlib.patheffects import Normal, Stroke

    corners = _steps(0, demands)
    wide = 2.0 if len(demands) <= 48 else 1.5 if len(demands) <= SLOTS_MANY else 0.9
    halo = [Stroke(linewidth=2 * wide, foreground="white"), Normal()]
    axes.plot(*zip(*corners), color=INK, linewidth=wide, zorder=4, gid="demand", path_effects=halo, clip_on=False, solid_joinstyle="miter")


def _mark(direction: int, size: float) -> dict[str, Any]:
    shape = "^" if direction > 0 else "v"
    return {"linestyle": "none", "marker": shape, "markersize": size, "markerfacecolor": "white", "markeredgecolor": INK}


def _ramps(axes: Axes, stacks: Sequence[Sequence[float]], found: Sequence[tuple[int, int, int]]) -> None:
    """A triangle in the middle of the set's band."""
    size = min(7.0, max(3.0, 60 * _width(len(stacks)) / len(stacks)))
    for direction, name in ((1, "rises"), (-1, "falls")):
        places = [(k + 0.5, (stacks[k][i] + stacks[k][i + 1]) / 2) for k, i, way in found if way == direction]
        if places:
            axes.plot(*zip(*places), gid=name, zorder=5, clip_on=False, **_mark(direction, size))


def _gaps(axes: Axes, solved: Sequence[Answer | None]) -> None:
    """The gap of each slot as a bar, and a line at 5 %."""
    from matplotlib.collections import PolyCollection
    from matplotlib.lines import Line2D
    from matplotlib.patches import Patch

    edge, side = (0.4, 0.1) if len(solved) <= SLOTS_MANY else (0, 0)
    kinds = {
        False: ("gaps", "up to 5 %", {"facecolor": SOME_GAP, "edgecolor": darker(SOME_GAP), "linewidth": edge}),
        True: ("great-gaps", "above 5 %", {"facecolor": GREAT_GAP, "edgecolor": darker(GREAT_GAP), "linewidth": edge, "hatch": "////"}),
    }
    limit = answers.GAP_PERCENT
    most = max([float(answer.gap_percent) for answer in solved if answer is not None], default=0)
    axes.set_ylim(0, max(1.3 * limit, 1.08 * most))
    for great, (name, _, look) in kinds.items():
        bars = [(k, float(answer.gap_percent)) for k, answer in enumerate(solved) if answer is not None and answer.great_gap == great]
        corners = [[(k + side, 0), (k + side, gap), (k + 1 - side, gap), (k + 1 - side, 0)] for k, gap in bars]
        axes.add_collection(PolyCollection(corners, gid=name, zorder=2, **look), autolim=False)
    axes.axhline(limit, zorder=3, gid="five-percent", **DASHED)
    if most < limit / 50 and any(solved):
        axes.text(0.5, 0.35, f"every gap is at most {most:.2f} %", transform=axes.transAxes, ha="center", gid="small-gaps")
    axes.set_ylabel("gap, % of the cost:\nat most so much\nabove the best")
    entries: list[tuple[Any, str]] = [(Patch(**look), f"gap {words}") for _, words, look in reversed(list(kinds.values()))]
    entries.append((Line2D([], [], **DASHED), f"{limit} %"))
    legend(axes, entries, 1, loc="upper left", bbox_to_anchor=beside(axes))


def _refused(upper: Axes, lower: Axes, refused: Sequence[bool]) -> None:
    """Refused slots shaded in both panels, with the word where there is room."""
    room = len(refused) / _width(len(refused))  # slots to an inch
    last = -room
    for number, (first, end) in enumerate(_runs(refused), 1):
        for axes, name in ((upper, "refused"), (lower, "refused-gap")):
            axes.axvspan(first, end, zorder=1, gid=f"{name}-{number}", **REFUSED_FILL)
        middle, flat = (first + end) / 2, end - first > 0.9 * room
        if middle - last >= 0.2 * room:
            box = {"facecolor": "white", "edgecolor": "none", "alpha": 0.85, "boxstyle": "square,pad=0.15"}
            upper.text(middle, 0.985, "refused", rotation=0 if flat else 90, ha="center", va="top", color=REFUSED_INK, zorder=6, bbox=box,
                       transform=upper.get_xaxis_transform())
            last = middle + (0.4 * room if flat else 0)


def _times(axes: Axes, times: Sequence[str]) -> None:
    """At most a dozen of the times, each below the middle of its slot."""
    apart = -(-len(times) // TIMES_SHOWN)
    apart = next((even for even in (1, 2, 3, 4, 6, 8, 12, 16, 24, 32, 48, 96) if even >= apart), apart)
    places = range(0, len(times), apart)
    labels = [literal(times[k], TIME_MAX) for k in places]
    tight = 0.1 * max(map(len, labels)) > 0.9 * _width(len(times)) * apart / len(times)
    axes.set_xticks([k + 0.5 for k in places])
    axes.set_xticklabels(labels, **({"rotation": 30, "ha": "right", "rotation_mode": "anchor"} if tight else {}))
    axes.set_xlabel("time")
