"""The best outputs that there are, by trying all: what the table of floors in docs/PLANNER.md stands beside."""

import itertools
import struct


def units_of(case):
    """(cost, net) of each permitted output of each unit, by sections 2 and 5 to 7 of docs/SPECIFICATION.md, for a file of edition 1."""
    edition, count = struct.unpack_from(">HH", case)
    assert edition == 1
    for unit in range(count):
        (offset,) = struct.unpack_from(">H", case, 8 + 4 * unit)
        c0, c1, c2, b, least, greatest, previous, up, down, must_run, zones = struct.unpack_from(">IIHHHHHHHHH", case, offset)
        edges = struct.unpack_from(">%dH" % (2 * zones), case, offset + 26)
        inside = lambda p: any(low < p < high for low, high in zip(edges[::2], edges[1::2]))
        reached = lambda p: previous == 0 or previous - down <= p <= previous + up
        running = [p for p in range(least, greatest + 1) if reached(p) and not inside(p)]
        standing = [] if must_run else [(0, 0)]
        yield standing + [(c0 + c1 * p + c2 * p * p, 100_000_000 * p - b * p * p) for p in running]


def best_costs(case, demands):
    """The least cost that covers each demand, over all allocations: all pairs of two units with all pairs of the others, by their net."""
    units = list(units_of(case))
    halves = [units[::2], units[1::2]]
    sums = [sorted((sum(n for _, n in ps), sum(c for c, _ in ps)) for ps in itertools.product(*half)) for half in halves]
    # the least cost from each place of the second list on, which is sorted by net
    least_behind = list(itertools.accumulate((cost for _, cost in reversed(sums[1])), min))[::-1]
    for demand in demands:
        best = None
        place = len(sums[1])
        for net, cost in sums[0]:
            while place > 0 and sums[1][place - 1][0] + net >= 100_000_000 * demand:
                place -= 1
            if place < len(sums[1]) and (best is None or cost + least_behind[place] < best):
                best = cost + least_behind[place]
        yield best
