"""A model of dispatch and of the day, by sections 2, 5 to 11 and 21 of docs/SPECIFICATION.md, that shares nothing with the library: every
permitted output of every unit is priced at every price that the search tries."""

import struct

NET, PRICED = 100_000_000, 100_000


def units_of(case):
    """The units of a file of either edition that is not refused."""
    edition, count = struct.unpack_from(">HH", case)
    for unit in range(count):
        (offset,) = struct.unpack_from(">H", case, 8 + 4 * unit)
        names = ("c0", "c1", "c2", "b", "least", "greatest", "previous", "up", "down", "must_run", "zones")
        u = dict(zip(names, struct.unpack_from(">IIHHHHHHHHH", case, offset)))
        (u["b1"],) = struct.unpack_from(">i", case, offset + 26) if edition == 2 else (0,)
        edges = struct.unpack_from(">%dH" % (2 * u["zones"]), case, offset + (30 if edition == 2 else 26))
        u["zones"] = list(zip(edges[::2], edges[1::2]))
        yield u


def cost(u, p):
    return u["c0"] + u["c1"] * p + u["c2"] * p * p if p else 0


def net(u, p):
    return (NET - u["b1"]) * p - u["b"] * p * p


def permitted(u):
    """(output, cost, net) of each permitted output, ascending."""
    first, last = (u["previous"] - u["down"], u["previous"] + u["up"]) if u["previous"] else (0, 10_000)
    running = range(max(u["least"], first), min(u["greatest"], last) + 1)
    outputs = [] if u["must_run"] else [0]
    outputs += [p for p in running if not any(low < p < high for low, high in u["zones"])]
    return [(p, cost(u, p), net(u, p)) for p in outputs]


def dispatch(offers, demand):
    """The outputs that dispatch chooses among the permitted ones of each unit, their cost and the gap; or None where nothing covers."""
    target, floors = NET * demand, []
    total = lambda chosen, place: sum(output[place] for output in chosen)
    if not all(offers) or total([offer[-1] for offer in offers], 2) < target:
        return None

    def evaluate(m):
        """The choices at a multiplier, lowered where they cover; its floor is noted."""
        priced = [[PRICED * c - m * n for _, c, n in offer] for offer in offers]
        least = [min(values) for values in priced]
        tied = [[output for output, value in zip(offers[i], priced[i]) if value == least[i]] for i in range(len(offers))]
        floors.append(-(-(sum(least) + m * target) // PRICED))
        chosen = [outputs[-1] for outputs in tied]
        for i, outputs in enumerate(tied):
            lower = chosen[:i] + outputs[:1] + chosen[i + 1:]
            chosen = lower if total(lower, 2) >= target else chosen
        return chosen

    best, low, high, m = [offer[-1] for offer in offers], 0, 65_536, 0
    while True:
        chosen = evaluate(m)
        covers = total(chosen, 2) >= target
        best = chosen if covers else best
        if (m == 0 and covers) or (m == 65_536 and not covers) or total(chosen, 2) == target:
            break
        low, high = (low, m) if covers else (m, high)
        if m == 0:
            m = 65_536
        elif high - low > 1:
            m = (low + high) // 2
        else:
            break
    return [p for p, _, _ in best], total(best, 1), total(best, 1) - max(floors)


def day(units, demands):
    """Of each slot the outputs, cost and gap, or None; then each unit's starts."""
    slots, starts = [], [0] * len(units)
    for demand in demands:
        slots.append(dispatch([permitted(u) for u in units], demand))
        for i, u in enumerate(units if slots[-1] else []):
            starts[i] += u["previous"] == 0 and slots[-1][0][i] > 0
            u["previous"] = slots[-1][0][i]
    return slots, starts


def money(millionths):
    return f"{millionths // 1_000_000}.{millionths % 1_000_000:06}"


def steps(number):
    return f"{number // 10}.{number % 10}"
