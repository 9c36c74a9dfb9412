"""A model of refining: every node is dispatched by model.py over the permitted outputs that it leaves each unit."""

import itertools

from model import dispatch, permitted


def regions(u):
    """The regions of a unit, lowest first, each as its outputs: standing, then what lies between neighbouring zones."""
    place = lambda output: sum(high <= output[0] for _, high in u["zones"]) if output[0] else -1
    return [list(outputs) for _, outputs in itertools.groupby(permitted(u), place)]


class Search:
    def __init__(self, units, demand, budget):
        self.demand, self.budget = demand, budget
        self.nodes, self.best, self.open = 0, None, []
        self.visit([regions(u) for u in units], 0)

    def visit(self, node, parent):
        """A node has a list of regions for each unit."""
        if self.nodes == self.budget:
            self.open.append(parent)
            return
        self.nodes += 1
        found = dispatch([sum(left, []) for left in node], self.demand)
        if found is None:
            return
        self.best = found if self.best is None or found[1] < self.best[1] else self.best
        floor = max(parent, found[1] - found[2])
        split = next((i for i, left in enumerate(node) if len(left) > 1), None)
        if split is None or floor >= self.best[1]:
            self.open.append(floor)
            return
        for part in (node[split][:1], node[split][1:]):
            self.visit(node[:split] + [part] + node[split + 1:], floor)

    def gap(self):
        return self.best[1] - min(self.open + [self.best[1]])
