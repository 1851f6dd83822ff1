#!/usr/bin/env python3
"""Whether the best costs that examples/treatment.md and examples/pipelines.md tell are the best: `best_costs.py [POOL]`

Nothing of the program and of tools/ is used for it. The best cost is closed in by boxes of proportions, in exact fractions. In a box each feed
has a least and a greatest part of its pool, and what flows along a path lies between these parts of what flows along its out. With no other rule of
mixing that is a linear program in the flows along paths and directs, solved here by the simplex method: no plan of the box costs less. Where
both parts are the same number it is the plan of least cost at these proportions. Boxes are halved, the least one first, until no plan can be
cheaper by more than GAP than that of the page, whose cost is worked out at the proportions that stand here. Where POOL is given, what it prints
with that gap is compared too. Prints what differs, and how many boxes there were.
"""

import heapq
import json
import subprocess
import sys
from fractions import Fraction
from itertools import count
from pathlib import Path

TOP = Path(__file__).resolve().parent.parent
GAP = Fraction(1, 100)
PICOS = 10**12

# The best cost, the proportions of the feeds at which it is had, and whether maxima of arcs are left out.
PAGES = [
    ("treatment", False, Fraction(-87, 2), ["1/2", "1/2", "0", "1", "0"]),
    ("pipelines", False, Fraction(-15988, 25), ["7/75", "68/75", "2/5", "3/5"]),
    ("pipelines", True, Fraction(-26252, 29), ["0", "1", "1/4", "3/4"]),
]


def quantity(value):
    return Fraction(str(value))


class Arc:
    def __init__(self, row, open_ends):
        row = dict(zip(("from", "to"), row)) if isinstance(row, list) else row
        self.ends = row["from"], row["to"]
        self.cost = quantity(row.get("cost", 0))
        self.most = None if open_ends or "max" not in row else quantity(row["max"])


class Network:
    """A network without minima and without least qualities, as the examples are."""

    def __init__(self, text, open_ends=False):
        value = json.loads(text, parse_float=Fraction)
        self.qualities = value["qualities"]
        self.sources, self.pools, self.products = ({row["name"]: row for row in value[part]} for part in ("sources", "pools", "products"))
        arcs = [Arc(row, open_ends) for row in value["arcs"]]
        self.feeds = [arc for arc in arcs if arc.ends[0] in self.sources and arc.ends[1] in self.pools]
        self.outs = [arc for arc in arcs if arc.ends[0] in self.pools]
        self.directs = [arc for arc in arcs if arc.ends[0] in self.sources and arc.ends[1] in self.products]
        self.ways = [(feed, out) for out in self.outs for feed in self.feeds if feed.ends[1] == out.ends[0]] + [(arc,) for arc in self.directs]

    def brings(self, way, quality):
        """What a unit along a way brings of a quality: all that its source has, or what the pool leaves of it."""
        own = quantity(self.sources[way[0].ends[0]].get("quality", {}).get(quality, 0))
        ratio = self.pools[way[0].ends[1]].get("ratio", {}).get(quality, 1000) if len(way) == 2 else 1000
        return own * ratio / 1000

    def costs(self):
        """What a unit along each way costs, less what its product pays."""
        cost = {name: quantity(row.get("cost", 0)) for name, row in self.sources.items()}
        price = {name: quantity(row.get("price", 0)) for name, row in self.products.items()}
        return [cost[way[0].ends[0]] + sum(arc.cost for arc in way) - price[way[-1].ends[1]] for way in self.ways]

    def maxima(self):
        """The rows `sum of flows <= maximum` of nodes and of arcs."""
        for nodes in (self.sources, self.pools, self.products):
            for name, row in nodes.items():
                if "max" in row:
                    through = [at for at, way in enumerate(self.ways) if any(name in arc.ends for arc in way)]
                    yield dict.fromkeys(through, 1), quantity(row["max"])
        for arc in self.feeds + self.outs + self.directs:
            if arc.most is not None:
                yield {at: 1 for at, way in enumerate(self.ways) if arc in way}, arc.most

    def limits(self):
        """The rows `sum of (quality - most) * flow <= 0`."""
        for name, row in self.products.items():
            for quality, most in row.get("most", {}).items():
                yield {at: self.brings(way, quality) - quantity(most) for at, way in enumerate(self.ways) if way[-1].ends[1] == name}, 0

    def parts(self, low, high):
        """What flows along a path is at least the least part of its feed, and at most the greatest, of what flows along its out."""
        for at, way in enumerate(self.ways):
            if len(way) == 2:
                same = [other for other, it in enumerate(self.ways) if it[-1] is way[1]]
                part = self.feeds.index(way[0])
                yield {other: int(other == at) - high[part] for other in same}, 0
                yield {other: low[part] - int(other == at) for other in same}, 0

    def least_cost(self, low, high):
        return simplex(self.costs(), [*self.maxima(), *self.limits(), *self.parts(low, high)])


def simplex(costs, rows):
    """The least cost of numbers from 0 on that keep all rows `sum of coefficient * number <= constant`, whose constants are from 0 on, and
    these numbers. What enters is the first column that gains, and at a tie the first one leaves, so it ends."""
    width, height = len(costs), len(rows)
    table = [[Fraction(terms.get(at, 0)) for at in range(width)] + [Fraction(row == at) for at in range(height)] + [Fraction(constant)] for row, (terms, constant) in enumerate(rows)]
    table.append([*map(Fraction, costs)] + [Fraction(0)] * (height + 1))
    basis = list(range(width, width + height))
    while (enters := next((at for at in range(width + height) if table[-1][at] < 0), None)) is not None:
        leaves = min((table[row][-1] / table[row][enters], basis[row], row) for row in range(height) if table[row][enters] > 0)[2]
        pivot = table[leaves][enters]
        table[leaves] = [number / pivot for number in table[leaves]]
        filled = [at for at, number in enumerate(table[leaves]) if number]
        for row in table:
            if row is not table[leaves] and (times := row[enters]):
                for at in filled:
                    row[at] -= times * table[leaves][at]
        basis[leaves] = enters
    flows = [Fraction(0)] * width
    for row, at in enumerate(basis):
        if at < width:
            flows[at] = table[row][-1]
    return -table[-1][-1], flows


def halves(net, low, high, flows):
    """The two halves of a box, cut where the flows stray most from one mixture in each pool."""
    sent = {out: sum(flow for way, flow in zip(net.ways, flows) if way[-1] is out) for out in net.outs}
    fed = {feed: sum(flow for way, flow in zip(net.ways, flows) if way[0] is feed and len(way) == 2) for feed in net.feeds}
    strays = []
    for part, feed in enumerate(net.feeds):
        outs = [out for out in net.outs if out.ends[0] == feed.ends[1]]
        total = sum(sent[out] for out in outs) or 1
        along = {way[1]: flow for way, flow in zip(net.ways, flows) if way[0] is feed and len(way) == 2}
        strays.append((sum(abs(along[out] - fed[feed] / total * sent[out]) for out in outs), high[part] - low[part], part))
    at = max(strays)[2]
    middle = (low[at] + high[at]) / 2
    yield [*low], [*high[:at], middle, *high[at + 1 :]]
    yield [*low[:at], middle, *low[at + 1 :]], [*high]


def narrowed(net, low, high):
    """The box without what can't be, since the parts of a pool sum to 1; None where nothing is left."""
    for part, feed in enumerate(net.feeds):
        others = [at for at, other in enumerate(net.feeds) if other.ends[1] == feed.ends[1] and at != part]
        low[part] = max(low[part], 1 - sum(high[at] for at in others))
        high[part] = min(high[part], 1 - sum(low[at] for at in others))
    return None if any(least > most for least, most in zip(low, high)) else (low, high)


def close_in(net, target):
    """What no plan costs less than, once that is the target or more, and how many boxes that took."""
    start = [Fraction(0)] * len(net.feeds), [Fraction(1)] * len(net.feeds)
    numbers = count(1)
    heap = [(*first, 0, start) for first in [net.least_cost(*start)]]
    heap = [(bound, number, flows, box) for bound, flows, number, box in heap]
    while heap and heap[0][0] < target:
        _, _, flows, box = heapq.heappop(heap)
        for half in halves(net, *box, flows):
            if half := narrowed(net, *half):
                bound, flows_ = net.least_cost(*half)
                heapq.heappush(heap, (bound, next(numbers), flows_, half))
    return min((entry[0] for entry in heap), default=target), next(numbers)


def solved(pool, path):
    """The cost and the bound that the program prints."""
    text = subprocess.run([pool, "solve", "--form", "pq", "--rule", "violated", "--gap", str(float(GAP)), path], capture_output=True, text=True, check=True).stdout
    lines = dict(line.split(" ", 1) for line in text.splitlines() if line.startswith(("cost ", "bound ")))
    cost, base = map(int, lines["cost"].split())
    return Fraction(cost, base * PICOS), Fraction(int(lines["bound"]), PICOS)


def differences(pool):
    for name, open_ends, best, parts in PAGES:
        path = TOP / "examples" / f"{name}.json"
        net = Network(path.read_text(), open_ends)
        label = f"{name} without maxima of arcs" if open_ends else name
        proportions = [Fraction(part) for part in parts]
        if (cost := net.least_cost(proportions, proportions)[0]) != best:
            yield f"{label}: the plan costs {cost}, not {best}"
        bound, boxes = close_in(net, best - GAP)
        print(f"{label}: {float(best):.6f}, at least {float(bound):.6f}, {boxes} boxes", flush=True)
        if pool and not open_ends:
            cost, below = solved(pool, path)
            if not (best <= cost <= best + GAP and best - GAP <= below <= best):
                yield f"{label}: the program prints a cost of {cost} and a bound of {below}"


def main(*words):
    differ = list(differences(words[0] if words else None))
    print(*differ, sep="\n", end="\n" if differ else "")
    print(f"{len(PAGES)} networks, {len(differ)} differ")
    return 1 if differ else 0


if __name__ == "__main__":
    sys.exit(main(*sys.argv[1:]))
