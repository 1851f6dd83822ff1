"""Rows, multipliers and trees, as docs/FORMATS.md has them: what a certificate's tree shows of a network. `pooling.py` stands on this
file and hands on what is here; whoever writes a tool imports that."""

import collections
from array import array
from dataclasses import dataclass, field

GRAIN, MAX_SPLITS, MAX_WEIGHT = 2**20, 200_000, 2**126


class Fault(Exception):
    """What is wrong with a certificate or an entry of a journal; the argument is its cause as `pool check` tells it."""


def refuse(fault, why):
    if fault:
        raise Fault(why)


# ---- the rows


def capped(arc, *amounts):
    """The least of these amounts and of the maximum of the arc, if it has one."""
    return min(amounts) if arc.max is None else min(arc.max, *amounts)


class Rows:
    """The rows of docs/FORMATS.md of a network, each with what it speaks of, and the root box.

    A row is whether it is *at least*, its constant, its terms (pairs of variable and coefficient), and its family with the
    numbers of what it stands for. An envelope has its side for a constant, and its scale, a, b and f with the coordinates of
    a and b for terms."""

    def __init__(self, net):
        self.net = net
        nf, no, nd, nk, na = len(net.feeds), len(net.outs), len(net.directs), len(net.qualities), len(net.paths)
        self.x, self.y, self.z, self.w, self.Q = 0, nf, nf + no, nf + no + nd, nf + no + nd + na
        self.p, self.v = self.Q + nf, self.Q + nf + len(net.pools) * nk
        contents = [[net.sources[s].quality[k] for s, end in net.feeds if end == l] for l in range(len(net.pools)) for k in range(nk)]
        self.first_quality, self.first_out = nf, nf + len(contents)
        self.low = [0] * nf + [min(part) for part in contents] + [0] * no
        self.high = [GRAIN] * nf + [max(part) for part in contents]
        self.high += [capped(arc, net.pools[l].max, net.products[j].max) for arc, (l, j) in zip(net.out_arcs, net.outs)]
        self.ends_of = self.variables(nk)
        cost, price = [source.cost for source in net.sources], [product.price for product in net.products]
        bought_and_sold = [cost[s] for s, _ in net.feeds] + [-price[j] for _, j in net.outs] + [cost[s] - price[j] for s, j in net.directs]
        self.costs = [arc.cost + amount for arc, amount in zip(net.arcs, bought_and_sold)]
        self.rows = [row for family in (self.network_rows, self.quality_rows, self.proportion_rows, self.further_rows) for row in family()]

    def variables(self, nk):
        """How the ends of each variable come of a box: a pair of ends, a coordinate, a path's, or a product's."""
        net, out = self.net, self.first_out
        found = [(0, capped(arc, net.sources[s].max, net.pools[l].max)) for arc, (s, l) in zip(net.feed_arcs, net.feeds)] + [out + o for o in range(len(net.outs))]
        found += [(0, capped(arc, net.sources[s].max, net.products[j].max)) for arc, (s, j) in zip(net.direct_arcs, net.directs)]
        found += [("path", capped(net.feed_arcs[e], net.sources[net.feeds[e][0]].max), out + o) for e, o in net.paths]
        found += list(range(self.first_out))
        return found + [("product", self.first_quality + l * nk + k, out + o) for o, (l, _) in enumerate(net.outs) for k in range(nk)]

    def ends(self, variable, low, high):
        rule = self.ends_of[variable]
        if isinstance(rule, int):
            return low[rule], high[rule]
        if len(rule) == 2:
            return rule
        kind, a, b = rule
        if kind == "path":
            return 0, min(a, high[b])
        products = (low[a] * low[b], low[a] * high[b], high[a] * low[b], high[a] * high[b])
        return min(products), max(products)

    def network_rows(self):
        net, x, y, z = self.net, self.x, self.y, self.z
        outs_of = lambda l, factor: [(y + o, factor) for o, (start, _) in enumerate(net.outs) if start == l]
        into = lambda j, factor: ([(y + o, factor) for o, (_, end) in enumerate(net.outs) if end == j]
                                  + [(z + d, factor) for d, (_, end) in enumerate(net.directs) if end == j])
        for s, source in enumerate(net.sources):
            terms = [(x + e, -1) for e, (start, _) in enumerate(net.feeds) if start == s]
            yield True, source.max, terms + [(z + d, -1) for d, (start, _) in enumerate(net.directs) if start == s], ("source", s)
        for l in range(len(net.pools)):
            yield False, 0, [(x + e, 1) for e, (_, end) in enumerate(net.feeds) if end == l] + outs_of(l, -1), ("balance", l)
        for l, pool in enumerate(net.pools):
            yield True, pool.max, outs_of(l, -1), ("pool", l)
        for j, product in enumerate(net.products):
            yield True, product.max, into(j, -1), ("maximum", j)
        for j, product in enumerate(net.products):
            yield True, -product.min, into(j, 1), ("minimum", j)

    def limit_row(self, sign, j, k, limit, carried):
        """The row of a most, or of a least with all signs turned; `carried` is what brings quality through pools, in parts of the scale."""
        net, scale = self.net, self.net.scale
        terms = [(self.y + o, sign * scale * limit) for o, (_, end) in enumerate(net.outs) if end == j] + [(f, -sign * a) for f, a in carried]
        terms += [(self.z + d, sign * scale * (limit - net.sources[s].quality[k])) for d, (s, end) in enumerate(net.directs) if end == j]
        return True, 0, terms, ("most" if sign > 0 else "least", j, k)

    def envelope(self, scale, a, b, f, name):
        """The four sides; the coordinates of a and b are those of their variables."""
        for side in (1, 2, 3, 4):
            yield True, side, (scale, a, self.ends_of[a], b, self.ends_of[b], f), name

    def quality_rows(self):
        net, nk = self.net, len(self.net.qualities)
        for l in range(len(net.pools)):
            for k in range(nk):
                terms = [(self.x + e, net.sources[s].quality[k]) for e, (s, end) in enumerate(net.feeds) if end == l]
                yield False, 0, terms + [(self.v + o * nk + k, -1) for o, (start, _) in enumerate(net.outs) if start == l], ("mixing", l, k)
        for sign, j, k, limit in net.limits():
            yield self.limit_row(sign, j, k, limit, [(self.v + o * nk + k, net.retained[l][k]) for o, (l, end) in enumerate(net.outs) if end == j])
        for o, (l, _) in enumerate(net.outs):
            for k in range(nk):
                yield from self.envelope(1, self.p + l * nk + k, self.y + o, self.v + o * nk + k, ("envelope", "p", l, k))

    def proportion_rows(self):
        net = self.net
        for l in range(len(net.pools)):
            yield False, -GRAIN, [(self.Q + e, 1) for e, (_, end) in enumerate(net.feeds) if end == l], ("proportions", l)
        for e in range(len(net.feeds)):
            yield False, 0, [(self.x + e, 1)] + self.along(e, -1), ("feed", e)
        for sign, j, k, limit in net.limits():
            carried = [(self.w + a, net.retained[net.outs[o][0]][k] * net.sources[net.feeds[e][0]].quality[k]) for a, (e, o) in enumerate(net.paths) if net.outs[o][1] == j]
            yield self.limit_row(sign, j, k, limit, carried)
        for a, (e, o) in enumerate(net.paths):
            yield from self.envelope(GRAIN, self.Q + e, self.y + o, self.w + a, ("envelope", "Q", e))

    def along(self, e, factor):
        """The flows along the paths of a feed."""
        return [(self.w + a, factor) for a, (feed, _) in enumerate(self.net.paths) if feed == e]

    def further_rows(self):
        net = self.net
        for o in range(len(net.outs)):
            yield False, 0, [(self.w + a, 1) for a, (_, out) in enumerate(net.paths) if out == o] + [(self.y + o, -1)], ("out", o)
        for e, (_, l) in enumerate(net.feeds):
            yield True, 0, [(self.Q + e, net.pools[l].max)] + self.along(e, -GRAIN), ("pool", l)

    def in_box(self, number, low, high):
        """The constant and the terms of a row in a box."""
        _, constant, terms, _ = self.rows[number]
        if isinstance(terms, list):
            return constant, terms
        scale, a, at_a, b, at_b, f = terms
        a_end = high[at_a] if constant in (2, 3) else low[at_a]
        b_end = high[at_b] if constant in (2, 4) else low[at_b]
        sign = 1 if constant < 3 else -1
        return sign * a_end * b_end, [(f, sign * scale), (a, -sign * b_end), (b, -sign * a_end)]

    def reach_bound(self):
        net, best = self.net, [0] * len(self.net.products)
        ways = [(s, j, arc.cost) for arc, (s, j) in zip(net.direct_arcs, net.directs)]
        ways += [(net.feeds[e][0], net.outs[o][1], net.feed_arcs[e].cost + net.out_arcs[o].cost) for e, o in net.paths]
        for s, j, carriage in ways:
            best[j] = max(best[j], net.products[j].price - net.sources[s].cost - carriage)
        return -sum(margin * product.max for margin, product in zip(best, net.products))


@dataclass
class Proof:
    """Multipliers on rows, over a scale; on a node of a tree."""

    node: int
    scale: int
    rows: array = field(default_factory=lambda: array("I"))
    multipliers: array = field(default_factory=lambda: array("q"))

    def in_order(self, rows, low, high):
        """What the proof shows in a box; raises its first fault."""
        pairs = list(zip(self.rows, self.multipliers))
        name = f"proof {self.node}"
        refuse(any(a >= b for a, b in zip(self.rows, self.rows[1:])), f"{name} 1")
        refuse(any(row >= len(rows.rows) for row in self.rows), f"{name} 2")
        refuse(any(m < 0 and rows.rows[row][0] for row, m in pairs), f"{name} 3")
        refuse(any(m == 0 for m in self.multipliers), f"{name} 4")
        shown = Shown(rows, self.scale, low, high)
        for row, m in pairs:
            shown.add(row, m)
        refuse(shown.weight() > MAX_WEIGHT, f"{name} 5")
        number = shown.number()
        refuse(self.scale == 0 and number <= 0, f"{name} 6")
        return None if self.scale == 0 else number // self.scale


class Shown:
    """What multipliers show in a box: rests, number and weight as docs/FORMATS.md has them."""

    def __init__(self, rows, scale, low, high):
        self.rows, self.scale, self.low, self.high = rows, scale, low, high
        self.rest = collections.defaultdict(int, {variable: scale * cost for variable, cost in enumerate(rows.costs)})
        self.size = collections.defaultdict(int, {variable: scale * abs(cost) for variable, cost in enumerate(rows.costs)})
        self.constant = self.constants = 0

    def add(self, row, m):
        constant, terms = self.rows.in_box(row, self.low, self.high)
        self.constant += m * constant
        self.constants += abs(m * constant)
        rest, size = self.rest, self.size
        for variable, a in terms:
            part = m * a
            rest[variable] -= part
            size[variable] += part if part > 0 else -part

    def number(self):
        total = -self.constant
        for variable, rest in self.rest.items():
            if rest:
                low, high = self.rows.ends(variable, self.low, self.high)
                total += rest * low if rest > 0 else rest * high
        return total

    def weight(self):
        total = self.constants
        for variable, size in self.size.items():
            low, high = self.rows.ends(variable, self.low, self.high)
            total += size * max(abs(low), abs(high))
        return total


# ---- trees


class Tree:
    """The splits of a tree over a network's root box. A split whose cut is not inside its box is in `wrong`, with the child
    that has all of the box; a walk goes into that child alone where the tree is to be mended, and else into none."""

    def __init__(self, rows, splits, mend=False):
        self.rows, self.splits, self.mend, self.wrong = rows, splits, mend, {}
        self.cut_by = {leaf: t for t, (leaf, _, _) in enumerate(splits)}

    @staticmethod
    def parent(splits, node):
        return splits[(node - 1) // 2][0]

    def box(self, node):
        """The ends of a node's box."""
        low, high, cut = list(self.rows.low), list(self.rows.high), set()
        while node:
            leaf, coord, value = self.splits[(node - 1) // 2]
            ends = high if node % 2 else low
            if (node % 2, coord) not in cut:
                cut.add((node % 2, coord))
                ends[coord] = value
            node = leaf
        return low, high

    def walk(self):
        """Each node from the root down, with the ends of its box, which are changed from one node to the next."""
        low, high = list(self.rows.low), list(self.rows.high)
        stack = [(0, None, 0, 0)]
        while stack:
            node, ends, coord, value = stack.pop()
            if ends is not None:
                before, ends[coord] = ends[coord], value
                if node is None:
                    continue
                stack.append((None, ends, coord, before))
            yield node, low, high
            t = self.cut_by.get(node)
            if t is not None:
                stack += self.halves(t, low, high)

    def halves(self, t, low, high):
        _, coord, cut = self.splits[t]
        if low[coord] < cut < high[coord]:
            return [(2 * t + 2, low, coord, cut), (2 * t + 1, high, coord, cut)]
        self.wrong[t] = 2 * t + 1 if cut >= high[coord] else 2 * t + 2
        return [(self.wrong[t], None, 0, 0)] if self.mend else []


def new_leaf(splits, bound):
    """Judges what can be judged of splits without a box: the number of the first that is not in order, or of all."""
    cut = set()
    for t, (leaf, coord, _) in enumerate(splits):
        if t >= MAX_SPLITS or leaf > 2 * t or leaf in cut or coord >= bound:
            return t
        cut.add(leaf)
    return len(splits)


def tree_bounds(rows, splits, proofs):
    """The bound of each node, none where it holds no plan; raises the first fault of splits and proofs."""
    first = new_leaf(splits, len(rows.low))
    tree, of_node, bounds, faulty = Tree(rows, splits[:first]), {proof.node: proof for proof in proofs}, {}, {}
    last = -1
    order = next((line for line, proof in enumerate(proofs) if proof.node > 2 * len(splits) or (line and proof.node <= proofs[line - 1].node)), None)
    for node, low, high in tree.walk():
        bound = bounds[tree.parent(splits, node)] if node else rows.reach_bound()
        bounds[node] = bound
        if node in of_node and order is None and not tree.wrong:
            try:
                shown = of_node[node].in_order(rows, low, high)
                bounds[node] = None if shown is None or bound is None else max(bound, shown)
            except Fault as fault:
                faulty[node] = fault
    wrong = min([*tree.wrong, first])
    refuse(wrong < len(splits), f"split {wrong}")
    refuse(order is not None, f"place {order}")
    if faulty:
        raise faulty[min(faulty)]
    return bounds


def leaf_bound(splits, bounds):
    """The least bound of a leaf with the leaf's number, or nothing where no leaf holds a plan."""
    cut = {leaf for leaf, _, _ in splits}
    return min(((bound, node) for node, bound in bounds.items() if bound is not None and node not in cut), default=None)
