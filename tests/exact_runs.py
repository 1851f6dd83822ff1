"""The marks of leaves once more, as docs/FORMATS.md has them: a run of fractions for each leaf's box, and the tight text of a certificate.

`tight_text(net, certificate, bounds, form, pivots)` writes the text that `pool tight` writes. It stands on the networks, rows and trees of
tools/pooling.py, and uses nothing of the program and nothing of the second checker. A fraction is a pair of numerator and denominator in
lowest terms. Where an operation is too wide for 128 bits the run notes that and goes on, so a run can be followed to its end."""

import sys
from dataclasses import dataclass, field
from math import gcd, lcm
from pathlib import Path

sys.dont_write_bytecode = True
sys.path.insert(0, str(Path(__file__).resolve().parent.parent / "tools"))
import pooling

WIDEST = 2**127 - 1  # of a numerator and of a denominator
ADD, SUB, MUL, DIV = 1, 2, 3, 4
ZERO, ONE = (0, 1), (1, 1)


# ---- fractions


def lowest(num, den):
    common = gcd(num, den)
    return (num // common, den // common) if den > 0 else (-num // common, -den // common)


def is_wide(operation, a, b):
    """Whether an operation on two fractions leaves 128 bits."""
    (n, m), (k, l) = a, b
    if operation in (ADD, SUB):
        common = gcd(m, l)
        parts = [n * (l // common), k * (m // common), m * (l // common)]
        return any(abs(part) > WIDEST for part in [*parts, parts[0] + (parts[1] if operation == ADD else -parts[1])])
    found = lowest(n * k, m * l) if operation == MUL else lowest(n * l, m * k)
    return max(abs(found[0]), found[1]) > WIDEST


class Arithmetic:
    """Operations on fractions, exact whatever their size; those that are too wide are noted, with the step in which they stood."""

    def __init__(self):
        self.wide, self.step = [], 0

    def note(self, operation, a, b):
        if is_wide(operation, a, b):
            self.wide.append((self.step, operation, a, b))

    def add(self, a, b):
        (n, m), (k, l) = a, b
        if m == l == 1:
            total, den = n + k, 1
        else:
            common = gcd(m, l)
            total, den = n * (l // common) + k * (m // common), m * (l // common)
        if max(abs(n) * l, abs(k) * m, m * l, abs(total)) > WIDEST:
            self.note(ADD, a, b)
        return lowest(total, den) if den != 1 else (total, 1)

    def sub(self, a, b):
        if is_wide(SUB, a, b):
            self.wide.append((self.step, SUB, a, b))
        return lowest(a[0] * b[1] - b[0] * a[1], a[1] * b[1])

    def mul(self, a, b):
        num, den = lowest(a[0] * b[0], a[1] * b[1])
        if max(abs(num), den) > WIDEST:
            self.note(MUL, a, b)
        return num, den

    def div(self, a, b):
        num, den = lowest(a[0] * b[1], a[1] * b[0])
        if max(abs(num), den) > WIDEST:
            self.note(DIV, a, b)
        return num, den


# ---- the program of a box, and its run


class Forms:
    """The rows of each form, by their numbers."""

    def __init__(self, rows):
        counts = [len(list(family())) for family in (rows.network_rows, rows.quality_rows, rows.proportion_rows, rows.further_rows)]
        n, p, q, pq = (list(range(sum(counts[:at]), sum(counts[: at + 1]))) for at in range(4))
        self.rows = {"p": n + p, "q": n + q, "pq": n + q + pq}


@dataclass
class End:
    """How a run ended: as `solved` or `empty`, or not within its pivots (`pivots`), or with an operation that is too wide (`wide`)."""

    kind: str
    steps: int
    values: list = None  # of the variables, where it is solved
    multipliers: dict = field(default_factory=dict)  # by row
    wide: list = field(default_factory=list)  # operations, each with its step


class Run:
    """The run of a box: columns are the variables in number order, then one for each row of the form."""

    def __init__(self, rows, form, low, high):
        self.numbers = Forms(rows).rows[form]
        self.variables = len(rows.ends_of)
        sides = [rows.ends(variable, low, high) for variable in range(self.variables)]
        self.ends = [*sides, *((0, None if rows.rows[number][0] else 0) for number in self.numbers)]
        costs = rows.costs + [0] * (self.variables - len(rows.costs))
        self.cost = {column: (cost, 1) for column, cost in enumerate(costs) if cost}
        self.stands = {column: side[0] if costs[column] >= 0 else side[1] for column, side in enumerate(sides)}  # at which end
        self.at_low = {column: costs[column] >= 0 for column in self.stands}
        self.factors, self.values = {}, {}
        for place, number in enumerate(self.numbers):
            constant, terms = rows.in_box(number, low, high)
            column = self.variables + place
            self.factors[column] = {variable: (a, 1) for variable, a in terms if a}
            self.values[column] = (constant + sum(a * self.stands[variable] for variable, a in terms), 1)
        self.do = Arithmetic()

    def passed(self, column):
        """The end that a basic column's value is outside of, or nothing."""
        (low, high), (num, den) = self.ends[column], self.values[column]
        if num < low * den:
            return low
        return high if high is not None and num > high * den else None

    def leaving(self):
        """The first basic column whose value is outside its ends, and the end that it passed."""
        return next(((column, end) for column in sorted(self.values) for end in [self.passed(column)] if end is not None), (None, None))

    def candidates(self, column, end):
        below = self.values[column][0] < end * self.values[column][1]
        for j, (num, _) in sorted(self.factors[column].items()):
            if self.ends[j][0] != self.ends[j][1] and (num > 0) == (below == self.at_low[j]):
                yield j

    def go(self, pivots, stop=True):
        """Runs to the end; with `stop` no further than the step in which an operation is too wide."""
        while True:
            b, end = self.leaving()
            if b is None:
                return self.solved()
            found = list(self.candidates(b, end))
            if not found:
                return self.empty(b, end)
            if self.do.step == pivots:
                return End("pivots", pivots, wide=self.do.wide)
            self.pivot(b, end, found)
            self.do.step += 1
            if stop and self.do.wide:
                return End("wide", self.do.step, wide=self.do.wide)

    def pivot(self, b, end, found):
        do, own = self.do, self.factors[b]
        ratios = {j: do.div(self.cost.get(j, ZERO), own[j]) for j in found}
        s = found[0]
        for j in found[1:]:
            if abs(ratios[j][0]) * ratios[s][1] < abs(ratios[s][0]) * ratios[j][1]:
                s = j
        t = do.div(do.sub((end, 1), self.values[b]), own[s])
        g = {j: do.div(do.sub(ZERO, factor), own[s]) for j, factor in own.items() if j != s}
        g_b = do.div(ONE, own[s])
        value = do.add((self.stands[s], 1), t)
        del self.factors[b], self.values[b]
        for column, factors in self.factors.items():
            if s in factors:
                self.values[column] = do.add(self.values[column], do.mul(factors[s], t))
                self.change(factors, s, b, g, g_b)
        if s in self.cost:
            self.change(self.cost, s, b, g, g_b)
        self.factors[s], self.values[s] = {b: g_b, **g}, value
        del self.stands[s], self.at_low[s]
        self.stands[b], self.at_low[b] = end, end == self.ends[b][0]

    def change(self, factors, s, b, g, g_b):
        """The factors of a column that stays basic, or of the cost. Where one of two is 0 nothing is added, and nothing can be too wide."""
        h = factors.pop(s)
        for j, factor in g.items():
            total = self.do.add(factors.get(j, ZERO), self.do.mul(h, factor))
            if total[0]:
                factors[j] = total
            else:
                factors.pop(j, None)
        factors[b] = self.do.mul(h, g_b)

    def solved(self):
        values = [self.values.get(column) or (self.stands[column], 1) for column in range(self.variables)]
        multipliers = {number: self.cost.get(self.variables + place, ZERO) for place, number in enumerate(self.numbers)}
        return End("solved", self.do.step, values, multipliers, self.do.wide)

    def empty(self, b, end):
        sign = -1 if end != self.ends[b][0] or self.values[b][0] > end * self.values[b][1] else 1
        found = {}
        for place, number in enumerate(self.numbers):
            column = self.variables + place
            num, den = (-1, 1) if column == b else self.factors[b].get(column, ZERO)
            found[number] = (-sign * num, den)
        return End("empty", self.do.step, None, found, self.do.wide)


# ---- marks


@dataclass
class Mark:
    """What is said of a leaf: the word and the numbers of its line, and the bound that it comes to, or none where no plan is left."""

    node: int
    word: str
    numbers: list
    bound: object
    steps: int = 0
    end: object = None  # of the run, where the plan doesn't decide

    def line(self):
        return pooling.line_of(self.word, [self.node, *self.numbers])

    def kind(self):
        return f"loose {self.numbers[0]}" if self.word == "loose" else self.word


@dataclass
class Loose(Exception):
    """The run gives a cause: its number, and what stands behind it."""

    cause: int
    numbers: list


def common(fractions, limit):
    """The least common multiple of denominators, each fraction times it; a cause where it is too large, or what comes of it is."""
    n = 1
    for num, den in fractions:
        if lcm(n, den) > pooling.U64[1]:
            raise Loose(3, [n, num, den])
        n = lcm(n, den)
    for num, den in fractions:
        if not limit[0] <= num * (n // den) <= limit[1]:
            raise Loose(3, [n, num, den])
    return n, [num * (n // den) for num, den in fractions]


class Marker:
    """The marks of leaves of a network's boxes, by a form and so many pivots."""

    def __init__(self, net, form, pivots, plan=None):
        self.net, self.rows, self.form, self.pivots, self.plan = net, pooling.Rows(net), form, pivots, plan
        self.numbers = Forms(self.rows).rows[form]

    def mark(self, node, low, high, bound, stop=True):
        if self.plan and self.decides(low, high, bound):
            return Mark(node, "tight", listed(*self.lift()), bound)
        end = Run(self.rows, self.form, low, high).go(self.pivots, stop)
        try:
            word, numbers, bound = self.by_run(end, low, high, bound)
        except Loose as cause:
            word, numbers = "loose", [cause.cause, *cause.numbers]
        return Mark(node, word, numbers, bound, end.steps, end)

    def by_run(self, end, low, high, bound):
        if end.kind == "pivots":
            raise Loose(1, [self.pivots])
        if end.kind == "wide":
            raise Loose(2, [end.wide[0][1], *end.wide[0][2], *end.wide[0][3]])
        if end.kind == "solved":
            base, values = common(end.values, pooling.I128)
            if self.is_heavy(base, values, low, high):
                raise Loose(5, listed(base, values))
            cost = sum(c * value for c, value in zip(self.rows.costs, values))
            if cost < (bound + 1) * base:
                return "tight", listed(base, values), bound
        n, multipliers = common(list(end.multipliers.values()), pooling.I64)
        pairs = [(row, m) for row, m in zip(end.multipliers, multipliers) if m]
        numbers = [n if end.kind == "solved" else 0, len(pairs), *(number for pair in pairs for number in pair)]
        proof = pooling.Proof(node=0, scale=numbers[0], rows=[row for row, _ in pairs], multipliers=[m for _, m in pairs])
        try:
            shown = proof.in_order(self.rows, low, high)
        except pooling.Fault as fault:
            if str(fault) != "proof 0 5":
                raise
            raise Loose(4, numbers) from None
        return ("empty", numbers, None) if end.kind == "empty" else ("raised", numbers + listed(base, values), shown)

    def is_heavy(self, base, values, low, high):
        """Whether the sizes that the cost or a row of the form adds up pass 2^126."""
        weights = [sum(abs(c * value) for c, value in zip(self.rows.costs, values))]
        for number in self.numbers:
            constant, terms = self.rows.in_box(number, low, high)
            weights.append(abs(constant) * base + sum(abs(a * values[variable]) for variable, a in terms))
        return max(weights) > 2**126

    def decides(self, low, high, bound):
        """Whether the plan's place lies in the box, and it costs less than one pico above the bound."""
        cost, base = self.plan.judge(self.net)
        scale, values = self.lift()
        rows, place = self.rows, values
        proportions = [place[rows.Q + e] for e in range(len(self.net.feeds))]
        qualities = [place[rows.p + n] for n in range(rows.first_out - rows.first_quality)]
        flows = [place[rows.y + o] for o in range(len(self.net.outs))]
        inside = all(scale * a <= value <= scale * b for value, a, b in zip(proportions + qualities + flows, low, high))
        return inside and cost < (bound + 1) * base

    def lift(self):
        """The plan's point: a base, and a value for each variable. A pool that sends nothing stands at its first feed."""
        net, plan = self.net, self.plan
        R, d = plan.base, plan.flow_base
        total = [sum(y for y, (l, _) in zip(plan.outflows, net.outs) if l == pool) for pool in range(len(net.pools))]
        first = {}
        for e, (_, l) in enumerate(net.feeds):
            first.setdefault(l, e)
        share = [r if total[l] else R * (first[l] == e) for e, (r, (_, l)) in enumerate(zip(plan.weights, net.feeds))]
        mixed = [sum(share[e] * net.sources[s].quality[k] for e, (s, l) in enumerate(net.feeds) if l == pool)
                 for pool in range(len(net.pools)) for k in range(len(net.qualities))]
        x = [r * total[l] for r, (_, l) in zip(plan.weights, net.feeds)]
        w = [plan.weights[e] * plan.outflows[o] for e, o in net.paths]
        v = [mixed[l * len(net.qualities) + k] * y for y, (l, _) in zip(plan.outflows, net.outs) for k in range(len(net.qualities))]
        values = [*x, *(R * y for y in plan.outflows), *(R * z for z in plan.direct), *w, *(pooling.GRAIN * d * part for part in share), *(d * m for m in mixed), *v]
        return d * R, values


def listed(base, values):
    """The numbers of a point."""
    return [base, len(values), *values]


# ---- the text


def leaves_of(certificate, bounds):
    """The leaves that may hold a plan, rising."""
    cut = {leaf for leaf, _, _ in certificate.splits}
    return [node for node in sorted(bounds) if bounds[node] is not None and node not in cut]


def marks_of(net, certificate, bounds, form="pq", pivots=1000):
    marker = Marker(net, form, pivots, certificate.plan)
    tree = pooling.Tree(marker.rows, certificate.splits)
    return [marker.mark(node, *tree.box(node), bounds[node]) for node in leaves_of(certificate, bounds)]


def text_of(marks, form="pq", pivots=1000):
    bound = min((mark.bound for mark in marks if mark.word != "empty"), default="none")
    return "\n".join(["pooltight 1", f"form {form}", f"pivots {pivots}", f"leaves {len(marks)}", *(mark.line() for mark in marks), f"bound {bound}", "end", ""])


def tight_text(net, certificate, bounds, form="pq", pivots=1000):
    return text_of(marks_of(net, certificate, bounds, form, pivots), form, pivots)
