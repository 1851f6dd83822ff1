"""Exact money, and plans: what flows, which rules of docs/FORMATS.md it breaks, what it costs. `pooling.py` stands on this file and hands
on what is here; whoever writes a tool imports that."""

from dataclasses import dataclass
from fractions import Fraction

from pooling_rows import GRAIN, Fault, refuse

UNIT, PICOS = 10**6, 10**12
MAX_BASE, MAX_FLOW_BASE = GRAIN, 65_536


# ---- exact money


def units(millionths):
    return Fraction(millionths) / UNIT


def money(picos):
    return Fraction(picos) / PICOS


def exact(value):
    """A fraction as a decimal where it has an end, and else as numerator and denominator."""
    value, places = Fraction(value), 0
    twos = value.denominator & -value.denominator
    fives = value.denominator // twos
    while 5**places < fives:
        places += 1
    if 5**places != fives:
        return f"{value.numerator}/{value.denominator}"
    places = max(places, twos.bit_length() - 1)
    digits = str(abs(value.numerator) * 10**places // value.denominator).rjust(places + 1, "0")
    text = digits[:-places] + "." + digits[-places:].rstrip("0") if places else digits
    return ("-" if value < 0 else "") + text


def shown(value):
    """A fraction as an exact decimal where that has an end, and else rounded down to six decimals."""
    text = exact(value)
    return text if "/" not in text else exact(Fraction(Fraction(value) * UNIT // 1, UNIT))


def quantity(millionths):
    """A quantity as JSON has it: whole units as a number, others as a text."""
    return millionths // UNIT if millionths % UNIT == 0 else exact(units(millionths))


# ---- plans


@dataclass
class Flows:
    """What flows along each arc, in millionths of a unit, as fractions."""

    feeds: list
    outs: list
    directs: list

    def of(self, kind):
        return {"feed": self.feeds, "out": self.outs, "direct": self.directs}[kind]

    def all(self):
        return [*self.feeds, *self.outs, *self.directs]


@dataclass
class WrittenPlan:
    """A plan as certificates write it: weights over a base, flows of outs and directs over a second one."""

    base: int
    flow_base: int
    weights: list
    outflows: list
    direct: list

    def flows(self, net):
        sent = [sum(flow for flow, (start, _) in zip(self.outflows, net.outs) if start == l) for l in range(len(net.pools))]
        feeds = [Fraction(weight * sent[l], self.base * self.flow_base) for weight, (_, l) in zip(self.weights, net.feeds)]
        return Flows(feeds, [Fraction(y, self.flow_base) for y in self.outflows], [Fraction(z, self.flow_base) for z in self.direct])

    def judge(self, net):
        """Raises the first rule of docs/FORMATS.md that the plan breaks; answers its cost and the cost's base."""
        refuse(not 1 <= self.base <= MAX_BASE or not 1 <= self.flow_base <= MAX_FLOW_BASE, "plan 1")
        for l in range(len(net.pools)):
            refuse(sum(weight for weight, (_, end) in zip(self.weights, net.feeds) if end == l) != self.base, "plan 2")
        flows = self.flows(net)
        for broken in broken_rules(net, flows):
            raise Fault(f"plan {broken.rule}")
        base = self.base * self.flow_base
        return int(cost_of(net, flows) * base), base


@dataclass
class Broken:
    """A rule that a plan breaks: its number in docs/FORMATS.md, or 0 for one that written plans keep by their form."""

    rule: int
    words: str


def totals(net, flows):
    """What leaves each source, what leaves each pool, and what enters each product."""
    sent, passed, taken = [Fraction(0)] * len(net.sources), [Fraction(0)] * len(net.pools), [Fraction(0)] * len(net.products)
    for flow, (s, _) in [*zip(flows.feeds, net.feeds), *zip(flows.directs, net.directs)]:
        sent[s] += flow
    for flow, (l, j) in zip(flows.outs, net.outs):
        passed[l] += flow
        taken[j] += flow
    for flow, (_, j) in zip(flows.directs, net.directs):
        taken[j] += flow
    return sent, passed, taken


def cost_of(net, flows):
    """Purchases and what the arcs cost, less revenue, in picos."""
    sent, _, taken = totals(net, flows)
    carriage = sum(flow * arc.cost for flow, arc in zip(flows.all(), net.arcs))
    return sum(flow * source.cost for flow, source in zip(sent, net.sources)) + carriage - sum(flow * product.price for flow, product in zip(taken, net.products))


def mean(parts):
    total = sum(flow for flow, _ in parts)
    return sum(flow * content for flow, content in parts) / total if total else None


def pool_means(net, flows):
    """The mean of each quality of what enters a pool, by pool and quality, for the pools that something enters; millionths."""
    means = {(l, k): mean([(flow, net.sources[s].quality[k]) for flow, (s, end) in zip(flows.feeds, net.feeds) if end == l])
             for l in range(len(net.pools)) for k in range(len(net.qualities))}
    return {place: found for place, found in means.items() if found is not None}


def leaving_means(net, flows):
    """The same of what leaves a pool, which may take out a part of what enters."""
    return {(l, k): found * net.retained[l][k] / net.scale for (l, k), found in pool_means(net, flows).items()}


def product_means(net, flows):
    """The same of what enters a product."""
    pools, means = leaving_means(net, flows), {}
    for j in range(len(net.products)):
        for k in range(len(net.qualities)):
            parts = [(flow, pools.get((l, k), 0)) for flow, (l, end) in zip(flows.outs, net.outs) if end == j]
            means[j, k] = mean(parts + [(flow, net.sources[s].quality[k]) for flow, (s, end) in zip(flows.directs, net.directs) if end == j])
    return {place: found for place, found in means.items() if found is not None}


def broken_rules(net, flows):
    """The rules that flows break, in the order in which `pool check` tells them."""
    say = lambda millionths: exact(units(millionths))
    for (start, end), flow in zip(net.arc_names(), flows.all()):
        if flow < 0:
            yield Broken(0, f"{start} -> {end} carries {say(flow)}, and a flow is 0 at least")
    sent, passed, taken = totals(net, flows)
    for l, pool in enumerate(net.pools):
        entered = sum(flow for flow, (_, end) in zip(flows.feeds, net.feeds) if end == l)
        if entered != passed[l]:
            yield Broken(0, f"into pool {pool.name} flow {say(entered)}, and out of it {say(passed[l])}")
    for rule, word, nodes, carried in ((3, "source {} sends", net.sources, sent), (4, "pool {} passes", net.pools, passed), (5, "product {} takes", net.products, taken)):
        for node, flow in zip(nodes, carried):
            if flow > node.max:
                yield Broken(rule, f"{word.format(node.name)} {say(flow)}, and {say(node.max)} is its maximum")
    for product, flow in zip(net.products, taken):
        if flow < product.min:
            yield Broken(6, f"product {product.name} takes {say(flow)}, and {say(product.min)} is its minimum")
    means = product_means(net, flows)
    for sign, j, k, limit in net.limits():
        found = means.get((j, k))
        if found is not None and sign * found > sign * limit:
            words = "most that it may have" if sign > 0 else "least that it may have"
            yield Broken(7 if sign > 0 else 8, f"product {net.products[j].name} has {net.qualities[k]} {say(found)}, and {say(limit)} is the {words}")
    for arc, flow in zip(net.arcs, flows.all()):
        if arc.max is not None and flow > arc.max:
            yield Broken(9, f"{arc.name()} carries {say(flow)}, and {say(arc.max)} is its maximum")


def written_plan(net, flows):
    """The written plan of flows that balance, or nothing where its bases would pass their limits."""
    flow_base = least_common([flow.denominator for flow in flows.outs + flows.directs])
    _, passed, _ = totals(net, flows)
    first = {l: e for e, (_, l) in reversed(list(enumerate(net.feeds)))}
    parts = [flow / passed[l] if passed[l] else Fraction(first[l] == e) for e, (flow, (_, l)) in enumerate(zip(flows.feeds, net.feeds))]
    base = least_common([part.denominator for part in parts])
    if base > MAX_BASE or flow_base > MAX_FLOW_BASE:
        return None
    return WrittenPlan(base, flow_base, [int(part * base) for part in parts], [int(y * flow_base) for y in flows.outs], [int(z * flow_base) for z in flows.directs])


def least_common(numbers):
    found = 1
    for number in numbers:
        found *= (Fraction(number, found)).numerator
    return found
