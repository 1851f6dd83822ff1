#!/usr/bin/env python3
"""Networks of version 2 over the built program: `version2.py POOL`

Worked networks, whose texts, programs, reports and best costs are worked out by hand. Drawn networks, of which no plan on a grid, in exact
numbers, costs less than the bound that the program shows, and whose printed plans keep each rule, by the second checker and by
the rules as docs/MODEL.md has them, which are written out here once more. Exact programs, line by line as the second checker's rows
have them. Networks whose new members change nothing: written out in version 2 they give the certificates, programs and journals
of their version 1. And made networks that are tightened and loosened. It prints what differs, and how many networks there were.
"""

import itertools
import json
import math
import random
import subprocess
import sys
import tempfile
from collections import Counter
from fractions import Fraction
from pathlib import Path
from types import SimpleNamespace

sys.dont_write_bytecode = True
TOP = Path(__file__).resolve().parent.parent
sys.path.insert(0, str(TOP / "tests"))
import damaged_certificates as damaged
import journal_bytes as made

checker, WORKED = damaged.checker, TOP / "tests" / "worked"
SEED, DRAWN, NEUTRAL, PROGRAMS, MADE, MOST_PLANS = 2022, 200, 40, 40, 6, 1500
GAP = 10**10  # a hundredth of money, in picos
SEARCHED = (0, 10, 11, 12, 13)  # how a search ends that prints a certificate


class Apart(Exception):
    """The program and a checker say different things of a certificate, or it prints none; the argument tells of what."""


class Program:
    """The program, and the folder of what it reads."""

    def __init__(self, path, folder):
        self.path, self.folder = Path(path).resolve(), folder

    def file(self, name, content):
        path = self.folder / name
        path.write_text(content if isinstance(content, str) else json.dumps(content))
        return path

    def run(self, *words):
        done = subprocess.run([self.path, *map(str, words)], capture_output=True, text=True)
        return done.returncode, done.stdout, done.stderr

    def solve(self, net, *words):
        """The status and the certificate of a network, which both checkers accept."""
        path = self.file("net.json", net)
        status, text, error = self.run("solve", path, *words)
        cert = self.file("net.cert", text)
        told, (accepted, line) = self.run("check", path, cert), checker.run([str(path), str(cert)])
        if status not in SEARCHED or accepted or told != (0, line + "\n", ""):
            raise Apart(f"solve ends with {status} {error!r}, check with {told}, the second checker with {line!r}: {net}")
        return status, checker.read_certificate(text.encode())


def differs(label, found, wanted):
    if found != wanted:
        yield f"{label}: {found!r}, and not {wanted!r}"


# ---- worked networks


DESULFURED = (WORKED / "desulfured.json").read_text()
CERTIFICATE = (WORKED / "desulfured.cert").read_text()
ACCEPTED = "accepted gap cost -200000000000000 base 1 bound -250000000000000 gap 50000000000000\n"
# What is changed in the network or the certificate, and what `check` says then.
CHECKED = [
    ("outflows 80000000", "outflows 80000001", "refused plan 9\n"),
    ('"sulfur":500', '"sulfur":501', "refused plan 7\n"),
    ('"max":80', '"max":"79.999999"', "refused plan 9\n"),
    ('"max":80', '"max":"80.000001"', ACCEPTED),
    (',"max":80', "", ACCEPTED),
    ('"sulfur":500', '"sulfur":499', ACCEPTED),
    ('["P","X"]', '{"from":"P","to":"X","max":80}', ACCEPTED),
    ('["P","X"]', '{"to":"X","from":"P","max":"79.999999"}', "refused plan 9\n"),
    ('"cost":"0.5"', '"cost":"0.500001"', "refused cost\n"),
    ('["P","X"]', '{"from":"P","to":"X","cost":"-0.000001"}', "refused cost\n"),
]
# What is changed in the network, and the status and the message of a refusal.
REFUSED = [
    ('"version":2', '"version":1', "4"),
    ('"version":2', '"version":3', "6"),
    ('"sulfur":500', '"sulfur":500.0', "7"),
    ('"sulfur":500', '"sulfur":"500"', "3"),
    ('"sulfur":500', '"sulphur":500', "4"),
    ('"sulfur":500', '"sulfur":1001', "9 11"),
    ('"sulfur":500', '"sulfur":-1', "9 11"),
    ('"from":"A",', "", "5"),
    ('"to":"P"', '"to":7', "3"),
    ('"max":80', '"most":80', "4"),
    ('"max":80', '"max":-1', "9 11"),
    ('"max":80', '"max":100000001', "9 11"),
    ('"cost":"0.5"', '"cost":0.5', "7"),
    ('"cost":"0.5"', '"cost":1000001', "9 11"),
    ('["P","X"]', '["P","X"],["A","P"]', "9 7"),
    ('["P","X"]', '["P","X"],7', "3"),
]


def worked(program, met):
    """A pool that takes out half of the sulfur, behind an arc that costs 0.5 and carries 80."""
    net, cert = program.file("desulfured.json", DESULFURED), program.file("desulfured.cert", CERTIFICATE)
    yield from differs("check", program.run("check", net, cert), (0, ACCEPTED, ""))
    yield from differs("report", program.run("report", net, cert), (0, (WORKED / "desulfured.report").read_text(), ""))
    for form in ("p", "q", "pq"):
        yield from differs(f"formulate --form {form}", program.run("formulate", net, "--form", form), (0, (WORKED / f"desulfured.{form}.program").read_text(), ""))
    journal = program.folder / "worked.journal"
    program.run("solve", net, "--journal", journal)
    yield from differs("the canonical text", made.text_of(journal.read_bytes()), (WORKED / "desulfured.canonical").read_text())
    status, found = program.solve(DESULFURED, "--gap", "0")
    yield from differs("solve", (status, found.cost, found.bound), (0, [-200 * 10**12, 1], -200 * 10**12))
    for old, new, line in CHECKED:
        assert (old in DESULFURED) != (old in CERTIFICATE), old
        program.file("other.json", DESULFURED.replace(old, new))
        program.file("other.cert", CERTIFICATE.replace(old, new))
        words = [program.folder / "other.json", program.folder / "other.cert"]
        yield from differs(f"check with {new}", program.run("check", *words), (int(line[0] == "r"), line, ""))
        yield from differs(f"the second checker with {new}", checker.run(list(map(str, words)))[1] + "\n", line)
        met["worked changes"] += 1
    for old, new, cause in REFUSED:
        other = program.file("other.json", DESULFURED.replace(old, new, 1))
        yield from differs(f"solve with {new}", program.run("solve", other), (3, "", f"pool: network refused: {cause}\n"))
        yield from differs(f"the second checker with {new}", checker.run([str(other), str(cert)]), (3, f"pool: network refused: {cause}"))
        met["refused networks"] += 1


def network(sources, pools, products, arcs, qualities=()):
    """A network of version 2 from short rows: arcs as `A P 0.5 80`, with a cost and a maximum or a `-` for none."""
    rows = []
    for start, end, cost, most in (arc.split() for arc in arcs):
        rows.append({"from": start, "to": end, "cost": cost, **({} if most == "-" else {"max": most})})
    return {"version": 2, "qualities": list(qualities), "sources": sources, "pools": pools, "products": products, "arcs": rows}


def source(name, cost, *quality, **more):
    return {"name": name, "cost": cost, "quality": dict(zip(["load"], quality)), **more}


# Networks, and what the best plan costs, by hand.
BEST = {
    # B through the pool earns 5 - 2 + 1 = 4 for a unit, of which the arc to X carries 30; B direct earns 5 - 2 - 2 = 1, for 7.
    "piped": (network([source("A", 1), source("B", 2)], [{"name": "P"}], [{"name": "X", "price": 5, "max": 60}], ["A P 3 20", "B P 0 -", "P X -1 30", "B X 2 7"]), -127),
    # 30 of A leave the pool with a load of 15 and earn 4 each; as much of B, with 25, makes 20, and earns 3.
    "cleaned": (network([source("A", 1, 30, max=30), source("B", 2, 25)], [{"name": "P", "ratio": {"load": 500}}],
                        [{"name": "X", "price": 5, "max": 80, "least": {"load": 15}, "most": {"load": 20}}], ["A P 0 -", "P X 0 -", "B X 0 -"], ["load"]), -210),
    # Treated twice A would have 7.5, and untreated 30: with half of it as much of it as of C, which has 5, makes 10.
    "halved": (network([source("A", 0, 30), source("C", 3, 5)], [{"name": "P", "ratio": {"load": 500}}],
                       [{"name": "X", "price": 4, "max": 10, "most": {"load": 10}}], ["A P 0 -", "P X 0 -", "C X 0 -"], ["load"]), -25),
    # Two plants: the first takes out all of the load of 8 units at 2, the second a tenth of it for nothing. Half of each makes 9.
    "two plants": (network([source("W", 0, 20)], [{"name": "P", "ratio": {"load": 0}}, {"name": "Q", "ratio": {"load": 900}}],
                           [{"name": "X", "price": 3, "min": 4, "max": 20, "most": {"load": 9}}], ["W P 2 8", "W Q 0 -", "P X 0 -", "Q X 0 -"], ["load"]), -32),
    # Carrying pays: 1 more for each unit of the direct than it costs, up to 4; the pool's arcs cost more than X pays.
    "paid to carry": (network([source("A", 2)], [{"name": "P"}], [{"name": "X", "price": "1.5", "max": 9}], ["A X -1.5 4", "A P 0.25 -", "P X -0.5 0"]), -4),
    # 5 units have to come, and 3 and 2 may: nothing is left to choose. 3 * (1 + 2) + 2 * (1 - 1) - 5 = 4.
    "just enough": (network([source("A", 1)], [{"name": "P"}], [{"name": "X", "price": 1, "min": 5, "max": 5}], ["A P 2 3", "P X 0 -", "A X -1 2"]), 4),
    "one too little": (network([source("A", 1)], [{"name": "P"}], [{"name": "X", "price": 1, "min": 5, "max": 5}], ["A P 2 3", "P X 0 -", "A X -1 1.999999"]), None),
}


def best_costs(program, met):
    for name, (net, best) in BEST.items():
        status, found = program.solve(net, "--gap", "0.001")
        met["best costs"] += 1
        if best is None:
            yield from differs(name, (status, found.kind), (12, "none"))
        elif status or not found.bound <= best * 10**12 <= Fraction(*found.cost) <= best * 10**12 + 10**9:
            yield f"{name}: {status}, cost {found.cost}, bound {found.bound}, and {best} is best"


# ---- drawn networks, and the rules once more


def drawn(rng):
    """A small network of whole numbers, so that a grid of few plans comes near its best ones."""
    qualities = ["load", "salt"][: rng.choice([0, 1, 1, 1, 2])]
    content = lambda: {name: rng.choice([-2, 0, 1, 2, 4, 6]) for name in qualities}
    some = lambda chance, member, value: {member: value} if rng.random() < chance else {}
    sources = [{"name": f"S{n}", "cost": rng.randrange(6), **some(0.5, "max", rng.randrange(1, 7)), "quality": content()} for n in range(rng.choice([1, 2, 2, 3]))]
    pools = [{"name": f"P{n}", **some(0.3, "max", rng.randrange(1, 7)),
              **some(0.8, "ratio", {name: rng.choice([0, 250, 500, 750, 1000]) for name in qualities if rng.random() < 0.8})} for n in range(rng.choice([1, 1, 2]))]
    products = []
    for n in range(rng.choice([1, 1, 2])):
        limits = {"most": {name: rng.choice([0, 1, 2, 3]) for name in qualities if rng.random() < 0.6}, "least": {name: rng.choice([-2, 0, 1]) for name in qualities if rng.random() < 0.2}}
        limits["least"] = {name: least for name, least in limits["least"].items() if least <= limits["most"].get(name, least)}
        most = rng.randrange(1, 7)
        products.append({"name": f"X{n}", "price": rng.randrange(2, 12), **some(0.2, "min", rng.randrange(most + 1)), "max": most, **limits})
    pairs = [(rng.choice(sources), pool) for pool in pools for _ in range(2)] + [(pool, rng.choice(products)) for pool in pools for _ in range(rng.choice([1, 1, 2]))]
    pairs += [(rng.choice(sources), rng.choice(products)) for _ in range(rng.choice([0, 1, 1]))]
    ends = sorted({(start["name"], end["name"]) for start, end in pairs})
    arcs = [{"from": start, "to": end, **some(0.5, "cost", rng.choice([-1, 0, 1, 2, "0.5"])), **some(0.5, "max", rng.choice([0, 1, 2, 3, 4, 5]))} for start, end in rng.sample(ends, len(ends))]
    return {"version": 2, "qualities": qualities, "sources": sources, "pools": pools, "products": products, "arcs": arcs}


def millionths(value):
    return int(Fraction(value) * 10**6)


class Rules:
    """A network's numbers, read from its file, and its rules as docs/MODEL.md has them, multiplied out over the whole network.

    A plan is a base d and lists of whole numbers: what flows along feeds, outs and directs, in parts 1/d of a millionth."""

    def __init__(self, net):
        number = {row["name"]: (kind, n) for kind in ("sources", "pools", "products") for n, row in enumerate(net[kind])}
        kinds = {"feeds": ("sources", "pools"), "outs": ("pools", "products"), "directs": ("sources", "products")}
        whole = sum(millionths(row["max"]) for row in net["products"])
        most = lambda row: millionths(row["max"]) if "max" in row else whole
        self.net, self.arcs = net, {kind: [] for kind in kinds}
        for arc in net["arcs"]:
            ((start, s), (end, e)) = number[arc["from"]], number[arc["to"]]
            kind = next(kind for kind, pair in kinds.items() if pair == (start, end))
            self.arcs[kind].append(SimpleNamespace(start=s, end=e, cost=millionths(arc.get("cost", 0)), most=millionths(arc["max"]) if "max" in arc else math.inf))
        self.supply, self.capacity, self.demand = ([most(row) for row in net[kind]] for kind in ("sources", "pools", "products"))
        self.ratios = [[row.get("ratio", {}).get(name, 1000) for name in net["qualities"]] for row in net["pools"]]
        self.contents = [[millionths(row["quality"][name]) for name in net["qualities"]] for row in net["sources"]]

    def flows(self, x, y, z):
        return list(zip([*self.arcs["feeds"], *self.arcs["outs"], *self.arcs["directs"]], [*x, *y, *z]))

    def carries(self, d, x, y, z):
        feeds, outs, directs = (list(zip(arcs, flows)) for arcs, flows in zip(self.arcs.values(), (x, y, z)))
        sent = [sum(flow for arc, flow in feeds + directs if arc.start == s) for s in range(len(self.supply))]
        entered = [sum(flow for arc, flow in feeds if arc.end == l) for l in range(len(self.capacity))]
        passed = [sum(flow for arc, flow in outs if arc.start == l) for l in range(len(self.capacity))]
        taken = [sum(flow for arc, flow in outs + directs if arc.end == j) for j in range(len(self.demand))]
        least = [millionths(row.get("min", 0)) for row in self.net["products"]]
        return (entered == passed and all(flow <= d * arc.most for arc, flow in self.flows(x, y, z)) and all(flow >= 0 for flow in [*x, *y, *z])
                and all(flow <= d * most for flow, most in zip(sent + passed + taken, self.supply + self.capacity + self.demand))
                and all(flow >= d * minimum for flow, minimum in zip(taken, least)))

    def blends(self, x, y, z):
        feeds, outs, directs = (list(zip(arcs, flows)) for arcs, flows in zip(self.arcs.values(), (x, y, z)))
        t = [max(1, sum(flow for arc, flow in outs if arc.start == l)) for l in range(len(self.capacity))]
        whole = math.prod(t)
        for j, product in enumerate(self.net["products"]):
            inflow = sum(flow for arc, flow in outs + directs if arc.end == j)
            for k, name in enumerate(self.net["qualities"]):
                mixed = [sum(self.contents[arc.start][k] * flow for arc, flow in feeds if arc.end == l) for l in range(len(t))]
                brought = sum(whole // t[arc.start] * self.ratios[arc.start][k] * mixed[arc.start] * flow for arc, flow in outs if arc.end == j)
                brought += whole * 1000 * sum(self.contents[arc.start][k] * flow for arc, flow in directs if arc.end == j)
                for sign, limits in ((1, product["most"]), (-1, product["least"])):
                    if name in limits and sign * brought > sign * whole * 1000 * millionths(limits[name]) * inflow:
                        return False
        return True

    def cost(self, x, y, z):
        """In picos, over the plan's base."""
        cost, price = ([millionths(row[word]) for row in self.net[kind]] for kind, word in (("sources", "cost"), ("products", "price")))
        feeds, outs, directs = (list(zip(arcs, flows)) for arcs, flows in zip(self.arcs.values(), (x, y, z)))
        spent = sum(arc.cost * flow for arc, flow in self.flows(x, y, z)) + sum(cost[arc.start] * flow for arc, flow in feeds + directs)
        return spent - sum(price[arc.end] * flow for arc, flow in outs + directs)

    def on_the_grid(self, rng):
        """Plans in which a pool takes quarters of its feeds, and outs and directs carry whole units: all, or so many of them."""
        feeds = [[e for e, arc in enumerate(self.arcs["feeds"]) if arc.end == l] for l in range(len(self.capacity))]
        parts = [[share for share in itertools.product(range(5), repeat=len(part)) if sum(share) == 4] for part in feeds]
        levels = [range(int(min(arc.most, self.demand[arc.end]) // 10**6) + 1) for arc in [*self.arcs["outs"], *self.arcs["directs"]]]
        choices = [*parts, *levels]
        if math.prod(map(len, choices)) <= MOST_PLANS:
            chosen = itertools.product(*choices)
        else:
            chosen = (tuple(rng.choice(choice) for choice in choices) for _ in range(MOST_PLANS))
        for choice in chosen:
            shares, flows = choice[: len(parts)], choice[len(parts) :]
            y, z = flows[: len(self.arcs["outs"])], flows[len(self.arcs["outs"]) :]
            x = [0] * len(self.arcs["feeds"])
            for l, (part, share) in enumerate(zip(feeds, shares)):
                passed = sum(flow for arc, flow in zip(self.arcs["outs"], y) if arc.start == l)
                for e, quarter in zip(part, share):
                    x[e] = quarter * passed * 10**6
            yield 4, x, [4 * flow * 10**6 for flow in y], [4 * flow * 10**6 for flow in z]


def plan_of(rules, cert):
    """The plan of a certificate: what it writes, over both bases."""
    passed = [sum(flow for arc, flow in zip(rules.arcs["outs"], cert.y) if arc.start == l) for l in range(len(rules.capacity))]
    return cert.d * cert.R, [weight * passed[arc.end] for arc, weight in zip(rules.arcs["feeds"], cert.r)], [cert.R * flow for flow in cert.y], [cert.R * flow for flow in cert.z]


def by_grid(program, met):
    """No plan of the grid costs less than the bound, and none is more than a hundredth cheaper than a plan within that of its bound."""
    rng = random.Random(SEED)
    for number in range(DRAWN):
        net = drawn(rng)
        rules = Rules(net)
        status, cert = program.solve(net, "--nodes", "60", "--form", rng.choice(["p", "q", "pq"]) if rng.random() < 0.3 else "pq")
        costs = [Fraction(rules.cost(*plan), d) for d, *plan in rules.on_the_grid(rng) if rules.carries(d, *plan) and rules.blends(*plan)]
        met[f"networks, {'some plan' if costs else 'no plan'} on the grid"] += 1
        least = min(costs, default=None)
        if least is not None and (cert.kind == "none" or least < cert.bound):
            yield f"network {number}: a plan costs {least}, and the bound is {cert.kind} {getattr(cert, 'bound', None)}: {json.dumps(net)}"
        if cert.kind != "gap":
            continue
        d, *plan = plan_of(rules, cert)
        if not rules.carries(d, *plan) or not rules.blends(*plan) or [rules.cost(*plan), d] != cert.cost:
            yield f"network {number}: the plan breaks a rule, or costs {rules.cost(*plan)} over {d}: {json.dumps(net)}"
        if status == 0 and least is not None and least + GAP < Fraction(*cert.cost):
            yield f"network {number}: a plan of the grid costs {least}, and the program's {cert.cost}: {json.dumps(net)}"
        met["arcs at their maximum"] += any(0 < flow == d * arc.most for arc, flow in rules.flows(*plan))
        met["pools that take something out"] += any(flow and min(rules.ratios[arc.start], default=1000) < 1000 for arc, flow in zip(rules.arcs["outs"], plan[1]))
        met["plans that a ratio of a thousandth more breaks"] += breaks_with_more(net, d, plan)


def breaks_with_more(net, d, plan):
    """Whether the plan breaks a limit where a pool keeps a thousandth more of a quality: what is taken out is all that keeps it."""
    for pool in net["pools"]:
        for name, ratio in pool.get("ratio", {}).items():
            if ratio < 1000:
                pool["ratio"][name] = ratio + 1
                broken = not Rules(net).blends(*plan)
                pool["ratio"][name] = ratio
                if broken:
                    return True
    return False


# ---- exact programs, by the rows of the second checker


def program_text(data, form):
    """What `formulate` prints, by docs/FORMATS.md and the rows of the second checker."""
    net = checker.judge_rows(checker.walk(checker.parse_json(data)))
    net.rows = checker.make_rows(net)
    counts = {"x": len(net.feeds), "y": len(net.outs), "z": len(net.directs), "w": len(net.paths), "Q": len(net.feeds)}
    counts.update({"p": len(net.pools) * len(net.qualities), "v": len(net.outs) * len(net.qualities)})
    names = [f"{letter}{n}" for letter, count in counts.items() for n in range(count)]
    called, place = dict(zip(net.variables, names)), {variable: at for at, variable in enumerate(net.variables)}

    def terms(coefficients):
        return "".join(f" {called[variable]} {coefficients[variable]}" for variable in sorted(coefficients, key=place.get) if coefficients[variable])

    lines = [f"program {form}", "min" + terms(net.costs)]
    for variable in net.variables:
        if called[variable][0] in ("xyzpv" if form == "p" else "xyzwQ"):
            lines.append("ends {} {} {}".format(called[variable], *checker.ends(variable, net.low, net.high)))
    further, products = [], {}
    for row in net.forms[form]:
        at_least, constant, coefficients = net.rows[row]
        if isinstance(coefficients, dict):
            line = f"row {row} {'ge' if at_least else 'eq'} {constant}{terms(coefficients)}"
            (further if form == "pq" and products and row > max(products) else lines).append(line)
        else:
            scale, a, b, f = coefficients
            products.setdefault(row - constant + 1, f"prod {called[f]} {called[a]} {called[b]} {scale}")
    return "\n".join([*lines, *(products[row] for row in sorted(products)), *further, "end", ""])


def programs(program, met):
    rng = random.Random(SEED + 1)
    for number in range(PROGRAMS):
        data = damaged.furnished(rng, damaged.some_network(rng))
        net = program.file("program.json", data.decode())
        for form in ("p", "q", "pq"):
            yield from differs(f"formulate --form {form} of {data.decode()}", program.run("formulate", net, "--form", form), (0, program_text(data, form), ""))
            met["programs"] += 1


# ---- members that change nothing


def written_out(net):
    """The same network in version 2, with each member that it has there."""
    arcs = [{"from": start, "to": end, "cost": 0} for start, end in net["arcs"]]
    return {**net, "version": 2, "pools": [{**pool, "ratio": {name: 1000 for name in net["qualities"]}} for pool in net["pools"]], "arcs": arcs}


def neutral(program, met):
    rng = random.Random(SEED + 2)
    for number in range(NEUTRAL):
        first = json.loads(damaged.some_network(rng))
        words, found = ["--nodes", rng.choice([0, 5, 20]), "--gap", "0", "--rule", rng.choice(["widest", "violated", "fewest"])], []
        for net in (first, written_out(first)):
            path, journal = program.file("neutral.json", net), program.folder / "neutral.journal"
            journal.unlink(missing_ok=True)
            solved = program.run("solve", path, *words, "--journal", journal)
            cert = program.file("neutral.cert", solved[1])
            found.append([solved, journal.read_bytes(), program.run("check", path, cert), program.run("report", path, cert), program.run("formulate", path)])
        met["networks in both versions"] += 1
        for what, (one, other) in zip(("solve", "the journal", "check", "report", "formulate"), zip(*found)):
            if one != other:
                yield f"network {number}: {what} is another in version 2: {one!r:.300} {other!r:.300} {json.dumps(first)}"


def faults(part, program, met):
    try:
        yield from (f"{part.__name__}: {fault}" for fault in part(program, met))
    except Apart as fault:
        yield f"{part.__name__}: {fault}"


# ---- made networks, tightened and loosened


def dearer(rng, net):
    """With arcs that cost something and carry so much at most: each of its plans is one of the network, and costs as much there at most."""
    arcs = [{"from": start, "to": end, "cost": rng.choice([0, 1, "0.5"]), **({"max": rng.choice([10, 25, 60])} if rng.random() < 0.5 else {})} for start, end in net["arcs"]]
    return {**net, "version": 2, "arcs": arcs}


def cleaner(rng, net):
    """With pools that take something out, where qualities are above 0 and only have a most: each plan of the network is one of it."""
    return {**net, "version": 2, "pools": [{**pool, "ratio": {name: rng.choice([300, 700, 1000]) for name in net["qualities"]}} for pool in net["pools"]]}


def made_networks(program, met):
    rng = random.Random(SEED + 3)
    for number in range(1, MADE + 1):
        net = json.loads(program.run("make", number)[1])
        (_, one), (_, dear), (_, clean) = (program.solve(each, "--nodes", "8") for each in (net, dearer(rng, net), cleaner(rng, net)))
        met["made networks, with costs and maxima, and with ratios"] += 1
        for what, low, high in (("dearer", one, dear), ("cleaner", clean, one)):
            if not low.bound * high.cost[1] <= high.cost[0]:
                yield f"network {number}, {what}: a plan costs {high.cost}, and the bound of what has all of its plans is {low.bound}"


def main(path):
    met, differ = Counter(), []
    with tempfile.TemporaryDirectory() as folder:
        program = Program(path, Path(folder))
        for part in (worked, best_costs, by_grid, programs, neutral, made_networks):
            differ += faults(part, program, met)
    print(*differ, sep="\n", end="\n" if differ else "")
    print("; ".join(f"{count} {what}" for what, count in met.items()) + f"; {len(differ)} differ")
    return 1 if differ else 0


if __name__ == "__main__":
    sys.exit(main(*sys.argv[1:]))
