#!/usr/bin/env python3
"""Whether `tools/pooling.py` reads, checks and writes as docs/FORMATS.md says: `shared_module.py [POOL]`

Certificates, damaged and whole, are judged as `tools/second_checker.py` judges them, which shares no line with it; canonical
texts and journals are those of tests/journal_bytes.py, byte for byte; rules, money and means are worked out by hand; and
`pooling.solve` is asked for the best costs that are known. POOL is the program, else that of the door. It prints what
differs, and how many certificates there were.
"""

import io
import os
import random
import sys
import tempfile
import types
from fractions import Fraction
from pathlib import Path

sys.dont_write_bytecode = True
TOP = Path(__file__).resolve().parent.parent
sys.path[:0] = [str(TOP / "tools"), str(TOP / "tests")]
import damaged_certificates as damaged
import journal_bytes as made
import pooling

SEED = 1978
EXAMPLES, WORKED = TOP / "examples", TOP / "tests" / "worked"
checker = damaged.checker

# Best costs that the literature has, to so many decimals, and what their networks are called here.
BEST = {"haverly1": -400, "haverly2": -600, "haverly3": -750, "wastewater": -298, "bental4": -450, "foulds2": -1100, "adhya4": Fraction(-877646, 1000)}


def judged(net, data):
    """The cause that the module tells for a certificate, or `accepted`."""
    try:
        pooling.certificate_of(pooling.Network.of(net), io.BytesIO(data), "cert")
        return "accepted"
    except pooling.Ends as end:
        return end.lines[0].split(": ", 1)[1]


def certificates(counts):
    with tempfile.TemporaryDirectory() as folder:
        net, cert = Path(folder) / "net", Path(folder) / "cert"
        for net_bytes, cert_bytes in damaged.cases(random.Random(SEED)):
            net.write_bytes(net_bytes)
            cert.write_bytes(cert_bytes)
            wanted = checker.run([str(net), str(cert)])[1]
            found = judged(net_bytes, cert_bytes)
            counts[found.split()[0]] = counts.get(found.split()[0], 0) + 1
            if found != ("accepted" if wanted.startswith("accepted") else wanted):
                yield f"a certificate is {found!r} here, and the second checker says {wanted!r}: {cert_bytes[:300]!r}"
            if found == "accepted" and pooling.CertificateReader(io.BytesIO(cert_bytes)).certificate().text().encode() != cert_bytes:
                yield f"a certificate is written otherwise than it was read: {cert_bytes[:300]!r}"


def networks(_):
    """Canonical texts, and numbers that stand for absent ones; a made network's text is canonical."""
    rng = random.Random(SEED)
    texts = [path.read_bytes() for path in sorted(EXAMPLES.glob("*.json"))] + [damaged.some_network(rng) for _ in range(40)]
    texts += [damaged.furnished(rng, damaged.some_network(rng)) for _ in range(40)] + [(WORKED / "desulfured.json").read_bytes()]
    for text in texts:
        if pooling.Network.of(text).canonical() != made.canonical(text):
            yield f"another canonical text of {text[:200]!r}"
    shown = '{"arcs":[["A","X"]],"pools":[],"products":[{"least":{},"max":100,"min":0,"most":{"sulfur":3},"name":"X","price":9}],"qualities":["sulfur"],"sources":[{"cost":6,"max":100,"name":"A","quality":{"sulfur":3}}],"version":1}'
    if pooling.Network.read(EXAMPLES / "row1.json").canonical() != shown:
        yield "the canonical text of docs/FORMATS.md is another"
    if pooling.Network.read(WORKED / "desulfured.json").canonical() != (WORKED / "desulfured.canonical").read_text():
        yield "the canonical text of a pool that takes out half of the sulfur is another"
    yield from (f"{what} makes another network" for what, net in neutral_networks() if net.canonical() != shown or not net.is_plain())


def neutral_networks():
    """What version 2 can write and version 1 can say: the first row's network, with members that change nothing."""
    value = pooling.json.loads((EXAMPLES / "row1.json").read_text())
    arcs = ["a list", ["A", "X"]], ["an object", {"from": "A", "to": "X"}], ["a cost of 0", {"from": "A", "to": "X", "cost": "-0"}]
    for what, arc in arcs:
        yield what, pooling.network_of({**value, "version": 2, "arcs": [arc]})


def changes(_):
    """Members are named with their nodes, also where a name has points, and are judged as those of a file."""
    value = {"version": 1, "qualities": ["a.b"], "sources": [{"name": "S.max", "cost": 1, "quality": {"a.b": 2}}],
             "products": [{"name": "X", "price": 2, "max": 10}], "arcs": [["S.max", "X"]]}
    net = pooling.network_of(value)
    other = net.changed({"sources.S.max.cost": 1_500_000, "products.X.most.a.b": 2_000_000, "sources.S.max.max": 4_000_000})
    if (other.sources[0].cost, other.sources[0].max, other.products[0].most) != (1_500_000, 4_000_000, {0: 2_000_000}):
        yield f"changed: {other.sources} {other.products}"
    if (net.quantity("sources.S.max.max"), net.quantity("products.X.least.a.b"), net.quantity("sources.S.max.quality.a.b")) != (10_000_000, None, 2_000_000):
        yield "the numbers of members are others"
    treated = pooling.Network.read(WORKED / "desulfured.json")
    other = treated.changed({"arcs.A -> P.max": 90_000_000, "arcs.P -> X.cost": -250_000, "pools.P.ratio.sulfur": 400_000_000})
    if [(arc.cost, arc.max) for arc in other.arcs] != [(500_000, 90_000_000), (-250_000, None)] or other.pools[0].ratio != [400]:
        yield f"changed: {other.arcs} {other.pools}"
    if [treated.quantity(f"arcs.{member}") for member in ("A -> P.cost", "A -> P.max", "P -> X.cost", "P -> X.max")] != [500_000, 80_000_000, 0, None]:
        yield "the numbers of arcs are others"
    if treated.quantity("pools.P.ratio.sulfur") != 500_000_000 or pooling.Network.read(EXAMPLES / "two_feeds.json").quantity("pools.P.ratio.sulfur") != 1_000_000_000:
        yield "the ratios are others"
    second = net.changed({"arcs.S.max -> X.max": 3_000_000})
    if (second.value["version"], second.value["arcs"], net.value["version"]) != (2, [{"from": "S.max", "to": "X", "max": 3}], 1):
        yield f"a maximum of an arc makes {second.value}"
    for path, number, status in (("arcs.S.max -> X.min", 1, 2), ("arcs.X -> S.max.max", 1, 2), ("arcs.S.max -> X.max", -1, 3), ("products.Y.max", 1, 2), ("products.X.cost", 1, 2), ("products.X.most", 1, 2), ("products.X.max", -1, 3), ("", 1, 2)):
        try:
            net.changed({path: number})
            yield f"{path} = {number} is taken"
        except pooling.Ends as end:
            if end.status != status:
                yield f"{path} = {number} ends with {end.status}"


def numbers(_):
    wanted = {Fraction(0): "0", Fraction(-298): "-298", Fraction(1, 8): "0.125", Fraction(-1, 10**12): "-0.000000000001", Fraction(5, 3): "5/3",
              Fraction(7, 2**20): "0.00000667572021484375", Fraction(-2100): "-2100", Fraction(3, 40): "0.075"}
    yield from (f"{value} is written {pooling.exact(value)}" for value, text in wanted.items() if pooling.exact(value) != text)


# Two feeds of one pool, whose sulfur is 3 and 1; X takes 100 at most. What each plan breaks first, worked out by hand.
RULES = [
    ([30, 10], [40], None),
    ([30, 10], [41], "into pool P flow 40, and out of it 41"),
    ([-1, 1], [0], "A -> P carries -1, and a flow is 0 at least"),
    ([101, 0], [101], "source A sends 101, and 100 is its maximum"),
    ([60, 50], [110], "pool P passes 110, and 100 is its maximum"),
]

# A pool that takes out half of A's sulfur of 3, where the arc from A carries 80 at most and costs 0.5: the same for its one feed
# and its one out, where so many thousandths of the sulfur leave the pool.
TREATED = [
    (500, 80, None),
    (500, Fraction(80_000_001, 10**6), "A -> P carries 80.000001, and 80 is its maximum"),
    (501, 80, "product X has sulfur 1.503, and 1.5 is the most that it may have"),
    (501, 81, "product X has sulfur 1.503, and 1.5 is the most that it may have"),
]


def rules(_):
    net = pooling.Network.read(EXAMPLES / "two_feeds.json")
    for feeds, outs, words in RULES:
        flows = pooling.Flows(*[[Fraction(flow * pooling.UNIT) for flow in part] for part in (feeds, outs, [])])
        found = next(pooling.broken_rules(net, flows), None)
        if (found and found.words) != words:
            yield f"{feeds} {outs}: {found}"
        if words is None:
            plan = pooling.written_plan(net, flows)
            if (plan.base, plan.flow_base, plan.weights, plan.outflows) != (4, 1, [3, 1], [40_000_000]) or plan.judge(net) != (-80_000_000_000_000, 4):
                yield f"the plan is written {plan}, and costs {plan.judge(net)}"
            if pooling.pool_means(net, flows) != {(0, 0): 2_500_000} or pooling.product_means(net, flows) != {(0, 0): 2_500_000}:
                yield "the means are others than (30 * 3 + 10 * 1) / 40"
    net = pooling.Network.read(EXAMPLES / "haverly1.json")
    half = pooling.Flows(*[[Fraction(flow * pooling.UNIT) for flow in part] for part in ([50, 50], [0, 100], [0, 100])])
    if next(pooling.broken_rules(net, half)).words != "product Y has sulfur 2, and 1.5 is the most that it may have":
        yield "Haverly 1 with half of each feed keeps the limit of Y"
    net = pooling.Network.read(WORKED / "desulfured.json")
    for ratio, flow, words in TREATED:
        other, flows = net.changed({"pools.P.ratio.sulfur": ratio * pooling.UNIT}), pooling.Flows(*[[Fraction(flow * pooling.UNIT)] * n for n in (1, 1, 0)])
        found = next(pooling.broken_rules(other, flows), None)
        if (found and found.words) != words or pooling.cost_of(other, flows) != -flow * 2_500_000 * pooling.UNIT:
            yield f"a ratio of {ratio} and {flow}: {found}, {pooling.cost_of(other, flows)}"
        if (pooling.pool_means(other, flows), pooling.leaving_means(other, flows)) != ({(0, 0): 3_000_000}, {(0, 0): 3000 * ratio}):
            yield f"a ratio of {ratio}: the means of the pool are others"


def journals(_):
    """The journal of a plan and a tree, byte for byte; and what stands in it, read again."""
    plan = pooling.WrittenPlan(4, 2, [3, 1], [80_000_000], [])
    proof = pooling.Proof(3, 0, pooling.array("I", [11]), pooling.array("q", [1]))
    net = pooling.Network.read(EXAMPLES / "two_feeds.json")
    found = pooling.journal_of(net, plan, [(0, 0, 524288), (1, 1, 262144)], [proof])
    payloads = [made.plan(4, 2, [3, 1], [80_000_000], []), made.split(0, 0, 524288), made.split(1, 1, 262144, made.proof(0, (11, 1)))]
    if found != made.journal(made.canonical((EXAMPLES / "two_feeds.json").read_bytes()), *payloads):
        yield "the journal of two feeds has other bytes"
    search = pooling.Search(net.canonical().encode())
    for payload in payloads:
        search.take(pooling.entry_of(payload, search.longest))
    if (search.cost, search.bound(), search.splits) != (-20 * 10**12, -300 * 10**12, [(0, 0, 524288), (1, 1, 262144)]):
        yield f"the journal says cost {search.cost}, bound {search.bound()}"


def solved(_):
    for name, best in BEST.items():
        found = pooling.solve(str(EXAMPLES / f"{name}.json"), gap=Fraction(1, 100), nodes=1000)
        if found.kind != "gap" or not found.bound <= best + Fraction(1, 1000) or not best - Fraction(1, 1000) <= found.cost <= best + Fraction(1, 100):
            yield f"{name}: cost {found.cost}, bound {found.bound}, and {best} is best"
    found = pooling.solve(pooling.json.loads((EXAMPLES / "haverly1.json").read_text()), gap="0.001")
    if (found.cost, found.flows["C", "Y"], found.flows["A", "P"], found.qualities["Y", "sulfur"], found.gap <= Fraction(1, 1000)) != (-400, 100, 0, Fraction(3, 2), True):
        yield f"Haverly 1: {found}"
    found_by = [pooling.solve(str(TOP / "tests" / "worked" / "haverly1_and_one.json"), gap="0.001", squeeze=word) for word in ("on", "off")]
    if [found.cost for found in found_by] != [-7400, -7400]:
        yield f"Haverly 1 and one more: {found_by}"
    raised = pooling.solve(pooling.json.loads((EXAMPLES / "haverly1.json").read_text()), gap=0, pivots=1000)
    if (raised.status, raised.cost, raised.bound) != (0, -400, -400):
        yield f"Haverly 1, with halves raised: {raised}"
    if pooling.solve(str(EXAMPLES / "no_plan.json")).kind != "none" or found.tables()["flows"] is None:
        yield "a network without a plan is solved"
    sys.modules["pandas"] = types.SimpleNamespace(DataFrame=lambda rows: ("a table", len(rows)))
    if found.tables() != {"flows": ("a table", 6), "qualities": ("a table", 1)}:
        yield f"Haverly 1 as tables: {found.tables()}"
    del sys.modules["pandas"]
    for words, status in (({"nodes": 200001}, 4), ({"rule": "wide"}, 2), ({"journal": str(EXAMPLES / "row1.json")}, 33)):
        try:
            pooling.solve(str(EXAMPLES / "row1.json"), **words)
            yield f"{words} is answered"
        except pooling.Failed as failed:
            if failed.status != status or not failed.lines[0].startswith("pool: "):
                yield f"{words} ends with {failed.status} {failed.lines}"
    for net, status in (("nowhere.json", None), ({"version": 1}, 3), ({"version": 1, "sources": [], "products": [], "arcs": [], "note": 1}, 3)):
        try:
            pooling.solve(net)
            yield f"{net} is solved"
        except pooling.Ends as end:
            if end.status != status or ": the file: " not in end.lines[0] and ": note: " not in end.lines[0]:
                yield f"{net} ends with {end.status} {end.lines}"
        except FileNotFoundError:
            pass


def main(*pool):
    if pool:
        os.environ["POOL"] = os.path.abspath(pool[0])
    counts, parts = {}, [networks, changes, numbers, rules, journals, certificates, solved]
    differ = [fault for part in parts for fault in part(counts)]
    print(*differ, sep="\n", end="\n" if differ else "")
    print(f"{len(parts)} parts, {sum(counts.values())} certificates, {counts.get('accepted', 0)} of them accepted, {len(differ)} differ")
    return 1 if differ else 0


if __name__ == "__main__":
    sys.exit(main(*sys.argv[1:]))
