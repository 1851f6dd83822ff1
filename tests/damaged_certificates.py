#!/usr/bin/env python3
"""Whether `tools/second_checker.py` and the program say the same of certificates.

`damaged_certificates.py POOL` compares the line and the status of `POOL check NET CERT` with those of the second checker:
on the certificates of examples/, on mutations of them from a fixed seed, and on certificates with splits and proofs for
networks of both versions that it makes. It prints what differs, and how often each answer was met.
"""

import json
import random
import subprocess
import sys
import tempfile
from collections import Counter
from importlib.machinery import SourceFileLoader
from pathlib import Path
from types import SimpleNamespace

sys.dont_write_bytecode = True
TOP = Path(__file__).resolve().parent.parent
checker = SourceFileLoader("second_checker", str(TOP / "tools" / "second_checker.py")).load_module()
MUTATIONS = 500
TREES = 200
TREES_OF_VERSION_2 = 200
SEED = 1976
EDGES = [0, 1, 2, 2**31, 2**32 - 1, 2**32, 2**63 - 1, 2**63, 2**64 - 1, 2**64, 2**126, 2**127 - 1, 2**127, 10**40]


# ---- the examples, and mutations of them


def examples():
    """Each certificate of examples/ with its network: that of the longest name that its own begins with."""
    nets = sorted((TOP / "examples").glob("*.json"), key=lambda path: -len(path.stem))
    for cert in sorted((TOP / "examples").glob("*.cert")):
        yield next(net for net in nets if cert.stem.startswith(net.stem)), cert.read_bytes()
    for cert in sorted((TOP / "examples" / "refused").glob("*.cert")):
        name = "two_feeds" if cert.stem in ("split", "place", "proof") else "row1"
        yield TOP / "examples" / f"{name}.json", cert.read_bytes()


def other_number(rng, field):
    """Another number in the place of a field, which may be none."""
    number = int(field)
    near = [number + 1, max(0, number - 1), -number, number * 2, number // 2, number * 10**9, rng.randrange(5), rng.randrange(40)]
    return str(rng.choice(near if rng.random() < 0.85 else EDGES + [-edge for edge in EDGES])).encode()


def change_field(rng, lines):
    numbers = [(at, n) for at, line in enumerate(lines) for n, field in enumerate(line.split(b" ")) if field.lstrip(b"-").isdigit()]
    numbers += [(at, n) for at, n in numbers if lines[at].startswith((b"split ", b"proof "))] * 4
    if not numbers:
        return
    at, n = rng.choice(numbers)
    fields = lines[at].split(b" ")
    fields[n] = rng.choice([other_number(rng, fields[n])] * 18 + [b"", b"-0", b"0" + fields[n], b"+1", b"1.0", b"x"])
    lines[at] = b" ".join(fields)


def change_lines(rng, lines):
    at = rng.randrange(len(lines))
    other = rng.randrange(len(lines))
    if rng.random() < 0.5:
        lines.insert(other, lines[at])
    else:
        lines[at], lines[other] = lines[other], lines[at]
    if rng.random() < 0.3:
        del lines[rng.randrange(len(lines))]


def change_bytes(rng, data):
    at = rng.randrange(len(data) + 1)
    return rng.choice([data[:at], data[:at] + data[at + 1 :], data[:at] + bytes([rng.choice(b"0123456789 -\n\r\xff")]) + data[at:],
                       data + b"\n", data.replace(b"\n", b"\r\n"), data[:at] + data[at:].replace(b" ", b"  ", 1)])


def mutated(rng, data):
    for _ in range(rng.choice([1, 1, 1, 2])):
        lines = data.split(b"\n")
        rng.choice([change_field] * 9 + [change_lines])(rng, lines)
        data = b"\n".join(lines)
    return change_bytes(rng, data) if rng.random() < 0.1 else data


# ---- networks, and certificates with splits and proofs for them


def some_network(rng):
    """A small network of up to three pools and three qualities, with limits on some of them."""
    qualities = [f"K{k}" for k in range(rng.randrange(4))]
    sources, pools, products = ([f"{letter}{n}" for n in range(rng.randint(1, most))] for letter, most in (("S", 4), ("P", 3), ("X", 3)))
    arcs = {(rng.choice(sources), pool) for pool in pools for _ in range(3)} | {(pool, rng.choice(products)) for pool in pools for _ in range(2)}
    arcs |= {(rng.choice(sources), rng.choice(products)) for _ in range(rng.randrange(4))}

    def quantity(most):
        return rng.choice([rng.randrange(most), f"{rng.randrange(most)}.{rng.randrange(10**6):06}"])

    def optional(most):
        return {"max": quantity(most)} if rng.random() < 0.7 else {}

    def limits():
        return {name: rng.choice([-3, 0, 2, "2.5", 4]) for name in qualities if rng.random() < 0.4}

    net = {"version": 1, "qualities": qualities}
    net["sources"] = [{"name": name, "cost": quantity(20), **optional(30), "quality": {k: rng.randint(-2, 5) for k in qualities}} for name in sources]
    net["pools"] = [{"name": name, **optional(200)} for name in pools]
    net["products"] = [{"name": name, "price": quantity(30), "max": quantity(100), "most": limits()} for name in products]
    for product in net["products"]:
        product["least"] = {k: -4 for k in limits()}
    net["arcs"] = rng.sample(sorted(arcs), len(arcs))
    return json.dumps(net).encode()


def furnished(rng, data):
    """The same network in version 2: some arcs have a cost or a maximum, and pools take out a part of some qualities."""
    net = json.loads(data)
    net["version"] = 2
    for at, (start, end) in enumerate(net["arcs"]):
        arc = {"from": start, "to": end}
        if rng.random() < 0.5:
            arc["cost"] = rng.choice([-2, 0, 1, "0.25", 4, f"{rng.randrange(6)}.{rng.randrange(10**6):06}"])
        if rng.random() < 0.5:
            arc["max"] = rng.choice([0, 7, 20, "12.5", 90, f"{rng.randrange(60)}.{rng.randrange(10**6):06}"])
        if len(arc) > 2 or rng.random() < 0.2:
            net["arcs"][at] = arc
    for pool in net["pools"]:
        if rng.random() < 0.7:
            pool["ratio"] = {name: rng.choice([0, 1, 250, 500, 999, 1000, rng.randrange(1001)]) for name in net["qualities"] if rng.random() < 0.7}
    return json.dumps(net).encode()


def some_splits(rng, net):
    """Splits in order, but for a rare one; and the ends of each node's box."""
    splits, boxes, leaves = [], [(net.low, net.high)], [0]
    for _ in range(rng.randrange(7)):
        leaf = rng.choice(leaves)
        low, high = boxes[leaf]
        open_coords = [c for c in range(net.coordinates) if high[c] - low[c] >= 2]
        if not open_coords:
            continue
        coord = rng.choice(open_coords)
        cut = rng.choice([rng.randint(low[coord] + 1, high[coord] - 1), (low[coord] + high[coord]) // 2])
        leaves.remove(leaf)
        leaves += [len(boxes), len(boxes) + 1]
        boxes += [(low, high[:coord] + [cut] + high[coord + 1 :]), (low[:coord] + [cut] + low[coord + 1 :], high)]
        splits.append((leaf, coord, cut))
    if splits and rng.random() < 0.1:
        at = rng.randrange(len(splits))
        splits[at] = rng.choice([(splits[at][0], net.coordinates, 1), (2 * at + 1, *splits[at][1:]), (*splits[at][:2], boxes[splits[at][0]][1][splits[at][1]])])
    return splits, boxes


def scarce(rng, net, scale):
    """Multipliers that take one source for scarce: where it is, they show more than the reach bound."""
    ns, np = net.shape[:2]
    dear = [scale * source.cost for source in net.sources]
    dear[rng.randrange(ns)] += scale * rng.randrange(20 * 10**6)
    least = [min(dear[s] + scale * arc.cost for (s, l), arc in zip(net.feeds, net.into) if l == pool) for pool in range(np)]
    ways = [(least[l] + scale * arc.cost, j) for (l, j), arc in zip(net.outs, net.out)]
    ways += [(dear[s] + scale * arc.cost, j) for (s, j), arc in zip(net.directs, net.past)]
    mults = {s: price - scale * net.sources[s].cost for s, price in enumerate(dear)}
    mults |= {ns + pool: price for pool, price in enumerate(least)}
    for j, product in enumerate(net.products):
        mults[ns + 2 * np + j] = max([0] + [scale * product.price - price for price, end in ways if end == j])
    return mults


def written_proof(node, scale, mults):
    parts = [number for row in sorted(mults) if mults[row] for number in (row, mults[row])]
    return [node, scale, len(parts) // 2, *parts]


def some_proof(rng, net, node, box):
    """A proof of some multipliers that is in order in the box, if one is found; now and then one that isn't."""
    for _ in range(20):
        size = rng.choice([1, 10, 10**3, 10**6, 2**40, 2**62])
        rows = rng.sample(range(len(net.rows)), min(len(net.rows), rng.randint(0, 6)))
        mults = {row: rng.randint(1, size) * (1 if net.rows[row][0] else rng.choice([-1, 1])) for row in rows}
        proof = written_proof(node, rng.choice([0, 1, 1, 7, 10**3, 2**20, 2**40]), mults)
        try:
            checker.proof_number(net, proof, *box)
            return proof
        except checker.Refused:
            if rng.random() < 0.03:
                return proof
    return [node, 1, 0]


def strong_proof(rng, net, node, box):
    """The best of some proofs that take a source for scarce, with a few small multipliers more."""
    proofs = []
    for _ in range(12):
        scale = rng.choice([1, 7, 10**3, 2**20])
        mults = scarce(rng, net, scale)
        for row in rng.sample(range(len(net.rows)), min(len(net.rows), rng.randrange(4))):
            mults[row] = mults.get(row, 0) + rng.randint(0, 30)
        proof = written_proof(node, scale, mults)
        try:
            proofs.append((checker.proof_number(net, proof, *box) // scale, proof))
        except checker.Refused:
            pass
    return max(proofs)[1] if proofs else [node, 1, 0]


def text_of(net, splits, proofs, kind, bound):
    """The text of a certificate of the zero plan, of a bound, or of none."""
    shape = net.shape
    lines = ["poolcert 1", f"kind {kind}", "shape " + " ".join(map(str, shape))]
    if kind == "gap":
        firsts = [int(all(net.feeds[f][1] != pool for f in range(e))) for e, (_, pool) in enumerate(net.feeds)]
        lines.append("plan 1 1")
        lines += [" ".join([word, *map(str, numbers)]) for word, numbers in
                  (("weights", firsts), ("outflows", [0] * shape[5]), ("direct", [0] * shape[6]))]
    for word, tuples in (("split", splits), ("proof", proofs)):
        lines += [f"{word}s {len(tuples)}"] + [" ".join(map(str, [word, *numbers])) for numbers in tuples]
    lines += ["cost 0 1"] * (kind == "gap") + [f"bound {bound}"] * (kind != "none") + [f"gap {-bound} 1"] * (kind == "gap") + ["end", ""]
    return "\n".join(lines).encode()


def some_tree(rng, data):
    """A certificate for a network that claims what its tree shows, or nearly that."""
    net = checker.judge_rows(checker.walk(checker.parse_json(data)))
    net.rows = checker.make_rows(net)
    splits, boxes = some_splits(rng, net)
    nodes = sorted(rng.sample(range(len(boxes)), rng.randint(0, len(boxes))))
    nodes = nodes if 0 in nodes or rng.random() < 0.4 else [0, *nodes]
    proofs = [rng.choice([some_proof, strong_proof])(rng, net, node, boxes[node]) for node in nodes]
    try:
        bound = checker.tree_bound(net, SimpleNamespace(splits=splits, proofs=proofs))
    except checker.Refused:
        bound = 0
    kind = "none" if bound is None else rng.choice(["gap", "bound"])
    if rng.random() < 0.05:
        kind, bound = rng.choice([("none", 0), ("bound", (bound or 0) + 1), ("gap", (bound or 0) - 1)])
    return text_of(net, splits, proofs, kind, bound)


# ---- the comparison


def told_by_program(pool, net, cert):
    run = subprocess.run([pool, "check", net, cert], capture_output=True, text=True)
    return run.returncode, (run.stdout if run.returncode < 2 else run.stderr).rstrip("\n")


def cases(rng):
    """Networks and certificates."""
    known = [(net.read_bytes(), cert) for net, cert in examples()]
    yield from known
    for _ in range(MUTATIONS):
        net, cert = rng.choice([pair for pair in known if rng.random() < 0.5 or b"\nproof " in pair[1]] or known)
        yield net, mutated(rng, cert)
    for _ in range(TREES):
        net = some_network(rng) if rng.random() < 0.7 else rng.choice(known)[0]
        yield net, some_tree(rng, net)
    for _ in range(TREES_OF_VERSION_2):
        net = furnished(rng, some_network(rng))
        yield net, some_tree(rng, net)


def main(pool):
    met, differ, count = Counter(), [], 0
    with tempfile.TemporaryDirectory() as folder:
        net, cert = str(Path(folder) / "net.json"), str(Path(folder) / "cert")
        for net_bytes, cert_bytes in cases(random.Random(SEED)):
            Path(net).write_bytes(net_bytes)
            Path(cert).write_bytes(cert_bytes)
            program, here = told_by_program(pool, net, cert), checker.run([net, cert])
            count += 1
            met[" ".join(word for word in program[1].split()[:3] if not word.lstrip("-").isdigit())] += 1
            if program != tuple(here):
                differ.append(f"the program says {program}, the second checker {here}: {net_bytes!r} {cert_bytes[:600]!r}")
    print(*differ, sep="\n", end="\n" if differ else "")
    print(f"{count - len(differ)} of {count} certificates alike; " + ", ".join(f"{answer}: {n}" for answer, n in sorted(met.items())))
    return 1 if differ else 0


if __name__ == "__main__":
    sys.exit(main(*sys.argv[1:]))
