"""What the tools of this folder share, and what a Python program of one's own may use: networks, plans, certificates,
journals, exact money.

    import pooling
    found = pooling.solve("examples/haverly1.json", gap="0.001")
    found.cost, found.bound, found.flows["C", "Y"]          # Fractions, in money and in units of flow

All numbers are whole numbers or `Fraction`. A network's own numbers are counted as docs/FORMATS.md counts them: flows and
qualities in millionths, costs in picos. `Network.read`, `read_certificate`, `check` and `solve` raise `Ends`, which has the
status of docs/FORMATS.md and the lines that a tool tells. Nothing here needs to be trusted: `./pool check` judges
certificates, and `tools/second_checker.py`, which shares nothing with this file, does so again.

It needs Python 3.9 and nothing else; `solve` runs the program beside it.
"""

import heapq
import io
import json
import os
import re
import struct
import subprocess
import sys
import tempfile
from array import array
from dataclasses import dataclass
from fractions import Fraction
from importlib.machinery import SourceFileLoader
from types import ModuleType, SimpleNamespace

HERE = os.path.dirname(os.path.realpath(__file__))
if HERE not in sys.path:
    sys.path.append(HERE)  # behind the folders of who imports this
from pooling_plans import PICOS, UNIT, Broken, Flows, WrittenPlan, broken_rules, cost_of, exact, leaving_means, money, pool_means, product_means, quantity, shown, totals, units, written_plan
from pooling_rows import GRAIN, MAX_SPLITS, Fault, Proof, Rows, Shown, Tree, leaf_bound, new_leaf, refuse, tree_bounds

CERTIFICATE_BYTES = 1_073_741_824
U32, U64, I64, I128 = (0, 2**32 - 1), (0, 2**64 - 1), (-(2**63), 2**63 - 1), (-(2**127), 2**127 - 1)


def beside(name):
    """The script of that name in this folder, as a module, which has a name that no other has."""
    own = f"pooling_{name}"
    module = sys.modules[own] = ModuleType(own)
    SourceFileLoader(own, os.path.join(HERE, name)).exec_module(module)
    return module


explain = beside("explain")


class Ends(Exception):
    """A tool ends: its status, and the lines that it tells on standard error."""

    def __init__(self, status, *lines):
        super().__init__(status, *lines)
        self.status, self.lines = status, lines


# ---- the network


@dataclass
class Source:
    name: str
    cost: int
    max: int
    limited: bool  # whether the file says a maximum
    quality: list


@dataclass
class Pool:
    name: str
    max: int
    limited: bool
    ratio: list  # by the number of the quality: how many thousandths of what enters leave it


@dataclass
class Arc:
    start: str
    end: str
    cost: int = 0
    max: object = None  # or nothing
    at: int = 0  # its number in the file

    def name(self):
        return f"{self.start} -> {self.end}"


@dataclass
class Product:
    name: str
    price: int
    min: int
    max: int
    least: dict  # by the number of the quality
    most: dict
    limited: bool = True


class Network:
    """A network without a fault, by number."""

    def __init__(self, value):
        self.value, self.title = value, value.get("title", "")
        self.qualities = value.get("qualities", [])
        place = {name: k for k, name in enumerate(self.qualities)}
        count = lambda quantity: quantity * UNIT if isinstance(quantity, int) else millionths_of(quantity)
        limits = lambda row, word: {place[name]: count(row[word][name]) for name in self.qualities if name in row.get(word, {})}
        self.products = [Product(row["name"], count(row["price"]), count(row.get("min", 0)), count(row["max"]), limits(row, "least"), limits(row, "most"))
                         for row in value["products"]]
        whole = sum(product.max for product in self.products)
        most = lambda row: count(row["max"]) if "max" in row else whole
        self.sources = [Source(row["name"], count(row["cost"]), most(row), "max" in row, [count(row["quality"][name]) for name in self.qualities])
                        for row in value["sources"]]
        self.pools = [Pool(row["name"], most(row), "max" in row, [row.get("ratio", {}).get(name, 1000) for name in self.qualities]) for row in value.get("pools", [])]
        self.scale = 1 if all(ratio == 1000 for pool in self.pools for ratio in pool.ratio) else 1000
        self.retained = [[ratio if self.scale > 1 else 1 for ratio in pool.ratio] for pool in self.pools]  # in parts of the scale
        rows = [row if isinstance(row, dict) else {"from": row[0], "to": row[1]} for row in value["arcs"]]
        self.number_arcs([Arc(row["from"], row["to"], count(row.get("cost", 0)), count(row["max"]) if "max" in row else None, at) for at, row in enumerate(rows)])

    def number_arcs(self, arcs):
        source, pool, product = ({node.name: n for n, node in enumerate(part)} for part in (self.sources, self.pools, self.products))
        kinds = [[arc for arc in arcs if arc.end in pool], [arc for arc in arcs if arc.start in pool], [arc for arc in arcs if arc.start in source and arc.end in product]]
        self.feed_arcs, self.out_arcs, self.direct_arcs = kinds
        self.arcs = [arc for kind in kinds for arc in kind]  # in the order of feeds, outs, directs
        self.feeds = [(source[arc.start], pool[arc.end]) for arc in self.feed_arcs]
        self.outs = [(pool[arc.start], product[arc.end]) for arc in self.out_arcs]
        self.directs = [(source[arc.start], product[arc.end]) for arc in self.direct_arcs]
        self.paths = [(e, o) for l in range(len(self.pools)) for e, (_, end) in enumerate(self.feeds) if end == l
                      for o, (start, _) in enumerate(self.outs) if start == l]
        self.shape = [len(part) for part in (self.sources, self.pools, self.products, self.qualities, self.feeds, self.outs, self.directs)]

    @classmethod
    def of(cls, data, name="the network"):
        """The network of a file's bytes; the first fault ends it, with its line, its member, and what would be right."""
        faults, _, text = explain.judged(data)
        if faults:
            fault = faults[0]
            line, column = explain.line_and_column(text, fault.at)
            raise Ends(3, f"{name}:{line}:{column}: {fault.path or 'the file'}: {explain.CAUSES[fault.cause]} ({fault.cause})",
                       f"    stands there: {fault.written}", f"    right:        {fault.right}")
        return cls(json.loads(text))

    @classmethod
    def read(cls, path):
        with open(path, "rb") as file:
            return cls.of(file.read(explain.MAX_BYTES + 1), str(path))

    def kinds_of_arcs(self):
        """Of each kind of arc its name, where it starts, where it ends, and the pairs of numbers."""
        yield "feed", self.sources, self.pools, self.feeds
        yield "out", self.pools, self.products, self.outs
        yield "direct", self.sources, self.products, self.directs

    def arc_names(self):
        """The ends of each arc, in the order of feeds, outs, directs."""
        return [(arc.start, arc.end) for arc in self.arcs]

    def is_plain(self):
        """Whether version 1 of the file can say all of the network: no pool takes out anything, and no arc has a cost or a maximum."""
        return self.scale == 1 and not any(arc.cost or arc.max is not None for arc in self.arcs)

    def limits(self):
        """The limits that are set: sign, product, quality, limit; all mosts, then all leasts."""
        for sign, word in ((1, "most"), (-1, "least")):
            yield from ((sign, j, k, getattr(product, word)[k]) for j, product in enumerate(self.products) for k in sorted(getattr(product, word)))

    def canonical(self):
        """The canonical text of docs/FORMATS.md."""
        named = lambda limits: {self.qualities[k]: quantity(limit) for k, limit in limits.items()}
        plain = self.is_plain()
        value = {"version": 1 if plain else 2, "qualities": self.qualities, "arcs": [list(ends) for ends in self.arc_names()]}
        if not plain:
            most = lambda arc: {} if arc.max is None else {"max": quantity(arc.max)}
            value["arcs"] = [{"from": arc.start, "to": arc.end, "cost": quantity(arc.cost), **most(arc)} for arc in self.arcs]
        value["sources"] = [{"name": s.name, "cost": quantity(s.cost), "max": quantity(s.max), "quality": named(dict(enumerate(s.quality)))} for s in self.sources]
        ratios = lambda pool: {} if plain else {"ratio": dict(zip(self.qualities, pool.ratio))}
        value["pools"] = [{"name": pool.name, "max": quantity(pool.max), **ratios(pool)} for pool in self.pools]
        value["products"] = [{"name": p.name, "price": quantity(p.price), "min": quantity(p.min), "max": quantity(p.max), "least": named(p.least), "most": named(p.most)}
                             for p in self.products]
        return json.dumps(value, sort_keys=True, separators=(",", ":"))

    def changed(self, changes):
        """The network with other quantities in some of its members, which are named as in `products.X.max`, `pools.P.ratio.sulfur`
        and `arcs.A -> P.max`. A member of version 2 makes it one of version 2."""
        value = json.loads(json.dumps(self.value))
        for path, number in changes.items():
            kind, row, member, quality = self.member(path)
            rows, at = value[kind], row.at if kind == "arcs" else getattr(self, kind).index(row)
            if isinstance(rows[at], list):
                rows[at] = {"from": row.start, "to": row.end}
            if kind == "arcs" or member == "ratio":
                value["version"] = 2
            (rows[at].setdefault(member, {}) if quality else rows[at])[quality or member] = quantity(number)
        return Network.of(json.dumps(value, indent=1).encode(), "the changed network")

    def member(self, path):
        """The list of a member's name, its row there, the member, and its quality or nothing; names of nodes may have points."""
        kind, _, rest = path.partition(".")
        for row in getattr(self, kind) if kind in MEMBERS else []:
            name = row.name() if kind == "arcs" else row.name
            member, _, quality = rest[len(name) + 1 :].partition(".")
            if rest.startswith(name + ".") and member in MEMBERS[kind] and (quality in self.qualities) == (member in OF_QUALITY):
                return kind, row, member, quality if member in OF_QUALITY else None
        raise Ends(2, f"{path}: no member of this network, as sources.NAME.cost, pools.NAME.max or products.NAME.most.QUALITY, or arcs.FROM -> TO.max")

    def quantity(self, path):
        """The millionths of a member that is named like that: its stand-in where it is absent, or nothing."""
        _, row, member, quality = self.member(path)
        found = getattr(row, member)
        if quality is None:
            return found
        k = self.qualities.index(quality)
        return found.get(k) if isinstance(found, dict) else found[k] * (UNIT if member == "ratio" else 1)


MEMBERS = {"sources": ("cost", "max", "quality"), "pools": ("max", "ratio"), "products": ("price", "min", "max", "least", "most"), "arcs": ("cost", "max")}
OF_QUALITY = ("quality", "least", "most", "ratio")


def millionths_of(text):
    """The millionths of a number as a planner writes it, with six decimals at most, or nothing."""
    return explain.text_number(text) if isinstance(text, str) else None


# ---- certificates


@dataclass
class Certificate:
    kind: str
    shape: list
    plan: object  # a written plan, where the kind is gap
    splits: list  # of leaf, coordinate and cut
    proofs: list
    cost: object = None  # of the kind gap: picos and their base
    bound: object = None
    gap: object = None

    def lines(self):
        yield "poolcert 1"
        yield f"kind {self.kind}"
        yield line_of("shape", self.shape)
        if self.kind == "gap":
            plan = self.plan
            yield from (line_of("plan", [plan.base, plan.flow_base]), line_of("weights", plan.weights), line_of("outflows", plan.outflows), line_of("direct", plan.direct))
        yield f"splits {len(self.splits)}"
        yield from (line_of("split", split) for split in self.splits)
        yield f"proofs {len(self.proofs)}"
        for proof in self.proofs:
            yield line_of("proof", [proof.node, proof.scale, len(proof.rows), *(n for pair in zip(proof.rows, proof.multipliers) for n in pair)])
        if self.kind == "gap":
            yield line_of("cost", self.cost)
        if self.kind != "none":
            yield f"bound {self.bound}"
        if self.kind == "gap":
            yield line_of("gap", [self.gap, self.cost[1]])
        yield "end"

    def text(self):
        return "\n".join([*self.lines(), ""])


def line_of(word, numbers):
    return " ".join([word, *map(str, numbers)])


class CertificateReader:
    """Reads a certificate line by line, and keeps of each proof its numbers alone."""

    def __init__(self, stream):
        self.stream, self.taken, self.read = stream, 0, 0

    def line(self):
        self.taken += 1
        line = self.stream.readline()
        self.read += len(line)
        if self.read > CERTIFICATE_BYTES:
            raise Ends(5, "certificate too long")
        return line

    def fault(self, fault):
        refuse(fault, f"text {self.taken}")

    def take(self, word, count, *ranges):
        """The numbers of the next line; the last range goes on over and over."""
        return self.numbers(self.line(), word, count, ranges)

    def numbers(self, line, word, count, ranges):
        try:
            numbers = [int(part[:41]) for part in line[len(word) :].split()]
        except ValueError:
            numbers = None
        self.fault(numbers is None or line != line_of(word, numbers).encode() + b"\n" or len(numbers) != count)
        self.fault(any(not low <= number <= high for number, (low, high) in zip(numbers, [*ranges, *ranges[-1:] * len(numbers)])))
        return numbers

    def proof(self):
        line = self.line()
        parts = line.split(b" ", 4)
        self.fault(len(parts) < 4 or not parts[3].strip().isdigit())
        count = int(parts[3][:20])
        pairs = 2 * min(count, len(line))
        self.fault(count > len(line))
        node, scale, _, *rest = self.numbers(line, "proof", 3 + pairs, (U32, U64, U32, I64))
        self.fault(any(row < 0 or row > U32[1] for row in rest[::2]))
        return Proof(node, scale, array("I", rest[::2]), array("q", rest[1::2]))

    def certificate(self):
        self.take("poolcert", 1, (1, 1))
        line = self.line()
        self.fault(line not in (b"kind gap\n", b"kind bound\n", b"kind none\n"))
        kind, plan, cost, bound, gap = line[5:-1].decode(), None, None, None, None
        shape = self.take("shape", 7, U32)
        if kind == "gap":
            base, flow_base = self.take("plan", 2, U32)
            plan = WrittenPlan(base, flow_base, self.take("weights", shape[4], U32), self.take("outflows", shape[5], U64), self.take("direct", shape[6], U64))
        splits = [tuple(self.take("split", 3, U32, U32, I64)) for _ in range(*self.take("splits", 1, U32))]
        proofs = [self.proof() for _ in range(*self.take("proofs", 1, U32))]
        if kind == "gap":
            cost = self.take("cost", 2, I128, U64)
        if kind != "none":
            [bound] = self.take("bound", 1, I128)
        if kind == "gap":
            gap, _ = self.take("gap", 2, I128, (cost[1], cost[1]))
        self.take("end", 0, U32)
        self.taken += 1
        self.fault(self.stream.read(1))
        return Certificate(kind, shape, plan, splits, proofs, cost, bound, gap)


def check(net, certificate):
    """Raises the first cause to refuse a certificate; answers the bounds of its nodes."""
    refuse(certificate.shape != net.shape, "shape")
    cost = certificate.plan.judge(net) if certificate.kind == "gap" else None
    bounds = tree_bounds(Rows(net), certificate.splits, certificate.proofs)
    least = leaf_bound(certificate.splits, bounds)
    refuse((certificate.kind == "none") != (least is None), "kind")
    refuse(cost and tuple(certificate.cost) != cost, "cost")
    refuse(least and certificate.bound != least[0], "bound")
    refuse(cost and certificate.gap != cost[0] - least[0] * cost[1], "gap")
    return bounds


def read_certificate(net, path):
    """The certificate of a file and the bounds of its nodes, checked for the network; a fault ends it with status 1."""
    with open(path, "rb") as file:
        return certificate_of(net, file, path)


def certificate_of(net, stream, name):
    try:
        certificate = CertificateReader(stream).certificate()
        return certificate, check(net, certificate)
    except Fault as fault:
        raise Ends(1, f"{name}: refused {fault}") from None
    except Ends as end:
        raise Ends(end.status, f"{name}: {end.lines[0]}") from None


def certificate_with(net, plan, splits, proofs, bounds):
    """The certificate of a plan, which obeys or is none, and of a tree with the bounds of its nodes."""
    least = leaf_bound(splits, bounds)
    if least is None:
        return Certificate("none", net.shape, None, splits, proofs)
    if plan is None:
        return Certificate("bound", net.shape, None, splits, proofs, bound=least[0])
    cost, base = plan.judge(net)
    return Certificate("gap", net.shape, plan, splits, proofs, (cost, base), least[0], cost - least[0] * base)


# ---- journals

MAGIC, OPEN = b"POOLJNL", 1
TURN = b"\4"  # the payload behind which a journal of version 1 goes on in version 2
SPLITS = {1: (1, "HIq"), 2: (3, "IIq")}  # by version: the kind of a split, and how its leaf, coordinate and cut are written
TEXT_AT = 13  # where the network's text begins: behind birth byte, magic, version and the text's length


class Bytes:
    """Reads numbers from the bytes of a payload, the most significant byte of each first."""

    def __init__(self, data):
        self.data, self.at = data, 0

    def take(self, form):
        """The numbers of the next bytes, in this form of `struct`."""
        form = ">" + form
        refuse(self.at + struct.calcsize(form) > len(self.data), "it is cut off")
        numbers = struct.unpack_from(form, self.data, self.at)
        self.at += struct.calcsize(form)
        return numbers

    def numbers(self, letter):
        """A list: its count, and so many numbers."""
        [count] = self.take("H")
        return list(self.take(f"{count}{letter}"))

    def proof(self):
        """A proof, of a node that is filled in later."""
        scale, count = self.take("QI")
        refuse(count * 12 > len(self.data), "it is cut off")
        numbers = self.take("Iq" * count)
        return Proof(0, scale, array("I", numbers[::2]), array("q", numbers[1::2]))

    def proof_or_none(self):
        [present] = self.take("B")
        refuse(present > 1, "neither a proof nor none")
        return self.proof() if present else None


def entry_of(payload, longest, version=2):
    """The entry of a payload, which has at most so many bytes, in a version."""
    refuse(not 0 < len(payload) <= longest, "it is cut off, or longer than any entry of this network")
    data, (cuts, form) = Bytes(payload), SPLITS[version]
    [kind] = data.take("B")
    if kind == 0:
        entry = SimpleNamespace(kind="root", proofs=[data.proof()])
    elif kind == cuts:
        split = data.take(form)
        entry = SimpleNamespace(kind="split", split=split, proofs=[data.proof_or_none(), data.proof_or_none()])
    else:
        refuse(kind != 2, f"no entry has the kind {kind}")
        bases = data.take("II")
        entry = SimpleNamespace(kind="plan", plan=WrittenPlan(*bases, data.numbers("I"), data.numbers("Q"), data.numbers("Q")))
    refuse(data.at != len(payload), "there are bytes behind it")
    return entry


class Journal:
    """A journal's file, of which each call reads what is new."""

    def __init__(self, name):
        self.name = name
        self.begin(b"")

    def begin(self, head):
        self.head, self.at, self.last, self.records = head, len(head), b"", 0
        self.version = head[8] if head else 2

    def entry(self, payload, longest):
        """The entry of the next payload, in the version that it has; nothing where it is the Turn, behind which version 2 follows."""
        if self.version == 1 and payload == TURN:
            self.version = 2
            return None
        return entry_of(payload, longest, self.version)

    def news(self):
        """Whether the journal began anew, and the payloads behind those that were read."""
        with open(self.name, "rb") as file:
            head = self.read_head(file)
            file.seek(self.at - len(self.last))
            anew = head != self.head or file.read(len(self.last)) != self.last
            if anew:
                self.begin(head)
            file.seek(self.at)
            return anew, list(self.payloads(file)) if head else []

    def read_head(self, file):
        """All up to the first gate, or nothing where no journal has come to be yet."""
        head = file.read(TEXT_AT)
        magic = head[1:8] == MAGIC
        if len(head) < 2 or head[0] == 0 or head[0] > 1 and magic:
            return b""
        if not magic:
            raise Ends(33, "not a journal")
        if len(head) < 9 or head[8] not in SPLITS:
            raise Ends(32, f"a journal of unknown version{f' {head[8]}' if len(head) > 8 else ''}")
        [length] = struct.unpack(">I", head[9:13].rjust(4, b"\0"))
        text = file.read(min(length, explain.MAX_BYTES))
        if len(head) < TEXT_AT or len(text) < length:
            raise Ends(30, "a journal of no network: its text is cut off")
        return head + text

    def payloads(self, file):
        """The payloads up to the first closed gate; a record that is not whole is told by an empty one."""
        while file.read(1) == bytes([OPEN]):
            [length] = struct.unpack(">I", file.read(4).rjust(4, b"\0"))
            payload = file.read(length)
            self.last = bytes([OPEN]) + struct.pack(">I", length) + payload
            self.at += len(self.last)
            yield payload if len(payload) == length else b""


class Search:
    """What the entries of a journal say together: the tree, its bound, and the best plan's cost in picos."""

    def __init__(self, text):
        faults = explain.judged(text)[0]
        if faults:
            raise Ends(30, f"a journal of no network: its text is refused: {faults[0].cause}")
        self.net = Network(json.loads(text))
        self.rows = Rows(self.net)
        self.splits, self.bounds, self.leaves, self.cut = [], [], [], set()
        self.longest = max(43 + 24 * len(self.rows.rows), 15 + 4 * self.net.shape[4] + 8 * (self.net.shape[5] + self.net.shape[6]))
        self.proved, self.cost, self.plan = False, None, None
        self.add_node(self.rows.reach_bound(), None)

    def add_node(self, bound, proof):
        """The bound of the next node, from its parent's and its own proof."""
        node = len(self.bounds)
        if proof:
            proof.node = node
            shown = proof.in_order(self.rows, *Tree(self.rows, self.splits).box(node))
            bound = None if shown is None or bound is None else max(bound, shown)
        self.bounds.append(bound)
        if bound is not None:
            heapq.heappush(self.leaves, (bound, node))

    def bound(self):
        """The least bound of a leaf, or none where no plan obeys."""
        while self.leaves and (self.leaves[0][1] in self.cut or self.bounds[self.leaves[0][1]] != self.leaves[0][0]):
            heapq.heappop(self.leaves)
        return self.leaves[0][0] if self.leaves else None

    def take(self, entry):
        """Takes an entry that is in order, and says what it is in words."""
        return {"root": self.take_root, "split": self.take_split, "plan": self.take_plan}[entry.kind](entry)

    def take_root(self, entry):
        refuse(self.proved or self.splits, "a proof of the root comes late")
        [bound] = self.bounds
        self.bounds.clear()
        self.add_node(bound, entry.proofs[0])
        self.proved = True
        return "a proof of the root"

    def take_split(self, entry):
        (leaf, coord, cut), t = entry.split, len(self.splits)
        refuse(t >= MAX_SPLITS or leaf > 2 * t or leaf in self.cut or coord >= len(self.rows.low), f"split {t}")
        low, high = Tree(self.rows, self.splits).box(leaf)
        refuse(not low[coord] < cut < high[coord], f"split {t}")
        self.splits.append(entry.split)
        self.cut.add(leaf)
        for proof in entry.proofs:
            self.add_node(self.bounds[leaf], proof)
        return f"a split of node {leaf} at coordinate {coord}"

    def take_plan(self, entry):
        plan = entry.plan
        refuse([len(plan.weights), len(plan.outflows), len(plan.direct)] != self.net.shape[4:], "a plan of other arcs")
        cost = Fraction(*plan.judge(self.net))
        refuse(self.cost is not None and cost >= self.cost, "a plan that is not better")
        self.cost, self.plan = cost, plan
        return "a better plan"


def plan_payload(plan):
    lists = [struct.pack(f">H{len(part)}{letter}", len(part), *part) for part, letter in ((plan.weights, "I"), (plan.outflows, "Q"), (plan.direct, "Q"))]
    return struct.pack(">BII", 2, plan.base, plan.flow_base) + b"".join(lists)


def proof_payload(proof):
    pairs = [number for pair in zip(proof.rows, proof.multipliers) for number in pair]
    return struct.pack(">QI" + "Iq" * len(proof.rows), proof.scale, len(proof.rows), *pairs)


def journal_of(net, plan, splits=(), proofs=()):
    """The bytes of a journal, of version 2, with a plan, if there is one, and a tree."""
    text, of_node = net.canonical().encode(), {proof.node: proof for proof in proofs}
    payloads = [b"\0" + proof_payload(of_node[0])] if 0 in of_node else []
    payloads += [plan_payload(plan)] if plan else []
    for t, split in enumerate(splits):
        halves = [of_node.get(node) for node in (2 * t + 1, 2 * t + 2)]
        payloads.append(struct.pack(">BIIq", 3, *split) + b"".join(b"\1" + proof_payload(proof) if proof else b"\0" for proof in halves))
    records = b"".join(bytes([OPEN]) + struct.pack(">I", len(payload)) + payload for payload in payloads)
    return b"\1" + MAGIC + b"\2" + struct.pack(">I", len(text)) + text + records + b"\0"


# ---- the program


def program():
    """The program: that of the variable POOL, else the script beside this folder, else what PATH has."""
    door = os.path.join(os.path.dirname(HERE), "pool")
    return os.environ.get("POOL") or (door if os.access(door, os.X_OK) and os.path.isfile(door) else "pool")


class Failed(Ends):
    """The program ended without an answer: its status, and its message."""


@dataclass
class Solution:
    """What the program found: amounts of money and of flow as fractions, flows by the names of the ends of an arc, qualities
    by the names of product and quality; the certificate's text."""

    kind: str  # gap, bound or none, as certificates have it
    status: int
    cost: object
    bound: object
    gap: object
    flows: dict
    qualities: dict
    certificate: str

    def tables(self):
        """The flows and the qualities: as tables of pandas where that is there, and else as lists of rows."""
        rows = {"flows": [{"from": start, "to": end, "flow": flow} for (start, end), flow in self.flows.items()],
                "qualities": [{"product": product, "quality": name, "mean": found} for (product, name), found in self.qualities.items()]}
        try:
            import pandas
        except ImportError:
            return rows
        return {name: pandas.DataFrame(part) for name, part in rows.items()}


def network_of(network):
    """The network of a file's name, of a dictionary, or a network as it is."""
    if isinstance(network, Network):
        return network
    if isinstance(network, dict):
        return Network.of(json.dumps(network, default=exact).encode())
    return Network.read(network)


def solve(network, gap=None, nodes=None, form=None, rule=None, journal=None, squeeze=None, pivots=None):
    """What the program finds for a network; where it gives no certificate, `Failed` has its status and its message.

    The names are those of the options, but for `pivots`, which is that of `--raise`.
    """
    net = network_of(network)
    options = [f"--{name}={value if isinstance(value, (str, int)) else exact(value)}" for name, value in
               (("gap", gap), ("nodes", nodes), ("form", form), ("rule", rule), ("journal", journal), ("squeeze", squeeze), ("raise", pivots)) if value is not None]
    with tempfile.TemporaryDirectory() as folder:
        path = os.path.join(folder, "network.json")
        with open(path, "w", encoding="utf-8") as file:
            json.dump(net.value, file)
        try:
            run = subprocess.run([program(), "solve", path, *options], stdin=subprocess.DEVNULL, capture_output=True)
        except OSError as error:
            raise Failed(127, f"{program()}: {error.strerror}") from None
    if run.returncode not in (0, 10, 11, 12, 13):
        raise Failed(run.returncode, run.stderr.decode("utf-8", "replace").strip())
    certificate, _ = certificate_of(net, io.BytesIO(run.stdout), "what the program printed")
    return solution_of(net, certificate, run.returncode)


def solution_of(net, certificate, status=0):
    flows, qualities, cost = {}, {}, None
    if certificate.plan:
        found = certificate.plan.flows(net)
        flows = {ends: units(flow) for ends, flow in zip(net.arc_names(), found.all())}
        qualities = {(net.products[j].name, net.qualities[k]): units(content) for (j, k), content in product_means(net, found).items()}
        cost = money(Fraction(*certificate.cost))
    bound = None if certificate.bound is None else money(certificate.bound)
    gap = None if cost is None else cost - bound
    return Solution(certificate.kind, status, cost, bound, gap, flows, qualities, certificate.text())


# ---- how a tool ends


def put(text):
    """Writes all of a text to standard output."""
    try:
        sys.stdout.write(text)
        sys.stdout.flush()
    except OSError as error:
        os.dup2(os.open(os.devnull, os.O_WRONLY), 1)
        raise Ends(21, f"standard output: {error.strerror}") from None


def write_file(path, data):
    """Writes a file beside its place first, so that a whole one stands there or none."""
    data = data.encode() if isinstance(data, str) else data
    try:
        with open(f"{path}.part", "wb") as file:
            file.write(data)
        os.replace(f"{path}.part", path)
    except OSError as error:
        if os.path.isfile(f"{path}.part"):
            os.unlink(f"{path}.part")
        raise Ends(21, f"{path}: {error.strerror}") from None


def run(main):
    """Runs a tool to its end: a fault is told on standard error, and its status is the tool's."""
    try:
        status = main() or 0
    except Ends as end:
        status = end.status
        print(*end.lines, sep="\n", file=sys.stderr)
    except OSError as error:
        status = 20
        print(f"{error.filename or 'standard input'}: {error.strerror}", file=sys.stderr)
    except MemoryError:
        status = 23
        print("out of memory", file=sys.stderr)
    except KeyboardInterrupt:
        status = 130
    sys.exit(status)
