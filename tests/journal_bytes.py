"""The bytes of a journal of either version, by docs/FORMATS.md alone: written for the tests that make journals by hand, and read for those that look
at what a run left. The canonical text of a network, which a journal holds, is made here too."""

import json
import math
import signal
import struct
import sys
from importlib.machinery import SourceFileLoader
from pathlib import Path

sys.dont_write_bytecode = True
TOP = Path(__file__).resolve().parent.parent
checker = SourceFileLoader("second_checker", str(TOP / "tools" / "second_checker.py")).load_module()
MAGIC = b"POOLJNL"
GATE = 1  # of an open gate
HEAD = 5  # a gate and the length of a payload
TURN = b"\4"  # the payload behind which a file of version 1 goes on in version 2
SPLITS = {1: (b"\1", ">HIq"), 2: (b"\3", ">IIq")}  # by version: the kind of a split, and its leaf, coordinate and cut


def heeds_interrupts():
    """For a program that is started to be interrupted: a shell has what it starts in the background ignore that."""
    signal.signal(signal.SIGINT, signal.SIG_DFL)


# ---- written


def header(text, birth=1, version=2):
    return bytes([birth]) + MAGIC + bytes([version]) + struct.pack(">I", len(text)) + text.encode()


def record(payload, gate=GATE):
    return bytes([gate]) + struct.pack(">I", len(payload)) + payload


def journal(text, *payloads, version=2):
    """A whole journal: its records have open gates, and a closed gate stands behind them."""
    return header(text, version=version) + b"".join(map(record, payloads)) + b"\0"


def proof(scale, *parts):
    return struct.pack(">QI", scale, len(parts)) + b"".join(struct.pack(">Iq", row, mult) for row, mult in parts)


def root(proof_bytes):
    return b"\0" + proof_bytes


def split(leaf, coord, cut, left=None, right=None, version=2):
    kind, form = SPLITS[version]
    return kind + struct.pack(form, leaf, coord, cut) + b"".join(b"\1" + half if half else b"\0" for half in (left, right))


def plan(base, flow_base, weights, outflows, direct):
    lists = [(">I", weights), (">Q", outflows), (">Q", direct)]
    written = [struct.pack(">H", len(numbers)) + b"".join(struct.pack(form, n) for n in numbers) for form, numbers in lists]
    return b"\2" + struct.pack(">II", base, flow_base) + b"".join(written)


# ---- read


def is_unborn(data):
    """Whether no journal has come to be yet in a file."""
    return len(data) <= 1 or data[0] == 0 or data[0] >= 2 and data[1:8] == MAGIC


def text_bytes(data):
    """The bytes of the text that a born file holds."""
    return data[13 : 13 + int.from_bytes(data[9:13], "big")]


def text_of(data):
    return text_bytes(data).decode()


def places(data):
    """Where each record's gate stands, up to the first closed one and with it."""
    at = 0 if is_unborn(data) else len(header("")) + len(text_bytes(data))
    found = [at]
    while not is_unborn(data) and data[at : at + 1] == bytes([GATE]):
        at += HEAD + int.from_bytes(data[at + 1 : at + HEAD], "big")
        found.append(at)
    return found


def payloads(data):
    """The payloads of a file's records, up to the first closed gate."""
    gates = places(data)
    return [data[at + HEAD : end] for at, end in zip(gates, gates[1:])]


def rewritten(payload, old, new):
    """A payload of one version, in the bytes of another."""
    kind, form = SPLITS[old]
    if payload[:1] != kind:
        return payload
    fields, behind = struct.unpack_from(form, payload, 1), payload[1 + struct.calcsize(form) :]
    return SPLITS[new][0] + struct.pack(SPLITS[new][1], *fields) + behind


def entries(data):
    """The entries of a file, each in the bytes of version 2; its Turn is none."""
    return [rewritten(payload, 1, 2) for payload in payloads(data) if payload != TURN]


def turned(text, entries, count):
    """A journal of version 1 with so many entries in that version, and the others, if there are more, behind its Turn."""
    first = [rewritten(entry, 2, 1) for entry in entries[:count]]
    return journal(text, *first, *([TURN, *entries[count:]] if entries[count:] else []), version=1)


def splits(entries):
    """The splits among the payloads, each as a line of a certificate has it."""
    forms = dict(SPLITS.values())
    cuts = [struct.unpack_from(forms[entry[:1]], entry, 1) for entry in entries if entry[:1] in forms]
    return [f"split {leaf} {coord} {cut}" for leaf, coord, cut in cuts]


# ---- the canonical text


def amount(millionths):
    """A quantity: a number where it is of whole units, else a text with as few decimals as it needs."""
    whole, rest = divmod(abs(millionths), 10**6)
    sign = "-" if millionths < 0 else ""
    return int(f"{sign}{whole}") if not rest else f"{sign}{whole}.{rest:06}".rstrip("0")


def canonical(data):
    """The canonical text of the network in the bytes of a network file."""
    net = checker.judge_rows(checker.walk(checker.parse_json(data)))
    names = net.qualities

    def of_qualities(amounts):
        return {names[k]: amount(value) for k, value in amounts.items()}

    sources = [{"name": s.name, "cost": amount(s.cost), "max": amount(s.max), "quality": of_qualities(s.quality)} for s in net.sources]
    pools = [{"name": p.name, "max": amount(p.max)} for p in net.pools]
    products = [{"name": p.name, "price": amount(p.price), "min": amount(p.min), "max": amount(p.max),
                 "least": of_qualities(p.least), "most": of_qualities(p.most)} for p in net.products]
    arcs, version = [list(arc.ends) for arc in net.arcs], 1
    if net.H > 1 or any(arc.cost or arc.max < math.inf for arc in net.arcs):
        version = 2
        for pool, shares in zip(pools, net.tau):
            pool["ratio"] = {name: share * 1000 // net.H for name, share in zip(names, shares)}
        arcs = [{"from": arc.ends[0], "to": arc.ends[1], "cost": amount(arc.cost)} for arc in net.arcs]
        for row, arc in zip(arcs, net.arcs):
            row.update({"max": amount(arc.max)} if arc.max < math.inf else {})
    tree = {"arcs": arcs, "pools": pools, "products": products, "qualities": names, "sources": sources, "version": version}
    return json.dumps(tree, sort_keys=True, separators=(",", ":"), ensure_ascii=False)
