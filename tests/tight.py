#!/usr/bin/env python3
"""Whether `tight` and `checktight` say what docs/FORMATS.md says: `tight.py POOL [--alone] [--table]`

Of small networks, in each form, `tight` has to write the text that tests/exact_runs.py writes: line by line, and where a run is loose with a
cause that the run has. The second checker and `checktight` have to accept it with the same line, and to say the same of 500 texts in which
something was changed, from a fixed seed. Marks that were worked out by hand, one for each thing that a mark may lack, have to be taken or
refused as they should; so have words, files and sizes, each with its status, in order. Prints what differs, and how much was tried.

With --alone nothing of the program is tried, which makes certificates only: the own run, the second checker and the marks by hand are. With --table it
prints how the runs of larger networks end, which takes a quarter of an hour, and judges nothing.
"""

import argparse
import json
import random
import subprocess
import sys
import tempfile
import time
from collections import Counter
from dataclasses import dataclass
from importlib.machinery import SourceFileLoader
from math import lcm
from pathlib import Path

sys.dont_write_bytecode = True
TOP = Path(__file__).resolve().parent.parent
sys.path.insert(0, str(TOP / "tests"))
import exact_runs
import pooling
from journals import program

checker = SourceFileLoader("second_checker", str(TOP / "tools" / "second_checker.py")).load_module()
second_tight = SourceFileLoader("second_tight", str(TOP / "tools" / "second_tight.py")).load_module()
EXAMPLES, SEED, CHANGED = TOP / "examples", 1954, 500
FORMS = ("p", "q", "pq")
WIDEST = 2**127 - 1
WORDS = "pool: usage: solve NET, check NET CERT, report NET CERT, formulate NET, make N or trial N\n"

# One source is too sour for the product: nothing can be shipped, but only a row of quality says so. The reach bound is -(2 - 1) * 100.
SOUR = """{"version":1,"qualities":["sulfur"],"sources":[{"name":"A","cost":1,"quality":{"sulfur":3}}],"pools":[{"name":"P"}],
"products":[{"name":"X","price":2,"max":100,"most":{"sulfur":2}}],"arcs":[["A","P"],["P","X"]]}"""
SOUR_CERT = """poolcert 1
kind gap
shape 1 1 1 1 1 1 0
plan 1 1
weights 1
outflows 0
direct
splits 0
proofs 0
cost 0 1
bound -100000000000000
gap 100000000000000 1
end
"""
# The edge of the weight, as docs/FORMATS.md has it: the row of quality is 2^36 times a flow of at most 2^39.
EDGE = """{"version":1,"qualities":["sulfur"],"sources":[{"name":"A","cost":0,"max":"549755.813888","quality":{"sulfur":"-68719.476736"}}],
"products":[{"name":"X","price":0,"max":"549755.813888","most":{"sulfur":0}}],"arcs":[["A","X"]]}"""
EDGE_CERT = """poolcert 1
kind gap
shape 1 0 1 1 0 0 1
plan 1 1
weights
outflows
direct 0
splits 0
proofs 0
cost 0 1
bound 0
gap 0 1
end
"""
# Three quarters of both feeds together are no whole: node 3 has at most a half of A and a quarter of B.
SHORT_CERT = """poolcert 1
kind bound
shape 2 1 1 1 2 1 0
splits 2
split 0 0 524288
split 1 1 262144
proofs 0
bound -300000000000000
end
"""


@dataclass
class Case:
    """A network and a certificate for it, in files, and as tools/pooling.py reads them."""

    label: str
    net: Path
    cert: Path
    own: bool = True  # whether the texts of all forms are worked out here

    def __post_init__(self):
        self.network = pooling.Network.read(self.net)
        self.certificate, self.bounds = pooling.read_certificate(self.network, self.cert)

    def marks(self, form="pq", pivots=1000):
        return exact_runs.marks_of(self.network, self.certificate, self.bounds, form, pivots)

    def text(self, form="pq", pivots=1000):
        return exact_runs.text_of(self.marks(form, pivots), form, pivots)


class Trial:
    """The program, a folder, and how often what was tried."""

    def __init__(self, pool, folder, alone):
        self.pool, self.folder, self.alone, self.tried = pool, folder, alone, Counter()
        self.random = random.Random(SEED)

    def run(self, *words, **how):
        self.tried["runs"] += 1
        return subprocess.run([str(self.pool), *map(str, words)], capture_output=True, text=True, **how)

    def file(self, name, text):
        path = self.folder / name
        path.write_bytes(text if isinstance(text, bytes) else text.encode())
        return path

    def solved(self, name, net, *words):
        return Case(name, net, self.file(f"{name}.cert", self.run("solve", net, *words).stdout))

    def second(self, case, text):
        """What the second checker says of a tight text: the status, the line, and remarks."""
        return second_tight.judge_tight([str(case.net), str(case.cert), str(self.file("said.tight", text))])

    def said(self, label, case, text):
        """What both checkers say of a tight text, where they say the same; what they say differs else."""
        self.tried["texts"] += 1
        second = self.second(case, text)[:2]
        if self.alone:
            return second[1], []
        first = self.run("checktight", case.net, case.cert, self.folder / "said.tight")
        if (first.returncode, first.stdout, first.stderr) != (second[0], f"{second[1]}\n", ""):
            return None, [f"{label}: checktight ends with {first.returncode} {first.stdout!r} {first.stderr!r}, the second checker says {second}:\n{text[:1000]}"]
        return second[1], []


def small_cases(trial):
    """Networks whose runs take a moment, with trees of all kinds: solved ones, and trees without a proof."""
    yield Case("row1", EXAMPLES / "row1.json", EXAMPLES / "row1.cert")
    yield Case("no plan", EXAMPLES / "no_plan.json", EXAMPLES / "no_plan.cert")
    yield Case("two feeds", EXAMPLES / "two_feeds.json", EXAMPLES / "two_feeds.cert")
    yield Case("two feeds, without a proof", EXAMPLES / "two_feeds.json", trial.file("short.cert", SHORT_CERT))
    yield Case("too sour", trial.file("sour.json", SOUR), trial.file("sour.cert", SOUR_CERT))
    for name in ("empty", "two_products", "haverly1", "haverly2", "haverly3", "wastewater", "bental4"):
        yield trial.solved(name, EXAMPLES / f"{name}.json")
    yield trial.solved("haverly1 by q", EXAMPLES / "haverly1.json", "--form", "q", "--gap", "0", "--nodes", "12")
    yield trial.solved("haverly2 by p", EXAMPLES / "haverly2.json", "--form", "p", "--gap", "0", "--nodes", "12", "--rule", "first")
    yield trial.solved("wastewater by p", EXAMPLES / "wastewater.json", "--form", "p", "--gap", "0", "--nodes", "6")
    for seed in WIDE_SEEDS:
        yield trial.solved(f"wide{seed}", trial.file(f"wide{seed}.json", json.dumps(wide_network(seed))), "--nodes", "4")


# ---- networks of numbers as wide as they may be


WIDE_SEEDS = (18, 26, 79, 102)  # together they have runs that are loose for the causes 2, 3 and 5


def wide_network(seed):
    """A network of three sources, one pool and two products, whose numbers have up to as many digits as they may."""
    draw = random.Random(seed)
    qualities, digits, size = ["K0", "K1"][: draw.randint(1, 2)], draw.randint(0, 6), 10 ** draw.randint(2, 5)

    def number(low, high):
        return f"{draw.randint(low, high)}.{draw.randrange(10**digits):06}"

    def contents(low, high):
        return {name: number(int(low * size), int(high * size)) for name in qualities}

    sources = [{"name": name, "cost": number(1, size), "max": number(1, 10 * size), "quality": contents(-0.99, 0.99)} for name in "ABC"]
    products = [{"name": name, "price": number(size, 9 * size), "max": number(1, 9 * size), "most": contents(0, 0.5), "least": contents(-0.5, -0.01)} for name in "XY"]
    return {"version": 1, "qualities": qualities, "sources": sources, "pools": [{"name": "P", "max": number(1, 10 * size)}], "products": products,
            "arcs": [["A", "P"], ["B", "P"], ["P", "X"], ["P", "Y"], ["C", "X"], ["C", "Y"]]}


# ---- what `tight` writes


def own_texts(trial, cases):
    """The own text of each case in each form is accepted, with the counts that it has."""
    for case in cases:
        for form in FORMS:
            for pivots in (1000, 3):
                marks = case.marks(form, pivots)
                counts = Counter(mark.word for mark in marks)
                bound = min((mark.bound for mark in marks if mark.word != "empty"), default="none")
                wanted = "accepted " + " ".join(f"{word} {counts[word]}" for word in ("tight", "raised", "empty", "loose")) + f" bound {bound}"
                label = f"{case.label} in the form {form} with {pivots} pivots"
                trial.tried.update(mark.kind() for mark in marks)
                line, faults = trial.said(label, case, exact_runs.text_of(marks, form, pivots))
                yield from faults
                if line != wanted and not faults:
                    yield f"{label}: the own text is told {line}, wanted {wanted}"
                if not trial.alone:
                    yield from written(trial, label, case, marks, form, pivots)


def written(trial, label, case, marks, form, pivots):
    """What `tight` writes, beside the own text: the same but for the causes of what is loose, of which it may tell any that the run has."""
    done = trial.run("tight", case.net, case.cert, "--form", form, "--pivots", str(pivots))
    if done.returncode or done.stderr:
        yield f"{label}: tight ends with {done.returncode} {done.stderr!r}"
        return
    if done.stdout == exact_runs.text_of(marks, form, pivots):
        trial.tried["texts that are the same"] += 1
        return
    line, faults = trial.said(label, case, done.stdout)
    yield from faults
    if not (line or "").startswith("accepted"):
        yield f"{label}: checktight says {line} of what tight writes"
    told = done.stdout.splitlines()[4:-2]
    if len(told) != len(marks):
        yield f"{label}: tight writes {len(told)} marks, wanted {len(marks)}"
    marker = exact_runs.Marker(case.network, form, pivots, case.certificate.plan)
    tree = pooling.Tree(marker.rows, case.certificate.splits)
    for mark, line in zip(marks, told):
        if line != mark.line() and not may_be_told(marker, tree, mark, line, case.bounds):
            yield f"{label}: tight writes {line[:300]}, wanted {mark.line()[:300]}"


def may_be_told(marker, tree, mark, line, bounds):
    """Whether a line that isn't the own one is one that the run of its leaf has too."""
    word, node, *numbers = line.split()
    if mark.end is None or int(node) != mark.node:
        return False
    low, high = tree.box(mark.node)
    whole = marker.mark(mark.node, low, high, bounds[mark.node], stop=False)  # as if nothing were too wide
    if word == "loose" and numbers[0] == "2":
        return tuple(map(int, numbers[1:])) in {(operation, *a, *b) for _, operation, a, b in whole.end.wide}
    if word == "loose" and numbers[0] == "3":
        n, *f = map(int, numbers[1:])
        return is_coarse_in(whole.end.values or [], pooling.I128, n, tuple(f)) or is_coarse_in(list(whole.end.multipliers.values()), pooling.I64, n, tuple(f))
    return mark.end.wide != [] and whole.line() == line


def is_coarse_in(fractions, limit, n, f):
    """Whether a number and a fraction tell that fractions have no short common denominator, or that one of them is too large over it."""
    least = lcm(*(den for _, den in fractions))
    if f not in fractions or n == 0 or least % n:
        return False
    if least <= pooling.U64[1]:
        return n == least and not limit[0] * f[1] <= n * f[0] <= limit[1] * f[1]
    return lcm(n, f[1]) > pooling.U64[1] or not pooling.I64[0] * f[1] <= n * f[0] <= pooling.I64[1] * f[1]


# ---- the rows


def rows(trial):
    """What was worked out by hand of row 1, of Haverly's first network, and of a network that is too sour."""
    row1 = Case("row1", EXAMPLES / "row1.json", EXAMPLES / "row1.cert")
    wanted = "pooltight 1\nform pq\npivots 1000\nleaves 1\ntight 0 1 1 100000000\nbound -300000000000000\nend\n"
    sour = Case("too sour", trial.file("sour.json", SOUR), trial.file("sour.cert", SOUR_CERT))
    short = Case("two feeds, without a proof", EXAMPLES / "two_feeds.json", trial.file("short.cert", SHORT_CERT))
    for text in [row1.text()] + ([] if trial.alone else [trial.run("tight", row1.net, row1.cert).stdout]):
        if text != wanted:
            yield f"row 1: {text}"
    for text in [short.text()] + ([] if trial.alone else [trial.run("tight", short.net, short.cert).stdout]):
        if "empty 3 0 1 11 1" not in text.splitlines():
            yield f"two feeds, without a proof: {text}"
    for text in [sour.text()] + ([] if trial.alone else [trial.run("tight", sour.net, sour.cert).stdout]):
        if not text.endswith("\nbound 0\nend\n") or "\nraised 0 " not in text:
            yield f"too sour: {text}"
    marker = exact_runs.Marker(row1.network, "pq", 0)
    raised = marker.mark(0, marker.rows.low, marker.rows.high, -300000000000001)
    if raised.line() != "raised 0 1 0 1 1 100000000":
        yield f"row 1, a pico below: {raised.line()}"
    haverly = trial.solved("haverly1", EXAMPLES / "haverly1.json", "--gap", "0.001")
    if any(mark.kind() == "loose 1" for mark in haverly.marks()):
        yield "Haverly 1: a run doesn't end"


def by_hand(trial):
    """Marks that lack one thing, and marks that just have it, each with what is said of it."""
    cases = {"row1": Case("row1", EXAMPLES / "row1.json", EXAMPLES / "row1.cert"),
             "edge": Case("the edge of the weight", trial.file("edge.json", EDGE), trial.file("edge.cert", EDGE_CERT)),
             "sour": Case("too sour", trial.file("sour.json", SOUR), trial.file("sour.cert", SOUR_CERT)),
             "short": Case("two feeds, without a proof", EXAMPLES / "two_feeds.json", trial.file("short.cert", SHORT_CERT))}
    bounds = {"row1": "-300000000000000", "edge": "0", "sour": "-100000000000000", "short": "-300000000000000"}
    for name, mark, line in MARKS:
        marks = mark.split("; ")
        text = "\n".join(["pooltight 1", "form pq", "pivots 7", f"leaves {len(marks)}", *marks, f"bound {bounds[name]}", "end", ""])
        found, faults = trial.said(f"{name}: {mark}", cases[name], text)
        yield from faults
        wanted = f"refused tight {line}" if isinstance(line, int) else f"accepted {line} bound {bounds[name]}"
        if found != wanted and not faults:
            yield f"{name}: {mark} is told {found}, wanted {wanted}"


TIGHT, RAISED, LOOSE = ("tight 1 raised 0 empty 0 loose 0", "tight 0 raised 1 empty 0 loose 0", "tight 0 raised 0 empty 0 loose 1")
FEEDS = "tight 2 1 9 100000000 0 100000000 100000000 0 1048576 0 3000000 300000000000000"  # all of A, as far as it goes
MARKS = [
    ("row1", "tight 0 1 1 100000000", TIGHT),
    ("row1", "tight 0 1 1 99999999", 3),  # three picos more for each millionth
    ("row1", "tight 0 1 1 100000001", 3),  # past the end
    ("row1", "tight 0 3000000 1 299999999999999", 3),  # exactly one pico more
    ("row1", "tight 0 3000001 1 300000099999999", TIGHT),  # just less than one
    ("row1", "tight 0 0 1 0", 3),
    ("row1", "tight 0 1 0", 3),
    ("row1", "tight 0 1 2 100000000 0", 3),
    ("row1", "tight 0 1 2 100000000", 1),
    ("row1", "tight 0 1 1 100000000 0", 1),
    ("row1", "tight 0 18446744073709551616 1 100000000", 1),
    ("row1", f"tight 0 1 1 {2**127}", 1),
    ("row1", f"tight 0 1 1 {-2**127}", 3),
    ("row1", "tight 1 1 1 100000000", 2),
    ("row1", "tight 0 1 1 100000000; tight 0 1 1 100000000", 2),
    ("row1", "tight 1 0 0", 2),  # the nodes are told first
    ("row1", "tight 4294967296 1 1 100000000", 1),
    ("row1", "raised 0 1 0 1 1 100000000", 3),  # shows no more than the leaf has
    ("row1", "empty 0 0 0", 3),
    ("row1", "empty 0 1 0", 3),
    ("row1", "empty 0 0 1 99 1", 3),
    ("row1", "loose 0 1 7", LOOSE),
    ("row1", "loose 0 1 8", 3),
    ("row1", "loose 0 1 4294967296", 1),
    ("row1", "loose 0 0 7", 1),
    ("row1", "loose 0 6 7", 1),
    ("row1", f"loose 0 2 1 {WIDEST} 1 1 1", LOOSE),
    ("row1", f"loose 0 2 1 {WIDEST} 1 0 1", 3),
    ("row1", f"loose 0 2 1 {WIDEST} 1 -1 1", 3),
    ("row1", f"loose 0 2 2 {WIDEST} 1 -1 1", LOOSE),
    ("row1", f"loose 0 2 2 {WIDEST} 1 1 1", 3),
    ("row1", f"loose 0 2 1 1 {2**64} 1 {2**64 - 1}", LOOSE),  # the common denominator
    ("row1", f"loose 0 2 1 1 {2**64} 1 {2**65}", 3),
    ("row1", f"loose 0 2 1 {2**126} 1 1 3", LOOSE),  # three times the first
    ("row1", f"loose 0 2 3 {WIDEST} 1 2 1", LOOSE),
    ("row1", f"loose 0 2 3 {WIDEST} 1 1 {WIDEST}", 3),  # 1, in lowest terms
    ("row1", f"loose 0 2 4 {WIDEST} 1 1 2", LOOSE),
    ("row1", f"loose 0 2 4 1 {WIDEST} 2 1", LOOSE),
    ("row1", f"loose 0 2 4 {WIDEST} 1 0 1", 3),  # nothing is divided by 0
    ("row1", f"loose 0 2 5 {WIDEST} 1 1 1", 1),
    ("row1", f"loose 0 2 0 {WIDEST} 1 1 1", 1),
    ("row1", f"loose 0 2 1 {WIDEST} 1 2 2", 1),  # not in lowest terms
    ("row1", f"loose 0 2 1 {WIDEST} 1 0 2", 1),
    ("row1", f"loose 0 2 1 {WIDEST} 1 1 0", 1),
    ("row1", f"loose 0 2 1 {WIDEST} 1 1 -1", 1),
    ("row1", f"loose 0 2 1 {WIDEST + 1} 1 1 1", 1),
    ("row1", f"loose 0 2 1 {-WIDEST - 1} 1 -1 1", 1),
    ("row1", "loose 0 3 18446744073709551615 1 2", LOOSE),
    ("row1", "loose 0 3 18446744073709551614 1 2", 3),  # is 2^63 - 1
    ("row1", "loose 0 3 1 9223372036854775808 1", LOOSE),
    ("row1", "loose 0 3 1 9223372036854775807 1", 3),
    ("row1", "loose 0 3 1 -9223372036854775808 1", 3),
    ("row1", "loose 0 3 1 -9223372036854775809 1", LOOSE),
    ("row1", "loose 0 3 1 18446744073709551615 2", LOOSE),  # half a part above 2^63 - 1
    ("row1", "loose 0 3 0 9223372036854775808 1", 3),
    ("row1", "loose 0 3 1 2 4", 1),
    ("row1", "loose 0 4 1 0", 3),
    ("row1", "loose 0 5 1 1 100000000", 3),
    ("edge", "tight 0 1 1 0", TIGHT),
    ("edge", "tight 0 1 1 549755813888", TIGHT),
    ("edge", "loose 0 4 1 2 2 1 3 2251799813685248", LOOSE),
    ("edge", "loose 0 4 1 1 3 2251799813685248", 3),  # 2^126, and no more
    ("edge", "loose 0 4 1 2 3 2251799813685248 2 1", 3),  # the rows don't rise
    ("edge", "loose 0 4 1 2 2 1 99 2251799813685248", 3),
    ("edge", f"loose 0 5 1 1 {2**90 + 1}", LOOSE),
    ("edge", f"loose 0 5 1 1 {2**90}", 3),
    ("edge", f"loose 0 5 0 1 {2**90 + 1}", 3),
    ("edge", f"loose 0 5 1 2 {2**90 + 1} 0", 3),
    ("edge", f"tight 0 1152921504606846976 1 {2**90 + 1}", 3),  # in the box, and too heavy
    ("edge", f"tight 0 1152921504606846976 1 {2**90}", TIGHT),
    ("sour", "loose 0 1 7", LOOSE),
    ("sour", "raised 0 1 0 1 6 0 0 0 0 0 0", 3),
    ("short", f"{FEEDS}; empty 3 0 1 11 1; loose 4 1 7", "tight 1 raised 0 empty 1 loose 1"),
    ("short", f"{FEEDS}; empty 3 0 1 11 2; loose 4 1 7", "tight 1 raised 0 empty 1 loose 1"),
    ("short", f"{FEEDS}; empty 3 0 1 11 -1; loose 4 1 7", 3),
    ("short", f"{FEEDS}; empty 3 5 1 11 1; loose 4 1 7", 3),  # a bound, of whatever size
    ("short", f"{FEEDS}; loose 3 1 7; empty 4 0 1 11 1", 3),  # in that box there is a plan
    ("short", f"{FEEDS}; loose 4 1 7; empty 3 0 1 11 1", 2),
    ("short", f"empty 2 0 1 11 1; {FEEDS}; loose 4 1 7", 2),
    ("short", f"loose 1 1 7; {FEEDS}; loose 3 1 7; loose 4 1 7", 2),  # node 1 is cut
]


def faulty_lines(trial):
    """The first faulty line of a text that is none, as the second checker tells it."""
    case = Case("row1", EXAMPLES / "row1.json", EXAMPLES / "row1.cert")
    text = case.text()
    for old, new, line in LINES:
        changed = text.replace(old, new, 1)
        found = trial.second(case, changed)
        if changed == text or found != (1, "refused tight 1", f"the first faulty line is {line}"):
            yield f"{old!r} for {new!r}: {found}, wanted line {line}"


LINES = [("pooltight 1\n", "", 1), ("pooltight 1", "pooltight 2", 1), ("\n", "\r\n", 1), ("form pq", "form PQ", 2), ("form pq\n", "form pq \n", 2), ("form pq", "form", 2),
         ("pivots 1000", "pivots 4294967296", 3), ("pivots 1000", "pivots 01000", 3), ("leaves 1", "leaves 2", 6), ("leaves 1", "leaves 0", 5), ("tight 0", "Tight 0", 5),
         ("tight 0", "tight -0", 5), ("tight 0 1 1", "tight 0 1 2", 5), ("tight 0 1 1", "tight 0 1 4294967296", 5), ("bound -3", "bound --3", 6), ("bound -", "bound none", 6),
         ("end\n", "end", 7), ("end\n", "", 7), ("end\n", "end\n\n", 8), ("end\n", "end\nend\n", 8)]


# ---- changed texts


def changed(draw, text, other):
    """A text in which something is changed: a number, a field, a line, a byte, or what stands in another text."""
    lines = text.split("\n")[:-1]
    at = draw.randrange(len(lines))
    marks = [n for n, line in enumerate(lines) if line.split(" ")[0] in ("tight", "raised", "empty", "loose")]
    if marks and draw.random() < 0.7:
        at = draw.choice(marks)
    fields = lines[at].split(" ")
    numbers = [n for n, field in enumerate(fields) if field.lstrip("-").isdigit()]
    kind = draw.randrange(12)
    if kind < 4 and numbers:
        n = draw.choice(numbers)
        old = int(fields[n])
        fields[n] = str(draw.choice([old + 1, old - 1, -old, 0, 2 * old, old + draw.randint(-1000, 1000), draw.choice([2**31, 2**32, 2**63, 2**64, 2**126, 2**127]) - draw.randint(0, 1)]))
    elif kind == 4:
        scaled(draw, fields)
    elif kind == 5:
        fields[0] = draw.choice(["tight", "raised", "empty", "loose", "bound", fields[0].upper()])
    elif kind == 6:
        n = draw.randrange(len(fields))
        fields[n : n + 1] = draw.choice([[], [fields[n]] * 2, [fields[n] + " "], ["0" + fields[n]], ["+" + fields[n]]])
    elif kind == 7:
        lines[at : at + 1] = draw.choice([[], [lines[at]] * 2, [draw.choice(lines)], [draw.choice(other.split("\n"))]])
        return "\n".join([*lines, ""])
    elif kind == 10 and lines[-2:-1] and lines[-2].startswith("bound"):
        lines[-2] = draw.choice(["bound none", "bound 0", f"bound {draw.randint(-4 * 10**14, 0)}", "bound " + str(int(lines[-2][6:].replace("none", "0")) + draw.choice([1, -1]))])
        return "\n".join([*lines, ""])
    elif kind == 11 and marks:
        moved = draw.choice([marks[:-1], marks[1:], marks[::-1], [marks[0], *marks], draw.sample(marks, len(marks))])
        return "\n".join([*lines[:3], f"leaves {len(moved)}", *(lines[n] for n in moved), *lines[marks[-1] + 1 :], ""])
    elif kind == 8:
        lines[2], lines[1] = draw.choice([(lines[2], f"form {draw.choice(FORMS)}"), (f"pivots {draw.randrange(2000)}", lines[1])])
        return "\n".join([*lines, ""])
    else:
        whole = "\n".join([*lines, ""])
        n = draw.randrange(len(whole))
        return draw.choice([whole[:n], whole[:n] + draw.choice(" -0159\n\rz") + whole[n + 1 :], whole + draw.choice(["\n", " ", "end\n"])])
    lines[at] = " ".join(fields)
    return "\n".join([*lines, ""])


def scaled(draw, fields):
    """A point over a base that is so many times larger, with its values or, once in two, one of them off by one: often still a witness."""
    if fields[0] != "tight" or len(fields) < 5:
        return
    times = draw.choice([2, 3, 1000, 3_000_001, 2**40])
    for n in [2, *range(4, len(fields))]:
        fields[n] = str(int(fields[n]) * times)
    if draw.random() < 0.5:
        n = draw.randrange(4, len(fields))
        fields[n] = str(int(fields[n]) + draw.choice([1, -1]))


def changed_texts(trial, cases):
    """Texts in which something is changed: the program and the second checker say the same of each. Some of each verdict come."""
    texts = [(case, case.text(form, pivots)) for case in cases for form, pivots in (("pq", 1000), ("p", 1000), ("q", 4))]
    found = Counter()
    for number in range(CHANGED):
        case, text = trial.random.choice(texts)
        made = changed(trial.random, text, trial.random.choice(texts)[1])
        line, faults = trial.said(f"{case.label}, changed text {number}", case, made)
        yield from faults
        found[(line or "none")[: len("refused tight 1")]] += 1
    trial.tried["changed texts"] += CHANGED
    for verdict in ("accepted tight ", "refused tight 1", "refused tight 2", "refused tight 3", "refused tight 4"):
        if found[verdict] < 10:
            yield f"of {CHANGED} changed texts {found[verdict]} are told {verdict}"


# ---- statuses


def statuses(trial):
    """Words, files and sizes, each with its status, its line and its message; where several causes stand, the first in order."""
    row1, cert, text = EXAMPLES / "row1.json", EXAMPLES / "row1.cert", trial.file("row1.tight", Case("row1", EXAMPLES / "row1.json", EXAMPLES / "row1.cert").text())
    bad, none = EXAMPLES / "refused" / "cost.cert", trial.folder / "nowhere"
    long = trial.folder / "long"
    with open(long, "wb") as file:
        file.truncate(checker.CERTIFICATE_BYTES + 1)
    budget, read, usage, length = "pool: too many nodes for this network\n", "pool: read fault\n", WORDS, "pool: certificate too long\n"
    network = "pool: network refused: 2\n"
    cases = [
        (["tight", row1], 2, "", usage), (["tight", row1, cert, text], 2, "", usage), (["checktight", row1, cert], 2, "", usage),
        (["checktight", row1, cert, text, text], 2, "", usage), (["tight", row1, cert, "--form", "PQ"], 2, "", usage), (["tight", row1, cert, "--pivots", "1.0"], 2, "", usage),
        (["tight", row1, cert, "--pivots", "-1"], 2, "", usage), (["tight", row1, cert, "--pivots=1", "--pivots=1"], 2, "", usage), (["tight", row1, cert, "--nodes", "1"], 2, "", usage),
        (["checktight", row1, cert, text, "--form", "p"], 2, "", usage), (["checktight", row1, cert, ""], 2, "", usage), (["tight", row1, cert, "--pivots", "18446744073709551616"], 2, "", usage),
        (["tight", row1, cert, "--pivots", "1000001"], 4, "", budget), (["tight", none, none, "--pivots", "1000001"], 4, "", budget), (["tight", row1, cert, "--pivots", "18446744073709551615"], 4, "", budget),
        (["tight", none, cert], 20, "", read), (["checktight", none, none, none], 20, "", read), (["tight", cert, none], 3, "", network), (["checktight", cert, none, none], 3, "", network),
        (["tight", row1, none], 20, "", read), (["checktight", row1, none, none], 20, "", read), (["tight", row1, long], 5, "", length), (["checktight", row1, long, none], 5, "", length),
        (["tight", row1, bad], 1, "refused cost\n", ""), (["checktight", row1, bad, none], 1, "refused cost\n", ""), (["checktight", row1, EXAMPLES / "haverly1.cert", none], 1, "refused shape\n", ""),
        (["checktight", row1, cert, none], 20, "", read), (["checktight", row1, cert, long], 5, "", length), (["checktight", row1, cert, row1], 1, "refused tight 1\n", ""),
        (["checktight", row1, cert, text], 0, "accepted tight 1 raised 0 empty 0 loose 0 bound -300000000000000\n", ""), (["tight", row1, cert, "--pivots", "1000000"], 0, None, ""),
        (["tight", row1, cert, "--pivots=0", "--form=q"], 0, None, ""), (["tight", "--form", "p", row1, "--pivots", "0001000", cert], 0, None, ""),
    ]
    for words, status, out, error in cases:
        trial.tried["statuses"] += 1
        done = trial.run(*words)
        if done.returncode != status or done.stderr != error or (out is not None and done.stdout != out):
            yield f"{' '.join(map(str, words))}: {done.returncode} {done.stdout[:200]!r} {done.stderr!r}, wanted {status} {out!r} {error!r}"
    yield from full_output(trial, [["tight", row1, cert], ["checktight", row1, cert, text], ["checktight", row1, cert, row1], ["tight", row1, bad]])
    yield from sizes(trial)


def full_output(trial, commands):
    for words in commands:
        with open("/dev/full", "w") as full:
            done = subprocess.run([str(trial.pool), *map(str, words)], stdout=full, stderr=subprocess.PIPE, text=True)
        if (done.returncode, done.stderr) != (21, "pool: write fault\n"):
            yield f"{words} into a full device: {done.returncode} {done.stderr!r}"


def sizes(trial):
    """A network of 40 variables and rows, of which no plan obeys, and chains of cuts: 199,999 of them are just not too many for `tight`."""
    net = trial.file("chain.json", CHAIN)
    network = pooling.Network.read(net)
    rows = pooling.Rows(network)
    if len(rows.rows) + len(rows.ends_of) != 40:
        yield f"the network of the chain has {len(rows.rows)} rows and {len(rows.ends_of)} variables"
    for splits, status, message in ((199_999, 0, ""), (200_000, 4, "pool: too many nodes for this network\n")):
        cuts = "".join(f"split {2 * t} {rows.first_out} {t + 1}\n" for t in range(splits))
        shape = " ".join(map(str, network.shape))
        cert = trial.file("chain.cert", f"poolcert 1\nkind none\nshape {shape}\nsplits {splits}\n{cuts}proofs 1\n{CHAIN_PROOF}\nend\n")
        done = trial.run("tight", net, cert)
        wanted = "pooltight 1\nform pq\npivots 1000\nleaves 0\nbound none\nend\n" if status == 0 else ""
        if (done.returncode, done.stdout, done.stderr) != (status, wanted, message):
            yield f"a chain of {splits} cuts: {done.returncode} {done.stdout[:200]!r} {done.stderr!r}"


# A product needs 10, and its eight sources have 1 each: 2 go through a pool that passes 1, and 7 go straight to it. Row 11 is what it needs.
CHAIN = json.dumps({"version": 1, "sources": [{"name": name, "cost": 1, "max": 1, "quality": {}} for name in "ABCDEFGH"], "pools": [{"name": "P", "max": 1}],
                    "products": [{"name": "X", "price": 1, "min": 10, "max": 10}], "arcs": [["A", "P"], ["B", "P"], ["P", "X"], *([name, "X"] for name in "BCDEFGH")]})
CHAIN_PROOF = "proof 0 0 1 11 1"


# ---- the table


TABLE = [(name, ("--rule", "violated")) for name in ("haverly1", "haverly2", "haverly3", "wastewater", "bental4", "foulds2", "adhya1", "adhya4")] + [("make 2", ("--rule", "violated", "--nodes", "10"))]


def table(trial, names):
    """How the runs of boxes end: the leaves that may hold a plan, their marks, the most steps of a run, and seconds."""
    print("| Network | Form | Splits | Leaves | Tight by the plan | Tight | Raised | Empty | Loose 1 | 2 | 3 | 4 | 5 | Most steps | Seconds |")
    print("|---|---|---|---|---|---|---|---|---|---|---|---|---|---|---|", flush=True)
    for name, words in TABLE:
        if names and name not in names:
            continue
        net = EXAMPLES / f"{name}.json"
        if name.startswith("make"):
            net = trial.file("made.json", trial.run(*name.split()).stdout)
        case = trial.solved(name.replace(" ", ""), net, *words)
        for form in FORMS if len(case.network.paths) < 20 else ("pq",):
            begun = time.process_time()
            marks = case.marks(form)
            counts = Counter(mark.kind() for mark in marks if mark.end)
            told = [sum(not mark.end for mark in marks)] + [counts[kind] for kind in ("tight", "raised", "empty", *(f"loose {n}" for n in range(1, 6)))]
            steps = max((mark.steps for mark in marks), default=0)
            print(f"| {name} | {form} | {len(case.certificate.splits)} | {len(marks)} | {' | '.join(map(str, told))} | {steps} | {time.process_time() - begun:.1f} |", flush=True)


def main():
    words = argparse.ArgumentParser(usage="tight.py POOL [--alone] [--table [NETWORK ..]]")
    words.add_argument("pool", type=Path)
    words.add_argument("--alone", action="store_true")
    words.add_argument("--table", nargs="*", metavar="NETWORK")
    asked = words.parse_args()
    count = 0
    with tempfile.TemporaryDirectory() as folder:
        trial = Trial(program(asked.pool), Path(folder), asked.alone)
        if asked.table is not None:
            return table(trial, asked.table)
        cases = list(small_cases(trial))
        parts = [rows(trial), by_hand(trial), faulty_lines(trial), own_texts(trial, cases), changed_texts(trial, cases)]
        for faults in parts if asked.alone else [*parts, statuses(trial)]:
            for fault in faults:
                print(fault[:2000], flush=True)
                count += 1
    print(", ".join(f"{number} {what}" for what, number in trial.tried.items()) + f"; {count} differ")
    return 1 if count else 0


if __name__ == "__main__":
    sys.exit(main())
