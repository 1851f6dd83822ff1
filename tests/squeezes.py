#!/usr/bin/env python3
"""Whether a search with `--squeeze on` splits as it says: `squeezes.py POOL`

Each certificate is read as the second checker reads it. A split has to cut a leaf of the least bound of the tree before it, either in the
middle or at an outer quarter of a coordinate whose ends are at least 4 apart; and the node that is cut off there holds no plan, or has a
bound of at least what the printed plan costs, less the asked gap. So it is for the rules and forms, for a run that goes on from a journal,
with the word and without it, and as the program and the second checker accept what is printed. Prints what differs, and how much was tried.
"""

import argparse
import subprocess
import sys
import tempfile
from collections import Counter
from fractions import Fraction
from importlib.machinery import SourceFileLoader
from pathlib import Path

sys.dont_write_bytecode = True
TOP = Path(__file__).resolve().parent.parent
sys.path.insert(0, str(TOP / "tests"))
from journals import program

checker = SourceFileLoader("second_checker", str(TOP / "tools" / "second_checker.py")).load_module()
EXAMPLES, PICOS = TOP / "examples", 10**12
SEARCH = ["--rule", "violated", "--form", "pq", "--gap", "0.01"]


class Searched:
    """A network, its certificate, and the boxes and bounds of the certificate's tree."""

    def __init__(self, path, certificate):
        self.net = checker.judge_rows(checker.walk(checker.parse_json(path.read_bytes())))
        self.net.rows = checker.make_rows(self.net)
        self.cert = checker.read_certificate(certificate.encode())
        self.tree = checker.new_tree(self.net)
        self.proofs = {proof[0]: proof for proof in self.cert.proofs}
        self.bounds = [self.bound(0, checker.reach_bound(self.net))]

    def bound(self, node, above):
        return checker.node_bound(self.net, above, self.proofs.get(node), self.tree.lows[node], self.tree.highs[node])

    def least(self):
        """The least bound of the leaves that may hold a plan."""
        return min(bound for node, bound in enumerate(self.bounds) if bound is not None and node not in self.tree.cut_nodes)

    def cut(self, leaf, coordinate, cut):
        checker.cut_leaf(self.net, self.tree, leaf, coordinate, cut)
        self.bounds += [self.bound(node, self.bounds[leaf]) for node in (len(self.bounds), len(self.bounds) + 1)]


def kind(low, high, cut):
    """Of which kind a cut is: in the middle, or the lowest or the highest quarter cut off."""
    quarter = (high - low) // 4
    kinds = {(low + high) // 2: "middle"}
    if high - low >= 4:
        kinds |= {low + quarter: "left", high - quarter: "right"}
    return kinds.get(cut)


def faults_of(searched, gap):
    """What is wrong with the splits of a certificate that was searched for with a gap in money; first the kinds of its splits."""
    net, tree, cert = searched.net, searched.tree, searched.cert
    kinds, target = [], None
    if cert.kind == "gap":
        target = Fraction(*cert.cost) - Fraction(gap) * PICOS
    for number, (leaf, coordinate, cut) in enumerate(cert.splits):
        low, high, least, bound = tree.lows[leaf], tree.highs[leaf], searched.least(), searched.bounds[leaf]
        here = kind(low[coordinate], high[coordinate], cut)
        kinds.append(here)
        searched.cut(leaf, coordinate, cut)
        piece = searched.bounds[2 * number + (1 if here == "left" else 2)]
        if bound != least:
            yield f"split {number} is of a leaf of bound {bound}, where {least} is the least"
        if here is None:
            yield f"split {number} cuts {low[coordinate]} to {high[coordinate]} at {cut}"
        elif here != "middle" and piece is not None and (target is None or piece < target):
            yield f"split {number} cuts off a piece of bound {piece}, where {target} is the target"
    searched.kinds = kinds


class Trial:
    def __init__(self, pool, folder):
        self.pool, self.folder, self.tried = pool, folder, Counter()

    def run(self, *words):
        self.tried["runs"] += 1
        return subprocess.run([self.pool, *map(str, words)], capture_output=True, text=True)

    def searched(self, label, net, *words):
        """What a search leaves, and what is wrong with it."""
        done = self.run("solve", net, *words)
        faults = []
        if not done.stdout:
            return None, [f"{label}: status {done.returncode}: {done.stderr.strip()}"]
        certificate = self.folder / "printed.cert"
        certificate.write_text(done.stdout)
        told = self.run("check", net, certificate)
        if told.returncode:
            faults.append(f"{label}: the program says {told.stdout.strip()}")
        second = checker.run([str(net), str(certificate)])
        if second[0]:
            faults.append(f"{label}: the second checker says {second[1]}")
        searched = Searched(net, done.stdout)
        faults += [f"{label}: {fault}" for fault in faults_of(searched, words[words.index("--gap") + 1])]
        searched.status, searched.text = done.returncode, done.stdout
        self.tried["splits"] += len(searched.kinds)
        self.tried["pieces cut off"] += sum(kind != "middle" for kind in searched.kinds)
        return searched, faults




def with_pieces(trial, made):
    """A search in which pieces pay; stopped with a journal, it goes on with squeezes and without."""
    searched, faults = trial.searched("make 13", made, *SEARCH, "--squeeze", "on", "--nodes", "200")
    yield from faults
    if searched and all(kind == "middle" for kind in searched.kinds):
        yield "make 13: no piece was cut off"
    if searched and len([kind for kind in searched.kinds[:128] if kind != "middle"]):
        yield "make 13: a piece was cut off within 128 splits"
    journal = trial.folder / "made.journal"
    stopped, faults = trial.searched("make 13, stopped", made, *SEARCH, "--squeeze", "on", "--nodes", "150", "--journal", journal)
    yield from faults
    kept = journal.read_bytes()
    for squeeze in ("on", "off"):
        journal.write_bytes(kept)
        words = [*SEARCH, "--squeeze", squeeze, "--nodes", "200", "--journal", journal]
        resumed, faults = trial.searched(f"make 13, resumed with {squeeze}", made, *words)
        yield from faults
        if resumed and stopped and resumed.cert.splits[:150] != stopped.cert.splits[:150]:
            yield f"make 13, resumed with {squeeze}: other splits than were recorded"
        if squeeze == "off" and resumed and any(kind != "middle" for kind in resumed.kinds[150:]):
            yield "make 13, resumed with off: a piece was cut off"


def on_examples(trial):
    """The networks of the literature, by form and rule: each search ends as one without squeezes does, or nearer."""
    for net in sorted(EXAMPLES.glob("*.json")):
        for form, rule in (("pq", "violated"), ("q", "fewest"), ("p", "widest")):
            words = ["--form", form, "--rule", rule, "--gap", "0.001", "--nodes", "40"]
            searched, faults = trial.searched(f"{net.stem} {form} {rule}", net, *words, "--squeeze", "on")
            yield from faults
            plain, faults = trial.searched(f"{net.stem} {form} {rule} off", net, *words, "--squeeze", "off")
            yield from faults
            if plain and any(kind != "middle" for kind in plain.kinds):
                yield f"{net.stem} {form} {rule}: a piece was cut off without the word"
            if plain and searched and plain.status == 0 and searched.status != 0 and len(plain.kinds) < 38:
                yield f"{net.stem} {form} {rule}: closed without squeezes alone"


def main():
    words = argparse.ArgumentParser(usage="squeezes.py POOL")
    words.add_argument("pool", type=Path)
    asked = words.parse_args()
    count = 0
    with tempfile.TemporaryDirectory() as folder:
        trial = Trial(program(asked.pool), Path(folder))
        made = trial.folder / "made.json"
        made.write_text(trial.run("make", 13).stdout)
        for faults in (with_pieces(trial, made), on_examples(trial)):
            for fault in faults:
                print(fault[:2000], flush=True)
                count += 1
    print(", ".join(f"{number} {what}" for what, number in trial.tried.items()) + f"; {count} differ")
    return 1 if count else 0


if __name__ == "__main__":
    sys.exit(main())
