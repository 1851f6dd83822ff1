#!/usr/bin/env python3
"""At which step the run of a box gets too wide, and how wide its numbers are: `wide_runs.py NET CERT [--form p|q|pq] [--runs N]`

Of the certificate's leaves that may hold a plan so many are drawn, from a fixed seed. Each one's run is followed to its end with fractions of any
width (tests/exact_runs.py). A line a run says how it ended and after how many steps; which step had the first operation that is too wide for 128
bits, how many steps had one, and how many of these operations were products and sums; and, in bits, the widest number of a state, the widest
denominator that a whole row has in common, and the widest numerator over it. It needs no program and judges nothing."""

import argparse
import random
import sys
from collections import Counter
from dataclasses import dataclass
from math import lcm
from pathlib import Path

sys.dont_write_bytecode = True
sys.path.insert(0, str(Path(__file__).resolve().parent))
import exact_runs
import pooling

SEED, LONGEST = 1954, 5000
SUMS = (exact_runs.ADD, exact_runs.SUB)


@dataclass
class Widths:
    """The widest numbers of a run's states, in bits: of a fraction, of a row's common denominator, of a numerator over it."""

    fraction: int = 0
    denominator: int = 0
    numerator: int = 0

    def meet(self, row):
        common = lcm(*(den for _, den in row))
        for num, den in row:
            self.fraction = max(self.fraction, num.bit_length(), den.bit_length())
            self.numerator = max(self.numerator, (num * (common // den)).bit_length())
        self.denominator = max(self.denominator, common.bit_length())


class WatchedRun(exact_runs.Run):
    """A run that looks at the numbers of each state that it reaches."""

    def __init__(self, *given):
        super().__init__(*given)
        self.widths = Widths()

    def pivot(self, *given):
        super().pivot(*given)
        for row in [*self.factors.values(), self.cost]:
            self.widths.meet(list(row.values()))
        for value in self.values.values():
            self.widths.meet([value])


def followed(rows, form, low, high):
    run = WatchedRun(rows, form, low, high)
    end = run.go(LONGEST, stop=False)
    steps = sorted({step for step, *_ in end.wide})
    of = Counter("sums" if operation in SUMS else "products" for _, operation, *_ in end.wide)
    return end, steps, of, run.widths


def main():
    words = argparse.ArgumentParser(usage="wide_runs.py NET CERT [--form p|q|pq] [--runs N]")
    words.add_argument("net")
    words.add_argument("cert")
    words.add_argument("--form", choices=("p", "q", "pq"), default="pq")
    words.add_argument("--runs", type=int, default=24)
    asked = words.parse_args()
    net = pooling.Network.read(asked.net)
    certificate, bounds = pooling.read_certificate(net, asked.cert)
    rows = pooling.Rows(net)
    tree = pooling.Tree(rows, certificate.splits)
    leaves = exact_runs.leaves_of(certificate, bounds)
    drawn = random.Random(SEED).sample(leaves, min(asked.runs, len(leaves)))
    print("| Leaf | Ends | Steps | First too wide | Steps with one | Products | Sums | Bits of a fraction | Of a row's denominator | Of a numerator over it |")
    print("|---|---|---|---|---|---|---|---|---|---|", flush=True)
    for node in drawn:
        end, steps, of, widths = followed(rows, asked.form, *tree.box(node))
        told = [node, end.kind, end.steps, steps[0] if steps else "none", len(steps), of["products"], of["sums"]]
        print(f"| {' | '.join(map(str, [*told, widths.fraction, widths.denominator, widths.numerator]))} |", flush=True)


if __name__ == "__main__":
    main()
