#!/usr/bin/env python3
"""Whether a search with `--raise` adds only nodes whose bounds are as great as they can be: `raised.py POOL`

Of 100 networks, made from fixed seeds, each certificate that is printed is accepted, and so is its own `tight` text by `checktight` and by the
second checker, in the same form and as many pivots. In that text no leaf but the root is raised or empty, which says that no multipliers on the form's
rows show more of it, or why that isn't known. The exact run of tests/exact_runs.py says the same of the nodes that were cut. So it is for each
rule and form, with squeezes, and for runs that go on from a journal with the word and without it. With `--raise 0` a search is the same as
without the word. Prints what differs, and how much was tried.

With --table it prints what raising brings and costs, and judges nothing.
"""

import argparse
import json
import random
import resource
import sys
import tempfile
from pathlib import Path

sys.dont_write_bytecode = True
TOP = Path(__file__).resolve().parent.parent
sys.path.insert(0, str(TOP / "tests"))
import exact_runs
import pooling
from journals import program
from tight import EXAMPLES, FORMS, SOUR, Case, Trial, wide_network

RULES = ("widest", "first", "violated", "fewest")
BUDGET = "pool: too many nodes for this network\n"


def told(trial, label, net, *words):
    """The status and the certificate of a search; what is wrong with them."""
    done = trial.run("solve", net, *words)
    if done.returncode not in (0, 10, 11, 12, 13) or done.stderr:
        return None, [f"{label}: {done.returncode} {done.stderr!r}"]
    cert = trial.file("raised.cert", done.stdout)
    said = trial.run("check", net, cert)
    if said.returncode:
        return None, [f"{label}: {said.stdout}"]
    return (done.returncode, Case(label, net, cert)), []


def marked(trial, case, form, pivots):
    """What `tight` writes of a certificate, mark by mark, where both checkers accept it; what is wrong with it."""
    done = trial.run("tight", case.net, case.cert, "--form", form, "--pivots", str(pivots))
    if done.returncode:
        return [], [f"{case.label}: tight ends with {done.returncode} {done.stderr!r}"]
    line, faults = trial.said(case.label, case, done.stdout)
    if not faults and not line.startswith("accepted"):
        faults = [f"{case.label}: checktight says {line}"]
    return [mark.split() for mark in done.stdout.splitlines()[4:-2]], faults


def loose_ends(trial, case, form, pivots, begun=1):
    """Nodes from a number on that `tight` or the own run says more of than the certificate does."""
    marks, faults = marked(trial, case, form, pivots)
    yield from faults
    for word, node, *_ in marks:
        if int(node) >= begun and word in ("raised", "empty"):
            yield f"{case.label}: leaf {node} is {word}"
        trial.tried[f"leaves {word}"] += 1
    marker = exact_runs.Marker(case.network, form, pivots)
    tree = pooling.Tree(marker.rows, case.certificate.splits)
    for node in sorted({split[0] for split in case.certificate.splits}):
        if node < begun or case.bounds[node] is None:
            continue
        mark = marker.mark(node, *tree.box(node), case.bounds[node])
        trial.tried["nodes that were cut"] += 1
        if mark.word in ("raised", "empty"):
            yield f"{case.label}: node {node}, which was cut, is {mark.word}"


def small_network(seed):
    """A network of three sources, two pools and two products in small whole numbers."""
    draw = random.Random(seed)
    qualities = ["K0", "K1"][: draw.randint(1, 2)]

    def contents(low, high):
        return {name: draw.randint(low, high) for name in qualities}

    sources = [{"name": name, "cost": draw.randint(1, 9), "max": draw.randint(50, 300), "quality": contents(0, 9)} for name in "ABC"]
    products = [{"name": name, "price": draw.randint(5, 15), "max": draw.randint(50, 300), "most": contents(2, 6)} for name in "XY"]
    arcs = [["A", "P"], ["B", "P"], ["B", "R"], ["C", "R"], ["P", "X"], ["P", "Y"], ["R", "X"], ["R", "Y"], ["C", "X"]]
    return {"version": 1, "qualities": qualities, "sources": sources, "pools": [{"name": "P"}, {"name": "R"}], "products": products, "arcs": arcs}


def random_networks(trial):
    """100 networks, of numbers as wide as they may be and of small ones in turn."""
    for seed in range(100):
        net = trial.file("random.json", json.dumps((wide_network, small_network)[seed % 2](seed)))
        form, rule, squeeze = FORMS[seed % 3], RULES[seed // 2 % 4], ("off", "on")[seed // 8 % 2]
        pivots = (1000, 1000, 100, 7)[seed // 6 % 4]
        words = ["--form", form, "--rule", rule, "--squeeze", squeeze, "--nodes", "6", "--gap", "0", "--raise", str(pivots)]
        found, faults = told(trial, f"network {seed} {' '.join(words)}", net, *words)
        yield from faults
        if found:
            yield from loose_ends(trial, found[1], form, pivots)
            trial.tried["networks"] += 1


def by_hand(trial):
    """A network of which only a row of quality says that nothing can be shipped: one split, with both halves raised, closes it at 0."""
    net = trial.file("sour.json", SOUR)
    done = trial.run("solve", net, "--nodes", "1", "--gap", "0", "--raise", "1000")
    lines = done.stdout.splitlines()
    if done.returncode or not {"cost 0 1", "bound 0"} <= set(lines):
        yield f"too sour: {done.returncode} {done.stdout!r} {done.stderr!r}"
    for name in ("haverly1", "haverly2", "haverly3"):
        found, faults = told(trial, name, EXAMPLES / f"{name}.json", "--gap", "0", "--raise", "1000")
        yield from faults
        if found and found[0] != 0:
            yield f"{name}: {found[0]}"
        if found:
            yield from loose_ends(trial, found[1], "pq", 1000)
            marks, _ = marked(trial, found[1], "pq", 1000)
            for word, node, *_ in marks:
                if word != "tight":
                    yield f"{name}: leaf {node} is {word}"


def unasked(trial):
    """With `--raise 0` a search is what it is without the word."""
    for name in ("row1", "haverly1", "haverly2", "wastewater", "bental4", "two_products"):
        net = EXAMPLES / f"{name}.json"
        plain, zero = (trial.run("solve", net, "--nodes", "12", "--gap", "0", *words).stdout for words in ([], ["--raise", "0"]))
        if plain != zero:
            yield f"{name}: --raise 0 changes what is printed"


def resumed(trial):
    """Runs that were stopped go on with the word and without it. Nodes that were added with it are as they should be."""
    net = EXAMPLES / "haverly1.json"
    for first, then in (("50", "50"), ("50", "0"), ("0", "50")):
        journal = trial.folder / f"raised.{first}.{then}"
        stopped, faults = told(trial, f"stopped with {first}", net, "--nodes", "5", "--gap", "0", "--raise", first, "--journal", journal)
        yield from faults
        found, faults = told(trial, f"{first}, then {then}", net, "--nodes", "12", "--gap", "0", "--raise", then, "--journal", journal)
        yield from faults
        if not stopped or not found:
            continue
        before, after = stopped[1].certificate, found[1].certificate
        if after.splits[: len(before.splits)] != before.splits:
            yield f"{first}, then {then}: other splits than were recorded"
        if then != "0":
            yield from loose_ends(trial, found[1], "pq", int(then), 2 * len(before.splits) + 1 if first == "0" else 1)
        again, faults = told(trial, f"{first}, then {then}, and looked at", net, "--nodes", "0", "--gap", "0", "--journal", journal)
        yield from faults
        if again and again[1].certificate.splits != after.splits:
            yield f"{first}, then {then}: what is printed isn't what the journal holds"


def statuses(trial):
    """Numbers of pivots that are too many, and networks that are too large, once the network was read."""
    row1, none = EXAMPLES / "row1.json", trial.folder / "nowhere"
    sized = {}
    for numbers, directs in ((2000, 50), (2001, 51)):
        sized[numbers] = trial.file(f"sized{numbers}.json", json.dumps(wide_enough(directs)))
        rows = pooling.Rows(pooling.Network.read(sized[numbers]))
        if len(rows.rows) + len(rows.ends_of) != numbers:
            yield f"the network of {numbers} has {len(rows.rows) + len(rows.ends_of)} variables and rows"
    cases = [(row1, "1000000", 0, ""), (row1, "1000001", 4, BUDGET), (row1, "18446744073709551615", 4, BUDGET), (none, "1000001", 20, "pool: read fault\n"),
             (sized[2000], "1", 0, ""), (sized[2001], "0", 0, ""), (sized[2001], "1", 4, BUDGET), (sized[2001], "1000001", 4, BUDGET)]
    for net, pivots, status, error in cases:
        done = trial.run("solve", net, "--nodes", "0", "--raise", pivots)
        if (done.returncode, done.stderr) != (status, error):
            yield f"{net.name} --raise {pivots}: {done.returncode} {done.stderr!r}"
    for words in (["--raise"], ["--raise", "-1"], ["--raise", "on"], ["--raise", "1.0"], ["--raise", "18446744073709551616"], ["--raise", "1", "--raise=1"]):
        if trial.run("solve", row1, *words).returncode != 2:
            yield f"{words} asks something"


def wide_enough(directs):
    """Eight sources, five pools and eight products, all joined, one more pool, and so many arcs from sources to products; everything sells at once."""
    sources, pools, products = [f"S{i}" for i in range(8)], [f"P{i}" for i in range(5)], [f"X{i}" for i in range(8)]
    arcs = [[s, p] for s in sources for p in pools] + [[p, x] for p in pools for x in products]
    arcs += [[s, "Q"] for s in sources[:2]] + [["Q", x] for x in products[:5]]
    arcs += [[s, x] for x in products for s in sources][:directs]
    return {"version": 1, "sources": [{"name": s, "cost": 1, "max": 1, "quality": {}} for s in sources], "pools": [{"name": p} for p in [*pools, "Q"]],
            "products": [{"name": x, "price": 2, "max": 1} for x in products], "arcs": arcs}


# ---- the table


TABLE = [("haverly1", "0"), ("haverly2", "0"), ("haverly3", "0"), ("bental4", "0.01"), ("foulds2", "0.01"), ("adhya1", "0.01"), ("adhya2", "0.01"), ("adhya3", "0.01"), ("adhya4", "0.01")]


def table(trial, nodes, names):
    """How searches end without raising and with it: splits, status, bound, gap, and seconds of a processor."""
    print("| Network | `--raise` | Splits | Ends with | Bound | Gap | Seconds |")
    print("|---|---|---|---|---|---|---|", flush=True)
    for name, gap in TABLE:
        net = EXAMPLES / f"{name}.json"
        if (names and name not in names) or not net.exists():
            continue
        for pivots in ("0", "100", "1000"):
            begun = resource.getrusage(resource.RUSAGE_CHILDREN).ru_utime
            done = trial.run("solve", net, "--gap", gap, "--rule", "violated", "--nodes", nodes, "--raise", pivots)
            seconds = resource.getrusage(resource.RUSAGE_CHILDREN).ru_utime - begun
            lines = dict(line.split(" ", 1) for line in done.stdout.splitlines() if line.split(" ")[0] in ("splits", "bound", "gap"))
            gap_found = int(lines["gap"].split()[0]) / int(lines["gap"].split()[1]) / 10**12
            print(f"| {name} | {pivots} | {lines['splits']} | {done.returncode} | {int(lines['bound']) / 10**12:.6f} | {gap_found:.6f} | {seconds:.2f} |", flush=True)
    if not names:
        small_table(trial)


def small_table(trial):
    """How many of 60 networks of small numbers close at a gap of 0 within 40 splits, and the splits and seconds of a processor of all together."""
    print("\n| `--raise` | Closed | Splits | Seconds |\n|---|---|---|---|", flush=True)
    for pivots in ("0", "100", "1000"):
        closed, splits, begun = 0, 0, resource.getrusage(resource.RUSAGE_CHILDREN).ru_utime
        for seed in range(60):
            net = trial.file("small.json", json.dumps(small_network(seed)))
            done = trial.run("solve", net, "--gap", "0", "--rule", "violated", "--nodes", "40", "--raise", pivots)
            closed += done.returncode == 0
            splits += int(next(line.split()[1] for line in done.stdout.splitlines() if line.startswith("splits ")))
        print(f"| {pivots} | {closed} | {splits} | {resource.getrusage(resource.RUSAGE_CHILDREN).ru_utime - begun:.1f} |", flush=True)


def main():
    words = argparse.ArgumentParser(usage="raised.py POOL [--table [NETWORK ..]] [--nodes N]")
    words.add_argument("pool", type=Path)
    words.add_argument("--table", nargs="*", metavar="NETWORK")
    words.add_argument("--nodes", default="1000")
    asked = words.parse_args()
    count = 0
    with tempfile.TemporaryDirectory() as folder:
        trial = Trial(program(asked.pool), Path(folder), False)
        if asked.table is not None:
            return table(trial, asked.nodes, asked.table)
        for part in (by_hand, unasked, resumed, statuses, random_networks):
            for fault in part(trial):
                print(fault[:2000], flush=True)
                count += 1
    print(", ".join(f"{number} {what}" for what, number in trial.tried.items()) + f"; {count} differ")
    return 1 if count else 0


if __name__ == "__main__":
    sys.exit(main())
