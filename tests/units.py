#!/usr/bin/env python3
"""Whether leaves that are handed out come back as they should: `units.py POOL`

The commands `jobs`, `work` and `gather` run on real files. The worked lines of docs/FORMATS.md come first. Then networks are searched round
after round: the texts of jobs and of answers are read by the page, line by line; answers are shuffled, doubled, cut off, damaged, swapped
between networks, and brought for another tree; and `gather` is killed at random moments, from a fixed seed. After each round the journal holds
just the entries of the answers that the page says are taken, in that order: they are judged here once more, by the tree and the rows of
the second checker, which says the leaves of the least bounds, what the work on a leaf has to bring, and the bound after it too. At the end
`solve` goes on from the journal, and its certificate begins with the gathered splits; both checkers accept it.
Each status comes where the page says, in the order of its causes, and leaves the journal as it was, or grown by just what was taken.
Prints what differs, and in its last line how much was tried.
"""

import argparse
import random
import re
import resource
import signal
import subprocess
import sys
import tempfile
import time
from collections import Counter
from fractions import Fraction
from pathlib import Path

sys.dont_write_bytecode = True
import journal_bytes as made
from journals import EXAMPLES, checker, program

SEED = 2002
KILLS = 40
MOST_TEXT = 67_108_864
ROUNDS = (("haverly1", 6, 4), ("haverly2", 6, 4), ("bental4", 5, 6), ("foulds2", 4, 8), ("adhya4", 5, 8))
MOST_SPLITS = 200_000
BARE = "poolwork 1\nanswers 1\nanswer {} {} 0 {}\nleft none\nright none\nend\n"


class Units:
    """The program, and a folder to try it in."""

    def __init__(self, pool, folder, tried):
        self.pool, self.folder, self.tried = str(pool), folder, tried

    def file(self, name, text):
        path = self.folder / name
        path.write_bytes(text.encode() if isinstance(text, str) else text)
        return path

    def run(self, *words, **how):
        done = subprocess.run([self.pool, *map(str, words)], capture_output=True, text=True, cwd=self.folder, **how)
        self.tried["runs"] += 1
        return done.returncode, done.stdout, done.stderr


class Answer:
    """An answer of a text: its number, and its three lines."""

    def __init__(self, lines):
        self.number, self.leaf, self.coordinate, self.cut = map(int, lines[0].split()[1:])
        self.halves = [half(line, word) for line, word in zip(lines[1:], ("left", "right"))]
        self.lines = lines

    def text(self):
        return "\n".join([f"answer {self.number} {self.leaf} {self.coordinate} {self.cut}", *self.lines[1:]])


def half(line, word):
    """A proof's scale and its pairs, or None."""
    fields = line.split(" ")
    if fields[0] != word:
        raise ValueError(line)
    if fields[1:] == ["none"]:
        return None
    scale, count, *rest = map(int, fields[1:])
    if len(rest) != 2 * count:
        raise ValueError(line)
    return scale, list(zip(rest[::2], rest[1::2]))


def answers_of(text):
    lines = text.split("\n")
    count = int(lines[1].split()[1])
    if lines[0] != "poolwork 1" or lines[1] != f"answers {count}" or lines[2 + 3 * count :] != ["end", ""]:
        raise ValueError(text[:200])
    return [Answer(lines[at : at + 3]) for at in range(2, 2 + 3 * count, 3)]


def text_of(answers):
    return "\n".join(["poolwork 1", f"answers {len(answers)}", *(a.text() for a in answers), "end", ""])


def jobs_of(text):
    """The splits and the nodes of a text of jobs."""
    found = re.fullmatch(r"pooljobs 1\nshape(?: \d+){7}\nsplits (\d+)\n((?:split \d+ \d+ -?\d+\n)*)jobs (\d+)\n((?:job \d+ \d+\n)*)end\n", text)
    splits, nodes = found[2].splitlines(), [line.split() for line in found[4].splitlines()]
    if len(splits) != int(found[1]) or [int(n[1]) for n in nodes] != list(range(int(found[3]))):
        raise ValueError(text[:200])
    return [tuple(map(int, line.split()[1:])) for line in splits], [int(n[2]) for n in nodes]


class Desk:
    """A tree and jobs, by the second checker's tree and rows, and what of the answers is taken."""

    def __init__(self, net, splits, nodes):
        self.net, self.nodes = net, nodes
        self.tree, self.taken = checker.new_tree(net), []
        for split in splits:
            checker.cut_leaf(net, self.tree, *split)

    def judge(self, answer):
        if answer.number >= len(self.nodes):
            return "stranger"
        node, tree = self.nodes[answer.number], self.tree
        if node in tree.cut_nodes:
            return "repeated"
        if answer.leaf != node:
            return "wrong"
        low, high = tree.lows[node], tree.highs[node]
        if answer.coordinate >= self.net.coordinates:
            return "refused 2"
        if not low[answer.coordinate] < answer.cut < high[answer.coordinate]:
            return "refused 3"
        boxes = zip((low, changed(low, answer)), (changed(high, answer), high))
        return "taken" if all(self.is_in_order(proof, *box) for proof, box in zip(answer.halves, boxes)) else "refused 5"

    def is_in_order(self, proof, low, high):
        try:
            if proof is not None:
                checker.proof_number(self.net, [0, proof[0], len(proof[1]), *(number for pair in proof[1] for number in pair)], low, high)
        except checker.Refused:
            return False
        return True

    def take(self, answer):
        how = self.judge(answer)
        if how == "taken":
            checker.cut_leaf(self.net, self.tree, answer.leaf, answer.coordinate, answer.cut)
            self.taken.append(answer)
        return how


def changed(ends, answer):
    return ends[: answer.coordinate] + [answer.cut] + ends[answer.coordinate + 1 :]


def payload(answer):
    """The bytes of an answer's entry in a journal."""
    return made.split(answer.leaf, answer.coordinate, answer.cut, *(proof and made.proof(proof[0], *proof[1]) for proof in answer.halves))


def network(path):
    net = checker.judge_rows(checker.walk(checker.parse_json(path.read_bytes())))
    net.rows = checker.make_rows(net)
    return net


def differs(label, found, wanted):
    if found != wanted:
        yield f"{label}: {found!r} in place of {wanted!r}"


def tree_of(net, splits):
    tree = checker.new_tree(net)
    for split in splits:
        checker.cut_leaf(net, tree, *split)
    return tree


def least_leaves(net, text, most):
    """The first leaves of a certificate's tree that may hold a plan, by bound and then by number."""
    certificate = checker.read_certificate(text.encode())
    tree, bounds, proofs = tree_of(net, certificate.splits), [], {proof[0]: proof for proof in certificate.proofs}
    for node, box in enumerate(zip(tree.lows, tree.highs)):
        above = bounds[certificate.splits[(node - 1) // 2][0]] if node else checker.reach_bound(net)
        bounds.append(checker.node_bound(net, above, proofs.get(node), *box))
    leaves = sorted((bound, node) for node, bound in enumerate(bounds) if bound is not None and node not in tree.cut_nodes)
    return [node for _, node in leaves[:most]]


def is_of_form(net, form, coordinate):
    """Whether the form cuts it: the proportions in Q and PQ, the qualities of pools in P, the flows in each."""
    feeds, qualities = len(net.feeds), len(net.pools) * len(net.qualities)
    return coordinate >= feeds + qualities or (coordinate >= feeds) == (form == "p")


def price_number(net, low, high):
    """What the price proof shows in a box: on each pool's row `balance` the least cost of its feeds, with scale 1."""
    pairs = []
    for l in range(len(net.pools)):
        cost = min(net.sources[source].cost for source, pool in net.feeds if pool == l)
        pairs += [len(net.sources) + l, cost] if cost else []
    return checker.proof_number(net, [0, 1, len(pairs) // 2, *pairs], low, high)


def worked_otherwise(net, splits, nodes, form, answers):
    """Where answers are not those that the page promises: which jobs have one, the split, and how strong the proofs are."""
    tree, root = tree_of(net, splits), list(zip(net.low, net.high))
    came = {answer.number: answer for answer in answers}
    for number, node in enumerate(nodes):
        low, high = tree.lows[node], tree.highs[node]
        cuttable = [c for c in range(net.coordinates) if is_of_form(net, form, c) and high[c] - low[c] >= 2]
        if bool(cuttable) != (number in came):
            yield f"job {number}: {len(cuttable)} coordinates, {'an' if number in came else 'no'} answer"
            continue
        if not cuttable:
            continue
        answer = came[number]
        widest = max(cuttable, key=lambda c: (Fraction(high[c] - low[c], root[c][1] - root[c][0]), -c))
        found = answer.leaf, answer.coordinate, answer.cut
        yield from differs(f"job {number}: the split", found, (node, widest, (low[widest] + high[widest]) // 2))
        for proof, box in zip(answer.halves, ((low, changed(high, answer)), (changed(low, answer), high))):
            reach, shown = checker.reach_bound(net), None
            if proof:
                shown = checker.proof_number(net, [0, proof[0], len(proof[1]), *(n for pair in proof[1] for n in pair)], *box)
                if proof[0] == 0:
                    continue
                shown //= proof[0]
                if shown <= reach:
                    yield f"job {number}: a proof shows no more than the reach bound"
            if max(reach, reach if shown is None else shown) < price_number(net, *box):
                yield f"job {number}: less is shown than the price proof shows"
    yield from differs("the order of the answers", [answer.number for answer in answers], sorted(came))


# ---- the lines of the page


def worked(units):
    """Two feeds of one pool, whose best starting plan earns 300: jobs, answers, and how each is told."""
    net, run = EXAMPLES / "two_feeds.json", units.run
    text = "pooljobs 1\nshape 2 1 1 1 2 1 0\nsplits 0\njobs 1\njob 0 0\nend\n"
    yield from differs("jobs", run("jobs", net, "--journal", "a"), (0, text, ""))
    yield from differs("jobs again", run("jobs", net, "--journal=a", "--count", "1000"), (0, text, ""))
    units.file("jobs", text)
    units.file("good", BARE.format(0, 0, 524288))
    last = "taken {} splits {} bound -300000000000000\n"
    yield from differs("twice", run("gather", net, "jobs", "good", "good", "--journal", "a"), (0, "answer 0 taken\nanswer 0 repeated\n" + last.format(1, 1), ""))
    yield from differs("once more", run("gather", net, "jobs", "good", "--journal", "a"), (0, "answer 0 repeated\n" + last.format(0, 1), ""))
    for label, lines, told in (("stranger", BARE.format(3, 0, 524288), "answer 3 stranger"), ("wrong", BARE.format(0, 1, 524288), "answer 0 wrong"),
                               ("refused", BARE.format(0, 0, 0), "answer 0 refused 3"), ("empty", "", "file 0 text 1"), ("cut off", BARE.format(0, 0, 524288)[:-4], "file 0 text 6")):
        units.file("answers", lines)
        (units.folder / "b").unlink(missing_ok=True)
        yield from differs(label, run("gather", net, "jobs", "answers", "--journal", "b"), (0, f"{told}\n" + last.format(0, 0), ""))
    yield from differs("files in order", run("gather", net, "jobs", "answers", "good", "answers", "--journal", "b"), (0, "file 0 text 6\nanswer 0 taken\nfile 2 text 6\n" + last.format(1, 1), ""))
    certificate = run("solve", net, "--journal", "a")
    yield from differs("the gathered split", re.findall("(?m)^split .*$", certificate[1])[:1], ["split 0 0 524288"])


def refusals(units):
    """Each status of the three commands that a file or a word is the cause of, and nothing is printed."""
    net, other, run = EXAMPLES / "two_feeds.json", EXAMPLES / "haverly1.json", units.run
    usage = run("help")[2]
    good = "pooljobs 1\nshape 2 1 1 1 2 1 0\nsplits 1\nsplit 0 0 524288\njobs 1\njob 0 1\nend\n"
    units.file("jobs", good)
    units.file("answers", "poolwork 1\nanswers 0\nend\n")
    journal = ("--journal", "c")
    for words in (["jobs", net], ["jobs", net, *journal, "--count", "0"], ["jobs", net, *journal, "--count", "1001"], ["work", net], ["work", net, "jobs", "--form", "PQ"], ["work", net, "jobs", *journal],
                  ["gather", net, "jobs", *journal], ["gather", net, "jobs", "answers"], ["gather", net, "jobs", *["answers"] * 65, *journal]):
        yield from differs(f"{words[0]}, words that ask nothing", run(*words), (2, "", usage))
    for label, text, line in (("a shape of another network", good.replace("shape 2", "shape 3"), 0), ("a cut outside the box", good.replace("524288", "0"), 0), ("numbers from 1", good.replace("job 0 1", "job 1 1"), 0),
                              ("a node that is cut", good.replace("job 0 1", "job 0 0"), 0), ("a node that is not there", good.replace("job 0 1", "job 0 3"), 0),
                              ("a node twice", good.replace("\njobs 1", "\njobs 2").replace("job 0 1", "job 0 1\njob 1 1"), 0), ("no jobs text", "pooljobs 2\n", 1), ("too few jobs", good.replace("\njobs 1", "\njobs 2"), 7)):
        units.file("bad", text)
        wanted = (6, "", f"pool: jobs refused at line {line}\n")
        yield from differs(f"work, {label}", run("work", net, "bad"), wanted)
        yield from differs(f"gather, {label}", run("gather", net, "bad", "answers", *journal), wanted)
    yield from differs("no journal is begun for jobs that are refused", (units.folder / "c").exists(), False)
    yield from differs("jobs of another tree", run("gather", net, "jobs", "answers", *journal), (7, "", "pool: jobs of another tree\n"))
    missing = (20, "", "pool: read fault\n")
    for words in (["jobs", "none", *journal], ["work", "none", "jobs"], ["work", net, "none"], ["gather", net, "none", "answers", *journal], ["gather", net, "jobs", "none", *journal]):
        yield from differs(f"{words[0]}, a file that is missing", run(*words), missing)
    yield from differs("work, endless jobs", run("work", net, "/dev/zero"), (5, "", "pool: certificate too long\n"))
    yield from differs("gather, endless answers", run("gather", net, "jobs", "/dev/zero", *journal), (5, "", "pool: certificate too long\n"))
    yield from differs("a journal of another network", run("jobs", other, *journal), (30, "", "pool: journal of another network\n"))
    yield from in_order(units, net, other)
    yield from at_the_limit(units, net)
    yield from of_journals(units, net, other)
    yield from of_other_trees(units, net)


def in_order(units, net, other):
    """Where two causes stand, the earlier one is told: words, network, jobs, answers, journal, tree. The journal stays as it is."""
    run, bytes_of_d = units.run, b"\1NOTHING"
    units.file("d", bytes_of_d)
    units.file("bad", "pooljobs 2\n")
    units.file("no network", "no network")
    with open(units.folder / "endless", "wb") as file:
        file.truncate(MOST_TEXT + 1)
    refused, missing, long = (3, "", "pool: network refused: 2\n"), (20, "", "pool: read fault\n"), (5, "", "pool: certificate too long\n")
    bad, alien = (6, "", "pool: jobs refused at line 1\n"), (6, "", "pool: jobs refused at line 0\n")
    for words, wanted in ((("jobs", "no network", "--journal", "d"), refused), (("jobs", "none", "--journal", "d"), missing), (("work", "no network", "none"), refused),
                          (("work", net, "none"), missing), (("work", net, "bad"), bad), (("work", other, "jobs"), alien), (("work", "none", "bad"), missing),
                          (("gather", "no network", "bad", "none", "--journal", "d"), refused), (("gather", net, "bad", "none", "--journal", "d"), bad),
                          (("gather", other, "jobs", "none", "--journal", "d"), alien), (("gather", net, "none", "endless", "--journal", "d"), missing),
                          (("gather", net, "endless", "none", "--journal", "d"), long), (("gather", net, "jobs", "none", "endless", "--journal", "d"), missing),
                          (("gather", net, "jobs", "endless", "none", "--journal", "d"), long), (("gather", net, "jobs", "answers", "none", "--journal", "d"), missing),
                          (("gather", net, "jobs", "answers", "--journal", "d"), (33, "", "pool: not a journal\n")), (("jobs", net, "--journal", "d"), (33, "", "pool: not a journal\n"))):
        yield from differs(f"the first of the causes, {' '.join(map(str, words))}", run(*words), wanted)
    yield from differs("a file that is no journal stays as it is", (units.folder / "d").read_bytes(), bytes_of_d)


def at_the_limit(units, net):
    """A file of as many bytes as may be read is read, and judged by its text; with one byte more it is too long."""
    for size, jobs, answers in ((MOST_TEXT, (6, "", "pool: jobs refused at line 1\n"), (0, "file 0 text 1\ntaken 0 splits 1 bound -300000000000000\n", "")),
                                (MOST_TEXT + 1, *[(5, "", "pool: certificate too long\n")] * 2)):
        with open(units.folder / "long", "wb") as file:
            file.truncate(size)
        (units.folder / "e").write_bytes(made.journal(made.canonical(net.read_bytes()), made.split(0, 0, 524288)))
        yield from differs(f"work, jobs of {size} bytes", units.run("work", net, "long"), jobs)
        yield from differs(f"gather, jobs of {size} bytes", units.run("gather", net, "long", "answers", "--journal", "e"), jobs)
        yield from differs(f"gather, answers of {size} bytes", units.run("gather", net, "jobs", "long", "--journal", "e"), answers)


def of_journals(units, net, other):
    """What `jobs` and `gather` say of journals that are not in order, which stay as they are; and of one that can't be opened."""
    text = made.canonical(net.read_bytes())
    bad = made.journal(text, made.split(0, 0, 524288), made.split(0, 0, 524288))
    files = {"another network": (made.journal(made.canonical(other.read_bytes())), 30, "journal of another network"), "a record that is not in order": (bad, 31, "journal record 1 is bad"),
             "version 7": (made.header(text, version=7) + b"\0", 32, "journal of unknown version 7"), "no journal": (b"\1NOTHING", 33, "not a journal")}
    for label, (data, status, message) in files.items():
        units.file("f", data)
        for words in (["jobs", net], ["gather", net, "jobs", "answers"]):
            yield from differs(f"{words[0]}, {label}", units.run(*words, "--journal", "f"), (status, "", f"pool: {message}\n"))
        yield from differs(f"{label}: stays as it is", (units.folder / "f").read_bytes(), data)
    for name in (".", "nowhere/g", "/dev/full"):
        for words in (["jobs", net], ["gather", net, "jobs", "answers"]):
            yield from differs(f"{words[0]}, journal {name}", units.run(*words, "--journal", name), (22, "", "pool: disk fault\n"))


def of_other_trees(units, net):
    """Jobs are of another tree exactly where their splits are no front of the journal's, also where those go on as theirs do."""
    text = made.canonical(net.read_bytes())
    units.file("good", BARE.format(0, 1, 262144))
    fits, alien = (0, "answer 0 taken\ntaken 1 splits {} bound -300000000000000\n", ""), (7, "", "pool: jobs of another tree\n")
    first, second = made.split(0, 0, 524288), made.split(2, 0, 786432)
    for label, entries, wanted in (("no split", [], alien), ("another cut", [made.split(0, 0, 524287)], alien), ("another coordinate", [made.split(0, 1, 524288)], alien),
                                   ("the splits in another order", [made.split(0, 3, 50000000), made.split(1, 0, 524288)], alien), ("the same split", [first], fits), ("a longer tree", [first, second], fits)):
        data = made.journal(text, *entries)
        units.file("h", data)
        status, out, error = units.run("gather", net, "jobs", "good", "--journal", "h")
        yield from differs(f"a tree with {label}", (status, out, error), (wanted[0], wanted[1].format(len(entries) + 1), wanted[2]))
        held = made.payloads((units.folder / "h").read_bytes())
        yield from differs(f"a tree with {label}: entries", held, entries + ([made.split(1, 0, 262144)] if wanted is fits else []))


# ---- limits


def no_longer_than(size):
    """What a run is started with so that no file of it gets longer than this, as `ulimit -f` under `trap '' XFSZ` does."""

    def limit():
        signal.signal(signal.SIGXFSZ, signal.SIG_IGN)
        resource.setrlimit(resource.RLIMIT_FSIZE, (size, size))

    return {"preexec_fn": limit, "restore_signals": False}


def lost_output(units):
    """Standard output takes nothing, or a front of 20 bytes: 21, and what was gathered is in the journal."""
    net, journal = EXAMPLES / "two_feeds.json", units.folder / "k"
    units.file("jobs", "pooljobs 1\nshape 2 1 1 1 2 1 0\nsplits 0\njobs 1\njob 0 0\nend\n")
    units.file("good", BARE.format(0, 0, 524288))

    def run(words, **how):
        done = subprocess.run([units.pool, *map(str, words)], stderr=subprocess.PIPE, text=True, cwd=units.folder, **how)
        return done.returncode, done.stderr

    lost = (21, "pool: write fault\n")
    for words in (["jobs", net, "--journal", journal], ["work", net, "jobs"]):
        whole = units.run(*words)[1]
        with open("/dev/full", "w") as full, open(units.folder / "front", "w") as front:
            yield from differs(f"{words[0]}, standard output is full", run(words, stdout=full), lost)
            yield from differs(f"{words[0]}, standard output takes 20 bytes", run(words, stdout=front, **no_longer_than(20)), lost)
        yield from differs(f"{words[0]}: the front", (units.folder / "front").read_text(), whole[:20])
    yield from differs("jobs: nothing is recorded", made.payloads(journal.read_bytes()), [])
    with open("/dev/full", "w") as full:
        yield from differs("gather, standard output is full", run(["gather", net, "jobs", "good", "--journal", journal], stdout=full), lost)
    yield from differs("gather: what was gathered stands", made.payloads(journal.read_bytes()), [made.split(0, 0, 524288)])


def full_disk(units, draw):
    """The journal may get no longer than so many bytes: 22 and nothing printed, and it has exactly the entries for which there was room."""
    path = EXAMPLES / "adhya4.json"
    start = units.folder / "start.journal"
    units.run("solve", path, "--nodes", "6", "--journal", start)
    jobs = units.file("jobs", units.run("jobs", path, "--journal", start, "--count", "6")[1])
    answers = units.file("answers", units.run("work", path, jobs)[1])
    data = start.read_bytes()
    whole = units.file("whole.journal", data)
    wanted = units.run("gather", path, jobs, answers, "--journal", whole)
    entries, length = made.payloads(whole.read_bytes()), len(whole.read_bytes())
    ends = [at + 1 for at in made.places(whole.read_bytes())]
    for size in sorted({len(data), length - 1, length, *(draw.randrange(len(data), length) for _ in range(16))}):
        journal = units.file("room.journal", data)
        done = units.run("gather", path, jobs, answers, "--journal", journal, **no_longer_than(size))
        held = made.payloads(journal.read_bytes())
        room = sum(end <= size for end in ends) - 1
        yield from differs(f"room for {size} bytes", (done, len(held)), (wanted if size >= length else (22, "", "pool: disk fault\n"), room))
        yield from differs(f"room for {size} bytes: entries", held == entries[:room], True)
        units.tried["sizes of a journal"] += 1


def most_splits(units):
    """A tree of as many splits as there may be is worked on, and an answer to it is told as one too many; jobs on a larger one are refused."""
    net = EXAMPLES / "two_feeds.json"
    chain = [(2 * t, 3, t + 1) for t in range(MOST_SPLITS + 1)]
    for count in (MOST_SPLITS, MOST_SPLITS + 1):
        lines = "".join(f"split {leaf} {coordinate} {cut}\n" for leaf, coordinate, cut in chain[:count])
        units.file("jobs", f"pooljobs 1\nshape 2 1 1 1 2 1 0\nsplits {count}\n{lines}jobs 1\njob 0 {2 * count}\nend\n")
        units.file("good", BARE.format(0, 2 * count, 524288))
        units.file("m", made.journal(made.canonical(net.read_bytes()), *(made.split(*split) for split in chain[:MOST_SPLITS])))
        held = (units.folder / "m").read_bytes()
        refused = (6, "", "pool: jobs refused at line 0\n")
        status, text, error = units.run("work", net, "jobs")
        if count > MOST_SPLITS:
            yield from differs(f"work on {count} splits", (status, text, error), refused)
        else:
            yield from differs(f"work on {count} splits", (status, [(a.number, a.leaf) for a in answers_of(text)], error), (0, [(0, 2 * count)], ""))
        told = f"answer 0 refused 4\ntaken 0 splits {count} bound -300000000000000\n"
        yield from differs(f"gather on {count} splits", units.run("gather", net, "jobs", "good", "--journal", "m"), refused if count > MOST_SPLITS else (0, told, ""))
        yield from differs(f"{count} splits: the journal", (units.folder / "m").read_bytes() == held, True)


# ---- rounds


def mixed(draw, answers, others):
    """The texts that are brought for answers: shuffled, some twice, some of another network, some damaged, some cut off."""
    brought = list(answers) + draw.sample(answers, len(answers) // 2) + draw.sample(others, min(2, len(others)))
    draw.shuffle(brought)
    damaged = [damage(draw, answer) for answer in draw.sample(answers, min(3, len(answers)))]
    for answer in damaged:
        brought.insert(draw.randrange(len(brought) + 1), answer)
    at = draw.randrange(len(brought) + 1)
    texts = [text_of(brought[:at]), text_of(brought[at:])]
    texts.insert(draw.randrange(3), texts[0][: draw.randrange(len(texts[0]))])
    return texts


def damage(draw, answer):
    """The same answer with a number changed."""
    lines = [f"answer {answer.number} {answer.leaf} {answer.coordinate} {answer.cut}", *answer.lines[1:]]
    line = draw.randrange(3)
    fields = lines[line].split(" ")
    at = [k for k, field in enumerate(fields) if re.fullmatch("-?[0-9]+", field)]
    if at:
        k = draw.choice(at)
        fields[k] = str(draw.choice([0, 1, int(fields[k]) + 1, max(0, int(fields[k]) - 1), 7]))
        lines[line] = " ".join(fields)
    try:
        return Answer(lines)
    except ValueError:
        return answer


def brought_to(desk, texts):
    """What is told of the texts, one after another."""
    for number, text in enumerate(texts):
        try:
            answers = answers_of(text)
        except (ValueError, IndexError):
            # It is a text cut off: its last line is the faulty one.
            yield f"file {number} text {text.count(chr(10)) + 1}"
            continue
        for answer in answers:
            yield f"answer {answer.number} {desk.take(answer)}"


def rounds(units, name, many, count, draw):
    """A search by rounds: whatever is brought, the journal grows by the entries of what is taken."""
    path, journal = EXAMPLES / f"{name}.json", units.folder / f"{name}.journal"
    net, others = network(path), []
    if name != "haverly1":
        units.run("jobs", EXAMPLES / "haverly1.json", "--journal", "other")
        units.file("other.jobs", units.run("jobs", EXAMPLES / "haverly1.json", "--journal", "other")[1])
        others = answers_of(units.run("work", EXAMPLES / "haverly1.json", "other.jobs")[1])
    units.run("solve", path, "--nodes", "0", "--journal", journal)
    for at in range(many):
        label = f"{name}, round {at}"
        held = made.payloads(journal.read_bytes())
        status, text, error = units.run("jobs", path, "--journal", journal, "--count", str(count))
        yield from differs(f"{label}: jobs", (status, error, made.payloads(journal.read_bytes())), (0, "", held))
        splits, nodes = jobs_of(text)
        yield from differs(f"{label}: splits of the jobs", [f"split {' '.join(map(str, split))}" for split in splits], made.splits(held))
        yield from differs(f"{label}: leaves of the jobs", nodes, least_leaves(net, printed(units, path, journal), count))
        jobs, form = units.file("jobs", text), draw.choice(["p", "q", "pq"])
        status, text, error = units.run("work", path, jobs, "--form", form)
        yield from differs(f"{label}: work", (status, error), (0, ""))
        answers = answers_of(text)
        yield from (f"{label}: {fault}" for fault in worked_otherwise(net, splits, nodes, form, answers))
        if not answers:
            return
        desk, texts = Desk(net, splits, nodes), mixed(draw, answers, others)
        files = [units.file(f"answers{k}", text) for k, text in enumerate(texts)]
        told = list(brought_to(desk, texts))
        status, text, error = units.run("gather", path, jobs, *files, "--journal", journal)
        lines = text.splitlines()
        yield from differs(f"{label}: gather", (status, lines[:-1], error), (0, told, ""))
        yield from differs(f"{label}: the last line", lines[-1].split()[:4], ["taken", str(len(desk.taken)), "splits", str(len(splits) + len(desk.taken))])
        bound = checker.tree_bound(net, checker.read_certificate(printed(units, path, journal).encode()))
        yield from differs(f"{label}: the bound", lines[-1].split()[4:], ["bound", "none" if bound is None else str(bound)])
        yield from differs(f"{label}: entries", made.payloads(journal.read_bytes()), held + [payload(answer) for answer in desk.taken])
        units.tried["answers"] += len(told)
        units.tried["taken"] += len(desk.taken)
        yield from goes_on(units, path, journal, label)


def printed(units, path, journal):
    """The certificate of a journal as it is: a search over a copy of it cuts nothing more."""
    data = journal.read_bytes()
    return units.run("solve", path, "--nodes", len(made.splits(made.payloads(data))), "--journal", units.file("copy.journal", data))[1]


def goes_on(units, path, journal, label):
    """A search over the journal prints a certificate that begins with its splits; both checkers accept it."""
    held = made.splits(made.payloads(journal.read_bytes()))
    copy = units.file("copy.journal", journal.read_bytes())
    status, text, error = units.run("solve", path, "--nodes", len(held) + 4, "--journal", copy)
    found = re.findall("(?m)^split .*$", text)
    yield from differs(f"{label}: splits of the certificate", found[: len(held)], held)
    certificate = units.file("cert", text)
    first = units.run("check", path, certificate)
    yield from differs(f"{label}: both checkers", (first[0], first[1]), (lambda said: (said[0], f"{said[1]}\n"))(checker.run([str(path), str(certificate)])))
    if status not in (0, 10, 11) or first[0] != 0 or error:
        yield f"{label}: solve ends with {status}, check with {first}"


# ---- kills


def killed(units, draw, kills):
    """`gather` is killed again and again: its journal holds a front of what is to be taken, and the next one goes on."""
    path, journal = EXAMPLES / "adhya4.json", units.folder / "killed.journal"
    units.run("solve", path, "--nodes", "40", "--rule", "widest", "--journal", journal)
    jobs = units.file("jobs", units.run("jobs", path, "--journal", journal, "--count", "40")[1])
    answers = units.file("answers", units.run("work", path, jobs)[1])
    held, begun = made.payloads(journal.read_bytes()), time.monotonic()
    whole = units.file("whole.journal", journal.read_bytes())
    units.run("gather", path, jobs, answers, "--journal", whole)
    seconds, wanted = time.monotonic() - begun, made.payloads(whole.read_bytes())
    for _ in range(kills):
        before = made.payloads(journal.read_bytes())
        if before == wanted:
            units.file("killed.journal", made.journal(made.text_of(whole.read_bytes()), *held))
            before = held
        run = subprocess.Popen([units.pool, "gather", path, jobs, answers, "--journal", journal], stdout=subprocess.DEVNULL)
        time.sleep(draw.random() * seconds)
        run.send_signal(signal.SIGKILL)
        run.wait()
        left = made.payloads(journal.read_bytes())
        if left[: len(before)] != before or wanted[: len(left)] != left:
            yield f"killed: {len(left)} entries are left, which do not go on from {len(before)}"
        units.tried["kills"] += 1
    units.run("gather", path, jobs, answers, "--journal", journal)
    yield from differs("killed, and gathered to the end", made.payloads(journal.read_bytes()) == wanted, True)


def faults(units):
    draw = random.Random(SEED)
    yield from worked(units)
    yield from refusals(units)
    yield from lost_output(units)
    yield from full_disk(units, draw)
    yield from most_splits(units)
    for name, many, count in ROUNDS:
        yield from rounds(units, name, many, count, draw)
    yield from killed(units, draw, KILLS)


def main():
    words = argparse.ArgumentParser(usage="units.py POOL")
    words.add_argument("pool", type=Path)
    asked, tried, count = words.parse_args(), Counter(), 0
    with tempfile.TemporaryDirectory() as folder:
        for fault in faults(Units(program(asked.pool), Path(folder), tried)):
            print(fault[:2000], flush=True)
            count += 1
    print(", ".join(f"{number} {what}" for what, number in tried.items()) + f"; {count} differ")
    return 1 if count else 0


if __name__ == "__main__":
    sys.exit(main())
