#!/usr/bin/env python3
"""Whether `tools/spread` ends as `pool solve` does: `spread.py POOL [--on ENGINE] [--kills N]`

A search is spread over four processes, and killed twenty times at random moments, from a fixed seed: the tool alone, so that what it started
has to end with it. In the end it closes the gap that plain `solve` closes, and both checkers accept its certificate. Answers that don't come, since
the program that works on them is killed or writes nonsense now and then, cost a round and no more. A second spread on the same journal is
refused. Files that a killed run left are taken away by the next one. Bad words and files end it with the status that plain `solve` ends with.
With --on parallel the jobs go over GNU parallel, and with --on slurm to a cluster. Prints what differs, and in its last line how much was tried.
"""

import argparse
import fcntl
import os
import random
import re
import shutil
import signal
import subprocess
import sys
import tempfile
import time
from collections import Counter
from pathlib import Path

sys.dont_write_bytecode = True
import journal_bytes as made
from journals import EXAMPLES, TOP, checker, program

SEED = 1994
SPREAD = TOP / "tools" / "spread"
PATIENCE = 600  # seconds
# Now and then it writes nothing, half of its answers, or other ones, and then ends or is killed.
ROUGH = """#!/bin/bash
if [ "$1" = work ]; then
    case $((RANDOM % 5)) in
    0) kill -9 $$ ;;
    1) {pool} "$@" | head -c 60 ; exit 0 ;;
    2) {pool} "$@" | tr 0-4 5-9 ; exit 0 ;;
    esac
fi
exec {pool} "$@"
"""


class Case:
    def __init__(self, pool, folder, tried, engine, many=4):
        self.pool, self.folder, self.tried, self.engine, self.many = pool, folder, tried, engine, many

    def words(self, net, journal, *options):
        return [str(SPREAD), str(net), "--journal", str(journal), "--on", self.engine, "--jobs", str(self.many), "--share", str(self.folder), *options]

    def environment(self, pool=None):
        return {**os.environ, "POOL": str(pool or self.pool)}

    def run(self, net, journal, *options, pool=None):
        done = subprocess.run(self.words(net, journal, *options), capture_output=True, text=True, env=self.environment(pool), cwd=self.folder, timeout=PATIENCE)
        self.tried["runs"] += 1
        return done.returncode, done.stdout, done.stderr

    def solve(self, net, *options):
        done = subprocess.run([str(self.pool), "solve", str(net), *options], capture_output=True, text=True, cwd=self.folder)
        return done.returncode, done.stdout

    def accepted(self, label, net, certificate):
        """What both checkers say has to be the same, and that they accept."""
        file = self.folder / "cert"
        file.write_text(certificate)
        first = subprocess.run([str(self.pool), "check", str(net), str(file)], capture_output=True, text=True)
        second = checker.run([str(net), str(file)])
        if first.returncode or (first.returncode, first.stdout) != (second[0], f"{second[1]}\n"):
            yield f"{label}: check says {first.stdout!r}, the second checker {second}"


def number(word, certificate):
    found = re.search(f"(?m)^{word} (-?[0-9]+)(?: ([0-9]+))?$", certificate)
    return int(found[1]) / int(found[2] or 1) if found else None


def ends_alike(case, label, net, found, options):
    """Both searches close the gap, so their bounds and plans lie within it."""
    wanted = case.solve(net, *options)
    yield from case.accepted(label, net, found[1])
    if found[0] != wanted[0]:
        yield f"{label}: status {found[0]} ({found[2][-300:]!r}) in place of {wanted[0]}"
    elif found[0] == 0:
        gap = 10**12 * float(options[options.index("--gap") + 1]) if "--gap" in options else 10**10
        for word in ("cost", "bound"):
            if abs(number(word, found[1]) - number(word, wanted[1])) > 2 * gap:
                yield f"{label}: {word} {number(word, found[1])} and {number(word, wanted[1])}"


LINE = re.compile(r"(\d+) leaves, (\d+) taken, (\d+) splits, (?:bound ([-0-9.,]+)|no plan obeys), (?:best [-0-9.,]+|no plan yet)(?:, gap [0-9.,]+)?, [0-9.]+ s(?:, waited \d+ %)?")


def told(label, certificate, lines):
    """Each line of progress has its form, and the last one tells the tree of the certificate."""
    for line in lines:
        if not LINE.fullmatch(line):
            yield f"{label}: a line of progress: {line!r}"
            return
    splits, bound = len(re.findall("(?m)^split ", certificate)), number("bound", certificate)
    if lines:
        last = LINE.fullmatch(lines[-1])
        if int(last[3]) != splits:
            yield f"{label}: {splits} splits, and the last line says {lines[-1]!r}"
        if (last[4] is None) != (bound is None) or last[4] and abs(float(last[4].replace(",", "")) - bound / 1e12) > 2e-6:
            yield f"{label}: the bound is {bound}, and the last line says {lines[-1]!r}"
    elif splits:
        yield f"{label}: {splits} splits, and no line of progress"


def plain(case, name, *options):
    net, journal = EXAMPLES / f"{name}.json", case.folder / f"{name}.journal"
    found = case.run(net, journal, "--nodes", "2000", *options)
    yield from ends_alike(case, name, net, found, ["--nodes", "2000", *options])
    yield from told(name, found[1], found[2].splitlines())
    again = case.run(net, journal, "--nodes", "2000", *options)
    if again[:2] != found[:2]:
        yield f"{name}: another run on the journal ends in another way"


def statuses(case):
    """Bad words and files end it as they end plain `solve`, and begin no journal; at a limit of splits it ends as that does."""
    haverly, feeds = EXAMPLES / "haverly1.json", EXAMPLES / "two_feeds.json"
    (case.folder / "no network").write_text("no network")
    (case.folder / "no journal").write_bytes(b"\1NOTHING")
    of_other = case.folder / "of_other.journal"
    case.solve(feeds, "--journal", str(of_other), "--nodes", "0")
    for label, net, journal, options in (("a file that is missing", case.folder / "none", "x", []), ("no network", case.folder / "no network", "x", []), ("too many nodes", EXAMPLES / "adhya1.json", "x", ["--nodes", "200000"]),
                                         ("no such gap", haverly, "x", ["--gap", "1,5"]), ("no journal", haverly, "no journal", []), ("a journal of another network", haverly, of_other, []), ("a folder", haverly, ".", [])):
        found, wanted = case.run(net, journal, *options), case.solve(net, "--journal", str(journal), *options)
        if found[:2] != wanted:
            yield f"{label}: {found} in place of {wanted}"
    for name, nodes in (("adhya4", 0), ("adhya4", 3), ("haverly1", 0)):
        journal = case.folder / f"{name}-{nodes}.journal"
        found, wanted = case.run(EXAMPLES / f"{name}.json", journal, "--nodes", str(nodes)), case.solve(EXAMPLES / f"{name}.json", "--nodes", str(nodes))
        splits = len(re.findall("(?m)^split ", found[1]))
        if found[0] != wanted[0] or splits != nodes:
            yield f"{name}, {nodes} nodes: status {found[0]} with {splits} splits in place of {wanted[0]}"
        yield from case.accepted(f"{name}, {nodes} nodes", EXAMPLES / f"{name}.json", found[1])


def still_running(case):
    """The processes that work in the test's folder."""
    found = []
    for entry in Path("/proc").iterdir():
        try:
            words = (entry / "cmdline").read_bytes() if entry.name.isdigit() else b""
        except OSError:
            continue
        if str(case.folder).encode() in words and int(entry.name) != os.getpid():
            found.append(words.replace(b"\0", b" ").decode("utf-8", "replace"))
    return found


def killed(case, name, kills, draw):
    """The tool is killed again and again; what it had started is gone once the next one holds the journal."""
    net, journal = EXAMPLES / f"{name}.json", case.folder / "killed.journal"
    options = ["--nodes", "4000", "--gap", "1", "--round", "8"]
    held = []
    for _ in range(kills):
        run = subprocess.Popen(case.words(net, journal, *options), stdout=subprocess.DEVNULL, stderr=subprocess.DEVNULL, env=case.environment(), cwd=case.folder)
        time.sleep(0.2 + 1.5 * draw.random())
        run.send_signal(signal.SIGKILL)
        run.wait()
        until = time.monotonic() + 10
        while still_running(case) and time.monotonic() < until:
            time.sleep(0.02)
        running = still_running(case) if case.engine == "local" else []
        if running:
            yield f"{name}: a kill left processes: {running}"
        left = made.payloads(journal.read_bytes()) if journal.exists() else []
        if left[: len(held)] != held:
            yield f"{name}: a kill lost entries: {len(left)} are left of {len(held)}"
        held = left
        case.tried["kills"] += 1
    yield from ends_alike(case, f"{name}, killed", net, case.run(net, journal, *options), options[:4])
    folders = list(case.folder.glob("pool-spread-*"))
    if folders:
        yield f"{name}: files are left: {folders}"


def left_behind(case, name):
    """What a run leaves that was killed while its folder came to be, was there, or went: the next one takes it away, and nothing that is held."""
    net, journal = EXAMPLES / f"{name}.json", case.folder / "left.journal"
    for number, files in enumerate((None, (), ("1.jobs", "solve.out"))):
        lock = case.folder / f"pool-spread-left{number}.lock"
        lock.touch()
        if files is not None:
            lock.with_suffix("").mkdir()
        for file in files or ():
            (lock.with_suffix("") / file).touch()
    held = case.folder / "pool-spread-held.lock"
    held.with_suffix("").mkdir()
    with open(held, "w") as file:
        fcntl.flock(file, fcntl.LOCK_EX)
        for wanted in ([held.stem, held.name], []):
            status, _, said = case.run(net, journal, "--nodes", "10")
            if status:
                yield f"{name}: status {status} beside what was left: {said!r}"
            there = sorted(it.name for it in case.folder.glob("pool-spread-*"))
            if there != wanted:
                yield f"{name}: {there} are left, wanted: {wanted}"
            fcntl.flock(file, fcntl.LOCK_UN)


def lock_lost(case, name):
    """Whoever clears old files away may take the lock's too: the run ends as ever."""
    run, lost = subprocess.Popen(case.words(EXAMPLES / f"{name}.json", case.folder / "lost.journal", "--nodes", "10"), stdout=subprocess.DEVNULL, stderr=subprocess.PIPE, env=case.environment(), cwd=case.folder), 0
    while run.poll() is None:
        for lock in case.folder.glob("pool-spread-*.lock"):
            lock.unlink(missing_ok=True)
            lost += 1
        time.sleep(0.02)
    said = run.communicate()[1]
    if run.returncode or not lost:
        yield f"{name}: status {run.returncode} after the loss of {lost} locks: {said!r}"


def rough(case, name):
    """A program that loses and garbles what it works on."""
    pool = case.folder / "rough"
    pool.write_text(ROUGH.replace("{pool}", str(case.pool)))
    pool.chmod(0o755)
    net, journal = EXAMPLES / f"{name}.json", case.folder / "rough.journal"
    options = ["--nodes", "2000"]
    yield from ends_alike(case, f"{name}, roughly", net, case.run(net, journal, *options, pool=pool), options)


def at_once(case, name):
    net, journal = EXAMPLES / f"{name}.json", case.folder / "twice.journal"
    first = subprocess.Popen(case.words(net, journal, "--nodes", "4000", "--gap", "0"), stdout=subprocess.DEVNULL, stderr=subprocess.DEVNULL, env=case.environment(), cwd=case.folder)
    until = time.monotonic() + 60
    while not journal.exists() and time.monotonic() < until:
        time.sleep(0.05)
    time.sleep(1)
    second = case.run(net, journal, "--nodes", "0")
    if first.poll() is not None:
        yield f"{name}: the first of two ended with {first.returncode} too early to be of use"
    first.send_signal(signal.SIGKILL)
    first.wait()
    if second[0] != 22 or "another run is at work on it" not in second[2]:
        yield f"{name}: two at once: {second}"


def faults(case, kills):
    draw = random.Random(SEED)
    for name in ("haverly1", "haverly3", "bental4", "no_plan", "row1"):
        yield from plain(case, name)
    # Batches of many leaves don't go by the least bound, so a search over them is not asked for more than what the first plan leaves open.
    yield from plain(case, "adhya4", "--rule", "violated", "--gap", "1" if case.engine == "local" else "440")
    if case.engine == "local":
        yield from statuses(case)
        yield from left_behind(case, "row1")
        yield from lock_lost(case, "haverly1")
        yield from rough(case, "haverly2")
        yield from at_once(case, "adhya1")
    if kills:
        yield from killed(case, "adhya4", kills, draw)


def main():
    words = argparse.ArgumentParser(usage="spread.py POOL [--on ENGINE] [--kills N]")
    words.add_argument("pool", type=Path)
    words.add_argument("--on", default="local")
    words.add_argument("--kills", type=int, default=20)
    asked, tried, count = words.parse_args(), Counter(), 0
    if asked.on == "parallel" and not shutil.which("parallel"):
        print("skipped: GNU parallel is not installed (Debian's package `parallel`)")
        return 77
    with tempfile.TemporaryDirectory() as folder:
        for fault in faults(Case(program(asked.pool), Path(folder), tried, asked.on), asked.kills):
            print(fault[:2000], flush=True)
            count += 1
    print(", ".join(f"{number} {what}" for what, number in tried.items()) + f"; {count} differ")
    return 1 if count else 0


if __name__ == "__main__":
    sys.exit(main())
