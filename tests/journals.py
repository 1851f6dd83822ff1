#!/usr/bin/env python3
"""Whether a run with a journal loses nothing, and goes on where it was stopped: `journals.py POOL [--long]`

The program runs on real files. It is killed at random moments, from a fixed seed, and resumed (kills.py does so before each of its
calls, and has each fail); disks get full; files are made by hand, byte by byte from docs/FORMATS.md
(journal_bytes.py). What a run left is read by that format too. In the end each run has to print what one prints that nobody
stopped. Prints what differs, and in its last line how much was tried. With --long it kills ten times as often.
"""

import argparse
import os
import random
import re
import resource
import shutil
import signal
import subprocess
import sys
import tempfile
import time
from collections import Counter
from dataclasses import dataclass
from pathlib import Path

sys.dont_write_bytecode = True
import journal_bytes as made
from journal_bytes import MAGIC, checker, header, journal, plan, proof, record, root, split

TOP = Path(__file__).resolve().parent.parent
EXAMPLES = TOP / "examples"
NOBODY = 65534
SEED = 1978
KILLS = 200
DISK_FAULT = "pool: disk fault\n"
ROW1 = EXAMPLES / "row1.json"
SHIP = plan(1, 1, [], [], [100000000])  # the best plan of row1: 100 units


@dataclass
class Done:
    """How a run ended, and what it printed."""

    status: int
    out: str
    error: str


@dataclass
class Case:
    """A network file, the options of its search, and what a run prints and leaves that nobody stops."""

    label: str
    net: Path
    options: list
    done: Done = None
    file: bytes = b""
    seconds: float = 0.0

    def entries(self):
        return made.payloads(self.file)

    def within(self, nodes):
        """The same search, with another number of splits."""
        return Case(self.label, self.net, [*self.options[: self.options.index("--nodes")], "--nodes", str(nodes)])


class Trial:
    """The program, a folder to try it in, and how often what was tried."""

    def __init__(self, pool, folder, tried):
        self.pool, self.folder, self.tried = pool, folder, tried
        self.journal = folder / "run.journal"
        self.random, self.accepted = random.Random(SEED), {}

    def words(self, case, journal=None):
        return [str(self.pool), "solve", str(case.net), *case.options, "--journal", str(journal or self.journal)]

    def solve(self, case, journal=None, before=(), **how):
        """Runs a search with a journal to its end; `before` are words that run the program."""
        done = subprocess.run([*before, *self.words(case, journal)], capture_output=True, text=True, cwd=self.folder, **how)
        self.tried["runs"] += 1
        return Done(done.returncode, done.stdout, done.stderr)

    def case(self, label, net, *options):
        """A case, run to its end without a journal and with one."""
        case = Case(label, net, list(options))
        plain = subprocess.run([self.pool, "solve", net, *options], capture_output=True, text=True)
        self.journal.unlink(missing_ok=True)
        begun = time.monotonic()
        case.done = self.solve(case)
        case.seconds = time.monotonic() - begun
        case.file = self.journal.read_bytes()
        if case.done != Done(plain.returncode, plain.stdout, plain.stderr):
            raise SystemExit(f"{label}: a journal changes what is printed: {case.done}")
        return case

    def file(self, data):
        """Puts bytes in the place of the journal."""
        self.journal.write_bytes(data)
        self.tried["files"] += 1
        return self.journal

    def left(self):
        """What the journal's file holds, or nothing where there is none."""
        return self.journal.read_bytes() if self.journal.exists() else b""

    def says(self, net, certificate):
        """What both checkers say of a certificate, where they say the same."""
        key = net, certificate
        if key not in self.accepted:
            file = self.folder / "said.cert"
            file.write_text(certificate)
            first = subprocess.run([self.pool, "check", net, file], capture_output=True, text=True)
            second = checker.run([str(net), str(file)])
            self.accepted[key] = first.stdout if (first.returncode, first.stdout) == (second[0], f"{second[1]}\n") else f"{first} {second}"
        return self.accepted[key]


def differs(label, found, wanted):
    if found != wanted:
        yield f"{label}: {found} in place of {wanted}"


def ends_as(trial, case, label):
    """Whether a run on the journal as it stands prints what an unbroken one prints, and leaves the same entries."""
    held = made.entries(trial.left())
    yield from differs(label, trial.solve(case), case.done)
    yield from differs(f"{label}: entries", made.entries(trial.left()), case.entries())
    cuts = re.findall("(?m)^split .*$", case.done.out)
    yield from differs(f"{label}: splits of the certificate", cuts[: len(made.splits(held))], made.splits(held))
    if not trial.says(case.net, case.done.out).startswith("accepted "):
        yield f"{label}: {trial.says(case.net, case.done.out)}"


# ---- the file of a whole run


def worked_file(trial):
    """The journal of row1 has the 260 bytes of docs/FORMATS.md, and a second run leaves them."""
    shown = re.search(r"(?m)((?:^[0-9a-f]{4} (?: [0-9a-f]{2})+  .*\n)+)", (TOP / "docs" / "FORMATS.md").read_text())
    data = bytes.fromhex("".join(row[6:53] for row in shown[1].splitlines()))
    yield from differs("the bytes of docs/FORMATS.md", data, journal(made.canonical(ROW1.read_bytes()), SHIP))
    wanted = Done(0, (EXAMPLES / "row1.cert").read_text(), "")
    trial.journal.unlink()
    for label in ("row1", "row1 again"):
        yield from differs(label, trial.solve(Case("row1", ROW1, [])), wanted)
        yield from differs(f"{label}: its journal", trial.left(), data)


def headers(trial, cases):
    """Each journal begins with the network's canonical text, and has an entry for each split of the certificate."""
    for case in cases:
        text = made.canonical(case.net.read_bytes())
        yield from differs(f"{case.label}: header", case.file[: len(header(text))], header(text))
        yield from differs(f"{case.label}: splits", made.splits(case.entries()), re.findall("(?m)^split .*$", case.done.out))
        yield from differs(f"{case.label}: where the records end", made.places(case.file)[-1], len(case.file) - 1)


def by_hand(trial):
    """A run goes on from entries that were written by hand: docs/FORMATS.md has this tree of two splits."""
    net = EXAMPLES / "two_feeds.json"
    entries = [split(0, 0, 524288), split(1, 1, 262144, proof(0, (11, 1)))]
    trial.file(journal(made.canonical(net.read_bytes()), *entries))
    certificate = (EXAMPLES / "two_feeds.cert").read_text().replace("outflows 0", "outflows 100000000")
    certificate = certificate.replace("cost 0 1", "cost -300000000000000 1").replace("gap 300000000000000 1", "gap 0 1")
    yield from differs("a tree by hand", trial.solve(Case("two feeds", net, [])), Done(0, certificate, ""))
    best = plan(1, 1, [1, 0], [100000000], [])
    yield from differs("its entries", made.payloads(trial.left()), [*entries, best])
    yield from differs("its checkers", trial.says(net, certificate), "accepted gap cost -300000000000000 base 1 bound -300000000000000 gap 0\n")


def longer_searches(trial, case):
    """A journal is gone on with where more splits are asked for; fewer add none, and another rule may go on."""
    trial.journal.unlink(missing_ok=True)
    few = case.within(3)
    status = trial.solve(few).status
    yield from differs("three splits: status and splits", (status, len(made.splits(made.payloads(trial.left())))), (10, 3))
    yield from ends_as(trial, case, f"{case.label}, from three splits on")
    done = trial.solve(few)
    splits = re.findall("(?m)^split .*$", done.out)
    yield from differs("fewer splits than there are", (done.status, splits), (10, made.splits(case.entries())))
    begun = made.journal(made.text_of(case.file), *case.entries()[:6])
    trial.file(begun)
    done = trial.solve(Case(case.label, case.net, ["--gap", "0", "--rule", "first", "--nodes", "5"]))
    splits = re.findall("(?m)^split .*$", done.out)
    yield from differs("another rule", splits[: len(made.splits(case.entries()[:6]))], made.splits(case.entries()[:6]))
    if not trial.says(case.net, done.out).startswith("accepted "):
        yield f"another rule: {trial.says(case.net, done.out)}"


# ---- files of version 1


def old_files(trial, cases):
    """A file of version 1 goes on behind its Turn, which is there only where an entry was added; what it holds counts as ever."""
    wanted = Done(0, (EXAMPLES / "row1.cert").read_text(), "")
    old = trial.file(journal(made.canonical(ROW1.read_bytes()), SHIP, version=1)).read_bytes()
    yield from differs("row1 of version 1", trial.solve(Case("row1", ROW1, [])), wanted)
    yield from differs("row1 of version 1: its journal", trial.left(), old)
    haverly = EXAMPLES / "haverly1.json"
    old = trial.file(journal(made.canonical(haverly.read_bytes()), plan(1, 1, [1, 0], [0, 0], [0, 0]), version=1)).read_bytes()
    yield from differs("Haverly 1 of version 1", trial.solve(Case("Haverly 1", haverly, ["--nodes", "2", "--gap", "0"])).status in (0, 10), True)
    yield from differs("Haverly 1 of version 1: its Turn", trial.left()[: len(old) + 5], old[:-1] + bytes.fromhex("01 00000001 04"))
    for case in cases:
        text = made.text_of(case.file)
        for count in range(len(case.entries()) + 1):
            trial.file(made.turned(text, case.entries()[:count], count))
            label = f"{case.label} of version 1, from {count} entries on"
            yield from ends_as(trial, case, label)
            yield from differs(f"{label}: its journal", trial.left(), made.turned(text, case.entries(), count))


def old_refusals(good):
    """Number and bytes of journals of row1 with a Turn where none may stand, or an entry of the other version."""
    text, zero, one = made.text_of(good), plan(1, 1, [], [], [0]), plan(1, 1, [], [], [1000000])
    cut, turn = [split(0, 0, 1, version=version) for version in (1, 2)], made.TURN
    yield from ((0, journal(text, *payloads)) for payloads in ([turn], [cut[0]]))
    yield from ((number, journal(text, *payloads, version=1)) for number, payloads in (
        (0, [cut[1]]), (2, [zero, turn, turn]), (2, [zero, turn, cut[0]]), (0, [turn + b"\0"]), (2, [zero, turn, b"\x09"]),
        # Entries that are read, and not in order: the Turn before them counts as a record.
        (1, [zero, zero]), (2, [zero, turn, zero]), (3, [zero, turn, SHIP, one]), (1, [zero, zero, turn])))


# ---- files made by hand


def unborn_files(trial, case):
    """Files in which no journal has come to be yet are taken, and the search begins anew."""
    good = case.file
    noise = trial.random.randbytes(1000)
    files = [b"", b"\0", b"\1", b"\7", b"\0" + good[1:], b"\0" + noise, b"\7" + good[1:], b"\xff" + MAGIC, b"\2" + MAGIC + noise]
    for data in files:
        trial.file(data)
        yield from ends_as(trial, case, f"unborn: {data[:9]}, {len(data)} bytes")
        yield from differs(f"unborn: {data[:9]}: the file", trial.left(), good)


def torn_births(trial, case):
    """What a crash in each step of a birth may leave: any bytes in the place of those that were not on the disk yet."""
    born = header(made.text_of(case.file)) + b"\0"
    for length in range(1, len(born)):
        noise = trial.random.randbytes(length)
        kept = trial.random.randrange(length)
        for data in (b"\0" + born[1:length], b"\0" + born[1 : 1 + kept] + noise[kept:]):
            trial.file(data)
            yield from ends_as(trial, case, f"a birth torn at {length}")
            yield from differs(f"a birth torn at {length}: the file", trial.left(), case.file)
    for byte in (0, 1, 2, 7, 128, 255):
        trial.file(bytes([byte]) + born[1:])
        yield from ends_as(trial, case, f"a birth whose last byte became {byte}")
        yield from differs(f"a birth whose last byte became {byte}: the file", trial.left(), case.file)


def behind_the_gate(trial, case):
    """What stands behind the first closed gate means nothing: cut off, garbled, or a record that was not opened."""
    gates = made.places(case.file)
    for number, gate in enumerate(gates):
        noise = trial.random.randbytes(trial.random.randrange(1, 400))
        behind = case.file[gate + 1 :]
        cut = trial.random.randrange(len(behind) + 1)
        for closed in (b"", b"\0", b"\0" + noise, b"\2" + noise, b"\xff" + behind, b"\0" + behind[:cut], b"\0" + behind[:cut] + noise):
            trial.file(case.file[:gate] + closed)
            label = f"{case.label}: {number} entries, and {closed[:1]} and {len(closed)} bytes more"
            yield from differs(f"{label}: read", made.payloads(trial.left()), case.entries()[:number])
            yield from ends_as(trial, case, label)
            yield from differs(f"{label}: the file up to its last gate", trial.left()[: gates[-1]], case.file[:-1])


def foreign_files(good, other):
    """Status, message and bytes of files that are no journal of row1."""
    text = made.text_of(good)
    yield from ((33, "not a journal", data) for data in (
        ROW1.read_bytes(), b"\1\0", b"\1" + MAGIC[:6], b"\1POOLJNK" + good[8:], b"\3POOLJNK" + good[8:], b"minutes of the meeting\n",
        b"\1" + random.Random(7).randbytes(100000), b"\xff" * 5000))
    yield from ((32, f"journal of unknown version {version}", data) for version, data in (
        (7, good[:8] + b"\7" + good[9:]), (0, good[:8] + b"\0" + good[9:]), (3, good[:8] + b"\3"), (255, good[:8] + b"\xff" + good[9:]),
        (0, good[:8])))
    yield from ((30, "journal of another network", data) for data in (
        other, good[:9], good[:12], good[:13], good[:100], good[:230], header(""), header("") + b"\0", header(text[:-1]) + b"\0",
        header(text + " ") + b"\0", header(text.replace("100", "101")) + b"\0", header(ROW1.read_text()) + b"\0",
        good[:12] + b"\xff" + good[13:], good[:9] + b"\xff\xff\xff\xff" + good[13:]))


def bad_records(good):
    """Number and bytes of journals of row1 with a record that is open and no entry's."""
    text = made.text_of(good)
    zero, one = plan(1, 1, [], [], [0]), plan(1, 1, [], [], [1000000])
    longest = root(proof(1, *[(row, 1) for row in range(5)]))
    yield from ((number, journal(text, *payloads)) for number, payloads in (
        (2, [zero, one, b"\x09" + SHIP[1:]]), (0, [b""]), (0, [b"\3"]), (1, [zero, SHIP[:-1]]), (1, [zero, SHIP + b"\0"]), (1, [zero, SHIP + bytes(1000)]),
        (0, [root(proof(1, (3, 1)))[:-1]]), (0, [root(proof(1)[:-4] + b"\0\0\0\1")]), (0, [root(proof(1)[:-4] + b"\xff\xff\xff\xff")]),
        (0, [split(0, 0, 1)[:-1] + b"\2"]), (0, [split(0, 0, 1)[:-1]]), (0, [SHIP[:13] + b"\0\2" + SHIP[15:]]), (0, [longest + b"\0" * 12]),
        # Entries that are read, and not in order; a later record that is no entry's goes first.
        (1, [zero, zero]), (2, [zero, SHIP, one]), (0, [plan(1, 1, [1], [], [0])]), (0, [plan(1, 1, [], [], [100000001])]), (0, [plan(0, 1, [], [], [0])]),
        (0, [root(proof(0))]), (0, [root(proof(1, (5, 1)))]), (0, [root(proof(1, (99, 1)))]), (1, [root(proof(1)), root(proof(1))]),
        (0, [split(0, 0, 524288)]), (2, [zero, zero, b"\x09"])))
    begun = header(text) + record(zero)
    yield from ((1, begun + rest) for rest in (b"\1", b"\1\0\0\0", b"\1\0\0\0\0", b"\1\0\0\0\x17", record(SHIP)[:-1], b"\1\xff\xff\xff\xff" + SHIP, b"\1" + bytes(4)))


def bad_trees():
    """Number and payloads of journals of the two feeds whose entries are read and are not in order."""
    first = split(0, 0, 524288)
    yield from ((1, [first, split(0, 1, 262144)]), (1, [first, split(1, 0, 524288)]), (1, [first, split(3, 0, 1)]), (1, [first, split(2, 99, 1)]),
                (0, [split(0, 0, 0)]), (0, [split(0, 0, -5)]), (0, [split(0, 0, 1048576)]), (1, [first, root(proof(1))]),
                (1, [first, split(1, 1, 262144, proof(0, (11, 0)))]), (1, [first, split(1, 1, 262144, None, proof(0, (11, 1)))]))


def refused_files(trial, case, other):
    """Each status from 30 to 33 with its message; the file stays as it is, byte for byte."""
    files = list(foreign_files(case.file, other.file))
    files += [(31, f"journal record {number} is bad", data) for number, data in [*bad_records(case.file), *old_refusals(case.file)]]
    for status, words, data in files:
        trial.file(data)
        label = f"refused: {words}: {data[:9]}, {len(data)} bytes"
        yield from differs(label, trial.solve(case), Done(status, "", f"pool: {words}\n"))
        yield from differs(f"{label}: the file", trial.left(), data)
    net = EXAMPLES / "two_feeds.json"
    for number, payloads in bad_trees():
        trial.file(journal(made.canonical(net.read_bytes()), *payloads))
        wanted = Done(31, "", f"pool: journal record {number} is bad\n")
        yield from differs(f"refused: a tree of {len(payloads)} entries", trial.solve(Case("two feeds", net, [])), wanted)
    trial.file(case.file)
    yield from differs("under another network", trial.solve(Case("another", other.net, [])), Done(30, "", "pool: journal of another network\n"))
    copy = trial.folder / "net.json"
    copy.write_bytes(case.net.read_bytes())
    yield from differs("its own network", trial.solve(Case("its own network", copy, []), copy), Done(33, "", "pool: not a journal\n"))
    yield from differs("its own network: the file", copy.read_bytes(), case.net.read_bytes())


def stages(trial, case):
    """What comes before the journal leaves it alone: nothing is made, and nothing that is there is changed."""
    folder = trial.folder
    (folder / "text.json").write_text("no network")
    usage = "pool: usage: solve NET, check NET CERT, report NET CERT, formulate NET, make N or trial N\n"
    journal_words = ["--journal", str(trial.journal)]
    cases = [
        (["solve", "missing.json", *journal_words], 20, "pool: read fault\n"),
        (["solve", "text.json", *journal_words], 3, "pool: network refused: 2\n"),
        (["solve", "text.json", "--nodes", "200001", *journal_words], 3, "pool: network refused: 2\n"),
        (["solve", str(case.net), "--nodes", "200001", *journal_words], 4, "pool: too many nodes for this network\n"),
        (["solve", str(case.net), *journal_words, *journal_words], 2, usage),
        (["solve", str(case.net), "--journal"], 2, usage),
        (["check", str(case.net), str(EXAMPLES / "row1.cert"), *journal_words], 2, usage),
    ]
    for held in (None, b"minutes of the meeting\n", case.file):
        for words, status, message in cases:
            trial.journal.unlink(missing_ok=True)
            if held is not None:
                trial.file(held)
            done = subprocess.run([trial.pool, *words], capture_output=True, text=True, cwd=folder)
            yield from differs(" ".join(words[:4]), (done.returncode, done.stdout, done.stderr), (status, "", message))
            yield from differs(f"{' '.join(words[:4])}: the file", trial.left() if trial.journal.exists() else None, held)


def lost_output(trial, case):
    """Where standard output takes nothing the run ends with 21, and its journal has all of it."""
    trial.journal.unlink(missing_ok=True)
    with open("/dev/full", "w") as full:
        done = subprocess.run(trial.words(case), stdout=full, stderr=subprocess.PIPE, text=True)
    yield from differs("standard output full", (done.returncode, done.stderr), (21, "pool: write fault\n"))
    yield from differs("standard output full: the file", trial.left(), case.file)
    yield from ends_as(trial, case, "standard output full, and a run behind it")


# ---- runs that are stopped


def killed(trial, case, kills, old=None):
    """Kills a run at random moments, resumes it each time, and begins anew when it came to its end: with no file, or with so many entries in
    a file of version 1."""
    stopped = ends = 0
    label, text = case.label if old is None else f"{case.label} of version 1", made.text_of(case.file)
    while stopped < kills:
        trial.journal.unlink(missing_ok=True)
        if old is not None:
            trial.file(made.turned(text, case.entries()[:old], old))
        held, begun = made.entries(trial.left()), time.monotonic()
        while True:
            run = subprocess.Popen(trial.words(case), stdout=subprocess.PIPE, stderr=subprocess.PIPE, text=True)
            try:
                out, error = run.communicate(timeout=trial.random.uniform(0, 1.1 * case.seconds))
                break
            except subprocess.TimeoutExpired:
                run.send_signal(signal.SIGKILL)
                run.communicate()
            stopped += 1
            found = made.entries(trial.left())
            yield from differs(f"{label}: entries from before kill {stopped}", found[: len(held)], held)
            yield from differs(f"{label}: entries of an unbroken run, at kill {stopped}", found, case.entries()[: len(found)])
            trial.tried["entries resumed from"] += len(found)
            held, begun = found, 0
        ends += 1
        case.seconds = min(case.seconds, time.monotonic() - begun)
        yield from differs(f"{label}: the end after kill {stopped}", Done(run.returncode, out, error), case.done)
        yield from differs(f"{label}: the file after kill {stopped}", trial.left(), case.file if old is None else made.turned(text, case.entries(), old))
        yield from ends_as(trial, case, f"{label}: after its end")
    trial.tried["kills"] += stopped
    trial.tried["ends after kills"] += ends


# ---- disks that are full, and files that nobody may write


def room(size):
    """What a run is started with so that no file of it gets longer than this, as `ulimit -f` under `trap '' XFSZ` does."""
    def limit():
        signal.signal(signal.SIGXFSZ, signal.SIG_IGN)
        resource.setrlimit(resource.RLIMIT_FSIZE, (size, size))
    return {"preexec_fn": limit, "restore_signals": False}


def acknowledged(case, size):
    """The entries of a run whose journal has room for so many bytes: those whose record stands there with the gate behind it."""
    return case.entries()[: max(0, sum(gate < size for gate in made.places(case.file)) - 1)]


def full_files(trial, case):
    """A journal that may get no longer than so many bytes: 22, with each acknowledged entry there; with room it goes on."""
    gates = made.places(case.file)
    sizes = {0, 1, 2, 13, 100, gates[0], *(gate + more for gate in gates for more in (0, 1, 2, 7)), *trial.random.choices(range(len(case.file)), k=20)}
    for size in sorted(size for size in sizes if size < len(case.file)):
        trial.journal.unlink(missing_ok=True)
        for label in (f"{case.label}: room for {size} bytes", f"{case.label}: room for {size} bytes, again"):
            yield from differs(label, trial.solve(case, **room(size)), Done(22, "", DISK_FAULT))
            yield from differs(f"{label}: entries", made.payloads(trial.left()), acknowledged(case, size))
        yield from ends_as(trial, case, f"{case.label}: room again after {size} bytes")
        yield from differs(f"{case.label}: room again after {size} bytes: the file", trial.left(), case.file)
        trial.tried["full disks"] += 1


def full_disk(trial, case):
    """The same on a small file system of its own, where one can be mounted."""
    place = trial.folder / "small"
    place.mkdir()
    mount = ["mount", "-t", "tmpfs", "-o", "size=4k", "tmpfs", str(place)]
    if os.geteuid() or resource.getpagesize() > 4096 or not shutil.which("mount") or subprocess.run(mount, capture_output=True).returncode:
        trial.tried["mounted disks (none may be mounted here)"] += 0
        return
    try:
        journal_there = place / "run.journal"
        yield from differs("the whole journal is longer than the small disk", len(case.file) > 4096, True)
        for label in ("a small disk", "a small disk, again"):
            yield from differs(label, trial.solve(case, journal_there), Done(22, "", DISK_FAULT))
            yield from differs(f"{label}: entries", made.payloads(journal_there.read_bytes()), acknowledged(case, 4096))
        subprocess.run(["mount", "-o", "remount,size=4m", str(place)], check=True)
        yield from differs("a small disk that grew", trial.solve(case, journal_there), case.done)
        yield from differs("a small disk that grew: the file", journal_there.read_bytes(), case.file)
        trial.tried["mounted disks"] += 1
    finally:
        subprocess.run(["umount", str(place)], check=True)


def no_files(trial, case):
    """In the place of the journal stands what is no file, or nothing can stand there."""
    (trial.folder / "folder").mkdir()
    names = [trial.folder / "folder", trial.folder / "nowhere" / "run.journal", ROW1 / "run.journal", "/dev/full", "/dev/null", "n" * 300]
    for name in names:
        yield from differs(f"{name} as the journal", trial.solve(case, name), Done(22, "", DISK_FAULT))
    yield from differs("what stands beside them", sorted(os.listdir(trial.folder / "folder")), [])


def forbidden_files(trial, case):
    """A run that may not write its journal, or may make none, ends with 22, and what is there stays as it is."""
    how = {"user": NOBODY, "group": NOBODY, "extra_groups": []} if os.geteuid() == 0 else {}
    place = trial.folder / "forbidden"
    place.mkdir()
    trial.folder.chmod(0o755)
    begun = case.file[: made.places(case.file)[1]] + b"\0"
    try:
        able = subprocess.run([trial.pool, "check", case.net, trial.folder / "missing"], capture_output=True, **how).returncode == 20
    except OSError:
        able = False
    if not able:
        trial.tried["forbidden files (the program can't be run as another user here)"] += 0
        return
    file = place / "run.journal"
    for mode, held in ((0o000, case.file), (0o444, case.file), (0o444, begun), (0o222, case.file), (0o444, b""), (None, None)):
        file.unlink(missing_ok=True)
        if held is not None:
            file.write_bytes(held)
            file.chmod(mode)
        place.chmod(0o555)
        label = f"a journal of mode {mode and oct(mode)}"
        yield from differs(label, trial.solve(case, file, **how), Done(22, "", DISK_FAULT))
        place.chmod(0o755)
        if file.exists():
            file.chmod(0o644)
        yield from differs(f"{label}: the file", file.read_bytes() if file.exists() else None, held)
        trial.tried["forbidden files"] += 1
    yield from differs("allowed again", trial.solve(case, file), case.done)


# ---- beside a run


def watched(trial, case):
    """`tools/watch` shows each entry of a run while that writes it; bound, cost and gap of its last line are the certificate's."""
    trial.journal.unlink(missing_ok=True)
    lines = trial.folder / "lines"
    with open(lines, "w") as out:
        words = [str(TOP / "tools" / "watch"), str(trial.journal), "--every", "0.01"]
        watch = subprocess.Popen(words, stdout=out, stderr=subprocess.PIPE, text=True, preexec_fn=made.heeds_interrupts)
    while not lines.read_text():
        time.sleep(0.01)
    yield from differs("a watched run", trial.solve(case), case.done)
    ends = time.monotonic() + 30
    while len(lines.read_text().splitlines()) <= len(case.entries()) and time.monotonic() < ends:
        time.sleep(0.02)
    watch.send_signal(signal.SIGINT)
    watch.communicate(timeout=60)
    yield from differs("the watch's end", watch.returncode, 0)
    shown = [line.split(None, 5) for line in lines.read_text().splitlines()[1:]]
    yield from differs("lines of the watch", len(shown), len(case.entries()))
    yield from differs("splits in the watch's last line", int(shown[-1][1]), len(made.splits(case.entries())))
    yield from differs("first line seen while it ran", shown[0][0] != "before", True)
    report = dict(re.findall(r"(?m)^(cost|bound|gap) +(-?\d+)(?: (\d+))?$", case.done.out)[index][:2] for index in range(3))
    base = int(re.search(r"(?m)^cost -?\d+ (\d+)$", case.done.out)[1])
    picos = {"bound": int(report["bound"]), "cost": -(-int(report["cost"]) // base), "gap": -(-int(report["gap"]) // base)}
    wanted = [micros(picos["bound"] // 10**6), micros(-(-picos["cost"] // 10**6)), micros(-(-picos["gap"] // 10**6))]
    yield from differs("bound, cost and gap in the watch's last line", shown[-1][2:5], wanted)
    again = subprocess.run([str(TOP / "tools" / "watch"), str(trial.journal), "--once"], capture_output=True, text=True)
    yield from differs("the watch afterwards", [line.split(None, 5)[1:] for line in again.stdout.splitlines()[1:]], [line[1:] for line in shown])


def micros(number):
    """A number of millionths in six decimals."""
    return f"{'-' if number < 0 else ''}{abs(number) // 10**6}.{abs(number) % 10**6:06}"


def locked(trial, case):
    """`flock FILE pool solve .. --journal FILE` keeps others out, and changes nothing else."""
    if not shutil.which("flock"):
        return
    trial.journal.unlink(missing_ok=True)
    yield from differs("under flock", trial.solve(case, before=["flock", "-n", str(trial.journal)]), case.done)
    yield from differs("under flock: the file", trial.left(), case.file)
    taken = subprocess.run(["flock", "-n", trial.journal, "flock", "-n", trial.journal, *trial.words(case)], capture_output=True)
    yield from differs("while another has it", (taken.returncode, taken.stdout, trial.left()), (1, b"", case.file))


# ---- all of it


def program(path):
    """The program itself: the script `pool` builds it and runs it, and would be killed in its place."""
    if path.resolve() != TOP / "pool":
        return path.resolve()
    if subprocess.run([path, "check", ROW1, EXAMPLES / "row1.cert"], stdout=subprocess.DEVNULL).returncode:
        raise SystemExit("the program can't be built")
    return TOP / "crates" / "pool" / "out" / "pool"


def parts(trial, hand, kills):
    """The faults of each part, one after another. Files that are made by hand need no real disk: `hand` tries them in memory."""
    sharper = trial.folder / "sharper.json"
    sharper.write_text((EXAMPLES / "haverly1.json").read_text().replace('"2.5"', '"2.37"'))
    number = trial.folder / "made.json"
    number.write_bytes(subprocess.run([trial.pool, "make", "2"], stdout=subprocess.PIPE, check=True).stdout)
    row1 = trial.case("row1", ROW1)
    first = trial.case("Haverly 1", EXAMPLES / "haverly1.json", "--gap", "0", "--form", "q")
    second = trial.case("Haverly 2", EXAMPLES / "haverly2.json", "--gap", "0", "--form", "q")
    many = trial.case("Haverly 1 with another limit", sharper, "--gap", "0", "--form", "q", "--nodes", "40")
    large = trial.case("make 2", number, "--gap", "0", "--nodes", "8")
    yield from worked_file(trial)
    yield from headers(trial, [row1, first, second, many, large])
    yield from by_hand(trial)
    yield from longer_searches(trial, many)
    yield from old_files(hand, [row1, first])
    for case in (row1, first):
        yield from unborn_files(hand, case)
        yield from behind_the_gate(hand, case)
    yield from torn_births(hand, row1)
    yield from refused_files(hand, row1, first)
    yield from stages(trial, row1)
    yield from lost_output(trial, first)
    yield from full_files(trial, second)
    yield from full_disk(trial, many)
    yield from no_files(trial, row1)
    yield from forbidden_files(trial, first)
    yield from watched(trial, large)
    yield from locked(trial, row1)
    for case, share in ((first, 0.35), (second, 0.35), (many, 0.2), (large, 0.1)):
        yield from killed(trial, case, int(kills * share))
        yield from killed(trial, case, int(kills * share), 1)


def main():
    words = argparse.ArgumentParser(usage="journals.py POOL [--long]")
    words.add_argument("pool", type=Path)
    words.add_argument("--long", action="store_true")
    asked = words.parse_args()
    memory = "/dev/shm" if os.access("/dev/shm", os.W_OK) else None
    tried, count = Counter(), 0
    with tempfile.TemporaryDirectory() as folder, tempfile.TemporaryDirectory(dir=memory) as light:
        pool = program(asked.pool)
        for fault in parts(Trial(pool, Path(folder), tried), Trial(pool, Path(light), tried), KILLS * (10 if asked.long else 1)):
            print(fault[:2000], flush=True)
            count += 1
    print(", ".join(f"{number} {what}" for what, number in tried.items()) + f"; {count} differ")
    return 1 if count else 0


if __name__ == "__main__":
    sys.exit(main())
