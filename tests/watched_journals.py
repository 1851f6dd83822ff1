#!/usr/bin/env python3
"""Whether `tools/watch` shows what stands in a journal: `watched_journals.py`

Journals are written from the format alone, byte by byte (journal_bytes.py); the one of the first network is compared with the
bytes that docs/FORMATS.md shows. Bounds, costs and gaps are worked out by hand. It prints what differs, and how
many parts there were.
"""

import contextlib
import io
import re
import signal
import subprocess
import sys
import tempfile
import time
import xml.etree.ElementTree as tree
from importlib.machinery import SourceFileLoader
from pathlib import Path

sys.dont_write_bytecode = True
TOP = Path(__file__).resolve().parent.parent
sys.path.insert(0, str(TOP / "tools"))
from journal_bytes import TURN, header, heeds_interrupts, journal, plan, proof, record, root, split, turned

tool = SourceFileLoader("watch", str(TOP / "tools" / "watch")).load_module()
HEAD = "  seconds  splits                 bound             best cost                   gap  recorded"

# The canonical texts of three networks of docs/FORMATS.md and examples/: 100 units from A to X, the same with a limit below
# A's sulfur, and two feeds of one pool.
ROW1 = ('{"arcs":[["A","X"]],"pools":[],"products":[{"least":{},"max":100,"min":0,"most":{"sulfur":3},"name":"X","price":9}],'
        '"qualities":["sulfur"],"sources":[{"cost":6,"max":100,"name":"A","quality":{"sulfur":3}}],"version":1}')
SOUR = ROW1.replace('"most":{"sulfur":3}', '"most":{"sulfur":"2.5"}')
TWO_FEEDS = ('{"arcs":[["A","P"],["B","P"],["P","X"]],"pools":[{"max":100,"name":"P"}],"products":[{"least":{},"max":100,"min":0,"most":{},'
             '"name":"X","price":9}],"qualities":["sulfur"],"sources":[{"cost":6,"max":100,"name":"A","quality":{"sulfur":3}},'
             '{"cost":16,"max":100,"name":"B","quality":{"sulfur":1}}],"version":1}')
SHIP = plan(1, 1, [], [], [100000000])


def watch(file, *words):
    """What the watch says of a journal: its status, and what it writes on standard output and on standard error."""
    out, error = io.StringIO(), io.StringIO()
    with contextlib.redirect_stdout(out), contextlib.redirect_stderr(error):
        status = tool.main([str(file), "--once", *map(str, words)])
    return status, out.getvalue(), error.getvalue().replace(f"{file.parent}/", "")


def line(splits, bound, cost, gap, words, seen="before"):
    return f"{seen:>9}  {splits:>6}  {bound:>20}  {cost:>20}  {gap:>20}  {words}"


def shows(label, file, lines, status=0, error=""):
    """Whether the watch prints these lines of the journal in a file, and leaves the file as it is."""
    before = file.read_bytes()
    found = watch(file)
    if found != (status, "\n".join([HEAD, *lines, ""]), error):
        yield f"{label}: {found}"
    if file.read_bytes() != before:
        yield f"{label}: the journal was changed"


def shipped(folder):
    """The journal of one plan, of 260 bytes: 100 units earn 300, and no plan earns more."""
    (folder / "row1").write_bytes(journal(ROW1, SHIP))
    data = (folder / "row1").read_bytes()
    if len(data) != 260 or data[231:] != bytes.fromhex("0100000017 02 00000001 00000001 0000 0000 0001 0000000005f5e100 00"):
        yield "the journal of one plan has other bytes"
    shown = re.search(r"(?m)((?:^[0-9a-f]{4} (?: [0-9a-f]{2})+  .*\n)+)", (TOP / "docs" / "FORMATS.md").read_text())
    if shown and bytes.fromhex("".join(row[6:53] for row in shown[1].splitlines())) != data:
        yield "the journal of docs/FORMATS.md has other bytes"
    yield from shows("one plan", folder / "row1", [line(0, "-300.000000", "-300.000000", "0.000000", "a better plan")])


def reading_alone(folder):
    """The journal is opened for reading alone, whatever the rights of who watches."""
    modes, tool.pooling.open = [], lambda name, mode: (modes.append(mode), open(name, mode))[1]
    (folder / "read").write_bytes(journal(ROW1, SHIP))
    watch(folder / "read")
    del tool.pooling.open
    if modes != ["rb"]:
        yield f"the journal is opened as {modes}"


def proofs(folder):
    """Six times the limit on sulfur takes the price off the direct, so that nothing earns anything."""
    (folder / "sour").write_bytes(journal(SOUR, root(proof(1, (3, 6))), plan(1, 1, [], [], [0])))
    lines = [line(0, "0.000000", "-", "-", "a proof of the root"), line(0, "0.000000", "0.000000", "0.000000", "a better plan")]
    yield from shows("a proof of the root", folder / "sour", lines)
    none = SOUR.replace('"min":0', '"min":10')
    (folder / "none").write_bytes(journal(none, root(proof(0, (2, 500000), (3, 1)))))
    yield from shows("no plan obeys", folder / "none", [line(0, "none", "-", "-", "a proof of the root")])


def splits(folder):
    """The tree of docs/FORMATS.md: node 3, where both proportions are small, holds no plan; the other leaves keep the bound of
    -300 that the root's price proof, of scale 3, shows too."""
    price = proof(3, (2, 18000000))
    small = [split(0, 0, 524288), split(1, 1, 262144, proof(0, (11, 1)))]
    plans = [plan(3, 2, [2, 1], [3], []), plan(1, 1, [1, 0], [100000000], [])]
    entries = [plans[0], root(price), *small, plans[1]]
    (folder / "feeds").write_bytes(journal(TWO_FEEDS, *entries))
    # 2 of 3 parts are bought at 6 and 1 at 16, and sold at 9: 1/3 for each unit, so 0.0000005 for 1.5 millionths, rounded up.
    lines = [
        line(0, "-300.000000", "0.000001", "300.000001", "a better plan"),
        line(0, "-300.000000", "0.000001", "300.000001", "a proof of the root"),
        line(1, "-300.000000", "0.000001", "300.000001", "a split of node 0 at coordinate 0"),
        line(2, "-300.000000", "0.000001", "300.000001", "a split of node 1 at coordinate 1"),
        line(2, "-300.000000", "-300.000000", "0.000000", "a better plan"),
    ]
    yield from shows("splits", folder / "feeds", lines)
    # In a file of version 1 that goes on in version 2 behind its Turn the same is shown, and nothing for the Turn.
    for count in range(len(entries) + 1):
        (folder / "feeds").write_bytes(turned(TWO_FEEDS, entries, count))
        yield from shows(f"splits, {count} entries of version 1", folder / "feeds", lines)


def gates(folder):
    """Nothing behind a closed gate is shown, whatever the gate's byte; a gate that is not there is closed."""
    begun = header(ROW1) + record(plan(1, 1, [], [], [0]))
    zero = line(0, "-300.000000", "0.000000", "300.000000", "a better plan")
    for label, behind in (("none", b""), ("0", record(SHIP, 0)), ("2", record(SHIP, 2)), ("of a torn record", b"\0\xff\xff")):
        (folder / "gate").write_bytes(begun + behind)
        yield from shows(f"closed gate: {label}", folder / "gate", [zero])


def no_journal(folder):
    good = journal(ROW1, SHIP)
    for label, data in (("empty", b""), ("one byte", b"\1"), ("zeroed", b"\0" + good[1:]), ("another birth byte", b"\7" + good[1:])):
        (folder / "unborn").write_bytes(data)
        yield from shows(f"no journal yet: {label}", folder / "unborn", [])
    cases = [
        (33, "not a journal", b"\1POOLJNK" + good[8:]),
        (33, "not a journal", ROW1.encode()),
        (32, "a journal of unknown version 7", good[:8] + b"\7" + good[9:]),
        (32, "a journal of unknown version", good[:8]),
        (30, "a journal of no network: its text is cut off", good[:100]),
        (30, "a journal of no network: its text is refused: 4", journal(ROW1.replace("cost", "cots"), SHIP)),
    ]
    for status, words, data in cases:
        (folder / "refused").write_bytes(data)
        yield from shows(f"refused: {words}", folder / "refused", [], status, f"refused: {words}\n")


def bad_records(folder):
    zero, one = plan(1, 1, [], [], [0]), plan(1, 1, [], [], [1000000])
    first = line(0, "-300.000000", "0.000000", "300.000000", "a better plan")
    second = line(0, "-300.000000", "-3.000000", "297.000000", "a better plan")
    cases = [
        ("record 2 is bad: no entry has the kind 9", ROW1, [zero, one, b"\x09" + SHIP[1:]], [first, second]),
        ("record 1 is bad: it is cut off", ROW1, [zero, SHIP[:-1]], [first]),
        ("record 1 is bad: there are bytes behind it", ROW1, [zero, SHIP + b"\0"], [first]),
        ("record 1 is bad: it is cut off, or longer than any entry of this network", ROW1, [zero, SHIP + bytes(1000)], [first]),
        ("record 1 is bad: a plan that is not better", ROW1, [zero, zero], [first]),
        ("record 2 is bad: no entry has the kind 9", ROW1, [zero, zero, b"\x09"], [first]),
        ("record 0 is bad: a plan of other arcs", ROW1, [plan(1, 1, [1], [], [0])], []),
        ("record 0 is bad: plan 3", ROW1, [plan(1, 1, [], [], [100000001])], []),
        ("record 0 is bad: proof 0 6", ROW1, [root(proof(0))], []),
        ("record 0 is bad: split 0", TWO_FEEDS, [split(1, 0, 524288)], []),
        ("record 1 is bad: a proof of the root comes late", TWO_FEEDS, [split(0, 0, 524288), root(proof(1))],
         [line(1, "-300.000000", "-", "-", "a split of node 0 at coordinate 0")]),
        ("record 1 is bad: a proof of the root comes late", ROW1, [root(proof(1)), root(proof(1))], [line(0, "-300.000000", "-", "-", "a proof of the root")]),
        ("record 1 is bad: proof 3 4", TWO_FEEDS, [split(0, 0, 524288), split(1, 1, 262144, proof(0, (11, 0)))],
         [line(1, "-300.000000", "-", "-", "a split of node 0 at coordinate 0")]),
        ("record 0 is bad: neither a proof nor none", TWO_FEEDS, [split(0, 0, 524288)[:-1] + b"\2"], []),
    ]
    for words, text, payloads, lines in cases:
        (folder / "bad").write_bytes(journal(text, *payloads))
        yield from shows(words, folder / "bad", lines, 31, f"bad: {words}\n")
    for words, version, payloads in (
        ("record 0 is bad: no entry has the kind 4", 2, [TURN]), ("record 1 is bad: no entry has the kind 1", 2, [zero, split(0, 0, 1, version=1)]),
        ("record 1 is bad: no entry has the kind 3", 1, [zero, split(0, 0, 1)]), ("record 2 is bad: no entry has the kind 4", 1, [zero, TURN, TURN]),
        ("record 2 is bad: a plan that is not better", 1, [zero, TURN, zero])):
        (folder / "bad").write_bytes(journal(ROW1, *payloads, version=version))
        yield from shows(f"version {version}: {words}", folder / "bad", [first] if payloads[0] == zero else [], 31, f"bad: {words}\n")
    (folder / "bad").write_bytes(header(ROW1) + record(zero) + record(SHIP)[:-3])
    words = "record 1 is bad: it is cut off, or longer than any entry of this network"
    yield from shows("a record that the file does not hold", folder / "bad", [first], 31, f"bad: {words}\n")


class Writer:
    """Writes a journal step by step as a run does, beside a watch whose lines it waits for."""

    def __init__(self, folder):
        self.file = folder / "live"
        words = [str(TOP / "tools" / "watch"), "live", "--every", "0.02", "--plot", "live.svg"]
        self.run = subprocess.Popen(words, stdout=subprocess.PIPE, stderr=subprocess.PIPE, text=True, cwd=folder, preexec_fn=heeds_interrupts)

    def put(self, at, data):
        with open(self.file, "r+b" if self.file.exists() else "w+b") as file:
            file.seek(at)
            file.write(data)

    def birth(self, text):
        self.put(0, b"\0")
        with open(self.file, "r+b") as file:
            file.truncate(1)
        self.put(1, header(text)[1:] + b"\0")
        self.put(0, b"\1")
        self.gate = len(header(text))

    def append(self, payload):
        self.put(self.gate + 1, record(payload)[1:] + b"\0")
        time.sleep(0.1)
        self.put(self.gate, b"\1")
        self.gate += 5 + len(payload)

    def next(self):
        """The next line, with the time that it was seen left out where it is a time."""
        return re.sub(r"^ *[0-9]+\.[0-9]  ", "  ", self.run.stdout.readline().rstrip("\n"))


def live(folder):
    """A run writes while the watch reads; then the file is taken for another network."""
    writer = Writer(folder)

    def wants(words):
        found = writer.next()
        return [] if found == words else [f"while a run writes: {found!r} in place of {words!r}"]

    yield from wants(HEAD)
    if writer.run.stderr.readline() != "live: no journal yet, waiting\n":
        yield "while a run writes: the watch does not say that it waits"
    writer.birth(SOUR)
    for payload, words in ((root(proof(1, (3, 6))), line(0, "0.000000", "-", "-", "a proof of the root")),
                           (plan(1, 1, [], [], [0]), line(0, "0.000000", "0.000000", "0.000000", "a better plan"))):
        writer.append(payload)
        yield from wants(words[9:])
    writer.birth(ROW1)
    yield from wants("the journal began anew")
    writer.append(SHIP)
    yield from wants(line(0, "-300.000000", "-300.000000", "0.000000", "a better plan")[9:])
    time.sleep(0.1)
    writer.run.send_signal(signal.SIGINT)
    if writer.run.wait(60) != 0:
        yield f"the watch ends with {writer.run.returncode} where it is interrupted"
    if (folder / "live").read_bytes() != journal(ROW1, SHIP):
        yield "the journal was changed by who watched it"
    if "best cost -300" not in [text.text for text in tree.parse(folder / "live.svg").iter("{http://www.w3.org/2000/svg}text")]:
        yield "the plot of a run does not show its plan"


def rewritten(folder):
    """A journal of the same network that was begun anew, and has other entries or fewer."""
    zero, one = plan(1, 1, [], [], [0]), plan(1, 1, [], [], [1000000])
    (folder / "anew").write_bytes(journal(ROW1, zero, one))
    reader = tool.Journal(str(folder / "anew"))
    looks = [(reader.news(), (True, [zero, one])), (reader.news(), (False, []))]
    for data, wanted in ((journal(ROW1, zero, SHIP), (True, [zero, SHIP])), (journal(ROW1, zero), (True, [zero])),
                         (journal(ROW1, zero, one), (False, [one])), (journal(ROW1), (True, [])), (b"", (True, []))):
        (folder / "anew").write_bytes(data)
        looks.append((reader.news(), wanted))
    yield from (f"a journal that began anew: {found} in place of {wanted}" for found, wanted in looks if found != wanted)


def plots(folder):
    """The curve of the bound is a step from -300 to 0 at the root's proof, and that of the cost begins behind it."""
    (folder / "plot").write_bytes(journal(TWO_FEEDS, plan(1, 1, [1, 0], [0], []), split(0, 0, 524288), plan(1, 1, [1, 0], [50000000], []), split(2, 0, 786432)))
    watch(folder / "plot", "--plot", folder / "plot.svg")
    picture = tree.parse(folder / "plot.svg")
    found = [text.text for text in picture.iter("{http://www.w3.org/2000/svg}text")]
    wanted = ["gap 150, after 2 splits", "bound -300", "best cost -150", "splits", "0", "1", "2", "-300", "-200", "-100"]
    yield from (f"the plot lacks {text!r}" for text in wanted if text not in found)
    curves = [path.get("d") for path in picture.iter("{http://www.w3.org/2000/svg}path") if path.get("class") == "curve"]
    # The plot has 590 by 366 points, from -315 below to 15 above, and two splits from left to right.
    high, middle, low = (f"{64 + 366 * (15 - value) / 330:.2f}".rstrip("0").rstrip(".") for value in (0, -150, -300))
    if curves != [f"M120 {low}H710V{low}", f"M120 {high}H415V{middle}H710V{middle}"]:
        yield f"the plot has the curves {curves}"


def words_and_files(folder):
    cases = [(["--help"], 0), ([], 2), (["row1", "row1"], 2), (["row1", "--every", "0"], 2), (["nowhere", "--once"], 20), ([".", "--once"], 20),
             (["row1", "--once", "--plot", "nowhere/plot.svg"], 21)]
    for words, status in cases:
        found = subprocess.run([str(TOP / "tools" / "watch"), *words], capture_output=True, text=True, cwd=folder, preexec_fn=heeds_interrupts)
        if found.returncode != status or "Traceback" in found.stderr:
            yield f"{words} ends with {found.returncode}: {found.stderr}"


def main():
    parts = [shipped, reading_alone, proofs, splits, gates, no_journal, bad_records, live, rewritten, plots, words_and_files]
    with tempfile.TemporaryDirectory() as folder:
        differ = [fault for part in parts for fault in part(Path(folder))]
    print(*differ, sep="\n", end="\n" if differ else "")
    print(f"{len(parts)} parts, {len(differ)} differ")
    return 1 if differ else 0


if __name__ == "__main__":
    sys.exit(main())
