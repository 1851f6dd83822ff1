#!/usr/bin/env python3
"""Whether a run tells what it lacks, and loses nothing, where the system sets hard limits: `hard_limits.py POOL [--long]`

The program runs in little address space, on a small stack, with few open files, on file systems that fill, with standard output that
takes so many bytes or that nobody reads, and with little processor time. A run has to end with a status of docs/FORMATS.md, what it
printed is a front of what it would print, and its journal has the first entries of an unbroken run, from which the next run goes on.
Only what the system says it does by a signal may end a run by one: a file size limit that is not ignored (SIGXFSZ), and the
processor's time (SIGXCPU). Prints what differs, and in its last line how much was tried. With --long it tries every size.
"""

import argparse
import fcntl
import json
import os
import resource
import shutil
import signal
import subprocess
import sys
import tempfile
from collections import Counter
from pathlib import Path

sys.dont_write_bytecode = True
import journal_bytes as made
from journals import DISK_FAULT, EXAMPLES, ROW1, Done, Trial, acknowledged, differs, ends_as, program

PAGE = resource.getpagesize()
SIZES = 40
SMALL_STACK = 128 * 1024
PIPE_SIZE = 1031  # F_SETPIPE_SZ, of Linux
USAGE = "pool: usage: solve NET, check NET CERT, report NET CERT, formulate NET, make N or trial N\n"
OUT_OF_MEMORY = Done(23, "", "pool: out of memory\n")
WRITE_FAULT = "pool: write fault\n"
READ_FAULT = Done(20, "", "pool: read fault\n")
FAULTS = [READ_FAULT, Done(21, "", WRITE_FAULT), Done(22, "", DISK_FAULT), OUT_OF_MEMORY]


def limits(*pairs, ignored=()):
    """What a run is started with so that each of these limits holds, and these signals are ignored."""
    def limit():
        for number in ignored:
            signal.signal(number, signal.SIG_IGN)
        for what, size in pairs:
            resource.setrlimit(what, (size, size))
    return {"preexec_fn": limit, "restore_signals": False}


def run(trial, words, **how):
    """Runs the program on words; `how` goes to the call that starts it."""
    done = subprocess.run([str(trial.pool), *map(str, words)], capture_output=True, text=True, cwd=trial.folder, **how)
    trial.tried["runs"] += 1
    return Done(done.returncode, done.stdout, done.stderr)


# ---- little memory


def needed(trial, words, wanted):
    """The least address space, in bytes, in which these words end as wanted; what is less is too little."""
    low, high = 0, 1 << 20  # in pages; high is enough
    while high - low > 1:
        middle = (low + high) // 2
        enough = run(trial, words, **limits((resource.RLIMIT_AS, middle * PAGE))) == wanted
        low, high = (low, middle) if enough else (middle, high)
    return high * PAGE


def commands(trial):
    """Words of every command, on the examples and on a made network."""
    haverly, feeds, number = EXAMPLES / "haverly1.json", EXAMPLES / "two_feeds.json", trial.folder / "made.json"
    yield ["solve", ROW1]
    yield ["check", ROW1, EXAMPLES / "row1.cert"]
    yield ["check", feeds, EXAMPLES / "two_feeds.cert"]
    yield ["report", haverly, EXAMPLES / "haverly1.cert"]
    yield ["formulate", number]
    yield ["make", "2"]
    yield ["trial", "2"]
    yield ["solve", haverly, "--gap", "0"]
    yield ["solve", number, "--nodes", "4"]


def little_memory(trial, cases):
    """At 40 sizes of address space, from the least in which the program can say how it is used: each command ends as ever, or with 23."""
    least = needed(trial, [], Done(2, "", USAGE))
    for words in commands(trial):
        wanted = run(trial, words)
        most = needed(trial, words, wanted)
        for number in range(SIZES):
            size = least + (most - least) * number // (SIZES - 1)
            done = run(trial, words, **limits((resource.RLIMIT_AS, size)))
            if done not in (wanted, OUT_OF_MEMORY):
                yield f"{' '.join(map(str, words))} in {size} bytes, of {least} to {most}: {done}"
            trial.tried["sizes of memory"] += 1
        yield from differs(f"{words[0]}: with enough", run(trial, words, **limits((resource.RLIMIT_AS, most))), wanted)
    for case in cases:
        yield from little_memory_with_a_journal(trial, case, least)


def little_memory_with_a_journal(trial, case, least):
    """The same with a journal: 22 too where the disk found none; and what is recorded is gone on with."""
    words = trial.words(case)[1:]
    trial.journal.unlink(missing_ok=True)
    most = needed(trial, words, case.done)
    for number in range(SIZES):
        trial.journal.unlink(missing_ok=True)
        size = least + (most - least) * number // (SIZES - 1)
        done = run(trial, words, **limits((resource.RLIMIT_AS, size)))
        label = f"{case.label} in {size} bytes, of {least} to {most}"
        if done not in (case.done, OUT_OF_MEMORY, Done(22, "", DISK_FAULT)):
            yield f"{label}: {done}"
        found = made.payloads(trial.left())
        yield from differs(f"{label}: entries", found, case.entries()[: len(found)])
        yield from ends_as(trial, case, label)
        trial.tried["sizes of memory with a journal"] += 1


def small_stack(trial, cases):
    """On a stack of 128 KB every command ends as ever, also on what is deep."""
    deep, long = trial.folder / "deep.json", trial.folder / "long.cert"
    deep.write_text("[" * 127 + "]" * 127)
    long.write_text(chain(200_000))
    feeds = EXAMPLES / "two_feeds.json"
    for words in [*commands(trial), ["solve", deep], ["check", feeds, long], ["report", feeds, long], []]:
        wanted = run(trial, words)
        done = run(trial, words, **limits((resource.RLIMIT_STACK, SMALL_STACK)))
        yield from differs(f"{' '.join(map(str, words))} on a small stack", done, wanted)
        trial.tried["small stacks"] += 1
    for case in cases:
        trial.journal.unlink(missing_ok=True)
        for label in (f"{case.label} on a small stack", f"{case.label} on a small stack, again"):
            yield from differs(label, trial.solve(case, **limits((resource.RLIMIT_STACK, SMALL_STACK))), case.done)
            yield from differs(f"{label}: the file", trial.left(), case.file)


def long_texts(trial):
    """A certificate of 200,000 splits, which a journal holds, is printed on a stack of 128 KB."""
    net = EXAMPLES / "two_feeds.json"
    trial.file(made.journal(made.canonical(net.read_bytes()), *(made.split(2 * t, 3, t + 1) for t in range(200_000))))
    words = ["solve", net, "--nodes", "0", "--journal", trial.journal]
    wanted = run(trial, words)
    yield from differs("200,000 splits: printed", (wanted.status, wanted.out.count("\nsplit ")), (0, 200_000))
    yield from differs("200,000 splits on a small stack", run(trial, words, **limits((resource.RLIMIT_STACK, SMALL_STACK))), wanted)


def most_splits(trial):
    """As many splits as there may be are accepted, and one more is refused; so says the second checker."""
    net, file = EXAMPLES / "two_feeds.json", trial.folder / "chain.cert"
    second = Path(__file__).resolve().parent.parent / "tools" / "second_checker.py"
    accepted = "accepted gap cost 0 base 1 bound -300000000000000 gap 300000000000000\n"
    for count, wanted in [(200_000, Done(0, accepted, "")), (200_001, Done(1, "refused split 200000\n", ""))]:
        file.write_text(chain(count))
        yield from differs(f"{count} splits", run(trial, ["check", net, file]), wanted)
        told = subprocess.run([sys.executable, second, net, file], capture_output=True, text=True)
        yield from differs(f"{count} splits, by the second checker", Done(told.returncode, told.stdout, told.stderr), wanted)
        trial.tried["long trees"] += 1


def chain(count):
    """A certificate of the two feeds with so many splits, each of the right half of the one before."""
    splits = "".join(f"split {2 * t} 3 {t + 1}\n" for t in range(count))
    return (f"poolcert 1\nkind gap\nshape 2 1 1 1 2 1 0\nplan 1 1\nweights 1 0\noutflows 0\ndirect\nsplits {count}\n{splits}proofs 0\n"
            "cost 0 1\nbound -300000000000000\ngap 300000000000000 1\nend\n")


LONGEST_TEXT = 1_048_576


def largest_network(price):
    """The most nodes, qualities and arcs, with names that JSON writes with two bytes for each of 40, and numbers that are as long as may be."""
    names = iter("".join('"\\'[number >> bit & 1] for bit in range(40)) for number in range(64 + 16 + 64 + 8))
    sources, pools, products, qualities = ([next(names) for _ in range(count)] for count in (64, 16, 64, 8))
    contents = {name: "-99999.999999" for name in qualities}
    ends = [(sources[l], pools[l]) for l in range(16)] + [(pools[l], products[l]) for l in range(16)]
    ends += [(sources[d % 64], products[(d + d // 64) % 64]) for d in range(256 - 32)]
    return {"version": 2, "qualities": qualities,
            "sources": [{"name": name, "cost": "-999999.999999", "max": "99999999.999999", "quality": contents} for name in sources],
            "pools": [{"name": name, "max": "99999999.999999", "ratio": {quality: 999 for quality in qualities}} for name in pools],
            "products": [{"name": name, "price": price, "min": "0.000001", "max": "999999.999999", "least": contents, "most": contents} for name in products],
            "arcs": [{"from": start, "to": end, "cost": "-999999.999999", "max": "99999999.999999"} for start, end in ends]}


def largest_networks(trial):
    """The canonical text of the largest networks, which journals hold, is as long as it may be at most; and what is found for them is
    accepted, also by the second checker, with the greatest costs and earnings that there are."""
    for price in ("-999999.999999", "999999.999999"):
        net, cert = trial.folder / "largest.json", trial.folder / "largest.cert"
        net.write_text(json.dumps(largest_network(price)))
        text = made.canonical(net.read_bytes())
        trial.journal.unlink(missing_ok=True)
        done = run(trial, ["solve", net, "--nodes", "0", "--journal", trial.journal])
        yield from differs(f"largest network, {price}: {len(text)} bytes", (made.text_of(trial.left()) == text, len(text.encode()) <= LONGEST_TEXT), (True, True))
        cert.write_text(done.out)
        told = made.checker.run([str(net), str(cert)])
        yield from differs(f"largest network, {price}: {done.status} {done.error}", (done.status in (0, 10, 13), told[0], run(trial, ["check", net, cert])), (True, 0, Done(0, told[1] + "\n", "")))
        trial.tried["largest networks"] += 1


# ---- few files


def few_files(trial, case):
    """Where no file may be opened the network is not read; where one may, the journal is not attached; each says so."""
    for count in range(10):
        trial.journal.unlink(missing_ok=True)
        done = run(trial, trial.words(case)[1:], **limits((resource.RLIMIT_NOFILE, count)))
        if done not in (case.done, READ_FAULT, Done(22, "", DISK_FAULT)) and not (count < 4 and done.status == 127):
            yield f"{count} open files: {done}"
        yield from ends_as(trial, case, f"{count} open files")
        trial.tried["numbers of open files"] += 1


def odd_files(trial):
    """In the place of a file to read stands what can't be read, or can't be read to its end."""
    for name, wanted in [("/proc/self/mem", READ_FAULT), ("/dev/null", Done(3, "", "pool: network refused: 2\n")), (EXAMPLES, READ_FAULT),
                         (ROW1 / "x", READ_FAULT), ("n" * 300, READ_FAULT), ("/dev/zero", Done(3, "", "pool: network refused: 1\n"))]:
        for words in (["solve", name], ["check", name, name], ["formulate", name]):
            yield from differs(f"{words[0]} {name}", run(trial, words), wanted)
            trial.tried["odd files"] += 1
    yield from differs("check with a certificate that can't be read", run(trial, ["check", ROW1, "/proc/self/mem"]), READ_FAULT)


# ---- disks that fill


def each_size(trial, case):
    """A journal that may have so many bytes and no more, for every number of them: 22, and the next run goes on."""
    for size in range(len(case.file)):
        trial.journal.unlink(missing_ok=True)
        done = trial.solve(case, **limits((resource.RLIMIT_FSIZE, size), ignored=[signal.SIGXFSZ]))
        yield from differs(f"{case.label}: {size} bytes", done, Done(22, "", DISK_FAULT))
        yield from differs(f"{case.label}: {size} bytes: entries", made.payloads(trial.left()), acknowledged(case, size))
        yield from ends_as(trial, case, f"{case.label}: room again after {size} bytes")
        trial.tried["numbers of bytes"] += 1


def ended_by_size(trial, case):
    """Where the signal of a file size limit is not ignored the system ends the run: nothing is lost."""
    for size in (0, 1, 100, 231, 240, len(case.file) - 1):
        trial.journal.unlink(missing_ok=True)
        done = trial.solve(case, **limits((resource.RLIMIT_FSIZE, size)))
        yield from differs(f"{case.label}: ended at {size} bytes", done.status in (-signal.SIGXFSZ, 22) and not done.out, True)
        yield from ends_as(trial, case, f"{case.label}: after an end at {size} bytes")
        trial.tried["file size limits"] += 1


def mounted(trial, name):
    """A file system of its own of one page, or None where none may be mounted."""
    place = trial.folder / name
    place.mkdir()
    words = ["mount", "-t", "tmpfs", "-o", f"size={PAGE}", "tmpfs", str(place)]
    if os.geteuid() or not shutil.which("mount") or subprocess.run(words, capture_output=True).returncode:
        trial.tried["file systems that fill (none may be mounted here)"] += 0
        return None
    return place


def filling_disk(trial, case):
    """A journal on a file system that fills, page by page until it has room for all: 22 at each size, with each acknowledged entry."""
    place = mounted(trial, "filling")
    if place is None:
        return
    try:
        journal, pages = place / "run.journal", 1
        while pages * PAGE < len(case.file):
            subprocess.run(["mount", "-o", f"remount,size={pages * PAGE}", place], check=True)
            yield from differs(f"{pages} pages", trial.solve(case, journal), Done(22, "", DISK_FAULT))
            yield from differs(f"{pages} pages: entries", made.payloads(journal.read_bytes()), acknowledged(case, pages * PAGE))
            pages += 1
            trial.tried["sizes of a file system"] += 1
        subprocess.run(["mount", "-o", f"remount,size={pages * PAGE}", place], check=True)
        yield from differs(f"{pages} pages", trial.solve(case, journal), case.done)
        yield from differs(f"{pages} pages: the file", journal.read_bytes(), case.file)
    finally:
        subprocess.run(["umount", place], check=True)


def disk_without_names(trial, case):
    """A file system that has no room for another file: the journal can't be made, and nothing is."""
    place = mounted(trial, "names")
    if place is None:
        return
    try:
        subprocess.run(["mount", "-o", "remount,size=64k,nr_inodes=2", place], check=True)
        (place / "taken").touch()
        yield from differs("no room for a name", trial.solve(case, place / "run.journal"), Done(22, "", DISK_FAULT))
        yield from differs("no room for a name: what is there", os.listdir(place), ["taken"])
        (place / "taken").unlink()
        yield from differs("room for a name", trial.solve(case, place / "run.journal"), case.done)
        subprocess.run(["mount", "-o", "remount,ro", place], check=True)
        yield from differs("read alone", trial.solve(case, place / "run.journal"), Done(22, "", DISK_FAULT))
    finally:
        subprocess.run(["umount", place], check=True)


# ---- standard output that takes no more


def full_output(trial, words, step):
    """Standard output takes so many bytes and no more, for each number of them: 21, and the file has exactly that front."""
    wanted, file = run(trial, words), trial.folder / "out"
    for size in range(0, len(wanted.out), step):
        with open(file, "w") as out:
            done = subprocess.run([trial.pool, *words], stdout=out, stderr=subprocess.PIPE, text=True, cwd=trial.folder,
                                  **limits((resource.RLIMIT_FSIZE, size), ignored=[signal.SIGXFSZ]))
        label = f"{words[0]}: standard output takes {size} bytes"
        yield from differs(label, (done.returncode, done.stderr), (21, WRITE_FAULT))
        yield from differs(f"{label}: the file", file.read_text() == wanted.out[:size], True)
        trial.tried["bytes of standard output"] += 1


def full_output_with_a_journal(trial, case):
    """The same behind a finished journal, which stays as it is."""
    trial.file(case.file)
    yield from full_output(trial, trial.words(case)[1:], max(1, len(case.done.out) // 100))
    yield from differs(f"{case.label}: the journal behind a full output", trial.left(), case.file)


def read_front(trial, words, count, ignored):
    """The status, the message and what was read, where a reader takes so many bytes from a narrow pipe and closes it."""
    mine, theirs = os.pipe()
    fcntl.fcntl(theirs, PIPE_SIZE, PAGE)
    signals = limits(ignored=[signal.SIGPIPE] if ignored else [])
    if not count:
        os.close(mine)
    child = subprocess.Popen([trial.pool, *map(str, words)], stdout=theirs, stderr=subprocess.PIPE, text=True, cwd=trial.folder, **signals)
    os.close(theirs)
    taken = b""
    while len(taken) < count:
        piece = os.read(mine, count - len(taken))
        if not piece:
            break
        taken += piece
    if count:
        os.close(mine)
    error = child.communicate()[1]
    trial.tried["readers that went away"] += 1
    return child.returncode, error, taken.decode()


def lost_readers(trial, case, words):
    """A reader that takes a front and closes the pipe: 21, or the run was done before; whether the signal is ignored or not."""
    wanted = run(trial, words)
    for count in (0, 1, 10, PAGE - 1, PAGE, PAGE + 1, 3 * PAGE, len(wanted.out) - PAGE - 1, len(wanted.out)):
        for ignored in (False, True):
            status, error, taken = read_front(trial, words, count, ignored)
            label = f"{words[0]}: a reader of {count} bytes, the signal {'ignored' if ignored else 'not ignored'}"
            told = {21: WRITE_FAULT, wanted.status: ""}
            yield from differs(label, (status in told, error), (True, told.get(status)))
            yield from differs(f"{label}: read", taken, wanted.out[: len(taken)])
            if status == wanted.status and len(wanted.out) - len(taken) > PAGE:
                yield f"{label}: told as written"
    trial.journal.unlink(missing_ok=True)
    status, error, _ = read_front(trial, trial.words(case)[1:], 0, False)
    yield from differs(f"{case.label}: nobody reads", (status, error), (21, WRITE_FAULT))
    yield from differs(f"{case.label}: nobody reads: the journal", trial.left(), case.file)


def closed_streams(trial, case):
    """Standard streams that are closed, one, two or all three: the journal is no stream, and no text goes into it."""
    for closed in ((0,), (1,), (2,), (0, 1), (1, 2), (0, 2), (0, 1, 2)):
        trial.journal.unlink(missing_ok=True)
        done = subprocess.run(["sh", "-c", f"exec \"$@\" {' '.join(f'{n}>&-' for n in closed)}", "sh", *trial.words(case)],
                              capture_output=True, text=True, cwd=trial.folder)
        wanted = 21 if 1 in closed else case.done.status
        yield from differs(f"closed {closed}", done.returncode, wanted)
        yield from differs(f"closed {closed}: the journal", trial.left(), case.file)
        trial.tried["closed streams"] += 1


# ---- little time


def little_time(trial, case):
    """The system ends a run that has used up its processor time: what is recorded is gone on with."""
    trial.journal.unlink(missing_ok=True)
    for _ in range(2):
        done = trial.solve(case, **limits((resource.RLIMIT_CPU, 1)))
        if done.status not in (-signal.SIGXCPU, -signal.SIGKILL, case.done.status):
            yield f"little time: {done}"
        found = made.payloads(trial.left())
        yield from differs("little time: entries", found, case.entries()[: len(found)])
        trial.tried["runs that were out of time"] += done.status < 0
    yield from ends_as(trial, case, "time again")


# ---- all of it


def parts(trial, long):
    number, sharper = trial.folder / "made.json", trial.folder / "sharper.json"
    number.write_bytes(subprocess.run([trial.pool, "make", "2"], stdout=subprocess.PIPE, check=True).stdout)
    sharper.write_text((EXAMPLES / "haverly1.json").read_text().replace('"2.5"', '"2.37"'))
    row1 = trial.case("row1", ROW1)
    first = trial.case("Haverly 1", EXAMPLES / "haverly1.json", "--gap", "0")
    many = trial.case("Haverly 1 with another limit", sharper, "--gap", "0", "--form", "q", "--nodes", "200" if long else "60")
    late = trial.case("make 2", number, "--gap", "0", "--nodes", "150")
    yield from little_memory(trial, [row1, first])
    yield from small_stack(trial, [row1, first, many])
    yield from long_texts(trial)
    yield from most_splits(trial)
    yield from largest_networks(trial)
    yield from few_files(trial, row1)
    yield from odd_files(trial)
    yield from each_size(trial, row1)
    yield from ended_by_size(trial, row1)
    yield from filling_disk(trial, many)
    yield from disk_without_names(trial, row1)
    certificate = str(EXAMPLES / "row1.cert")
    for words in (["solve", str(ROW1)], ["check", str(ROW1), certificate], ["report", str(ROW1), certificate]):
        yield from full_output(trial, words, 1)
    yield from full_output(trial, ["formulate", str(number)], 1 if long else 997)
    yield from full_output_with_a_journal(trial, first)
    yield from lost_readers(trial, first, ["formulate", str(number)])
    yield from closed_streams(trial, row1)
    yield from little_time(trial, late)


def main():
    words = argparse.ArgumentParser(usage="hard_limits.py POOL [--long]")
    words.add_argument("pool", type=Path)
    words.add_argument("--long", action="store_true")
    asked = words.parse_args()
    tried, count = Counter(), 0
    with tempfile.TemporaryDirectory() as folder:
        for fault in parts(Trial(program(asked.pool), Path(folder), tried), asked.long):
            print(fault[:2000], flush=True)
            count += 1
    print(", ".join(f"{number} {what}" for what, number in tried.items()) + f"; {count} differ")
    return 1 if count else 0


if __name__ == "__main__":
    sys.exit(main())
