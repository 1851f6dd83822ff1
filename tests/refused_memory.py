#!/usr/bin/env python3
"""Whether a run that is refused memory says so, and loses nothing: `refused_memory.py POOL [--long] [--seconds N]`

The program asks the C library for its memory. A small library in front of that counts the requests and refuses one, or one and all
that come behind it; a C compiler has to be there to make it. Each request of a run is refused in turn. The run has to end as ever, or
with 23 and nothing printed; with a journal also with 22, where it was the disk that found no memory. What the journal holds then are
the first entries of an unbroken run, and a run behind it, with memory, prints what an unbroken run prints. Where a run makes more
requests than can be tried within its share of the seconds (60 for all), a sample is tried that is spread over all of them; with
--long, all. Prints what differs, and in its last line how much was tried.
"""

import argparse
import os
import shutil
import subprocess
import sys
import tempfile
import time
from collections import Counter
from dataclasses import dataclass
from math import gcd
from pathlib import Path

sys.dont_write_bytecode = True
import journal_bytes as made
from journals import DISK_FAULT, EXAMPLES, ROW1, Done, Trial, differs, program

OUT_OF_MEMORY = Done(23, "", "pool: out of memory\n")
SECONDS = 60
LIBRARY = r"""
#include <errno.h>
#include <stdio.h>
#include <stdlib.h>

extern void *__libc_malloc(size_t), *__libc_realloc(void *, size_t);
static long asked, first, last;

static int refuses(void) {
    asked++;
    if (asked < first || asked > last) return 0;
    errno = ENOMEM;
    return 1;
}

void *malloc(size_t size) { return refuses() ? NULL : __libc_malloc(size); }
void *realloc(void *old, size_t size) { return refuses() ? NULL : __libc_realloc(old, size); }

static long number(const char *name) {
    const char *text = getenv(name);
    return text ? atol(text) : 0;
}

__attribute__((constructor)) static void begin(void) {
    asked = 0;
    first = number("REFUSED_FROM");
    last = number("REFUSED_TO");
}

__attribute__((destructor)) static void end(void) {
    long count = asked;
    FILE *file = getenv("ASKED") ? fopen(getenv("ASKED"), "w") : NULL;
    if (file) {
        fprintf(file, "%ld", count);
        fclose(file);
    }
}
"""


@dataclass
class Row:
    """Words, whether a journal belongs to them, what a run prints that is refused nothing, and the entries that it records."""

    label: str
    words: list
    journaled: bool
    done: Done = None
    entries: list = None
    requests: int = 0


class Refusals(Trial):
    """The program with the library in front of it."""

    def __init__(self, pool, folder, tried, library):
        super().__init__(pool, folder, tried)
        self.library, self.counted, self.seen = library, folder / "asked", set()

    def run(self, row, **given):
        """Runs the words of a row; `given` goes to the library."""
        words = [str(self.pool), *map(str, row.words), *(["--journal", str(self.journal)] if row.journaled else [])]
        environment = {"LD_PRELOAD": str(self.library), **{name: str(value) for name, value in given.items()}} if given else None
        done = subprocess.run(words, capture_output=True, text=True, env=environment)
        self.tried["runs"] += 1
        return Done(done.returncode, done.stdout, done.stderr)

    def settle(self, row):
        """What a row does that is refused nothing, and how many requests it makes."""
        self.journal.unlink(missing_ok=True)
        row.done = self.run(row, ASKED=self.counted)
        row.entries = made.payloads(self.left())
        row.requests = int(self.counted.read_text())
        self.journal.unlink(missing_ok=True)
        if row.done != self.run(row):
            raise SystemExit(f"{row.label}: the library changes what is printed: {row.done}")
        return row


def library(folder):
    """The library, or None where there is no C compiler."""
    compiler = next(filter(None, map(shutil.which, ("cc", "gcc", "clang"))), None)
    if not compiler:
        return None
    source, file = folder / "refuse.c", folder / "refuse.so"
    source.write_text(LIBRARY)
    built = subprocess.run([compiler, "-O2", "-shared", "-fPIC", "-o", file, source], capture_output=True, text=True)
    return file if built.returncode == 0 else None


def spread(count):
    """The numbers from 1 to a count, each once, such that every front of the list is spread over all of them."""
    step = next((step for step in range(int(count * 0.618), 1, -1) if gcd(step, count) == 1), 1)
    return [1 + number * step % count for number in range(count)]


def answers(row):
    """How a run of the row may end that was refused memory."""
    yield row.done
    yield OUT_OF_MEMORY
    if row.journaled:
        yield Done(22, "", DISK_FAULT)


def resumed(trial, row, label):
    """What a run left in its journal, and the run behind it. What was seen to be gone on with before is not tried again."""
    held = trial.left()
    if (row.label, held) in trial.seen:
        return
    trial.seen.add((row.label, held))
    found = made.payloads(held)
    yield from differs(f"{label}: entries", found, row.entries[: len(found)])
    yield from differs(f"{label}: the run behind it", trial.run(row), row.done)
    yield from differs(f"{label}: its entries", made.payloads(trial.left()), row.entries)
    trial.tried["journals gone on with"] += 1


def refused(trial, row, number, last):
    """A run whose requests from `number` to `last` are refused."""
    trial.journal.unlink(missing_ok=True)
    done = trial.run(row, REFUSED_FROM=number, REFUSED_TO=last)
    label = f"{row.label}: request {number}{'' if number == last else ' and all behind it'} refused"
    if done not in list(answers(row)):
        yield f"{label}: {done}"
    trial.tried["refused requests"] += 1
    trial.tried[f"of them ended with {done.status}"] += 1
    if row.journaled:
        yield from resumed(trial, row, label)


def tries(trial, row, seconds):
    """Each request of a row alone, and each with all behind it, as many as there is time for."""
    ends, count = time.monotonic() + seconds, 0
    for number in spread(row.requests):
        if time.monotonic() > ends:
            break
        yield from refused(trial, row, number, number)
        yield from refused(trial, row, number, 1 << 40)
        count += 1
    trial.tried[f"of {row.requests} requests of {row.label}"] += count


def accepted(trial, row):
    """Whether both checkers accept what a row prints."""
    if row.words[0] == "solve" and not trial.says(row.words[1], row.done.out).startswith("accepted "):
        yield f"{row.label}: {trial.says(row.words[1], row.done.out)}"


def rows():
    haverly, feeds = EXAMPLES / "haverly1.json", EXAMPLES / "two_feeds.json"
    yield Row("row1", ["solve", ROW1], False)
    yield Row("the check of row1", ["check", ROW1, EXAMPLES / "row1.cert"], False)
    yield Row("the check of two feeds", ["check", feeds, EXAMPLES / "two_feeds.cert"], False)
    yield Row("row1 with a journal", ["solve", ROW1], True)
    yield Row("the report of row1", ["report", ROW1, EXAMPLES / "row1.cert"], False)
    yield Row("the program of Haverly 1", ["formulate", haverly], False)
    yield Row("make 2", ["make", "2"], False)
    yield Row("Haverly 1 with a journal", ["solve", haverly, "--nodes", "3"], True)


def parts(trial, seconds):
    """The faults of each row, one after another; what one row leaves of the time goes to those behind it."""
    ends = time.monotonic() + seconds
    settled = [trial.settle(row) for row in rows()]
    for number, row in enumerate(settled):
        yield from accepted(trial, row)
        yield from tries(trial, row, (ends - time.monotonic()) / (len(settled) - number))


def main():
    words = argparse.ArgumentParser(usage="refused_memory.py POOL [--long] [--seconds N]")
    words.add_argument("pool", type=Path)
    words.add_argument("--long", action="store_true")
    words.add_argument("--seconds", type=float, default=SECONDS)
    asked = words.parse_args()
    tried, count = Counter(), 0
    memory = "/dev/shm" if os.access("/dev/shm", os.W_OK) else None
    with tempfile.TemporaryDirectory(dir=memory) as folder:
        made_library = library(Path(folder))
        if made_library is None:
            print("0 refused requests (no C compiler here); 0 differ")
            return 0
        trial = Refusals(program(asked.pool), Path(folder), tried, made_library)
        for fault in parts(trial, float("inf") if asked.long else asked.seconds):
            print(fault[:2000], flush=True)
            count += 1
    print(", ".join(f"{number} {what}" for what, number in tried.items()) + f"; {count} differ")
    return 1 if count else 0


if __name__ == "__main__":
    sys.exit(main())
