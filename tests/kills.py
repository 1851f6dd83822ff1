#!/usr/bin/env python3
"""Whether a run with a journal loses nothing between any two of its calls of files: `kills.py POOL`

A small library in front of the C library tells in a log each call that the program makes of files: opened, closed, read, written, cut,
synced. It can end the run before one of them, have one fail, and leave out a sync; a C compiler has to be there to make it, and nothing
else. A run of one entry and one of ten splits are ended (SIGKILL) before each of their calls, and resumed; and so are two that begin with a
file of version 1, which turn. What a crash of the machine
leaves in the place of such an end is worked out from the log by a model of a disk: what no sync put there may be lost or garbled, also
where a later change came through, and so is a name whose folder was not synced. Nothing acknowledged is lost: an entry counts as
acknowledged once the run, with the entry in its file, writes on, or a sync of it returned. Over each file that is left the same
command prints what an unbroken run prints, which both checkers accept. That a sync which is left out is noticed by that is tried for
each sync of a run. Each call fails, too, and each read of a check. Prints what differs, and in its last line how much was tried.
"""

import argparse
import errno
import os
import random
import shutil
import signal
import subprocess
import sys
import tempfile
from collections import Counter
from dataclasses import dataclass
from pathlib import Path

sys.dont_write_bytecode = True
import journal_bytes as made
from hard_limits import FAULTS, READ_FAULT, chain
from journals import DISK_FAULT, EXAMPLES, ROW1, Done, Trial, differs, ends_as, program

SHOWN = 40  # how many faults are printed
PIECE = 65536  # what a check reads at a time
LIBRARY = r"""
#define _GNU_SOURCE
#include <errno.h>
#include <fcntl.h>
#include <signal.h>
#include <stdarg.h>
#include <stdio.h>
#include <stdlib.h>
#include <string.h>
#include <sys/stat.h>
#include <sys/syscall.h>
#include <unistd.h>

static long calls, last, failing, fault, syncs, lost;
static int told = -1;

static long number(const char *name) {
    const char *text = getenv(name);
    return text ? atol(text) : 0;
}

__attribute__((constructor)) static void begin(void) {
    last = number("CALLS_LAST");
    failing = number("CALLS_FAILING");
    fault = number("CALLS_FAULT");
    lost = number("CALLS_LOST");
    int file = syscall(SYS_openat, AT_FDCWD, getenv("CALLS_TOLD"), O_WRONLY | O_CREAT | O_TRUNC, 0666);
    told = syscall(SYS_fcntl, file, F_DUPFD_CLOEXEC, 500);
    syscall(SYS_close, file);
}

/* Whether the next call is made. The run ends before the last one. */
static int made(void) {
    calls++;
    if (calls == last) syscall(SYS_kill, getpid(), SIGKILL);
    if (calls != failing) return 1;
    errno = fault;
    return 0;
}

/* A line for a call, with the bytes that it took behind it. */
static long tell(const char *name, int file, long at, long answer, const void *bytes, long count) {
    int kept = errno;
    if (count < 0) count = 0;
    dprintf(told, "%s %d %ld %ld %ld\n", name, file, at, answer, count);
    syscall(SYS_write, told, bytes, count);
    errno = kept;
    return answer;
}

int open(const char *path, int flags, ...) {
    va_list more;
    va_start(more, flags);
    int mode = flags & O_CREAT ? va_arg(more, int) : 0;
    va_end(more);
    int file = made() ? syscall(SYS_openat, AT_FDCWD, path, flags, mode) : -1;
    return tell("open", file, 0, file, path, strlen(path));
}

int close(int file) {
    return tell("close", file, 0, made() ? syscall(SYS_close, file) : -1, NULL, 0);
}

ssize_t read(int file, void *into, size_t count) {
    return tell("read", file, 0, made() ? syscall(SYS_read, file, into, count) : -1, NULL, 0);
}

ssize_t write(int file, const void *bytes, size_t count) {
    long at = syscall(SYS_lseek, file, 0, SEEK_CUR);
    long answer = made() ? syscall(SYS_write, file, bytes, count) : -1;
    return tell("write", file, at, answer, bytes, answer);
}

ssize_t __write(int file, const void *bytes, size_t count) { return write(file, bytes, count); }

ssize_t pread(int file, void *into, size_t count, off_t at) {
    return tell("read", file, at, made() ? syscall(SYS_pread64, file, into, count, at) : -1, NULL, 0);
}

ssize_t pwrite(int file, const void *bytes, size_t count, off_t at) {
    long answer = made() ? syscall(SYS_pwrite64, file, bytes, count, at) : -1;
    return tell("write", file, at, answer, bytes, answer);
}

off_t lseek(int file, off_t to, int from) {
    return tell("seek", file, 0, made() ? syscall(SYS_lseek, file, to, from) : -1, NULL, 0);
}

int ftruncate(int file, off_t to) {
    return tell("cut", file, to, made() ? syscall(SYS_ftruncate, file, to) : -1, NULL, 0);
}

int statx(int folder, const char *path, int flags, unsigned mask, struct statx *into) {
    return tell("stat", folder, 0, made() ? syscall(SYS_statx, folder, path, flags, mask, into) : -1, NULL, 0);
}

static int synced(int call, int file) {
    if (!made()) return tell("sync", file, 0, -1, NULL, 0);
    if (++syncs == lost) return tell("lost", file, 0, 0, NULL, 0);
    return tell("sync", file, 0, syscall(call, file), NULL, 0);
}

int fsync(int file) { return synced(SYS_fsync, file); }

int fdatasync(int file) { return synced(SYS_fdatasync, file); }
"""


# ---- what a run called


@dataclass
class Call:
    """A call: of the journal, of its folder, or of another file; where and what it wrote, or to what length it cut; what it answered."""

    name: str
    of: str
    at: int
    answer: int
    data: bytes

    def syncs_journal(self):
        return self.of == "journal" and self.name in ("sync", "lost")

    def writes(self):
        return self.name in ("write", "cut")

    def of_disk(self):
        """Whether it changes or syncs the journal, or syncs its folder."""
        return self.of != "another" and (self.writes() or self.name == "sync")

    def speaks(self):
        """Whether it writes to standard output."""
        return self.name == "write" and self.of == "another"


def lines(log):
    """The lines of a log, each with the bytes behind it."""
    at = 0
    while at < len(log):
        end = log.index(b"\n", at) + 1
        name, *numbers = log[at:end].split()
        file, place, answer, count = map(int, numbers)
        yield name.decode(), file, place, answer, log[end : end + count]
        at = end + count


def calls_of(log, journal):
    """The calls of a log, each with what it is a call of."""
    names, files, calls = {str(journal): "journal", str(journal.parent): "folder"}, {}, []
    for name, file, at, answer, data in lines(log):
        if name == "open":
            files[file] = names.get(data.decode(), "another")
        calls.append(Call(name, files.get(file, "another"), at, answer, data))
    return calls


class Calls(Trial):
    """The program with the library in front of it."""

    def __init__(self, pool, folder, tried, library):
        super().__init__(pool, folder, tried)
        self.library, self.log, self.seen = library, folder / "calls", set()

    def heard(self, words, **given):
        """Runs the program on words; `given` goes to the library. How it ended, and its calls."""
        environment = {"LD_PRELOAD": str(self.library), "CALLS_TOLD": str(self.log), **{name: str(value) for name, value in given.items()}}
        done = subprocess.run([self.pool, *words], capture_output=True, text=True, cwd=self.folder, env=environment)
        self.tried["runs"] += 1
        return Done(done.returncode, done.stdout, done.stderr), calls_of(self.log.read_bytes(), self.journal)

    def called(self, case, **given):
        return self.heard(self.words(case)[1:], **given)

    def put(self, file):
        """Bytes in the place of the journal, or none."""
        self.journal.unlink(missing_ok=True)
        if file is not None:
            self.journal.write_bytes(file)

    def there(self):
        return self.journal.read_bytes() if self.journal.exists() else None


# ---- a disk, and what a crash of the machine leaves of it


def landed(file, change, how):
    """A file after a change that came through whole, in part, as noise, or not at all. The same change gives the same noise each time."""
    name, at, data = change
    chance = random.Random(repr((change, how, len(file))))
    if how == "not":
        return file
    if name == "cut":
        to = {"whole": at, "part": min(at + 4, len(file)), "noise": chance.randint(min(at, len(file)), len(file))}[how]
        return file[:to].ljust(to, b"\0")
    if how != "whole":
        kept = chance.randint(0, len(data)) if how == "part" else 0
        data = data[:kept] + chance.randbytes(len(data) - kept)
    return file[:at].ljust(at, b"\0") + data + file[at + len(data) :]


class Disk:
    """A file on a disk, or none: what is there, the changes that no sync put there yet, and whether the folder has its name."""

    def __init__(self, file=None, changes=()):
        self.file, self.changes, self.named = file, list(changes), file is not None
        self.acknowledged = []

    def state(self):
        return self.file, len(self.changes), self.named, len(self.acknowledged)

    def meet(self, call):
        """The run comes to a call: where it writes on, what it recorded before is acknowledged."""
        if call.name == "write":
            self.acknowledged = made.entries(self.now() or b"")

    def follow(self, call):
        """The disk after a call."""
        self.meet(call)
        self.change(call)
        if call.syncs_journal() and call.answer == 0:
            self.acknowledged = made.entries(self.now() or b"")

    def change(self, call):
        if call.of == "folder" and call.name == "sync" and call.answer == 0:
            self.named = self.file is not None
        if call.of != "journal" or call.answer < 0:
            return
        if call.name == "open" and self.file is None:
            self.file = b""
        elif call.writes():
            self.changes.append((call.name, call.at, call.data))
        elif call.name == "sync":
            self.file, self.changes = self.now(), []

    def left(self, ways):
        """The file where each change that is pending came through in this way."""
        file = self.file
        for change, how in zip(self.changes, ways):
            file = landed(file, change, how)
        return file

    def now(self):
        """The file as a run reads it, and as the end of the run alone leaves it."""
        return self.left(["whole"] * len(self.changes)) if self.file is not None else None

    def images(self):
        """Files that a crash may leave: without the changes, with all, with the last one alone, over noise, in parts; or none."""
        if not self.named:
            yield None
        if self.file is None:
            return
        yield self.file
        if self.changes:
            before = len(self.changes) - 1
            yield from (self.left([how] * before + [last]) for how in ("not", "part", "noise", "whole") for last in ("whole", "part", "noise"))


# ---- no moment loses anything


def moment(trial, case, disk, label):
    """Over each file that a crash leaves now: what is acknowledged is there, and the next run ends as ever."""
    for number, file in enumerate(disk.images()):
        found = made.entries(file or b"")
        yield from differs(f"{label}: crash {number}: acknowledged entries", found[: len(disk.acknowledged)], disk.acknowledged)
        yield from differs(f"{label}: crash {number}: entries of an unbroken run", found, case.entries()[: len(found)])
        trial.tried["crashes"] += 1
        if (case.label, file) not in trial.seen:
            trial.put(file)
            yield from ends_as(trial, case, f"{label}: crash {number}: resumed")
            trial.seen.add((case.label, file))
            trial.tried["files resumed from"] += 1


def moments(trial, case, disk, calls, label):
    """Each moment of a run: before each of its calls, and after the last one. Where nothing changed it is that of before."""
    seen = None
    for number, call in enumerate([*calls, Call("end", "another", 0, 0, b"")], 1):
        disk.meet(call)
        if disk.state() != seen:
            yield from moment(trial, case, disk, f"{label}: before call {number}")
            seen = disk.state()
        disk.follow(call)


def unbroken(trial, case):
    """A run that nobody stops: its calls, and each moment of it."""
    trial.put(None)
    done, calls = trial.called(case)
    yield from differs(f"{case.label}: with the library", (done, trial.there()), (case.done, case.file))
    yield from differs(f"{case.label}: folder, sync, birth, entries", len(list(filter(Call.of_disk, calls))), 2 + 8 + 4 * len(case.entries()))
    yield from moments(trial, case, Disk(), calls, case.label)


def turned(trial, case, count):
    """A run over a file of version 1 with so many entries, each moment of it, and the same killed before each of its calls: four for the Turn."""
    text, label = made.text_of(case.file), f"{case.label}, {count} entries of version 1"
    begun = made.turned(text, case.entries()[:count], count)
    trial.put(begun)
    done, calls = trial.called(case)
    yield from differs(label, (done, trial.there()), (case.done, made.turned(text, case.entries(), count)))
    yield from differs(f"{label}: folder, sync, Turn, entries", len(list(filter(Call.of_disk, calls))), 2 + 4 + 4 * (len(case.entries()) - count))
    yield from moments(trial, case, Disk(begun), calls, label)
    yield from killed(trial, case, begun, label)


def killed(trial, case, begun=None, named=None):
    """A run that is killed before each of its calls, and the run behind it, with each moment of that; over a file, or none."""
    trial.put(begun)
    calls = trial.called(case)[1]
    for last in range(1, len(calls) + 1):
        label, disk = f"{named or case.label}: killed before call {last}", Disk(begun)
        trial.put(begun)
        done, before = trial.called(case, CALLS_LAST=last)
        out = case.done.out if any(map(Call.speaks, before)) else ""
        yield from differs(label, (done, before), (Done(-signal.SIGKILL, out, ""), calls[: last - 1]))
        for call in before:
            disk.follow(call)
        yield from differs(f"{label}: the file", trial.there(), disk.now())
        done, behind = trial.called(case)
        left = trial.there()
        yield from differs(f"{label}: resumed", (done, made.entries(left or b"")), (case.done, case.entries()))
        yield from moments(trial, case, disk, behind, f"{label}: resumed")
        yield from differs(f"{label}: resumed: the file", left, disk.now())
        trial.tried["kills"] += 1


# ---- calls that fail


def answers(call, fault, case):
    """How a run may end in which a call failed: 22 where it was one of the disk; closing is none. One that was broken off by a signal
    may be tried again, and one for which there was no memory may be told so."""
    if call.of != "another" and call.name != "close" and fault in (errno.EIO, errno.ENOSPC):
        return [Done(22, "", DISK_FAULT)]
    return [case.done, *FAULTS]


def failed(trial, case):
    """Each call fails: the run says so or ends as ever, and a run behind it ends as ever."""
    trial.put(None)
    calls = trial.called(case)[1]
    for number, call in enumerate(calls, 1):
        for fault in (errno.EIO, errno.ENOSPC, errno.ENOMEM, errno.EINTR):
            label = f"{case.label}: call {number}, {call.name} of the {call.of}, with {errno.errorcode[fault]}"
            trial.put(None)
            done = trial.called(case, CALLS_FAILING=number, CALLS_FAULT=fault)[0]
            if done not in answers(call, fault, case):
                yield f"{label}: {done}"
            found = made.payloads(trial.left())
            yield from differs(f"{label}: entries", found, case.entries()[: len(found)])
            yield from ends_as(trial, case, label)
            trial.tried["calls that fail"] += 1


def failed_reads(trial):
    """Each read of a check fails, of a certificate in pieces: 20, nothing printed; one that is broken off is tried again."""
    certificate = trial.folder / "chain.cert"
    certificate.write_text(chain(20000))
    words = ["check", EXAMPLES / "two_feeds.json", certificate]
    wanted, calls = trial.heard(words)
    reads = [number for number, call in enumerate(calls, 1) if call.name == "read"]
    pieces = -(-certificate.stat().st_size // PIECE)
    yield from differs("check: reads of a network, of the pieces, and an end of each", len(reads) >= 2 + pieces + 1, True)
    for number in reads:
        for fault, answer in ((errno.EIO, READ_FAULT), (errno.EINTR, wanted)):
            done = trial.heard(words, CALLS_FAILING=number, CALLS_FAULT=fault)[0]
            yield from differs(f"check: call {number}, a read, with {errno.errorcode[fault]}", done, answer)
            trial.tried["reads that fail"] += 1


# ---- a sync that is left out is noticed


def unnoticed(trial, case, file, changes):
    """The numbers of the syncs that a run over a file may leave out and nothing of it is noticed; the changes are not on the disk yet."""
    trial.put(Disk(file, changes).now())
    syncs = sum(call.name == "sync" for call in trial.called(case)[1])
    for lost in range(1, syncs + 1):
        disk = Disk(file, changes)
        trial.put(disk.now())
        calls = trial.called(case, CALLS_LOST=lost)[1]
        if next(moments(trial, case, disk, calls, ""), None) is None:
            yield lost
        trial.tried["syncs left out"] += 1


def left_out(trial, case):
    """Each sync of a run is left out, and that is noticed, but where it puts nothing on the disk that has to be there: the folder's
    where that has the name already (1), the first of the file where all of it is on the disk (2), that of a birth's first byte where
    the file is empty (3), and the two of a birth whose change the next one puts there in time: its cut (4) and its end (6)."""
    gates = made.places(case.file)
    last, behind = gates[len(gates) // 2 - 1 :][:2]
    closed = case.file[:last] + b"\0" + case.file[last + 1 : behind] + b"\0"
    for label, file, changes, wanted in (
        ("a new file", None, [], [2, 3, 4, 6]),
        ("a file in which no journal has come to be", b"\7" + case.file[1:], [], [1, 2, 4, 6]),
        ("a journal whose last gate is not on the disk", closed, [("write", last, b"\1")], [1]),
    ):
        yield from differs(f"{case.label}: {label}: syncs that nobody misses", list(unnoticed(trial, case, file, changes)), wanted)


# ---- all of it


def library(folder):
    """The library, or None where there is no C compiler."""
    compiler = next(filter(None, map(shutil.which, ("cc", "gcc", "clang"))), None)
    if not compiler:
        return None
    source, file = folder / "calls.c", folder / "calls.so"
    source.write_text(LIBRARY)
    built = subprocess.run([compiler, "-O2", "-shared", "-fPIC", "-o", file, source], capture_output=True, text=True)
    return file if built.returncode == 0 else None


def parts(trial):
    """The faults of each part, one after another."""
    sharper = trial.folder / "sharper.json"
    sharper.write_text((EXAMPLES / "haverly1.json").read_text().replace('"2.5"', '"2.37"'))
    one = trial.case("row1", ROW1)
    ten = trial.case("Haverly 1 with another limit", sharper, "--gap", "0", "--form", "q", "--nodes", "10")
    yield from differs("splits and entries", [len(made.splits(case.entries())) for case in (one, ten)], [0, 10])
    yield from differs("entries of row1", len(one.entries()), 1)
    for case in (one, ten):
        yield from unbroken(trial, case)
        yield from killed(trial, case)
        yield from failed(trial, case)
        yield from left_out(trial, case)
        yield from turned(trial, case, len(case.entries()) // 2)
    yield from failed_reads(trial)


def main():
    words = argparse.ArgumentParser(usage="kills.py POOL")
    words.add_argument("pool", type=Path)
    asked = words.parse_args()
    tried, count = Counter(), 0
    memory = "/dev/shm" if os.access("/dev/shm", os.W_OK) else None
    with tempfile.TemporaryDirectory(dir=memory) as folder:
        made_library = library(Path(folder))
        if made_library is None:
            print("no C compiler here")
            return 77
        for fault in parts(Calls(program(asked.pool), Path(folder), tried, made_library)):
            count += 1
            if count <= SHOWN:
                print(fault[:2000], flush=True)
    print(", ".join(f"{number} {what}" for what, number in tried.items()) + f"; {count} differ")
    return 1 if count else 0


if __name__ == "__main__":
    sys.exit(main())
