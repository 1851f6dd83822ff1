"""Where `tools/spread` has jobs worked on: on this machine, on the hosts of GNU parallel, or on a cluster of Slurm.

An engine is given tasks, each a text of jobs, and hands them back when they have ended, in whatever order: each with the text that `pool work`
wrote, or with none where none came. Whatever does not come, comes twice or comes damaged costs no more than the work: `pool gather` judges each
answer, and the leaf is handed out again. No call of an engine waits: what is to be waited for is looked at by `go_on`.
"""

import ctypes
import os
import shlex
import shutil
import signal
import subprocess
import time
from collections import deque

import pooling

LIMIT = 67_108_864  # bytes of a text of answers that `pool gather` reads
RETRIES = 3  # how often GNU parallel tries a task
PATIENCE = "2000%"  # of the median of the tasks of a batch: what takes longer is ended, and tried again
LIBC = ctypes.CDLL(None, use_errno=True)


def ended_with_parent(number):
    """What a child does before it runs: it is sent that signal when this process ends, also where that is killed."""
    return lambda: LIBC.prctl(1, number)  # PR_SET_PDEATHSIG


dies_with_its_parent = ended_with_parent(signal.SIGKILL)


def read(path):
    """The bytes of a file, or None where there is none, or one too long to be gathered."""
    try:
        with open(path, "rb") as file:
            data = file.read(LIMIT + 1)
    except OSError:
        return None
    return data if 0 < len(data) <= LIMIT else None


class Task:
    """Jobs on some leaves, in a file, and the files that their answers and complaints come to."""

    def __init__(self, folder, number, text, nodes):
        self.nodes = nodes
        self.jobs, self.answers, self.part, self.error = (os.path.join(folder, f"{number}.{kind}") for kind in ("jobs", "answers", "part", "error"))
        pooling.write_file(self.jobs, text)

    def came(self):
        return read(self.answers)

    def complaint(self):
        data = read(self.error)
        return data.decode("utf-8", "replace").splitlines()[0] if data else None

    def forget(self):
        for path in (self.jobs, self.answers, self.part, self.error):
            if os.path.exists(path):
                os.unlink(path)


class Engine:
    """What every engine has. `waiting` are the tasks that nobody has begun, and `out` is how many were given and have not come back. `pace` is
    how many seconds a worker takes for a leaf, by those that came last; none before any came."""

    task_seconds = 1.0  # so long a task should take, for its start to cost little
    rounds_ahead = 10  # so many times as long as the commands between two rounds take, the leaves that wait should last
    newest = 0.5  # so much what came last counts in the pace

    def __init__(self, words, net):
        self.slots, self.net, self.form = words.jobs, net, words.form
        self.waiting, self.back, self.out, self.pace = deque(), [], 0, None

    def learn(self, seconds, leaves):
        if leaves:
            self.pace = seconds / leaves if self.pace is None else self.pace + self.newest * (seconds / leaves - self.pace)

    def give(self, tasks):
        self.waiting.extend(tasks)
        self.out += len(tasks)
        self.go_on()

    def leaves_waiting(self):
        return sum(len(task.nodes) for task in self.waiting)

    def fewest(self):
        """So many leaves wait, also where few splits were made."""
        return 2 * self.slots

    def ended(self):
        """The tasks that have come back since the last call."""
        self.go_on()
        back, self.back = self.back, []
        self.out -= len(back)
        return back


class Local(Engine):
    """So many processes at a time on this machine."""

    task_seconds = 0.25
    rounds_ahead = 2  # what was handed out late is what the tree needs next
    newest = 0.1

    def __init__(self, words, net):
        super().__init__(words, net)
        self.running, self.busy, self.seen = {}, 0.0, (time.monotonic(), 0.0)

    def fewest(self):
        return max(1, self.slots // 2)

    def go_on(self):
        now = time.monotonic()
        for process in [it for it in self.running if it.poll() is not None]:
            task, begun = self.running.pop(process)
            self.busy += now - begun
            self.learn(now - begun, len(task.nodes))
            self.back.append(task)
        while self.waiting and len(self.running) < self.slots:
            task = self.waiting.popleft()
            self.running[self.start(task)] = (task, time.monotonic())

    def start(self, task):
        words = [pooling.program(), "work", self.net, task.jobs, f"--form={self.form}"]
        with open(task.answers, "wb") as out, open(task.error, "wb") as error:
            return subprocess.Popen(words, stdin=subprocess.DEVNULL, stdout=out, stderr=error, preexec_fn=dies_with_its_parent)

    def waited(self):
        """The share of the time since the last call in which processes had nothing to do."""
        now = time.monotonic()
        busy = self.busy + sum(now - begun for _, begun in self.running.values())
        (then, before), self.seen = self.seen, (now, busy)
        return max(0.0, 1 - (busy - before) / (self.slots * (now - then))) if now > then else None

    def stop(self):
        for process in self.running:
            process.kill()
        for process in self.running:
            process.wait()


class Batches(Engine):
    """An engine that takes tasks in batches: while one is at work, what is given waits for the next one. A task's answers come to be at once,
    whole, under their name; what has none when the batch ends has failed."""

    look_seconds = 0.02  # between two looks at what a batch has done

    def __init__(self, words, net):
        super().__init__(words, net)
        self.batch, self.leaves, self.is_at_work, self.number, self.share = [], 0, False, 0, None
        self.looked = self.idle_since = time.monotonic()

    def go_on(self):
        if self.is_at_work and time.monotonic() - self.looked >= self.look_seconds:
            self.look()
        if self.waiting and not self.is_at_work:
            self.batch, self.leaves, self.is_at_work = list(self.waiting), self.leaves_waiting(), True
            self.waiting.clear()
            self.number += 1
            self.start(list(self.batch))

    def look(self):
        """Takes what came, and looks whether the batch is over."""
        is_over, self.looked = self.is_over(), time.monotonic()
        # A folder that is listed is looked at anew, also on a file system of the net.
        there = set(os.listdir(os.path.dirname(self.batch[0].answers))) if self.batch else set()
        for task in [it for it in self.batch if is_over or os.path.basename(it.answers) in there]:
            self.batch.remove(task)
            self.back.append(task)
        if is_over:
            self.close()

    def close(self):
        """Learns of a batch that is over how long its workers were busy, where the engine knows."""
        busy = self.busy_seconds()
        if busy is not None:
            self.share = max(0.0, 1 - busy / (self.slots * (self.looked - self.idle_since)))
            self.learn(busy, self.leaves)
        self.is_at_work, self.idle_since = False, self.looked

    def waited(self):
        """Of the last batch that ended since the last call, and of the time before it."""
        share, self.share = self.share, None
        return share

    def command(self, program, net, jobs, stem):
        """For a shell: works jobs, with answers that come to be at once."""
        return f"{shlex.quote(program)} work {net} {jobs} --form={self.form} >{stem}.part 2>{stem}.error && mv {stem}.part {stem}.answers"


class Parallel(Batches):
    """GNU parallel, over this machine or over the hosts of a file, each line of which is one of its `--sshlogin`. The network and the jobs are
    copied to each host, and `pool` has to be there, on PATH or where the variable POOL says."""

    def __init__(self, words, net):
        super().__init__(words, net)
        if not shutil.which("parallel"):
            raise pooling.Ends(127, "spread: GNU parallel is not installed (Debian's package `parallel`)")
        self.each, self.hosts, self.process = words.jobs, words.hosts and os.path.abspath(words.hosts), None
        if self.hosts:
            with open(self.hosts, encoding="utf-8") as file:
                self.slots *= max(1, sum(bool(line.split("#")[0].strip()) for line in file))

    def start(self, tasks):
        folder = os.path.dirname(tasks[0].jobs)
        if not os.path.exists(os.path.join(folder, "network.json")):
            shutil.copyfile(self.net, os.path.join(folder, "network.json"))
        self.log = os.path.join(folder, f"batch-{self.number}.log")
        program = os.environ.get("POOL") or ("pool" if self.hosts else pooling.program())
        words = ["parallel", "--will-cite", "--no-notice", "--jobs", str(self.each), "--retries", str(RETRIES), "--timeout", PATIENCE, "--joblog", self.log]
        if self.hosts:
            words += ["--sshloginfile", self.hosts, "--workdir", "...", "--basefile", "network.json", "--transferfile", "{}", "--return", "{.}.answers", "--cleanup"]
        names = os.path.join(folder, f"batch-{self.number}.list")
        pooling.write_file(names, "".join(f"{os.path.basename(task.jobs)}\n" for task in tasks))
        words += [self.command(program, "network.json", "{}", "{.}"), "::::", os.path.basename(names)]
        # A second signal that asks GNU parallel to end has it end its jobs: it sends the first to itself when this process is gone.
        self.process = subprocess.Popen(words, stdin=subprocess.DEVNULL, stdout=subprocess.DEVNULL, stderr=subprocess.DEVNULL, cwd=folder, preexec_fn=ended_with_parent(signal.SIGTERM))

    def is_over(self):
        return self.process.poll() is not None

    def busy_seconds(self):
        """By the log of GNU parallel, which has a line for each task, on whatever host it ran."""
        try:
            with open(self.log, encoding="utf-8") as file:
                return sum(float(line.split("\t")[3]) for line in file.readlines()[1:])
        except (OSError, ValueError, IndexError):
            return None

    def stop(self):
        if self.process and self.process.poll() is None:
            self.process.terminate()
            try:
                self.process.wait(5)
            except subprocess.TimeoutExpired:
                self.process.kill()
                self.process.wait()


class Slurm(Batches):
    """Array jobs of Slurm. The folder of the tasks is shared by the nodes; `pool` has to be there, on PATH or where the variable POOL says."""

    task_seconds = 20.0
    look_seconds = 0.5

    def __init__(self, words, net):
        super().__init__(words, net)
        if not shutil.which("sbatch"):
            raise pooling.Ends(127, "spread: Slurm is not installed (Debian's package `slurm-client`)")
        self.array = None

    def start(self, tasks):
        folder = os.path.dirname(tasks[0].jobs)
        script, listed = (os.path.join(folder, f"batch-{self.number}.{kind}") for kind in ("sh", "list"))
        self.times = os.path.join(folder, f"batch-{self.number}.times")
        pooling.write_file(listed, "".join(f"{task.jobs}\n" for task in tasks))
        pooling.write_file(script, "\n".join([
            "#!/bin/bash",
            f"jobs=$(sed -n \"$((SLURM_ARRAY_TASK_ID + 1))p\" {shlex.quote(listed)})",
            "stem=${jobs%.jobs}",
            "begun=$(date +%s.%N)",
            self.command(pooling.program(), shlex.quote(self.net), '"$jobs"', '"$stem"'),
            f"echo \"$begun $(date +%s.%N)\" >>{shlex.quote(self.times)}",
            "",
        ]))
        words = ["sbatch", "--parsable", f"--array=0-{len(tasks) - 1}%{self.slots}", "--ntasks=1", "--cpus-per-task=1", "--job-name=pool-spread", "--output=/dev/null", "--error=/dev/null", script]
        sent = subprocess.run(words, stdin=subprocess.DEVNULL, capture_output=True, text=True)
        if sent.returncode != 0:
            raise pooling.Ends(127, f"spread: sbatch: {sent.stderr.strip()}")
        self.array = sent.stdout.strip().split(";")[0]

    def is_over(self):
        asked = subprocess.run(["squeue", "--noheader", "--jobs", self.array], stdin=subprocess.DEVNULL, capture_output=True, text=True)
        # Of a job that ended some time ago squeue knows nothing, and says so. Where it says anything else, the queue can't be asked just now.
        return not asked.stdout.strip() if asked.returncode == 0 else "nvalid job id" in asked.stderr

    def busy_seconds(self):
        """By what the tasks wrote of their times: not every cluster keeps accounts."""
        try:
            with open(self.times, encoding="ascii") as file:
                return sum(float(line.split()[1]) - float(line.split()[0]) for line in file)
        except (OSError, ValueError, IndexError):
            return None

    def stop(self):
        if self.is_at_work:
            subprocess.run(["scancel", self.array], stdin=subprocess.DEVNULL, capture_output=True)


ENGINES = {"local": Local, "parallel": Parallel, "slurm": Slurm}
