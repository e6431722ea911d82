"""Proves and builds crates side by side, and says how far that is."""
import ctypes
import os
import shutil
import signal
import subprocess
import sys
import time

from . import rooms
from .crates import TOP, USES, below, is_program, lacking, sources, text_of

MEMORY = 3_000_000  # kB for each proof: the largest took 3.4 GB, and most take less than half of it
MOST_JOBS = 4  # for one proof
FAILED = 2
FIGURES = f"{TOP}/.ci/seconds"
LINES_A_SECOND = 6  # of code, where nothing was measured: a guess
DIE_WITH_PARENT = 1
SHOWN = 5  # lines of a failed proof
_running = {}


def lanes():
    """How many proofs go side by side."""
    room = next(int(line.split()[1]) for line in text_of("/proc/meminfo").splitlines() if line.startswith("MemAvailable:"))
    return max(1, min(room // MEMORY, len(os.sched_getaffinity(0))))


class Figures:
    """About how long each crate takes: as was measured on one machine, or by its size; corrected by
    what this run has shown."""

    def __init__(self, names):
        self.measured = {name: (int(seconds), int(jobs)) for name, seconds, jobs in (line.split() for line in text_of(FIGURES).splitlines() if not line.startswith("#"))}
        self.names, self.found, self.due = names, 0, 0

    def of(self, name):
        """Seconds, and with how many jobs."""
        if name not in self.measured:
            lines = sum(text_of(path).count("\n") for path in sources(f"{TOP}/crates/{name}") if path.endswith(".rt") and "tests" not in path)
            return 20 + lines // LINES_A_SECOND, 1
        return self.measured[name]

    def behind(self, left):
        """The longest chain of seconds that begins with each crate, where left has what is left of
        each."""
        found = {}
        for name in reversed(self.names):
            found[name] = left.get(name, 0) + max((found[it] for it in self.names if name in USES[it]), default=0)
        return found

    def rest(self, left, processors):
        """About how many seconds are left: the work shared by all processors, or the longest
        chain."""
        work = sum(seconds * self.of(name)[1] for name, seconds in left.items()) / processors
        return max([work, *self.behind(left).values()]) * (self.found / self.due if self.due else 1)

    def note(self, name, took):
        self.found, self.due = self.found + took, self.due + self.of(name)[0]


def minutes(seconds):
    return "less than a minute" if seconds < 60 else f"about {seconds / 60:.0f} minute{'s' if seconds >= 90 else ''}"


class Proof:
    """One crate at work in its room."""

    def __init__(self, name, jobs, folder):
        self.name, self.jobs, self.began = name, jobs, time.monotonic()
        self.log = f"{folder}.log"
        words = ["rt", "run" if is_program(name) else "lib", "--jobs", str(jobs)]
        with open(self.log, "wb") as log:
            how = {"cwd": folder, "stdin": subprocess.DEVNULL, "stdout": log, "stderr": subprocess.STDOUT, "start_new_session": True}
            self.ran = subprocess.Popen(words, preexec_fn=lambda: ctypes.CDLL(None).prctl(DIE_WITH_PARENT, signal.SIGKILL), **how)

    def seconds(self):
        return time.monotonic() - self.began

    def share(self):
        """How many of its functions are proved, as its log tells."""
        told = [line.split() for line in text_of(self.log).splitlines() if line.startswith("so far: ")]
        return f" {told[-1][2]} of {told[-1][4]}" if told and len(told[-1]) > 4 else ""

    def kept_log(self):
        log = f"{TOP}/crates/{self.name}/out/build.log"
        os.makedirs(os.path.dirname(log), exist_ok=True)
        shutil.copyfile(self.log, log)
        return log

    def end(self):
        """Ends it at once. (`rt` ends all that it has started, however it ends.)"""
        if self.ran.poll() is None:
            os.killpg(self.ran.pid, signal.SIGKILL)
            self.ran.wait()


def chosen(left, done, free, behind):
    """Which crates are begun now, each with how many jobs. The one that the longest chain waits for
    comes first, and gets two processors if there are four; a program, which has few functions over
    many libraries, gets one: it takes longer with more jobs, since each loads the libraries."""
    ready = sorted((it for it in left if all(used in done for used in below(it))), key=lambda it: -behind[it])
    for number, name in enumerate(ready):
        if free > 0:
            jobs = 1 if is_program(name) else min(MOST_JOBS, -(-free // min(3, len(ready) - number)))
            free -= jobs
            yield name, jobs


class Build:
    """The state of a build, and the line that tells of it."""

    def __init__(self, whom, names, sums):
        self.whom, self.names, self.sums = whom, names, sums
        self.left, self.done, self.processors = list(names), {it for name in names for it in below(name) if it not in names}, lanes()
        self.figures, self.began, self.shown = Figures(names), time.monotonic(), 0

    def say(self, text):
        print(f"{self.erased()}{self.whom}: {text}", file=sys.stderr, flush=True)

    def erased(self):
        return "\r\x1b[K" if sys.stderr.isatty() else ""

    def seconds_left(self):
        left = {it: self.figures.of(it)[0] for it in self.left}
        left.update({it.name: max(3, self.figures.of(it.name)[0] - it.seconds()) for it in _running.values()})
        return self.figures.rest(left, self.processors)

    def show(self):
        """The line that goes on, on a terminal, once a second."""
        if not sys.stderr.isatty() or time.monotonic() - self.shown < 1:
            return
        self.shown = time.monotonic()
        proved = len(self.names) - len(self.left) - len(_running)
        line = f"{self.whom}: {proved} of {len(self.names)} crates proved, {minutes(self.seconds_left())} left: {', '.join(it.name + it.share() for it in _running.values())}"
        print(f"\r\x1b[K{line[:shutil.get_terminal_size().columns - 1]}", end="", file=sys.stderr, flush=True)

    def begin(self):
        """Begins what can be begun."""
        behind = self.figures.behind({it: self.figures.of(it)[0] for it in self.left})
        for name, jobs in chosen(self.left, self.done, self.processors - sum(it.jobs for it in _running.values()), behind):
            folder = rooms.prepared(name, self.sums)
            if folder is None:
                self.say("the sources changed while they were proved; run this again")
                sys.exit(FAILED)
            self.left.remove(name)
            _running[name] = Proof(name, jobs, folder)

    def end(self, proof):
        """Takes what an ended proof made; where it failed, says which and where its log is, and
        stops."""
        log = proof.kept_log()
        del _running[proof.name]
        is_well = rooms.finished(proof.name, self.sums, proof.ran.returncode, f"{proof.seconds():.0f} {proof.jobs}")
        self.figures.note(proof.name, proof.seconds())
        if not is_well:
            found = [line for line in text_of(log).splitlines() if "error" in line or "not proved" in line or line.startswith("rt: ")]
            self.say(f"{proof.name} is not proved, so {self.whom} is not built; the log is {log}")
            print(*found[:SHOWN], sep="\n", file=sys.stderr)
            sys.exit(FAILED)
        self.done.add(proof.name)

    def run(self):
        about = minutes(self.seconds_left())
        if not all(it in self.figures.measured for it in self.names):
            about = about.replace("about", "perhaps")
        if all(os.path.isdir(f"{TOP}/crates/{it}/out/incremental") for it in self.names):
            about = about.replace("about", "at most").replace("perhaps", "at most")
        self.say(f"proves and builds {len(self.names)} crate{'s' * (len(self.names) > 1)} first, {about} on {self.processors} processors")
        while self.left or _running:
            self.begin()
            self.show()
            time.sleep(0.1)
            for proof in [it for it in _running.values() if it.ran.poll() is not None]:
                self.end(proof)
        took = int(time.monotonic() - self.began)
        self.say(f"proved and built in {took // 60} min {took % 60} s")


def stop(number, _):
    sys.exit(128 + number)


def build(whom, names, sums):
    """Proves and builds what these crates stand on, and them; ends the process where that can't be
    done."""
    if shutil.which("rt") is None:
        print(f"{whom}: needs rt, the command of the Rattle kit, on the path", file=sys.stderr)
        sys.exit(FAILED)
    for number in (signal.SIGINT, signal.SIGTERM, signal.SIGHUP):
        signal.signal(number, stop)
    with rooms.locked(f"{TOP}/crates.txt", lambda: print(f"{whom}: waits for another build in this checkout", file=sys.stderr, flush=True)):
        try:
            rooms.clear()
            for it in reversed(lacking(names, sums)):
                if it in lacking(names, sums):
                    rooms.is_taken(it, sums)
            due = lacking(names, sums)
            if due:
                Build(whom, due, sums).run()
            rooms.remember()
        finally:
            for number in (signal.SIGINT, signal.SIGTERM, signal.SIGHUP):
                signal.signal(number, signal.SIG_IGN)
            if _running and sys.stderr.isatty():
                print(file=sys.stderr)
            for proof in _running.values():
                proof.end()
                rooms.finished(proof.name, sums, FAILED)
            rooms.clear()
