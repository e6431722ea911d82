#!/usr/bin/env python3
"""Converts what a tracer wrote into a log that msrp_log judges, or orders the records of such a log.

usage: trace_log.py FORM [--map MAP] [--offset CPU:+TIME].. [--skew TIME] [--unit ns|us] SYSTEM [TRACE] > LOG

FORM is one of:

  trace-cmd  trace-cmd report, or the file `trace` of tracefs: sched_switch, sched_wakeup, and marks
  perf       perf script: the same
  lttng      babeltrace2, of LTTng or of perf: the same
  zephyr     babeltrace2, of Zephyr: thread_switched_in, thread_ready, thread_sleep_enter, .., and marks
  litmus     EVENT PID/JOB on CPU N TIME [deadline=TIME], with the events of LITMUS^RT's sched_trace
  freertos   CSV with the columns time,core,event,task,object and perhaps seq: FreeRTOS's trace hooks
  log        a log as msrp_log reads it, of cores whose clocks differ: it is only put in order

A mark is a text in the trace, such as `msrp:lock bus`: msrp:EVENT RESOURCE [TICKET], or msrp:release TASK
[DEADLINE]. The log begins at the mark `msrp:boot`, if there is one, and each core stops at `msrp:stop`. A job is
released where its thread wakes up, and ends where the thread sleeps, unless there are marks of releases, or of ends.

MAP is CSV: thread,NAME or PID,TASK; cpu,CPU,CORE; action,NUMBER,EVENT,RESOURCE (of LITMUS^RT). Without it threads have
the names of their tasks, and CPUs the numbers of their cores. --offset adds a time to those of a CPU, such as 1:+7us.
--skew is how much the clocks of two CPUs may still differ: within it, records are ordered by what one shows of another.
--unit is that of times without one."""
import argparse
import csv
import re
import signal
import sys
from collections import Counter, deque
from typing import NamedTuple

UNITS = {"ns": 1, "us": 1000, "ms": 1_000_000, "s": 1_000_000_000}
DAY = 86_400 * UNITS["s"]
MARK = re.compile(r"msrp:([a-z]+)(?: ([\w.-]+))?(?: (\d+))?")
OF_ALL = ("boot", "stop")
FORGOTTEN = "<...>"  # what ftrace writes in place of a name that it has no longer
IDLE = re.compile(r"0|swapper.*|<idle>|idle.*", re.I)


class Seen(NamedTuple):
    """What a line says: an event of docs/LOG.md with the names of its thread. A lost one may have no time."""
    ns: int
    cpu: int
    event: str
    thread: tuple = ()
    res: str = ""
    num: str = ""
    is_mark: bool = False


class Record(NamedTuple):
    """A record of the log."""
    ns: int
    core: int
    event: str
    task: str = ""
    job: object = ""
    res: str = ""
    num: object = ""
    seq: object = ""


def fail(text):
    sys.exit(f"trace_log.py: {text}")


def records_of(path):
    with opened(path) as file:
        return [record for record in csv.reader(file) if record]


def opened(path):
    try:
        return open(sys.stdin.fileno() if path == "-" else path, newline="", encoding="utf-8-sig", errors="replace")
    except OSError as lacking:
        fail(f"{path}: {lacking.strerror}")


def time_of(text, unit="ns"):
    """A time in ns, such as +7us or 12.5ms, exactly."""
    found = re.fullmatch(r"([+-]?)(\d+)(?:\.(\d+))?(ns|us|ms|s)?", text.strip(), re.A)
    if not found:
        raise argparse.ArgumentTypeError(f"{text!r} isn't a time, such as 7us")
    sign, whole, part, own = found.groups()
    size = UNITS[own or unit]
    ns = int(whole) * size + int(part or 0) * size // 10 ** len(part or "")
    return -ns if sign == "-" else ns


def mark_of(text, ns, cpu, thread):
    """What a mark in this text says."""
    found = MARK.search(text)
    if found:
        event, name, num = found.groups(default="")
        if event == "release":
            thread, name = (name,), ""
        yield Seen(ns, cpu, event, thread if any(thread) else (), name, num, True)


# ---- the forms

LINE = re.compile(r"\s*(?P<comm>.+?)[-\s]\s*(?:\d+/)?(?P<pid>\d+)\s+(?:\([\s\d-]+\)\s+)?\[(?P<cpu>\d+)\]\s+"
                  r"(?:[^\s:]+\s+)?(?P<time>\d+\.\d+):\s+(?:[\w-]+:)?(?P<event>\w+):\s*(?P<text>.*)")
# What follows a PID shows where a name ends that has a colon itself.
SWITCH = re.compile(r"(?:prev_comm=)?(.*?)(?: prev_pid=|:)(\d+) (?:prev_prio=\d+|\[\d+\]) (?:prev_state=)?(\S+) ==> "
                    r"(?:next_comm=)?(.*?)(?: next_pid=|:)(\d+) (?:next_prio=|\[)")
WAKEUP = re.compile(r"(?:comm=)?(.*?)(?: pid=|:)(\d+) (?:prio=|\[)")
LOST = re.compile(r"CPU:(\d+) \[(?:LOST )?(\d*) ?EVENTS|\[(\d+)\].*RECORD_LOST lost (\d+)")


def read_linux(lines, _):
    """Lines of trace-cmd report, of tracefs, and of perf script."""
    for line in lines:
        if lost := LOST.search(line):
            yield Seen(None, int(lost[1] or lost[3]), "lost", num=lost[2] or lost[4] or "")
        elif found := LINE.match(line):
            yield from of_linux(time_of(found["time"], "s"), int(found["cpu"]), found)


def of_linux(ns, cpu, found):
    text = found["text"]
    if found["event"] == "sched_switch" and (pair := SWITCH.match(text)):
        yield from switch(ns, cpu, pair.group(1, 2), pair[3].startswith("R"), pair.group(4, 5))
    elif found["event"] == "sched_wakeup" and (woken := WAKEUP.match(text)):
        yield Seen(ns, cpu, "release", woken.group(1, 2))
    else:
        yield from mark_of(text, ns, cpu, found.group("comm", "pid"))


def switch(ns, cpu, before, is_ready, after):
    """A job ends whose thread isn't ready any more."""
    if not is_ready:
        yield Seen(ns, cpu, "end", before)
    yield Seen(ns, cpu, "switch", after)


CLOCK = r"\[(?:[\d-]+ )?(?:(\d+):(\d+):)?(\d+\.\d+)\]"
BABELTRACE = re.compile(CLOCK + r" (?:\([^)]*\) )?(?:[\w.-]+ )?(?:\w+:)?(\w+): (.*)")
FIELD = re.compile(r'(\w+) = (?:"([^"]*)"|\( "?([^:]*?)"? : container = \d+ \)|(-?\w+))')
# The states of a thread that was preempted: newer kernels have one above all others.
READY = ("0", "256", "TASK_RUNNING", "TASK_REPORT_MAX", "TASK_STATE_MAX")
# A stream's name ends in its CPU.
DISCARDED = re.compile(r".* between " + CLOCK + r'.* within stream "[^"]*?(\d*)"')


def read_babeltrace(lines, of_event):
    """Lines of babeltrace2. It says on standard error what was lost, and since when."""
    ns = None
    for line in lines:
        if lost := DISCARDED.match(line):
            ns = clock(lost, ns)
            yield Seen(ns, int(lost[4] or 0), "lost")
        elif found := BABELTRACE.match(line):
            ns = clock(found, ns)
            fields = {name: text or word or number for name, text, word, number in FIELD.findall(found[5])}
            cpu = int(fields.get("cpu_id", fields.get("cpu", 0)))
            yield from of_event(ns, cpu, found[4], fields, found[5])


def clock(found, last):
    """The time of a line. A clock of hours begins anew at midnight: it is within half a day of the last line's."""
    minutes = 60 * int(found[1] or 0) + int(found[2] or 0)
    ns = time_of(found[3], "s") + minutes * 60 * UNITS["s"]
    return ns if last is None or not found[1] else ns + (last - ns + DAY // 2) // DAY * DAY


def of_lttng(ns, cpu, event, fields, text):
    def thread(which):
        return fields.get(f"{which}comm", ""), fields.get(f"{which}tid", fields.get(f"{which}pid", ""))
    if event == "sched_switch":
        yield from switch(ns, cpu, thread("prev_"), fields["prev_state"] in READY, thread("next_"))
    elif event == "sched_wakeup":
        yield Seen(ns, cpu, "release", thread(""))
    else:
        own = fields.get("procname", ""), fields.get("vtid", fields.get("perf_tid", ""))
        yield from mark_of(text, ns, cpu, own)


def of_zephyr(ns, cpu, event, fields, text):
    thread = fields.get("name", ""), fields.get("thread_id", "")
    if event == "thread_ready":
        yield Seen(ns, cpu, "release", thread)
    elif event in ("thread_sleep_enter", "thread_pend", "thread_pending", "thread_suspend"):
        yield Seen(ns, cpu, "end", thread if any(thread) else ())
    elif event in ("thread_switched_in", "idle"):
        yield Seen(ns, cpu, "switch", ("idle",) if event == "idle" else thread)
    else:
        yield from mark_of(text, ns, cpu, ())


LITMUS = re.compile(r"(\w+)\s+(\d+)/\d+\s+on CPU\s*(\d+)\s+([\d.]+(?:ns|us|ms)?)"
                    r"(?:.*?deadline[=:]\s*([\d.]+(?:ns|us|ms)?))?(?:.*?action[=:]\s*(\d+))?")


def read_litmus(lines, options):
    """Lines of LITMUS^RT's records. A switch away counts only if the CPU's next record isn't a switch to a job."""
    away = {}
    for line in lines:
        found = LITMUS.match(line.strip())
        if not found:
            continue
        event, pid, cpu, ns = found[1].upper(), (found[2],), int(found[3]), time_of(found[4], options.unit)
        left = away.pop(cpu, None)
        if left and event != "SWITCH_TO":
            yield left
        if event == "RELEASE":
            yield Seen(ns, cpu, "release", pid, num=found[5] and str(time_of(found[5], options.unit)) or "")
        elif event == "ACTION" and found[6] in options.names.actions:
            yield Seen(ns, cpu, options.names.actions[found[6]][0], pid, options.names.actions[found[6]][1])
        elif event == "SWITCH_AWAY":
            away[cpu] = Seen(ns, cpu, "switch", ("idle",))
        elif event in ("SWITCH_TO", "COMPLETION"):
            yield Seen(ns, cpu, "switch" if event == "SWITCH_TO" else "end", pid)


HOOKS = {"TASK_SWITCHED_IN": "switch", "MOVED_TASK_TO_READY_STATE": "release", "TASK_DELAY": "end",
         "TASK_DELAY_UNTIL": "end", "TASK_SUSPEND": "end"}


def read_freertos(lines, options):
    """Rows of FreeRTOS's trace hooks. A gap in the column seq is a loss."""
    rows, last = csv.DictReader(lines, skipinitialspace=True), {}
    options.shows_losses = "seq" in (rows.fieldnames or ())
    for row in rows:
        ns, cpu, seq = time_of(row["time"], options.unit), int(row.get("core") or 0), row.get("seq")
        if seq and int(seq) > last.get(cpu, int(seq) - 1) + 1:
            yield Seen(None, cpu, "lost", num=str(int(seq) - last[cpu] - 1))
        if seq:
            last[cpu] = int(seq)
        thread = (row["task"],) if row["task"] else ()
        yield Seen(ns, cpu, HOOKS.get(row["event"], row["event"]), thread, row.get("object") or "")


def read_log(lines, options):
    """The records of a log, with the offsets of their clocks, in the order of their times; a core's own stay in theirs."""
    rows, latest, found = (row for row in csv.reader(lines) if row), Counter(), []
    if next(rows, None) != ["msrp-log", "1", str(options.names.cores)]:
        raise ValueError(f"a log of this system begins with msrp-log,1,{options.names.cores}")
    for row in rows:
        if len(row) != 8:
            raise ValueError("a record has 8 fields")
        record = moved(Record(int(row[0]), int(row[1]), *row[2:]), options.offsets.get(int(row[1]), 0))
        latest[record.core] = max(latest[record.core], record.ns)
        found.append((latest[record.core], record))
    options.shows_losses = any(record.seq for _, record in found)
    return [record for _, record in sorted(found, key=lambda pair: pair[0])]


FORMS = {
    "trace-cmd": read_linux,
    "perf": read_linux,
    "lttng": lambda lines, _: read_babeltrace(lines, of_lttng),
    "zephyr": lambda lines, _: read_babeltrace(lines, of_zephyr),
    "litmus": read_litmus,
    "freertos": read_freertos,
}
# The forms in which a loss shows: then the records of the log are numbered.
WITH_LOSSES = ("trace-cmd", "perf", "lttng")


# ---- the log

class Names:
    """The system's tasks, and what the map says."""

    def __init__(self, system, of_map):
        records = records_of(system)
        if records[:1] != [["msrp-system", "1"]]:
            fail(f"{system}: a system's text begins with msrp-system,1")
        rows = records_of(of_map) if of_map else []
        try:
            self.cores = next(int(record[1]) for record in records if record[0] == "cores")
            self.core = {record[1]: int(record[2]) for record in records if record[0] == "task"}
            self.deadline = {record[1]: int(record[3]) for record in records if record[0] == "task"}
            self.threads = {row[1]: row[2] for row in rows if row[0] == "thread"}
            self.cpus = {int(row[1]): int(row[2]) for row in rows if row[0] == "cpu"}
            self.actions = {row[1]: (row[2], row[3]) for row in rows if row[0] == "action"}
        except (IndexError, StopIteration, ValueError) as wrong:
            fail(f"{system}, {of_map or 'no map'}: a record lacks something: {wrong}")
        for task in sorted(set(self.threads.values()) - set(self.core)):
            fail(f"{of_map}: the system has no task {task}")
        self.name_of = {}

    def task(self, thread):
        """The task that a thread has, by its name or its PID, or none. A record may have the PID alone."""
        if len(thread) == 2 and all(thread) and thread[0] != FORGOTTEN:
            self.name_of[thread[1]] = thread[0]
        names = [*thread, *(self.name_of[name] for name in thread if name in self.name_of)]
        return next((task for task in (self.threads.get(name, name) for name in names) if task in self.core), None)


class Log:
    """The records of a trace. Jobs are counted by the releases and ends of their tasks."""

    def __init__(self, names):
        self.names, self.released, self.ended, self.running = names, Counter(), Counter(), {}

    def core(self, seen, task=None):
        """The core of a CPU. What another CPU does to a task, such as a wake-up, belongs to the task's core."""
        core = self.names.cpus.get(seen.cpu) if self.names.cpus else seen.cpu
        if core in range(self.names.cores):
            return core
        if task and seen.event == "switch":
            fail(f"{task} runs on CPU {seen.cpu}, which is no core; see --map")
        return self.names.core.get(task)

    def records(self, seen):
        if seen.event in OF_ALL:
            return [Record(seen.ns, core, seen.event) for core in range(self.names.cores)]
        task = self.names.task(seen.thread) or (None if seen.thread else self.running.get(self.core(seen)))
        core = self.core(seen, task)
        if seen.event == "lost":
            return [Record(seen.ns, core or 0, "lost", num=seen.num)]
        if seen.event == "switch":
            return self.switched(seen, core, task)
        if task is None:
            return []
        return [self.release(seen, core, task) if seen.event == "release" else self.step(seen, core, task)]

    def switched(self, seen, core, task):
        """A thread that is no task's, such as the kernel's own, only interrupts the job."""
        is_idle = any(IDLE.fullmatch(name) for name in seen.thread)
        if task == self.running.get(core) or not (task or is_idle):
            return []
        self.running[core] = task
        return [Record(seen.ns, core, "switch", task, self.ended[task]) if task else Record(seen.ns, core, "switch")]

    def release(self, seen, core, task):
        self.released[task] += 1
        deadline = seen.num or seen.ns + self.names.deadline[task]
        return Record(seen.ns, core, "release", task, self.released[task] - 1, "", deadline)

    def step(self, seen, core, task):
        job = self.ended[task]
        if seen.event == "end":
            self.ended[task] += 1
            self.running[core] = None
        return Record(seen.ns, core, seen.event, task, job, seen.res, seen.num)


def moved(one, offset):
    """With its time and, if it tells one, its absolute deadline by a clock with this offset."""
    told = one.event == "release" and one.num
    return one._replace(ns=one.ns + offset, num=str(int(one.num) + offset) if told else one.num)


def timed(seen, offsets):
    """With the offsets of the CPUs. A loss has the time of the next record of its CPU, else of the last one, else of the
    last one of all CPUs."""
    lost, last = [], {}
    for one in seen:
        if one.ns is None:
            lost.append(one)
            continue
        one = moved(one, offsets.get(one.cpu, 0))
        last[one.cpu] = one.ns
        yield from (loss._replace(ns=one.ns) for loss in lost if loss.cpu == one.cpu)
        lost = [loss for loss in lost if loss.cpu != one.cpu]
        yield one
    end = max(last.values(), default=0)
    yield from (loss._replace(ns=last.get(loss.cpu, end)) for loss in lost)


def of_log(seen):
    """From the mark of the beginning on, and in the order of the times; without what marks say better."""
    marked = {one.event for one in seen if one.is_mark}
    seen = sorted((one for one in seen if one.is_mark or one.event not in marked), key=lambda one: one.ns)
    begin = next((place for place, one in enumerate(seen) if one.event == "boot"), 0)
    return seen[begin:]


def booted(records, names):
    """With a boot of each core at the beginning, unless the trace has marks of it. If a job acts before it is released,
    the trace begins too late, and no core has a boot: then the auditor says that the start is missing."""
    first = {}
    for record in records:
        first.setdefault(record.task, record.event)
    first.pop("", None)
    if set(first.values()) - {"release"}:
        return [record for record in records if record.event != "boot"]
    if not records or records[0].event == "boot":
        return records
    return [Record(records[0].ns, core, "boot") for core in range(names.cores)] + records


class Order:
    """The order of the records of all cores: by their times, but for what one record shows of another. A request
    follows the one with the ticket before. If a resource is held, an acquire follows the event that frees it, and what
    a job does follows its release, unless that is later by more than the clocks may differ."""

    def __init__(self, records, skew):
        self.skew, self.holders, self.frees = skew, Counter(), {}
        self.asked = {(one.res, int(one.num)) for one in records if one.event == "request" and one.num}
        self.releases = {(one.task, one.job): one for one in records if one.event == "release"}
        for one in records:
            if one.event == "freed":
                self.frees.setdefault(one.res, deque()).append(one.ns)

    def waits(self, one):
        if one.event == "request" and one.num:
            return (one.res, int(one.num) - 1) in self.asked
        release = self.releases.get((one.task, one.job), one)
        if release.core != one.core and release.ns <= one.ns + self.skew:
            return True
        frees = self.frees.get(one.res)
        return one.event == "acquire" and self.holders[one.res] > 0 and bool(frees) and frees[0] <= one.ns + self.skew

    def note(self, one):
        self.holders[one.res] += {"acquire": 1, "freed": -1}.get(one.event, 0)
        if one.event == "release":
            self.releases.pop((one.task, one.job), None)
        if one.event == "freed":
            self.frees[one.res].popleft()
        if one.event == "request" and one.num:
            self.asked.discard((one.res, int(one.num)))

    def of(self, records):
        queues = [deque(pair for pair in enumerate(records) if pair[1].core == core) for core in {one.core for one in records}]
        while any(queues):
            _, one = min(filter(None, queues), key=lambda queue: (self.waits(queue[0][1]), queue[0][0])).popleft()
            self.note(one)
            yield one


def numbered(records):
    """Each record with its number among those of its core."""
    count = Counter()
    for record in records:
        count[record.core] += 1
        yield record._replace(seq=count[record.core])


def write(records, cores, out):
    print("msrp-log", 1, cores, sep=",", file=out)
    for record in records:
        print(*record, sep=",", file=out)


def offset_of(text):
    cpu, _, time = text.partition(":")
    if not cpu.isdigit():
        raise argparse.ArgumentTypeError(f"{text!r} isn't CPU:TIME, such as 1:+7us")
    return int(cpu), time_of(time)


class Lines:
    """The lines of a file, and the number of the last one."""

    def __init__(self, file):
        self.file, self.number = file, 0

    def __iter__(self):
        for self.number, line in enumerate(self.file, 1):
            yield line


def traced(options, lines):
    """The records of a trace, in the order of their times."""
    seen = list(timed(FORMS[options.form](lines, options), options.offsets))
    if not seen:
        raise ValueError(f"no line has the form {options.form}")
    log = Log(options.names)
    return booted([record for one in of_log(seen) for record in log.records(one)], options.names)


def log_of(options, lines):
    """The records of the log. Says in options whether losses show."""
    options.shows_losses, options.offsets = options.form in WITH_LOSSES, dict(options.offset)
    if options.form == "log":
        records = read_log(lines, options)
        return Order(records, options.skew).of(records)
    records = traced(options, lines)
    ordered = Order(records, options.skew).of(records)
    return numbered(ordered) if options.shows_losses else ordered


def main():
    parser = argparse.ArgumentParser(description=__doc__, formatter_class=argparse.RawDescriptionHelpFormatter)
    parser.add_argument("form", choices=(*FORMS, "log"))
    parser.add_argument("--map")
    parser.add_argument("--offset", type=offset_of, action="append", default=[])
    parser.add_argument("--skew", type=time_of, default=0)
    parser.add_argument("--unit", choices=("ns", "us"), default="ns")
    parser.add_argument("system")
    parser.add_argument("trace", nargs="?", default="-")
    options = parser.parse_args()
    signal.signal(signal.SIGPIPE, signal.SIG_DFL)  # the auditor may end at a fault
    options.names = Names(options.system, options.map)
    with opened(options.trace) as file:
        lines = Lines(file)
        try:
            records = log_of(options, lines)
        except (argparse.ArgumentTypeError, ValueError, KeyError, csv.Error) as wrong:
            fail(f"{options.trace}:{lines.number}: {wrong}")
    if not options.shows_losses:
        print("trace_log.py: this trace can't show losses: a lost event would look like a fault", file=sys.stderr)
    write(records, options.names.cores, sys.stdout)


if __name__ == "__main__":
    main()
