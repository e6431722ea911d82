#!/usr/bin/env python3
"""Simulates a kernel under the Multiprocessor Stack Resource Policy, and writes its log.

usage: kernel_log.py [--tick NS] [--time NS] [--seed N] [--operation NS] [--switch NS]
                     [--jitter NS] [--handover NS] [--offsets NS] [--stretch N] [--bug NAME]
                     PLAN > LOG

PLAN is a plan of periodic tasks, as msrp reads it; one of its ticks lasts --tick ns. The log begins
with 'msrp-log,1,CORES', and has a record ns,core,event,task,job,res,num,seq for each event.

A job takes 40 to 100 percent of its work, and its release is up to --jitter ns late. The kernel
reacts to a freed resource after --handover ns. A switch adds --switch ns to the work of the next
job. --stretch makes critical sections longer, and --offsets delays each task by up to this time.

A bug begins after a third of the time. Once the log shows it, the kernel reports on standard error
which record shows it first, and its rule in docs/LOG.md. The bugs:

  priority  of the waiting jobs, the one with the earliest deadline acquires the resource
  lifo      of the waiting jobs, the last one acquires the resource
  two       a request acquires a resource that another job holds
  preempt   a job that waits for a global resource or holds one is preempted
  early     a job starts before its release
  resume    the core doesn't switch after an unlock
  lost      no job acquires a resource that was freed
  ceiling   an unlock doesn't lower the ceiling
"""
import argparse
import heapq
import random
import signal
import sys

BUGS = ("priority", "lifo", "two", "preempt", "early", "resume", "lost", "ceiling")


def fail(text):
    sys.exit(f"kernel_log.py: {text}")


class Task:
    def __init__(self, number, name, core, period, deadline, offset):
        self.number, self.name, self.core = number, name, core
        self.period, self.deadline, self.offset = period, deadline, offset
        self.work, self.steps = [0], []          # work[i] comes before steps[i]


class Job:
    def __init__(self, task, k, due, work):
        self.task, self.k, self.due, self.work = task, k, due, work
        self.key = (due, due - task.deadline, task.number, k)
        self.step, self.held, self.waits = 0, [], None
        self.left = work[0]


class Core:
    def __init__(self, number):
        self.number, self.ready, self.started = number, [], []
        self.run, self.since, self.turn, self.busy, self.records, self.stuck = None, 0, 0, 0, 0, 0


class Plan:
    def __init__(self, path, tick, stretch):
        self.tasks, self.cores, self.depth = [], 0, 0
        try:
            with open(path, encoding="utf-8-sig") as plan:
                lines = plan.read().splitlines()
        except OSError as wrong:
            fail(f"cannot read {path}: {wrong.strerror}")
        except UnicodeDecodeError:
            fail(f"{path}: the text isn't UTF-8")
        if lines[:1] != ["msrp,1"]:
            fail(f"{path}: a plan of periodic tasks begins with msrp,1")
        for number, line in enumerate(lines, 1):
            try:
                self.read(line.split(","), tick, stretch)
            except (ValueError, IndexError, TypeError):
                fail(f"{path}:{number}: [{line}] isn't a record of a plan; msrp_view --why says more")
        if any(task.core >= self.cores for task in self.tasks):
            fail(f"{path}: a task has a core that the plan doesn't have")
        deadlines = {task.deadline for task in self.tasks}
        for task in self.tasks:
            task.level = 1 + sum(longer > task.deadline for longer in deadlines)
        users = {}
        for task in self.tasks:
            for _, res in task.steps:
                users.setdefault(res, []).append(task)
        self.shared = {res for res, its in users.items() if len({task.core for task in its}) > 1}
        self.ceiling = {res: max(task.level for task in its) for res, its in users.items()}
        self.top = {c: max((t.level for t in self.tasks if t.core == c), default=0) for c in range(self.cores)}


    def read(self, f, tick, stretch):
        """Adds what a record of the plan says."""
        if f[0] == "cores":
            self.cores = int(f[1])
        elif f[0] == "task":
            self.tasks.append(Task(len(self.tasks), f[1], int(f[2]), *[int(n) * tick for n in f[3:6]]))
            self.depth = 0
        elif f[0] == "op" and f[1] == "run":
            self.tasks[-1].work[-1] += int(f[2]) * tick * (stretch if self.depth else 1)
        elif f[0] == "op":
            self.tasks[-1].steps.append((f[1], f[2]))
            self.tasks[-1].work.append(0)
            self.depth += 1 if f[1] == "lock" else -1


class Kernel:
    def __init__(self, plan, options):
        self.plan, self.o, self.random = plan, options, random.Random(options.seed)
        self.cores = [Core(c) for c in range(plan.cores)]
        self.holder, self.queue, self.tickets = {}, {}, {}
        self.agenda, self.order, self.now = [], 0, 0
        self.bug_at, self.records, self.owes, self.shown = options.time // 3, 1, {}, None

    def at(self, time, what, *args):
        self.order += 1
        heapq.heappush(self.agenda, (time, self.order, what, args))

    def bug(self, name):
        return self.o.bug == name and self.now >= self.bug_at

    # ---- the log, and what it shows
    def show(self, rule):
        """The next record shows that the rule is violated."""
        self.shown = self.shown or (self.records + 1, rule)

    def owe(self, what, is_owed, wait, rule):
        """From now on, if not before, somebody must do something within this time."""
        if is_owed:
            self.owes.setdefault(what, (self.now + wait, rule))
        else:
            self.owes.pop(what, None)

    def log(self, core, event, job=None, res="", num=""):
        for _, rule in sorted((rule, rule) for until, rule in self.owes.values() if until < self.now):
            self.show(rule)
        self.records += 1
        core.records += 1
        print(self.now, core.number, event, job.task.name if job else "", job.k if job else "", res, num, core.records, sep=",")

    # ---- the policy
    def ceiling(self, core):
        for job in core.started:
            if job.waits or any(res in self.plan.shared for res in job.held):
                return self.plan.top[core.number]
        return max([0] + [self.plan.ceiling[res] for job in core.started for res in job.held])

    def choice(self, core, ceiling):
        head = min(core.ready, key=lambda job: job.key, default=None)
        first = min(core.started, key=lambda job: job.key, default=None)
        if head and head.task.level > ceiling and (not first or head.key < first.key):
            return head
        return first

    def wrong_ceiling(self, core):
        """The ceiling that the kernel uses, with its bug."""
        if self.bug("preempt"):
            return max([0] + [self.plan.ceiling[r] for j in core.started for r in j.held if r not in self.plan.shared])
        return max(self.ceiling(core), core.stuck)

    # ---- what a core does
    def halt(self, core):
        """The running job stops working."""
        core.turn += 1
        if core.run and not core.run.waits:
            core.run.left -= max(0, self.now - core.since)

    def go(self, core, delay=0):
        """The running job works on, if it has work."""
        job = core.run
        core.turn += 1
        core.since = self.now + delay
        if job and not job.waits:
            self.at(core.since + max(0, job.left), "worked", core, core.turn)

    def schedule(self, core):
        due = self.choice(core, self.ceiling(core))
        job = self.choice(core, self.wrong_ceiling(core))
        if job is not core.run:
            self.switch(core, job, due)
        # the core should run this job until it does
        self.owe(core, core.run is not self.choice(core, self.ceiling(core)), self.o.handover, "E1")

    def switch(self, core, job, due):
        self.halt(core)
        if job is not due:
            self.show("E8")
        self.log(core, "switch", job)
        core.run = job
        if job in core.ready:
            core.ready.remove(job)
            core.started.append(job)
        self.go(core, self.o.switch)

    def worked(self, core, turn):
        if core.turn != turn:
            return
        job = core.run
        if job.step == len(job.task.steps):
            return self.end(core, job)
        what, res = job.task.steps[job.step]
        job.left = job.work[job.step + 1]
        if what == "lock" and res in self.plan.shared:
            return self.request(core, job, res)
        self.log(core, {True: "freed"}.get(res in self.plan.shared and what == "unlock", what), job, res)
        job.step += 1
        job.held = job.held + [res] if what == "lock" else job.held[:-1]
        if what == "unlock" and res in self.plan.shared:
            self.free(res)
        if what == "unlock" and self.bug("ceiling"):
            core.stuck = max(core.stuck, self.plan.top[core.number] if res in self.plan.shared else self.plan.ceiling[res])
        self.operated(core, what == "unlock" and self.bug("resume"))

    def free(self, res):
        self.holder[res] = None
        if not self.bug("lost"):
            self.at(self.now + self.o.handover, "grant", res)
        elif self.queue.get(res):
            self.owe(res, True, self.o.operation + self.o.handover, "E2")

    def operated(self, core, stays=False):
        """An operation takes its time; then the core may switch."""
        core.busy = self.now + self.o.operation
        self.go(core, self.o.operation)
        self.at(core.busy, "stay" if stays else "look", core)

    def stay(self, core):
        """The core should switch now, but doesn't."""
        self.owe(core, core.run is not self.choice(core, self.ceiling(core)), self.o.handover, "E1")

    def look(self, core):
        """The core switches, unless an operation isn't over: it looks again after that."""
        if core.busy > self.now:
            return self.at(core.busy, "look", core)
        self.schedule(core)

    def request(self, core, job, res):
        self.tickets[res] = self.tickets.get(res, 0) + 1
        job.waits, job.ticket = res, self.tickets[res]
        core.turn += 1
        self.log(core, "request", job, res, job.ticket)
        self.queue.setdefault(res, []).append((core, job))
        free = not self.holder.get(res) and len(self.queue[res]) == 1
        if free or self.bug("two"):
            self.acquire(res, len(self.queue[res]) - 1)
        elif self.bug("lost") and not self.holder.get(res):
            self.owe(res, True, self.o.operation + self.o.handover, "E2")

    def grant(self, res):
        line = self.queue.get(res)
        if line and not self.holder.get(res):
            place = 0
            if self.bug("lifo"):
                place = len(line) - 1
            if self.bug("priority"):
                place = min(range(len(line)), key=lambda n: line[n][1].key)
            self.acquire(res, place)

    def acquire(self, res, place):
        core, job = self.queue[res].pop(place)
        if place or self.holder.get(res):
            self.show("E10")
        self.log(core, "acquire", job, res, job.ticket)
        self.holder[res] = job
        self.owes.pop(res, None)
        job.waits, job.step, job.held = None, job.step + 1, job.held + [res]
        self.operated(core, True)

    def end(self, core, job):
        self.log(core, "end", job)
        core.started.remove(job)
        core.run, core.stuck = None, 0
        self.schedule(core)

    def release(self, task, k):
        core = self.cores[task.core]
        part = self.random.randint(40, 100)
        job = Job(task, k, task.offset + k * task.period + task.deadline, [w * part // 100 for w in task.work])
        self.at(task.offset + (k + 1) * task.period + self.random.randint(0, self.o.jitter), "release", task, k + 1)
        if self.bug("early") and not core.run and self.shown is None:
            # its timer fires early: it starts, and is released afterwards
            self.show("E5")
            self.log(core, "switch", job)
        self.log(core, "release", job, "", job.due)
        core.ready.append(job)
        self.look(core)

    def simulate(self):
        print("msrp-log,1," + str(self.plan.cores))
        for core in self.cores:
            self.log(core, "boot")
        for task in self.plan.tasks:
            task.offset += self.random.randint(0, self.o.offsets)
            self.at(task.offset + self.random.randint(0, self.o.jitter), "release", task, 0)
        while self.agenda and self.agenda[0][0] <= self.o.time:
            self.now, _, what, args = heapq.heappop(self.agenda)
            getattr(self, what)(*args)
        self.now = self.o.time
        for core in self.cores:
            self.log(core, "stop")
        if self.shown:
            print("record {} shows {}".format(*self.shown), file=sys.stderr)


if __name__ == "__main__":
    signal.signal(signal.SIGPIPE, signal.SIG_DFL)  # head may close the pipe
    words = argparse.ArgumentParser(description=__doc__, formatter_class=argparse.RawDescriptionHelpFormatter)
    defaults = {"tick": 10_000, "time": 20_000_000, "seed": 1, "operation": 250, "switch": 1800, "jitter": 4000, "handover": 120, "offsets": 0, "stretch": 1}
    for name, number in defaults.items():
        words.add_argument("--" + name, type=int, default=number)
    words.add_argument("--bug", choices=BUGS)
    words.add_argument("plan")
    given = words.parse_args()
    Kernel(Plan(given.plan, given.tick, given.stretch), given).simulate()
