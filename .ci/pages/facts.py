"""What a page has to show of a trace, worked out from the texts of plan and trace in another way than the program does."""
import re
from collections import defaultdict

KINDS = "idle run lock unlock take queue spin grant release".split()
GETS, GIVES, WAITS = ("lock", "take", "grant"), ("unlock", "release"), ("queue", "spin")
RUNS, DOES, HOLDS, FIRST, LIFE, LATE, CEILING = range(7)
RELEASE, DEADLINE, COMPLETION = range(3)


class Plan:
    """A plan, read from its text."""

    def __init__(self, text):
        self.tasks, self.resources = [], []
        for word, *rest in (line.split(",") for line in text.splitlines()):
            if word in ("cores", "ticks"):
                setattr(self, word, int(rest[0]))
            elif word == "resource":
                self.resources.append(rest[0])
            elif word == "task":
                core, period, deadline, offset = map(int, rest[1:])
                self.tasks.append(task := dict(name=rest[0], core=core, deadline=deadline, releases=list(range(offset, self.ticks, period)), ops=[]))
            elif word == "listed":
                self.tasks.append(task := dict(name=rest[0], core=int(rest[1]), deadline=int(rest[2]), releases=[], ops=[]))
            elif word == "release":
                task["releases"] += [tick for tick in map(int, rest) if tick < self.ticks]
            elif word == "op":
                task["ops"].append(rest)
        self.derive()

    def derive(self):
        deadlines = {task["deadline"] for task in self.tasks}
        for task in self.tasks:
            task["units"] = sum(int(op[1]) if op[0] == "run" else 1 for op in task["ops"])
            task["level"] = 1 + sum(task["deadline"] < other for other in deadlines)
            task["used"] = {op[1] for op in task["ops"] if op[0] == "lock"}
        self.shared = {name for name in self.resources if len({task["core"] for task in self.tasks if name in task["used"]}) > 1}
        self.tops = [max([0, *(task["level"] for task in self.tasks if task["core"] == core)]) for core in range(self.cores)]
        self.ceilings = {name: max([0, *(task["level"] for task in self.tasks if name in task["used"])]) for name in self.resources}
        self.numbers = {task["name"]: number for number, task in enumerate(self.tasks)}

    def sections(self, task):
        """The sections of a task as (resource, units after the lock, resources requested inside), the outermost marked."""
        open_, done, units = [], [], 0
        for op in task["ops"]:
            if op[0] == "unlock":
                units += 1
                res, begun, inner = open_.pop()
                done.append((res, units - begun, inner, not open_))
            elif op[0] == "lock":
                units += 1
                open_.append((op[1], units, []))
                for section in open_:
                    section[2].append(op[1])
            else:
                units += int(op[1])
        return done

    def spin_bound(self, res, core):
        longest = defaultdict(int)
        for task in self.tasks:
            for name, units, _, _ in self.sections(task):
                if name == res and task["core"] != core:
                    longest[task["core"]] = max(longest[task["core"]], units)
        return sum(units + 1 for units in longest.values())

    def bounds(self, task):
        spin = max([0, *(self.spin_bound(res, task["core"]) for res in task["used"] & self.shared)])
        blocked = 0
        for other in self.tasks:
            if other["core"] == task["core"] and other["deadline"] > task["deadline"]:
                for res, units, inner, outermost in self.sections(other):
                    if outermost:
                        blocked = max(blocked, units + sum(1 + self.spin_bound(name, task["core"]) for name in inner if name in self.shared))
        return spin, blocked


class Page:
    """The data of a page: see docs/EXPORTS.md."""

    def __init__(self, plan, trace, fault, why="", tick=None):
        self.plan, self.groups = plan, []
        numbered = [(number, line) for number, line in enumerate(trace.splitlines(), 1) if line][1:]
        rows = [line.replace('"', "").split(",") for _, line in numbered]
        quotes = [number for number, line in numbered if '"' in line]  # In quotes there may be ends of lines: those of the rows behind are not known.
        self.numbers = [number if not quotes or number <= quotes[0] else 0 for number, _ in numbered]
        self.rows = [(int(r[0]), int(r[1]), r[2], (plan.numbers[r[3]], int(r[4])) if r[3] != "-" else None, plan.resources.index(r[5]) if r[5] != "-" else None) for r in rows]
        legal = len(rows) if fault is None else min(len(rows), fault[0] - 1)
        self.legal, self.later = self.rows[:legal], self.rows[legal:]
        self.begun = -(-legal // plan.cores)
        self.own = defaultdict(list)
        self.of_task, self.of_core, self.on = defaultdict(list), defaultdict(list), defaultdict(list)
        for row in self.legal:
            self.own[row[3]].append(row)
            self.of_task[row[3][0] if row[3] else None].append(row)
            self.of_core[row[1]].append(row)
            self.on[row[4]].append(row)
        self.lives()
        for core in range(plan.cores):
            self.stretches(RUNS, core, [(r[0], r[3]) for r in self.of_core[core] if r[3]], 1)
            self.stretches(RUNS, core, [(r[0], r[3]) for r in self.later if r[1] == core and r[3]], 0)
            self.ceilings(core)
        for number in range(len(plan.tasks)):
            for rows_, is_legal in ((self.of_task[number], 1), (self.later, 0)):
                values = [(r[0], (r[3][1], KINDS.index(r[2]), 0 if r[4] is None else r[4] + 1)) for r in rows_ if r[3] and r[3][0] == number]
                self.stretches(DOES, number, values, is_legal)
            self.sections(number)
        for number, name in enumerate(plan.resources):
            if name in plan.shared:
                self.queue(number)
        self.data = dict(cores=plan.cores, ticks=plan.ticks, unit=tick,
                         tasks=[[t["name"], t["core"], t["deadline"], t["level"]] for t in plan.tasks],
                         resources=[[name, int(name in plan.shared)] for name in plan.resources],
                         fault=list(fault) if fault else None, broken=self.broken(fault), why=why,
                         order="".join(str(row[1]) for row in self.legal), lines=self.lines(self.numbers),
                         report=[self.line(number) for number in range(len(plan.tasks))], blocks=self.groups, events=self.events())

    def lines(self, numbers):
        """The rows that aren't a line after the row before, with their lines."""
        return [[row, line] for row, (before, line) in enumerate(zip([0, *numbers], numbers), 1) if line != (before + 1 if line or before else 0)]

    def broken(self, fault):
        if not fault or not self.later:
            return None
        tick, core, kind, job, res = self.later[0]
        return [tick, core, KINDS.index(kind), *([job[0] + 1, job[1]] if job else [0, 0]), 0 if res is None else res + 1]

    def add(self, look, lane, is_legal, first, end, *values):
        """A block, in the group of the last one where it is of its kind and doesn't begin before it."""
        if not (max(first, 0) < min(end, self.plan.ticks)):
            return
        if not self.groups or self.groups[-1][:3] != [look, lane, is_legal] or first < self.last:
            self.groups.append([look, lane, is_legal])
            self.last = 0
        self.groups[-1] += [first - self.last, end - first, *values]
        self.last = first

    def stretches(self, look, lane, values, is_legal):
        found = []
        for tick, value in values:
            if found and found[-1][1] == tick and found[-1][2] == value:
                found[-1][1] = tick + 1
            else:
                found.append([tick, tick + 1, value])
        for first, end, value in found:
            self.add(look, lane, is_legal, first, end, *value)

    def ceilings(self, core):
        held, values = set(), []
        for tick, _, kind, _, res in self.of_core[core]:
            if kind in GETS or kind in WAITS:
                held.add(res)
            if kind in GIVES:
                held.discard(res)
            names = [self.plan.resources[number] for number in held]
            level = max([0, *(self.plan.tops[core] if name in self.plan.shared else self.plan.ceilings[name] for name in names)])
            if level:
                values.append((tick, (level,)))
        self.stretches(CEILING, core, values, 1)

    def sections(self, number):
        ends, found = {}, []
        for tick, _, kind, job, res in self.of_task[number]:
            if kind in GETS:
                ends[job, res] = len(found)
                found.append([tick, self.begun, job, res])
            if kind in GIVES and (job, res) in ends:
                found[ends.pop((job, res))][1] = tick + 1
        for first, end, job, res in found:
            self.add(HOLDS, number, 1, first, end, job[1], res)

    def queue(self, number):
        queue, values, in_tick = [], [], defaultdict(list)
        for row in self.on[number]:
            in_tick[row[0]].append(row)
        for tick in range(self.begun):
            for _, _, kind, job, _ in in_tick[tick]:
                if kind in ("take", "queue"):
                    queue.append(job)
                if kind == "release":
                    queue.pop(0)
            if queue:
                values.append((tick, (*queue[0], len(queue) - 1)))
        self.stretches(FIRST, number, values, 1)

    def lives(self):
        self.all = []
        for number, task in enumerate(self.plan.tasks):
            for k, release in enumerate(task["releases"]):
                own = self.own[number, k]
                finished = sum(row[2] not in WAITS for row in own) == task["units"]
                end = own[-1][0] + 1 if finished else self.begun
                self.all.append((number, k, release, release + task["deadline"], end, finished))
        for number, k, release, _, end, finished in self.all:
            self.add(LIFE, number, 1, release, end, k, int(finished))
        for number, k, _, deadline, end, _ in self.all:
            self.add(LATE, number, 1, deadline, end, k)

    def events(self):
        groups, last = [], 0
        for moment, at, shown in ((RELEASE, 2, lambda life: True), (DEADLINE, 3, lambda life: True), (COMPLETION, 4, lambda life: life[5])):
            for life in self.all:
                if shown(life) and life[at] <= self.plan.ticks:
                    if not groups or groups[-1][:2] != [moment, life[0]] or life[at] < last:
                        groups.append([moment, life[0]])
                        last = 0
                    groups[-1] += [life[at] - last, life[1]]
                    last = life[at]
        return groups

    def waits(self, own):
        """The spin rows of each wait of a job."""
        found = [0]
        for row in own:
            if row[2] == "queue":
                found.append(0)
            found[-1] += row[2] == "spin"
        return found

    def line(self, number):
        """What the report has of a task, where only the rows before the fault are counted."""
        task, lives = self.plan.tasks[number], [life for life in self.all if life[0] == number]
        response = [life[4] - life[2] for life in lives if life[5]]
        late = sum(life[4] > life[3] if life[5] else life[3] <= self.plan.ticks for life in lives)
        waits = [self.waits(self.own[number, life[1]]) for life in lives]
        blocked = [self.blocked(task, life) for life in lives]
        return [len(lives), len(response), late, max([0, *response]), sum(map(sum, waits)), max([0, *(max(wait) for wait in waits)]),
                sum(blocked), max([0, *blocked]), *self.plan.bounds(task)]

    def blocked(self, task, life):
        """The rows of the core's jobs with a later key, from the release on until the job is finished."""
        if not hasattr(self, "running"):
            self.running = {(row[0], row[1]): row[3] for row in self.legal}
        key, count = (life[3], life[2], life[0], life[1]), 0
        for tick in range(life[2], life[4]):
            job = self.running.get((tick, task["core"]))
            if job:
                other = self.plan.tasks[job[0]]
                release = other["releases"][job[1]]
                count += (release + other["deadline"], release, *job) > key
        return count


def fault_in(verdict):
    """The row and the rule of a verdict, if it has a fault."""
    found = re.match(r"fault,(\d+),(A\d)", verdict)
    return (int(found.group(1)), found.group(2)) if found else None
