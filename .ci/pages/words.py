"""What the script of a page has to say of each lane, tick, job, row and task, worked out from the facts without the script."""
import re
from collections import defaultdict, namedtuple
from functools import cache

from pages.facts import CEILING, DOES, FIRST, HOLDS, KINDS, LATE, LIFE, RUNS, WAITS
from pages.judged import judge

DEEDS = "idles,runs,locks,unlocks,acquires,joins the queue of,spins on,acquires,releases".split(",")
UNITS = {"s": 10**9, "ms": 10**6, "us": 10**3, "ns": 1}
POINTED = {"core": [RUNS], "ceiling": [CEILING], "task": [DOES, LIFE], "queue": [FIRST], "head": []}
HEIGHTS = {"core": 24, "ceiling": 15, "task": 50, "queue": 24, "head": 22}
Block = namedtuple("Block", "look lane first end legal task job kind res value", defaults=(None, None, 0, -1, 0))
Lane = namedtuple("Lane", "what numbers core name")
Job = namedtuple("Job", "task job release deadline end finished")
Link = namedtuple("Link", "task job res first end")


def plural(count, word):
    return f"{count:,} {word}{'' if count == 1 else 's'}"


def block_of(look, lane, legal, first, end, values):
    named = {RUNS: ("task", "job"), DOES: ("job", "kind", "res"), HOLDS: ("job", "res"), FIRST: ("task", "job", "value"), LIFE: ("job",), LATE: ("job",), CEILING: ("value",)}
    block = Block(look, lane, first, end, legal, lane, None, 0, lane)._replace(**dict(zip(named[look], values)))
    return block._replace(res=block.res - 1) if look == DOES else block


class Words:
    """The lanes of a page and what is said of them."""

    def __init__(self, facts, joined=True):
        self.facts, self.plan, self.data, self.blocks = facts, facts.plan, facts.data, defaultdict(list)
        self.fault, self.broken, self.ticks = facts.data["fault"], facts.data["broken"], facts.plan.ticks
        widths = [2, 3, 2, 3, 2, 1, 1]
        for look, lane, legal, *numbers in facts.data["blocks"]:
            tick, step = 0, 2 + widths[look]
            for at in range(0, len(numbers), step):
                tick += numbers[at]
                self.blocks[look, lane].append(block_of(look, lane, legal, tick, tick + numbers[at + 1], numbers[at + 2:at + step]))
        for blocks in self.blocks.values():
            blocks.sort(key=lambda block: block.first)
        self.length = self.data["unit"][0] * UNITS[self.data["unit"][1]] if self.data["unit"] else 1
        self.jobs = {life[:2]: Job(*life) for life in facts.all}
        self.late = sorted(filter(self.is_late, self.jobs.values()), key=lambda job: job.deadline)
        self.lanes = list(self.lanes_of(joined))
        self.row_of = {row[:2]: number for number, row in enumerate(facts.legal, 1)}
        missing = min((self.fault[0] - 1) // self.plan.cores, self.ticks - 1) if self.fault else -1
        self.fault_tick = self.broken[0] if self.broken and self.broken[0] < self.ticks else missing
        if self.broken:
            self.row_of.setdefault(tuple(self.broken[:2]), self.fault[0])

    def lanes_of(self, joined):
        groups = []
        for number, task in enumerate(self.plan.tasks):
            tasks = [*(self.plan.tasks[each] for each in groups[-1]), task] if groups else []
            # A name is cut to 13 letters for two digits.
            stems = {(each["core"], each["deadline"], re.sub(r"_\d+$", "", each["name"])[:13]) for each in tasks}
            releases = [tick for each in tasks for tick in each["releases"]]
            if joined and len(stems) == 1 and all(re.search(r"_\d+$", each["name"]) for each in tasks) and len(set(releases)) == len(releases):
                groups[-1].append(number)
            else:
                groups.append([number])
        for core in range(self.plan.cores):
            yield from (Lane("core", [core], core, f"core {core}"), Lane("ceiling", [core], core, "ceiling"))
            for group in groups:
                name = self.plan.tasks[group[0]]["name"]
                if self.plan.tasks[group[0]]["core"] == core:
                    yield Lane("task", group, core, re.sub(r"_\d+$", "", name) if len(group) > 1 else name)
        shared = [number for number, name in enumerate(self.plan.resources) if name in self.plan.shared]
        if shared:
            yield Lane("head", [], self.plan.cores, "resources")
        yield from (Lane("queue", [number], self.plan.cores, self.plan.resources[number]) for number in shared)

    # ---- times and names

    def time(self, ticks):
        if not self.data["unit"]:
            return str(ticks)
        time = round(ticks * self.length)
        unit, size = next(((unit, size) for unit, size in UNITS.items() if time >= size), (self.data["unit"][1], 1))
        return f"{time / size:.15g} {unit}"

    def tick(self, tick):
        return f"tick {tick} ({self.time(tick)})" if self.data["unit"] else f"tick {tick}"

    def count(self, ticks):
        return self.time(ticks) if self.data["unit"] else plural(ticks, "tick")

    def job(self, of):
        return f"job {of.job} of {self.plan.tasks[of.task]['name']}"

    def is_late(self, job):
        return job.end > job.deadline or not job.finished and job.deadline <= self.facts.begun

    # ---- lanes

    def at(self, look, number, tick):
        found = [block for block in self.blocks[look, number] if block.first <= tick < block.end]
        return ([block for block in found if block.legal] or found or [None])[-1]

    def block(self, lane, tick):
        return next((block for look in POINTED[lane.what] for number in lane.numbers if (block := self.at(look, number, tick))), None)

    @cache
    def depths(self, task):
        """In how many others each critical section of a task begins."""
        holds = self.blocks[HOLDS, task]
        return {one: sum(other.first <= one.first < other.end for other in holds[max(0, place - 64):place]) for place, one in enumerate(holds)}

    def lane_of(self, task):
        return next(number for number, lane in enumerate(self.lanes) if lane.what == "task" and task in lane.numbers)

    def fault_lane(self):
        if self.broken and self.broken[3]:
            return self.lane_of(self.broken[3] - 1)
        cores = [lane for lane in self.lanes if lane.what == "core" and (lane.core == self.broken[1] if self.broken else (self.fault_tick, lane.core) not in self.row_of)]
        return self.lanes.index(cores[0]) if cores else 0

    def span(self, block):
        return "" if block.end - block.first == 1 else f", ticks {block.first} to {block.end - 1}"

    def deed(self, task, tick):
        block = self.at(DOES, task, tick)
        held = [self.plan.resources[one.res] for one in self.blocks[HOLDS, task] if one.first <= tick < one.end]
        holds = f"; holds {', '.join(held)}" if held else ""
        if not block:
            return f"released, not running{holds}"
        resource = "" if block.res < 0 else f" {self.plan.resources[block.res]}"
        return f"{DEEDS[block.kind]}{resource}{self.span(block)}{holds}{'' if block.legal else ' (after the fault: not judged)'}"

    def life(self, job):
        by = job.end - job.deadline
        late = (f", late by {self.count(by)}" if by > 0 else ", late") if self.is_late(job) else ""
        end = f"completed at {self.time(job.end)}, response {self.count(job.end - job.release)}" if job.finished else "not finished"
        return f"released at {self.time(job.release)}, absolute deadline {self.time(job.deadline)}, {end}{late}"

    def describe(self, lane, tick):
        block = self.block(lane, tick)
        if lane.what == "head":
            return "Global resources"
        if lane.what == "ceiling":
            return f"{self.tick(tick)}, core {lane.core}: ceiling {block.value if block else 0}"
        if lane.what == "queue" and not block:
            return f"{self.tick(tick)}: nobody is in the queue of {lane.name}"
        if lane.what == "queue":
            more = f", {block.value} more wait{'s' if block.value == 1 else ''}" if block.value else ""
            return f"{self.tick(tick)}: {self.job(block)} is first in the queue of {lane.name}{more}{self.span(block)}"
        row = self.row_of.get((tick, lane.core))
        place = f"{self.tick(tick)}, core {lane.core}" + (f", row {row}" if row else "")
        place += f", line {self.facts.numbers[row - 1]}" if row and self.facts.numbers[row - 1] else ""
        if not block:
            return f"{place}: {'idle' if lane.what == 'core' else 'no job of this task'}"
        job = self.jobs.get((block.task, block.job))
        return f"{place}\n{self.job(block)}: {self.deed(block.task, tick)}" + (f"\n{self.life(job)}" if job else "")

    # ---- a job that is lit up

    def waits(self, task, k):
        """The waits of a job as [resource, first tick, end, spin rows]."""
        found = []
        for tick, _, kind, _, res in self.facts.own[task, k]:
            if kind == "queue":
                found.append([res, tick, tick + 1, 0])
            elif kind == "spin":
                found[-1][2:] = [tick + 1, found[-1][3] + 1]
        return found

    def links(self, job):
        return [Link(block.task, block.job, res, max(block.first, first), min(block.end, end))
                for res, first, end, _ in self.waits(job.task, job.job) for block in self.blocks[FIRST, res]
                if block.first < end and block.end > first and (block.task, block.job) != (job.task, job.job)]

    def held(self, one):
        return f"{self.plan.resources[one.res]}, {self.time(one.first)} to {self.time(one.end)}"

    def detail(self, text, job):
        """The text below the timeline where a job is lit up."""
        if not job:
            return text
        held = [self.held(block) for block in self.blocks[HOLDS, job.task] if block.job == job.job][:20]
        waited = [f"{self.job(link)} ({self.held(link)})" for link in self.links(job)][:20]
        return f"{text}\nHeld: {'; '.join(held) or 'nothing'}." + (f" Waited for: {', '.join(waited)}" if waited else " It waited for no job.")

    def chosen(self, lane, tick):
        """The job that a click on a place lights up."""
        block = self.block(lane, tick) if lane.what != "ceiling" else None
        return self.jobs.get((block.task, block.job)) if block else None

    def longest_wait(self):
        waits = [(self.jobs[job], wait) for job in self.jobs for wait in self.waits(*job)]
        return max(waits, key=lambda one: one[1][2] - one[1][1], default=None)

    # ---- head, report, table

    def head(self):
        """The verdict, the sizes, the notes and the corner."""
        rows, plan = len(self.facts.legal), self.plan
        where = f"row {self.fault[0]}" if self.broken else f"its end after {plural(rows, 'row')}" if self.fault else ""
        verdict = f"Not a legal run: {where} violates rule {self.fault[1]}" if self.fault else f"A legal run: {'its row obeys' if rows == 1 else f'all {rows:,} rows obey'} the plan"
        counts = [(plan.cores, "core"), (len(plan.tasks), "task"), (len(plan.resources), "resource"), (plan.ticks, "tick")]
        size = f"{', '.join(plural(*one) for one in counts)}{', ' + self.time(plan.ticks) if self.data['unit'] else ''}; "
        size += f"{plural(len(self.jobs), 'job')}, {len(self.late)} late; {plural(rows, 'row')}{' before the fault' if self.fault else ''}"
        note = ("Only the rows before the fault count. " if self.fault else "") + "A bar leads to the job. The bounds hold in every legal run of the plan."
        return [verdict, f"MSRP trace: {verdict}", size, note, "time" if self.data["unit"] else "time (ticks)"]

    def report(self):
        """The rows of the report: each with its cells, and the jobs to which it leads."""
        return [self.report_row(number, line) for number, line in enumerate(self.data["report"])]

    def report_row(self, number, line):
        task, own = self.plan.tasks[number], [job for job in self.jobs.values() if job.task == number]
        late = [job for job in own if self.is_late(job)]
        bars = [(line[3], task["deadline"]), (line[5], line[8]), (line[7], line[9])]
        tests = (lambda job: job.finished and job.end - job.release == line[3], lambda job: any(wait[3] == line[5] for wait in self.waits(job.task, job.job)),
                 lambda job: self.facts.blocked(task, job) == line[7])
        leads = [next((job for job in own if most and test(job)), None) for (most, _), test in zip(bars, tests)]
        cells = [task["name"], str(task["core"]), f"{line[1]} of {line[0]}", str(len(late)), *(f"{self.time(most)} of {self.time(bound)}" for most, bound in bars)]
        shares = [[f"{100 * value / max(1, most, bound):.3f}" for value in (most, bound)] for most, bound in bars]
        return cells, shares, [job and job[:2] for job in leads]

    def table(self, start, end):
        """The rows of the table of what is in sight."""
        cores, unit = self.plan.cores, self.data["unit"]
        stop, found = min(-int(-end // 1), int(start) + 240 // cores, self.facts.begun), []
        for number, (tick, core, kind, job, res) in enumerate(self.facts.legal, 1):
            if int(start) <= tick < stop:
                named = f"job {job[1]} of {self.plan.tasks[job[0]]['name']}" if job else "-"
                found.append([tick, *([self.time(tick)] if unit else []), core, kind, named, "-" if res is None else self.plan.resources[res], number, self.facts.numbers[number - 1] or "-"])
        head = ["Tick", *(["Time"] if unit else []), "Core", "Kind", "Job", "Resource", "Row", "Line"]
        return [head, *([str(cell) for cell in row] for row in sorted(found, key=lambda row: (row[0], row[2 if unit else 1])))]
