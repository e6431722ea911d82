"""The greatest plans that the limits allow, and the least: every command answers each of them
whole.

That memory may run out at any time stands in every contract, so a body that gives up on one input
is proved. This shows that none does."""
import json
import xml.etree.ElementTree as tree

from .inputs import text
from .program import COMMANDS, FAULT, GOOD, TOP, Answer, ask, judges, makes_trace, varies, words_of
from .sweep import kept

VIEWER = TOP / "crates/msrp_view/out/msrp_view"
PART = 60  # ticks in a line of a picture
TICKS = 20_000


def each(count, form):
    return " ".join(form(number) for number in range(count))


def task_of_eight(number):
    """One of 64 tasks, eight on a core, each with 128 jobs: two cores share a global resource, and
    each core has two of its own."""
    core, turn = number % 8, number // 8
    shared, own = core // 2 * 4 + turn % 4, 16 + core * 2 + turn % 2
    return f"""task,t{number},{core},157,{150 + number},0 op,lock,r{shared} op,run,1 op,unlock,r{shared}
               op,lock,r{own} op,run,2 op,unlock,r{own} op,run,{1 + number % 5}"""


def long_task(core):
    """A task of 4,096 units, which holds eight resources at once."""
    held = range(core * 8, core * 8 + 8)
    return " ".join([f"task,t{core},{core},1000000,1000000,0", *(f"op,lock,r{it}" for it in held), "op,run,4080", *(f"op,unlock,r{it}" for it in reversed(held))])


# Each stands in its own text's form, so `check --text` gives the same bytes.
PLANS = {
    "64 tasks, 32 resources, 8,192 jobs": text(f"msrp,1 cores,8 ticks,{TICKS} {each(32, 'resource,r{}'.format)} {each(64, task_of_eight)}"),
    "4,096 units, 8 resources held": text(f"msrp,1 cores,8 ticks,{TICKS} {each(32, 'resource,r{}'.format)} {each(4, long_task)}"),
    "8,192 listed releases": text(f"msrp,2 cores,8 ticks,{TICKS} listed,a,7,1000000 {each(8192, 'release,{}'.format)} op,run,1"),
    "8 cores without tasks": text(f"msrp,1 cores,8 ticks,{TICKS}"),
    "resources that nobody uses": text(f"msrp,1 cores,1 ticks,1 {each(32, 'resource,r{}'.format)}"),
    "64 tasks in one tick": text(f"msrp,1 cores,8 ticks,1 {each(64, lambda number: f'task,t{number},{number % 8},1,1,0 op,run,1')}"),
    "262,212 records": text(f"msrp,1 cores,8 ticks,1 resource,r {each(64, lambda number: f'task,t{number},{number % 8},1,1,0' + ' op,lock,r op,unlock,r' * 2048)}"),
    "one tick": text("msrp,1 cores,1 ticks,1"),
}


class Size:
    """What a plan's text has, counted without the program."""

    def __init__(self, plan):
        users, core = {}, None
        self.tasks = self.resources = 0
        for fields in (line.split(",") for line in plan.decode().splitlines()):
            if fields[0] in ("cores", "ticks"):
                setattr(self, fields[0], int(fields[1]))
            self.resources += fields[0] == "resource"
            if fields[0] in ("task", "listed"):
                self.tasks, core = self.tasks + 1, fields[2]
            if fields[:2] == ["op", "lock"]:
                users.setdefault(fields[2], set()).add(core)
        self.shared = sum(len(cores) > 1 for cores in users.values())

    def rows(self):
        return self.cores * self.ticks

    def lines(self, command):
        """How many lines the command's answer has."""
        if makes_trace(command):
            return 1 + self.rows()
        return {"audit": 1, "report": 1 + self.tasks, "check": self.tasks + self.resources + self.cores}[command.split()[0]]

    def signals(self):
        """How many signals a dump has."""
        return 2 + 3 * self.cores + 2 * self.tasks + self.resources + self.shared

    def picture_lines(self, ticks):
        parts = -(-ticks // PART)
        return 2 + parts * (2 + 3 * self.cores + 2 * self.shared) + 1 + self.tasks + 3


def answered(found, name, command, plan, trace, size):
    answer = ask(words_of(command, plan, trace))
    due = plan.read_bytes() if command == "check --text" else None
    whole = answer.out == due if due else answer.out.count(b"\n") == size.lines(command)
    found.judge(answer.status == GOOD and not answer.line and whole, f"{name}, {command}", answer)
    return answer.out


def whole_answers(found, name, plan):
    """Each command that reads a plan alone, and each that judges, over every trace that was
    made."""
    size, path = Size(plan), kept("plan", plan)
    for command in COMMANDS:
        if not judges(command):
            trace = answered(found, name, command, path, "", size)
            if makes_trace(command):
                found.reach("rows at most", size.rows())
                made = kept("trace", trace)
                for judge in filter(judges, COMMANDS):
                    answered(found, f"{name}, {command}", judge, path, made, size)


def whole_pictures(found, name, plan, style):
    """A picture of the usual window, and one of the whole run."""
    size, path = Size(plan), kept("plan", plan)
    trace = kept("trace", ask(words_of("sim", path, "")).out)
    for window, ticks in (([], min(200, size.ticks)), (["--from", "0", "--to", str(size.ticks)], size.ticks)):
        answer = ask([*window, style, str(path), str(trace)], program=VIEWER)
        if style == "--text":
            whole = answer.out.startswith(b"good\n") and answer.out.count(b"\n") == size.picture_lines(ticks)
        else:
            whole = is_drawn(answer.out)
        found.judge(answer.status == GOOD and not answer.line and whole, f"{name}, a picture {style} {' '.join(window)}", answer)


def whole_dump(found, name, plan):
    """A dump of the whole run, up to the end of its last tick, and its trace events."""
    size, path = Size(plan), kept("plan", plan)
    trace = kept("trace", ask(words_of("sim", path, "")).out)
    answer = ask(["--vcd", str(path), str(trace)], program=VIEWER)
    whole = answer.out.startswith(b"$version ") and answer.out.endswith(b"\n#%d\n" % size.ticks)
    found.judge(answer.status == GOOD and not answer.line and whole, f"{name}, a dump", answer)
    answer = ask(["--gtkw", str(path), str(trace)], program=VIEWER)
    whole = answer.out.startswith(b"[size] ") and answer.out.count(b"\nmsrp.") == size.signals()
    found.judge(answer.status == GOOD and not answer.line and whole, f"{name}, a save file", answer)
    answer = ask(["--perfetto", str(path), str(trace)], program=VIEWER)
    found.judge(answer.status == GOOD and not answer.line and are_events(answer.out), f"{name}, trace events", answer)


def whole_words(found, name, plan):
    """What is said of the plan, and of its run: that both are good."""
    path = kept("plan", plan)
    trace = kept("trace", ask(words_of("sim", path, "")).out)
    for words in ([str(path)], [str(path), str(trace)]):
        answer = ask(["--why", *words], program=VIEWER)
        found.judge(answer.status == GOOD and not answer.line and answer.out.startswith(b"good\n"), f"{name}, {len(words)} files in words", answer)


def without_rows(found, name, plan):
    """A trace without a row: the first one is missing, by each way to judge it."""
    size, path = Size(plan), kept("plan", plan)
    trace = kept("trace", b"msrp-trace,1,%d,%d\n" % (size.cores, size.ticks))
    for command in filter(judges, COMMANDS):
        answer = ask(words_of(command, path, trace))
        found.judge(answer == Answer(FAULT, b"fault,1,A6\n", b""), f"{name}, no row, {command}", answer)
    for flag in ("--text", "--svg", "--why", "--vcd", "--perfetto"):
        answer = ask([flag, str(path), str(trace)], program=VIEWER)
        found.judge(answer.status == FAULT and not answer.line and b"A6" in answer.out, f"{name}, no row, {flag}", answer)


def are_events(text):
    """Whether this is JSON of trace events in which as many slices end as begin."""
    try:
        phases = [event["ph"] for event in json.loads(text)["traceEvents"]]
        return phases.count("B") == phases.count("E")
    except ValueError:
        return False


def is_drawn(svg):
    """Whether this is a whole SVG with the verdict good."""
    try:
        return any(element.text and element.text.strip() == "good" for element in tree.fromstring(svg).iter())
    except tree.ParseError:
        return False


def pieces():
    """All pieces of work of this sweep, by the sweep's name."""
    return {
        "the greatest and the least plans": [(whole_answers, *plan) for plan in PLANS.items()]
        + [(whole_pictures, *plan, style) for plan in PLANS.items() for style in ("--text", "--svg")]
        + [(work, *plan) for plan in PLANS.items() for work in (whole_dump, whole_words, without_rows)],
    }
