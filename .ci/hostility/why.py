"""What `msrp_view --why` says of traces in which one row was changed at random."""
import random

from .inputs import EXAMPLES
from .program import FAULT, REFUSED, TOP, ask
from .sweep import kept

VIEWER = TOP / "crates/msrp_view/out/msrp_view"
PIECES = 8
EXPECTED = b"expected: "
NOTE = b"note: this trace has no 'ahead' column; with it (trace version 2) a request that jumps the queue is itself reported\n"
KINDS = ("run", "idle", "lock", "unlock", "take", "queue", "spin", "grant", "release")


def changed(row, rows, chance):
    """The row with one other field; or, twice as often, what another row of the trace says in its
    tick and on its core."""
    fields, others = (it.decode().rstrip("\n").split(",") for it in (row, chance.choice(rows)))
    place = chance.randrange(15)
    if place > 4:
        fields = fields[:2] + others[2:]
    else:
        fields[place] = chance.choice(KINDS) if place == 2 else others[place]
    return ",".join(fields).encode() + b"\n"


def verdict(plan, trace):
    return ask(["audit", str(plan), str(trace)])


def row_of(answer):
    """The row of a fault, or one that is behind all rows."""
    return int(answer.out.split(b",")[1]) if answer.status == FAULT else 1 << 30


def ceilings(plan):
    """The ceiling of each resource at each core, by the plan's text, in the plan's order of
    resources."""
    uses, deadlines, cores, resources = {}, {}, {}, []
    for fields in (line.split(",") for line in plan.read_text().split()):
        if fields[0] == "resource":
            resources.append(fields[1])
        elif fields[0] in ("task", "listed"):
            task = fields[1]
            cores[task], deadlines[task] = int(fields[2]), int(fields[4 if fields[0] == "task" else 3])
        elif fields[:2] == ["op", "lock"]:
            uses.setdefault(fields[2], set()).add(task)
    level = {task: 1 + len({other for other in deadlines.values() if other > own}) for task, own in deadlines.items()}
    found = {}
    for name in resources:
        users = uses.get(name, set())
        shared = len({cores[it] for it in users}) > 1
        for core in set(cores.values()):
            found[name, core] = max([level[it] for it in (cores if shared else users) if not shared or cores[it] == core], default=0)
    return resources, found


def tasks(plan):
    """The core of each task, and how many jobs it has within the ticks, by the plan's text."""
    found, ticks = {}, 0
    for fields in (line.split(",") for line in plan.read_text().split()):
        if fields[0] == "ticks":
            ticks = int(fields[1])
        elif fields[0] == "task":
            found[fields[1]] = [fields[2], len(range(int(fields[5]), ticks, int(fields[3])))]
        elif fields[0] == "listed":
            task = found[fields[1]] = [fields[2], 0]
        elif fields[0] == "release" and int(fields[1]) < ticks:
            task[1] += 1
    return found


def owner(plan, task):
    core, jobs = tasks(plan)[task]
    known = {0: "no job within the plan", 1: "one job within the plan: job 0"}.get(jobs, f"{jobs} jobs within the plan: 0 to {jobs - 1}")
    return [f"task {task} is assigned to core {core} and has {known}\n"]


def use(each, since, granted, above, top):
    """What is said of a resource that a job holds or awaits since a row."""
    number, fields = since
    core, job, tick = fields[1], ",".join(fields[3:5]), fields[0]
    how = f"has held {each} since" if fields[2] != "queue" else f"holds {each}, requested at" if granted else f"has been waiting for {each} since"
    raises = f"this raises the ceiling of core {core} to {above}" if above == top else f"its ceiling on core {core} is {above}"
    return f"{job} {how} tick {tick} (row {number}); {raises}\n"


def facts(plan, before, row):
    """The last lines on a row, by the rule that it violates, as the rows before it give them."""
    resources, above = ceilings(plan)
    opened, granted, last = {name: [] for name in resources}, set(), {}
    rows = [text.decode().rstrip("\n").split(",") for text in before]
    for number, fields in enumerate(rows, 1):
        if fields[2] in ("lock", "take", "queue"):
            opened[fields[5]].append((number, fields))
        elif fields[2] == "grant":
            granted.add((fields[3], fields[4], fields[5]))
        elif fields[2] in ("unlock", "release"):
            opened[fields[5]].pop(0)
            granted.discard((fields[3], fields[4], fields[5]))
            last[fields[5]] = (number, fields)
    fields = row.decode().rstrip("\n").split(",")
    core, name = fields[1], fields[5]
    shown = lambda numbered: f"row {numbered[0]}: {','.join(numbered[1])}\n"
    mine = [(each, it) for each in resources for it in opened[each] if it[1][1] == core]
    top = max([above[each, int(core)] for each, _ in mine], default=0)
    held = [use(each, it, (it[1][3], it[1][4], each) in granted, above[each, int(core)], top) for each, it in mine]
    queue = opened.get(name, [])
    title = f"queue of {name} before this row" + (", first to last:\n" if queue else ": empty\n")
    released = f"last release of {name}: " + (shown(last[name]) if name in last else "none\n")
    note = [NOTE.decode()] if any(it[1][2] == "queue" and len(it[1]) < 7 for it in queue) else []
    cores = int(plan.read_text().split("cores,")[1].split()[0])
    tick = len(rows) // cores
    left = [f"core {it}" for it in range(cores) if [str(tick), str(it)] not in [other[:2] for other in rows]]
    turns = f"expected: a row of tick {tick} from {', '.join(left[:-1])}{' or ' if left[1:] else ''}{left[-1]}\n"
    return {
        "A1": [turns, *([f"previous row: {shown((len(rows), rows[-1]))}"] if rows else [])],
        "A2": owner(plan, fields[3]) if fields[3] != "-" else [],
        "A3": [f"ceiling of core {core}: {top}\n", *held],
        "A4": held,
        "A5": [title, *(f"  {it[1][3]},{it[1][4]} since {shown(it)}" for it in queue), released, *note],
    }


def explained(found, what, plan, trace):
    """The fault is that of `audit`, with the facts that the rows before it give; the row that is
    said to be expected makes the trace legal up to there."""
    path = kept("trace", b"".join(trace))
    judged, why = verdict(plan, path), ask(["--why", str(plan), str(path)], VIEWER)
    same = why.status == judged.status and why.out.startswith(judged.out) and why.line == judged.line.replace(b"msrp:", b"msrp_view:")
    found.judge(same, f"{what}: audit answers {judged}", why)
    if judged.status == REFUSED:
        refusal = judged.line.rstrip().removeprefix(b"msrp: trace: ")
        number = int(refusal.split()[-1])
        shown = b"".join(b"[%s]" % field for field in trace[number - 1].rstrip(b"\n").split(b","))
        found.counts["refused records in words"] += 1
        found.judge(why.out.startswith(refusal + b": ") and why.out.endswith(b"\nrecord %d, line %d: %s\n" % (number, number, shown)), f"{what}: the record is another than {shown}", why)
    if judged.status == FAULT and row_of(judged) < len(trace):
        at = row_of(judged)
        lines = why.out.splitlines(keepends=True)
        rule = lines[0].rstrip().split(b",")[2].decode()
        said = [line.encode() for line in facts(plan, trace[1:at], trace[at]).get(rule, [])]
        place = b"row %d (record %d, line %d): %s" % (at, at + 1, at + 1, trace[at])
        found.judge(lines[1] == place and lines[2].startswith(f"rule {rule}: ".encode()) and lines[-len(said):] == said if said else True, f"{what}: the facts are others: {said}", why)
        expected = [line[len(EXPECTED):] for line in lines if line.startswith(EXPECTED) and rule in ("A2", "A3", "A4", "A5")]
        if expected:
            found.counts["rows said to be expected"] += 1
            mended = kept("mended", b"".join([*trace[:at], *expected, *trace[at + 1 :]]))
            found.judge(row_of(verdict(plan, mended)) > at, f"{what}: the expected row doesn't move the fault on", why)


def changed_traces(found, name, seed, cases):
    chance = random.Random(f"{name} {seed}")
    plan = kept("plan", (TOP / f"examples/{name}.csv").read_bytes())
    trace = ask(["sim", "--order", chance.choice(("asc", "desc", "rot")), str(plan)]).out.splitlines(keepends=True)
    for case in range(cases):
        at = chance.randrange(1, len(trace))
        explained(found, f"why, {name}, seed {seed}, case {case}", plan, [*trace[:at], changed(trace[at], trace[1:], chance), *trace[at + 1 :]])


def pieces(cases):
    names = [path.stem for path in EXAMPLES]
    each = -(-cases // (len(names) * PIECES))
    return {"why: rows changed at random": [(changed_traces, name, seed, each) for name in names for seed in range(PIECES)]}
