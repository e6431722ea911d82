"""Broken texts: cut, doubled, in other words, endless, and changed at random."""
import os
import subprocess
import threading
import time

from .inputs import EXAMPLES, HANDOVER_WITHIN_A_TICK, WORK_THEN_IDLE, WORKED, Input, changed_records, cuts, each_field_quoted, in_version_2, same_records
from .meaning import agree, agree_on_trace, answers_to, fixed, judges_rows, made_traces_are_good, text_is_the_plan
from .mutation import mutated
from .program import BROKEN, COMMANDS, FAULT, GOOD, PROGRAM, READ_FAULT, REFUSED, SECONDS, Answer, ask, judges, words_of
from .sweep import kept

PLAN_COMMANDS = tuple(command for command in COMMANDS if not judges(command))
TRACE_COMMANDS = tuple(command for command in COMMANDS if judges(command))
LIMIT = 16_777_216  # the bytes that are read of an input
CHUNK = 65_536
MOST_PEAK = 192 * 1024  # kilobytes of memory at most: for the ends of 16 million fields 128 megabytes are needed

# The answer to the first n bytes of the plan "work then idle", by the last n that has it.
CUT_PLANS = (
    (5, "P1 at record 1"), (11, "P2 at record 2"), (12, "P3 at record 2"), (13, "P4 at record 2"), (19, "P2 at record 3"), (20, "P3 at record 3"),
    (21, "P4 at record 3"), (23, None), (26, "P2 at record 4"), (35, "P3 at record 4"), (36, "P4 at record 4"), (38, "P12 at record 5"),
    (39, "P2 at record 5"), (40, "P3 at record 5"), (43, "P2 at record 5"), (44, "P3 at record 5"), (45, "P4 at record 5"), (47, None),
)
# The answer to the first n bytes of its trace.
CUT_TRACES = (
    (15, "R1 at record 1"), (17, "fault,1,A6"), (28, "R2 at record 2"), (29, "R6 at record 2"), (31, "fault,2,A6"), (42, "R2 at record 3"),
    (43, "R6 at record 3"), (45, "fault,3,A6"), (57, "R2 at record 4"), (58, "R6 at record 4"), (60, "good"),
)


def due(table, length):
    return next(answer for last, answer in table if length <= last)


def refusal(what, code):
    return Answer(REFUSED, b"", b"msrp: %s: %s\n" % (what.encode(), code.encode()))


def table_of_plans(found):
    """The table of cut plans: every command refuses as it says."""
    for length, (what, plan) in enumerate(cuts(WORK_THEN_IDLE.plan)):
        code = due(CUT_PLANS, length)
        for command, answer in answers_to(found, what, plan, WORK_THEN_IDLE.trace).items():
            refused = answer == refusal("plan", code) if code else not answer.line.startswith(b"msrp: plan")
            found.judge(refused, f"plan, {what}, {command}: want {code}", answer)


def trace_answer(code):
    if code == "good":
        return Answer(GOOD, b"good\n", b"")
    return Answer(FAULT, code.encode() + b"\n", b"") if code.startswith("fault") else refusal("trace", code)


def table_of_traces(found):
    """The table of cut traces."""
    for length, (what, trace) in enumerate(cuts(WORK_THEN_IDLE.trace)):
        wanted = trace_answer(due(CUT_TRACES, length))
        for command, answer in answers_to(found, what, WORK_THEN_IDLE.plan, trace, TRACE_COMMANDS).items():
            same = answer.status == GOOD if command == "report" and wanted.status == GOOD else answer == wanted
            found.judge(same, f"trace, {what}, {command}: want {wanted}", answer)


def doubled_plans(found):
    """Three records of the plan doubled, and the whole twice: the refusals that are due."""
    records = WORK_THEN_IDLE.plan.splitlines(keepends=True)
    cases = ((records[:2] + records[1:], "P2 at record 3"), (records[:4] + records[3:], "P12 at record 5"), (records + records[3:], "P6 at record 6"), (records * 2, "P2 at record 6"))
    for changed, code in cases:
        for command, answer in answers_to(found, code, b"".join(changed), WORK_THEN_IDLE.trace).items():
            found.judge(answer == refusal("plan", code), f"doubled plan, {command}: want {code}", answer)


def some_plans(found, name, plans, trace):
    """Broken plans: each answer is a named one, and the commands agree."""
    for what, plan in plans:
        answers = answers_to(found, f"{name}, {what}", plan, trace)
        agree(found, f"{name}, {what}", answers)


def some_traces(found, name, plan, traces):
    """Broken traces: each answer is a named one, and the commands agree."""
    for what, trace in traces:
        agree_on_trace(found, f"{name}, {what}", answers_to(found, f"{name}, {what}", plan, trace, TRACE_COMMANDS))


def same_answers(found, given, same):
    """The same records in other bytes: the same answers."""
    usual = fixed(answers_to(found, given.name, given.plan, given.trace))
    for what, plan in same(given.plan):
        answers = fixed(answers_to(found, f"{given.name}, plan with {what}", plan, given.trace))
        found.judge(answers == usual, f"{given.name}, plan with {what}: other answers", answers)
    judged = {command: usual[command] for command in TRACE_COMMANDS}
    for what, trace in same(given.trace):
        answers = answers_to(found, f"{given.name}, trace with {what}", given.plan, trace, TRACE_COMMANDS)
        found.judge(answers == judged, f"{given.name}, trace with {what}: other answers", answers)


def random_plans(found, given, seeds):
    for seed in seeds:
        plan, what = mutated(seed, given.plan), f"{given.name}, random plan {seed}"
        answers = answers_to(found, what, plan, given.trace)
        agree(found, what, answers)
        found.counts["accepted" if answers["check"].status == GOOD else "refused"] += 1
        made_traces_are_good(found, what, plan, answers)
        text_is_the_plan(found, what, answers)


def random_traces(found, given, seeds):
    for seed in seeds:
        what = f"{given.name}, random trace {seed}"
        answers = answers_to(found, what, given.plan, mutated(seed, given.trace), TRACE_COMMANDS)
        agree_on_trace(found, what, answers)
        found.counts["judged by rows" if judges_rows(answers["audit"]) else "refused"] += 1


# What never ends: its name, what stands before, what is repeated, and the answer to it as a plan.
ENDLESS_PLANS = (
    ("line feeds", b"msrp,1\n", b"\n", Answer(BROKEN, b"", READ_FAULT)),
    ("carriage returns", b"msrp,1\n", b"\r", Answer(BROKEN, b"", READ_FAULT)),
    ("line feeds from the first byte", b"", b"\n", Answer(BROKEN, b"", READ_FAULT)),
    ("a field", b"msrp,1\ncores,1\nticks,3\nresource,", b"a", Answer(BROKEN, b"", READ_FAULT)),
    ("a number", b"msrp,1\ncores,", b"9", Answer(BROKEN, b"", READ_FAULT)),
    ("a record", b"msrp,1\ncores", b",", Answer(BROKEN, b"", READ_FAULT)),
    ("a quoted field", b'msrp,1\ncores,"', b"1\n", Answer(BROKEN, b"", READ_FAULT)),
    ("quotes", b"msrp,1\n", b'"', Answer(BROKEN, b"", READ_FAULT)),
    ("zero bytes", b"", b"\0", Answer(BROKEN, b"", READ_FAULT)),
    ("records", b"msrp,1\n", b"x\n", refusal("plan", "P2 at record 2")),
    ("units", b"msrp,1\ncores,1\nticks,3\ntask,a,0,3,3,0\n", b"op,run,1\n", refusal("plan", "P7 at record 4101")),
    ("releases", b"msrp,2\ncores,1\nticks,3\nlisted,a,0,3\n", b"release,1\n", refusal("plan", "P14 at record 6")),
    ("a byte a kind", b"", bytes(range(256)), refusal("plan", "P1 at record 1")),
)
ENDLESS_TRACES = (
    ("line feeds", b"msrp-trace,1,2,6\n", b"\n", Answer(BROKEN, b"", READ_FAULT)),
    ("a field", b"msrp-trace,1,2,6\n0,0,take,", b"a", Answer(BROKEN, b"", READ_FAULT)),
    ("a record", b"msrp-trace,1,2,6\n0,0", b",", Answer(BROKEN, b"", READ_FAULT)),
    ("quotes", b"msrp-trace,1,2,6\n", b'"', Answer(BROKEN, b"", READ_FAULT)),
    ("rows after the last", HANDOVER_WITHIN_A_TICK.trace, b"5,1,idle,-,-,-\n", Answer(FAULT, b"fault,13,A7\n", b"")),
    ("line feeds after the last row", HANDOVER_WITHIN_A_TICK.trace, b"\n", Answer(BROKEN, b"", READ_FAULT)),
    ("other rows", b"msrp-trace,1,2,6\n", b"0,0,idle,-,-,-\n", Answer(FAULT, b"fault,1,A3\n", b"")),
    ("the first record", b"", b"msrp-trace,1,2,6\n", refusal("trace", "R2 at record 2")),
)


def feed(pipe, head, again):
    """Writes what never ends, until nobody reads it."""
    chunk = again * (CHUNK // len(again))
    try:
        os.write(pipe, head)
        while True:
            os.write(pipe, chunk)
    except BrokenPipeError:
        pass
    finally:
        os.close(pipe)


def ask_endless(words, head, again):
    """Runs the program on an input that never ends; its answer, and its peak memory in
    kilobytes."""
    read, write = os.pipe()
    ran = subprocess.Popen([str(PROGRAM), *words], stdin=read, stdout=subprocess.PIPE, stderr=subprocess.PIPE)
    os.close(read)
    feeder = threading.Thread(target=feed, args=(write, head, again))
    feeder.start()
    stop = threading.Timer(SECONDS, ran.kill)
    stop.start()
    out, line = ran.stdout.read(), ran.stderr.read()
    _, status, used = os.wait4(ran.pid, 0)
    stop.cancel()
    ran.returncode = os.WEXITSTATUS(status) if os.WIFEXITED(status) else -os.WTERMSIG(status)
    feeder.join()
    return Answer(ran.returncode, out, line), used.ru_maxrss


def endless(found, command, kind, what, head, again, wanted):
    """An endless plan, or trace, is answered, in bounded memory."""
    plan, trace = kept("plan", HANDOVER_WITHIN_A_TICK.plan), kept("trace", HANDOVER_WITHIN_A_TICK.trace)
    words = words_of(command, "-", trace) if kind == "plan" else words_of(command, plan, "-")
    answer, peak = ask_endless(words, head, again)
    found.judge(answer == wanted, f"endless {what} as {kind}, {command}", answer)
    found.judge(peak <= MOST_PEAK, f"endless {what} as {kind}, {command}", f"{peak} kilobytes")
    found.reach("kilobytes of memory at most", peak)


def limit_of_bytes(found):
    """An input one byte short of the limit is answered; at the limit its end can't be found any
    more."""
    for size, wanted in ((LIMIT - 1, GOOD), (LIMIT, BROKEN), (LIMIT + 1, BROKEN)):
        plan = WORK_THEN_IDLE.plan + b"\n" * (size - len(WORK_THEN_IDLE.plan))
        for command in PLAN_COMMANDS:
            answer = ask(words_of(command, kept("plan", plan), ""))
            found.judge(answer.status == wanted, f"{command} of a plan of {size} bytes", answer)
        trace = WORK_THEN_IDLE.trace + b"\n" * (size - len(WORK_THEN_IDLE.trace))
        for command in TRACE_COMMANDS:
            answer = ask(words_of(command, kept("plan", WORK_THEN_IDLE.plan), kept("trace", trace)))
            found.judge(answer.status == wanted, f"{command} of a trace of {size} bytes", answer)


def one_byte_a_write(found, given):
    """A plan that comes a byte at a time through a pipe, with rests."""
    usual = ask(words_of("sim", kept("plan", given.plan), ""))
    ran = subprocess.Popen([str(PROGRAM), "sim", "-"], stdin=subprocess.PIPE, stdout=subprocess.PIPE, stderr=subprocess.PIPE)
    for byte in given.plan:
        os.write(ran.stdin.fileno(), bytes([byte]))
        time.sleep(0.0005)
    out, line = ran.communicate(timeout=SECONDS)
    found.judge(Answer(ran.returncode, out, line) == usual, f"{given.name}, a byte at a time", line)


def with_traces(plans):
    """Inputs of plans: with the traces that the program simulates, in both versions."""
    for name, plan in plans:
        for version in ("sim", "sim --ahead"):
            yield Input(f"{name} by {version}", plan, ask(words_of(version, kept("plan", plan), "")).out)


def examples():
    for path in EXAMPLES:
        yield from with_traces([(path.stem, path.read_bytes())])


def in_parts(changes, parts):
    """Changes dealt out over so many pieces of work."""
    changes = list(changes)
    return [changes[part::parts] for part in range(parts) if changes[part::parts]]


def in_both_versions(given):
    """Each plan once, as it is and in the second version."""
    for one in {one.plan: one for one in given}.values():
        yield one
        if in_version_2(one.plan) != one.plan:
            yield one._replace(name=f"{one.name}, version 2", plan=in_version_2(one.plan))


def broken(plans, given):
    """Texts cut and with changed records."""
    return {
        "cut plans": [(some_plans, one.name, part, one.trace) for one in plans for part in in_parts(cuts(one.plan), 4)],
        "cut traces": TRACE_COMMANDS and [(some_traces, one.name, one.plan, part) for one in given for part in in_parts(cuts(one.trace), 8)],
        "records doubled, left out, exchanged": [(some_plans, one.name, part, one.trace) for one in plans for part in in_parts(changed_records(one.plan), 2)]
        + [(some_traces, one.name, one.plan, part) for one in given if TRACE_COMMANDS for part in in_parts(changed_records(one.trace), 2)],
        "the same records in other bytes": [(same_answers, one, same_records) for one in given] + [(same_answers, one, each_field_quoted) for one in WORKED],
    }


def without_end(given):
    """Texts that never end, or come slowly, or reach the limit."""
    return {
        "endless texts": [(endless, command, "plan", *row) for row in ENDLESS_PLANS for command in COMMANDS]
        + [(endless, command, "trace", *row) for row in ENDLESS_TRACES for command in TRACE_COMMANDS],
        "the limit of bytes, and a byte at a time": [(limit_of_bytes,), *((one_byte_a_write, one) for one in given)],
    }


def at_random(given, cases):
    share = max(1, cases // len(given))
    seeds = [range(number * share, (number + 1) * share) for number in range(len(given))]
    dealt = [(one, part) for one, some in zip(given, seeds) for part in in_parts(some, 2)]
    return {"random plans": [(random_plans, *one) for one in dealt], "random traces": TRACE_COMMANDS and [(random_traces, *one) for one in dealt]}


def pieces(cases):
    """All pieces of work of these sweeps, by the sweep's name."""
    given = [*WORKED, *examples()]
    tables = {"tables of cut texts, and doubled records": [(table_of_plans,), (table_of_traces,), (doubled_plans,)]}
    return {**tables, **broken(list(in_both_versions(given)), given), **without_end(WORKED), **at_random(given, cases)}
