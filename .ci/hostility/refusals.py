"""Calls to the C library refused in turn: growths of memory, starts of threads, reads and writes;
and limits of the system on memory and processes."""
import os
import resource
import shutil
import subprocess
from collections import Counter
from pathlib import Path

from .inputs import HANDOVER_A_TICK_LATER, HANDOVER_WITHIN_A_TICK, WORK_THEN_IDLE
from .program import BROKEN, COMMANDS, GOOD, MEMORY, PICTURES, PROGRAM, READ_FAULT, THREADS, TOP, WANT, WRITE_FAULT, Answer, ask, fault_of, is_whole, judges, program_of, varies, words_of
from .sweep import kept

HERE = Path(__file__).resolve().parent
MOST_CALLS = 100_000
MOST_TOLD = 65_536  # bytes, as many as a pipe holds
EVER_AFTER = 1 << 40
STARTS_THREADS = ("run", "run --ahead")
STARTS_WITH_TWO_PROCESSORS = ("audit --parallel",)  # it does without the threads that it is refused
PROCESSORS = len(os.sched_getaffinity(0))
CALLS = TOP / "crates" / "msrp_refusals" / "out" / "msrp_refusals"  # the program that makes single calls
STEPS = b"ask 0 0\nask 1 1\npoll 2 false\npoll 2 false\nleave 2\npoll 3 true\nleave 3\n"
TURNS = 12  # of the run that it makes
NO_WORDS = Answer(1, b"", b"memory\n")  # its answer where the words or the plan couldn't be had
BIT_OF_MEMORY = 256 * 1024
MOST_MEMORY = 1 << 30
NOBODY = 54_321  # a user that owns no process
_audited = set()


def kit():
    """The folder of the kit, as `rt` tells it."""
    page = subprocess.run(["rt", "doc"], stdout=subprocess.PIPE, text=True, check=True).stdout.strip()
    return Path(page).parent


def library(place):
    """Builds the library that refuses calls, by the kit's own compiler."""
    path, toolchain = Path(place) / "refuse.so", kit() / "toolchain"
    flags = "-O2 -Wall -Wextra -Werror -shared -fPIC -ffreestanding -nostdlib -fuse-ld=lld".split()
    words = [toolchain / "bin" / "clang", *flags, "-o", path, HERE / "refuse.c", toolchain / "lib" / "libc.so.6"]
    subprocess.run([str(word) for word in words], check=True)
    return path


def ask_told(preloaded, words, program=PROGRAM, **how):
    """Runs the program over the library, which is told by these words, and what the library
    tells."""
    read, write = os.pipe()
    environment = {"LD_PRELOAD": str(preloaded), "MSRP_HINTS": "0", "REFUSE_TELL": str(write), **{f"REFUSE_{name}".rstrip("_"): str(value) for name, value in how.items()}}
    try:
        answer = ask(words, program, env=environment, pass_fds=(write,))
        os.set_blocking(read, False)
        os.close(write)
        return answer, os.read(read, MOST_TOLD)
    finally:
        os.close(read)


def ask_refusing(preloaded, words, call, first, last=None, how="error", short=False, program=PROGRAM):
    """Runs the program with calls refused, and tells whether any was."""
    answer, told = ask_told(preloaded, words, program, _=call, FIRST=first, LAST=last or first, HOW=how, **({"SHORT": 1} if short else {}))
    return answer, told != b""


def growths_before_a_start(preloaded):
    """How many growths a start of a thread wants before the system is asked for it: as many as lie
    between two starts."""
    words = words_of("run", kept("two cores", HANDOVER_WITHIN_A_TICK.plan), "")
    _, told = ask_told(preloaded, words, TRACE=1)
    return told.split(b"<")[1].split(b">")[1].count(b".")


def growths_of_starts(preloaded, words, program=PROGRAM):
    """The numbers of the growths that the starts of threads want, with nothing refused: those in a
    start, and some before it."""
    _, told = ask_told(preloaded, words, program, TRACE=1)
    before, *starts = told.split(b"<")
    want, made, numbers = growths_before_a_start(preloaded), before.count(b"."), set()
    for start in starts:
        numbers.update(range(made - want + 1, made + start.split(b">")[0].count(b".") + 1))
        made += start.count(b".")
    return numbers


def is_audited(plan, out):
    """Whether the program's own auditor calls a trace good."""
    if "audit" not in COMMANDS or (plan, out) in _audited:
        return True
    good = ask(words_of("audit", plan, kept("ran", out))).status == GOOD
    if good:
        _audited.add((plan, out))
    return good


def is_ample(command, words, ample, answer):
    """Whether this is the answer of ample memory; a run's trace differs from run to run, so it is
    audited."""
    if not varies(command) or ample.status != GOOD:
        return answer == ample
    return answer.status == GOOD and not answer.line and is_whole(command, answer.out) and is_audited(words[-1], answer.out)


def is_want(answer, lines=(MEMORY,)):
    """Whether this tells of want by one of these lines, and nothing was written."""
    return answer.status == WANT and not answer.out and answer.line in lines


def paths_of(given):
    return kept("plan", given.plan), kept("trace", given.trace)


def want_of(command, call, number, starts):
    """The lines that may tell of want where this call is refused: that threads are wanting is told
    of a run alone, and where a thread's start was refused. An audit does without threads."""
    if command in STARTS_THREADS and (call == "thread" or number in starts):
        return (THREADS,)
    return () if call == "thread" else (MEMORY,)


def refused_in_turn(found, preloaded, command, given, call, lasting):
    """Each growth, or each thread, refused in turn: alone, or it and all after it."""
    words = words_of(command, *paths_of(given))
    ample = ask(words)
    found.judge(ample.status == GOOD, f"{given.name}, {command} with nothing refused", ample)
    starts = growths_of_starts(preloaded, words) if command in STARTS_THREADS and call == "growth" else set()
    for number in range(1, MOST_CALLS):
        answer, told = ask_refusing(preloaded, words, call, number, EVER_AFTER if lasting else number)
        what = f"{given.name}, {command}, {call} {number}{' and all after it' if lasting else ''} refused"
        wants = told and is_want(answer, want_of(command, call, number, starts))
        found.judge(is_ample(command, words, ample, answer) or wants, what, answer)
        if not told:
            break
        found.counts["refused"] += 1
        found.counts[{MEMORY: "answered memory", THREADS: "answered threads"}.get(answer.line, "answered as ever")] += 1
    return number - 1


def growths(found, preloaded, command, given, lasting):
    refused = refused_in_turn(found, preloaded, command, given, "growth", lasting)
    found.judge(refused > 0, f"{given.name}, {command}: no growth was refused")


def threads(found, preloaded, command, given, lasting):
    refused = refused_in_turn(found, preloaded, command, given, "thread", lasting)
    starts = command in STARTS_THREADS or (command in STARTS_WITH_TWO_PROCESSORS and PROCESSORS > 1)
    found.judge((refused > 0) == starts, f"{given.name}, {command}: {refused} threads were refused")


def calls_refused(found, preloaded, word, call, lasting):
    """Each growth, or each thread, refused in turn to a single call: a new board whose steps are
    then made, or a run that counts its turns."""
    starts = growths_of_starts(preloaded, [word], CALLS)
    ample = STEPS if word == "board" else b"ok %d\n" % TURNS
    none, all_turns, unstarted = b"U1 0\n", b"U1 %d\n" % TURNS, b"U2 0\n"
    answers = Counter()
    for number in range(1, MOST_CALLS):
        answer, told = ask_refusing(preloaded, [word], call, number, EVER_AFTER if lasting else number, program=CALLS)
        is_start = call == "thread" or number in starts
        want = (b"B2\n",) if word == "board" else (unstarted,) if is_start else (none, all_turns)
        good = answer == NO_WORDS or (answer[0::2] == (GOOD, b"") and answer.out in want)
        found.judge(answer == Answer(GOOD, ample, b"") or (told and good), f"{word}, {call} {number}{' and all after it' if lasting else ''} refused", answer)
        if not told:
            break
        found.counts["refused"] += 1
        answers[answer.out] += 1
    due = {("board", "growth"): [b"B2\n"], ("run", "growth"): [none, unstarted] + [all_turns], ("run", "thread"): [unstarted]}.get((word, call), [])
    found.judge(all(answers[out] for out in due), f"{word}, {call}: no answer of one kind", dict(answers))
    found.judge(bool(due) or not answers, f"{word}, {call}: {dict(answers)}")


def reads(found, preloaded, command, given, how):
    """Each read of one byte fails in turn: a read fault, and nothing was written."""
    words = words_of(command, *paths_of(given))
    ample = ask(words, program_of(command))
    for number in range(1, MOST_CALLS):
        answer, told = ask_refusing(preloaded, words, "read", number, how=how, short=True, program=program_of(command))
        due = answer == Answer(BROKEN, b"", fault_of(command, READ_FAULT)) if told else is_ample(command, words, ample, answer)
        found.judge(due, f"{given.name}, {command}, read {number} by {how}", answer)
        if not told:
            break
        found.counts["refused"] += 1
    bytes_read = len(given.plan) + (len(given.trace) if judges(command) else 0)
    found.judge(number > bytes_read, f"{given.name}, {command}: only {number - 1} reads were refused of {bytes_read} bytes")


def writes(found, preloaded, command, given, how):
    """Each write fails in turn, of one byte each: a write fault, and what was written is all before
    it. The second program tries an interrupted write again."""
    words = words_of(command, *paths_of(given))
    ample = ask(words, program_of(command))
    for number in range(1, MOST_CALLS):
        answer, told = ask_refusing(preloaded, words, "write", number, how=how, short=True, program=program_of(command))
        part = len(answer.out) == number - 1 if varies(command) else answer.out == ample.out[:number - 1]
        due = part and answer[0::2] == (BROKEN, fault_of(command, WRITE_FAULT)) if told else is_ample(command, words, ample, answer)
        found.judge(due, f"{given.name}, {command}, write {number} by {how}", answer)
        if not told:
            break
        found.counts["refused"] += 1
    found.judge(number > len(ample.out), f"{given.name}, {command}: only {number - 1} writes were refused of {len(ample.out)} bytes")


def short_calls(found, preloaded, command, given):
    """Reads, and writes, that move one byte each change nothing."""
    words = words_of(command, *paths_of(given))
    ample = ask(words)
    for call in ("read", "write"):
        answer, told = ask_refusing(preloaded, words, call, 1, EVER_AFTER, how="one")
        found.judge(told and is_ample(command, words, ample, answer), f"{given.name}, {command}, one byte a {call}", answer)


def limited(words, program=PROGRAM, **limits):
    """Runs the program under limits of the system, by name; as nobody where it is the number of
    processes and the user is root."""
    def begin():
        for name, most in limits.items():
            resource.setrlimit(getattr(resource, f"RLIMIT_{name}"), (most, most))
        if "NPROC" in limits and os.geteuid() == 0:
            os.setgroups([])
            os.setgid(NOBODY)
            os.setuid(NOBODY)
    return ask(words, program, preexec_fn=begin)


def address_space(found, given):
    """Too little room for threads, from where a simulation has its room: threads or memory are
    refused, or the run is whole."""
    plan, _ = paths_of(given)
    room = next(room for room in range(BIT_OF_MEMORY, MOST_MEMORY, BIT_OF_MEMORY) if limited(["sim", str(plan)], AS=room).status == GOOD)
    words = words_of("run", plan, "")
    ample = ask(words)
    while room < MOST_MEMORY:
        answer = limited(words, AS=room)
        whole = is_ample("run", words, ample, answer)
        found.judge(whole or is_want(answer, (MEMORY, THREADS)), f"{given.name}, run in {room} bytes of address space", answer)
        found.counts["refused"] += not whole
        if whole:
            break
        room += BIT_OF_MEMORY
    found.judge(found.counts["refused"] > 0, f"{given.name}: address space refused nothing")


def processes(found, given, cores, place):
    """Fewer processes than threads are wanted: threads is the answer. With one for each and one for
    the program, the run is whole."""
    open_place = Path(place) / f"open-{os.getpid()}"
    open_place.mkdir(mode=0o755)
    plan, program = open_place / "plan", open_place / "msrp"
    plan.write_bytes(given.plan)
    shutil.copy(PROGRAM, program)
    words = words_of("run", plan, "")
    ample = ask(words)
    for most in range(1, cores + 2 if os.geteuid() == 0 else 2):
        answer = limited(words, program, NPROC=most)
        due = is_ample("run", words, ample, answer) if most > cores else answer == Answer(WANT, b"", THREADS)
        found.judge(due, f"{given.name}, run with {most} processes at most", answer)
        found.counts["refused"] += answer.status == WANT


def pieces(inputs, preloaded, place):
    """All pieces of work of these sweeps, by the sweep's name."""
    few = (WORK_THEN_IDLE, HANDOVER_WITHIN_A_TICK)
    empty = WORK_THEN_IDLE._replace(name="no row", trace=WORK_THEN_IDLE.trace.splitlines(True)[0])
    read = [(given, command) for given in few for command in (*COMMANDS, *PICTURES)] + [(HANDOVER_A_TICK_LATER, command) for command in filter(judges, COMMANDS)]
    written = [(given, command) for given in few for command in (*COMMANDS, *PICTURES)] + [(empty, command) for command in filter(judges, COMMANDS)]
    everything = {
        "growths refused": [(growths, preloaded, command, given, lasting) for given in inputs for command in COMMANDS for lasting in (False, True)],
        "threads refused": [(threads, preloaded, command, given, lasting) for given in inputs for command in COMMANDS for lasting in (False, True)],
        "single calls refused": [(calls_refused, preloaded, word, call, lasting) for word in ("board", "run") for call in ("growth", "thread") for lasting in (False, True)],
        "reads failing": [(reads, preloaded, command, given, how) for given, command in read for how in ("error", "interrupt")],
        "writes failing": [(writes, preloaded, command, given, how) for given, command in written for how in ("error", "none", "interrupt")[: 2 if command in PICTURES else 3]],
        "one byte a call": [(short_calls, preloaded, command, given) for given in inputs for command in COMMANDS],
    }
    if "run" in COMMANDS:
        everything["limits of the system"] = [(address_space, HANDOVER_WITHIN_A_TICK), (processes, HANDOVER_WITHIN_A_TICK, 2, place)]
    return everything
