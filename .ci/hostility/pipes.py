"""Standard streams, pipes, files and signals that go away or stand still."""
import os
import resource
import signal
import subprocess
import time

from .inputs import HANDOVER_WITHIN_A_TICK, WORK_THEN_IDLE, Input, text
from .program import BROKEN, COMMANDS, GOOD, PROGRAM, READ_FAULT, REFUSED, SECONDS, WRITE_FAULT, Answer, ask, judges, makes_trace, varies, words_of
from .sweep import kept

# A plan whose trace is longer than a pipe holds: 8 cores and 20,000 ticks.
LONG_PLAN = text("msrp,1 cores,8 ticks,20000 " + " ".join(f"task,t{core},{core},100,100,0 op,run,5" for core in range(8)))
LONG_ROWS = 160_001
# One whose trace takes more than one write, and how much of it a file takes: about as much as is
# gathered for one.
PAGES, SIZES = Input("many pages", text("msrp,1 cores,8 ticks,999"), b""), (0, 1, 8191, 8192, 8193, 20000, 100000)
REST = 0.3  # seconds
LONG_COMMANDS = tuple(command for command in COMMANDS if makes_trace(command))


def started(words, **how):
    how.setdefault("stdin", subprocess.DEVNULL)
    return subprocess.Popen([str(PROGRAM), *words], stderr=subprocess.PIPE, **{"stdout": subprocess.PIPE, **how})


def ended(ran):
    """Its status and its line, its output closed; or None where it hangs."""
    try:
        line = ran.communicate(timeout=SECONDS)[1]
    except subprocess.TimeoutExpired:
        ran.kill()
        return None, ran.communicate()[1]
    return ran.returncode, line


def closed_while_writing(found, command, ignored):
    """A reader takes a first part and closes the pipe: a write fault, and no signal ends the
    program, whether it is ignored or not."""
    ran = started(words_of(command, kept("plan", LONG_PLAN), ""), restore_signals=not ignored)
    ran.stdout.read(1000)
    ran.stdout.close()
    ran.stdout = None
    answer = ended(ran)
    found.judge(answer == (BROKEN, WRITE_FAULT), f"{command}, a pipe closed while it writes", answer)


def stopped_reader(found, command, goes_on):
    """A reader stops for a while: the program waits, and then writes the rest, or meets the closed
    pipe."""
    ran = started(words_of(command, kept("plan", LONG_PLAN), ""))
    head = ran.stdout.read(100)
    time.sleep(REST)
    found.judge(ran.poll() is None, f"{command}, a reader that stops: the program ended")
    if goes_on:
        rest = ran.stdout.read()
        found.judge((head + rest).count(b"\n") == LONG_ROWS, f"{command}, a reader that stops and goes on", len(head + rest))
    ran.stdout.close()
    ran.stdout = None
    answer = ended(ran)
    found.judge(answer == ((GOOD, b"") if goes_on else (BROKEN, WRITE_FAULT)), f"{command}, a reader that stops", answer)


def closed_streams(found, command):
    """Standard streams that are closed from the start."""
    plan, trace = kept("plan", HANDOVER_WITHIN_A_TICK.plan), kept("trace", HANDOVER_WITHIN_A_TICK.trace)
    usual = ask(words_of(command, plan, trace))
    for plan_word, trace_word in (("-", trace), (plan, "-"))[:1 + judges(command)]:
        answer = ask(words_of(command, plan_word, trace_word), stdin=None, preexec_fn=lambda: os.close(0))
        found.judge(answer == Answer(BROKEN, b"", READ_FAULT), f"{command}, standard input closed", answer)
    answer = ask(words_of(command, plan, trace), preexec_fn=lambda: os.close(1))
    found.judge(answer == Answer(BROKEN, b"", WRITE_FAULT), f"{command}, standard output closed", answer)
    answer = ask(words_of(command, plan, trace), preexec_fn=lambda: os.close(2))
    found.judge(answer.status == usual.status and (varies(command) or answer == usual), f"{command}, standard error closed", answer)
    answer = ask(words_of(command, kept("refused", b"x\n"), trace), preexec_fn=lambda: os.close(2))
    found.judge(answer == Answer(REFUSED, b"", b""), f"{command}, refused with standard error closed", answer)


def full_file(found, command, given=HANDOVER_WITHIN_A_TICK, sizes=None):
    """A file that may not grow past n bytes holds the first n bytes of the answer."""
    plan, trace = kept("plan", given.plan), kept("trace", given.trace)
    usual = ask(words_of(command, plan, trace)).out
    for most in sizes or range(len(usual) + 1):
        def begin():
            signal.signal(signal.SIGXFSZ, signal.SIG_IGN)
            resource.setrlimit(resource.RLIMIT_FSIZE, (most, most))
        path = kept("out", b"")
        with open(path, "wb") as out:
            answer = ended(started(words_of(command, plan, trace), stdout=out, preexec_fn=begin, restore_signals=False))
        written = path.read_bytes()
        due = (BROKEN, WRITE_FAULT) if most < len(usual) else (GOOD, b"")
        part = varies(command) or usual.startswith(written)
        found.judge(answer == due and len(written) == most and part, f"{command}, a file of at most {most} bytes", answer)


def gone_files(found, command):
    """Paths that are gone, or that end nowhere: a read fault, before any other fault but usage."""
    good, gone = kept("refused", b"x\n"), kept("gone", b"")
    gone.unlink()
    looped = gone.with_name("looped")
    if not looped.is_symlink():
        looped.symlink_to(looped)
    for path in (gone, looped, good / "below", "/dev/null/x", "", "a" * 300, "/" + "a/" * 3000):
        for words in [words_of(command, path, good)] + [words_of(command, good, path)] * judges(command):
            answer = ask(words)
            found.judge(answer == Answer(BROKEN, b"", READ_FAULT), f"{command}, path {str(path)[:40]}", answer)
    answer = ask(words_of(command, good.parent, good))
    found.judge(answer == Answer(BROKEN, b"", READ_FAULT), f"{command}, a folder", answer)


def fifo(name):
    path = kept(name, b"")
    path.unlink()
    os.mkfifo(path)
    return path


def file_gone_while_read(found, command):
    """A plan's file is removed while it is read: what was opened is read to its end."""
    usual = ask(words_of(command, kept("plan", HANDOVER_WITHIN_A_TICK.plan), kept("trace", HANDOVER_WITHIN_A_TICK.trace)))
    path, half = fifo("plan"), len(HANDOVER_WITHIN_A_TICK.plan) // 2
    ran = started(words_of(command, path, kept("trace", HANDOVER_WITHIN_A_TICK.trace)))
    with open(path, "wb", buffering=0) as plan:
        plan.write(HANDOVER_WITHIN_A_TICK.plan[:half])
        path.unlink()
        time.sleep(REST / 10)
        plan.write(HANDOVER_WITHIN_A_TICK.plan[half:])
    out, line = ran.communicate(timeout=SECONDS)
    found.judge(ran.returncode == usual.status and (varies(command) or out == usual.out), f"{command}, a file removed while it is read", line)


def writer_gone(found, command):
    """Who writes the plan goes away in mid-record: the answer is that to the cut text."""
    part = HANDOVER_WITHIN_A_TICK.plan[:-7]
    trace = kept("trace", HANDOVER_WITHIN_A_TICK.trace)
    usual = ask(words_of(command, kept("plan", part), trace))
    ran = started(words_of(command, "-", trace), stdin=subprocess.PIPE)
    out, line = ran.communicate(part, timeout=SECONDS)
    found.judge(Answer(ran.returncode, out, line) == usual, f"{command}, a writer that goes away", line)


def signals(found, command):
    """A signal that ends a program ends this one; one that stops it for a while changes nothing."""
    words = words_of(command, "-", kept("trace", WORK_THEN_IDLE.trace))
    usual = ask(words_of(command, kept("plan", WORK_THEN_IDLE.plan), kept("trace", WORK_THEN_IDLE.trace)))
    for number in (signal.SIGTERM, signal.SIGINT, signal.SIGHUP):
        ran = started(words, stdin=subprocess.PIPE, preexec_fn=lambda: signal.signal(number, signal.SIG_DFL))
        time.sleep(REST / 10)
        ran.send_signal(number)
        out, line = ran.communicate(timeout=SECONDS)
        found.judge((ran.returncode, out, line) == (-number, b"", b""), f"{command}, {number.name}", (ran.returncode, out, line))
    ran = started(words, stdin=subprocess.PIPE)
    ran.stdin.write(WORK_THEN_IDLE.plan)
    ran.stdin.flush()
    ran.send_signal(signal.SIGSTOP)
    time.sleep(REST / 10)
    ran.send_signal(signal.SIGCONT)
    out, line = ran.communicate(timeout=SECONDS)
    found.judge(Answer(ran.returncode, out, line) == usual, f"{command}, stopped and continued", (ran.returncode, out, line))


def ended_while_it_runs(found, command):
    """Ended at any moment a run has written nothing, or a first part of a trace."""
    path = kept("plan", LONG_PLAN)
    for milliseconds in range(0, 100, 4):
        out = kept("out", b"")
        with open(out, "wb") as to:
            ran = started(words_of(command, path, ""), stdout=to)
            time.sleep(milliseconds / 1000)
            ran.kill()
            ran.communicate(timeout=SECONDS)
        written = out.read_bytes()
        found.judge(not written or written.startswith(b"msrp-trace,1,8,20000\n"), f"{command}, killed after {milliseconds} ms", written[:40])


def pieces():
    """All pieces of work of these sweeps, by the sweep's name."""
    checks = (closed_streams, full_file, gone_files, file_gone_while_read, writer_gone, signals)
    return {
        "pipes, streams, files, signals": [(check, command) for command in COMMANDS for check in checks]
        + [(closed_while_writing, command, ignored) for command in LONG_COMMANDS for ignored in (False, True)]
        + [(stopped_reader, command, goes_on) for command in LONG_COMMANDS for goes_on in (True, False)]
        + [(full_file, "sim", PAGES, SIZES)]
        + [(ended_while_it_runs, command) for command in COMMANDS if command == "run"],
    }
