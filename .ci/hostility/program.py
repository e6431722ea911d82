"""The program: its commands, how it is asked, and what it may answer."""
import re
import subprocess
from pathlib import Path
from typing import NamedTuple

TOP = Path(__file__).resolve().parent.parent.parent
PROGRAM = TOP / "crates" / "msrp" / "out" / "msrp"
VIEWER = TOP / "crates" / "msrp_view" / "out" / "msrp_view"
SECONDS = 60  # a command that takes longer hangs: `run` on eight threads has few processors where sweeps go side by side

# The commands that the program has: most sweeps go over these. A command that comes later is added
# here alone.
COMMANDS = ("sim", "sim --order desc", "sim --order rot --ahead", "run", "run --ahead", "audit", "audit --parallel", "report", "check", "check --text")
PICTURES = ("--text",)  # the command of the second program whose reads and writes fail in turn

GOOD, FAULT, REFUSED, USAGE, WANT, BROKEN = range(6)  # the statuses
USAGE_FAULT, MEMORY, THREADS, READ_FAULT, WRITE_FAULT = (b"msrp: %s\n" % what for what in (b"usage", b"memory", b"threads", b"read fault", b"write fault"))
REFUSAL = re.compile(rb"msrp: (plan: P([1-9]|1[0-4])|trace: R[1-6]) at record [1-9][0-9]*\n")
VERDICT = re.compile(rb"fault,[1-9][0-9]*,A[1-7]\n")
HEAD = re.compile(rb"msrp-trace,[12],([1-8]),([1-9][0-9]*)")
NUMBER, NAME = rb"(0|[1-9][0-9]*)", rb"[a-z][a-z0-9_]{0,15}"
LOCKS = rb"(lock|unlock|take|queue|spin|grant|release)"


def record(*shapes):
    """The pattern of one of these records, in which N stands for a number, A for a name and L for a
    kind of lock row."""
    return re.compile(b"|".join(shape.replace(b"N", NUMBER).replace(b"A", NAME).replace(b"L", LOCKS) for shape in shapes))


RECORDS = {
    "trace": record(rb"N,[0-7],idle,-,-,-(,-)?", rb"N,[0-7],run,A,N,-(,-)?", rb"N,[0-7],L,A,N,A(,-|,N)?"),
    "report": record(rb"A(,N){11}"),
    "check": record(rb"level,A,N", rb"ceiling,A,(local,N|global,-)", rb"top,[0-7],N"),
    "text": record(rb"(msrp|cores|ticks|release|op,run),N", rb"(resource|op,lock|op,unlock),A", rb"task,A(,N){4}", rb"listed,A(,N){2}"),
}


class Answer(NamedTuple):
    """What the program gave: its status (below 0 the signal that ended it, None where it hung), its
    output and the line of its fault."""

    status: "int | None"
    out: bytes
    line: bytes

    def __str__(self):
        return f"status {self.status}, {len(self.out)} bytes {self.out[:60]!r}, {self.line[:80]!r}"


def judges(command):
    """Whether the command reads a trace too."""
    return command.split()[0] in ("audit", "report", *PICTURES)


def makes_trace(command):
    return command.split()[0] in ("sim", "run")


def varies(command):
    """Whether the answer may differ from run to run."""
    return command.split()[0] == "run"


def program_of(command):
    return VIEWER if command in PICTURES else PROGRAM


def fault_of(command, line):
    """The line of a fault, as the command's program tells it."""
    return line.replace(PROGRAM.name.encode(), program_of(command).name.encode(), 1)


def words_of(command, plan, trace):
    return [*command.split(), str(plan)] + ([str(trace)] if judges(command) else [])


def ask(words, program=PROGRAM, **how):
    """Runs the program on these words."""
    how.setdefault("stdin", subprocess.DEVNULL)
    try:
        ran = subprocess.run([str(program), *words], stdout=subprocess.PIPE, stderr=subprocess.PIPE, timeout=SECONDS, **how)
    except subprocess.TimeoutExpired as hung:
        return Answer(None, hung.stdout or b"", hung.stderr or b"")
    return Answer(ran.returncode, ran.stdout, ran.stderr)


def is_whole(command, out):
    """Whether this is a whole answer to the command, by its shape."""
    if command.startswith("audit"):
        return out == b"good\n"
    if not out.endswith(b"\n"):
        return False
    records = out[:-1].split(b"\n")
    if makes_trace(command):
        head = HEAD.fullmatch(records[0])
        return bool(head) and len(records) == 1 + int(head[1]) * int(head[2]) and all(map(RECORDS["trace"].fullmatch, records[1:]))
    if command == "report":
        return records[0] == b"msrp-report,2" and all(map(RECORDS["report"].fullmatch, records[1:]))
    return all(map(RECORDS["text" if command == "check --text" else "check"].fullmatch, records))


def is_named(command, answer):
    """Whether this is one of the answers that the command may give to an input that ends, with
    memory and threads at hand."""
    if answer.status == GOOD:
        return not answer.line and is_whole(command, answer.out)
    if answer.status == FAULT:
        return judges(command) and not answer.line and bool(VERDICT.fullmatch(answer.out))
    return answer.status == REFUSED and not answer.out and bool(REFUSAL.fullmatch(answer.line))
