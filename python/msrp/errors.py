"""What the calls raise."""
from __future__ import annotations

import re
from typing import Any, Optional, Tuple

from ._library import FAULT, GOOD, MEMORY, REFUSED, TOO_LONG, Found, ask_text

_TRACE_WORDS = {
    1: "the first record isn't that of a trace of this plan",
    2: "wrong number of fields",
    3: "tick or core isn't a number, or job or ahead is neither a number nor '-'",
    4: "unknown kind of row",
    5: "the plan has no such task or resource",
    6: "the fields don't fit the kind of row",
}
_PLAN_WORDS = re.compile(r"plan(?::(\d+))?: error P\d+: (.*)")


class Error(Exception):
    """A plan, a trace or an argument is refused, or a trace isn't a legal run.

    `code` is a code of docs/FAULTS.md, `record` and `line` say where (None if unknown), and `words`
    say why. Records are counted from 1, without empty lines.

    >>> try:
    ...     msrp.Plan(b"msrp,1\\n\\ncores,9\\nticks,6\\n")
    ... except msrp.Error as error:
    ...     print(error.code, error.record, error.line, error.words)
    P7 2 3 cores is 9; must be 1 to 8
    """

    def __init__(self, code: str, words: str, record: Optional[int] = None, line: Optional[int] = None) -> None:
        super().__init__(code, words, record, line)
        self.code, self.words, self.record, self.line = code, words, record, line

    def __str__(self) -> str:
        places = [f"{name} {number}" for name, number in (("record", self.record), ("line", self.line)) if number]
        return f"{self.code} at {', '.join(places)}: {self.words}" if places else f"{self.code}: {self.words}"


class PlanError(Error, ValueError):
    """A plan is refused, by a code from P1 to P14.

    >>> try:
    ...     msrp.Plan(b"msrp,3\\n")
    ... except msrp.PlanError as error:
    ...     print(error.code)
    P1
    """


class TraceError(Error, ValueError):
    """A trace can't be read, by a code from R1 to R6.

    >>> msrp.audit(msrp.Plan.example(), b"msrp-trace,1,2,6\\n0,0,idle\\n")
    Traceback (most recent call last):
    msrp.errors.TraceError: R2 at record 2, line 2: wrong number of fields [0,0,idle]
    """


class FaultError(Error):
    """A trace isn't a legal run, so it has no report. `code` is the rule, `words` is `Verdict.why`.

    >>> plan = msrp.Plan.example()
    >>> try:
    ...     msrp.report(plan, b"msrp-trace,1,2,6\\n0,0,idle,-,-,-\\n")
    ... except msrp.FaultError as error:
    ...     print(error.code, error.record, error.line)
    A3 2 2
    """


class UsageError(Error, ValueError):
    """The plan has no such order or ticks, or a text has 16 MiB or more.

    >>> msrp.simulate(msrp.Plan.example(), order="up")
    Traceback (most recent call last):
    msrp.errors.UsageError: usage: unknown order 'up'; must be asc, desc, rot or a list of cores
    """


def _place(text: bytes, record: int) -> Tuple[Optional[int], str]:
    """The line of a record and its text, if no quote may hold line ends before it."""
    lines = re.split(rb"\r\n|\r|\n", text)
    filled = [(number, line) for number, line in enumerate(lines, 1) if line]
    if b'"' in text or not record <= len(filled):
        return None, ""
    number, line = filled[record - 1]
    return number, f" [{line.decode(errors='replace')}]"


def _refused_plan(code: int, record: int, plan: bytes) -> PlanError:
    why = _PLAN_WORDS.match(ask_text("msrp_why_plan", plan)[2])
    line = int(why[1]) if why and why[1] else None
    return PlanError(f"P{code}", why[2] if why else "refused", record, line)


def error_of(status: int, found: Found, plan: bytes = b"", trace: bytes = b"") -> Exception:
    """What to raise for a status that is neither good nor a fault."""
    if status == REFUSED and found.plan_code:
        return _refused_plan(found.plan_code, found.number, plan)
    if status == REFUSED:
        line, record = _place(trace, found.number)
        words = _TRACE_WORDS.get(found.trace_code, "refused") + record
        return TraceError(f"R{found.trace_code}", words, found.number, line)
    if status == MEMORY:
        return MemoryError("msrp: out of memory")
    if status == TOO_LONG:
        return UsageError("usage", "a text has 16 MiB or more")
    return UsageError("usage", "the plan has no such order or ticks, or the call is out of turn")


def text_of(call: str, *arguments: Any) -> Tuple[Found, str]:
    """The text of a call, and the fault that it found; else the error is raised."""
    status, found, text = ask_text(call, *arguments)
    if status in (GOOD, FAULT):
        return found, text
    raise error_of(status, found, *(argument for argument in arguments if isinstance(argument, bytes)))
