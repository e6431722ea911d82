"""Verdicts: on a whole trace, or row by row."""
from __future__ import annotations

import re
import threading
import weakref
from ctypes import byref
from dataclasses import dataclass, field
from typing import List, Optional

from ._library import DONE, FAULT, GOOD, REFUSED, Found, Handle, Numbers, ask, ask_text, library
from .errors import error_of, text_of
from .plans import Plan, PlanLike
from .rows import Row, RowLike, Trace, TraceLike

_LINE = re.compile(r"^row \d+ \(record \d+, line (\d+)\)", re.M)
_EXPECTED = re.compile(r"^expected: (.*)", re.M)


@dataclass(frozen=True)
class Verdict:
    """True for a legal run. Otherwise `row` is the first row that violates a rule, from 1.

    `rule` is the lowest rule that it violates, `line` its line in the trace's text, and `expected`
    the row that is expected there. `why` explains the verdict. A field that doesn't apply is None.

    >>> plan = msrp.Plan.example()
    >>> verdict = msrp.audit(plan, list(msrp.simulate(plan))[:3])
    >>> bool(verdict), verdict.row, verdict.rule, verdict.line
    (False, 4, 'A6', None)
    """

    row: Optional[int] = None
    rule: Optional[str] = None
    line: Optional[int] = None
    expected: Optional[str] = None
    why: str = field(default="good", repr=False)

    def __bool__(self) -> bool:
        return self.row is None

    def __str__(self) -> str:
        return self.why


_GOOD_SO_FAR = Verdict()


def audit(plan: PlanLike, trace: TraceLike) -> Verdict:
    """The verdict on a trace. It is true exactly if the trace is a legal run of the plan.

    >>> plan = msrp.Plan.example()
    >>> trace = msrp.simulate(plan)
    >>> print(msrp.audit(plan, trace).why.splitlines()[0])
    good
    >>> verdict = msrp.audit(plan, trace.text.replace("2,1,grant", "2,1,spin"))
    >>> verdict.row, verdict.rule, verdict.line, verdict.expected
    (6, 'A5', 7, '2,1,grant,b,0,g,-')
    """
    plan = Plan.of(plan)
    found, why = text_of("msrp_why", bytes(plan), bytes(Trace.of(trace, plan)))
    if not found.row:
        return Verdict(why=why.rstrip())
    line, expected = (pattern.search(why) for pattern in (_LINE, _EXPECTED))
    places = int(line[1]) if line else None, expected[1] if expected else None
    return Verdict(found.row, f"A{found.rule}", *places, why.rstrip())


class Auditor:
    """An auditor that is fed row by row. Threads may share it: each call waits for the one before.

    The library keeps a plan in memory until the process ends. So for many traces of one plan make
    one auditor, and call `restart`.

    >>> plan = msrp.Plan.example()
    >>> auditor = msrp.Auditor(plan)
    >>> all(auditor.feed(row) for row in msrp.simulate(plan))
    True
    >>> bool(auditor.end())
    True
    """

    def __init__(self, plan: PlanLike) -> None:
        self.plan, self._handle, self._lock = Plan.of(plan), Handle(), threading.Lock()
        self.rows: List[Row] = []
        status, found = ask("msrp_auditor_new", bytes(self.plan), byref(self._handle))
        if status != GOOD:
            raise error_of(status, found, bytes(self.plan))
        weakref.finalize(self, library.msrp_auditor_free, byref(self._handle))

    def feed(self, row: RowLike) -> Verdict:
        """The verdict on all rows so far. After a fault it stays the same.

        >>> auditor = msrp.Auditor(msrp.Plan.example())
        >>> bool(auditor.feed((0, 0, "take", "a", 0, "g")))
        True
        >>> verdict = auditor.feed((0, 1, "run", "b", 0))
        >>> verdict.row, verdict.rule, verdict.expected
        (2, 'A4', '0,1,queue,b,0,g,1')
        """
        row = Row.of(row)
        numbers = self.plan._as_numbers(row)
        with self._lock:
            self.rows.append(row)
            return self._verdict(*ask("msrp_auditor_feed", byref(self._handle), byref(numbers)))

    def end(self) -> Verdict:
        """The verdict on the rows so far as a whole trace. More rows may be fed afterwards.

        >>> auditor = msrp.Auditor(msrp.Plan.example())
        >>> auditor.end().rule
        'A6'
        """
        with self._lock:
            return self._verdict(*ask("msrp_auditor_end", byref(self._handle)))

    def due(self, core: int) -> Optional[Row]:
        """The row that is expected of a core: fed next, it has no fault. None after the last row.

        A core has one row in each tick. The next one is expected when all others have theirs.

        >>> auditor = msrp.Auditor(msrp.Plan.example())
        >>> auditor.due(1)
        Row(tick=0, core=1, kind='take', task='b', job=0, resource='g', ahead=None)
        >>> bool(auditor.feed((0, 0, "take", "a", 0, "g")))
        True
        >>> auditor.due(1)
        Row(tick=0, core=1, kind='queue', task='b', job=0, resource='g', ahead=1)
        """
        numbers = Numbers()
        with self._lock:
            status, found = ask("msrp_auditor_due", byref(self._handle), core, byref(numbers))
        if status == DONE:
            return None
        if status != GOOD:
            raise error_of(status, found)
        return self.plan._as_row(numbers)

    def why(self) -> str:
        """The verdict on the rows so far, and its cause in words; empty while nothing is wrong.

        >>> auditor = msrp.Auditor(msrp.Plan.example())
        >>> auditor.why()
        ''
        >>> bool(auditor.feed((0, 1, "run", "b", 0)))
        False
        >>> print(auditor.why().splitlines()[1])
        row 1: 0,1,run,b,0,-,-
        """
        with self._lock:
            status, found, words = ask_text("msrp_auditor_why", byref(self._handle))
        if status not in (GOOD, FAULT, REFUSED):
            raise error_of(status, found)
        return words.rstrip()

    def restart(self) -> None:
        """Begins another trace of the same plan.

        >>> auditor = msrp.Auditor(msrp.Plan.example())
        >>> bool(auditor.feed((3, 0, "idle")))
        False
        >>> auditor.restart()
        >>> bool(auditor.feed((0, 0, "take", "a", 0, "g")))
        True
        """
        with self._lock:
            status = library.msrp_auditor_again(byref(self._handle))
            if status != GOOD:
                raise error_of(status, Found())
            self.rows.clear()

    def _verdict(self, status: int, found: Found) -> Verdict:
        if status == GOOD:
            return _GOOD_SO_FAR
        if status != FAULT:
            found.number += 1  # the text's first record is no row
            raise error_of(status, found, bytes(self.plan), bytes(Trace.of(self.rows, self.plan)))
        verdict, rule = audit(self.plan, self.rows), f"A{found.rule}"
        if (verdict.row, verdict.rule) == (found.row, rule):
            return verdict
        # Only some queue rows have an ahead: their text has none, and may be legal.
        return Verdict(found.row, rule, why=f"fault,{found.row},{rule}")
