"""Reports, levels and ceilings, and pictures."""
from __future__ import annotations

import html
import os
from dataclasses import dataclass
from pathlib import Path
from typing import Dict, List, Optional, Union

from .errors import FaultError, text_of
from .judging import audit
from .plans import Plan, PlanLike
from .rows import Trace, TraceLike

TEXT, SVG = range(2)


@dataclass(frozen=True)
class TaskReport:
    """What happened to a task in a trace, and bounds on what can happen, in ticks.

    docs/REPORT.md explains the fields.

    >>> plan = msrp.Plan.example()
    >>> b = msrp.report(plan, msrp.simulate(plan))[1]
    >>> b.name, b.worst_response, b.worst_spin, b.spin_bound
    ('b', 5, 1, 3)
    """

    name: str
    core: int
    jobs: int
    finished: int
    late: int
    worst_response: int
    spin: int
    worst_spin: int
    blocked: int
    worst_blocked: int
    spin_bound: int
    blocked_bound: int


def report(plan: PlanLike, trace: TraceLike) -> List[TaskReport]:
    """The report of a legal run: one item for each task, in the order of the plan.

    >>> plan = msrp.Plan.example()
    >>> [task.late for task in msrp.report(plan, msrp.simulate(plan))]
    [0, 0]
    """
    plan = Plan.of(plan)
    trace = Trace.of(trace, plan)
    found, text = text_of("msrp_report", bytes(plan), bytes(trace))
    if found.row:
        verdict = audit(plan, trace)
        raise FaultError(f"A{found.rule}", verdict.why, found.row + 1, verdict.line)
    records = (line.split(",") for line in text.splitlines()[1:])
    return [TaskReport(name, *map(int, numbers)) for name, *numbers in records]


@dataclass(frozen=True)
class Levels:
    """The levels of tasks, the ceilings of resources (None if global), and the top of each core.

    >>> msrp.check(msrp.Plan.example())
    Levels(levels={'a': 1, 'b': 1}, ceilings={'g': None}, tops=[1, 1])
    """

    levels: Dict[str, int]
    ceilings: Dict[str, Optional[int]]
    tops: List[int]


def check(plan: PlanLike) -> Levels:
    """The levels and ceilings of a plan.

    >>> msrp.check(msrp.Plan.example()).levels["b"]
    1
    """
    made = Levels({}, {}, [])
    _, lines = text_of("msrp_check", bytes(Plan.of(plan)))
    for word, name, *rest in (line.split(",") for line in lines.splitlines()):
        if word == "level":
            made.levels[name] = int(rest[0])
        elif word == "ceiling":
            made.ceilings[name] = None if rest[0] == "global" else int(rest[1])
        else:
            made.tops.append(int(rest[0]))
    return made


@dataclass(frozen=True)
class Picture:
    """A picture of a trace in SVG, which a notebook shows, and in plain text.

    `fault` says why the trace isn't a legal run; None if it is one.

    >>> plan = msrp.Plan.example()
    >>> picture = msrp.picture(plan, msrp.simulate(plan))
    >>> picture.svg.startswith("<svg"), picture.fault
    (True, None)
    """

    svg: str
    text: str
    fault: Optional[str] = None

    def write(self, path: Union[str, "os.PathLike[str]"]) -> None:
        """Writes the picture in SVG into a file.

        >>> import os
        >>> plan = msrp.Plan.example()
        >>> msrp.picture(plan, msrp.simulate(plan)).write(os.devnull)
        """
        Path(path).write_text(self.svg, encoding="utf-8")

    def _repr_svg_(self) -> str:
        return self.svg

    def _repr_html_(self) -> str:
        words = f"<pre>{html.escape(self.fault)}</pre>" if self.fault else ""
        return f'<div style="overflow-x: auto">{self.svg}</div>{words}'

    def __str__(self) -> str:
        return self.text

    def __repr__(self) -> str:
        return "<msrp.Picture>"


def picture(plan: PlanLike, trace: TraceLike, start: int = 0, stop: int = 0) -> Picture:
    """The picture of the ticks from `start` up to `stop`, exclusive.

    Without `stop` it shows at most 200 ticks. A faulty trace is shown up to the fault.

    >>> plan = msrp.Plan.example()
    >>> trace = msrp.simulate(plan)
    >>> faulty = trace.text.replace("2,1,grant", "2,1,spin")
    >>> print(msrp.picture(plan, faulty).fault.splitlines()[0])
    fault,6,A5
    """
    plan = Plan.of(plan)
    trace = Trace.of(trace, plan)
    both = bytes(plan), bytes(trace)
    (_, text), (found, svg) = (text_of("msrp_view", *both, style, start, stop) for style in (TEXT, SVG))
    return Picture(svg, text, audit(plan, trace).why if found.row else None)
