"""Simulates, audits, reports and draws under the Multiprocessor Stack Resource Policy.

All answers come from the proved library for C; this package only converts them. docs/PYTHON.md is
its guide.

>>> import msrp
>>> plan = msrp.Plan.example()
>>> trace = msrp.simulate(plan)
>>> bool(msrp.audit(plan, trace))
True
"""
from .errors import Error, FaultError, PlanError, TraceError, UsageError
from .judging import Auditor, Verdict, audit
from .plans import Plan, PlanLike, Step, Task, section
from .reports import Levels, Picture, TaskReport, check, picture, report
from .rows import Row, RowLike, Trace, TraceLike
from .runs import Core, Run, simulate

__version__ = "0.2.0"
__all__ = [
    "Auditor", "Core", "Error", "FaultError", "Levels", "Picture", "Plan", "PlanError", "PlanLike",
    "Row", "RowLike", "Run", "Step", "Task", "TaskReport", "Trace", "TraceError", "TraceLike",
    "UsageError", "Verdict", "audit", "check", "picture", "report", "section", "simulate",
]
