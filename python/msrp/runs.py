"""Runs: simulated, or on your own threads."""
from __future__ import annotations

import threading
import time
import weakref
from ctypes import byref, c_uint32
from typing import Callable, Iterator, List, Sequence, Union

from ._library import DONE, GOOD, WAIT, Found, Handle, Numbers, ask, library
from .errors import UsageError, error_of, text_of
from .plans import Plan, PlanLike
from .rows import Row, Trace

ORDERS = {"asc": 0, "desc": 1, "rot": 2}
LIST = 3


def simulate(plan: PlanLike, order: Union[str, Sequence[int]] = "asc", *, ahead: bool = True) -> Trace:
    """The trace of the plan's only legal run in which the cores act in this order.

    `order` says in which order the cores act in each tick: "asc", "desc", or "rot" (from core t
    mod m on in tick t). Or it lists the core of each row, tick after tick. Without `ahead` the
    trace is of version 1.

    >>> [str(row) for row in msrp.simulate(msrp.Plan.example(), "desc").rows[:2]]
    ['0,1,take,b,0,g,-', '0,0,queue,a,0,g,1']
    """
    if isinstance(order, str) and order not in ORDERS:
        raise UsageError("usage", f"unknown order {order!r}; must be asc, desc, rot or a list of cores")
    number = ORDERS[order] if isinstance(order, str) else LIST
    cores = () if isinstance(order, str) else order
    listed = (c_uint32 * len(cores))(*cores)
    _, text = text_of("msrp_sim", bytes(Plan.of(plan)), number, listed, len(cores), 2 if ahead else 1)
    return Trace(text)


def _pause() -> None:
    time.sleep(0)


class Core:
    """A core of a `Run`. One thread at a time uses it.

    >>> [core.number for core in msrp.Run(msrp.Plan.example()).cores]
    [0, 1]
    """

    def __init__(self, run: Run, number: int, handle: Handle) -> None:
        self.number, self._run, self._handle, self._has_ended = number, run, handle, False

    def turns(self, wait: Callable[[], object] = _pause) -> Iterator[Row]:
        """The rows of this core, each when the core is let into its tick.

        A row's turn ends when the next row is asked for. A core is let into a tick when all cores
        have ended their turns of the previous one; until then `wait` is called repeatedly. If the
        loop of another core is left early, this one raises RuntimeError.

        >>> task = msrp.Task("a", core=0, period=2, body=[("run", 1)])
        >>> run = msrp.Run(msrp.Plan.build(cores=1, ticks=3, tasks=[task]))
        >>> [row.kind for row in run.cores[0].turns()]
        ['run', 'idle', 'run']
        """
        row, place, at = Numbers(), c_uint32(), byref(self._handle)
        while (status := library.msrp_core_turn(at, byref(row), byref(place))) != DONE:
            if status == GOOD:
                try:
                    yield self._run.plan._as_row(row)
                except GeneratorExit:
                    self._run._is_left.set()
                    raise
                library.msrp_core_arrive(at)
            elif status != WAIT:
                raise error_of(status, Found())
            elif self._run._is_left.is_set():
                raise RuntimeError("msrp: the loop of another core was left early")
            else:
                wait()
        self._has_ended = True


def _free(run: Handle, cores: List[Handle]) -> None:
    for core in cores:
        library.msrp_core_free(byref(core))
    library.msrp_run_free(byref(run))


class Run:
    """A run of a plan on your own threads, one for each core.

    >>> import threading
    >>> run = msrp.Run(msrp.Plan.example())
    >>> def drive(core):
    ...     for row in core.turns():
    ...         pass  # the work of row.task
    >>> threads = [threading.Thread(target=drive, args=(core,)) for core in run.cores]
    >>> for thread in threads: thread.start()
    >>> for thread in threads: thread.join()
    >>> bool(msrp.audit(run.plan, run.trace()))
    True
    """

    def __init__(self, plan: PlanLike) -> None:
        self.plan, self._handle, self._is_left = Plan.of(plan), Handle(), threading.Event()
        status, found = ask("msrp_run_new", bytes(self.plan), byref(self._handle))
        if status != GOOD:
            raise error_of(status, found, bytes(self.plan))
        handles = [Handle() for _ in range(self.plan.cores)]
        weakref.finalize(self, _free, self._handle, handles)
        for handle in handles:
            status, found = ask("msrp_run_core", byref(self._handle), byref(handle))
            if status != GOOD:
                raise error_of(status, found)
        self.cores = tuple(Core(self, number, handle) for number, handle in enumerate(handles))
        self._unjoined = list(self.cores)

    def trace(self) -> Trace:
        """The trace, once the loops of all cores have ended.

        >>> msrp.Run(msrp.Plan.example()).trace()
        Traceback (most recent call last):
        msrp.errors.UsageError: usage: core 0 has ticks left
        """
        while self._unjoined:
            core = self._unjoined[0]
            if not core._has_ended or library.msrp_run_join(byref(self._handle), byref(core._handle)) != GOOD:
                raise UsageError("usage", f"core {core.number} has ticks left")
            del self._unjoined[0]
        return Trace(text_of("msrp_run_text", byref(self._handle), 2)[1])
