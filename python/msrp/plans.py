"""Plans: cores, ticks, resources and tasks."""
from __future__ import annotations

import os
from dataclasses import dataclass
from pathlib import Path
from typing import Iterable, Iterator, List, Optional, Sequence, Tuple, Union

from ._library import NONE, Numbers
from .errors import text_of
from .rows import KINDS, Row

Step = Tuple[str, Union[int, str]]
PlanLike = Union["Plan", bytes, str, "os.PathLike[str]"]


def section(resource: str, *body: Step) -> List[Step]:
    """A critical section: `body` between the lock and the unlock of a resource.

    >>> msrp.section("bus", ("run", 3))
    [('lock', 'bus'), ('run', 3), ('unlock', 'bus')]
    """
    return [("lock", resource), *body, ("unlock", resource)]


@dataclass(frozen=True)
class Task:
    """A task of a core, released every `period` ticks from `offset` on, or at the given `releases`.

    `deadline` is relative to the release (default: the period). `body` has the steps of a
    job: `("run", N)` for N ticks of work, `("lock", NAME)` and `("unlock", NAME)`.

    >>> body = [("run", 2), *msrp.section("bus", ("run", 1))]
    >>> msrp.Task("motor", core=0, period=10, body=body).length
    5
    """

    name: str
    core: int
    period: Optional[int] = None
    deadline: Optional[int] = None
    offset: int = 0
    releases: Sequence[int] = ()
    body: Sequence[Step] = ()

    @property
    def length(self) -> int:
        """The number of ticks that a job takes if it never waits.

        >>> msrp.Plan.example().tasks[0].length
        3
        """
        return sum(int(of) if what == "run" else 1 for what, of in self.body)

    def _records(self) -> Iterator[Tuple[object, ...]]:
        deadline = self.period if self.deadline is None else self.deadline
        if self.releases:
            yield "listed", self.name, self.core, deadline
            yield from (("release", tick) for tick in self.releases)
        else:
            yield "task", self.name, self.core, self.period, deadline, self.offset
        yield from (("op", *step) for step in self.body)


def _step(what: str, of: str) -> Step:
    return what, int(of) if what == "run" else of


def _tasks(records: Iterable[List[str]]) -> Iterator[Task]:
    """The tasks of a plan's own text."""
    groups: List[List[List[str]]] = []
    for record in records:
        if record[0] in ("task", "listed"):
            groups.append([])
        if groups:
            groups[-1].append(record)
    for (word, name, core, *times), *rest in groups:
        body = tuple(_step(*record[1:]) for record in rest if record[0] == "op")
        if word == "task":
            period, deadline, offset = map(int, times)
            yield Task(name, int(core), period, deadline, offset, body=body)
        else:
            releases = tuple(int(record[1]) for record in rest if record[0] == "release")
            yield Task(name, int(core), deadline=int(times[0]), releases=releases, body=body)


class Plan:
    """A plan that the library accepts: its `text`, `cores`, `ticks`, `resources` and `tasks`.

    >>> plan = msrp.Plan(b"msrp,1\\ncores,1\\nticks,2\\ntask,a,0,2,2,0\\nop,run,1\\n")
    >>> plan.tasks
    (Task(name='a', core=0, period=2, deadline=2, offset=0, releases=(), body=(('run', 1),)),)
    """

    def __init__(self, text: Union[bytes, str]) -> None:
        _, self.text = text_of("msrp_plan_text", text.encode() if isinstance(text, str) else text)
        records = [line.split(",") for line in self.text.splitlines()]
        self.cores, self.ticks = int(records[1][1]), int(records[2][1])
        self.resources = tuple(record[1] for record in records if record[0] == "resource")
        self.tasks = tuple(_tasks(records))
        names = KINDS, [task.name for task in self.tasks], self.resources
        self._numbers = [{name: at for at, name in enumerate(them)} for them in names]

    @classmethod
    def of(cls, source: PlanLike) -> Plan:
        """The plan itself, or that of a text, or that of a path. A string with line ends is a text.

        >>> plan = msrp.Plan.example()
        >>> msrp.Plan.of(plan) is plan and msrp.Plan.of(plan.text) == plan
        True
        """
        if isinstance(source, Plan):
            return source
        if isinstance(source, bytes) or (isinstance(source, str) and "\n" in source):
            return cls(source)
        return cls.read(source)

    @classmethod
    def read(cls, path: Union[str, "os.PathLike[str]"]) -> Plan:
        """The plan of a file.

        >>> import tempfile, pathlib
        >>> path = pathlib.Path(tempfile.mkdtemp(), "plan.csv")
        >>> msrp.Plan.example().write(path)
        >>> msrp.Plan.read(path).cores
        2
        """
        return cls(Path(path).read_bytes())

    @classmethod
    def build(cls, *, cores: int, ticks: int, tasks: Sequence[Task], resources: Optional[Sequence[str]] = None) -> Plan:
        """A plan of tasks. Without `resources` it has the resources that the tasks lock.

        >>> tasks = [msrp.Task("a", core=0, period=5, body=msrp.section("g", ("run", 1)))]
        >>> print(msrp.Plan.build(cores=1, ticks=10, tasks=tasks).text, end="")
        msrp,1
        cores,1
        ticks,10
        resource,g
        task,a,0,5,5,0
        op,lock,g
        op,run,1
        op,unlock,g
        """
        locked = (str(of) for task in tasks for what, of in task.body if what == "lock")
        version = 2 if any(task.releases for task in tasks) else 1
        records: List[Tuple[object, ...]] = [("msrp", version), ("cores", cores), ("ticks", ticks)]
        records += [("resource", name) for name in (dict.fromkeys(locked) if resources is None else resources)]
        records += [record for task in tasks for record in task._records()]
        return cls("".join(",".join(map(str, record)) + "\n" for record in records))

    @classmethod
    def example(cls) -> Plan:
        """The plan of the README: two cores want one resource in tick 0.

        >>> [task.name for task in msrp.Plan.example().tasks]
        ['a', 'b']
        """
        body = section("g", ("run", 1))
        tasks = [Task(name, core, period=20, deadline=8, body=body) for core, name in enumerate("ab")]
        return cls.build(cores=2, ticks=6, tasks=tasks)

    def write(self, path: Union[str, "os.PathLike[str]"]) -> None:
        """Writes the plan's text into a file.

        >>> import os
        >>> msrp.Plan.example().write(os.devnull)
        """
        Path(path).write_bytes(bytes(self))

    @property
    def warnings(self) -> List[str]:
        """Things in an accepted plan that are rarely intended.

        >>> slow = msrp.Task("a", core=0, period=9, deadline=2, body=[("run", 3)])
        >>> msrp.Plan.build(cores=1, ticks=9, tasks=[slow]).warnings
        ["task a can't meet its deadline: needs 3 ticks, has 2"]
        """
        _, text = text_of("msrp_why_plan", bytes(self))
        return [line[len("warning: ") :] for line in text.splitlines() if line.startswith("warning: ")]

    def _number(self, which: int, name: Optional[str]) -> int:
        """The number of a name. That of an unknown one is too great, and the library refuses it."""
        numbers = self._numbers[which]
        return NONE if name is None else numbers.get(name, len(numbers))

    def _as_numbers(self, row: Row) -> Numbers:
        kind, task, resource = map(self._number, range(3), (row.kind, row.task, row.resource))
        job, ahead = (NONE if number is None else number for number in (row.job, row.ahead))
        return Numbers(row.tick, row.core, kind, task, job, resource, ahead)

    def _as_row(self, row: Numbers) -> Row:
        task = None if row.task == NONE else self.tasks[row.task].name
        resource = None if row.resource == NONE else self.resources[row.resource]
        job, ahead = (None if number == NONE else number for number in (row.job, row.ahead))
        return Row(row.tick, row.core, KINDS[row.kind], task, job, resource, ahead)

    def __bytes__(self) -> bytes:
        return self.text.encode()

    def __eq__(self, other: object) -> bool:
        return isinstance(other, Plan) and self.text == other.text

    def __hash__(self) -> int:
        return hash(self.text)

    def __repr__(self) -> str:
        sizes = self.cores, self.ticks, len(self.tasks), len(self.resources)
        return "<msrp.Plan: cores {}, ticks {}, tasks {}, resources {}>".format(*sizes)
