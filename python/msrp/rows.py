"""Rows and traces."""
from __future__ import annotations

import csv
import importlib
import io
import os
from pathlib import Path
from typing import TYPE_CHECKING, Any, Iterable, Iterator, List, NamedTuple, Optional, Protocol, Sequence, Tuple, Union

if TYPE_CHECKING:
    from .plans import Plan

KINDS = ("idle", "run", "lock", "unlock", "take", "queue", "spin", "grant", "release")


class Row(NamedTuple):
    """What a core did in a tick. A field that the row doesn't have is None.

    `ahead` is, on a queue row, the number of jobs in the queue before this one joined.

    >>> print(msrp.Row(0, 1, "queue", "b", 0, "g", 1), msrp.Row(5, 0, "idle"))
    0,1,queue,b,0,g,1 5,0,idle,-,-,-,-
    """

    tick: int
    core: int
    kind: str
    task: Optional[str] = None
    job: Optional[int] = None
    resource: Optional[str] = None
    ahead: Optional[int] = None

    @classmethod
    def of(cls, fields: RowLike) -> Row:
        """The row of up to seven fields: numbers, names or their texts, and None or "-" for none.

        >>> msrp.Row.of("0,1,queue,b,0,g".split(","))
        Row(tick=0, core=1, kind='queue', task='b', job=0, resource='g', ahead=None)
        """
        return fields if isinstance(fields, Row) else _row(_fields(fields))

    def __str__(self) -> str:
        return ",".join(map(_field, self))


class Table(Protocol):
    """A table with columns named as the fields of a row, such as a DataFrame of pandas."""

    def itertuples(self, index: bool = ..., name: Optional[str] = ...) -> Iterable[Tuple[Any, ...]]: ...


RowLike = Union[Row, Sequence[Any]]
TraceLike = Union["Trace", bytes, str, "os.PathLike[str]", Table, Iterable[RowLike]]


def _field(value: object) -> str:
    """A field's text. A table may have whole numbers as floats, where a column has gaps."""
    return "-" if value is None else str(int(value) if isinstance(value, float) else value)


def _fields(row: RowLike) -> List[str]:
    """The texts of a row's fields, seven of them at least."""
    texts = [_field(value) for value in row]
    return texts + ["-"] * (len(Row._fields) - len(texts))


def _name(field: str) -> Optional[str]:
    return None if field == "-" else field


def _number(field: str) -> Optional[int]:
    return None if field == "-" else int(field)


def _row(fields: Sequence[str]) -> Row:
    tick, core, kind, task, job, resource, *ahead = fields
    (queued,) = ahead or ["-"]
    return Row(int(tick), int(core), kind, _name(task), _number(job), _name(resource), _number(queued))


def _tuples(table: Any) -> Iterator[Tuple[Any, ...]]:
    columns = table[[name for name in Row._fields if name in table.columns]]
    gaps_are_none = columns.astype(object).where(columns.notna(), None)
    return iter(gaps_are_none.itertuples(index=False, name=None))


class Trace:
    """A trace: its text, and its rows. It isn't judged; `audit` does that.

    >>> trace = msrp.simulate(msrp.Plan.example())
    >>> len(trace), trace.rows[1]
    (12, Row(tick=0, core=1, kind='queue', task='b', job=0, resource='g', ahead=1))
    >>> [row.tick for row in trace if row.kind == "grant"]
    [2]
    """

    def __init__(self, text: Union[bytes, str]) -> None:
        self._text = text.encode() if isinstance(text, str) else text
        self._rows: Optional[Tuple[Row, ...]] = None

    @classmethod
    def of(cls, source: TraceLike, plan: Plan) -> Trace:
        """The trace itself, or that of a text, of a path, of a table, or of rows.

        A string with line ends is a text. A row is a `Row` or a sequence of up to seven fields.
        Aheads are kept if all queue rows have one.

        >>> plan = msrp.Plan.example()
        >>> rows = list(msrp.simulate(plan))
        >>> print(msrp.Trace.of(rows[:2], plan).text, end="")
        msrp-trace,2,2,6
        0,0,take,a,0,g,-
        0,1,queue,b,0,g,1
        """
        if isinstance(source, Trace):
            return source
        if isinstance(source, bytes) or (isinstance(source, str) and "\n" in source):
            return cls(source)
        if isinstance(source, (str, os.PathLike)):
            return cls.read(source)
        given = _tuples(source) if hasattr(source, "itertuples") else source
        rows = [_fields(row) for row in given]
        has_aheads = all(fields[6] != "-" for fields in rows if fields[2] == "queue")
        head = f"msrp-trace,{2 if has_aheads else 1},{plan.cores},{plan.ticks}\n"
        texts = (",".join(fields if has_aheads else fields[:6] + fields[7:]) for fields in rows)
        return cls(head + "".join(f"{text}\n" for text in texts))

    @classmethod
    def read(cls, path: Union[str, "os.PathLike[str]"]) -> Trace:
        """The trace of a file.

        >>> import tempfile, pathlib
        >>> path = pathlib.Path(tempfile.mkdtemp(), "trace.csv")
        >>> msrp.simulate(msrp.Plan.example()).write(path)
        >>> len(msrp.Trace.read(path))
        12
        """
        return cls(Path(path).read_bytes())

    def write(self, path: Union[str, "os.PathLike[str]"]) -> None:
        """Writes the trace's text into a file.

        >>> import os
        >>> msrp.simulate(msrp.Plan.example()).write(os.devnull)
        """
        Path(path).write_bytes(self._text)

    @property
    def text(self) -> str:
        """The trace's text.

        >>> msrp.simulate(msrp.Plan.example(), ahead=False).text.splitlines()[:2]
        ['msrp-trace,1,2,6', '0,0,take,a,0,g']
        """
        return self._text.decode(errors="replace")

    @property
    def rows(self) -> Tuple[Row, ...]:
        """The rows. Row 1 of a verdict is `rows[0]`. ValueError if a record isn't a row.

        >>> msrp.simulate(msrp.Plan.example()).rows[-1]
        Row(tick=5, core=1, kind='idle', task=None, job=None, resource=None, ahead=None)
        """
        if self._rows is None:
            records: List[List[str]] = list(filter(None, csv.reader(io.StringIO(self.text, newline=""))))
            self._rows = tuple(map(_row, records[1:]))
        return self._rows

    def to_pandas(self) -> Any:
        """The rows as a DataFrame of pandas.

        >>> table = msrp.simulate(msrp.Plan.example()).to_pandas()
        >>> table[table.kind == "spin"].tick.tolist()
        [1]
        """
        table = importlib.import_module("pandas").DataFrame(self.rows, columns=list(Row._fields))
        return table.astype({"job": "Int64", "ahead": "Int64"})

    def __iter__(self) -> Iterator[Row]:
        return iter(self.rows)

    def __len__(self) -> int:
        return len(self.rows)

    def __bytes__(self) -> bytes:
        return self._text

    def __eq__(self, other: object) -> bool:
        return isinstance(other, Trace) and self._text == other._text

    def __hash__(self) -> int:
        return hash(self._text)

    def __repr__(self) -> str:
        return f"<msrp.Trace: rows {max(0, sum(map(bool, self._text.splitlines())) - 1)}>"
