"""Plans and traces that the sweeps start from, and the changes that they make to them."""
from typing import NamedTuple

from .program import TOP


def text(records):
    """The text of records that stand apart by white space."""
    return b"".join(record.encode() + b"\n" for record in records.split())


class Input(NamedTuple):
    """A plan and a trace for it."""

    name: str
    plan: bytes
    trace: bytes


WORK_THEN_IDLE = Input(
    "work then idle",
    text("msrp,1 cores,1 ticks,3 task,a,0,3,3,0 op,run,2"),
    text("msrp-trace,1,1,3 0,0,run,a,0,- 1,0,run,a,0,- 2,0,idle,-,-,-"),
)
BLOCKED_BY_THE_CEILING = Input(
    "blocked by the ceiling",
    text("""msrp,1 cores,1 ticks,9 resource,r
            task,lo,0,20,10,0 op,lock,r op,run,3 op,unlock,r
            task,hi,0,20,5,1 op,lock,r op,run,1 op,unlock,r"""),
    text("""msrp-trace,1,1,9
            0,0,lock,lo,0,r 1,0,run,lo,0,- 2,0,run,lo,0,- 3,0,run,lo,0,- 4,0,unlock,lo,0,r
            5,0,lock,hi,0,r 6,0,run,hi,0,- 7,0,unlock,hi,0,r 8,0,idle,-,-,-"""),
)
HANDOVER_WITHIN_A_TICK = Input(
    "handover within a tick",
    text("""msrp,1 cores,2 ticks,6 resource,g
            task,a,0,20,8,0 op,lock,g op,run,1 op,unlock,g
            task,b,1,20,8,0 op,lock,g op,run,1 op,unlock,g"""),
    text("""msrp-trace,1,2,6
            0,0,take,a,0,g    0,1,queue,b,0,g
            1,0,run,a,0,-     1,1,spin,b,0,g
            2,0,release,a,0,g 2,1,grant,b,0,g
            3,0,idle,-,-,-    3,1,run,b,0,-
            4,0,idle,-,-,-    4,1,release,b,0,g
            5,0,idle,-,-,-    5,1,idle,-,-,-"""),
)
HANDOVER_A_TICK_LATER = Input(
    "handover a tick later",
    HANDOVER_WITHIN_A_TICK.plan,
    text("""msrp-trace,2,2,6
            0,0,take,a,0,g,-  0,1,queue,b,0,g,1
            1,0,run,a,0,-,-   1,1,spin,b,0,g,-
            2,1,spin,b,0,g,-  2,0,release,a,0,g,-
            3,0,idle,-,-,-,-  3,1,grant,b,0,g,-
            4,0,idle,-,-,-,-  4,1,run,b,0,-,-
            5,0,idle,-,-,-,-  5,1,release,b,0,g,-"""),
)
LISTED_RELEASES = Input(
    "listed releases",
    text("msrp,2 cores,1 ticks,5 listed,a,0,4 release,1 release,3 op,run,1"),
    text("msrp-trace,1,1,5 0,0,idle,-,-,- 1,0,run,a,0,- 2,0,idle,-,-,- 3,0,run,a,1,- 4,0,idle,-,-,-"),
)
WORKED = (WORK_THEN_IDLE, BLOCKED_BY_THE_CEILING, HANDOVER_WITHIN_A_TICK, HANDOVER_A_TICK_LATER, LISTED_RELEASES)
EXAMPLES = sorted((TOP / "examples").glob("*.csv"))
BYTE_ORDER_MARK = b"\xef\xbb\xbf"


def in_version_2(plan):
    """The same plan, in the second version of plans."""
    return plan.replace(b"msrp,1\n", b"msrp,2\n", 1)


def cuts(whole):
    """Each first part, and the whole."""
    return ((f"the first {length} bytes", whole[:length]) for length in range(len(whole) + 1))


def changed_records(whole):
    """Each record doubled, left out, and exchanged with the next."""
    records = whole.splitlines(keepends=True)
    for at, record in enumerate(records):
        before, after = records[:at], records[at + 1:]
        yield f"record {at + 1} doubled", b"".join([*before, record, record, *after])
        yield f"record {at + 1} left out", b"".join([*before, *after])
        if after:
            yield f"record {at + 1} after the next", b"".join([*before, after[0], record, *after[1:]])


def quoted(record, which):
    """The record with quotes around one field, or around all where which is None."""
    return b",".join(b'"%s"' % field if which in (at, None) else field for at, field in enumerate(record.split(b",")))


def same_records(whole):
    """Other bytes with the same records: quotes, other line ends, empty lines, a byte-order
    mark."""
    records = whole.splitlines()
    yield "carriage returns before line feeds", whole.replace(b"\n", b"\r\n")
    yield "carriage returns in place of line feeds", whole.replace(b"\n", b"\r")
    yield "empty lines", b"\n\r\n" + whole.replace(b"\n", b"\n\r\n\n\r")
    yield "a byte-order mark", BYTE_ORDER_MARK + whole
    yield "no last line end", whole[:-1]
    yield "a carriage return at the end", whole[:-1] + b"\r"
    yield "all fields quoted", b"".join(quoted(record, None) + b"\n" for record in records)
    yield "an open quote at the end", b"".join(record + b"\n" for record in records[:-1]) + quoted(records[-1], records[-1].count(b","))[:-1]


def each_field_quoted(whole):
    records = whole.splitlines()
    for at, record in enumerate(records):
        for which in range(record.count(b",") + 1):
            yield f"field {which + 1} of record {at + 1} quoted", b"\n".join([*records[:at], quoted(record, which), *records[at + 1:]]) + b"\n"
