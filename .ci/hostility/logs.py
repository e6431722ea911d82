"""Kernel logs, for the library for C: the log of examples/log, changed at random, as numbers and as
text."""
import ctypes
import random

from hostility.program import TOP

PROGRAM = TOP / "crates/msrp_log/out/msrp_log"
SYSTEM = TOP / "examples/log/two_cores.system.csv"
RECORDS = [record.split(",") for record in (TOP / "examples/log/two_cores.log.csv").read_text().split()[1:]]
KINDS = ("boot", "release", "switch", "lock", "unlock", "request", "acquire", "freed", "end", "stop", "lost", "poll")
TASKS, RESOURCES = ("hi", "lo", "far", "other"), ("bus", "cal", "other")
MISSING = ("core", "start", "restart", "records", "clock", "release", "request", "room")
CODES = {f"E{n}" for n in range(1, 11)} | set(MISSING)
NONE, NO_SEQ = 0xFFFFFFFF, 0xFFFFFFFFFFFFFFFF
NAMES = ("operation", "slack", "skew", "backlog")


class Event(ctypes.Structure):
    _fields_ = [(name, ctypes.c_uint64) for name in ("ns", "deadline", "seq")] + [(name, ctypes.c_uint32) for name in ("core", "kind", "task", "job", "resource")]


class Tolerances(ctypes.Structure):
    _fields_ = [(name, ctypes.c_uint32) for name in NAMES]


def any_record(rng, time):
    """A record of a random event about this time, with the fields of its kind."""
    kind = rng.choice(KINDS)
    core = rng.choices((0, 1, 2), (9, 9, 1))[0]
    is_alone = kind in ("boot", "stop", "lost") or kind == "switch" and rng.random() < 0.3
    job = ("", "") if is_alone else (rng.choices(TASKS, (9, 9, 9, 1))[0], str(rng.choices((0, 1, 2), (9, 3, 1))[0]))
    resource = rng.choices(RESOURCES, (9, 9, 1))[0] if kind in KINDS[3:8] or kind == "poll" else ""
    deadline = str(time + rng.choice((50, 100, 200))) if kind == "release" else ""
    return [str(max(0, time + rng.randint(-1, 3))), str(core), kind, *job, resource, deadline, ""]


def change(rng, records):
    """One change: a record more or fewer, another one, or a later time from one on."""
    place = rng.randrange(len(records))
    time = int(records[place][0])
    how = rng.randrange(5)
    if how == 0:
        del records[place]
    elif how == 1:
        records.insert(place, any_record(rng, time))
    elif how == 2:
        records[place] = any_record(rng, time)
    elif how == 3:
        records.insert(rng.randrange(len(records)), list(records[place]))
    else:
        later = rng.choice((1, 2, 5, 20))
        for record in records[place:]:
            record[0] = str(int(record[0]) + later)


def with_seqs(rng, records):
    """The records with numbers, of which some are lost."""
    counts = {}
    for record in records:
        counts[record[1]] = counts.get(record[1], 0) + 1
        record[7] = str(counts[record[1]])
    return [record for record in records if rng.random() > 0.02]


def log_of(seed):
    """The tolerances and the records of a case."""
    rng = random.Random(seed)
    records = [list(record) for record in RECORDS]
    for _ in range(rng.choice((0, 1, 1, 1, 2, 3))):
        change(rng, records)
    if seed % 2:
        records = with_seqs(rng, records)
    return {"operation": rng.choice((0, 1, 3)), "slack": rng.choice((0, 2, 2, 9)), "skew": rng.choice((0, 0, 2)), "backlog": rng.choice((1, 2, 8, 8, 8))}, records


def as_text(records):
    return "".join(",".join(record) + "\n" for record in (["msrp-log", "1", "2"], *records)).encode()


def as_event(record):
    ns, core, kind, task, job, resource, deadline, seq = record
    place = lambda names, name: names.index(name) if name else NONE
    return Event(int(ns), int(deadline or 0), int(seq or NO_SEQ), int(core), KINDS.index(kind), place(TASKS, task), int(job or NONE), place(RESOURCES, resource))


def words(tolerances):
    return [word for name in NAMES for word in ("--op" if name == "operation" else f"--{name}", str(tolerances[name]))]


def is_lack(records, number):
    """Whether this record may show that earlier ones were lost: by its number, or as a lost record,
    or as the first one of its core but no boot. The head of the log is record 1."""
    record, before = records[number - 2], records[:number - 2]
    is_first = all(earlier[1] != record[1] for earlier in before)
    return bool(record[7]) or record[2] == "lost" or is_first and record[2] != "boot"


def is_verdict(line, shown, records):
    """Whether the program's line is the verdict where a record shows this rule or lack first. The
    program also says whether a fault is certain, and where a later record shows that some were
    lost, it says so in its place."""
    if shown is None:
        return line == "good"
    what, record, code = line.split(",")
    if code.startswith("E") or (int(record), code) == shown:
        return (int(record), code) == shown and (what == "incomplete") == (code in MISSING)
    return code == "records" and shown[1].startswith("E") and shown[0] < int(record) and is_lack(records, int(record))
