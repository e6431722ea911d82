"""Rows as numbers, for the library for C: runs in which one row was changed at random, as numbers
and as the text of the same rows."""
import ctypes
import random

KINDS = ("idle", "run", "lock", "unlock", "take", "queue", "spin", "grant", "release")
NONE = 0xFFFFFFFF
STRANGE = ("7", "99", "-", "nobody")  # a number, a great one, none, and a name that no plan has
CODES = {f"A{n}" for n in range(1, 8)} | {"R4", "R5", "R6"}


class Row(ctypes.Structure):
    _fields_ = [(name, ctypes.c_uint32) for name in ("tick", "core", "kind", "task", "job", "resource", "ahead")]


def names_in(plan, *words):
    """What the plan declares by these words, in order."""
    records = [record.split(",") for record in plan.decode().split()]
    return [fields[1] for fields in records if fields[0] in words]


def place(names, name):
    return NONE if name == "-" else names.index(name) if name in names else len(names)


def number(field):
    return NONE if field == "-" else int(field)


def as_numbers(plan, rows):
    tasks, resources = names_in(plan, "task", "listed"), names_in(plan, "resource")
    made = (Row * len(rows))()
    for row, (tick, core, kind, task, job, resource, ahead) in zip(made, rows):
        row.tick, row.core, row.kind = number(tick), number(core), place(KINDS, kind)
        row.task, row.job, row.resource, row.ahead = place(tasks, task), number(job), place(resources, resource), number(ahead)
    return made


def as_text(head, rows, with_aheads):
    """The rows' text, in version 2 if they carry their aheads."""
    fields = [["msrp-trace", "2" if with_aheads else "1", *head[2:]], *(row if with_aheads else row[:6] for row in rows)]
    return "".join(",".join(record) + "\n" for record in fields).encode()


def another(fields, rows, chance):
    """The row with another field: that of another row, or a strange one."""
    fields, which = list(fields), chance.randrange(7)
    if which == 2:
        fields[2] = chance.choice((*KINDS, "jump"))
    elif which in (0, 1):
        fields[which] = chance.choice((chance.choice(rows)[which], *STRANGE[:2]))
    elif which == 4 or which == 6:
        fields[which] = chance.choice((chance.choice(rows)[which], *STRANGE[:3]))
    else:
        fields[which] = chance.choice((chance.choice(rows)[which], *STRANGE[2:]))
    return fields


def changed(rows, chance):
    """The rows with one of them changed, missing or twice, or all as they are."""
    at = chance.randrange(len(rows))
    put = chance.choice(([], [rows[at]] * 2, [rows[at]], *[[another(rows[at], rows, chance)]] * 9))
    return [*rows[:at], *put, *rows[at + 1 :]] if chance.randrange(20) else [*rows, rows[-1]]


def carry(rows):
    """The rows where each queue row carries an ahead, as a text of version 2 wants it."""
    return [[*fields[:6], "0"] if fields[2] == "queue" and fields[6] == "-" else fields for fields in rows]


def without_aheads(rows):
    return [[*fields[:6], "-"] for fields in rows]


def case(seed, plan, run):
    """A plan, rows as numbers, and the text of the same rows; a run is a text of version 2."""
    chance = random.Random(seed)
    head, *rows = [record.split(",") for record in run.decode().split()]
    with_aheads = chance.random() < 0.5
    rows = changed(rows if with_aheads else without_aheads(rows), chance)
    rows = carry(rows) if with_aheads else without_aheads(rows)
    so_far = rows[: chance.randrange(len(rows) + 1)]
    return [(plan, as_numbers(plan, given), as_text(head, given, with_aheads)) for given in (rows, so_far)]
