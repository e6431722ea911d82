#!/usr/bin/env python3
"""Makes a plan from the export of a spreadsheet. Reports on standard error each name and each time
that it had to change.

usage: sheet.py --tick 100us --for 200ms SHEET > PLAN

The first line of the sheet has the column names: task, core, period, deadline, offset, does. The
column `does` lists what a task does, as in "run 0.3 ms, lock can, run 100us, unlock can". Other
columns are ignored. A column name may have a unit, as in "period (ms)", for times without one. An
empty offset is 0, and an empty deadline is the period.

Fields are separated by commas, semicolons or tabs, quoted or not, in UTF-8, UTF-16 or Windows-1252.
Capitals and blanks don't matter, and 0,3 ms is 0.3 ms. Work is rounded up, since it is a worst
case; periods, deadlines and offsets are rounded down."""
import argparse
import csv
import io
import re
import sys
from fractions import Fraction

HEADS = ("task", "core", "period", "deadline", "offset", "does")
UNITS = {"ns": Fraction(1, 1000), "us": Fraction(1), "µs": Fraction(1), "μs": Fraction(1), "ms": Fraction(1000), "s": Fraction(1000000)}
TIME = re.compile(r"(\d+(?:[.,]\d+)?)\s*(ns|us|µs|μs|ms|s)", re.I)
HEAD = re.compile(r"([^(\[]*?)\s*[(\[]\s*(ns|us|µs|μs|ms|s)\s*[)\]]", re.I)
LONGEST_NAME = 16


def fail(text):
    sys.exit(f"sheet.py: {text}")


def tell(text):
    print(f"sheet.py: {text}", file=sys.stderr)


def microseconds(text, where):
    found = TIME.fullmatch(text.strip())
    if not found:
        fail(f"{where}: {text!r} is no time with a unit, as 2.5 ms")
    return Fraction(found[1].replace(",", ".")) * UNITS[found[2].lower()]


def text_of(path):
    try:
        with open(path, "rb") as file:
            content = file.read()
    except OSError as lacking:
        fail(f"{path}: {lacking.strerror}")
    try:
        return content.decode("utf-16" if content[:2] in (b"\xff\xfe", b"\xfe\xff") else "utf-8-sig")
    except UnicodeDecodeError:
        return content.decode("cp1252", "replace")  # a spreadsheet's plain CSV under Windows


def head_of(field):
    """The name of a column, and its unit."""
    found = HEAD.fullmatch(field)
    return (found[1].lower(), found[2]) if found else (field.lower(), "")


def lines_of(path):
    """The lines of the sheet that have a task, each with its number, as a dictionary by column names.
    Its entry `unit` has the units of the columns."""
    text = text_of(path)
    first = text.lstrip().split("\n", 1)[0]
    reader, heads = csv.reader(io.StringIO(text, newline=""), delimiter=max(",;\t", key=first.count)), None
    for record in reader:
        fields = [field.strip() for field in record]
        if heads is not None and any(fields):
            yield reader.line_num, {**dict(zip(heads, fields + [""] * len(heads))), "unit": units}
        elif any(fields):
            units = dict(map(head_of, fields))
            heads = [head_of(field)[0] for field in fields]
            if missing := [head for head in HEADS if head not in heads]:
                fail(f"{path}: the line of column names lacks {', '.join(missing)}; it has {', '.join(filter(None, heads))}")
    if heads is None:
        fail(f"{path}: the sheet is empty; its first line must have the columns {', '.join(HEADS)}")


class Sheet:
    def __init__(self, tick):
        self.tick, self.names = tick, {"task": {}, "resource": {}}

    def name(self, kind, text):
        """The name of a task or a resource in the plan: at most 16 lower case letters, digits and _,
        and unique."""
        known, key = self.names[kind], text.lower()
        if key not in known:
            plain = re.sub(r"[^a-z0-9_]", "_", key)
            plain = (plain if plain[:1].isalpha() else "t_" + plain)[:LONGEST_NAME]
            number, found = 2, plain
            while found in known.values():
                found, number = f"{plain[:LONGEST_NAME - 1 - len(str(number))]}_{number}", number + 1
            known[key] = found
            if found != text:
                tell(f"{kind} {text} is {found}")
        return known[key]

    def ticks(self, text, where, up, unit=""):
        exact = microseconds(text + unit if text[-1:].isdigit() else text, where) / self.tick
        found = -(-exact.numerator // exact.denominator) if up else exact.numerator // exact.denominator
        if found != exact:
            tell(f"{where}: {text} is {float(exact):g} ticks, rounded {'up' if up else 'down'} to {found}")
        return found

    def actions(self, text, where, unit):
        """The op records of what a task does."""
        for action in re.split(r"[,;\s]\s*(?=(?:run|lock|unlock)\s)", text, flags=re.I):
            what, _, of = action.strip().rstrip(",;").partition(" ")
            if what.lower() not in ("run", "lock", "unlock") or not of.strip():
                fail(f"{where}: {action.strip()!r} is neither run TIME, lock NAME nor unlock NAME")
            yield "op", what.lower(), self.ticks(of.strip(), where, up=True, unit=unit) if what.lower() == "run" else self.name("resource", of.strip())

    def task(self, number, line):
        where = f"line {number}, {line['task']}"
        core = int(line["core"]) if line["core"].isdigit() else fail(f"{where}: {line['core']!r} is no core's number")
        columns = "period", "deadline" if line["deadline"] else "period", "offset"
        times = [self.ticks(line[column] or ("0us" if column == "offset" else ""), f"{where}, {column}", False, line["unit"][column]) for column in columns]
        return [("task", self.name("task", line["task"]), core, *times), *self.actions(line["does"], where, line["unit"]["does"])]


def main():
    parser = argparse.ArgumentParser(description=__doc__, formatter_class=argparse.RawDescriptionHelpFormatter)
    parser.add_argument("--tick", required=True, help="how long a tick is, as 100us")
    parser.add_argument("--for", dest="whole", required=True, help="how long the plan is, as 200ms")
    parser.add_argument("sheet")
    words = parser.parse_args()
    sheet = Sheet(microseconds(words.tick, "--tick"))
    tasks = [sheet.task(number, line) for number, line in lines_of(words.sheet)]
    cores = 1 + max((records[0][2] for records in tasks), default=0)
    head = [("msrp", 1), ("cores", cores), ("ticks", sheet.ticks(words.whole, "--for", up=True))]
    resources = [("resource", name) for name in sheet.names["resource"].values()]
    for record in [*head, *resources, *(record for records in tasks for record in records)]:
        print(*record, sep=",")


main()
