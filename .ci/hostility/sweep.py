"""What the sweeps share: a place for files, the count of what was found, and processors side by
side."""
import multiprocessing
import os
import sys
from collections import Counter
from pathlib import Path

_place = None


def begin(place):
    """Gives this process its own folder under a place."""
    global _place
    _place = Path(place) / str(os.getpid())
    _place.mkdir(exist_ok=True)


def kept(name, content):
    """The path of a file of this process with this content."""
    path = _place / name
    path.write_bytes(content)
    return path


class Found:
    """What a piece of a sweep found: counts and greatest numbers by name, and a line for each
    failure."""

    def __init__(self):
        self.counts, self.reached, self.failures = Counter(), Counter(), []

    def judge(self, good, what, answer=""):
        self.counts["judged"] += 1
        if not good:
            self.failures.append(f"{what}: {answer}")

    def reach(self, name, number):
        self.reached[name] = max(self.reached[name], number)

    def add(self, other):
        self.counts.update(other.counts)
        self.reached |= other.reached
        self.failures += other.failures


def made(piece):
    """Does one piece of work: a function and its arguments."""
    function, *arguments = piece
    found = Found()
    function(found, *arguments)
    return found


def side_by_side(pieces, place, jobs):
    """Does the pieces of a sweep over the processors, and gathers what they found."""
    whole = Found()
    with multiprocessing.get_context("fork").Pool(jobs, begin, (str(place),)) as pool:
        for done, found in enumerate(pool.imap_unordered(made, pieces), 1):
            whole.add(found)
            if sys.stderr.isatty():
                print(f"\r\x1b[K{done} of {len(pieces)}", end="\r", file=sys.stderr, flush=True)
    return whole
