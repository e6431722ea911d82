"""Must-fail edits: a file of a crate, and pairs of a text that stands once in it and the text that
takes its place."""
import glob
import os

from .crates import LINES, TOP, text_of

MORE = "more-edits"  # the edits that `rt` doesn't try


def edits_of(name, folder):
    return sorted(glob.glob(f"{TOP}/crates/{name}/{folder}/*.edit"))


def why_not(edit, crate):
    """Why an edit can't be applied to its crate, or nothing."""
    path, old, pairs, texts = "", "", 0, {}
    for line in text_of(edit).splitlines():
        if line.startswith("file: "):
            path = line[6:].strip()
            texts.setdefault(path, text_of(f"{crate}/{path}"))
        elif line.startswith("old: "):
            old = line[5:]
        elif line.startswith("new:"):
            count = texts.get(path, "").count(old) if old else 0
            if count != 1:
                return f"an old text stands {count} times in {path or 'no file'}"
            texts[path] = texts[path].replace(old, line[5:])
            old, pairs = "", pairs + 1
    return "" if pairs else "no pair of lines old: and new:"


def unapplied():
    """A line for each edit of any crate that doesn't apply, and how many edits there are."""
    every = [(edit, f"{TOP}/crates/{name}") for name in LINES for folder in ("must-fail", MORE) for edit in edits_of(name, folder)]
    found = [(edit, why_not(edit, crate)) for edit, crate in every]
    return [f"{os.path.relpath(edit, TOP)}: {why}" for edit, why in found if why], len(every)
