"""The promises of README and docs/PROVED.md, and the functions, types and definitions that their
columns name."""
import re
from pathlib import Path

from .crates import LINES, TOP, text_of
from .functions import Calls, passed_on, sources

SECTION = re.compile(r"^## (.*)$", re.M)
ROW = re.compile(r"^\| (.*) \| (.*) \|$", re.M)
TOKEN = re.compile(r"`([^`]+)`")
IN_BRACKETS = re.compile(r"\(((?:`\w+`(?:, | and )?)+)\)")
FIELDS = re.compile(r"\bfields? ((?:`\w+`(?:, | and )?)+)")
FIELD = re.compile(r"^  (?:pub )?(\w+) :", re.M)
DEFINED = re.compile(r"^(?:unfoldable |abbrev |pub |record |data )*([^\s:(){}]+)(?= ?[:({])", re.M)
TYPE = re.compile(r"^ *pub(?:\([\w: ]+\))? (?:struct|enum|trait) (\w+)", re.M)
ENGINES = "_engine", "msrp_event_text"
UNSTATED = (None, "Model", "Drop", "Display", "Debug")  # traits whose functions have no clauses of ours


class Names:
    """All that a column may name."""

    def __init__(self):
        self.files = sources()
        self.calls = Calls(self.files)
        self.all = [it for file in self.files for it in file.functions]
        self.file_of = {it.place(): it for it in self.files}
        self.types = {name for file in self.files for name in TYPE.findall(file.text)}
        self.passed = dict(passed_on())
        specs = [(path, text_of(path)) for path in sorted(Path(TOP).glob("crates/*/specs/**/*.antt"))]
        self.fields = {name for _, text in specs for name in FIELD.findall(text)}
        self.specs, self.bodies = {}, {}
        for path, text in specs:
            crate, _, *folders = path.relative_to(Path(TOP) / "crates").with_suffix("").parts
            for found, block in ((DEFINED.match(block), block) for block in re.split(r"\n(?=\S)", text)):
                if found:
                    self.specs[found.group(1)] = ((crate, ".".join(folders)), found.group(1))
                    self.bodies[found.group(1)] = self.bodies.get(found.group(1), "") + f"{block}\n"

    def holds(self, word, field, depth=2):
        """Whether a definition is a record with this field, or names one in turn."""
        body = self.bodies.get(word, "") if word[0].isupper() else ""
        others = set(re.findall(r"\b[A-Z]\w+", body)) - {word} if depth else ()
        return field in FIELD.findall(body) or any(self.holds(it, field, depth - 1) for it in others)

    def contract(self, function):
        """The clauses of a function; of one of a trait those of the trait."""
        same = [it.clauses for it in self.calls.named[function.name] if function.trait and it.owner == function.trait]
        return function.clauses or next(iter(same), [])

    def definitions(self, promise):
        """The definitions of our crates that the clauses of a promise name, each as its module and
        name."""
        found = {self.specs[name] for name in promise.named if name in self.specs}
        stated = [(it, promise.chosen(self, it)) for it in promise.functions]
        for it, clauses in [*stated, *((file, file.invariants[name]) for file, name in promise.invariants)]:
            found |= {item for _, words in clauses for item in self.cited(it, words)}
        return {item for item in found if not item[1].endswith("Model")}

    def cited(self, it, words):
        """The definitions of our crates that these words in the file of a function name. Types of
        the code are none."""
        names = self.file_of[it.place()].names
        found = {self.passed.get(names[word], names[word]) for word in words if word in names}
        return {item for item in found if item[0][0] in LINES and "declared" not in item[0][1].split(".")}

    def fitting(self, parts, crates):
        """The functions of a path's name: each part before it is the crate, the module or the
        type."""
        same = [it for it in self.calls.named.get(parts[-1], []) if it.crate in crates]
        near = [it for it in same if all(part in (it.crate, it.owner, it.trait, *it.module) for part in parts[:-1])]
        near = near if len(parts) > 1 else [it for it in near if it.owner is None]
        return [it for it in near if it.is_public] or near

    def members(self, parts, crates):
        """The public functions of a type or trait, or of a module; none where the path names
        neither."""
        name, before = parts[-1], parts[:-1]
        if name in self.types:
            own = [it for it in self.all if it.owner == name]
            found = [it for it in own if it.is_public or it.trait not in UNSTATED or self.is_trait(name, it)]
        elif name[0].islower():
            found = [it for it in self.all if name in it.module and it.is_public and it.owner is None]
        else:
            return []
        return [it for it in found if it.crate in crates and all(part in (it.crate, *it.module) for part in before)]

    def is_trait(self, name, function):
        return f"trait {name}" in self.file_of[function.place()].text


class Promise:
    """A row: what it says, and what its second column names."""

    def __init__(self, section, number, text, by, crates):
        self.section, self.number, self.text, self.by, self.crates = section, number, text, by, crates
        self.functions, self.modules, self.named, self.invariants, self.lost = [], {}, [], [], []
        self.said = set()  # names of clauses
        self.owners = []  # types named so far
        self.kept = set()  # functions that are named one by one

    def chosen(self, names, function):
        """The clauses of a function that the column names, or those with a field that it names; or
        else all."""
        clauses = names.contract(function)
        parts = self.said - {name for name, _ in clauses}
        named = [it for it in clauses if it[0] in self.said]
        within = [it for it in clauses if any(names.holds(word, part) for word in it[1] for part in parts)]
        return named or within or clauses

    def is_law(self):
        return all(it.is_law for it in self.functions)

    def add(self, functions, one_by_one=True):
        self.functions = list(dict.fromkeys([*self.functions, *functions]))
        self.kept |= set(functions) if one_by_one else set()

    def take(self, names, token, before, after):
        """Adds what one name in backticks names, between these two texts."""
        parts = token.split("::")
        is_type = parts[-1] in names.types
        if is_type and re.search(r"invariants? of $", before):
            files = [file for file in names.files if file.crate in self.crates and file.invariants.get(parts[-1])]
            self.invariants += [(file, parts[-1]) for file in files]
            return
        if is_type and self.owners and before.endswith("its "):
            own = [it for it in names.all if it.owner == self.owners[-1] and it.crate in self.crates]
            self.add([it for it in own if it.trait == parts[-1]])
            return
        found = [] if is_type else self.of_owner(names, parts) or names.fitting(parts, self.crates)
        members = [] if found else names.members(parts, self.crates)
        if not found and not members:
            found, members = names.fitting(parts, LINES), names.members(parts, LINES) if is_type else []
        if len(parts) > 1 and parts[-2] in names.types:
            self.owners.append(parts[-2])
        if found:
            return self.add(found)
        if re.search(r"readers of $", before):
            members = [it for it in members if "&self" in it.text]
        if is_type:
            self.owners.append(parts[-1])
        if members and not is_type and not after.startswith(":"):
            self.modules[token] = members
        if members and not after.startswith(":") and "`{" not in self.by:
            self.add(members, one_by_one=False)
        elif token in names.specs or token in names.fields:
            self.named.append(token)
        elif not members and not is_type and token not in LINES:
            self.lost.append(token)

    def of_owner(self, names, parts):
        """A method that is named without its type: of the type named last, or of those of the first
        column."""
        owners = self.owners[-1:] or [it for it in TOKEN.findall(self.text) if it in names.types]
        return [it for owner in owners for it in names.fitting([owner, *parts], self.crates)] if len(parts) == 1 else []


def tokens(text):
    """Each name in backticks with the texts around it; `a::{b, c}` is two names."""
    for found in TOKEN.finditer(text):
        before, braced = found.group(1).partition("{")[::2]
        for name in (it.strip() for it in braced.rstrip("}").split(",")) if braced else [""]:
            yield before + name, text[:found.start()], text[found.end():]


def resolve(promise, names, last):
    """Finds what the column of a promise names. `last` is the promise before it, for `the same`."""
    by = promise.by
    for pattern in (IN_BRACKETS, FIELDS):
        said = {name for found in pattern.findall(by) for name in TOKEN.findall(found)}
        promise.said |= said
        promise.lost += sorted(said - names.fields) if pattern is FIELDS else []
        by = pattern.sub("", by)
    if re.match(r"the same\b|its fields", promise.by):
        promise.add([it for it in last.functions if promise.by.startswith("the same") or not it.is_law])
        promise.named += last.named
    if "the same, but" in by:
        out = {it for token, _, _ in tokens(by) for it in names.fitting(token.split("::"), promise.crates)}
        promise.functions = [it for it in promise.functions if it not in out]
    elif by.startswith("each engine"):
        public = [it for it in names.all if it.crate in promise.crates and it.is_public]
        promise.add([it for it in public if "answer" in dict(it.clauses)])
    else:
        for token, before, after in tokens(by):
            for owner in promise.owners[:] if token and before.endswith("each by ") else [None]:
                promise.take(names, f"{owner}::{token}" if owner else token, before, after)
    if promise.said:
        named = [it for it in promise.functions if promise.said & dict(names.contract(it)).keys()]
        promise.functions = [it for it in promise.functions if it in promise.kept or it in named]
    if not (promise.functions or promise.invariants or promise.lost):
        promise.lost.append("what it names")


def of_readme(names):
    """The rows of README on what is proved: for a command the engine that does it, for a program
    all that it calls."""
    for kind, text in ROW.findall(text_of(f"{TOP}/README.md")):
        if kind == "proved":
            words = TOKEN.findall(text)
            commands = [f"{word}_text" for word in words if f"{word}_text" in names.calls.named]
            called = {it for own in names.all if own.crate in words for it in names.calls.of(own)}
            functions = sorted(it.name for it in called if it.crate.endswith(ENGINES))
            yield text, ", ".join(f"`{name}`" for name in [*commands, *functions])


def promises(names):
    """All promises, in the order of their documents."""
    last = None
    page = SECTION.split(text_of(f"{TOP}/docs/PROVED.md"))
    parts = [("README: what is proved", [it for it in LINES if it.endswith(ENGINES)], list(of_readme(names)))]
    for title, text in zip(page[1::2], page[2::2]):
        crates = [it for token in TOKEN.findall(title) for it in token.split("::") if it in LINES]
        parts.append((title, crates, [row for row in ROW.findall(text) if row[0] not in ("What", "---")]))
    for number, (title, crates, rows) in enumerate(it for it in parts if it[2]):
        for count, (text, by) in enumerate(rows, 1):
            own = sorted({it for name in TOKEN.findall(by) for it in name.split("::") if it in LINES})
            promise = Promise(title, f"{number}.{count}", text, by, crates or own or list(LINES))
            resolve(promise, names, last)
            last = promise
            yield promise
