"""The functions of the crates: the text of each, its clauses, the definitions that these name, and
what it calls."""
import re
from pathlib import Path

from .crates import LINES, TOP

HEAD = re.compile(r'^( *)(pub(?:\([\w: ]+\))? )?(?:const )?(?:extern "C" )?fn (\w+)')
BLOCK = re.compile(r"^( *)(?:pub(?:\([\w: ]+\))? )?(?:impl|trait)\b.*\{$")
OWNER = re.compile(r"(?:impl|trait) (?:(?:\w+::)*(\w+) for )?&?(?:mut )?(?:\w+::)*(\w+)")
CLAUSE = re.compile(r"^ *ensures (?:(\w+) )?\{(.*(?:\n +[→×⊎].*)*)\};?$", re.M)
STRUCT = re.compile(r"^(?:pub )?struct (\w+)[^{;]*\{\n(.*?)^\}", re.M | re.S)
PROVED = re.compile(r"^ +ghost (\w+): \{(.*)\},$", re.M)  # an invariant among the fields of a struct
INVARIANT = re.compile(r"ghost (invariant) = \{(.*)\};")
USE = re.compile(r"use Rattle\.(\w+)\.specs\.([\w.]+?)(?:\.\{([^}]*)\}| as (\w+));?$", re.M)
CALL = re.compile(r"(\bself\.|\.)?(?:\b(\w+)::)?\b([a-z]\w*)(?:::<[^()]*>)?\(")
LITERAL = re.compile(r'"(?:[^"\\]|\\.)*"', re.S)
WORD = re.compile(r"\w+")


def named(clauses):
    """Clauses, each as its name and its words."""
    return [(name, set(WORD.findall(clause))) for name, clause in clauses]


class Function:
    """A function of a crate: `owner` is the type or trait that has it, `trait` the one that the
    owner implements."""

    def __init__(self, source, head, block, text):
        self.crate, self.file, self.module = source.crate, source.file, source.module
        self.name, self.is_public = head.group(3), (head.group(2) or "") == "pub "
        self.trait, self.owner = block
        self.text, self.is_test = text, False
        self.clauses = named(CLAUSE.findall(text))
        self.is_law = text.endswith("{}")
        self.calls = CALL.findall(text)
        self.literals = [it.replace("\n", "\\n")[1:-1] for it in LITERAL.findall(text)]

    def place(self):
        return self.crate, self.file

    def makes_its_type(self):
        head = self.text.partition("{")[0]
        return bool(self.owner) and "self" not in head and bool(re.search(rf"-> .*\b(?:Self|{self.owner})\b", head))

    def title(self):
        """As a document names it: with its type, or a law with its module."""
        owner = f"{self.trait} for {self.owner}" if self.trait else self.owner
        return "::".join([*([owner] if owner else self.module[: self.is_law]), self.name])


def without_parameters(line):
    """A line without what is in angle brackets."""
    shorter = re.sub(r"<[^<>]*>", "", line.replace("->", ""))
    return line if shorter == line else without_parameters(shorter)


def end_of(lines, start, indent):
    """The number of the line after a function that begins there."""
    in_head = True
    for number in range(start, len(lines)):
        line = lines[number]
        if in_head and (line.endswith((";", "{}")) or re.match(rf"{indent}\{{.*\}}$", line)):
            return number + 1
        in_head = in_head and not line.endswith("{")
        if not in_head and line in (f"{indent}}}", f"{indent}}};"):
            return number + 1
    return len(lines)


class Source:
    """A file of a crate."""

    def __init__(self, crate, path):
        self.crate, self.path, self.text = crate, path, path.read_text()
        self.file = str(path.relative_to(Path(TOP) / "crates" / crate))
        self.module = [part for part in Path(self.file).with_suffix("").parts[1:] if part not in ("lib", "main")]
        self.names = {}  # a word of this file, to the module and name of the definition
        self.modules = {}  # a word of this file, to the module that it stands for
        for found in USE.finditer(self.text):
            module = (found.group(1), found.group(2))
            self.modules |= {found.group(4): module} if found.group(4) else {}
            for name in filter(None, (found.group(3) or "").replace("\n", " ").split(",")):
                there, _, here = name.strip().partition(" as ")
                self.names[here or there] = (module, there)
        self.invariants = {name: named(PROVED.findall(body)) for name, body in STRUCT.findall(self.text)}
        self.functions = list(self.found())

    def place(self):
        return self.crate, self.file

    def found(self):
        """Its functions."""
        lines = self.text.splitlines()
        block, depth = (None, None), None
        for number, line in enumerate(lines):
            opened, head = BLOCK.match(line), HEAD.match(line)
            if opened:
                depth = opened.group(1)
                block = OWNER.search(without_parameters(line)).groups()
            elif depth is not None and line == depth + "}":
                block, depth = (None, None), None
            elif block[1] and (kept := INVARIANT.findall(line)):
                self.invariants.setdefault(block[1], []).extend(named(kept))
            elif head:
                text = "\n".join(lines[number:end_of(lines, number, head.group(1))])
                function = Function(self, head, block, text)
                function.is_test = lines[number - 1].strip() == "#[test]"
                yield function


def sources():
    return [Source(crate, path) for crate in LINES for path in sorted(Path(TOP, "crates", crate, "src").rglob("*.rt"))]


def passed_on():
    """What each file Common passes on: its module and a name there, to the module and name of the
    definition."""
    for path in Path(TOP).glob("crates/*/specs/Common.antt"):
        for found in USE.finditer(path.read_text()):
            for name in filter(None, (it.strip() for it in (found.group(3) or "").split(","))):
                yield ((path.parts[-3], "Common"), name), ((found.group(1), found.group(2)), name)


class Calls:
    """Which functions a function may call, by the names before its brackets and the types that its
    file names. If it names a type of its crate, it may call all that the type implements of
    traits."""

    def __init__(self, files):
        self.words = {it.place(): set(WORD.findall(it.text)) for it in files}
        self.named, self.by_traits = {}, {}
        for function in (it for file in files for it in file.functions):
            self.named.setdefault(function.name, []).append(function)
            if function.trait:
                self.by_traits.setdefault((function.crate, function.owner), []).append(function)

    def of(self, caller):
        words = self.words[caller.place()]
        for name in set(re.findall(r"\b[A-Z]\w+", caller.text)):
            yield from (it for it in self.by_traits.get((caller.crate, name), []) if it is not caller)
        for dot, before, name in caller.calls:
            same = self.named.get(name, [])
            near = [it for it in same if not (dot or before or it.owner) and it.place() == caller.place()]
            for it in near or same:
                is_known = it.crate == caller.crate or it.crate in words
                if is_known and it is not caller and self.fits(it, caller, dot, before):
                    yield it

    def fits(self, it, caller, dot, before):
        """Whether a call after a dot, or after a path that ends in a name, may be one of this
        function."""
        if before == "Self" or dot == "self.":
            return it.owner == caller.owner and it.crate == caller.crate
        if before[:1].isupper():
            return it.owner == before
        if not dot:
            return it.owner is None and (not before or before in (it.crate, *it.module, "super", "crate"))
        owners = {other.owner for other in self.named[it.name] if other.crate == it.crate}
        is_only_one = it.crate == caller.crate and owners == {it.owner} != {None}
        return is_only_one or not self.words[caller.place()].isdisjoint({it.owner, it.trait})

    def reached(self, start, goes_on):
        """What these functions call, and what that calls in turn where `goes_on` says so of it."""
        found, left = set(), list(start)
        while left:
            more = {it for it in self.of(left.pop()) if goes_on(it)} - found
            found |= more
            left += more
        return found
