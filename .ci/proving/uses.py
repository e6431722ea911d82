"""What would fail without a promise: the edits of its code, the tests and programs that call it,
worked examples."""
import re
from pathlib import Path

from .crates import LINES, TOP, is_program, is_static, text_of
from .edits import MORE, edits_of

CASE = re.compile(r"^(\.ci/\w+|docs/\S+?)(?:: (.*))?$")
WORKED = re.compile(r"Examples|Broken|Handover")  # files of worked runs and boards
FEW = 6  # a definition that more laws and examples cite says little of each
README = "README"
OF_SOURCES = {"build", "covered", "more", "steps", "traceability", "trusted", "unused"}  # scripts of the gate that run no program


class Edit:
    """An edit, with the functions that it changes; its file where it changes none."""

    def __init__(self, crate, path, names):
        self.folder, self.name = "/".join(Path(path).parts[-3:-1]), Path(path).stem
        self.functions, self.files = set(), set()
        for line in text_of(path).splitlines():
            if line.startswith("file: "):
                file = names.file_of[crate, line[6:].strip()]
            elif line.startswith("old: "):
                inside = {it for it in file.functions if line[5:] in it.text}
                self.functions |= inside
                self.files |= set() if inside else {(crate, file.file)}


class Uses:
    def __init__(self, names, found):
        self.names, self.kept = names, {}
        self.promised = {it for promise in found for it in promise.functions}
        self.numbers = {it.number: set(it.functions) for it in found if not it.section.startswith(README)}
        paths = [(crate, path) for crate in LINES for folder in ("must-fail", MORE) for path in edits_of(crate, folder)]
        self.edits = [Edit(crate, path, names) for crate, path in paths]
        for edit in self.unreached(found):
            edit.files |= {it.place() for it in edit.functions}
        self.tests = [(test, self.called_by(test)) for test in names.all if test.is_test]
        self.programs = {name: self.run_by(name) for name in LINES if is_program(name)}
        scripts = sorted(set(re.findall(r"\.ci/(\w+)", text_of(f"{TOP}/test"))) - OF_SOURCES)
        self.gate = {script: text_of(f"{TOP}/.ci/{script}") for script in scripts}
        self.covered = {name: list(cases(name)) for name in LINES}
        laws = [(it, set().union(*(words for _, words in it.clauses))) for it in names.all if it.is_law]
        self.laws = [(it, names.cited(it, words), self.is_worked(it, words)) for it, words in laws]

    def is_worked(self, law, words):
        """Whether the law is about worked runs or boards."""
        modules = self.names.file_of[law.place()].modules
        places = [at for (_, at), _ in self.names.cited(law, words)] + [modules[word][1] for word in words if word in modules]
        return any(WORKED.search(at) for at in places)

    def called_by(self, test):
        """The functions that a test calls, by itself or by functions of its file."""
        helpers = [test, *self.names.calls.reached([test], lambda it: it.place() == test.place())]
        return {called for helper in helpers for called in self.names.calls.of(helper)}

    def run_by(self, program):
        """The functions of a program, and those that they call."""
        own = [it for it in self.names.all if it.crate == program]
        return {*own, *(called for it in own for called in self.names.calls.of(it))}

    def inside(self, promise):
        """The code of a promise: its functions, what makes values of their types, and what these
        call in their crates, but nothing that another promise names."""
        if promise.number not in self.kept:
            types = {(it.crate, it.owner) for it in promise.functions}
            crates = {crate for crate, _ in types}
            makers = [it for it in self.names.all if (it.crate, it.owner) in types and it.makes_its_type()]
            start = {*promise.functions, *makers} - (self.promised - set(promise.functions))
            others = self.names.calls.reached(start, lambda it: it.crate in crates and it not in self.promised)
            self.kept[promise.number] = start | others
        return self.kept[promise.number]

    def others_of(self, promise):
        """The numbers of other promises on functions that this code calls; for a line of README, on
        its functions."""
        wanted = set(promise.functions)
        if not promise.section.startswith(README):
            wanted = {called for it in self.inside(promise) for called in self.names.calls.of(it)} - wanted
        return [number for number, functions in self.numbers.items() if functions & wanted and number != promise.number]

    def edits_of(self, promise):
        files = {it.place() for it in promise.functions}
        return [edit for edit in self.edits if edit.functions & self.inside(promise) or edit.files & files]

    def unreached(self, found):
        """The edits of no promise."""
        reached = {edit for promise in found for edit in self.edits_of(promise)}
        return [edit for edit in self.edits if edit not in reached]

    def tests_of(self, promise):
        """The unit tests that call a function, scripts that call one for C, cases of covered.txt
        that read a text."""
        found = [(test.crate, test.name) for test, called in self.tests if called & set(promise.functions)]
        for it in (it for it in promise.functions if is_static(it.crate)):
            call = re.compile(rf"\b{it.name}\(")
            found += [(f".ci/{script}", it.name) for script, text in self.gate.items() if call.search(text)]
        for it in sorted(self.inside(promise), key=lambda it: (it.crate, it.file, it.name)):
            found += [case for case, literal in self.covered[it.crate] if literal in it.literals]
        return list(dict.fromkeys(found))

    def programs_of(self, promise):
        return [f"`{name}`" for name, called in self.programs.items() if called & set(promise.functions)]

    def scripts(self):
        """The scripts of the gate that run each program."""
        def runs(text, program):
            return re.search(rf"[/$\"]{program}\b(?![._])", text)
        return {program: [it for it, text in self.gate.items() if runs(text, program)] for program in self.programs}

    def examples_of(self, promise):
        """For a law the worked runs that cite its definitions, its own among them; only those that
        few cite, if there are such."""
        rare, every = [], []
        for item in sorted(self.names.definitions(promise)) if promise.is_law() else ():
            citing = [(it, is_worked) for it, cited, is_worked in self.laws if item in cited]
            worked = [it for it, is_worked in citing if is_worked]
            every += worked
            rare += worked if len(citing) <= FEW else []
        return list(dict.fromkeys(rare or every))


def cases(name):
    """The cases of a crate's covered.txt, each as its script and name, with a literal."""
    case = None
    for line in text_of(f"{TOP}/crates/{name}/covered.txt").splitlines():
        if line.startswith("  ") and case:
            yield (case.group(1), case.group(2) or "whole"), line.strip()[1:-1]
        elif line and line[0] not in "# ":
            case = CASE.match(line)
