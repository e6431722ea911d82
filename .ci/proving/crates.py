"""The crates of the repository, the sums of their sources, and the notes that say of which sources
what was built is made."""
import functools
import hashlib
import os

TOP = os.path.dirname(os.path.dirname(os.path.dirname(os.path.realpath(__file__))))
PARTS = ("src", "specs", "proofs")


def text_of(path):
    try:
        with open(path, encoding="utf-8", errors="replace") as file:
            return file.read()
    except OSError:
        return ""


def listed():
    """Each crate's line in crates.txt, and the crates of the repository that it uses."""
    lines = [line.strip() for line in text_of(f"{TOP}/crates.txt").splitlines() if line.strip() and not line.startswith("#")]
    named = {line.partition(":")[0].split()[0]: line for line in lines}
    return named, {name: [it for it in line.partition(":")[2].split() if it in named] for name, line in named.items()}


LINES, USES = listed()


def below(name):
    """The crates below this one, lowest first."""
    found = []
    for used in USES[name]:
        found += [it for it in [*below(used), used] if it not in found]
    return found


def lowest_first(names):
    """These crates and those below them."""
    return list(dict.fromkeys(it for name in names for it in [*below(name), name]))


def is_program(name):
    return os.path.exists(f"{TOP}/crates/{name}/src/main.rt")


def is_static(name):
    """Whether it is a library for C, on which no crate stands."""
    return "staticlib" in LINES[name].partition(":")[0].split()


@functools.lru_cache(maxsize=None)
def kit():
    """The kit's line, or None where the kit isn't at hand."""
    path = next((it for it in (f"{folder}/rt" for folder in os.get_exec_path()) if os.access(it, os.X_OK)), None)
    return path and (text_of(f"{os.path.dirname(os.path.dirname(os.path.realpath(path)))}/KIT-ID").strip() or os.path.realpath(path))


def sources(folder):
    for part in PARTS:
        for at, folders, files in os.walk(f"{folder}/{part}"):
            folders.sort()
            yield from (f"{at}/{name}" for name in sorted(files))


def sums_of(names, top=TOP):
    """The sum of all that each crate is made of, by its name."""
    found = {}
    for name in lowest_first(names):
        own = hashlib.sha256(repr((LINES[name], text_of(f"{TOP}/HANDLES"), [found[it] for it in USES[name]])).encode())
        folder = f"{top}/crates/{name}"
        for path in sources(folder):
            with open(path, "rb") as file:
                content = file.read()
            own.update(f"{path[len(folder):]} {len(content)}\n".encode() + content)
        found[name] = own.hexdigest()
    return found


def made_of(name, top=TOP):
    """What was built: the file that changes whenever it is built anew, and the note beside it. A
    library's note goes when the library goes."""
    out = f"{top}/crates/{name}/out"
    if is_static(name):
        return f"{out}/lib{name}.a", f"{out}/lib{name}.a.proved"
    return (f"{out}/{name}", f"{out}/{name}.proved") if is_program(name) else (f"{out}/rlib/stamp", f"{out}/rlib/proved")


def digest(path):
    try:
        with open(path, "rb") as file:
            return hashlib.sha256(file.read()).hexdigest()
    except OSError:
        return "none"


def is_here(name, sums, top=TOP):
    """Whether the crate stands there as it was built of these sources, by this kit if it is at
    hand."""
    made, note = made_of(name, top)
    said = text_of(note).splitlines()
    return len(said) == 4 and said[0] == sums[name] and kit() in (None, said[1]) and said[2] == digest(made)


def note_down(name, sums, took, top=TOP):
    made, note = made_of(name, top)
    with open(note, "w", encoding="utf-8") as file:
        file.write(f"{sums[name]}\n{kit()}\n{digest(made)}\n{took}\n")


def took(name):
    """How many seconds the crate took here, and with how many jobs; nothing where that isn't
    known."""
    return "".join(text_of(made_of(name)[1]).splitlines()[3:])


def lacking(names, sums):
    """What has to be built for these crates, lowest first."""
    wanted = {it for name in names if not is_here(name, sums) for it in [*below(name), name]}
    return [it for it in lowest_first(names) if it in wanted and not is_here(it, sums)]
