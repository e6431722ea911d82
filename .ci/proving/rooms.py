"""Rooms: folders in which one crate is proved, apart from the checkout; and what other checkouts of
this user have proved."""
import contextlib
import fcntl
import os
import shutil

from .crates import LINES, PARTS, TOP, below, is_here, is_program, made_of, note_down, sums_of

ROOMS = f"{TOP}/out"
CHECKOUTS = f"{os.environ.get('XDG_CACHE_HOME') or os.path.expanduser('~/.cache')}/msrp/checkouts"


def linked(one, other):
    """Gives a file a second name where it is only ever replaced, and never changed; else, or where
    that can't be, it is copied."""
    if "/rlib/" in one or one.endswith(".oantt"):
        with contextlib.suppress(OSError):
            return os.link(one, other)
    return shutil.copy2(one, other)


def copy(one, other, how=shutil.copy2):
    if os.path.isdir(one):
        shutil.copytree(one, other, copy_function=how)


@contextlib.contextmanager
def locked(path, told=None):
    """Waits until nobody else holds this file or folder, as `rt` holds the folder of a crate in
    which it works."""
    with contextlib.ExitStack() as held:
        descriptor = os.open(path, os.O_RDONLY)
        held.callback(os.close, descriptor)
        try:
            fcntl.flock(descriptor, fcntl.LOCK_EX | fcntl.LOCK_NB)
        except BlockingIOError:
            if told:
                told()
            fcntl.flock(descriptor, fcntl.LOCK_EX)
        yield


def clear():
    """Removes all rooms; a proof that was just ended may still write into one."""
    for _ in range(50):
        shutil.rmtree(ROOMS, ignore_errors=True)
        if not os.path.exists(ROOMS):
            break


def others():
    """Other checkouts in which crates are proved, the newest first."""
    with contextlib.suppress(OSError), open(CHECKOUTS, encoding="utf-8") as file:
        return [it for it in reversed(file.read().splitlines()) if it != TOP and os.path.isdir(f"{it}/crates")]
    return []


def remember():
    """Adds this checkout to those in which crates are proved."""
    with contextlib.suppress(OSError):
        kept = [*reversed(others()), TOP]
        os.makedirs(os.path.dirname(CHECKOUTS), exist_ok=True)
        with open(f"{CHECKOUTS}.{os.getpid()}", "w", encoding="utf-8") as file:
            file.writelines(f"{it}\n" for it in kept)
        os.replace(f"{CHECKOUTS}.{os.getpid()}", CHECKOUTS)


def put(name, out):
    """Puts what was made into the crate's own folder out/, in place of what is there."""
    own = f"{TOP}/crates/{name}/out"
    with locked(f"{TOP}/crates/{name}"):
        os.makedirs(own, exist_ok=True)
        for it in os.listdir(out):
            shutil.rmtree(f"{own}/{it}", ignore_errors=True)
            with contextlib.suppress(OSError):
                os.remove(f"{own}/{it}")
            os.rename(f"{out}/{it}", f"{own}/{it}")


def is_taken(name, sums):
    """Takes the crate from another checkout, if it is proved there, and tells whether it was."""
    room = f"{ROOMS}/{name}"
    for other in others():
        if is_here(name, sums, other):
            try:
                copy(f"{other}/crates/{name}/out", f"{room}/crates/{name}/out", linked)
                if is_here(name, sums, room):
                    put(name, f"{room}/crates/{name}/out")
                    return True
            except (OSError, shutil.Error):
                pass  # it is being proved anew there
            finally:
                shutil.rmtree(room, ignore_errors=True)
    return False


def prepared(name, sums):
    """Makes the room of a crate, and gives the crate's folder in it; or None where the sources are
    no longer those of the sums."""
    room, there = f"{ROOMS}/{name}", [*below(name), name]
    os.makedirs(room)
    shutil.copy2(f"{TOP}/HANDLES", room)
    with open(f"{room}/crates.txt", "w", encoding="utf-8") as file:
        file.writelines(f"{LINES[it]}\n" for it in there)
    for it in there:
        for part in PARTS:
            copy(f"{TOP}/crates/{it}/{part}", f"{room}/crates/{it}/{part}")
        copy(f"{TOP}/crates/{it}/out/rlib", f"{room}/crates/{it}/out/rlib", linked)
    kept = [it for it in (f"{top}/crates/{name}/out/incremental" for top in (TOP, *others())) if os.path.isdir(it)]
    if kept:
        with contextlib.suppress(OSError, shutil.Error):
            copy(kept[0], f"{room}/crates/{name}/out/incremental", linked)
    return f"{room}/crates/{name}" if sums_of([name], room)[name] == sums[name] else None


def finished(name, sums, status, took=""):
    """Keeps what a room's proof made, whatever came of it, and tells whether the crate is built."""
    room = f"{ROOMS}/{name}"
    made, note = made_of(name, room)
    # (`rt run` ends with the program's own status; it writes its stamp where all went well)
    is_well = os.path.isfile(f"{made}.stamp") if is_program(name) else status == 0 and os.path.isfile(made)
    with contextlib.suppress(OSError):
        os.remove(note)
    if is_well:
        note_down(name, sums, took, room)
    if os.path.isdir(f"{room}/crates/{name}/out"):
        put(name, f"{room}/crates/{name}/out")
    shutil.rmtree(room, ignore_errors=True)
    return is_well
