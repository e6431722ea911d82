"""The shared library: its structs, its calls, and how a text is taken out of a call.

include/msrp.h says what each call does. ctypes finds a call when it is first used, so a library
that lacks some of them can be loaded.
"""
from __future__ import annotations

import ctypes
import os
from ctypes import POINTER, c_char_p, c_size_t, c_uint32, c_void_p
from pathlib import Path
from typing import Any, Dict, Iterator, List, Tuple

VERSION = 1  # of the calls
NAME = "libmsrp.so.1"
GOOD, FAULT, REFUSED, USAGE, MEMORY, TOO_LONG, ROOM, WAIT, DONE = range(9)
NONE = 0xFFFFFFFF
FIRST_ROOM = 1 << 16  # bytes: most texts but those of long traces fit at once


class Found(ctypes.Structure):
    """What a call found: `struct msrp_found`."""

    _fields_ = [(name, c_uint32) for name in ("row", "rule", "plan_code", "trace_code", "number")]


class Numbers(ctypes.Structure):
    """A row as numbers: `struct msrp_row`."""

    _fields_ = [(name, c_uint32) for name in ("tick", "core", "kind", "task", "job", "resource", "ahead")]


class Handle(ctypes.Structure):
    """An auditor, a run or a core of a run: one pointer, which only the library follows."""

    _fields_ = [("at", c_void_p)]


_TEXT: List[Any] = [c_char_p, c_size_t]
_FOUND: List[Any] = [POINTER(Found)]
_MADE: List[Any] = [c_char_p, c_size_t, POINTER(c_size_t)]
_HANDLE: List[Any] = [POINTER(Handle)]
_NUMBERS: List[Any] = [POINTER(Numbers)]
_CALLS: Dict[str, List[Any]] = {
    "msrp_report": _TEXT + _TEXT + _MADE + _FOUND,
    "msrp_sim": [*_TEXT, c_uint32, POINTER(c_uint32), c_size_t, c_uint32, *_MADE, *_FOUND],
    "msrp_check": _TEXT + _MADE + _FOUND,
    "msrp_plan_text": _TEXT + _MADE + _FOUND,
    "msrp_view": _TEXT + _TEXT + [c_uint32] * 3 + _MADE + _FOUND,
    "msrp_why": _TEXT + _TEXT + _MADE + _FOUND,
    "msrp_why_plan": _TEXT + _MADE + _FOUND,
    "msrp_auditor_new": _TEXT + _HANDLE + _FOUND,
    "msrp_auditor_feed": _HANDLE + _NUMBERS + _FOUND,
    "msrp_auditor_end": _HANDLE + _FOUND,
    "msrp_auditor_due": [*_HANDLE, c_uint32, *_NUMBERS],
    "msrp_auditor_why": _HANDLE + _MADE + _FOUND,
    "msrp_auditor_again": _HANDLE,
    "msrp_auditor_free": _HANDLE,
    "msrp_run_new": _TEXT + _HANDLE + _FOUND,
    "msrp_run_core": _HANDLE + _HANDLE,
    "msrp_run_join": _HANDLE + _HANDLE,
    "msrp_run_text": [*_HANDLE, c_uint32, *_MADE],
    "msrp_run_free": _HANDLE,
    "msrp_core_turn": [*_HANDLE, *_NUMBERS, POINTER(c_uint32)],
    "msrp_core_arrive": _HANDLE,
    "msrp_core_free": _HANDLE,
}


def _loaded() -> ctypes.CDLL:
    """The library: that of MSRP_LIBRARY, else the one in this folder, else the system's."""
    own = Path(__file__).with_name(NAME)
    path = os.environ.get("MSRP_LIBRARY") or (str(own) if own.exists() else NAME)
    try:
        loaded = ctypes.CDLL(path)
    except OSError as error:
        raise ImportError(f"msrp: cannot load {path}: {error}; set MSRP_LIBRARY to its path") from error
    if loaded.msrp_version() != VERSION:
        raise ImportError(f"msrp: {path} has version {loaded.msrp_version()}; must be {VERSION}")
    for name, arguments in _CALLS.items():
        if hasattr(loaded, name):
            getattr(loaded, name).argtypes = arguments
    return loaded


library = _loaded()


def _words(arguments: Tuple[Any, ...]) -> Iterator[Any]:
    """Arguments as the library takes them: a text is a pointer and a length."""
    for argument in arguments:
        yield argument
        if isinstance(argument, bytes):
            yield len(argument)


def ask(call: str, *arguments: Any) -> Tuple[int, Found]:
    """The status of a call, and what it found, if it is one that finds something."""
    found = Found()
    place = (ctypes.byref(found),) if _CALLS[call][-1:] == _FOUND else ()
    return getattr(library, call)(*_words(arguments), *place), found


def ask_text(call: str, *arguments: Any) -> Tuple[int, Found, str]:
    """The same of a call that makes a text, and the text. A short buffer is made longer."""
    room, needed = FIRST_ROOM, c_size_t()
    while True:
        text = ctypes.create_string_buffer(room)
        status, found = ask(call, *arguments, text, room, ctypes.byref(needed))
        if status != ROOM:
            return status, found, text.raw[: needed.value].decode(errors="replace")
        room = needed.value
