"""Simulates a plan from Python, and audits the run and a broken one; the first argument is the path of the shared object."""
import ctypes
import sys

GOOD, ROOM = 0, 6
ASC, VERSION = 0, 2


class Found(ctypes.Structure):
    _fields_ = [(name, ctypes.c_uint32) for name in ("row", "rule", "plan_code", "trace_code", "number")]


library = ctypes.CDLL(sys.argv[1])
for call in (library.msrp_sim, library.msrp_audit, library.msrp_why):
    call.restype = ctypes.c_uint32


def size(text):
    return ctypes.c_size_t(len(text))


def text_of(call, *arguments):
    """The status of a call, what it found, and the text that it makes: where the buffer is too short it tells how long the text is."""
    found, needed, text = Found(), ctypes.c_size_t(), ctypes.create_string_buffer(1)
    while (status := call(*arguments, text, size(text), ctypes.byref(needed), ctypes.byref(found))) == ROOM:
        text = ctypes.create_string_buffer(needed.value)
    return status, found, text.raw[:needed.value]


def simulate(plan):
    """The text of the plan's run."""
    status, found, text = text_of(library.msrp_sim, plan, size(plan), ASC, None, size(b""), VERSION)
    if status != GOOD:
        raise ValueError(f"status {status}, P{found.plan_code} at record {found.number}")
    return text


def why(plan, trace):
    """The verdict on a trace, and in sentences what makes it so."""
    return text_of(library.msrp_why, plan, size(plan), trace, size(trace))[2].decode()


def audit(plan, trace):
    """The status of the audit, and the row and the rule of a fault."""
    found = Found()
    status = library.msrp_audit(plan, size(plan), trace, size(trace), ctypes.byref(found))
    return status, found.row, found.rule


PLAN = b"msrp,1\ncores,1\nticks,2\ntask,a,0,2,2,0\nop,run,1\n"
run = simulate(PLAN)
print(run.decode(), end="")
print("its audit:", *audit(PLAN, run))
broken = run.replace(b"idle,-,-", b"run,a,0")
print("its audit with another row:", *audit(PLAN, broken))
print(why(PLAN, broken), end="")
try:
    simulate(b"msrp,9\n")
except ValueError as refused:
    print("of another plan:", refused)
