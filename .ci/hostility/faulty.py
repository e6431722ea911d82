"""A read that fails behind each byte of a text with a record that is refused, or with a faulty row:
what is complete before the failure is judged first, in plans and traces alike."""
from .inputs import text
from .program import BROKEN, COMMANDS, FAULT, READ_FAULT, REFUSED, Answer, judges, words_of
from .refusals import MOST_CALLS, ask_refusing
from .sweep import kept

LF, CR = b"\n", b"\r"
LINE_ENDS = ((LF, LF), (CR + LF, CR + LF), (CR, CR), (LF, CR))  # of all records, and of the refused one
PLAN = text("msrp,1 cores,1 ticks,3 task,a,0,3,3,0 op,run,2")
# Texts in which one record is refused: the text, the answer to it, and the number of the record.
PLANS = (
    (text("msrp,1 something cores,1"), b"P2 at record 2", 2),
    (text("msrp,1 cores,x ticks,3"), b"P4 at record 2", 2),
    (text("msrp,1 cores,1 ticks,20001 task,a,0,3,3,0"), b"P7 at record 3", 3),
    (text("msrp,1 cores,1 ticks,3 resource,g resource,g task,a,0,3,3,0"), b"P6 at record 5", 5),
)
TRACES = (
    (text("msrp-trace,1,1,3 0,0,run,a,0,- x 2,0,idle,-,-,-"), b"R2 at record 3", 3),
    (text("msrp-trace,1,1,3 0,0,run,a,0,- 1,0,run,b,0,- 2,0,idle,-,-,-"), b"R5 at record 3", 3),
)
FAULTY = (text("msrp-trace,1,1,3 0,0,run,a,0,- 1,0,idle,-,-,- 2,0,idle,-,-,-"), b"fault,2,A3", 3)


def reads_of(preloaded, plan):
    """How often a plan is read, a byte at a time."""
    return next(number for number in range(1, MOST_CALLS) if not ask_refusing(preloaded, words_of("check", plan, ""), "read", number, short=True)[1]) - 1


def judged_first(found, preloaded, command, what, given, ends):
    """Fails each read in turn: a read fault until the record is complete, which it is with the
    first byte of its line end; then its refusal, or the fault of its row."""
    records, code, number = given
    lines = [record + ends[at == number] for at, record in enumerate(records.splitlines(), 1)]
    whole, complete = b"".join(lines), len(b"".join(lines[:number])) - len(ends[True]) + 1
    if what == "plan":
        words, before = words_of(command, kept("plan", whole), kept("trace", b"")), 0
    else:
        plan = kept("plan", PLAN)
        words, before = words_of(command, plan, kept("trace", whole)), reads_of(preloaded, plan)
    told = Answer(FAULT, code + b"\n", b"") if given == FAULTY else Answer(REFUSED, b"", b"msrp: %s: %s\n" % (what.encode(), code))
    for length in range(len(whole)):
        answer, _ = ask_refusing(preloaded, words, "read", before + length + 1, short=True)
        due = Answer(BROKEN, b"", READ_FAULT) if length < complete else told
        found.judge(answer == due, f"{command}, {code.decode()}, a read of the {what} that fails behind byte {length} of {whole!r}", answer)


def pieces(preloaded):
    """All pieces of work of this sweep, by the sweep's name."""
    return {
        "reads failing behind refused records": [(judged_first, preloaded, command, "plan", given, ends) for command in COMMANDS for given in PLANS for ends in LINE_ENDS]
        + [(judged_first, preloaded, command, "trace", given, ends) for command in filter(judges, COMMANDS) for given in (*TRACES, FAULTY) for ends in LINE_ENDS],
    }
