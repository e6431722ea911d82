"""Random command lines: each is answered by a usage fault, by help, or by an answer of its
command."""
import random

from .inputs import HANDOVER_WITHIN_A_TICK
from .program import BROKEN, COMMANDS, GOOD, READ_FAULT, USAGE, USAGE_FAULT, Answer, ask, is_named
from .sweep import kept

FLAGS = ("--order", "--order=asc", "--order=", "--order=up", "asc", "rot", "--ahead", "--ahead=1", "--parallel", "--text", "--text=", "--fast", "-x", "-o", "--", "-", "---")
OTHERS = ("help", "-h", "--help", "nonsense", "", " ", "sim ", "SIM", "é", "a" * 5000, "\udcff", "/", "/dev/null")
MOST_WORDS = 6
CASES_A_PIECE = 250


def words_by(seed, plan, trace):
    rng = random.Random(seed)
    commands = tuple({command.split()[0] for command in COMMANDS})
    words = [rng.choice(rng.choice((sorted(commands), FLAGS, OTHERS, (plan, trace)))) for _ in range(rng.randint(0, MOST_WORDS))]
    return [rng.choice(sorted(commands)), *words] if rng.random() < 0.7 else words


def is_answer(words, answer):
    if answer in (Answer(USAGE, b"", USAGE_FAULT), Answer(BROKEN, b"", READ_FAULT)):
        return True
    if answer.status == GOOD and b"Usage" in answer.out:
        return not answer.line
    named = [word for word in words if word in {command.split()[0] for command in COMMANDS}]
    command = " ".join([named[0] if named else "sim", *(["--text"] if "--text" in words else [])])
    return is_named(command, answer)


def random_words(found, seeds):
    plan, trace = kept("plan", HANDOVER_WITHIN_A_TICK.plan), kept("trace", HANDOVER_WITHIN_A_TICK.trace)
    for seed in seeds:
        words = words_by(seed, str(plan), str(trace))
        with open(plan, "rb") as standard_input:
            answer = ask(words, stdin=standard_input)
        found.judge(is_answer(words, answer), f"words {[word[:20] for word in words]}", answer)
        found.counts["usage faults"] += answer.status == USAGE


def pieces(cases):
    """All pieces of work of this sweep."""
    return {"random words": [(random_words, range(first, min(first + CASES_A_PIECE, cases))) for first in range(0, cases, CASES_A_PIECE)]}
