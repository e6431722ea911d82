"""What must agree between the answers of different commands to the same input, whatever the input
is."""
from .program import COMMANDS, FAULT, GOOD, REFUSED, ask, is_named, judges, makes_trace, varies, words_of
from .sweep import kept


def answers_to(found, what, plan, trace, commands=COMMANDS):
    """Runs each command on a plan and a trace, and judges each answer alone."""
    paths = kept("plan", plan), kept("trace", trace)
    answers = {command: ask(words_of(command, *paths)) for command in commands}
    for command, answer in answers.items():
        found.judge(is_named(command, answer), f"{what}, {command}", answer)
    return answers


def refuses_plan(answer):
    return answer.status == REFUSED and answer.line.startswith(b"msrp: plan: ")


def agree_on_plan(found, what, answers):
    """All commands refuse a plan by the same line, or none does; and a plan that stands alone is
    answered."""
    refusals = {answer.line if refuses_plan(answer) else b"" for answer in answers.values()}
    found.judge(len(refusals) == 1, f"{what}: commands differ on the plan", refusals)
    for command, answer in answers.items():
        if not judges(command):
            found.judge(answer.status in (GOOD, REFUSED), f"{what}, {command}", answer)


def agree_on_trace(found, what, answers):
    """The auditors and the report judge a trace alike."""
    verdicts = {answer for command, answer in answers.items() if command.startswith("audit")}
    found.judge(len(verdicts) <= 1, f"{what}: the auditors differ", verdicts)
    if verdicts and "report" in answers:
        verdict, report = min(verdicts), answers["report"]
        alike = report.status == GOOD if verdict.status == GOOD else report == verdict
        found.judge(alike, f"{what}: audit and report differ", (verdict, report))


def agree(found, what, answers):
    agree_on_plan(found, what, answers)
    agree_on_trace(found, what, answers)


def made_traces_are_good(found, what, plan, answers):
    """What `sim` and `run` wrote for a plan is audited as good."""
    if "audit" not in answers:
        return
    for command, answer in answers.items():
        if makes_trace(command) and answer.status == GOOD:
            verdict = ask(words_of("audit", kept("plan", plan), kept("made", answer.out)))
            found.judge(verdict.status == GOOD, f"{what}: audit of what {command} wrote", verdict)


def text_is_the_plan(found, what, answers):
    """The plan's own text is its own text again, and the plan's answers are those to its text."""
    if answers["check --text"].status != GOOD:
        return
    path = kept("text", answers["check --text"].out)
    for command, answer in answers.items():
        if not judges(command) and not varies(command):
            found.judge(ask(words_of(command, path, "")) == answer, f"{what}: {command} of the plan's own text", answer)


def fixed(answers):
    """The answers that the input fixes."""
    return {command: answer for command, answer in answers.items() if not varies(command)}


def judges_rows(answer):
    """Whether a trace was read so far that the answer is about its rows."""
    return answer.status in (GOOD, FAULT)
