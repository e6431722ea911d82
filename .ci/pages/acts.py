"""What a page tells and does, as a whole: each text of each lane and tick, each link, button, key and row, compared with what the facts say."""
import json
import re

from pages.judged import judge
from pages.words import POINTED, Words

HEAD = "['verdict', 'size', 'report-note', 'corner'].map((name) => byId(name).textContent).concat(document.title)"
TELL = "lanes.map((lane) => Array.from({ length: facts.ticks }, (_, tick) => describe(lane, tick)))"
STATUS = """(() => { const { selected, cursor } = state; return [Math.round(view.from * 1000), Math.round(view.to * 1000),
  selected && [selected.task, selected.number], cursor && [lanes.indexOf(cursor.lane), cursor.tick], byId('detail').textContent]; })()"""
DETAILS = """(step) => lanes.map((lane) => Array.from({ length: Math.ceil(facts.ticks / step) }, (_, place) => {
  choose({ lane, tick: place * step });
  const [, , job, at, said] = %s;
  return [job, at, said];
}))""" % STATUS
REPORT = """[...document.querySelectorAll('#report tr')].slice(1).map((row) => [[...row.children].map((cell) => cell.textContent),
  [...row.querySelectorAll('.bar')].map((bar) => ['--observed', '--bound'].map((name) => Number.parseFloat(bar.style.getPropertyValue(name)).toFixed(3)))])"""
TABLE = "(() => { writeTable(); return [...document.querySelectorAll('#table tr')].map((row) => [...row.children].map((cell) => cell.textContent)); })()"
BUTTONS = "['to-fault', 'to-late', 'to-wait'].map((name) => byId(name).disabled).concat(byId('join').parentElement.hidden, byId('reasons').open, byId('verdict').className)"
WHY = "[...document.querySelectorAll('#why div')].map((line) => [line.textContent, line.className, [...line.querySelectorAll('button')].map((link) => link.textContent)])"


def same(name, found, wanted):
    """Whether all is as wanted; the first difference is shown."""
    if found != wanted:
        found, wanted = json.loads(json.dumps(found)), json.loads(json.dumps(wanted))
    where = ""
    while found != wanted and isinstance(found, list) and isinstance(wanted, list) and len(found) == len(wanted):
        place = next(place for place, (a, b) in enumerate(zip(found, wanted)) if a != b)
        found, wanted, where = found[place], wanted[place], f"{where} {place}"
    judge(found == wanted, name if found == wanted else f"{name}:{where} {str(found)[:300]}, not {str(wanted)[:300]}")


class Reader:
    """Where a reader of a page is: the view, the job that is lit up, the cursor and the text below the timeline."""

    def __init__(self, words):
        self.words, self.ticks = words, words.ticks
        self.start, self.end, self.job, self.cursor, self.said, self.next_late, self.folded = 0, self.ticks, None, None, "", -1, set()
        if self.ticks > 300:
            self.view(0, 200)
        if words.fault:
            self.to_fault()

    def status(self):
        return [int(self.start * 1000 + 0.5), int(self.end * 1000 + 0.5), self.job and self.job[:2], self.cursor, self.said]

    def view(self, start, end):
        span = min(self.ticks, max(4, end - start))
        self.start = min(max(0, start), self.ticks - span)
        self.end = self.start + span

    def pan(self, ticks):
        self.view(self.start + ticks, self.end + ticks)

    def zoom(self, factor, around=None):
        span, place = min(self.ticks, max(4, (self.end - self.start) * factor)), (self.start + self.end) / 2 if around is None else around
        share = (place - self.start) / (self.end - self.start)
        self.view(place - share * span, place + (1 - share) * span)

    def choose(self, place):
        lane = place and self.words.lanes[place[0]]
        self.job, self.cursor = lane and self.words.chosen(lane, place[1]), place
        self.said = self.words.detail(self.words.describe(lane, place[1]), self.job) if place else ""

    def show(self, tick, lane, job=None, text=None):
        at, span = min(max(0, tick), self.ticks - 1), min(self.end - self.start, 120)
        self.view(at - span / 2, at + span / 2)
        self.job, self.cursor = job, [lane, at]
        self.folded.discard(self.words.lanes[lane].core)
        self.said = self.words.detail(text or self.words.describe(self.words.lanes[lane], at), job)

    def to_tick(self, tick):
        self.show(tick, self.cursor[0] if self.cursor else 0)

    def to_job(self, job, tick=None):
        self.show(job.release if tick is None else tick, self.words.lane_of(job.task), job)

    def to_fault(self):
        if self.words.fault:
            self.show(self.words.fault_tick, self.words.fault_lane(), None, "\n".join(self.words.data["why"].split("\n")[1:4]))

    def to_late(self):
        if self.words.late:
            self.next_late = (self.next_late + 1) % len(self.words.late)
            self.to_job(self.words.late[self.next_late], self.words.late[self.next_late].deadline)

    def to_wait(self):
        found = self.words.longest_wait()
        if found:
            self.to_job(found[0], found[1][1])

    def shown(self):
        """The lanes that aren't folded."""
        return [number for number, lane in enumerate(self.words.lanes) if lane.what in ("core", "head") or lane.core not in self.folded]

    def move(self, across, down):
        lane, tick = self.cursor or [0, int(self.start)]
        lanes = self.shown()
        lane = lanes[min(max(0, (lanes.index(lane) if lane in lanes else -1) + down), len(lanes) - 1)]
        if across:
            shown = self.words.lanes[lane]
            begins = [block.first for number in shown.numbers for block in self.words.blocks[POINTED[shown.what][0], number] if (block.first - tick) * across > 0]
            tick = min(begins, key=lambda begin: abs(begin - tick)) if begins else tick
        self.cursor = [lane, tick]
        if not self.start <= tick < self.end:
            self.pan(tick - (self.start + self.end) / 2)
        self.said = self.words.describe(self.words.lanes[lane], tick)

    def key(self, key):
        span = self.end - self.start
        {"+": lambda: self.zoom(0.6), "=": lambda: self.zoom(0.6), "-": lambda: self.zoom(1 / 0.6), "0": lambda: self.view(0, self.ticks),
         "ArrowRight": lambda: self.move(1, 0), "ArrowLeft": lambda: self.move(-1, 0), "ArrowDown": lambda: self.move(0, 1), "ArrowUp": lambda: self.move(0, -1),
         "PageDown": lambda: self.pan(span * 0.8), "PageUp": lambda: self.pan(-span * 0.8), "Home": lambda: self.pan(-self.ticks), "End": lambda: self.pan(self.ticks),
         "Enter": lambda: self.choose(self.cursor), "Escape": lambda: self.choose(None), "f": self.to_fault, "l": self.to_late, "w": self.to_wait}[key if len(key) > 1 else key.lower()]()


KEYS = ("ArrowDown ArrowDown ArrowRight ArrowRight Enter + + PageDown = PageUp ArrowLeft ArrowUp - End Home w ArrowUp Escape ArrowUp ArrowRight Enter ArrowRight 0 l + + + + l "
        "ArrowLeft ArrowLeft ArrowLeft ArrowLeft End ArrowLeft ArrowLeft f F Escape L Escape W 0 w Enter" + " ArrowDown Enter ArrowRight" * 12 + " ArrowUp ArrowLeft" * 12).split()


def tells(browser, name, path, facts, words):
    """Each text of the page, and what is lit up by a click on each place."""
    same(f"{name}: head", browser.value(HEAD), [words.head()[place] for place in (0, 2, 3, 4, 1)])
    said = [[words.describe(lane, tick) for tick in range(words.ticks)] for lane in words.lanes]
    same(f"{name}: lanes", browser.value("lanes.map(({ name }) => name)"), [lane.name for lane in words.lanes])
    same(f"{name}: texts", browser.value(TELL), said)
    step = 1 + len(words.lanes) * words.ticks // 1500
    chosen = [[[job and job[:2], [number, tick], words.detail(said[number][tick], job)] for tick in range(0, words.ticks, step) for job in [words.chosen(lane, tick)]] for number, lane in enumerate(words.lanes)]
    same(f"{name}: clicks", browser.value(f"({DETAILS})({step})"), chosen)
    report = words.report()
    same(f"{name}: report", browser.value(REPORT), [row[:2] for row in report])
    same(f"{name}: buttons", browser.value(BUTTONS), [not words.fault, not words.late, not words.longest_wait(), not any(len(lane.numbers) > 1 for lane in words.lanes),
                                                      bool(words.fault) or len(words.data["why"].splitlines()) < 12, "fault" if words.fault else ""])


def leads(browser, name, words, reader):
    """Where each bar, link and number leads to."""
    bars, wanted = browser.value(f"[...document.querySelectorAll('#report .bar')].map((bar) => {{ if (bar.disabled) return null; bar.click(); return {STATUS}; }})"), []
    for job in [job for _, _, jobs in words.report() for job in jobs]:
        if job:
            reader.to_job(words.jobs[job])
        wanted.append(reader.status() if job else None)
    same(f"{name}: bars", bars, wanted)
    found, wanted = browser.value(f"[...document.querySelectorAll('#report td > .link')].filter((link) => link.className === 'link').map((link) => {{ link.click(); return {STATUS}; }})"), []
    for number in range(len(words.plan.tasks)):
        own = [job for job in words.jobs.values() if job.task == number and words.is_late(job)]
        if own:
            reader.to_job(own[0], own[0].deadline)
            wanted.append(reader.status())
    same(f"{name}: late jobs", found, wanted)
    lines = words.data["why"].rstrip().split("\n")
    goals = [[(found.group(), goal) for found in re.finditer(r"\brow (\d+)|\btick (\d+)|\b([A-Za-z_]\w*),(\d+)(?=[,\s)]|$)", line) if (goal := target(words, reader, found, line))] for line in lines]
    same(f"{name}: reasons", browser.value(WHY), [[line, "missed" if line.startswith("not exercised") else "", [text for text, _ in links]] for line, links in zip(lines, goals)])
    found, wanted = browser.value(f"[...document.querySelectorAll('#why button')].map((link) => {{ link.click(); return {STATUS}; }})"), []
    for goal in [goal for links in goals for _, goal in links]:
        goal()
        wanted.append(reader.status())
    same(f"{name}: links", found, wanted)


def target(words, reader, found, line):
    row, tick, task, number = found.groups()
    if task and re.search(r",\d+,$", line[:found.start()]):
        return None  # behind a job's number there is a resource with its ahead
    if row and words.fault and int(row) == words.fault[0]:
        return reader.to_fault
    if row or tick:
        return lambda: reader.to_tick(int(tick) if tick else (int(row) - 1) // words.plan.cores)
    job = words.jobs.get((words.plan.numbers.get(task), int(number)))
    return job and (lambda: reader.to_job(job))


def acts(browser, name, path, facts):
    """A page tells and does what the facts say."""
    words = Words(facts)
    browser.open(path)
    reader = Reader(words)
    same(f"{name}: at first", browser.value(STATUS), reader.status())
    browser.value("(byId('lanes').style.maxHeight = 'none', byId('hide').click())")
    leads(browser, name, words, reader)
    found, wanted = browser.value(f"{json.dumps(KEYS)}.map((key) => {{ canvas.dispatchEvent(new KeyboardEvent('keydown', {{ key, cancelable: true }})); return [key, {STATUS}, {TABLE}]; }})"), []
    for key in KEYS:
        reader.key(key)
        wanted.append([key, reader.status(), words.table(reader.start, reader.end)])
    same(f"{name}: keys", found, wanted)
    tells(browser, name, path, facts, words)
    judge(not browser.errors, f"{name}: console {browser.errors[:2]}")
