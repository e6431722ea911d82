"""What hands do on a page: each place under a pointer, clicks, drags, pinches, the wheel, the map, folds, the form and links, compared with the facts."""
import json
import math

from pages.acts import STATUS, TELL, Reader, same
from pages.drawn import Drawing
from pages.judged import judge
from pages.words import HEIGHTS, Words

EDGE, AXIS = 6, 26
# Pointers and wheels at places of the canvas or of the map, each a kind, x, y and more. A pointer that a script makes can't be captured.
HANDS = """(() => {
  canvas.setPointerCapture = () => {};
  byId('lanes').style.maxHeight = 'none';
  const on = (target, Kind) => (...points) => {
    for (const [kind, x, y, more] of points) {
      const { left, top } = target.getBoundingClientRect();
      target.dispatchEvent(new Kind(kind, { clientX: left + x, clientY: top + y, pointerId: 1, cancelable: true, ...more }));
    }
    return %s;
  };
  Object.assign(window, { pointed: on(canvas, PointerEvent), turned: on(canvas, WheelEvent), mapped: on(map, PointerEvent) });
  byId('hide').click();
  return [canvas.getBoundingClientRect().width, map.clientWidth];
})()""" % STATUS
TIPS = """%s.map(([x, y]) => {
  pointed(['pointermove', x, y]);
  const tip = byId('tip'), box = canvas.getBoundingClientRect(), [left, top] = ['left', 'top'].map((side) => Number.parseFloat(tip.style[side]));
  if (tip.hidden) return null;
  const isAway = left > box.left + x || left + tip.offsetWidth < box.left + x || top > box.top + y || top + tip.offsetHeight < box.top + y;
  const isInSight = left >= 0 && left + tip.offsetWidth <= innerWidth && top >= 0 && top + tip.offsetHeight <= innerHeight;
  return [tip.textContent, isAway, isInSight || box.top + y > innerHeight - 30];
})"""
FOLD = """(() => { document.querySelectorAll('#names button')[%s].click(); return [document.activeElement.textContent,
  [...document.querySelectorAll('#names .lane')].map((lane) => [...lane.children].map((part) => part.textContent).concat(lane.children[0].getAttribute('aria-expanded') || []))]; })()"""
SHOWN = """(() => { byId('lanes').style.maxHeight = '150px'; layOut(); return %s.map(([tick, lane]) => {
  const { scrollTop: before, clientHeight: high } = byId('lanes');
  show(tick, lanes[lane]);
  const { top, height } = lanes[lane], after = byId('lanes').scrollTop;
  const [was, is] = [before, after].map((scrolled) => top - AXIS >= scrolled && top + height <= scrolled + high);
  return [is, !was || before === after];
}); })()"""
LINKS = "[...document.querySelectorAll('#detail .link')].map((link) => { link.click(); return %s; })" % STATUS
ASK = "(() => { byId('tick').value = %s; document.querySelector('#to-tick button').click(); return %s; })()"
ROWS = "[...document.querySelectorAll('#table tr')].map((row) => [...row.children].map((cell) => cell.textContent))"
NAMES = "[...document.querySelectorAll('#names .lane')].map((one) => [Number.parseFloat(one.style.top), Number.parseFloat(one.style.height), [...one.children].map((part) => part.textContent).join('|')])"
PRESSED = "['ArrowDown', 'PageUp', 'Tab', 'q', 'F5', '1'].map((key) => canvas.dispatchEvent(new KeyboardEvent('keydown', { key, cancelable: true })))"


class Hand(Reader):
    """A reader with a hand on a canvas and a map that are so wide, with all lanes that aren't folded."""

    def __init__(self, words, width, wide):
        super().__init__(words)
        self.width, self.wide = width, wide

    def per_pixel(self):
        return (self.end - self.start) / (self.width - 2 * EDGE)

    def tick(self, x):
        return self.start + (x - EDGE) * self.per_pixel()

    def tops(self):
        """The lanes that are shown, each with its top and its bottom."""
        bottom = AXIS
        for number in self.shown():
            top, bottom = bottom, bottom + HEIGHTS[self.words.lanes[number].what]
            yield number, top, bottom

    def place(self, x, y):
        """The lane and the tick at a place of the canvas."""
        tick = math.floor(self.tick(x))
        return next(([number, tick] for number, top, bottom in self.tops() if top <= y < bottom and 0 <= tick < self.ticks), None)

    def tip(self, x, y):
        place = self.place(x, y)
        return place and [self.words.describe(self.words.lanes[place[0]], place[1]), True, True]

    def places(self):
        """Places at the edges of lanes, ticks, axis and canvas."""
        bounds, step = [AXIS, *(bottom for _, _, bottom in self.tops())], 1 / self.per_pixel()
        rows = [y for bound in bounds for y in (bound - 1, bound)] + [2, bounds[-1] + 3]
        columns = [0, EDGE - 1, EDGE + 1, EDGE + math.ceil(2 * step) + 1, EDGE + math.floor(3 * step) - 1, int(self.width / 2) + 1, int(self.width) - EDGE - 3, int(self.width) - EDGE + 2]
        return [(columns[(3 * at + turn) % len(columns)], y) for at, y in enumerate(rows) for turn in range(2)] + [(x, AXIS + 30) for x in columns]

    def drag(self, *places):
        """A pointer goes down at the first place, and up at the last one. A step of more than three pixels in all isn't a click."""
        moved = 0
        for (x, y), (to, down) in zip(places, places[1:]):
            moved += abs(to - x) + abs(down - y)
            if moved > 3:
                self.pan((x - to) * self.per_pixel())
        if moved <= 3:
            self.choose(self.place(*places[-1]))

    def pinch(self, still, *moves):
        """A second finger moves along while the first one is still."""
        for last, now in zip(moves, moves[1:]):
            self.zoom(max(8, abs(last - still)) / max(8, abs(now - still)), self.tick((now + still) / 2))

    def wheel(self, x, across, down, held=""):
        if held == "shiftKey" or abs(across) > abs(down):
            self.pan((across or down) * self.per_pixel())
        else:
            self.zoom(math.exp(max(-1, min(1, down / (60 if held == "ctrlKey" else 300)))), self.tick(x))

    def map(self, x):
        tick, half = x / self.wide * self.ticks, (self.end - self.start) / 2
        self.view(tick - half, tick + half)

    def fold(self, core):
        self.folded ^= {core}

    def names(self):
        found = []
        for number in self.shown():
            lane, plan = self.words.lanes[number], self.words.plan
            if lane.what in ("core", "head"):
                found.append([f"{'▸' if lane.core in self.folded else '▾'} {lane.name}", str(lane.core not in self.folded).lower()])
            else:
                bodies = f"{len(lane.numbers)} bodies, " if len(lane.numbers) > 1 else ""
                found.append([lane.name, *([f"{bodies}level {plan.tasks[lane.numbers[0]]['level']}"] if lane.what == "task" else [])])
        return found


def points(browser, name, hand):
    """What is told of each place under a pointer, and what a click on it lights up."""
    places, found, wanted = hand.places(), [], []
    same(f"{name}: tips", browser.value(TIPS % json.dumps(places)), [hand.tip(*place) for place in places])
    for x, y in places:
        found.append(f"pointed(['pointerdown', {x}, {y}], ['pointermove', {x + 2}, {y - 1}], ['pointerup', {x + 2}, {y - 1}])")
        hand.drag((x, y), (x + 2, y - 1))
        wanted.append(hand.status())
    same(f"{name}: clicks at places", browser.value(f"[{', '.join(found)}]"), wanted)
    middle = hand.places()[-3][0]
    found = browser.value(f"[['pointerleave', {middle}, 60], ['pointerdown', {middle}, 60], ['pointermove', {middle + 1}, 60], ['pointerup', {middle}, 60]].map((one) => {{ if (one[0] === 'pointerleave') pointed(['pointermove', {middle}, 60]); pointed(one); return byId('tip').hidden; }})")
    same(f"{name}: without a tip", found, [True] * 4)
    hand.drag((middle, 60), (middle + 1, 60), (middle, 60))
    found = browser.value(f"(choose(null), pointed(['pointerup', {middle}, 60], ['pointerdown', {middle}, 60], ['pointercancel', {middle}, 60]))")
    hand.choose(None)
    same(f"{name}: a pointer that is cancelled", found, hand.status())
    same(f"{name}: a tip again", browser.value(f"(pointed(['pointermove', {middle}, 60]), byId('tip').hidden)"), hand.place(middle, 60) is None)


def moved(browser, name, hand):
    """Drags, pinches, the wheel and the map."""
    found, wanted, at = [], [], int(hand.width / 3)

    def note(expression, act):
        said = expression.replace("(", " ")
        found.append(f"[{json.dumps(said)}, {expression}]")
        act()
        wanted.append([said, hand.status()])

    note("(choose(null), KEYS['+'](), KEYS['+'](), pointed())", lambda: (hand.choose(None), hand.key("+"), hand.key("+")))
    for steps in ([(at, 60), (at - 3, 60), (at - 30, 62)], [(at, 60), (at + 2, 60), (at, 60), (at + 9, 90)], [(at, 60), (at, 64)], [(at, 60), (at + 900, 60)]):
        (x, y), *rest = steps
        moves = ", ".join(f"['pointermove', {to}, {down}]" for to, down in rest)
        note(f"pointed(['pointerdown', {x}, {y}], {moves}, ['pointerup', {rest[-1][0]}, {rest[-1][1]}])", lambda: hand.drag(*steps))
    for still, *moves in ((at, at + 100, at + 150, at + 120), (at + 50, at, at - 60, at + 20), (at, at + 4, at + 2, at + 40), (at, at + 60, at + 1, at - 60)):
        second = ", ".join(f"['{'pointermove' if turn else 'pointerdown'}', {x}, 61, {{ pointerId: 2 }}]" for turn, x in enumerate(moves))
        note(f"pointed(['pointerdown', {still}, 60], {second}, ['pointerup', {moves[-1]}, 61, {{ pointerId: 2 }}], ['pointerup', {still}, 60])", lambda: hand.pinch(still, *moves))
    note(f"pointed(['pointerdown', {at}, 60], ['pointerup', {at}, 60])", lambda: hand.drag((at, 60), (at, 60)))
    for across, down, held in ((0, -120, ""), (0, 40, ""), (0, -900, ""), (0, -12, "ctrlKey"), (0, 200, "ctrlKey"), (30, 10, ""), (-30, 10, ""), (10, 30, ""), (0, -50, "shiftKey"), (20, 50, "shiftKey"), (0, -300, ""), (20, -20, "")):
        note(f"turned(['wheel', {at}, 60, {{ deltaX: {across}, deltaY: {down}, {held or 'altKey'}: true }}])", lambda: hand.wheel(at, across, down, held))
    for kind, x, buttons in (("pointerdown", 0.7, 1), ("pointermove", 0.4, 1), ("pointermove", 0.2, 0), ("pointerdown", 0.99, 1), ("pointerdown", 0, 0)):
        place = int(hand.wide * x)
        note(f"mapped(['{kind}', {place}, 9, {{ buttons: {buttons} }}])", lambda: buttons < 1 and kind == "pointermove" or hand.map(place))
    for button, key in (("whole", "0"), ("zoom-in", "+"), ("zoom-out", "-"), ("zoom-in", "+"), ("to-late", "l"), ("to-wait", "w"), ("to-fault", "f"), ("to-late", "l")):
        note(f"(byId('{button}').click(), pointed())", lambda: hand.key(key))
    same(f"{name}: hands", browser.value(f"[{', '.join(found)}]"), wanted)
    judge(not browser.value("canvas.dispatchEvent(new WheelEvent('wheel', { deltaY: 0, shiftKey: true, cancelable: true }))"), f"{name}: the wheel doesn't scroll, too")
    same(f"{name}: keys of the page and of the browser", browser.value(PRESSED), [False, False, True, True, True, True])
    hand.key("ArrowDown")
    hand.key("PageUp")


def asked(browser, name, hand):
    """The form, and what a job waited for, as links."""
    found, wanted = [], []
    for text, tick in (("7", 7), (" 12 ", 12), ("0", 0), ("-3", None), ("", None), ("next", None), ("5.9", 5), ("99999999999", hand.ticks - 1)):
        found.append(ASK % (json.dumps(text), STATUS))
        if tick is not None:
            hand.to_tick(tick)
        wanted.append(hand.status())
    same(f"{name}: ticks in the form", browser.value(f"[{', '.join(found)}]"), wanted)
    found, wanted = [], []
    for number, lane in enumerate(hand.words.lanes):
        jobs = {job: tick for tick in range(hand.ticks) if (job := hand.words.chosen(lane, tick)) and hand.words.links(job)}
        for job, tick in list(jobs.items())[:3]:
            found.append(f"(choose({{ lane: lanes[{number}], tick: {tick} }}), {LINKS})")
            wanted.append([])
            hand.choose([number, tick])
            for link in hand.words.links(job)[:20]:
                hand.to_job(hand.words.jobs[link.task, link.job], link.first)
                wanted[-1].append(hand.status())
    same(f"{name}: jobs that were waited for", browser.value(f"[{', '.join(found)}]"), wanted)


def folded(browser, name, hand):
    """Each core and the resources fold and unfold, and a jump to a job unfolds its core."""
    heads = [lane for lane in hand.words.lanes if lane.what in ("core", "head")]
    for place in (0, len(heads) - 1, 0, len(heads) - 1, *range(len(heads))):
        found = browser.value(FOLD % place)
        hand.fold(heads[place].core)
        names = hand.names()
        focused = next(head for head in names if head[0][2:] == heads[place].name and head[0][0] in "▸▾")
        same(f"{name}: fold {place}", found, [focused[0], names])
    found, wanted = [], []
    for key in ("ArrowDown", "ArrowDown", "ArrowUp", "ArrowDown", "l", "w", "ArrowDown", "ArrowUp"):
        found.append(f"(KEYS.{key}(), [...{STATUS}, [...document.querySelectorAll('#names .lane')].length])")
        hand.key(key)
        wanted.append([*hand.status(), len(hand.shown())])
    same(f"{name}: keys where cores are folded", browser.value(f"[{', '.join(found)}]"), wanted)


def scrolled(browser, name, hand):
    """What is shown is scrolled into sight, and the lanes rest if it was there; the form keeps to the first lane that is whole."""
    places = [[tick, lane] for turn in (1, 5, -3) for tick, lane in enumerate([*range(len(hand.words.lanes))][::turn])]
    same(f"{name}: lanes in sight", browser.value(SHOWN % json.dumps(places)), [[True, True]] * len(places))
    for pixels in (0, 1, 24, 60):
        browser.value(f"(choose(null), byId('lanes').scrollTop = {pixels})")
        reached = browser.value("byId('lanes').scrollTop")
        first = next(number for number, top, _ in hand.tops() if top >= reached + AXIS)
        same(f"{name}: a tick from {pixels}", browser.value(f"(showTick(1), lanes.indexOf(state.cursor.lane))"), first)
        y = AXIS + 30
        found = browser.value(f"(choose(null), byId('lanes').scrollTop = {pixels}, setView(0, 4), pointed(['pointerdown', 300, {y}], ['pointerup', 300, {y}]))[3]")
        hand.view(0, 4)
        same(f"{name}: a click from {pixels}", found, hand.place(300, y + browser.value("byId('lanes').scrollTop")))
    found = browser.value("(byId('lanes').scrollTop = 0, pointed(['pointerdown', 300, 100], ['pointermove', 300, 90], ['pointermove', 301, 60], ['pointermove', 301, 65], ['pointerup', 301, 65]), byId('lanes').scrollTop)")
    most, reached = max(0, [*hand.tops()][-1][2] - browser.value("byId('lanes').clientHeight")), 0
    for step in (10, 30, -5):
        reached = min(max(0, reached + step), most)
    same(f"{name}: a drag up", found, reached)
    browser.value("(byId('lanes').style.maxHeight = 'none', choose(null), layOut())")


def hidden(browser, name, words):
    """Lanes without a job in sight are hidden once the view rests, and the table has the rows in sight."""
    browser.value("(byId('hide').click(), choose(null), byId('rows').open = true)")
    for start, end in ((0, 4), (words.ticks / 3, words.ticks / 3 + 5), (words.ticks - 4, words.ticks), (0, words.ticks)):
        browser.value(f"setView({start}, {end})")
        browser.rest()
        start, end = browser.value("[view.from, view.to]")
        drawing = Drawing(words, dict(width=1000, height=0, scrolled=0, wide=7, colours={}), start, end, None)
        same(f"{name}: lanes at rest, {start} to {end}", browser.value(NAMES), drawing.names())
        same(f"{name}: rows at rest, {start} to {end}", browser.value(ROWS), words.table(start, end))


def parted(browser, name, facts):
    """Lanes of split tasks, parted."""
    words = Words(facts, False)
    browser.value("byId('join').click()")
    same(f"{name}: parted lanes", browser.value("[lanes.map(({ name }) => name), state.selected, state.cursor, byId('detail').textContent]"), [[lane.name for lane in words.lanes], None, None, ""])
    same(f"{name}: texts of parted lanes", browser.value(TELL), [[words.describe(lane, tick) for tick in range(words.ticks)] for lane in words.lanes])


def hands(browser, name, path, facts):
    """A page does what hands ask for."""
    words = Words(facts)
    browser.open(path)
    hand = Hand(words, *browser.value(HANDS))
    same(f"{name}: all lanes", browser.value("document.querySelectorAll('#names .lane').length"), len(words.lanes))
    for part in (points, moved, asked, folded):
        part(browser, name, hand)
    browser.value("document.querySelectorAll('#names [aria-expanded=false]').forEach((one) => one.click())")
    hand.folded = set()
    scrolled(browser, name, hand)
    hidden(browser, name, words)
    if any(len(lane.numbers) > 1 for lane in words.lanes):
        parted(browser, name, facts)
    judge(not browser.errors, f"{name}: console {browser.errors[:2]}")
