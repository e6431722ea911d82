"""What a page draws: each rectangle, text, frame, arrow and line of the timeline and of the map, compared with what the facts say."""
import math

from pages.acts import same
from pages.facts import CEILING, DOES, FIRST, HOLDS, KINDS, LATE, LIFE, RUNS
from pages.words import HEIGHTS, Words

# Notes what is drawn, with the colour and the opacity; a shape is noted by its path.
RECORD = """(() => {
  window.ops = [];
  const canvas = CanvasRenderingContext2D.prototype, path = Path2D.prototype, Own = Path2D;
  window.Path2D = class extends Own {
    constructor(shape) { super(shape); this.said = shape ? shape : []; }
    addPath(shape, at) { this.said.push([shape.said, at.e, at.f]); super.addPath(shape, at); }
  };
  for (const name of 'fillRect fillText strokeRect stroke moveTo bezierCurveTo lineTo rect'.split(' ')) {
    const own = canvas[name];
    canvas[name] = function (...words) {
      const colour = name === 'rect' ? 'clip' : /^fill/.test(name) ? this.fillStyle : this.strokeStyle;
      const said = words.map((word) => (word instanceof Own ? word.said : word));
      if (this.canvas.id) window.ops.push([this.canvas.id, name, ...said, typeof colour === 'string' ? colour : 'hatch', this.globalAlpha]);
      return own.apply(this, words);
    };
  }
})()"""
DRAW = """(() => { setView(%s, %s); byId('lanes').style.maxHeight = '%s'; choose(%s); layOut(); byId('lanes').scrollTop = %s; ops.length = 0; drawMap(); draw();
  const box = canvas.getBoundingClientRect(), pen = document.createElement('canvas').getContext('2d'), style = getComputedStyle(document.documentElement);
  const colour = (name) => { pen.fillStyle = style.getPropertyValue('--' + name).trim(); return [name, pen.fillStyle]; };
  return { ops: window.ops.splice(0), width: box.width, height: box.height, scrolled: byId('lanes').scrollTop, wide: context.measureText('0').width, seen: canvas.dataset.blocks, map: byId('map').clientWidth,
    colours: Object.fromEntries('back text faint line lane works runs waits late life ceiling focus'.split(' ').map(colour)), window: ['left', 'right'].map((side) => Number.parseFloat(byId('window').style[side])),
    names: [...document.querySelectorAll('#names .lane')].map((one) => [Number.parseFloat(one.style.top), Number.parseFloat(one.style.height), [...one.children].map((part) => part.textContent).join('|')]) }; })()"""
# Scrolls the lanes, and tells whether they can be.
SCROLL = "(() => { const box = byId('lanes'), before = box.scrollTop; ops.length = 0; box.scrollTop = before ? 0 : 30; return box.scrollTop !== before; })()"
# The lines of the longest wait where the core of its job is folded, and where that of the job that was waited for first is.
FOLDED = """(() => { showLongestWait(); return [state.selected.task, state.links[0].task].map((task) => {
  const { core } = taskLane(task);
  fold(core);
  ops.length = 0;
  draw();
  fold(core);
  return ops.filter(([, name]) => name === 'bezierCurveTo').length;
}); })()"""
EDGE, AXIS, LETTER = 6, 26, 6.7
HUES = ["#eebc4d", "#89cbf0", "#4dbb9d", "#f4ec7b", "#4d9cc9", "#e28e4d", "#dba1c1"]
LAYERS = {"core": [RUNS], "ceiling": [CEILING], "task": [LIFE, DOES, HOLDS, LATE], "queue": [FIRST], "head": []}
ARROWS = ["M0 0v-13m-3 4l3-4l3 4", "M0-13v13m-3-4l3 4l3-4", "M0 0v-6m-4 0h8"]


def near(value):
    """As the page rounds."""
    return math.floor(value + 0.5)


class Drawing:
    """What has to be drawn between two ticks, with a place chosen."""

    def __init__(self, words, found, start, end, place):
        self.words, self.start, self.end, self.ops, self.count = words, start, end, [], 0
        self.width, self.height, self.wide, self.colours = found["width"], found["height"], found["wide"], found["colours"]
        self.scale = (self.width - 2 * EDGE) / (end - start)
        self.scrolled = found["scrolled"]
        self.place, self.job = place, place and words.chosen(words.lanes[place[0]], place[1])
        self.links = words.links(self.job) if self.job else []
        self.related = {self.job and self.job[:2], *((link.task, link.job) for link in self.links)}
        self.tops, top = {}, AXIS
        for number, lane in enumerate(words.lanes):
            if self.wanted(number, lane):
                self.tops[number], top = top - self.scrolled, top + HEIGHTS[lane.what]

    def own(self, lane):
        return sorted((job for job in self.words.jobs.values() if lane.what == "task" and job.task in lane.numbers), key=lambda job: job.release)

    def blocks(self, look, number, start, end, least=1):
        """The blocks in sight; of blocks closer than so many ticks one."""
        found, reach = [], start
        for block in self.words.blocks[look, number]:
            if block.end > reach and block.first < end:
                found.append(block)
                reach = max(block.end, math.ceil(block.first + least)) if least > 1 else start
        return found

    def wanted(self, number, lane):
        lit = self.job and number == self.words.lane_of(self.job.task)
        jobs = [job for job in self.own(lane) if job.release <= self.end and max(job.deadline, job.end) >= self.start]
        return lane.what in ("core", "head") or lit or jobs or any(self.blocks(look, one, self.start, self.end) for look in LAYERS[lane.what] for one in lane.numbers)

    def x(self, tick):
        return EDGE + (tick - self.start) * self.scale

    def op(self, *words):
        self.ops.append(["canvas", *words])

    def all(self):
        colours = self.colours
        self.op("fillRect", 0, 0, self.width, self.height, colours["back"], 1)
        self.axis()
        self.op("rect", 0, AXIS, self.width, self.height, "clip", 1)  # what is below the axis
        for number, top in self.tops.items():
            if -HEIGHTS[self.words.lanes[number].what] < top < self.height:
                self.lane(self.words.lanes[number], top)
        frames = []
        if self.words.fault:
            lane, tick = self.words.fault_lane(), self.words.fault_tick
            self.op("fillRect", self.x(tick), AXIS, max(3, self.scale), self.height, colours["late"], 0.16)
            frames.append((lane, tick, tick + 1, colours["late"]))
        self.frames(frames)
        self.lines()
        if self.place and (not self.words.fault or self.place != [self.words.fault_lane(), self.words.fault_tick]):
            block = self.words.block(self.words.lanes[self.place[0]], self.place[1])
            self.frames([(self.place[0], *((block.first, block.end) if block else (self.place[1], self.place[1] + 1)), colours["focus"])])
        return self.ops

    def axis(self):
        length = self.words.length
        least = max(1, min(90, self.width / 4) / self.scale) * length
        power = 10 ** math.floor(math.log10(least))
        step = next(times * power for times in (1, 2, 5, 10) if times * power >= least) / length
        marks = [place * step for place in range(math.ceil(self.start / step), math.floor(self.end / step) + 1)]
        self.op("fillRect", 0, AXIS - 1, self.width, 1, self.colours["line"], 1)
        for tick in marks:
            self.op("fillRect", near(self.x(tick)), AXIS - 6, 1, self.height, self.colours["line"], 1)
        flag, free = near(self.x(self.words.fault_tick)) - 2 if self.words.fault else -99, 0
        for text, tick in ((self.words.time(tick if self.words.data["unit"] else int(tick)), tick) for tick in marks):
            wide = len(text) * self.wide
            left = min(self.x(tick) + 3, self.width - wide - 1)
            if left >= free and not (left < flag + 24 and left + wide > flag):
                self.op("fillText", text, left, 15, self.colours["text"], 1)
                free = left + wide + 6
        if self.words.fault:
            self.op("fillRect", flag, 2, 22, 18, self.colours["late"], 1)
            self.op("fillText", self.words.fault[1], flag + 4, 15, self.colours["back"], 1)

    def lane(self, lane, top):
        if lane.what in ("core", "head"):
            self.op("fillRect", 0, top, self.width, HEIGHTS[lane.what], self.colours["lane"], 1)
        self.op("fillRect", 0, near(top), self.width, 1, self.colours["line"], 1)
        for look in LAYERS[lane.what]:
            for number in lane.numbers:
                for block in self.blocks(look, number, self.start, self.end, 3 / self.scale):
                    self.block(lane, block, top)
        if lane.what == "task":
            self.arrows(lane, top)

    def block(self, lane, block, top):
        task, colours = self.words.plan.tasks[block.task]["name"] if block.look not in (CEILING,) else "", self.colours
        resource = self.words.plan.resources[block.res] if block.look in (FIRST, HOLDS) else ""
        hue = HUES[block.res % len(HUES)]
        if block.look == DOES:
            label = (f"_{task.rsplit('_', 1)[1]} " if len(lane.numbers) > 1 else "") + f"J{block.job}"
            waits, wide = KINDS[block.kind] in ("queue", "spin"), (block.end - block.first) * self.scale > 3
            self.box(block, top + 16, 28, colours["waits" if waits and not wide else "works"], "" if waits else label)
            if waits and wide:
                self.box(block, top + 16, 28, "hatch", label)
            self.count -= waits and wide
        elif block.look == HOLDS and self.scale >= 0.25:
            depths = self.words.depths(block.task)
            high = max(4, 14 // (1 + max(depths.values())))
            self.box(block, top + 30 + depths[block] * high, high, hue, resource, "#000000")
        elif block.look != HOLDS:
            more = f" +{block.value}" if block.look == FIRST and block.value else ""
            y, high, fill, text = {RUNS: (3, 18, colours["runs"], task), FIRST: (3, 18, hue, task + more), LIFE: (13, 2, colours["life"], ""),
                                   LATE: (45, 4, colours["late"], ""), CEILING: (1, 13, colours["ceiling"], str(block.value))}[block.look]
            self.box(block, top + y, high, fill, text, "#000000" if block.look == FIRST else None)

    def box(self, block, top, high, fill, text, colour=None):
        pale = (1 if block.legal else 0.35) * (1 if not self.job or block.look == CEILING or (block.task, block.job) in self.related else 0.25)
        left = max(-2, near(self.x(block.first)))
        width = max(1, min(self.width + 2, near(self.x(block.end))) - left)
        self.op("fillRect", left, top, width, high, fill, pale)
        if width > 3 and high > 6:
            self.op("fillRect", left, top, 1, high, self.colours["faint"], pale)
        if text and high >= 12 and len(text) * LETTER <= min(width, left + width) - 6:
            self.op("fillText", text, max(left, 0) + 3, top + min(high, 16) - 4, colour or self.colours["text"], math.sqrt(pale))
        self.count += 1

    def arrows(self, lane, top):
        jobs = [job for job in self.own(lane) if job.release <= self.end and max(job.deadline, job.end) >= self.start]
        last, paths = [-9, -9, -9], ([], [])
        if len(jobs) > self.width / 20:
            return
        for job in jobs:
            lit = not self.job or job[:2] in self.related
            for moment, tick in enumerate((job.release, job.deadline, job.end if job.finished else -1)):
                if self.start <= tick <= min(self.end, self.words.ticks) and self.x(tick) - last[moment] >= 7:
                    last[moment] = self.x(tick)
                    paths[lit].append([ARROWS[moment], last[moment], top + 15])
        self.op("stroke", paths[0], self.colours["text"], 0.25)
        self.op("stroke", paths[1], self.colours["text"], 1)

    def frames(self, frames):
        for lane, first, end, colour in frames:
            if lane in self.tops:
                left = max(1, self.x(first))
                width = max(6, min(self.width - 1, self.x(end)) - left)
                self.op("strokeRect", left, self.tops[lane] + 1, width, HEIGHTS[self.words.lanes[lane].what] - 2, colour, 1)

    def lines(self):
        for link in self.links:
            own, other = (self.tops.get(self.words.lane_of(task)) for task in (self.job.task, link.task))
            if own is not None and other is not None:
                x, ink = self.x(link.first), (self.colours["focus"], 1)
                self.op("moveTo", x, own + 30, *ink)
                self.op("bezierCurveTo", x - 14, own + 30, x - 14, other + 30, x, other + 30, *ink)
                self.op("lineTo", self.x(link.end), other + 30, *ink)
                self.op("stroke", *ink)

    def names(self):
        found = []
        for number, top in self.tops.items():
            lane = self.words.lanes[number]
            text = f"▾ {lane.name}" if lane.what in ("core", "head") else lane.name
            if lane.what == "task":
                bodies = f"{len(lane.numbers)} bodies, " if len(lane.numbers) > 1 else ""
                text += f"|{bodies}level {self.words.plan.tasks[lane.numbers[0]]['level']}"
            found.append([top + self.scrolled, HEIGHTS[lane.what], text])
        return found

    def map(self, width):
        across, strip, found = width / self.words.ticks, 38 / self.words.plan.cores, []
        fill = lambda from_, to, top, thick, colour, pale: found.append([from_ * across, top, max(1.5, (to - from_) * across), thick, colour, pale])
        for core in range(self.words.plan.cores):
            for block in self.blocks(RUNS, core, 0, self.words.ticks, 1 / across):
                fill(block.first, block.end, core * strip + 1, strip - 1, self.colours["runs"], 1 if block.legal else 0.35)
        for job in self.words.late:
            fill(job.deadline, job.end, 39, 5, self.colours["late"], 1)
        if self.words.fault:
            found.append([self.words.fault_tick * across - 1, 0, 3, 44, self.colours["late"], 1])
        return [["map", "fillRect", *one] for one in found]


def close(found, wanted):
    """What is found, with numbers that are as good as wanted."""
    if found == wanted:
        return wanted
    if isinstance(found, list) and isinstance(wanted, list):
        return [close(a, b) for a, b in zip(found, wanted)] + found[len(wanted):]
    numbers = isinstance(found, (int, float)) and isinstance(wanted, (int, float))
    return wanted if numbers and abs(found - wanted) < 0.01 else found


def drawn(browser, name, words, start, end, place, high="none", scrolled=0):
    """What is drawn between two ticks, with a place chosen, of lanes that are so high and scrolled."""
    span = min(words.ticks, max(4, end - start))
    start = min(max(0, start), words.ticks - span)
    end, at = start + span, f"{{ lane: lanes[{place[0]}], tick: {place[1]} }}" if place else "null"
    found = browser.value(DRAW % (start, end, high, at, scrolled))
    drawing = Drawing(words, found, start, end, place)
    wanted, window = drawing.all(), [100 * start / words.ticks, 100 * (words.ticks - end) / words.ticks]
    wanted = drawing.map(found["map"]) + wanted
    said = [found["ops"], found["names"], found["window"], int(found["seen"])]
    wanted = [wanted, drawing.names(), window, drawing.count]
    same(f"{name}, {start} to {end}, {place}", close(said, wanted), wanted)


def pictures(browser, name, path, facts):
    """A page draws what the facts say: as a whole and in part, with each lane's jobs lit up."""
    words = Words(facts)
    browser.open(path)
    browser.value("byId('hide').checked = true")
    # A release right at the edge: by its arrow alone a lane is in sight. So is a deadline at the other one.
    over = lambda life: all(max(one[3:5]) < life[2] - 5 for one in facts.all if one[0] == life[0] and one[1] < life[1])
    last = max((life[2] for life in facts.all if life[2] >= 5 and over(life)), default=5)
    alone = lambda life: all(not life[3] - 1 < one[2] <= life[3] + 5 for one in facts.all if one[0] == life[0])
    due = min((life[3] for life in facts.all if life[4] < life[3] and alone(life)), default=4)
    freed = max((block.end for lane in words.lanes if lane.what == "queue" for block in words.blocks[FIRST, lane.numbers[0]]), default=4)
    for start in (due, freed, min((life[4] for life in facts.all if life[5]), default=4)):
        drawn(browser, name, words, start, start + 5, None)
    views = ((0, words.ticks), (words.ticks / 4, words.ticks / 2 + 4), (words.ticks - 5.5, words.ticks), (1.25, 5.25), (last - 5, last))
    for view, (start, end) in enumerate(views):
        drawn(browser, name, words, start, end, None)
        # Of many lanes each lights up a job in one view, or in some of them.
        for number in range(*(view, len(words.lanes), 5) if len(words.lanes) > 30 else (0, len(words.lanes), 1 + (view > 1))):
            blocks = [block for look in LAYERS[words.lanes[number].what] for one in words.lanes[number].numbers for block in words.blocks[look, one]]
            for tick in sorted({block.first for block in blocks[:2] + blocks[-1:]} | {words.ticks - 1}):
                drawn(browser, name, words, start, end, [number, tick])
    if words.fault:
        drawn(browser, name, words, 0, words.ticks, [words.fault_lane(), words.fault_tick])
    for scrolled in (0, 70, 9999):
        drawn(browser, name, words, 0, words.ticks, [len(words.lanes) - 1, 0], "190px", scrolled)
    wait = words.longest_wait()
    if wait and words.links(wait[0]):
        links, cores = words.links(wait[0]), [task["core"] for task in words.plan.tasks]
        left = [link for link in links if cores[wait[0].task] != cores[links[0].task] != cores[link.task]]
        same(f"{name}: lines of folded lanes", browser.value(FOLDED), [0, len(left)])
    browser.rest()
    if browser.value(SCROLL):
        browser.rest()
        same(f"{name}: drawn anew where it is scrolled", browser.value("ops.length > 0"), True)
