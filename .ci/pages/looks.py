"""How a page looks: texts and axis of the timeline, lanes, colours, small screens, paper, and what a screen reader gets."""
import base64
import json
import re
import zlib
from itertools import combinations

from pages.judged import judge

# Keeps the texts of the last frame of the timeline, each with its left end, its base line and its width.
KEEP_TEXTS = """(() => {
  const { fillRect, fillText } = CanvasRenderingContext2D.prototype;
  CanvasRenderingContext2D.prototype.fillRect = function (x, y, ...size) {
    if (!x && !y && this.canvas.id === 'canvas') window.texts = [];
    return fillRect.call(this, x, y, ...size);
  };
  CanvasRenderingContext2D.prototype.fillText = function (text, x, y) {
    window.texts.push([text, x, y, this.measureText(text).width]);
    return fillText.call(this, text, x, y);
  };
})()"""
VIEW = "(() => { const { blocks, arrows, from, to } = document.getElementById('canvas').dataset; return [blocks, arrows, from, to].map(Number); })()"
NAMES = "[...document.querySelectorAll('#names .lane > :first-child')].map((name) => name.textContent)"
AXIS, BASE_LINE = 26, 15
UNITS = {"s": 10**9, "ms": 10**6, "us": 10**3, "ns": 1}
# What a style is asked for, and pairs of a text and its ground.
COLOURS = "(() => { const style = getComputedStyle(document.documentElement); return (name) => style.getPropertyValue('--' + name).trim(); })()"
PAIRS = [(text, ground) for text, grounds in (("text", "back lane works runs ceiling"), ("faint", "back"), ("late", "back"), ("focus", "back")) for ground in grounds.split()]
# What someone sees who lacks one kind of cones, in linear light (Machado, Oliveira and Fernandes, 2009).
BLIND = {
    "protan": ((0.152, 1.053, -0.205), (0.115, 0.786, 0.099), (-0.004, -0.048, 1.052)),
    "deutan": ((0.367, 0.861, -0.228), (0.280, 0.673, 0.047), (-0.012, 0.043, 0.969)),
    "tritan": ((1.256, -0.077, -0.179), (-0.078, 0.931, 0.148), (0.005, 0.691, 0.304)),
}


def size(browser, width, height=800):
    browser.ask("Emulation.setDeviceMetricsOverride", width=width, height=height, deviceScaleFactor=1, mobile=False)


def media(browser, kind="", dark=False):
    browser.ask("Emulation.setEmulatedMedia", media=kind, features=[{"name": "prefers-color-scheme", "value": "dark" if dark else "light"}])
    browser.rest()


def key(browser, name):
    browser.value(f"document.querySelector('[data-key=\"{name}\"]').click()")
    browser.rest()


# ---- texts and axis

def time_of(label):
    """The time that a label shows: in nanoseconds, or in ticks."""
    number, _, unit = label.partition(" ")
    return round(float(number) * UNITS.get(unit, 1), 6)


def clean(browser, name):
    """No text overlaps another one or is cut, and the axis has round times; how many marks it has."""
    texts, width = browser.value("window.texts"), browser.value("document.getElementById('canvas').offsetWidth")
    cut = [text for text, x, y, wide in texts if x < 0 or x + wide > width]
    over = [(a[0], b[0]) for a, b in combinations(texts, 2) if abs(a[2] - b[2]) < 9 and a[1] < b[1] + b[3] and b[1] < a[1] + a[3]]
    judge(not cut and not over, f"{name}: texts cut {cut[:3]}, overlapping {over[:3]}")
    times = [time_of(text) for text, x, y, wide in texts if y == BASE_LINE]
    steps = {round(b - a, 3) for a, b in zip(times, times[1:])}
    judge(len(steps) <= 1 and all(re.fullmatch(r"[125]0*(?:\.0)?", str(step)) for step in steps), f"{name}: axis {times}")
    judge(not steps or all(abs(time / step - round(time / step)) < 1e-6 for time in times for step in steps), f"{name}: axis {times}")
    return len(times)


def texts(browser, page, path, facts):
    """Texts and axis in four units and at each zoom, wide and narrow."""
    browser.ask("Page.addScriptToEvaluateOnNewDocument", source=KEEP_TEXTS)
    for unit in (None, [10, "us"], [16, "us"], [7, "ms"], [250, "ns"]):
        path.write_text(page({**facts.data, "unit": unit}))
        for width in (1280, 400):
            size(browser, width)
            browser.open(path)
            for zoom in range(6):
                marks = clean(browser, f"{path.stem}, {unit}, {width} pixels, zoom {zoom}")
                judge(marks >= (2 if width > 1000 else 1), f"{path.stem}, {unit}, {width} pixels, zoom {zoom}: {marks} marks")
                key(browser, "+")
    size(browser, 1280)
    browser.open(path)
    said = {text for text, *_ in browser.value("window.texts")}
    wanted = {"J0", "J1", "logger +2", *(task["name"] for task in facts.plan.tasks), *facts.plan.shared, *map(str, facts.plan.tops)}
    judge(wanted <= said, f"labels: {wanted - said}")


# ---- lanes

# Whether each bar of the report, up and down, brings its lane into sight, below the axis.
BARS = """(() => {
  const bars = [...document.querySelectorAll('#report .bar:not(:disabled)')];
  return [...bars, ...bars.slice().reverse()].map((bar) => {
    bar.click();
    const [{ top, height }, scrolled] = [state.cursor.lane, byId('lanes').scrollTop];
    return AXIS <= top - scrolled && top - scrolled + height <= state.height;
  });
})()"""


def lanes(browser, path, facts):
    """Lanes without a job in sight are left out; names and axis stay in sight; the map leads to a place."""
    size(browser, 1280, 250)
    browser.open(path)
    seen = browser.value(BARS)
    judge(len(seen) > 8 and all(seen), f"lanes of bars in sight: {seen}")
    size(browser, 1280, 500)
    browser.open(path)
    browser.value("document.getElementById('join').click()")
    for name in "++++":
        key(browser, name)
    box = browser.value("(() => { const { left, top, width } = document.getElementById('map').getBoundingClientRect(); return [left, top, width]; })()")
    browser.click(box[0] + 0.75 * box[2], box[1] + 10)
    _, _, start, end = browser.value(VIEW)
    judge(abs((start + end) / 2 - 0.75 * facts.plan.ticks) < 1, f"map: {start} to {end}")
    wanted = {facts.plan.tasks[life[0]]["name"] for life in facts.all if life[2] <= end and max(life[3], life[4]) >= start}
    names = {task["name"] for task in facts.plan.tasks}
    shown = names & set(browser.value(NAMES))
    judge(shown == wanted and shown < names, f"lanes in sight: {shown} and not {wanted}")
    browser.value("document.getElementById('hide').click()")
    browser.rest()
    judge(names <= set(browser.value(NAMES)), "all lanes")
    browser.value("document.getElementById('lanes').scrollTop = 150")
    browser.rest()
    tops = browser.value("['lanes', 'corner', 'canvas'].map((name) => document.getElementById(name).getBoundingClientRect().top)")
    judge(browser.value("document.getElementById('lanes').scrollTop") == 150 and max(tops) - min(tops) <= 1, f"axis in sight: {tops}")
    size(browser, 1400, 1500)


def joined(browser, page, path, facts):
    """Tasks that were split by bodies share a lane, until they are parted; others don't, even with such names."""
    browser.open(path)
    names, each = browser.value(NAMES), [task["name"] for task in facts.plan.tasks]
    stems = {re.sub(r"_\d+$", "", name) for name in each}
    judge(stems <= set(names) and not {name for name in names if re.search(r"_\d+$", name)}, f"joined: {names}")
    browser.value("document.getElementById('join').click()")
    browser.rest()
    judge(set(each) <= set(browser.value(NAMES)), f"parted: {browser.value(NAMES)}")
    data = json.loads(json.dumps(facts.data))
    first, second = [number for number, name in enumerate(each) if re.match(each[-1][:-1], name)][:2]
    moved = {group[1]: group for group in data["events"] if group[0] == 0 and group[1] in (first, second)}
    moved[second][2] = moved[first][2]
    other = next(number for number, name in enumerate(each) if not re.search(r"_\d+$", name))
    data["tasks"][other][0] = each[other - 1][:-1] + "9"
    (path.parent / "apart.html").write_text(page(data))
    browser.open(path.parent / "apart.html")
    judge({each[first], each[second], data["tasks"][other][0]} <= set(browser.value(NAMES)), f"not joined: {browser.value(NAMES)}")
    for place, what in ((1, "cores"), (2, "deadlines")):
        data = json.loads(json.dumps(facts.data))
        data["tasks"][second][place] -= 1
        (path.parent / "apart.html").write_text(page(data))
        browser.open(path.parent / "apart.html")
        judge({each[first], each[second]} <= set(browser.value(NAMES)), f"not joined, of two {what}: {browser.value(NAMES)}")


# ---- what is written around the timeline

CONTROLS = [["Zoom in", "Key +", "+"], ["Zoom out", "Key -", "-"], ["Whole run", "Key 0", "0"], ["Fault", "Key F", "f"], ["Next late job", "Key L", "l"], ["Longest wait", "Key W", "w"]]
LEGEND = [["J0: job 0 runs", ["works"]], ["spins", ["works"]], ["critical section, by resource", ["#eebc4d", "#89cbf0"]], ["released, not finished", ["life"]], ["late", ["late"]],
          ["ceiling of the core", ["ceiling"]], ["↑release", []], ["↓absolute deadline", []], ["⊤completion", []], ["resource: the first in its queue, and +n that wait", ["#89cbf0"]]]
HELP = ("Wheel, two fingers or + and -: zoom. Drag, Page up and Page down: pan. Arrow keys: next block, next lane. Enter or click: light up a job and the jobs it waited for. "
        "Escape: clear. F: fault. L: next late job. W: longest wait. 0: whole run.")
HEADS = ["Task", "Core", "Finished", "Late", "Worst response, of the relative deadline", "Longest spin, of its bound", "Longest blocking, of its bound"]
SAID = """(() => {
  const text = (part) => part.textContent.trim().replace(/\\s+/g, ' '), all = (where) => [...document.querySelectorAll(where)], pen = document.createElement('canvas').getContext('2d');
  const plain = (colour) => { pen.fillStyle = colour; return pen.fillStyle; }, before = document.querySelector('#why .missed');
  return [all('[data-key]').map((one) => [text(one), one.title, one.dataset.key]), all('#legend li').map((one) => [text(one), [...one.querySelectorAll('i')].map((mark) => plain(getComputedStyle(mark).backgroundColor))]),
    text(byId('help')), all('#report th').slice(0, 7).map(text), all('h2, summary, label, form button').map(text), all('#legend i').map((mark) => getComputedStyle(mark).backgroundImage !== 'none').indexOf(true),
    plain(getComputedStyle(byId('verdict')).color), before && getComputedStyle(before, '::before').content, Object.fromEntries(Object.keys(palette).map((name) => [name, plain(palette[name])]))];
})()"""
LABELS = ["Reasons", "Timeline", "Tick", "Go", "Hide empty lanes", "Join split tasks", "Rows in sight as a table", "Report"]


def said(browser, path, facts):
    """The texts around the timeline, and the colours in its legend, which are those of the timeline, in the dark too."""
    for dark in (False, True):
        media(browser, dark=dark)
        browser.open(path)
        buttons, legend, help_, heads, labels, hatched, verdict, missed, colours = browser.value(SAID)
        name = f"{path.stem}, {'dark' if dark else 'light'}"
        judge(buttons == CONTROLS, f"{name}: buttons {buttons}")
        judge(legend == [[text, [colours.get(mark, mark) for mark in marks]] for text, marks in LEGEND] and hatched == 1, f"{name}: legend {legend}, hatched {hatched}")
        judge(help_ == HELP and heads == HEADS and labels == LABELS, f"{name}: texts {help_} {heads} {labels}")
        judge(verdict == colours["late" if facts.data["fault"] else "text"], f"{name}: the colour of the verdict: {verdict}")
        judge(missed == (None if facts.data["fault"] else '"–\u00a0"'), f"{name}: what isn't exercised: {missed}")
    media(browser)


def pixels(browser, left, top, width, height):
    """The colours of a part of the screen, row by row: of a PNG of 8 bits without interlacing."""
    clip = dict(x=left, y=top, width=width, height=height, scale=1)
    data = base64.b64decode(browser.ask("Page.captureScreenshot", format="png", clip=clip)["data"])
    chunks, at = {}, 8
    while at < len(data):
        size_, kind = int.from_bytes(data[at:at + 4], "big"), data[at + 4:at + 8]
        chunks[kind] = chunks.get(kind, b"") + data[at + 8:at + 8 + size_]
        at += 12 + size_
    depth = {2: 3, 6: 4}[chunks[b"IHDR"][9]]
    raw, wide, rows = zlib.decompress(chunks[b"IDAT"]), int.from_bytes(chunks[b"IHDR"][:4], "big") * depth, []
    for start in range(0, len(raw), wide + 1):
        line, above = bytearray(raw[start + 1:start + 1 + wide]), rows[-1] if rows else bytes(wide)
        for place in range(wide):
            a, b, c = (line[place - depth], above[place], above[place - depth]) if place >= depth else (0, above[place], 0)
            near = min((abs(b - c), 0, a), (abs(a - c), 1, b), (abs(a + b - 2 * c), 2, c))[2]
            line[place] = (line[place] + (0, a, b, (a + b) // 2, near)[raw[start]]) % 256
        rows.append(line)
    return [[f"#{line[place:place + 3].hex()}" for place in range(0, wide, depth)] for line in rows]


def bars(browser, path, facts):
    """A bar is as long as what was observed, of the larger of it and its bound; beyond the bound it is hatched in the colour of what is late."""
    browser.open(path)
    ground, runs, late_ = browser.value("['back', 'runs', 'late'].map((name) => { const pen = document.createElement('canvas').getContext('2d'); pen.fillStyle = palette[name]; return pen.fillStyle; })")
    places = browser.value("[...document.querySelectorAll('#report .bar')].map((one) => { const { left, top, width } = one.getBoundingClientRect(); return [left, top + scrollY, width]; })")
    pairs = [pair for line, task in zip(facts.data["report"], facts.plan.tasks) for pair in ((line[3], task["deadline"]), (line[5], line[8]), (line[7], line[9]))]
    for (left, top, width), (observed, bound) in zip(places, pairs):
        row = pixels(browser, left, top, width, 8)[2]
        inner, most = width - 2, max(1, observed, bound)
        colours = lambda start, end: set(row[round(1 + inner * start / most) + 2:round(1 + inner * end / most) - 1])
        judge(colours(0, min(observed, bound)) <= {runs} and colours(observed, most) <= {ground}, f"{path.stem}: bar {observed} of {bound}")
        beyond = colours(bound, observed) if observed > bound else set()
        judge(observed <= bound or late_ in beyond and runs not in beyond, f"{path.stem}: bar {observed} of {bound}: {beyond}")


def sharp(browser, path):
    """On a screen of small pixels and after a change of its width the timeline is as sharp and as wide as its place."""
    for ratio, width in ((2, 1280), (1.5, 900), (1, 1400)):
        browser.ask("Emulation.setDeviceMetricsOverride", width=width, height=1500, deviceScaleFactor=ratio, mobile=False)
        browser.rest()
        if ratio == 2:
            browser.open(path)
        found = browser.value("(() => { const { width, height } = canvas.getBoundingClientRect(); return [canvas.width / width, canvas.height / height, xOf(view.to) - width, map.width - map.clientWidth, ...['a', 'b', 'c', 'd', 'e', 'f'].map((name) => context.getTransform()[name])]; })()")
        judge(all(abs(one - wanted) < 0.02 for one, wanted in zip(found, (ratio, ratio, -6, 0, ratio, 0, 0, ratio, 0, 0))), f"sharp: {ratio}, {width}: {found}")


# ---- colours, small screens, paper

def linear(colour):
    values = [int(digit * (2 if len(colour) == 4 else 1), 16) / 255 for digit in re.findall("." * (1 if len(colour) == 4 else 2), colour[1:])]
    return [value / 12.92 if value <= 0.04045 else ((value + 0.055) / 1.055) ** 2.4 for value in values]


def contrast(*colours):
    light, dark = sorted((sum(share * part for share, part in zip((0.2126, 0.7152, 0.0722), linear(colour))) for colour in colours), reverse=True)
    return (light + 0.05) / (dark + 0.05)


def readable(browser, name):
    """Each text has enough contrast on its ground (WCAG 2: 4.5)."""
    names = {word for pair in PAIRS for word in pair}
    colours = browser.value(f"(() => {{ const of = {COLOURS}; return Object.fromEntries({json.dumps(sorted(names))}.map((name) => [name, of(name)])); }})()")
    weak = [(text, ground, round(contrast(colours[text], colours[ground]), 1)) for text, ground in PAIRS if contrast(colours[text], colours[ground]) < 4.5]
    judge(not weak, f"{name}: contrast {weak}")


def told_apart(hues):
    """Colours of resources next to each other differ for the colour-blind, and black letters are readable on each."""
    for kind, rows in BLIND.items():
        seen = [[max(0, min(1, sum(a * b for a, b in zip(row, linear(hue))))) ** (1 / 2.2) for row in rows] for hue in hues]
        near = min(sum((a - b) ** 2 for a, b in zip(one, next_)) ** 0.5 for one, next_ in zip(seen, seen[1:]))
        judge(near > 0.15, f"colours of resources, {kind}: {near:.2f}")
    judge(min(contrast(hue, "#000000") for hue in hues) > 6, "letters on colours of resources")


OUTSIDE = """[...document.querySelectorAll('body *')].filter((part) => !part.closest('.wide') && part.offsetWidth
  && part.getBoundingClientRect().right > document.documentElement.clientWidth + 0.5).map((part) => part.id || part.outerHTML.slice(0, 60))"""
CLEAR = "[...document.querySelectorAll('#legend i')].map((one) => getComputedStyle(one)).filter((one) => one.backgroundColor === 'rgba(0, 0, 0, 0)').length"
HIDDEN = "['controls', 'help', 'tip', 'map-box'].filter((name) => getComputedStyle(document.getElementById(name)).display !== 'none')"


def screens(browser, path):
    """Dark and light, wide and narrow: texts are readable, and nothing is wider than the screen."""
    for dark in (False, True):
        media(browser, dark=dark)
        for width in (1280, 400):
            size(browser, width)
            browser.open(path)
            judge(browser.value(CLEAR) == 0 and browser.value("document.querySelectorAll('#legend li').length") == 10, f"{path.stem}: legend")
            readable(browser, f"{path.stem}, {'dark' if dark else 'light'}")
            judge(not browser.value(OUTSIDE), f"{path.stem}, {width} pixels: too wide {browser.value(OUTSIDE)}")
    media(browser)
    size(browser, 1400, 1500)


PAPER = """(() => {
  const [box, table, canvas, body] = ['lanes', 'table', 'canvas'].map((name) => document.getElementById(name)).concat(document.body);
  const style = getComputedStyle(body), ground = [...canvas.getContext('2d').getImageData(canvas.width - 2, 2, 1, 1).data];
  const sides = ['verdict', 'why', 'lanes', 'legend', 'table', 'report'].map((name) => document.getElementById(name).getBoundingClientRect());
  return {
    colours: [style.color, style.backgroundColor, ground.join()], rows: document.querySelectorAll('#table tr').length, open: document.getElementById('reasons').open,
    seen: sides.every(({ width, height }) => width && height), right: Math.max(...sides.map(({ right }) => right)), whole: [box, table].every((one) => one.scrollHeight - one.clientHeight <= 1),
    lanes: document.querySelectorAll('#names .lane').length, high: canvas.offsetHeight - document.getElementById('names').offsetHeight, hidden: %s };
})()""" % HIDDEN.replace("!==", "===")
SHEET = 180 / 25.4 * 96  # what a sheet of A4 or Letter has between its margins


def as_printed(found, lanes_, rows, name):
    judge(found["colours"] == ["rgb(0, 0, 0)", "rgb(255, 255, 255)", "255,255,255,255"], f"{name}: colours {found['colours']}")
    judge(found["hidden"] == ["controls", "help", "tip", "map-box"], f"{name}: of the controls only {found['hidden']} are hidden")
    judge(found["seen"] and found["open"] and found["whole"] and not found["high"] and found["lanes"] == lanes_, f"{name}: not whole: {found}")
    judge(found["rows"] == rows, f"{name}: {found['rows']} rows and not {rows}")
    judge(found["right"] <= SHEET + 1, f"{name}: {found['right']} pixels wide")


def paper(browser, path, facts):
    """On paper a dark page is light, without controls, as wide as a sheet, with all lanes and rows in sight; then it is as before."""
    media(browser, dark=True)
    size(browser, 1280, 500)
    browser.open(path)
    names, opened = len(browser.value(NAMES)), browser.value("byId('reasons').open")
    rows = 1 + min(len(facts.legal), 240 // facts.plan.cores * facts.plan.cores)
    before = browser.value("document.documentElement.outerHTML.length")
    browser.value(f"addEventListener('beforeprint', () => {{ window.printed = {PAPER}; }})")
    pdf = base64.b64decode(browser.ask("Page.printToPDF", paperWidth=8.27, paperHeight=11.69)["data"])
    judge(pdf.startswith(b"%PDF") and pdf.count(b"/Type /Page\n") >= 1, "paper: a document")
    as_printed(browser.value("window.printed"), names, rows, f"{path.stem} on paper")
    media(browser, "print", dark=True)
    as_printed(browser.value(PAPER), names, rows, f"{path.stem} as print")
    media(browser, dark=True)
    judge(not browser.value("document.getElementById('rows').open") and browser.value("getComputedStyle(document.body).backgroundColor") != "rgb(255, 255, 255)", "paper: then as before")
    judge(not browser.errors and before > 0, f"paper: console {browser.errors[:2]}")
    judge(browser.value("byId('reasons').open") == opened, "paper: then the reasons as before")
    media(browser)
    size(browser, 1400, 1500)


# ---- screen readers

def spoken(browser, path):
    """What a screen reader gets: a verdict, named controls, a status, the timeline, and tables with heads."""
    browser.open(path)
    browser.value("document.getElementById('rows').open = true")
    browser.rest()
    nodes = [node for node in browser.ask("Accessibility.getFullAXTree")["nodes"] if not node.get("ignored")]
    roles = {}
    for node in nodes:
        roles.setdefault(node["role"]["value"], []).append(node.get("name", {}).get("value", ""))
    judge(any("legal run" in name for name in roles["heading"]) and roles["application"] == ["Timeline"] and "status" in roles, f"spoken: {roles.get('application')}")
    judge(all(roles["button"]) and all(roles["checkbox"]) and all(roles["textbox"]), "spoken: each control has a name")
    judge({"Tick", "Core", "Kind", "Row", "Task"} <= set(roles["columnheader"]), f"spoken: {roles['columnheader']}")
