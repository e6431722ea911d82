'use strict';
// Draws the facts that the program wrote into this page. It judges nothing. Times are ticks. Names are data: they are
// shown by text nodes and by the canvas, never as markup.

const byId = (name) => document.getElementById(name);
const facts = JSON.parse(byId('facts').textContent);

// ---- facts: blocks, events, jobs

const [RUNS, DOES, HOLDS, FIRST, LIFE, LATE, CEILING] = [0, 1, 2, 3, 4, 5, 6];
const KINDS = 'idle run lock unlock take queue spin grant release'.split(' ');
const [QUEUE, SPIN] = [5, 6];
const DEEDS = 'idles,runs,locks,unlocks,acquires,joins the queue of,spins on,acquires,releases'.split(',');

// What a block of each look has after its first tick and its length.
const FIELDS = [['task', 'job'], ['job', 'kind', 'res'], ['job', 'res'],
  ['task', 'job', 'value'], ['job', 'value'], ['job'], ['value']];

// The place of the first of which this holds, as of all after it.
function firstOf(all, holds) {
  let [low, high] = [0, all.length];
  while (low < high) {
    const middle = (low + high) >> 1;
    if (holds(all[middle])) high = middle; else low = middle + 1;
  }
  return low;
}

// The blocks of one look in a lane, in the order of their first ticks.
class Track {
  constructor() {
    this.blocks = [];
    this.reach = [];
  }

  // Puts the blocks in order. How far the blocks up to each place reach is kept.
  sort() {
    let most = 0;
    this.blocks.sort((a, b) => a.first - b.first);
    this.reach = this.blocks.map(({ end }) => { most = Math.max(most, end); return most; });
  }

  // The place of the first block that may last beyond a tick.
  place(tick) {
    return firstOf(this.reach, (end) => end > tick);
  }

  // The blocks between two ticks. Of blocks closer to one another than so many ticks it yields one.
  * between(from, to, least = 1) {
    let at = this.place(from);
    while (at < this.blocks.length && this.blocks[at].first < to) {
      const block = this.blocks[at];
      if (block.end > from) yield block;
      at += 1;
      if (least > 1) at = Math.max(at, this.place(Math.max(block.end, Math.ceil(block.first + least))));
    }
  }

  // The last block in a tick: a legal one, if there is one.
  at(tick) {
    const found = [...this.between(tick, tick + 1)];
    return found.filter(({ legal }) => legal).pop() || found.pop() || null;
  }
}

const tracks = Array.from({ length: 7 * 64 }, () => new Track());
const trackOf = (look, lane) => tracks[look * 64 + lane];

function readBlocks([look, lane, legal, ...numbers]) {
  const fields = FIELDS[look];
  let first = 0;
  for (let at = 0; at < numbers.length; at += fields.length + 2) {
    first += numbers[at];
    const end = first + numbers[at + 1];
    const block = { look, first, end, legal: legal === 1, task: lane, job: -1, kind: 0, res: lane, value: 0 };
    fields.forEach((field, place) => { block[field] = numbers[at + 2 + place]; });
    if (look === DOES) block.res -= 1;
    trackOf(look, lane).blocks.push(block);
  }
}

const [RELEASE, COMPLETION] = [0, 2];
const taskName = (task) => facts.tasks[task][0];
const resName = (res) => facts.resources[res][0];
const legalRows = facts.order.length;
const begun = Math.ceil(legalRows / facts.cores);

// The jobs of each task, by their numbers.
const jobs = facts.tasks.map(() => []);

function readEvents([moment, task, ...numbers]) {
  let tick = 0;
  for (let at = 0; at < numbers.length; at += 2) {
    tick += numbers[at];
    const number = numbers[at + 1];
    const deadline = tick + facts.tasks[task][2];
    if (moment === RELEASE) jobs[task][number] = { task, number, release: tick, deadline, end: begun, finished: false };
    if (moment === COMPLETION) Object.assign(jobs[task][number], { end: tick, finished: true });
  }
}

const jobOf = ({ task, job }) => (jobs[task] ? jobs[task][job] : undefined);
const isLate = (job) => job.end > job.deadline || (!job.finished && job.deadline <= begun);
const response = (job) => (job.finished ? job.end - job.release : 0);

// The stretches in which the jobs of a task wait for a global resource.
function waitsOf(task) {
  const waits = [];
  for (const { kind, job, res, first, end } of trackOf(DOES, task).blocks.filter(({ legal }) => legal)) {
    const last = waits[waits.length - 1];
    const spins = kind === SPIN ? end - first : 0;
    const isOne = spins && last && last.job === job && last.end === first;
    if (isOne) Object.assign(last, { end, spins: last.spins + spins });
    else if (spins || kind === QUEUE) waits.push({ task, job, res, first, end, spins });
  }
  return waits;
}

facts.blocks.forEach(readBlocks);
facts.events.forEach(readEvents);
tracks.forEach((track) => track.sort());
const allJobs = jobs.flat();
const lateJobs = allJobs.filter(isLate).sort((a, b) => a.deadline - b.deadline);
const allWaits = facts.tasks.flatMap((_, task) => waitsOf(task));
const lengthOf = ({ first, end }) => end - first;
const longestWait = [...allWaits].sort((a, b) => lengthOf(b) - lengthOf(a))[0];

// The tick of the fault: that of its row, or the one in which a row is missing.
const missing = facts.fault ? Math.min(Math.floor((facts.fault[0] - 1) / facts.cores), facts.ticks - 1) : -1;
const faultTick = facts.broken && facts.broken[0] < facts.ticks ? facts.broken[0] : missing;

// ---- words

const UNITS = [['s', 1e9], ['ms', 1e6], ['us', 1e3], ['ns', 1]];
const tickLength = facts.unit ? facts.unit[0] * UNITS.find(([name]) => name === facts.unit[1])[1] : 1;
const plural = (count, word) => `${count.toLocaleString('en')} ${word}${count === 1 ? '' : 's'}`;

function timeText(ticks) {
  if (!facts.unit) return String(ticks);
  const time = Math.round(ticks * tickLength);
  const [unit, size] = UNITS.find(([, least]) => time >= least) || [facts.unit[1], 1];
  return `${Number((time / size).toPrecision(15))} ${unit}`;
}

const tickText = (tick) => (facts.unit ? `tick ${tick} (${timeText(tick)})` : `tick ${tick}`);
const ticksText = (count) => (facts.unit ? timeText(count) : plural(count, 'tick'));
const jobText = ({ task, job }) => `job ${job} of ${taskName(task)}`;

// The number of the row of a core in a tick, if it is legal or the one at fault.
function rowNumber(tick, core) {
  const row = facts.order.slice(tick * facts.cores, (tick + 1) * facts.cores).indexOf(String(core));
  if (row >= 0) return tick * facts.cores + row + 1;
  return facts.broken && facts.broken[0] === tick && facts.broken[1] === core ? facts.fault[0] : null;
}

// The line of a row in the trace, where it is known.
function lineNumber(row) {
  const [from, line] = facts.lines[firstOf(facts.lines, ([first]) => first > row) - 1] || [1, 0];
  return line ? line + row - from : null;
}

function placeText(tick, core) {
  const row = rowNumber(tick, core);
  const line = row && lineNumber(row);
  return `${tickText(tick)}, core ${core}${row ? `, row ${row}` : ''}${line ? `, line ${line}` : ''}`;
}

function lifeText(job) {
  const lateBy = job.end - job.deadline;
  const late = isLate(job) ? `, late${lateBy > 0 ? ` by ${ticksText(lateBy)}` : ''}` : '';
  const end = job.finished ? `completed at ${timeText(job.end)}, response ${ticksText(response(job))}` : 'not finished';
  return `released at ${timeText(job.release)}, absolute deadline ${timeText(job.deadline)}, ${end}${late}`;
}

const spanText = ({ first, end }) => (end - first === 1 ? '' : `, ticks ${first} to ${end - 1}`);

// What a job does in a tick, and which resources it holds.
function deedText(task, tick) {
  const block = trackOf(DOES, task).at(tick);
  const held = Array.from(trackOf(HOLDS, task).between(tick, tick + 1), (hold) => resName(hold.res));
  const holds = held.length ? `; holds ${held.join(', ')}` : '';
  if (!block) return `released, not running${holds}`;
  const after = block.legal ? '' : ' (after the fault: not judged)';
  return `${DEEDS[block.kind]}${block.res < 0 ? '' : ` ${resName(block.res)}`}${spanText(block)}${holds}${after}`;
}

// What is known of a tick in a lane, in lines.
function describe(lane, tick) {
  const block = blockAt(lane, tick);
  if (lane.what === 'head') return 'Global resources';
  if (lane.what === 'ceiling') return `${tickText(tick)}, core ${lane.core}: ceiling ${block ? block.value : 0}`;
  if (lane.what === 'queue') {
    if (!block) return `${tickText(tick)}: nobody is in the queue of ${lane.name}`;
    const waiting = block.value ? `, ${block.value} more wait${block.value === 1 ? 's' : ''}` : '';
    return `${tickText(tick)}: ${jobText(block)} is first in the queue of ${lane.name}${waiting}${spanText(block)}`;
  }
  const place = placeText(tick, lane.core);
  if (!block) return `${place}: ${lane.what === 'core' ? 'idle' : 'no job of this task'}`;
  const said = `${place}\n${jobText(block)}: ${deedText(block.task, tick)}`;
  return jobOf(block) ? `${said}\n${lifeText(jobOf(block))}` : said;
}

// ---- lanes

const AXIS = 26;
const HEIGHTS = { core: 24, ceiling: 15, task: 50, queue: 24, head: 22 };
const LOOKS = { core: [RUNS], ceiling: [CEILING], task: [LIFE, DOES, HOLDS, LATE], queue: [FIRST], head: [] };
// What a place in a lane is of: the first of these looks that has a block there.
const POINTED = { ...LOOKS, task: [DOES, LIFE] };

// A lane shows the blocks of these numbers: of a core, of a resource, or of the tasks that share the lane.
function laneOf(what, numbers, core, name) {
  const layers = LOOKS[what].flatMap((look) => numbers.map((number) => trackOf(look, number)));
  const own = what === 'task' ? numbers.flatMap((task) => jobs[task]).sort((a, b) => a.release - b.release) : [];
  return { what, numbers, core, name, layers, jobs: own, height: HEIGHTS[what], top: 0, shown: true };
}

// Tasks in groups that share a lane. A plan may split a task whose jobs differ into parts: they have its core and its
// deadline, are in its place, and are called NAME_1, NAME_2 and so on; a long name is cut for it. No two of their jobs
// are released in one tick. Others may look the same by chance, so a reader can part them.
function isOneTask(tasks) {
  const stem = (name) => name.replace(/^(.{0,13}).*_\d+$/, '$1_');
  const marks = tasks.map((task) => [stem(taskName(task)), ...facts.tasks[task].slice(1, 3)].join());
  const releases = tasks.flatMap((task) => jobs[task].map(({ release }) => release));
  return marks.every((mark) => mark === marks[0]) && new Set(releases).size === releases.length;
}

function groupTasks() {
  const groups = [];
  facts.tasks.forEach((_, task) => {
    const last = groups[groups.length - 1];
    if (last && isOneTask([...last, task])) last.push(task); else groups.push([task]);
  });
  return groups;
}

const groups = groupTasks();
const suffixOf = (task) => taskName(task).match(/_\d+$/)[0];

function makeLanes() {
  const made = [];
  const shared = facts.resources.map((_, res) => res).filter((res) => facts.resources[res][1]);
  const together = byId('join').checked ? groups : facts.tasks.map((_, task) => [task]);
  for (let core = 0; core < facts.cores; core++) {
    made.push(laneOf('core', [core], core, `core ${core}`), laneOf('ceiling', [core], core, 'ceiling'));
    for (const tasks of together.filter(([task]) => facts.tasks[task][1] === core)) {
      const name = taskName(tasks[0]);
      made.push(laneOf('task', tasks, core, tasks.length > 1 ? name.slice(0, -suffixOf(tasks[0]).length) : name));
    }
  }
  if (shared.length) made.push(laneOf('head', [], facts.cores, 'resources'));
  for (const res of shared) made.push(laneOf('queue', [res], facts.cores, resName(res)));
  return made;
}

let lanes = makeLanes();
const folded = new Set();
const isHead = (lane) => lane.what === 'core' || lane.what === 'head';
const taskLane = (task) => lanes.find(({ what, numbers }) => what === 'task' && numbers.includes(task));

// Within sections, how deep each is in others: by this its strip is placed.
function markDepths(task) {
  let ends = [];
  for (const block of trackOf(HOLDS, task).blocks) {
    ends = ends.filter((end) => end > block.first);
    block.value = ends.length;
    ends.push(block.end);
  }
  return Math.max(1, ...trackOf(HOLDS, task).blocks.map(({ value }) => value + 1));
}

const depths = facts.tasks.map((_, task) => markDepths(task));

function blockAt({ what, numbers }, tick) {
  const found = POINTED[what].flatMap((look) => numbers.map((number) => trackOf(look, number).at(tick)));
  return found.find(Boolean) || null;
}

function isInSight(lane) {
  const next = lane.jobs[firstJob(lane.jobs)];
  if (next && next.release <= view.to) return true;
  return lane.layers.some((track) => {
    const block = track.blocks[track.place(view.from)];
    return block !== undefined && block.first < view.to;
  });
}

// The heads of what is folded are shown, and all else only if it is in sight or lit up.
function isWanted(lane) {
  const isLit = state.selected && lane === taskLane(state.selected.task);
  return isHead(lane) || (!folded.has(lane.core) && (isLit || !byId('hide').checked || isInSight(lane)));
}

// Places the lanes that are shown, and names them by elements, which can be read aloud and focused.
function layOut() {
  let top = AXIS;
  for (const lane of lanes) {
    Object.assign(lane, { shown: isWanted(lane), top });
    if (lane.shown) top += lane.height;
  }
  const names = byId('names');
  names.style.height = `${top}px`;
  names.replaceChildren(byId('corner'), ...lanes.filter(({ shown }) => shown).map(nameElement));
  state.bottom = top;
  sizeCanvas();
}

function nameElement(lane) {
  const [made, isFolded] = [element('div', '', 'lane'), folded.has(lane.core)];
  Object.assign(made.style, { top: `${lane.top}px`, height: `${lane.height}px` });
  if (isHead(lane)) {
    const name = element('button', `${isFolded ? '\u25b8' : '\u25be'} ${lane.name}`);
    name.setAttribute('aria-expanded', String(!isFolded));
    name.addEventListener('click', () => fold(lane.core));
    made.append(name);
  } else made.append(element('span', lane.name, lane.what === 'ceiling' ? 'what' : ''));
  if (lane.what === 'task') {
    const bodies = lane.numbers.length > 1 ? `${lane.numbers.length} bodies, ` : '';
    made.append(element('span', `${bodies}level ${facts.tasks[lane.numbers[0]][3]}`, 'what'));
  }
  return made;
}

function fold(core) {
  if (!folded.delete(core)) folded.add(core);
  layOut();
  const place = lanes.filter(isHead).findIndex((lane) => lane.core === core);
  byId('names').querySelectorAll('button')[place].focus({ preventScroll: true });
}

// ---- the view: which ticks are in sight

const view = { from: 0, to: Math.max(1, facts.ticks) };
const state = { selected: null, related: new Set(), links: [], cursor: null, late: -1, bottom: 0, width: 800 };

function setView(from, to) {
  const span = Math.min(facts.ticks, Math.max(4, to - from));
  view.from = Math.min(Math.max(0, from), facts.ticks - span);
  view.to = view.from + span;
  redraw();
  settleSoon();
}

function zoom(factor, around = (view.from + view.to) / 2) {
  const span = Math.min(facts.ticks, Math.max(4, (view.to - view.from) * factor));
  const share = (around - view.from) / (view.to - view.from);
  setView(around - share * span, around + (1 - share) * span);
}

const pan = (ticks) => setView(view.from + ticks, view.to + ticks);
// Some room for arrows at both ends.
const EDGE = 6;
const scale = () => (state.width - 2 * EDGE) / (view.to - view.from);
const xOf = (tick) => EDGE + (tick - view.from) * scale();
const tickAt = (x) => view.from + (x - EDGE) / scale();

// Scrolls a lane into sight.
function scrollTo({ top, height }) {
  const box = byId('lanes');
  if (top - AXIS < box.scrollTop) box.scrollTop = top - AXIS;
  if (top + height > box.scrollTop + state.height) box.scrollTop = top + height - state.height * 0.6;
}

let settling = 0;
// Once the view rests: lanes without a job in sight are hidden, and the table is written anew.
function settleSoon() {
  clearTimeout(settling);
  settling = setTimeout(() => {
    if (lanes.some((lane) => lane.shown !== isWanted(lane))) layOut();
    if (byId('rows').open) writeTable();
  }, 150);
}

// ---- drawing

const canvas = byId('canvas');
const context = canvas.getContext('2d', { alpha: false });
// The colours of resources: those of Okabe and Ito, which the colour-blind tell apart, lightened for black letters.
const HUES = ['#eebc4d', '#89cbf0', '#4dbb9d', '#f4ec7b', '#4d9cc9', '#e28e4d', '#dba1c1'];
const hueOf = (res) => HUES[res % HUES.length];
const LETTER = 6.7;
const palette = {};

function readPalette() {
  const style = getComputedStyle(document.documentElement);
  for (const name of 'back text faint line lane works runs waits late life ceiling focus'.split(' ')) {
    palette[name] = style.getPropertyValue(`--${name}`).trim();
  }
  const tile = Object.assign(document.createElement('canvas'), { width: 6, height: 6 });
  const pen = tile.getContext('2d');
  Object.assign(pen, { strokeStyle: palette.waits, lineWidth: 1.2 });
  pen.stroke(new Path2D('M-6 6l6-6m0 6l6-6m0 6l6-6'));
  palette.hatch = context.createPattern(tile, 'repeat');
}

function sizeCanvas() {
  const box = byId('lanes');
  const ratio = state.isPaper ? 3 : window.devicePixelRatio || 1;
  state.width = Math.max(50, box.clientWidth - byId('names').offsetWidth);
  state.height = Math.min(state.bottom, state.isPaper ? state.bottom : box.clientHeight);
  Object.assign(canvas, { width: Math.round(state.width * ratio), height: Math.round(state.height * ratio) });
  canvas.style.height = `${state.height}px`;
  context.setTransform(ratio, 0, 0, ratio, 0, 0);
  drawMap();
  redraw();
}

function redraw() {
  if (state.isScheduled) return;
  state.isScheduled = true;
  requestAnimationFrame(draw);
}

const drawn = { blocks: 0, arrows: 0 };

function draw() {
  const scrolled = byId('lanes').scrollTop;
  state.isScheduled = false;
  Object.assign(drawn, { blocks: 0, arrows: 0 });
  Object.assign(context, { fillStyle: palette.back, font: '11px ui-monospace, monospace' });
  context.fillRect(0, 0, state.width, state.height);
  drawAxis();
  context.save();
  context.beginPath();
  context.rect(0, AXIS, state.width, state.height);
  context.clip();
  for (const lane of lanes) {
    const top = lane.top - scrolled;
    if (lane.shown && top + lane.height > 0 && top < state.height) drawLane(lane, top);
  }
  if (facts.fault) drawFault(scrolled);
  drawLinks(scrolled);
  drawCursor(scrolled);
  context.restore();
  const share = (ticks) => `${(100 * ticks) / facts.ticks}%`;
  Object.assign(byId('window').style, { left: share(view.from), right: share(facts.ticks - view.to) });
  Object.assign(canvas.dataset, { blocks: drawn.blocks, arrows: drawn.arrows, from: view.from, to: view.to });
  if (!performance.getEntriesByName('shown').length) performance.mark('shown');
}

// The marks of the axis, in ticks: at round times, and not too close to one another.
function axisMarks() {
  const least = Math.max(1, Math.min(90, state.width / 4) / scale()) * tickLength;
  const power = 10 ** Math.floor(Math.log10(least));
  const step = [1, 2, 5, 10].map((times) => times * power).find((time) => time >= least) / tickLength;
  const first = Math.ceil(view.from / step);
  return Array.from({ length: Math.floor(view.to / step) - first + 1 }, (_, place) => (first + place) * step);
}

function drawAxis() {
  const flag = facts.fault ? Math.round(xOf(faultTick)) - 2 : -99;
  Object.assign(context, { fillStyle: palette.line, textAlign: 'left' });
  context.fillRect(0, AXIS - 1, state.width, 1);
  const marks = axisMarks();
  for (const tick of marks) context.fillRect(Math.round(xOf(tick)), AXIS - 6, 1, state.height);
  context.fillStyle = palette.text;
  let free = 0;
  for (const tick of marks) {
    const wide = context.measureText(timeText(tick)).width;
    const left = Math.min(xOf(tick) + 3, state.width - wide - 1);
    if (left < free || (left < flag + 24 && left + wide > flag)) continue;
    context.fillText(timeText(tick), left, 15);
    free = left + wide + 6;
  }
  if (!facts.fault) return;
  context.fillStyle = palette.late;
  context.fillRect(flag, 2, 22, 18);
  context.fillStyle = palette.back;
  context.fillText(facts.fault[1], flag + 4, 15);
}

// A block, and its label where there is room for it.
function drawBlock(block, top, height, fill, text, colour = palette.text, counts = 1) {
  const left = Math.max(-2, Math.round(xOf(block.first)));
  const width = Math.max(1, Math.min(state.width + 2, Math.round(xOf(block.end))) - left);
  context.globalAlpha = opacity(block);
  context.fillStyle = fill;
  context.fillRect(left, top, width, height);
  if (width > 3 && height > 6) {
    context.fillStyle = palette.faint;
    context.fillRect(left, top, 1, height);
  }
  const room = Math.min(width, left + width) - 6;
  if (text && height >= 12 && text.length * LETTER <= room) {
    context.globalAlpha = Math.sqrt(opacity(block));
    context.fillStyle = colour;
    context.fillText(text, Math.max(left, 0) + 3, top + Math.min(height, 16) - 4);
  }
  context.globalAlpha = 1;
  drawn.blocks += counts;
}

// What isn't lit up is pale, and so is what follows the fault.
function opacity(block) {
  const pale = block.legal ? 1 : 0.35;
  return !state.selected || block.look === CEILING || state.related.has(jobOf(block)) ? pale : pale * 0.25;
}

function drawLane(lane, top) {
  if (isHead(lane)) {
    context.fillStyle = palette.lane;
    context.fillRect(0, top, state.width, lane.height);
  }
  context.fillStyle = palette.line;
  context.fillRect(0, Math.round(top), state.width, 1);
  for (const track of lane.layers) {
    for (const block of track.between(view.from, view.to, 3 / scale())) PAINTERS[block.look](block, top, lane);
  }
  if (lane.what === 'task') drawArrows(lane, top);
}

// How each look is drawn in a lane.
const PAINTERS = [
  (block, top) => drawBlock(block, top + 3, 18, palette.runs, taskName(block.task)),
  (block, top, lane) => {
    const label = `${lane.numbers.length > 1 ? `${suffixOf(block.task)} ` : ''}J${block.job}`;
    const waits = block.kind === QUEUE || block.kind === SPIN;
    const isWide = (block.end - block.first) * scale() > 3;
    drawBlock(block, top + 16, 28, waits && !isWide ? palette.waits : palette.works, waits ? '' : label);
    if (waits && isWide) drawBlock(block, top + 16, 28, palette.hatch, label, palette.text, 0);
  },
  (block, top) => {
    if (scale() < 0.25) return;
    const height = Math.max(4, Math.floor(14 / depths[block.task]));
    drawBlock(block, top + 30 + block.value * height, height, hueOf(block.res), resName(block.res), '#000');
  },
  (block, top) => {
    const waiting = block.value ? ` +${block.value}` : '';
    drawBlock(block, top + 3, 18, hueOf(block.res), taskName(block.task) + waiting, '#000');
  },
  (block, top) => drawBlock(block, top + 13, 2, palette.life, ''),
  (block, top) => drawBlock(block, top + 45, 4, palette.late, ''),
  (block, top) => drawBlock(block, top + 1, 13, palette.ceiling, String(block.value)),
];

// A release, an absolute deadline and a completion, by their foot.
const MARKS = ['M0 0v-13m-3 4l3-4l3 4', 'M0-13v13m-3-4l3 4l3-4', 'M0 0v-6m-4 0h8'].map((shape) => new Path2D(shape));
const firstJob = (all) => firstOf(all, (job) => Math.max(job.deadline, job.end) >= view.from);
const firstLater = (all) => firstOf(all, (job) => job.release > view.to);

// The arrows of releases and deadlines, and the marks of completions. Where they are too close, some are left out.
function drawArrows(lane, top) {
  const [last, paths] = [[-9, -9, -9], [new Path2D(), new Path2D()]];
  const inSight = lane.jobs.slice(firstJob(lane.jobs), firstLater(lane.jobs));
  if (inSight.length > state.width / 20) return;
  for (const job of inSight) {
    const path = paths[!state.selected || state.related.has(job) ? 1 : 0];
    [job.release, job.deadline, job.finished ? job.end : -1].forEach((tick, moment) => {
      const x = xOf(tick);
      if (tick < view.from || tick > Math.min(view.to, facts.ticks) || x - last[moment] < 7) return;
      last[moment] = x;
      path.addPath(MARKS[moment], { e: x, f: top + 15 });
      drawn.arrows += 1;
    });
  }
  Object.assign(context, { strokeStyle: palette.text, lineWidth: 1.3, globalAlpha: 0.25 });
  context.stroke(paths[0]);
  context.globalAlpha = 1;
  context.stroke(paths[1]);
}

// The lane of the row that violates a rule, or of a core that lacks a row.
function faultLane() {
  const [, core, , task] = facts.broken || [];
  const isFaulty = (lane) => (facts.broken ? lane.core === core : !rowNumber(faultTick, lane.core));
  return (task && taskLane(task - 1)) || lanes.filter(({ what }) => what === 'core').find(isFaulty) || lanes[0];
}

// A frame around some ticks of a lane.
function drawFrame(lane, scrolled, first, end, colour) {
  if (!lane.shown) return;
  const left = Math.max(1, xOf(first));
  const width = Math.max(6, Math.min(state.width - 1, xOf(end)) - left);
  Object.assign(context, { strokeStyle: colour, lineWidth: 2 });
  context.strokeRect(left, lane.top - scrolled + 1, width, lane.height - 2);
}

function drawFault(scrolled) {
  Object.assign(context, { fillStyle: palette.late, globalAlpha: 0.16 });
  context.fillRect(xOf(faultTick), AXIS, Math.max(3, scale()), state.height);
  context.globalAlpha = 1;
  drawFrame(faultLane(), scrolled, faultTick, faultTick + 1, palette.late);
}

function drawCursor(scrolled) {
  if (!state.cursor) return;
  const { lane, tick } = state.cursor;
  const { first, end } = blockAt(lane, tick) || { first: tick, end: tick + 1 };
  if (lane !== faultLane() || tick !== faultTick) drawFrame(lane, scrolled, first, end, palette.focus);
}

// A line from each wait of the chosen job to the job that was first in the queue.
function drawLinks(scrolled) {
  Object.assign(context, { strokeStyle: palette.focus, lineWidth: 1.5 });
  context.setLineDash([5, 3]);
  for (const link of state.links) {
    const [own, other] = [taskLane(state.selected.task), taskLane(link.task)];
    if (!own.shown || !other.shown) continue;
    const [x, from, to] = [xOf(link.first), own.top - scrolled + 30, other.top - scrolled + 30];
    context.beginPath();
    context.moveTo(x, from);
    context.bezierCurveTo(x - 14, from, x - 14, to, x, to);
    context.lineTo(xOf(link.end), to);
    context.stroke();
  }
  context.setLineDash([]);
}

// ---- the small map of the whole run

const map = byId('map');

function drawMap() {
  const [width, height] = [Math.max(50, map.clientWidth), 44];
  Object.assign(map, { width, height });
  const pen = map.getContext('2d');
  const [across, strip] = [width / facts.ticks, (height - 6) / facts.cores];
  const fill = (from, to, top, thick) => pen.fillRect(from * across, top, Math.max(1.5, (to - from) * across), thick);
  for (let core = 0; core < facts.cores; core++) {
    pen.fillStyle = palette.runs;
    for (const { first, end, legal } of trackOf(RUNS, core).between(0, facts.ticks, 1 / across)) {
      pen.globalAlpha = legal ? 1 : 0.35;
      fill(first, end, core * strip + 1, strip - 1);
    }
  }
  Object.assign(pen, { globalAlpha: 1, fillStyle: palette.late });
  for (const job of lateJobs) fill(job.deadline, job.end, height - 5, 5);
  if (facts.fault) pen.fillRect(faultTick * across - 1, 0, 3, height);
}

// ---- lighting up a job

// What the job waited for: who was first in the queue meanwhile, by resource.
function linksOf({ task, number }) {
  return allWaits.filter((wait) => wait.task === task && wait.job === number).flatMap((wait) => {
    const found = [...trackOf(FIRST, wait.res).between(wait.first, wait.end)];
    const others = found.filter((block) => block.task !== task || block.job !== number);
    return others.map((block) => (
      { ...block, first: Math.max(block.first, wait.first), end: Math.min(block.end, wait.end) }));
  });
}

// Lights up a job, or none, at a place.
function select(job, cursor) {
  const links = job ? linksOf(job) : [];
  Object.assign(state, { selected: job, cursor, links, related: new Set([job, ...links.map(jobOf)]) });
  layOut();
}

// Says what is known of a place, and of the job that is lit up there.
function say(text, job) {
  const detail = byId('detail');
  detail.replaceChildren(text);
  if (!job) return;
  const requests = trackOf(HOLDS, job.task).blocks.filter((block) => block.job === job.number);
  const spanOf = ({ res, first, end }) => `${resName(res)}, ${timeText(first)} to ${timeText(end)}`;
  detail.append(`\nHeld: ${requests.slice(0, 20).map(spanOf).join('; ') || 'nothing'}.`);
  detail.append(state.links.length ? ' Waited for: ' : ' It waited for no job.');
  state.links.slice(0, 20).forEach((link, place) => {
    const words = `${jobText(link)} (${spanOf(link)})`;
    detail.append(place ? ', ' : '', linkButton(words, () => showJob(jobOf(link), link.first)));
  });
}

function linkButton(words, act) {
  const button = element('button', words, 'link');
  button.addEventListener('click', act);
  return button;
}

// Shows a tick in a lane, and lights up a job there.
function show(tick, lane, job = null, text = null) {
  const at = Math.min(Math.max(0, tick), facts.ticks - 1);
  const span = Math.min(view.to - view.from, 120);
  folded.delete(lane.core);
  setView(at - span / 2, at + span / 2);
  select(job, { lane, tick: at });
  scrollTo(lane);
  say(text || describe(lane, at), job);
}

const laneInSight = () => lanes.find(({ shown, top }) => shown && top >= byId('lanes').scrollTop + AXIS);
const showTick = (tick) => show(tick, state.cursor ? state.cursor.lane : laneInSight());
const showJob = (job, at = job.release) => show(at, taskLane(job.task), job);
const showFault = () => facts.fault && show(faultTick, faultLane(), null, facts.why.split('\n').slice(1, 4).join('\n'));
const showLongestWait = () => longestWait && showJob(jobOf(longestWait), longestWait.first);

function showNextLate() {
  if (!lateJobs.length) return;
  state.late = (state.late + 1) % lateJobs.length;
  showJob(lateJobs[state.late], lateJobs[state.late].deadline);
}

// The lane and the tick at a place of the canvas.
function placeAt(event) {
  const box = canvas.getBoundingClientRect();
  const [tick, y] = [Math.floor(tickAt(event.clientX - box.left)), event.clientY - box.top];
  const height = y + byId('lanes').scrollTop;
  if (y < AXIS || tick < 0 || tick >= facts.ticks) return null;
  const lane = lanes.find(({ shown, top, height: high }) => shown && top <= height && height < top + high);
  return lane ? { lane, tick } : null;
}

function choose(place) {
  const block = place && place.lane.what !== 'ceiling' ? blockAt(place.lane, place.tick) : null;
  const job = (block && jobOf(block)) || null;
  select(job, place);
  say(place ? describe(place.lane, place.tick) : '', job);
}

// ---- head, report, legend and table

// An element with texts and elements in it.
function element(name, content = '', className = '') {
  const made = document.createElement(name);
  made.append(...[content].flat());
  made.className = className;
  return made;
}

function verdictText() {
  const obeys = legalRows === 1 ? 'its row obeys' : `all ${plural(legalRows, 'row')} obey`;
  if (!facts.fault) return `A legal run: ${obeys} the plan`;
  const [row, rule] = facts.fault;
  const where = facts.broken ? `row ${row}` : `its end after ${plural(row - 1, 'row')}`;
  return `Not a legal run: ${where} violates rule ${rule}`;
}

function writeHead() {
  const rows = `${plural(legalRows, 'row')}${facts.fault ? ' before the fault' : ''}`;
  const { cores, tasks, resources, ticks } = facts;
  const sizes = [[cores, 'core'], [tasks.length, 'task'], [resources.length, 'resource'], [ticks, 'tick']];
  const length = facts.unit ? `, ${timeText(facts.ticks)}` : '';
  byId('verdict').textContent = verdictText();
  byId('verdict').classList.toggle('fault', Boolean(facts.fault));
  document.title = `MSRP trace: ${verdictText()}`;
  byId('size').textContent = `${sizes.map(([count, word]) => plural(count, word)).join(', ')}${length}; `
    + `${plural(allJobs.length, 'job')}, ${lateJobs.length} late; ${rows}`;
  const reasons = facts.why.trimEnd().split('\n').map(whyLine);
  byId('why').replaceChildren(...reasons);
  byId('reasons').open = Boolean(facts.fault) || reasons.length < 12;
  byId('corner').textContent = facts.unit ? 'time' : 'time (ticks)';
}

// A line of the reasons, in which rows, ticks and jobs are links into the picture.
function whyLine(text) {
  const line = element('div', '', text.startsWith('not exercised') ? 'missed' : '');
  const pattern = /\b(?:row (\d+)|tick (\d+)|([A-Za-z_][A-Za-z_0-9]*),(\d+)(?=[,\s)]|$))/g;
  let end = 0;
  for (const found of text.matchAll(pattern)) {
    const act = !(found[3] && /,\d+,$/.test(text.slice(0, found.index))) && whyTarget(found);
    if (!act) continue;
    line.append(text.slice(end, found.index), linkButton(found[0], act));
    end = found.index + found[0].length;
  }
  line.append(text.slice(end));
  return line;
}

function whyTarget([, row, tick, name, number]) {
  if (row && facts.fault && Number(row) === facts.fault[0]) return showFault;
  if (row) return () => showTick(Math.floor((row - 1) / facts.cores));
  if (tick) return () => showTick(Number(tick));
  const job = jobOf({ task: facts.tasks.findIndex((task) => task[0] === name), job: number });
  return job ? () => showJob(job) : null;
}

// The rows that belong to later jobs of a job's core while it is released and unfinished.
function blockedRows(job) {
  const before = (a, b) => a.deadline - b.deadline || a.release - b.release || a.task - b.task || a.number - b.number;
  const runs = [...trackOf(RUNS, facts.tasks[job.task][1]).between(job.release, job.end)];
  const later = runs.filter((block) => block.legal && jobOf(block) && before(job, jobOf(block)) < 0);
  return later.reduce((rows, { first, end }) => rows + Math.min(end, job.end) - Math.max(first, job.release), 0);
}

// A bar of what was observed beside what it is compared with; it leads to the job.
function bar(name, observed, bound, job) {
  const button = linkButton(`${timeText(observed)} of ${timeText(bound)}`, () => { showJob(job); canvas.focus(); });
  const share = (value) => `${(100 * value) / Math.max(1, observed, bound)}%`;
  Object.assign(button, { className: 'bar', disabled: !job });
  button.style.setProperty('--observed', share(observed));
  button.style.setProperty('--bound', share(bound));
  button.setAttribute('aria-label', `${name}: ${observed} of ${bound} ticks`);
  return button;
}

function reportRow([name, core, deadline], task) {
  const [count, finished, , worst, , spin, , blocked, spinBound, blockedBound] = facts.report[task];
  const own = jobs[task];
  const late = own.filter(isLate);
  const wait = allWaits.find((one) => one.task === task && one.spins === spin);
  const numbers = [core, `${finished} of ${count}`, late.length || '0'];
  if (late.length) numbers[2] = linkButton(late.length, () => showJob(late[0], late[0].deadline));
  const bars = [
    bar(`${name}, worst response`, worst, deadline, own.find((job) => worst && response(job) === worst)),
    bar(`${name}, longest spin`, spin, spinBound, spin && wait && own[wait.job]),
    bar(`${name}, longest blocking`, blocked, blockedBound, own.find((job) => blocked && blockedRows(job) === blocked)),
  ];
  const cells = [...numbers.map((cell) => element('td', cell, 'number')), ...bars.map((cell) => element('td', cell))];
  return element('tr', [element('th', name), ...cells]);
}

function writeReport() {
  byId('report').append(...facts.tasks.map(reportRow));
  byId('report-note').textContent = `${facts.fault ? 'Only the rows before the fault count. ' : ''}`
    + 'A bar leads to the job. The bounds hold in every legal run of the plan.';
}

// The rows in sight, at most 240, as a table.
function writeTable() {
  const head = ['Tick', ...(facts.unit ? ['Time'] : []), 'Core', 'Kind', 'Job', 'Resource', 'Row', 'Line'];
  const to = Math.min(Math.ceil(view.to), Math.floor(view.from) + Math.floor(240 / facts.cores), begun);
  const rows = [element('tr', head.map((cell) => element('th', cell)))];
  for (let place = Math.floor(view.from) * facts.cores; place < to * facts.cores; place++) {
    const [tick, core] = [Math.floor(place / facts.cores), place % facts.cores];
    const row = rowNumber(tick, core);
    if (row && row <= legalRows) rows.push(element('tr', rowCells(tick, core, row).map((cell) => element('td', cell))));
  }
  byId('table').replaceChildren(...rows);
}

function rowCells(tick, core, row) {
  const [runs] = [...trackOf(RUNS, core).between(tick, tick + 1)].filter(({ legal }) => legal);
  const deed = runs && trackOf(DOES, runs.task).at(tick);
  const time = facts.unit ? [timeText(tick)] : [];
  const [job, res] = [runs ? jobText(runs) : '-', deed && deed.res >= 0 ? resName(deed.res) : '-'];
  return [tick, ...time, core, KINDS[deed ? deed.kind : 0], job, res, row, lineNumber(row) || '-'];
}

// ---- what a user does

function hover(event) {
  const tip = byId('tip');
  const place = pointers.size ? null : placeAt(event);
  tip.hidden = !place;
  if (!place) return;
  tip.textContent = describe(place.lane, place.tick);
  const [width, height] = [tip.offsetWidth, tip.offsetHeight];
  tip.style.left = `${Math.max(4, Math.min(event.clientX + 14, innerWidth - width - 8))}px`;
  tip.style.top = `${event.clientY + height + 24 > innerHeight ? event.clientY - height - 10 : event.clientY + 16}px`;
}

const pointers = new Map();
let moved = 0;

function pointerDown(event) {
  canvas.setPointerCapture(event.pointerId);
  pointers.set(event.pointerId, event);
  moved = pointers.size > 1 ? Infinity : 0;
  byId('tip').hidden = true;
}

// One pointer pans, two zoom.
function pointerMove(event) {
  const last = pointers.get(event.pointerId);
  if (!last) return hover(event);
  const other = [...pointers.values()].find(({ pointerId }) => pointerId !== event.pointerId);
  moved += Math.abs(event.clientX - last.clientX) + Math.abs(event.clientY - last.clientY);
  if (other) {
    const apart = (one) => Math.max(8, Math.abs(one.clientX - other.clientX));
    zoom(apart(last) / apart(event), tickAt((event.clientX + other.clientX) / 2 - canvas.getBoundingClientRect().left));
  } else if (moved > 3) {
    byId('lanes').scrollTop -= event.clientY - last.clientY;
    pan((last.clientX - event.clientX) / scale());
  }
  pointers.set(event.pointerId, event);
}

function pointerUp(event) {
  if (pointers.delete(event.pointerId) && moved <= 3 && event.type === 'pointerup') choose(placeAt(event));
}

// Browsers report two fingers on a touchpad as a wheel with the control key, in small steps.
function wheel(event) {
  event.preventDefault();
  const { deltaX, deltaY } = event;
  if (event.shiftKey || Math.abs(deltaX) > Math.abs(deltaY)) return pan((deltaX || deltaY) / scale());
  const around = tickAt(event.clientX - canvas.getBoundingClientRect().left);
  zoom(Math.exp(Math.max(-1, Math.min(1, deltaY / (event.ctrlKey ? 60 : 300)))), around);
}

// The next place in a lane, to the right or to the left: where a block begins.
function nextTick({ what, numbers }, tick, step) {
  const blocks = POINTED[what].slice(0, 1).flatMap((look) => numbers.flatMap((number) => trackOf(look, number).blocks));
  const begins = blocks.map(({ first }) => first).filter((first) => (first - tick) * step > 0);
  return begins.length ? begins.reduce((a, b) => ((a - b) * step < 0 ? a : b)) : tick;
}

function moveCursor(across, down) {
  const shown = lanes.filter((lane) => lane.shown);
  const cursor = state.cursor || { lane: laneInSight(), tick: Math.floor(view.from) };
  const place = Math.min(Math.max(0, shown.indexOf(cursor.lane) + down), shown.length - 1);
  const lane = shown[place];
  const tick = across ? nextTick(lane, cursor.tick, across) : cursor.tick;
  state.cursor = { lane, tick };
  if (tick < view.from || tick >= view.to) pan(tick - (view.from + view.to) / 2);
  scrollTo(lane);
  say(describe(lane, tick));
  redraw();
}

const KEYS = {
  '+': () => zoom(0.6), '=': () => zoom(0.6), '-': () => zoom(1 / 0.6), 0: () => setView(0, facts.ticks),
  ArrowRight: () => moveCursor(1, 0), ArrowLeft: () => moveCursor(-1, 0),
  ArrowDown: () => moveCursor(0, 1), ArrowUp: () => moveCursor(0, -1),
  PageDown: () => pan((view.to - view.from) * 0.8), PageUp: () => pan((view.from - view.to) * 0.8),
  Home: () => pan(-facts.ticks), End: () => pan(facts.ticks),
  Enter: () => choose(state.cursor), Escape: () => choose(null),
  f: showFault, l: showNextLate, w: showLongestWait,
};

function keyDown(event) {
  const act = KEYS[event.key.length === 1 ? event.key.toLowerCase() : event.key];
  if (!act || event.ctrlKey || event.metaKey || event.altKey) return;
  event.preventDefault();
  act();
}

function mapMove(event) {
  if (event.type === 'pointermove' && !event.buttons) return;
  const tick = ((event.clientX - map.getBoundingClientRect().left) / map.clientWidth) * facts.ticks;
  const half = (view.to - view.from) / 2;
  setView(tick - half, tick + half);
}

function goToTick(event) {
  event.preventDefault();
  const tick = Number.parseInt(byId('tick').value, 10);
  if (tick >= 0) showTick(tick);
}

function joinLanes() {
  lanes = makeLanes();
  choose(null);
}

function listen() {
  const on = (target, names, act) => {
    for (const name of names.split(' ')) target.addEventListener(name, act, { passive: false });
  };
  for (const button of document.querySelectorAll('[data-key]')) on(button, 'click', () => KEYS[button.dataset.key]());
  byId('to-fault').disabled = !facts.fault;
  byId('to-late').disabled = !lateJobs.length;
  byId('to-wait').disabled = !longestWait;
  byId('join').parentElement.hidden = groups.length === facts.tasks.length;
  on(byId('to-tick'), 'submit', goToTick);
  on(byId('hide'), 'change', layOut);
  on(byId('join'), 'change', joinLanes);
  on(byId('rows'), 'toggle', settleSoon);
  on(byId('lanes'), 'scroll', redraw);
  on(map, 'pointerdown pointermove', mapMove);
  on(canvas, 'pointerdown', pointerDown);
  on(canvas, 'pointermove', pointerMove);
  on(canvas, 'pointerup pointercancel', pointerUp);
  on(canvas, 'pointerleave', () => { byId('tip').hidden = true; });
  on(canvas, 'wheel', wheel);
  on(canvas, 'keydown', keyDown);
  on(window, 'resize', layOut);
  on(window, 'beforeprint', () => toPaper(true));
  on(window, 'afterprint', () => toPaper(false));
  on(window.matchMedia('print'), 'change', ({ matches }) => toPaper(matches));
  on(window.matchMedia('(prefers-color-scheme: dark)'), 'change', recolour);
}

function recolour() {
  readPalette();
  layOut();
}

// On paper the page is light and as wide as a sheet, and has the reasons and the rows in sight.
function toPaper(isPaper) {
  if (isPaper === state.isPaper) return;
  const parts = ['reasons', 'rows'].map(byId);
  if (isPaper) state.open = parts.map(({ open }) => open);
  parts.forEach((part, place) => { part.open = isPaper || state.open[place]; });
  state.isPaper = isPaper;
  document.documentElement.classList.toggle('paper', isPaper);
  writeTable();
  recolour();
  draw();
}

// At first a short run is in sight as a whole, else its beginning, and in any case the fault.
function start() {
  writeHead();
  writeReport();
  listen();
  if (facts.ticks > 300) setView(0, 200);
  recolour();
  if (facts.fault) showFault();
}

start();
