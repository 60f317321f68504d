// The page's script: an editor over a session, which is the engine in this page or, where serve.py has put its key into the page,
// the program reroute_live. Both have the names of bindings/reroute-worker.mjs.
import { textOf } from './reroute.mjs';
import { labelsOf, pairsOf } from './gml.mjs';
import * as drawing from './drawing.mjs';
import * as words from './words.mjs';
import { FIRST, HINT } from './first.mjs';

const isLive = !KEY.startsWith('{{');
const back = isLive ? await import('./live.mjs') : await import('./reroute-worker.mjs');
const $ = id => document.getElementById(id);
const sheet = $('sheet');
const KEPT = 'reroute-page', MOST_STEPS = 100, MOST_PINS = 256, NEW = { w: 90, h: 46 };

// What the session holds, as it was read last.
let session = null;
let boxes = new Map(); // by id, as `scene` has them
let connectors = new Map(); // by number
let settings = { buffer: 4 };
const lines = new Map(); // by number: the corners that are reported
let changed = new Set(); // the connectors whose lines the last step changed
let labels = null; // in the diagram that was opened
// What the page adds to it.
let names = new Map(); // by id of a box: the name that was given here
let past = [], future = []; // steps: the names before it (or after it), how many steps of the session it is, and what it is for
let trial = null; // while something is dragged: the boxes, the lines and the changed ones that a commit would give
let chosen = null; // { box } or { edge }
let start = null; // the box from which a connector is being made
let pull = null; // while one is pulled: from where, and to which point
let isEdited = false; // since the diagram was opened or saved
let hint = null; // the box that the first diagram asks to drag

// --- Steps

/** Does something after what was begun before it, draws, and says what came of it. */
let work = Promise.resolve();
function act(what, doing) {
  work = work.then(async () => {
    try {
      await doing();
      $('said').textContent = typeof what === 'function' ? what() : what;
    } catch (error) {
      trial = null;
      $('said').textContent = error instanceof back.Refused || error.reason ? `refused: ${words.ofEdit(error)}` : error.message;
    }
    draw();
  });
  return work;
}

/** Asks the engine, and says how long it took. */
async function timed(doing) {
  const began = performance.now(), answer = await doing();
  $('time').textContent = `${(performance.now() - began).toFixed(1)} ms`;
  return answer;
}

/** Puts changes into lines; a line without corners is gone. */
function take(changes, into) {
  for (const [number, corners] of changes) if (corners.length) into.set(number, corners); else into.delete(number);
  return into;
}

/** Reads what a step has changed. */
async function look() {
  const changes = await session.changes(), scene = await session.scene();
  take(changes, lines);
  changed = new Set(changes.keys());
  boxes = new Map(scene.boxes.map(box => [box.id, { ...box, label: names.get(box.id) ?? labels.boxes.get(box.id) ?? `Box ${box.id}` }]));
  connectors = new Map(scene.connectors.map(one => [one.number, one]));
  settings = scene.settings;
  if (chosen && !(chosen.box === undefined ? connectors.has(chosen.edge) : boxes.has(chosen.box))) chosen = null;
}

/** Makes edits, and a step of the history of them. One for the same `sake` joins the last step if it was asked for within two
    seconds after that. */
async function commit(edits, { sake = null, asked = 0, newNames = names } = {}) {
  trial = null;
  const answer = await timed(() => session.transaction(edits));
  const last = past.at(-1);
  if (sake && last?.sake === sake && asked - last.at < 2000) last.count += 1;
  else past = [...past, { names, count: 1, sake }].slice(-MOST_STEPS);
  names = newNames;
  await stepped();
  past.at(-1).at = performance.now();
  return answer;
}

async function stepped() {
  future = [];
  isEdited = true;
  await look();
  keep();
}

async function back_or_forth(name, from, to) {
  const step = from.pop();
  for (let count = 0; count < step.count; count++) await timed(() => session[name]());
  to.push({ ...step, names, sake: null });
  names = step.names;
  start = null;
  isEdited = true;
  await look();
  keep();
}
const undo = () => past.length && act('undone', () => back_or_forth('undo', past, future));
const redo = () => future.length && act('redone', () => back_or_forth('redo', future, past));

/** Shows what edits would give, and these boxes in place of the present ones. */
async function preview(edits, shownBoxes) {
  const changes = await timed(() => session.trialChanges(edits));
  trial = { boxes: shownBoxes, lines: take(changes, new Map(lines)), changed: new Set(changes.keys()) };
}
const moved = (id, x, y) => new Map(boxes).set(id, { ...boxes.get(id), x, y });

// --- What a user does to the diagram

const nameOf = id => boxes.get(id)?.label ?? id;

/** The place nearest to the middle of the sheet where a new box has room. */
function room() {
  const middle = view.middle(), gap = 2 * settings.buffer + 8;
  const isFree = (x, y) => ![...boxes.values()].some(b => (
    Math.abs(b.x - x) < (b.w + NEW.w) / 2 + gap && Math.abs(b.y - y) < (b.h + NEW.h) / 2 + gap));
  for (let ring = 0; ; ring++) {
    for (let at = 0; at < Math.max(1, 8 * ring); at++) {
      const side = Math.floor(at / 2 / ring) || 0, along = at % (2 * ring || 1) - ring;
      const [i, j] = [[along, -ring], [ring, along], [-along, ring], [-ring, -along]][side] ?? [0, 0];
      const x = Math.round(middle[0] / 10) * 10 + 20 * i, y = Math.round(middle[1] / 10) * 10 + 20 * j;
      if (isFree(x, y)) return [x, y];
    }
  }
}

function addBox() {
  return act(() => `${nameOf(chosen.box)} added; drag it, or pull a connector from its blue dot`, async () => {
    const id = Math.max(0, ...[...boxes.keys()].map(Number)) + 1, [x, y] = room();
    await commit(s => s.addBox(id, x, y, NEW.w, NEW.h), { newNames: new Map(names).set(id, `Box ${id}`) });
    focus({ box: id });
    view.show(boxes.get(id));
  });
}

/** A pin for the end of a line at a box: on the side by which the line leaves, in the widest gap there. */
function pinFor(box, corners) {
  const [[x, y], [u, v]] = corners, isLevel = Math.abs(u - x) > Math.abs(v - y);
  const side = isLevel ? (u > x ? 'E' : 'W') : (v > y ? 'S' : 'N');
  const half = (isLevel ? box.h : box.w) / 2, across = (isLevel ? box.w : box.h) / 2;
  const far = side === 'E' || side === 'S' ? across : -across;
  const taken = box.pins.filter(pin => Math.abs((isLevel ? pin.dx : pin.dy) - far) < 0.01).map(pin => (isLevel ? pin.dy : pin.dx));
  const edges = [-half, ...taken.sort((a, b) => a - b), half];
  const gaps = edges.slice(1).map((to, at) => [to - edges[at], Math.round((to + edges[at]) / 2)]);
  const along = gaps.reduce((best, gap) => (gap[0] > best[0] + 0.01 ? gap : best))[1];
  const pinClass = Math.max(0, ...box.pins.map(pin => pin.pinClass)) + 1;
  return isLevel ? [box.id, pinClass, far, along, side] : [box.id, pinClass, along, far, side];
}

/** The edits that connect two boxes, with a pin of its own for each end where the diagram has room for pins. */
async function connecting(from, to) {
  const number = await session.next, plain = s => s.connect(from, to);
  const line = (await session.trialChanges(plain)).get(number);
  const pins = [...boxes.values()].reduce((all, box) => all + box.pins.length, 0);
  if (!line || pins + 2 > MOST_PINS) return plain;
  const first = pinFor(boxes.get(from), line), last = pinFor(boxes.get(to), [...line].reverse());
  return s => { s.addPin(...first); s.addPin(...last); return s.connect(from, to, first[1], last[1]); };
}

function connect(from, to) {
  start = pull = null;
  if (from === to) return act('a connector has two boxes', () => {});
  return act(`connected ${nameOf(from)} to ${nameOf(to)}`, async () => {
    focus({ edge: await commit(await connecting(from, to)) });
  });
}

/** The edits that remove connectors, with the pins that no other uses. */
function cutting(numbers) {
  const rest = [...connectors.values()].filter(one => !numbers.includes(one.number));
  const ends = numbers.flatMap(number => { const c = connectors.get(number); return [[c.start, c.startClass], [c.end, c.endClass]]; });
  const isUsed = (id, kind) => rest.some(c => (c.start === id && c.startClass === kind) || (c.end === id && c.endClass === kind));
  const unused = ends.filter(([id, kind]) => kind && !isUsed(id, kind));
  const places = [...boxes.values()].flatMap(box => box.pins.flatMap((pin, at) => (
    unused.some(([id, kind]) => id === box.id && kind === pin.pinClass) ? [[box.id, at + 1]] : []))).reverse();
  return s => { numbers.forEach(number => s.cut(number)); places.forEach(([id, place]) => s.dropPin(id, place)); };
}

function remove() {
  if (!chosen) return null;
  const { box, edge } = chosen;
  chosen = start = null;
  if (edge !== undefined) return act('removed the connector', () => commit(cutting([edge])));
  const ends = [...connectors.values()].filter(one => one.start === box || one.end === box).map(one => one.number);
  return act(`removed ${nameOf(box)}`, () => commit(s => { cutting(ends)(s); s.drop(box); }));
}

/** Asks for the name of a box over it, and gives it. */
function rename(id) {
  const box = boxes.get(id), place = document.createElement('input');
  const [x, y] = view.toScreen(box.x, box.isGroup ? box.y - box.h / 2 + 12 : box.y);
  $('name')?.remove();
  Object.assign(place, { id: 'name', value: box.label, ariaLabel: 'Name of the box' });
  Object.assign(place.style, { left: `${x}px`, top: `${y}px`, width: `${Math.max(110, box.w * view.scale)}px` });
  const end = isTaken => {
    const text = place.value.trim();
    place.onblur = null;
    place.remove();
    sheet.querySelector(`[data-box="${id}"]`)?.focus();
    if (!isTaken || !text || text === box.label) return;
    act(`named ${text}`, async () => {
      past = [...past, { names, count: 0, sake: null }].slice(-MOST_STEPS);
      names = new Map(names).set(id, text);
      await stepped();
    });
  };
  place.onblur = () => end(true);
  place.onkeydown = event => {
    event.stopPropagation();
    if (event.key === 'Enter' || event.key === 'Escape') end(event.key === 'Enter');
  };
  $('sheet').parentElement.append(place);
  place.focus();
  place.select();
}

// --- Files

/** A string in GML. */
const encoded = text => `"${text.replace(/["&]|[^ -~]/gu, one => `&#${one.codePointAt(0)};`)}"`;
const binary = bytes => Array.from(bytes, byte => String.fromCharCode(byte)).join('');
const unbinary = text => Uint8Array.from(text, one => one.charCodeAt(0));

/** The diagram with the names that were given in the page, as a string of its bytes. */
async function gml() {
  const text = binary(await session.gmlBytes()), graph = pairsOf(text).find(pair => pair.key === 'graph').value, puts = [];
  for (const { key, value, from } of graph) {
    if (key !== 'node' || !Array.isArray(value)) continue;
    const id = Number(value.find(pair => pair.key === 'id').value), label = value.find(pair => pair.key === 'label');
    if (!names.has(id)) continue;
    if (label) puts.push([label.from, label.end, encoded(names.get(id))]);
    else puts.push([from + 1, from + 1, `\n    label ${encoded(names.get(id))}`]);
  }
  return puts.reduceRight((all, [from, to, put]) => all.slice(0, from) + put + all.slice(to), text);
}

async function openGml(bytes) {
  let opened;
  try {
    opened = await timed(() => back.Session.fromGml(bytes, { key: KEY }));
  } catch (error) {
    if (!error.reason) throw error;
    throw new Error(`not opened: ${words.ofDiagram(error, bytes)}`);
  }
  await session?.close();
  session = opened;
  labels = labelsOf(textOf(bytes));
  names = new Map();
  past = [];
  future = [];
  lines.clear();
  trial = chosen = start = hint = null;
  isEdited = false;
  await look();
  changed = new Set();
  view.fit();
}

/** What is said of a diagram that was opened: where ends have no pins, also what gives them pins. */
function saidOfOpened(name) {
  const lacksPins = [...connectors.values()].some(one => one.start !== one.end && !(one.startClass && one.endClass));
  return `opened ${name}: ${boxes.size} boxes, ${connectors.size} connectors`
    + (lacksPins ? `; lines of one box run together without pins, which reroute-draw ${name} -o pinned.gml adds` : '');
}

const opening = (name, bytes) => act(() => saidOfOpened(name), async () => {
  await openGml(bytes);
  keep();
});

function download(name, kind, bytes) {
  const link = document.createElement('a');
  link.href = URL.createObjectURL(new Blob([bytes], { type: kind }));
  link.download = name;
  link.click();
  setTimeout(() => URL.revokeObjectURL(link.href), 1000);
}
const save = () => act('saved diagram.gml', async () => {
  download('diagram.gml', 'text/plain', unbinary(await gml()));
  isEdited = false;
});

/** The picture alone, as a file. */
function svg() {
  const copy = sheet.cloneNode(true), [x, y, w, h] = view.bounds();
  copy.querySelectorAll('.hit, .handle, .pull').forEach(it => it.remove());
  copy.querySelectorAll('*').forEach(it => { it.classList.remove('chosen', 'changed', 'hint'); it.removeAttribute('tabindex'); });
  ['id', 'class', 'style', 'aria-label', 'role'].forEach(name => copy.removeAttribute(name));
  put(copy, { xmlns: 'http://www.w3.org/2000/svg', viewBox: `${x} ${y} ${w} ${h}`, width: w, height: h });
  return new XMLSerializer().serializeToString(copy);
}

/** Keeps the diagram of this tab over a reload. */
let keeping = 0;
function keep() {
  clearTimeout(keeping);
  keeping = setTimeout(() => { work = work.then(keepNow); }, 150);
}
async function keepNow() {
  try {
    sessionStorage.setItem(KEPT, JSON.stringify({ gml: await gml(), isEdited }));
  } catch { /* a diagram that is too large for the browser's store is not kept; leaving the page asks */ }
}
function kept() {
  try { return JSON.parse(sessionStorage.getItem(KEPT)); } catch { return null; }
}
window.addEventListener('beforeunload', event => { if (isEdited) event.preventDefault(); });

// --- What is seen of the sheet

const view = {
  x: 0, y: 0, scale: 1,
  size() { return [sheet.clientWidth || 800, sheet.clientHeight || 500]; },
  set() {
    const [w, h] = this.size();
    sheet.setAttribute('viewBox', `${this.x} ${this.y} ${w / this.scale} ${h / this.scale}`);
  },
  middle() { return this.toDiagram(...this.size().map(size => size / 2)); },
  toDiagram(x, y) { return [this.x + x / this.scale, this.y + y / this.scale]; },
  toScreen(x, y) { return [(x - this.x) * this.scale, (y - this.y) * this.scale]; },
  /** The diagram's extent, with a margin. */
  bounds() {
    const corners = ({ x, y, w, h }) => [[x - w / 2, y - h / 2], [x + w / 2, y + h / 2]];
    const points = [...boxes.values()].flatMap(corners).concat(...lines.values());
    if (!points.length) return [-100, -100, 200, 200];
    const [left, top] = [0, 1].map(at => Math.min(...points.map(point => point[at])) - 24);
    return [left, top, ...[0, 1].map(at => Math.max(...points.map(point => point[at])) + 24 - [left, top][at])];
  },
  fit() {
    const [x, y, w, h] = this.bounds(), [width, height] = this.size();
    this.scale = Math.min(width / w, height / h, 1.8);
    this.x = x + w / 2 - width / this.scale / 2;
    this.y = y + h / 2 - height / this.scale / 2;
    this.set();
  },
  /** Zooms about a point of the screen. */
  zoom(by, [x, y] = this.size().map(size => size / 2)) {
    const before = this.toDiagram(x, y), scale = Math.min(8, Math.max(0.05, this.scale * by));
    this.scale = scale;
    this.x = before[0] - x / scale;
    this.y = before[1] - y / scale;
    this.set();
  },
  pan(dx, dy) {
    this.x -= dx / this.scale;
    this.y -= dy / this.scale;
    this.set();
  },
  /** Shows all if this box is out of sight. */
  show({ x, y, w, h }) {
    const [left, top] = this.toScreen(x - w / 2, y - h / 2), [right, bottom] = this.toScreen(x + w / 2, y + h / 2);
    const [width, height] = this.size();
    if (left < 0 || top < 0 || right > width || bottom > height) this.fit();
  },
};
new ResizeObserver(() => view.set()).observe(sheet);

// --- Drawing

const shown = () => trial ?? { boxes, lines, changed };

function made(name, attributes = {}, parent = null) {
  const it = document.createElementNS('http://www.w3.org/2000/svg', name);
  put(it, attributes);
  parent?.append(it);
  return it;
}
function put(it, attributes) {
  const known = it.known ??= {}; // (to ask the element would take longer)
  for (const [name, value] of Object.entries(attributes)) if (known[name] !== value) it.setAttribute(name, known[name] = value);
}

made('style', {}, sheet).textContent = drawing.STYLE;
const layers = {};
for (const name of ['groups', 'wires', 'heads', 'boxes', 'tools']) layers[name] = { it: made('g', {}, sheet), all: new Map() };

/** The elements of a layer, one for each item by its key: new ones are made, and those of no item removed. */
function keyed(layer, items, make, update) {
  const { it, all } = layers[layer];
  for (const [key, element] of all) if (!items.has(key)) { element.remove(); all.delete(key); }
  for (const [key, item] of items) {
    if (!all.has(key)) {
      all.set(key, make(key, item));
      it.append(all.get(key));
    }
    update(all.get(key), key, item);
  }
}

function newBox(id, box) {
  const it = made('g', { tabindex: 0, role: 'graphics-symbol', 'data-box': id, 'aria-roledescription': box.isGroup ? 'group' : 'box' });
  made('title', {}, it);
  made('rect', { rx: box.isGroup ? 8 : 5 }, it);
  made('text', {}, it);
  made('g', {}, it);
  return it;
}

function drawBox(it, id, { x, y, w, h, label, isGroup, pins }) {
  const [title, rect, text, dots] = it.children;
  const kinds = [isGroup ? 'group' : 'box', chosen?.box === id && 'chosen', hint === id && 'hint'];
  put(it, { class: kinds.filter(Boolean).join(' '), transform: `translate(${x} ${y})`, 'aria-label': label });
  put(rect, { x: -w / 2, y: -h / 2, width: w, height: h });
  if (text.dataset.state !== `${label} ${w} ${h}`) {
    text.dataset.state = `${label} ${w} ${h}`;
    title.textContent = label;
    text.textContent = '';
    const written = isGroup ? [drawing.wrapped(label, w, 16)[0]] : drawing.wrapped(label, w, h);
    const left = isGroup ? -w / 2 + 8 : 0, top = isGroup ? -h / 2 + 12 : -(written.length - 1) * drawing.LINE_HEIGHT / 2;
    written.forEach((line, at) => { made('tspan', { x: left, y: top + at * drawing.LINE_HEIGHT }, text).textContent = line; });
  }
  const places = pins.map(pin => `${pin.dx},${pin.dy}`).join(' ');
  if (dots.dataset.state !== places) {
    dots.dataset.state = places;
    dots.textContent = '';
    for (const { dx, dy } of pins) made('circle', { class: 'pin', cx: dx, cy: dy, r: 2 }, dots);
  }
}

function newWire(number) {
  const it = made('g', { tabindex: 0, role: 'graphics-symbol', 'aria-roledescription': 'connector', 'data-edge': number });
  made('path', { class: 'line' }, it);
  made('path', { class: 'hit' }, it);
  made('text', { class: 'name' }, it);
  return it;
}

function kindsOf(number, { isNone }) {
  return [`c${(number - 1) % 6}`, isNone && 'none', chosen?.edge === number && 'chosen'].filter(Boolean).join(' ');
}

function drawWire(it, number, wire, changed) {
  const [line, hit, name] = it.children;
  put(it, { class: `wire ${kindsOf(number, wire)}${changed.has(number) ? ' changed' : ''}`, 'aria-label': wire.label });
  put(line, { d: wire.path });
  put(hit, { d: wire.path });
  if (wire.name) put(name, { x: wire.middle[0], y: wire.middle[1] });
  if (name.textContent !== wire.name) name.textContent = wire.name;
}

/** What is drawn of each connector. */
function wires({ boxes, lines }) {
  const drawn = new Map();
  for (const [number, { start, end }] of connectors) {
    const [a, b] = [boxes.get(start), boxes.get(end)], known = lines.get(number);
    if (!a || !b) continue;
    drawn.set(number, start === end ? drawing.loopOf(a) : drawing.visible(known ?? [[a.x, a.y], [b.x, b.y]], a, b));
  }
  const crossed = drawing.crossings(drawn);
  return new Map([...drawn].map(([number, corners]) => {
    const { start, end } = connectors.get(number), isNone = start !== end && !lines.has(number);
    return [number, { isNone, name: labels.connectors.get(number) ?? '', path: drawing.pathOf(corners, isNone ? [] : crossed.get(number)),
      head: drawing.headOf(corners), middle: drawing.middleOf(corners),
      label: `Connector from ${nameOf(start)} to ${nameOf(end)}${isNone ? ', no legal route' : ''}` }];
  }));
}

/** Why a connector has no line, as far as the page can see. */
function reason({ start, end }, boxes) {
  for (const one of [start, end]) {
    const at = boxes.get(one), gap = settings.buffer;
    for (const [id, b] of boxes) {
      if (b.isGroup || id === start || id === end) continue;
      const isClose = Math.abs(at.x - b.x) < (at.w + b.w) / 2 + gap && Math.abs(at.y - b.y) < (at.h + b.h) / 2 + gap;
      if (isClose) return `${b.label} stands too close to ${at.label}`;
    }
  }
  return 'the boxes leave no way';
}

function notes({ boxes, lines }) {
  const missing = [...connectors.values()].filter(one => one.start !== one.end && !lines.has(one.number) && boxes.has(one.start));
  if (!missing.length) return '';
  const [first] = missing, more = missing.length > 1 ? ` (and ${missing.length - 1} more)` : '';
  return `${nameOf(first.start)} to ${nameOf(first.end)} has no legal route: ${reason(first, boxes)}${more}.`;
}

/** The handle of the chosen box, from which a connector is pulled, and the line that is being pulled. */
function drawTools(all) {
  const items = new Map(), box = all.get(chosen?.box);
  if (box && !drag) items.set('handle', { d: '', cx: box.x + box.w / 2 + 12, cy: box.y - box.h / 2 - 8, r: 6 });
  if (pull?.to && !trial?.lines.has(pull.number)) items.set('pull', { d: `M${pull.from}L${pull.to}` });
  if (pull && trial?.lines.has(pull.number)) items.set('pull', { d: drawing.pathOf(trial.lines.get(pull.number)) });
  const make = key => made(key === 'handle' ? 'circle' : 'path', { class: key });
  keyed('tools', items, make, (it, key, attributes) => put(it, attributes));
}

function draw() {
  const now = shown(), all = wires(now);
  keyed('groups', new Map([...now.boxes].filter(([, box]) => box.isGroup)), newBox, drawBox);
  keyed('wires', all, newWire, (it, number, wire) => drawWire(it, number, wire, now.changed));
  keyed('heads', all, () => made('path'), (it, number, wire) => put(it, { d: wire.head, class: `head ${kindsOf(number, wire)}` }));
  keyed('boxes', new Map([...now.boxes].filter(([, box]) => !box.isGroup)), newBox, drawBox);
  drawTools(now.boxes);
  $('note').textContent = notes(now);
  $('undo').disabled = !past.length;
  $('redo').disabled = !future.length;
  $('remove').disabled = !chosen;
  $('connect').disabled = $('rename').disabled = chosen?.box === undefined;
  $('connect').setAttribute('aria-pressed', start !== null);
}

// --- Dragging: at each place of the pointer the page shows what a release there would give. While an answer is awaited, only the
// latest place is kept.

let drag = null; // { box, dx, dy, at } or { from } while a connector is pulled
let wanted = null, isFollowing = false;
const pointers = new Map(); // by id: where each is on the screen, of the one or two that are down
let press = null; // where the first one went down, and what it does: a box, a handle or the paper
let tapped = { box: undefined, at: 0 }; // where the last press was released, if it did not move

const place = event => {
  const corner = sheet.getBoundingClientRect();
  return [event.clientX - corner.left, event.clientY - corner.top];
};

async function follow() {
  if (isFollowing) return;
  isFollowing = true;
  while (wanted && drag) {
    const at = wanted;
    wanted = null;
    drag.at = at;
    await (drag.from === undefined ? followBox(drag.box, at) : followPull(drag.from, at));
  }
  isFollowing = false;
}

const followBox = (id, [x, y]) => act(() => `${nameOf(id)} would stand here`, async () => {
  if (drag) await preview(s => s.move(id, x, y), moved(id, x, y));
});

/** The box at a place that a pulled connector may end at. */
function under([x, y], from) {
  const found = [...boxes.values()].filter(b => b.id !== from && Math.abs(b.x - x) <= b.w / 2 && Math.abs(b.y - y) <= b.h / 2);
  return (found.find(box => !box.isGroup) ?? found[0])?.id;
}

function followPull(from, to) {
  const end = under(to, from), box = boxes.get(from);
  return act(end === undefined ? 'pull the connector to a box' : `connects ${nameOf(from)} to ${nameOf(end)}`, async () => {
    if (!drag) return;
    trial = null;
    pull = { from: [box.x + box.w / 2 + 12, box.y - box.h / 2 - 8], to, number: await session.next };
    if (end !== undefined) await preview(await connecting(from, end), boxes);
  });
}

/** Ends what is dragged: makes it, or takes it back. */
function release(isMade) {
  const mine = drag, at = wanted ?? mine?.at;
  drag = wanted = null;
  if (!mine) return;
  const end = mine.from !== undefined && at && under(at, mine.from);
  if (!isMade || !at || (mine.from !== undefined && end === undefined)) {
    act(mine.at ? 'as it was' : $('said').textContent, () => { trial = pull = null; });
  } else if (mine.from !== undefined) connect(mine.from, end);
  else {
    if (mine.box === hint) hint = null;
    act(() => `moved ${nameOf(mine.box)}`, () => commit(s => s.move(mine.box, ...at)));
  }
}

/** Chooses something that was made, for the keyboard too. */
function focus(what) {
  chosen = what;
  draw();
  const selector = what.box === undefined ? `[data-edge="${what.edge}"]` : `[data-box="${what.box}"]`;
  sheet.querySelector(selector)?.focus({ preventScroll: true });
}

function choose(what) {
  if (what?.box === chosen?.box && what?.edge === chosen?.edge) return;
  chosen = what;
  draw();
}

/** What of the diagram an event is on. */
function on(event) {
  const it = event.target.closest?.('[data-box], [data-edge], .handle');
  if (!it) return {};
  if (it.classList.contains('handle')) return { handle: true };
  return it.dataset.box === undefined ? { edge: Number(it.dataset.edge) } : { box: idIn(it.dataset.box) };
}
const idIn = text => [...boxes.keys()].find(id => String(id) === text);

function pressed(event) {
  const at = place(event), what = on(event), point = view.toDiagram(...at);
  press = { at, what, hasMoved: false };
  if (start !== null && what.box !== undefined && what.box !== start) { press = null; connect(start, what.box); return; }
  start = null;
  if (what.handle) drag = { from: chosen.box };
  else if (what.box !== undefined) {
    const box = boxes.get(what.box);
    drag = { box: box.id, dx: box.x - point[0], dy: box.y - point[1] };
  }
  if (!what.handle) choose(what.box !== undefined ? { box: what.box } : what.edge !== undefined ? { edge: what.edge } : null);
  draw();
}

function dragged(event) {
  const at = place(event);
  if (!press.hasMoved && Math.hypot(at[0] - press.at[0], at[1] - press.at[1]) < 4) return;
  if (!press.hasMoved && !drag) sheet.classList.add('panning');
  press.hasMoved = true;
  const [x, y] = view.toDiagram(...at);
  if (!drag) return;
  wanted = drag.from === undefined ? [Math.round(x + drag.dx), Math.round(y + drag.dy)] : [x, y];
  follow();
}

sheet.addEventListener('pointerdown', event => {
  if (event.button) return;
  pointers.set(event.pointerId, place(event));
  sheet.setPointerCapture(event.pointerId);
  if (pointers.size === 1) pressed(event);
  else {
    release(false);
    press = null;
  }
});
sheet.addEventListener('pointermove', event => {
  if (!pointers.has(event.pointerId)) return;
  const before = [...pointers.values()], at = place(event), last = pointers.get(event.pointerId);
  pointers.set(event.pointerId, at);
  if (pointers.size === 1 && press) {
    dragged(event);
    if (!drag && press.hasMoved) view.pan(at[0] - last[0], at[1] - last[1]);
  } else if (pointers.size === 2) {
    const far = ([a, b]) => Math.hypot(a[0] - b[0], a[1] - b[1]), middle = ([a, b]) => [(a[0] + b[0]) / 2, (a[1] + b[1]) / 2];
    const after = [...pointers.values()], [from, to] = [middle(before), middle(after)];
    view.pan(to[0] - from[0], to[1] - from[1]);
    view.zoom(far(after) / (far(before) || 1), to);
  }
});
function lifted(event, isMade) {
  if (!pointers.delete(event.pointerId)) return;
  sheet.classList.remove('panning');
  const mine = press;
  press = null;
  release(isMade && mine?.hasMoved);
  const box = mine?.hasMoved ? undefined : mine?.what.box;
  const isAgain = box !== undefined && box === tapped.box && event.timeStamp - tapped.at < 450;
  tapped = { box, at: event.timeStamp };
  if (isAgain && event.pointerType === 'touch') rename(box);
}
sheet.addEventListener('dblclick', () => { if (tapped.box !== undefined) rename(tapped.box); });
sheet.addEventListener('pointerup', event => lifted(event, true));
sheet.addEventListener('pointercancel', event => lifted(event, false));
sheet.addEventListener('wheel', event => {
  event.preventDefault();
  if (event.ctrlKey || event.metaKey) view.zoom(Math.exp(-event.deltaY / 150), place(event));
  else if (event.shiftKey && !event.deltaX) view.pan(-event.deltaY, 0);
  else view.pan(-event.deltaX, -event.deltaY);
}, { passive: false });
sheet.addEventListener('focusin', event => {
  const { box, edge } = on(event);
  if (box !== undefined || edge !== undefined) choose(box !== undefined ? { box } : { edge });
});

// --- Keys and buttons

const ARROWS = { ArrowLeft: [-1, 0], ArrowRight: [1, 0], ArrowUp: [0, -1], ArrowDown: [0, 1] };

function nudged(key, isFine, asked) {
  const id = chosen.box, by = isFine ? 1 : 10, [dx, dy] = ARROWS[key];
  if (id === hint) hint = null;
  return act(() => `moved ${nameOf(id)}`, () => {
    const { x, y } = boxes.get(id);
    return commit(s => s.move(id, x + dx * by, y + dy * by), { sake: `move ${id}`, asked });
  });
}

function begin() {
  start = start === null ? chosen.box : null;
  $('said').textContent = start === null ? ''
    : `choose the box to which ${nameOf(start)} is connected: click it, or go to it by Tab and press Enter`;
  draw();
}

function giveUp() {
  start = null;
  if (drag) release(false);
  else choose(null);
  draw();
}

document.addEventListener('keydown', event => {
  const key = event.key.toLowerCase(), isControl = event.ctrlKey || event.metaKey, isBox = chosen?.box !== undefined;
  const keys = isControl ? { z: event.shiftKey ? redo : undo, y: redo, s: save }
    : { n: addBox, c: isBox && begin, f2: isBox && (() => rename(chosen.box)), delete: chosen && remove, backspace: chosen && remove,
      escape: giveUp, '+': () => view.zoom(1.25), '=': () => view.zoom(1.25), '-': () => view.zoom(0.8), 0: () => view.fit(),
      enter: start !== null && isBox && chosen.box !== start && (() => connect(start, chosen.box)) };
  const doing = ARROWS[event.key] && isBox && !isControl ? () => nudged(event.key, event.shiftKey, event.timeStamp) : keys[key];
  if (!doing || event.altKey || event.target.tagName === 'INPUT' || (key === 'enter' && event.target.tagName === 'BUTTON')) return;
  event.preventDefault();
  doing();
});

const BUTTONS = { undo, redo, add: addBox, connect: begin, rename: () => rename(chosen.box), remove, save, fit: () => view.fit(),
  in: () => view.zoom(1.25), out: () => view.zoom(0.8),
  export: () => act('saved diagram.svg', () => download('diagram.svg', 'image/svg+xml', svg())) };
for (const [id, doing] of Object.entries(BUTTONS)) $(id).onclick = doing;

async function openFile(file) {
  if (file) await opening(file.name, new Uint8Array(await file.arrayBuffer()));
}
$('open').onchange = async event => { await openFile(event.target.files[0]); event.target.value = ''; };
document.addEventListener('dragover', event => event.preventDefault());
document.addEventListener('drop', event => { event.preventDefault(); openFile(event.dataTransfer.files[0]); });

// --- The beginning

/** The engine in this page; in the page in one file, of the bytes and the texts that stand there. */
async function load() {
  const bytes = $('module'), texts = $('engine');
  if (isLive || !bytes) return back.Reroute.load();
  const thread = new Worker(URL.createObjectURL(new Blob([texts.textContent], { type: 'text/javascript' })), { name: 'reroute' });
  return back.Reroute.load(`data:application/wasm;base64,${bytes.textContent}`, { thread });
}

const HINT_WORDS = 'Drag the yellow box between the others: the lines make way.';
await act(HINT_WORDS, async () => {
  await load();
  const old = kept();
  if (!old) {
    await openGml(new TextEncoder().encode(FIRST));
    hint = HINT;
    return;
  }
  await openGml(unbinary(old.gml));
  isEdited = old.isEdited;
});
if (kept()) act('here is what this tab had before it was loaded again', () => {});
$('back').textContent = isLive
  ? 'The program reroute_live routes behind this page; whether its build is proved, out/reroute_live.built says.'
  : 'The engine runs in this page, as WebAssembly: tested against the program, not proved. Its source is proved.';
// For a script that tries the page.
async function isIdle() {
  for (let last; last !== work;) {
    last = work;
    await last;
  }
}
window.reroute = { lines, shown, gml, svg, view, isIdle, drawnAfter: performance.now() };
document.body.dataset.ready = 'yes';
