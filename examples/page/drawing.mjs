// How the page draws: what a line, an arrow head and a label look like, and the rules of its style. Nothing here has a state.

const RADIUS = 6; // of a corner
const BOW = 4; // of a horizontal line over a vertical one
const HEAD = 8; // the length of an arrow head
const LINE = 14; // from one line of a label to the next

const rules = ({ ink, box, edge, chosen, fill, mark, group, wrong, lines }) => `
  text { font: 12px system-ui, sans-serif; fill: ${ink}; text-anchor: middle; dominant-baseline: central; pointer-events: none }
  .box rect { fill: ${box}; stroke: ${edge}; stroke-width: 1.4 } .box.chosen rect { fill: ${fill}; stroke: ${chosen}; stroke-width: 2.4 }
  .box.hint rect { fill: ${mark} } .pin { fill: ${edge} }
  .group rect { fill: ${group}; fill-opacity: .09; stroke: ${group}; stroke-width: 1.2; stroke-dasharray: 6 4 }
  .group.chosen rect { stroke: ${chosen}; stroke-width: 2.2 } .group text { text-anchor: start; font-weight: 600 }
  .line { fill: none; stroke-width: 1.8; stroke-linejoin: round; stroke-linecap: round } .wire.changed .line { stroke-width: 3.2 }
  .name { paint-order: stroke; stroke: ${box}; stroke-width: 4px; font-size: 11px }
  ${lines.map((colour, at) => `.c${at} .line { stroke: ${colour} } .head.c${at} { fill: ${colour} }`).join(' ')}
  .wire.none .line { stroke: ${wrong}; stroke-dasharray: 6 5 } .head.none { fill: ${wrong} }
  .wire.chosen .line { stroke: ${chosen}; stroke-width: 3.2 } .head.chosen { fill: ${chosen} }
  .pull { fill: none; stroke: ${chosen}; stroke-width: 1.8; stroke-dasharray: 3 4 }
  .handle { fill: ${chosen}; stroke: ${box}; stroke-width: 2 }`;
const LIGHT = { ink: '#22303c', box: '#ffffff', edge: '#3c4a5a', chosen: '#1769d2', fill: '#e4effd', mark: '#ffe9a3', group: '#5b7083',
  wrong: '#c62828', lines: ['#0b6fa4', '#b3541e', '#3f7d3a', '#7a4fa3', '#a33a55', '#5d6470'] };
const DARK = { ink: '#e4e9ee', box: '#222b34', edge: '#8fa1b3', chosen: '#6cb2ff', fill: '#1d3a5c', mark: '#6e5a16', group: '#9fb3c6',
  wrong: '#ff7b72', lines: ['#5db4e6', '#e8955c', '#7cc276', '#b794e0', '#e58aa2', '#a9b3bf'] };
export const STYLE = `${rules(LIGHT)}\n@media (prefers-color-scheme: dark) {${rules(DARK)} }`;

const isInside = (box, [x, y]) => Math.abs(x - box.x) < box.w / 2 && Math.abs(y - box.y) < box.h / 2;

/** A line without the part that lies in the box where it begins, so that it begins at the box's side. */
function clipped(corners, box) {
  const rest = [...corners];
  while (rest.length > 2 && isInside(box, rest[1])) rest.shift();
  if (!isInside(box, rest[0]) || isInside(box, rest[1])) return rest;
  const [[x, y], [u, v]] = rest, dx = u - x, dy = v - y;
  const part = Math.min(dx ? (box.w / 2 * Math.sign(dx) + box.x - x) / dx : 1, dy ? (box.h / 2 * Math.sign(dy) + box.y - y) / dy : 1);
  rest[0] = [x + dx * part, y + dy * part];
  return rest;
}

/** The corners of what is drawn of a line between two boxes. */
export const visible = (corners, from, to) => clipped(clipped(corners, from).reverse(), to).reverse();

/** Where each horizontal run of the lines crosses vertical runs of others: by line and run, from the left. */
export function crossings(lines) {
  const upright = [];
  for (const [number, corners] of lines) {
    corners.slice(1).forEach(([x, y], at) => {
      const [u, v] = corners[at];
      if (u === x && v !== y) upright.push({ number, x, top: Math.min(y, v), bottom: Math.max(y, v) });
    });
  }
  upright.sort((a, b) => a.x - b.x);
  const found = new Map();
  for (const [number, corners] of lines) {
    found.set(number, corners.slice(1).map(([x, y], at) => {
      const [u, v] = corners[at];
      return v === y ? crossed(upright, number, y, u, x) : [];
    }));
  }
  return found;
}

/** The places of the vertical runs that cross a horizontal one, away from its ends and theirs. */
function crossed(upright, number, y, from, to) {
  const left = Math.min(from, to) + RADIUS + BOW, right = Math.max(from, to) - RADIUS - BOW;
  let low = 0, high = upright.length;
  while (low < high) { const middle = low + high >> 1; if (upright[middle].x < left) low = middle + 1; else high = middle; }
  const places = [];
  for (; low < upright.length && upright[low].x <= right; low++) {
    const run = upright[low];
    if (run.number !== number && run.top + 1 < y && y < run.bottom - 1) places.push(run.x);
  }
  return places;
}

/** A horizontal run with a bow over each of these places, and one over neighbours. */
function bows(places, y, isRight) {
  const groups = [];
  for (const x of isRight ? places : [...places].reverse()) {
    const last = groups.at(-1);
    if (last && Math.abs(x - last[1]) <= 2 * BOW + 1) last[1] = x; else groups.push([x, x]);
  }
  const by = isRight ? BOW : -BOW, turn = isRight ? 1 : 0;
  return groups.map(([first, last]) => {
    const radius = Math.abs(last - first) / 2 + BOW;
    return `L${first - by},${y}A${radius},${BOW} 0 0 ${turn} ${last + by},${y}`;
  }).join('');
}

/** The path of a line, with round corners, and bows where it crosses. */
export function pathOf(corners, places = []) {
  const far = ([x, y], [u, v]) => Math.abs(u - x) + Math.abs(v - y);
  const towards = ([x, y], [u, v], by) => {
    const all = far([x, y], [u, v]) || 1;
    return [x + (u - x) * by / all, y + (v - y) * by / all];
  };
  let path = `M${corners[0]}`;
  for (let at = 1; at < corners.length; at++) {
    const [before, corner, next] = [corners[at - 1], corners[at], corners[at + 1]];
    path += bows(places[at - 1] ?? [], corner[1], corner[0] > before[0]);
    if (!next) path += `L${corner}`;
    else {
      const radius = Math.min(RADIUS, far(before, corner) / 2, far(corner, next) / 2);
      path += `L${towards(corner, before, radius)}Q${corner} ${towards(corner, next, radius)}`;
    }
  }
  return path;
}

/** The arrow head at the end of a line. */
export function headOf(corners) {
  const [u, v] = corners.at(-2), [x, y] = corners.at(-1), all = Math.hypot(x - u, y - v);
  if (!all) return '';
  const length = Math.min(HEAD, Math.max(4, all)), [ax, ay] = [(x - u) / all * length, (y - v) / all * length], half = 0.45;
  return `M${x},${y}L${x - ax - ay * half},${y - ay + ax * half}L${x - ax + ay * half},${y - ay - ax * half}Z`;
}

/** The line of a connector from a box to itself, at its upper right corner. */
export const loopOf = ({ x, y, w, h }) => [[x + w / 2 - 16, y - h / 2], [x + w / 2 - 16, y - h / 2 - 12], [x + w / 2 + 12, y - h / 2 - 12],
  [x + w / 2 + 12, y - h / 2 + 14], [x + w / 2, y - h / 2 + 14]];

/** The middle of the longest run. */
export function middleOf(corners) {
  let best = [0, corners[0]];
  corners.slice(1).forEach(([x, y], at) => {
    const [u, v] = corners[at], size = Math.abs(x - u) + Math.abs(y - v);
    if (size > best[0]) best = [size, [(x + u) / 2, (y + v) / 2]];
  });
  return best[1];
}

const pen = globalThis.document?.createElement('canvas').getContext('2d');
if (pen) pen.font = '12px system-ui, sans-serif';

/** A label in lines that are no wider than the box, and as many as fit; the last one ends in … if there are more. */
export function wrapped(label, w, h) {
  const room = Math.max(w - 10, 12), most = Math.max(1, Math.floor((h - 4) / LINE)), lines = [];
  const fits = text => pen.measureText(text).width <= room;
  for (const part of label.split('\n')) {
    let line = '';
    for (let word of part.split(/\s+/)) {
      if (line && fits(`${line} ${word}`)) { line += ` ${word}`; continue; }
      if (line) lines.push(line);
      while (!fits(word) && word.length > 1) {
        let size = word.length - 1;
        while (size > 1 && !fits(word.slice(0, size))) size -= 1;
        lines.push(word.slice(0, size));
        word = word.slice(size);
      }
      line = word;
    }
    lines.push(line);
  }
  if (lines.length <= most) return lines;
  let last = lines[most - 1];
  while (last && !fits(`${last}…`)) last = last.slice(0, -1);
  return [...lines.slice(0, most - 1), `${last}…`];
}
export const LINE_HEIGHT = LINE;
