// What the page says of a refusal: what is wrong in the file and in which line, and which limit an edit meets.
import { pairsOf } from './gml.mjs';

const LIMITS = { 132: '256 boxes', 133: '512 connectors', 134: '256 pins', 135: '256 checkpoints, and 4 of one connector' };
const OF_NODE = { 104: 'its id is missing, or is no whole number', 105: 'an earlier node has its id',
  106: 'it has no graphics [ x .. y .. ], so it has no place', 107: 'one of its pins is wrong: its class, its place, its directions or its cost',
  112: 'x, y, w or h is no number', 122: 'a size is negative, or it reaches beyond 1,000,000 units' };
const OF_EDGE = { 108: 'its source or its target names no node, or a class of pins that the node does not have', 109: 'a checkpoint has no place',
  110: 'its nudgeWeight is none of 1, 2, 3 and 4' };
const OF_LIMIT = { 4: '4 checkpoints of a connector', 256: '256 boxes, 256 pins, 256 checkpoints', 512: '512 connectors' };
const OF_EDIT = { 9: 'a number is too large or too small', 11: 'the box has no pin of that class', 17: 'a connector uses the pin',
  99: 'the engine has no memory left; nothing was changed' };

/** Where the byte at an offset stands. */
function placeOf(text, offset) {
  const lines = text.slice(0, offset).split('\n');
  return `line ${lines.length}, column ${lines.at(-1).length + 1}`;
}

/** Where the nth list of a key begins in the graph. */
function listAt(text, key, nth) {
  const graph = pairsOf(text).find(pair => pair.key === 'graph' && Array.isArray(pair.value));
  const found = (graph?.value ?? []).filter(pair => pair.key === key && Array.isArray(pair.value))[nth - 1];
  return found ? `${placeOf(text, found.at)}: ` : '';
}

/** What stands at a place where no GML can go on. */
function seen(text, offset) {
  if (offset >= text.length) return 'the file ends inside a list or a string, or after a key';
  return /^\s*<|^\s*\{/.test(text) ? 'this looks like XML or JSON, not GML' : `${JSON.stringify(text[offset])} can not stand here`;
}

/** A refused diagram in words, which may be bytes. */
export function ofDiagram({ code, value, message }, bytes) {
  const text = Array.from(bytes, byte => String.fromCharCode(byte)).join('');
  if (code === 101) return `${placeOf(text, value)}: ${seen(text, value)}`;
  if (code === 102) return `${placeOf(text, value)}: a 65th list inside another`;
  if (code === 103) return 'it has no list graph [ ]';
  if (code === 111 || code === 121) return `${listAt(text, 'router', 1)}penalty, buffer or nudge of the router is wrong`;
  if (OF_NODE[code]) return `${listAt(text, 'node', value)}node ${value}: ${OF_NODE[code]}`;
  if (OF_EDGE[code]) return `${listAt(text, 'edge', value)}edge ${value}: ${OF_EDGE[code]}`;
  return LIMITS[code] ? `a diagram has at most ${LIMITS[code]}` : message;
}

/** A refused edit in words. */
export function ofEdit({ code, value, message }) {
  return code === 13 ? `the limit is reached: ${OF_LIMIT[value] ?? value}` : OF_EDIT[code] ?? message;
}
