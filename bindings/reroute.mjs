// Reroute from JavaScript, in a page and in Node: this one file, and reroute.wasm beside it.
//
//   import { Reroute, Session } from './reroute.mjs';
//
//   await Reroute.load();
//   const session = new Session();
//   const edge = session.transaction(s => {
//     s.addBox(1, 0, 0, 20, 20);
//     s.addBox(2, 100, 0, 20, 20);
//     return s.connect(1, 2);
//   });
//   console.log(session.lines().get(edge)); // [ [ 0, 0 ], [ 100, 0 ] ]
//   session.close();
//
// The calls are those of bindings/reroute.h. Lengths are in units, kept to thousandths; ids are whole numbers, as BigInt
// where they are beyond 2^53. Nothing waits: a call ends before it answers; reroute-worker.mjs has the same calls as promises.
// The module is tested against the program and not proved; the engine's source is proved.

const FIRST_PAGES = 32; // of 65,536 bytes, as tools/build-wasm has it
const NAMES = { 1: 'Syntax', 2: 'NoTransaction', 3: 'AlreadyOpen', 4: 'UnknownNode', 5: 'UnknownEdge', 6: 'NodeExists',
  7: 'NodeInUse', 8: 'SameNode', 9: 'OutOfRange', 10: 'PinOutside', 11: 'UnknownPinClass', 12: 'NoSuchPlace', 13: 'TooMany',
  14: 'NothingToUndo', 15: 'NothingToRedo', 17: 'PinInUse', 98: 'NoSession', 99: 'NoMemory', 101: 'Syntax at',
  102: 'TooDeep at', 103: 'NoGraph', 104: 'BadId node', 105: 'SameId node', 106: 'NoPlace node', 107: 'BadPin node',
  108: 'BadEnd edge', 109: 'BadVia edge', 110: 'BadWeight edge', 111: 'BadNumber router', 112: 'BadNumber node',
  121: 'OutOfRange router', 122: 'OutOfRange node', 132: 'TooMany node', 133: 'TooMany edge', 134: 'TooMany pin',
  135: 'TooMany via' };
const WITHOUT_VALUE = new Set([1, 2, 3, 14, 15, 98, 99, 103, 111, 121, 132, 133, 134, 135]);

const HANDS = ['tie', 'left', 'right'];
const BREACHES = [null, 'Slanted', 'StartOff', 'EndOff', 'Hits', 'MissesVia'];

/** A call that was refused. Nothing is changed by it, but that no transaction is open any more, except after a label or a `check`. */
export class Refused extends Error {
  constructor(code, value = null, line = 0) {
    const words = [code < 98 ? `X${code}` : '', NAMES[code] ?? code, WITHOUT_VALUE.has(code) ? '' : value];
    super(`${line ? `line ${line}: ` : ''}${words.filter(word => word !== '').join(' ')}`);
    this.code = code; // as reroute.h numbers them
    this.reason = NAMES[code];
    this.value = WITHOUT_VALUE.has(code) ? null : value;
    this.line = line;
  }

  /** The refusal that the program has put in these words, or null. */
  static fromText(text) {
    const found = /^(?:line (\d+): )?(?:X\d+ )?(\D*?)(?: (-?\d+))?$/.exec(text.trim());
    const code = found && Object.keys(NAMES).find(one => NAMES[one] === found[2]);
    return code ? new Refused(Number(code), found[3] ? Number(found[3]) : null, Number(found[1] ?? 0)) : null;
  }
}

/** A length in thousandths. */
function milli(units) {
  const thousandths = Math.round(units * 1000);
  if (!Number.isSafeInteger(thousandths)) throw new RangeError(`${units} is no length`);
  return BigInt(thousandths);
}

/** A whole number of 64 bits. */
function whole(number) {
  let value;
  try { value = BigInt(number); } catch { throw new RangeError(`${number} is no whole number`); }
  if (BigInt.asIntN(64, value) !== value) throw new RangeError(`${number} has more than 64 bits`);
  return value;
}

/** A number of 64 bits: a BigInt only where it is beyond 2^53. */
const near = value => (Number.isSafeInteger(Number(value)) ? Number(value) : value);

/** A number from 0 that fits 32 bits. */
function count(number) {
  if (number >>> 0 !== number) throw new RangeError(`${number} is no number from 0 to 4294967295`);
  return number;
}

/** The text of a diagram's bytes: UTF-8 or, as GML has it, Latin-1. */
export function textOf(bytes) {
  try { return new TextDecoder('utf-8', { fatal: true }).decode(bytes); } catch { return new TextDecoder('iso-8859-1').decode(bytes); }
}

// --- The engine

async function bytesOf(source) {
  if (typeof source !== 'string' && !(source instanceof URL)) return source;
  const files = globalThis.process?.getBuiltinModule?.('node:fs');
  if (files && !/^https?:|^data:/.test(source)) return files.promises.readFile(/^file:/.test(source) ? new URL(source) : source);
  const answer = await fetch(source);
  if (!answer.ok) throw new Error(`${source}: ${answer.status}`);
  return answer.arrayBuffer();
}

let loaded = null;

/** The engine: a module with its memory, which its sessions share. */
export class Reroute {
  #exports;
  #broken = null;

  /** The compiled module, from its address or its bytes. */
  static async compiled(source = new URL('reroute.wasm', import.meta.url)) {
    return source instanceof WebAssembly.Module ? source : WebAssembly.compile(await bytesOf(source));
  }

  /** Loads the module from its address, its bytes, or as it was compiled; `mostBytes` bounds its memory. */
  static async load(source, { mostBytes = 2 ** 32 } = {}) {
    const module = await Reroute.compiled(source);
    loaded = new Reroute();
    loaded.memory = new WebAssembly.Memory({ initial: FIRST_PAGES, maximum: Math.max(FIRST_PAGES, Math.floor(mostBytes / 65536)) });
    loaded.#exports = (await WebAssembly.instantiate(module, { env: { memory: loaded.memory } })).exports;
    loaded.view = new DataView(loaded.memory.buffer);
    return loaded;
  }

  /** Calls an export. After a fault of the machine the memory is half written, and no call is made any more. */
  call(name, ...words) {
    if (this.#broken) throw this.#broken;
    try {
      return this.#exports[`reroute_${name}`](...words);
    } catch (error) {
      this.#broken = new Error(`the engine stopped: ${error.message}`, { cause: error });
      throw this.#broken;
    } finally {
      // (a memory that grew has another buffer)
      if (this.view.buffer !== this.memory.buffer) this.view = new DataView(this.memory.buffer);
    }
  }

  alloc(bytes) {
    const at = bytes < 2 ** 32 ? this.call('alloc', bytes) >>> 0 : 0;
    if (!at) throw new Refused(99);
    return at;
  }

  /** The module's version, as the header has it. */
  get version() { return this.call('version'); }
}

/** Gives back what a session holds. */
function release({ engine, room, handle }) {
  engine.call('close', handle);
  engine.call('free', room);
}
const forgotten = new FinalizationRegistry(held => { try { release(held); } catch { /* the engine stopped */ } });

/** A scene of boxes, pins and connectors, with the lines of the connectors. */
export class Session {
  #engine;
  #held;
  #handle;
  #out; // 16 bytes for a fault, 16 for a number, 64 for what is said of a line, a corner, a box, a pin or a connector

  /** A session on the empty scene, or on the scene of a diagram in GML, which is a string or bytes. */
  constructor({ gml = null, engine = loaded } = {}) {
    if (!engine) throw new Error('await Reroute.load() first');
    const size = engine.call('size') + 15 & -16, room = engine.alloc(size + 112);
    this.#engine = engine;
    this.#handle = room + size;
    this.#out = this.#handle + 16;
    engine.view.setBigUint64(this.#handle, BigInt(room), true);
    engine.call('ready', room);
    this.#held = { engine, room, handle: this.#handle };
    try {
      if (gml === null) this.#do('open');
      else this.#withBytes(gml, (at, length) => this.#do('open_gml', at, length));
    } catch (error) {
      this.close();
      throw error;
    }
    forgotten.register(this, this.#held, this);
  }

  static fromGml(gml, options = {}) { return new Session({ ...options, gml }); }
  /** As the constructor, for code that also takes the session of reroute-worker.mjs: `await Session.open()`. */
  static open(options) { return new Session(options); }

  /** Gives the session's memory back to the engine; the same happens some time after it was forgotten. */
  close() {
    if (!this.#held) return;
    forgotten.unregister(this);
    const held = this.#held;
    this.#held = null;
    release(held);
  }

  // --- Calls of the engine

  #call(name, ...words) {
    if (!this.#held) throw new Refused(98);
    return this.#engine.call(name, ...words);
  }

  /** A call that answers a fault. */
  #do(name, ...words) {
    this.#call(name, this.#out, this.#handle, ...words);
    const code = this.#engine.view.getUint32(this.#out, true);
    if (!code) return;
    throw new Refused(code, this.#id(this.#out + 8), name === 'play' ? this.#number() : 0);
  }

  /** A number that a call wrote, not below 0 and below 2^53. */
  #number() { return this.#engine.view.getUint32(this.#out + 16, true) + 2 ** 32 * this.#engine.view.getUint32(this.#out + 20, true); }
  #units(at) { return (this.#engine.view.getUint32(at, true) + 2 ** 32 * this.#engine.view.getInt32(at + 4, true)) / 1000; }
  #word(at) { return this.#engine.view.getUint32(at, true); }
  #id(at) { return near(this.#engine.view.getBigInt64(at, true)); }

  /** What a call has at the places from 0 on, each as `made` reads it from where it is written. */
  #all(name, made, ...of) {
    const found = [], said = this.#out + 32;
    for (let place = 0; this.#call(name, this.#handle, ...of, place, said); place++) found.push(made(said, place));
    return found;
  }
  #points(name, of) { return this.#all(name, at => [this.#units(at), this.#units(at + 8)], of); }

  #withBytes(text, doing) {
    const bytes = typeof text === 'string' ? new TextEncoder().encode(text)
      : new Uint8Array(text.buffer ?? text, text.byteOffset ?? 0, text.byteLength);
    const at = this.#engine.alloc(bytes.length + 1);
    try {
      new Uint8Array(this.#engine.memory.buffer, at, bytes.length).set(bytes);
      return doing(at, bytes.length);
    } finally {
      this.#call('free', at);
    }
  }

  // --- Transactions

  begin() { this.#do('begin'); }
  commit() { this.#do('commit'); }
  abort() { this.#do('abort'); }
  undo() { this.#do('undo'); }
  redo() { this.#do('redo'); }

  /** Edits that hold together: a refusal or an error among them rolls all of them back. They may be a promise. */
  transaction(edits) { return this.#between(edits, answer => { this.commit(); return answer; }); }
  /** Makes edits that are taken back, and answers the lines that they would give, by their numbers. */
  trial(edits) { return this.#tried(edits, () => this.preview()); }
  /** Makes edits that are taken back, and answers what of the lines would differ from those that were reported. */
  trialChanges(edits) { return this.#tried(edits, () => this.previewChanges()); }

  #tried(edits, answered) {
    return this.#between(edits, () => { try { return answered(); } finally { this.#giveUp(); } });
  }

  #between(edits, end) {
    const fail = error => { this.#giveUp(); throw error; };
    this.begin();
    let answer;
    try { answer = edits(this); } catch (error) { fail(error); }
    return typeof answer?.then === 'function' ? answer.then(end, fail) : end(answer);
  }

  /** Drops the transaction if one is open. */
  #giveUp() { try { this.abort(); } catch (error) { if (!(error instanceof Refused)) throw error; } }

  // --- Edits of the open transaction

  /** A box by its id, which has at most 18 digits, its centre and its size. */
  addBox(id, x, y, w, h) { this.#do('add_box', whole(id), milli(x), milli(y), milli(w), milli(h)); }
  move(id, x, y) { this.#do('move_box', whole(id), milli(x), milli(y)); }
  resize(id, w, h) { this.#do('size_box', whole(id), milli(w), milli(h)); }
  drop(id) { this.#do('drop_box', whole(id)); }
  /** A pin of a class from 1, at an offset from the box's centre, where lines may leave to these sides. */
  addPin(id, pinClass, dx, dy, sides = 'ESWN') {
    if (!/^[ESWN]*$/.test(sides)) throw new RangeError(`${sides} has other letters than E, S, W and N`);
    const directions = [...'ESWN'].reduce((bytes, side, at) => bytes | sides.includes(side) << 8 * at, 0);
    this.#do('add_pin', whole(id), count(pinClass), milli(dx), milli(dy), directions);
  }
  dropPin(id, place) { this.#do('drop_pin', whole(id), count(place)); }
  /** Connects two boxes, and answers the number of the connector. Class 0 is the box's centre. */
  connect(start, end, startClass = 0, endClass = 0) {
    this.#do('connect', whole(start), count(startClass), whole(end), count(endClass), this.#out + 16);
    return this.#word(this.#out + 16);
  }
  /** Moves the `start` or the `end` of a connector to another box, and answers its new number. The other end and the checkpoints
      stay; its label, its weight and other keys of the diagram do not. */
  reconnect(edge, end, id, pinClass = 0) {
    if (!['start', 'end'].includes(end)) throw new RangeError(`${end} is no end`);
    this.#do('reconnect', count(edge), end === 'end', whole(id), count(pinClass), this.#out + 16);
    return this.#word(this.#out + 16);
  }
  setClasses(edge, startClass, endClass) { this.#do('set_classes', count(edge), count(startClass), count(endClass)); }
  cut(edge) { this.#do('cut', count(edge)); }
  addCheckpoint(edge, place, x, y) { this.#do('add_checkpoint', count(edge), count(place), milli(x), milli(y)); }
  dropCheckpoint(edge, place) { this.#do('drop_checkpoint', count(edge), count(place)); }
  /** Sets `penalty`, `buffer` or `nudge`. */
  set(setting, value) {
    if (!['penalty', 'buffer', 'nudge'].includes(setting)) throw new RangeError(`${setting} is no setting`);
    this.#do(`set_${setting}`, milli(value));
  }

  // --- Labels: no transaction need be open, and no undo takes them back

  /** Gives a box that was added a label, which `gml` has; an empty one is none, and one with a `"` is refused. */
  labelBox(id, text) { this.#withBytes(text, (at, length) => this.#do('label_box', whole(id), at, length)); }
  /** The same for a connector. */
  labelConnector(edge, text) { this.#withBytes(text, (at, length) => this.#do('label_connector', count(edge), at, length)); }

  // --- Lines

  /** The corners of each connector that has a line, by its number: these lines are reported. */
  lines() { return this.#lines('lines'); }
  /** The lines that are others than the reported ones, without corners for a connector that has none any more, since it was cut or
      has no legal route. Then they are reported. */
  changes() { return this.#lines('lines', true); }
  /** The lines that a commit of the open transaction would give. They are not reported by that. */
  preview() { return this.#lines('preview'); }
  /** What of them differs from the reported ones. */
  previewChanges() { return this.#lines('preview', true); }

  /** The lines that a call gives; or those that changed, with the connectors that are gone. */
  #lines(name, isChanges = false) {
    this.#do(name, this.#out + 16);
    const lines = new Map(), said = this.#out + 32, all = this.#number();
    for (let place = 0; place < all; place++) {
      this.#call('line', said, this.#handle, place);
      const edge = this.#word(said), isChanged = this.#engine.view.getUint8(said + 16);
      if (isChanged || !isChanges) lines.set(edge, this.#points('corner', place));
    }
    const gone = isChanges ? this.#call('gone_count', this.#handle) : 0;
    for (let place = 0; place < gone; place++) lines.set(this.#call('gone', this.#handle, place) >>> 0, []);
    return new Map([...lines].sort(([a], [b]) => a - b));
  }

  /** What the connector's route costs, or null if it has none. */
  cost(edge) { return this.#call('cost', this.#handle, count(edge), this.#out + 16) ? this.#number() / 1000 : null; }
  /** How many searches were made. */
  get searched() { return Number(this.#call('searched', this.#handle)); }

  // --- Questions about the present scene, whether or not a transaction is open

  /** The paths that the routes share before nudging: the runs from `first` to `last` of `a`, counted from 1, and those from `bFirst`
      to `bLast` of `b`. `back` and `ahead` are its ends, seen along `a`: `left` or `right` where the routes part, for the hand on
      which `a` is, or `tie` where both stop. `side` is the hand on which `a` belongs all along, or null. */
  sharedPaths() {
    this.#do('shared', this.#out, 0, this.#out + 16);
    const room = this.#number(), paths = this.#engine.alloc(36 * room + 1);
    try {
      this.#do('shared', paths, room, this.#out + 16);
      return Array.from({ length: room }, (_, nth) => this.#shared(paths + 36 * nth));
    } finally {
      this.#call('free', paths);
    }
  }
  #shared(at) {
    const [a, b, first, last, bFirst, bLast, back, ahead, side] = Array.from({ length: 9 }, (_, nth) => this.#word(at + 4 * nth));
    return { a, b, first, last, bFirst, bLast, back: HANDS[back], ahead: HANDS[ahead], side: side ? HANDS[side] : null };
  }
  /** How often the lines cross. */
  crossings() {
    this.#do('crossings', this.#out + 16);
    return this.#number();
  }
  /** Judges a line of any origin as that of a connector: its first breach, `Slanted`, `StartOff`, `EndOff`, `Hits` or `MissesVia`, with
      the place of the segment or of the checkpoint, from 1, and the box that is hit, or else its cost. What does not apply is null. */
  check(edge, corners) {
    const at = this.#out + 32, numbers = corners.flatMap(([x, y]) => [milli(x), milli(y)]);
    this.#withBytes(BigInt64Array.from(numbers), points => this.#do('check', count(edge), points, corners.length, at));
    const breach = BREACHES[this.#word(at)];
    return { breach, place: this.#word(at + 4) || null, box: breach === 'Hits' ? this.#id(at + 8) : null,
      cost: breach ? null : this.#units(at + 16) };
  }

  // --- The scene: that of the open transaction if one is open, otherwise the present one

  /** The boxes by their centres and sizes, with their pins; lines may cross a group. */
  boxes() {
    return this.#all('box', (at, place) => ({ id: this.#id(at), x: this.#units(at + 8), y: this.#units(at + 16), w: this.#units(at + 24),
      h: this.#units(at + 32), isGroup: this.#engine.view.getUint8(at + 48) === 1, pins: this.#all('pin', pin => this.#pin(pin), place) }));
  }
  #pin(at) {
    const sides = [...'ESWN'].filter((side, nth) => this.#engine.view.getUint8(at + 24 + nth)).join('');
    return { pinClass: this.#word(at), dx: this.#units(at + 8), dy: this.#units(at + 16), sides };
  }
  /** The connectors in the order of their numbers, with their checkpoints. */
  connectors() {
    return this.#all('connector', (at, place) => ({ number: this.#word(at), start: this.#id(at + 8), end: this.#id(at + 24),
      startClass: this.#word(at + 16), endClass: this.#word(at + 32), checkpoints: this.#points('checkpoint', place) }));
  }
  settings() {
    const at = this.#out + 32;
    this.#call('settings', this.#handle, at);
    return { penalty: this.#units(at), buffer: this.#units(at + 8), nudge: this.#units(at + 16) };
  }
  /** All three. */
  scene() { return { boxes: this.boxes(), connectors: this.connectors(), settings: this.settings() }; }
  /** How many boxes and connectors it has. */
  get boxCount() { return this.#call('box_count', this.#handle); }
  get connectorCount() { return this.#call('connector_count', this.#handle); }
  /** The number that the next connector gets. */
  get next() { return this.#call('next', this.#handle) >>> 0; }

  // --- Texts

  /** The bytes of the diagram in GML, with the present scene, its lines and the labels put in. */
  gmlBytes() {
    for (let room = 262144; ;) {
      const at = this.#engine.alloc(room);
      try {
        this.#do('write_gml', at, room, this.#out + 16);
        const length = this.#number();
        if (length <= room) return new Uint8Array(this.#engine.memory.buffer, at, length).slice();
        room = length;
      } finally {
        this.#call('free', at);
      }
    }
  }
  /** The same as a string. */
  gml() { return textOf(this.gmlBytes()); }

  /** Plays the lines of a script, up to the first that is refused; `line` of the error is its number. */
  play(script) { this.#withBytes(script, (at, length) => this.#do('play', at, length, this.#out + 16)); }
}
