// Reroute from Node, over the program `reroute_live`: one file, without other packages.
//
//   import { Session } from 'reroute/live';
//
//   const session = await Session.open();
//   const edge = await session.transaction(async () => {
//     await session.addBox(1, 0, 0, 20, 20);
//     await session.addBox(2, 100, 0, 20, 20);
//     return session.connect(1, 2);
//   });
//   console.log(session.lines().get(edge)); // [ [ 0, 0 ], [ 100, 0 ] ]
//   await session.close();
//
// Boxes and connectors are changed in transactions; one that is asked for while another is open waits for it. Lengths are in
// units of the diagram, and are kept to thousandths.
import { AsyncLocalStorage } from 'node:async_hooks';
import { spawn } from 'node:child_process';
import { existsSync } from 'node:fs';
import { resolve } from 'node:path';
import { fileURLToPath } from 'node:url';
import { inspect } from 'node:util';

const BESIDE = fileURLToPath(new URL('./bin/reroute_live', import.meta.url));
const MOST_BYTES = 4096;
const MOST_SAID = 2000; // of standard error
const SETTINGS = ['penalty', 'buffer', 'nudge'];
// Beyond it the thousandths of a number are no longer exact; the engine has nearer limits, and names them.
const FARTHEST = 2 ** 53 / 1000;

/** A command that was refused. Nothing is changed by it, but that no transaction is open any more, except after a label or a `check`. */
export class Refused extends Error {
  constructor(why) {
    super(why);
    this.name = 'Refused';
    const [code, reason = code, value] = why.split(' ');
    /** As `reroute.h` numbers them: 4 for X4, and 99 where no memory is left. */
    this.code = code === 'NoMemory' ? 99 : Number(code.slice(1));
    this.reason = reason;
    this.value = value === undefined ? null : number(value);
  }
}

/** The program could not be started, or has ended. */
export class Ended extends Error {
  constructor(why) {
    super(why);
    this.name = 'Ended';
  }
}

const number = text => (Number.isSafeInteger(Number(text)) ? Number(text) : BigInt(text));

// ---- the words of a command ----

function unit(value) {
  if (typeof value !== 'number') throw new TypeError(`${inspect(value)} is no number`);
  if (!(Math.abs(value) <= FARTHEST)) throw new RangeError(`${value} is no length`);
  return value.toFixed(3);
}

function whole(value, bits) {
  if (typeof value !== 'bigint' && !Number.isSafeInteger(value)) throw new TypeError(`${inspect(value)} is no whole number`);
  const fits = bits === 64 ? BigInt.asIntN(64, BigInt(value)) : BigInt.asUintN(32, BigInt(value));
  if (fits !== BigInt(value)) throw new RangeError(`${value} does not fit ${bits} bits`);
  return String(value);
}

const id = value => whole(value, 64);
const count = value => whole(value, 32);

function letters(sides) {
  if (!/^[ESWN]+$/.test(sides)) throw new TypeError(`sides are letters of ESWN, and not ${inspect(sides)}`);
  return sides;
}

/** The word of the program for an end of a connector. */
function endWord(end) {
  if (end !== 'start' && end !== 'end') throw new TypeError(`${inspect(end)} is neither start nor end`);
  return end === 'start' ? 'source' : 'target';
}

function known(setting) {
  if (!SETTINGS.includes(setting)) throw new TypeError(`${inspect(setting)} is none of ${SETTINGS.join(', ')}`);
  return setting;
}

// ---- lines ----

/** Applies what is reported to have changed to these lines. */
function apply(reported, lines) {
  for (const words of reported.map(line => line.split(' '))) {
    if (words[0] === 'no') lines.delete(Number(words[2]));
    else {
      const numbers = words.slice(2).map(Number);
      const corners = numbers.flatMap((x, at) => (at % 2 ? [] : [Object.freeze([x, numbers[at + 1]])]));
      lines.set(Number(words[1]), Object.freeze(corners)); // (they are handed out, and compared later)
    }
  }
  return lines;
}

/** The scene of the lines of a reply. */
function sceneOf(reply) {
  const found = { boxes: [], connectors: [], settings: null };
  for (const [word, ...rest] of reply.map(line => line.split(' '))) {
    const numbers = rest.map(Number);
    if (word === 'settings') {
      found.settings = { penalty: numbers[0], buffer: numbers[1], nudge: numbers[2] };
    } else if (word === 'box') {
      const [, x, y, w, h] = numbers;
      found.boxes.push({ id: number(rest[0]), x, y, w, h, isGroup: rest[5] === 'group', pins: [] });
    } else if (word === 'pin') {
      found.boxes.at(-1).pins.push({ pinClass: numbers[0], dx: numbers[1], dy: numbers[2], sides: rest[3] });
    } else if (word === 'connector') {
      found.connectors.push({ number: numbers[0], start: number(rest[1]), end: number(rest[2]), startClass: numbers[3],
        endClass: numbers[4], checkpoints: [], cost: rest[5] === 'cost' ? numbers[6] : null });
    } else if (word === 'checkpoint') {
      found.connectors.at(-1).checkpoints.push(numbers);
    }
  }
  return found;
}

/** The path of a line as `shared 1 2 runs 1-3: back tie, ahead left, side left`. */
function sharedPath(line) {
  const [, a, b, , runs, , back, , ahead, , side] = line.replace(/[:,]/g, '').split(' ');
  const [first, last] = runs.split('-').map(Number);
  return { a: Number(a), b: Number(b), first, last, back, ahead, side: side === 'none' ? null : side };
}

/** The verdict of a line as `edge 1: cost 248.000`, `edge 1: EndOff` or `edge 1: Hits 1 node 3`. */
function verdict(line) {
  const [, , breach, place, , box] = line.split(' ');
  if (breach === 'cost') return { breach: null, place: null, box: null, cost: Number(place) };
  return { breach, place: place ? Number(place) : null, box: box ? number(box) : null, cost: null };
}

/** The lines that are other ones now; a connector whose line is gone has no corners. */
function differences(old, now) {
  const found = [...now].filter(([edge, corners]) => String(old.get(edge)) !== String(corners));
  const gone = [...old.keys()].filter(edge => !now.has(edge)).map(edge => [edge, []]);
  return [...found, ...gone].sort(([a], [b]) => a - b);
}

/** What changed, by the numbers of the connectors; in `for await` also each later change, as it comes. */
class Changes extends Map {
  #next;
  constructor(found, next) {
    super(found);
    this.#next = next;
  }
  async *[Symbol.asyncIterator]() {
    if (this.size) yield new Map(this);
    for (let changes = await this.#next(); changes; changes = await this.#next()) yield changes;
  }
}

/** A scene with its lines, beside a running `reroute_live`. */
export class Session {
  #program;
  #process;
  #lines = new Map(); // as the program told them
  #told = new Map(); // as `lines` and `changes` told them
  #watching = new Set(); // calls that wait for a change
  #waiting = []; // the replies that are still to come, the first one first
  #rest = Buffer.alloc(0);
  #missing = 0; // how many bytes of a diagram are still to come
  #fault = null; // why there are no more replies
  #said = ''; // on standard error
  #ended;
  #last = Promise.resolve(); // the end of the transaction that was asked for last
  #within = new AsyncLocalStorage(); // the transaction that the code is in
  #next = 0;

  /** Starts the program, the one of this package or of the path if none is named; on the diagram of a file if one is named. */
  static async open(program = existsSync(BESIDE) ? BESIDE : 'reroute_live', { diagram = null, workers = 1 } = {}) {
    if (![1, 2, 3, 4].includes(workers)) throw new RangeError(`there are 1 to 4 workers, and not ${inspect(workers)}`);
    const session = new Session(program, ['--workers', String(workers), ...(diagram === null ? [] : [resolve(diagram)])]);
    await session.#refresh();
    return session;
  }

  /** Use `Session.open`. */
  constructor(program, words) {
    this.#program = program;
    this.#process = spawn(program, words, { stdio: ['pipe', 'pipe', 'pipe'] });
    this.#process.stdout.on('data', bytes => this.#hearBytes(bytes));
    this.#process.stderr.on('data', bytes => { this.#said = (this.#said + bytes).slice(-MOST_SAID); });
    this.#process.stdin.on('error', () => {}); // (the end of the program says why)
    this.#ended = new Promise(done => {
      this.#process.on('error', error => {
        this.#fail(`${program} cannot be started: ${error.message}`);
        done(null);
      });
      this.#process.on('close', (status, signal) => {
        const how = signal ? `signal ${signal}` : `status ${status}`;
        this.#fail(`${program} ended with ${how}${this.#said.trim() ? `: ${this.#said.trim()}` : ''}`);
        done(status);
      });
    });
  }

  // ---- the lines of text ----

  #fail(why) {
    this.#fault ??= new Ended(why);
    this.#waiting.splice(0).forEach(reply => reply.fail(this.#fault));
    this.#wake();
  }

  #hearBytes(bytes) {
    this.#rest = Buffer.concat([this.#rest, bytes]);
    for (let line = this.#nextLine(); line !== null && !this.#fault; line = this.#nextLine()) {
      const reply = this.#waiting[0];
      if (!reply) {
        this.#fail(`${this.#program} said without being asked: ${line}`);
        this.#process.kill();
      } else if (typeof line !== 'string') reply.lines.push(line);
      else if (line.startsWith('gml ')) this.#missing = Number(line.slice(4));
      else if (line.startsWith('refused ')) this.#waiting.shift().fail(new Refused(line.slice('refused '.length)));
      else if (line.startsWith('ok')) this.#waiting.shift().done(line === 'ok untold');
      else reply.lines.push(line);
    }
  }

  /** The next line that has come, the bytes of a diagram, or null. */
  #nextLine() {
    const end = this.#missing || this.#rest.indexOf(10);
    if (end < 0 || end > this.#rest.length) return null;
    const bytes = this.#rest.subarray(0, end);
    this.#rest = this.#rest.subarray(this.#missing ? end : end + 1);
    if (!this.#missing) return bytes.toString();
    this.#missing = 0;
    return bytes;
  }

  /** Sends one line, and answers the lines of the reply before its last one. It does not wait for a transaction. */
  async say(command) {
    if (typeof command !== 'string' || /[\r\n]/.test(command) || Buffer.byteLength(command) > MOST_BYTES) {
      throw new TypeError(`a command is one line of at most ${MOST_BYTES} bytes`);
    }
    if (this.#fault) throw this.#fault;
    const lines = [];
    const isUntold = await new Promise((done, fail) => {
      this.#waiting.push({ lines, done, fail });
      this.#process.stdin.write(`${command}\n`);
    });
    if (isUntold) await this.#refresh();
    return lines;
  }

  async #refresh() {
    this.#lines = apply(await this.say('lines'), new Map());
    this.#wake();
  }

  /** Ends the program, and answers its exit status, or null if it had none. */
  async close() {
    this.#process.stdin.end();
    const status = await this.#ended;
    this.#fault = new Ended('the session is closed');
    return status;
  }

  async [Symbol.asyncDispose ?? Symbol.for('nodejs.asyncDispose')]() { await this.close(); }

  // ---- transactions ----

  /** Does one thing after another, where they would meddle with each other's transaction. */
  #alone(doing) {
    if (this.#within.getStore()?.isOpen) return Promise.reject(new Error('a transaction within a transaction'));
    const turn = this.#last.then(doing);
    this.#last = turn.catch(() => {});
    return turn;
  }

  /** Makes edits in a transaction, and then what ends it. An error drops the transaction. */
  #edits(edits, end) {
    return this.#alone(async () => {
      const open = { isOpen: true, pending: [] };
      try {
        await this.say('begin');
        this.#next = Number((await this.say('next'))[0].split(' ')[1]);
        const answer = await this.#within.run(open, () => edits(this));
        await Promise.all(open.pending);
        return await end(answer);
      } catch (error) {
        await Promise.allSettled(open.pending);
        await this.#drop();
        throw error;
      } finally {
        open.isOpen = false;
      }
    });
  }

  /** Edits that hold together: a refusal or an error among them drops all of them. Answers what `edits` answers. */
  transaction(edits) {
    return this.#edits(edits, async answer => {
      this.#hear(await this.say('commit'));
      return answer;
    });
  }

  /** Makes edits that are dropped again, and answers the lines that they would give. */
  trial(edits) {
    return this.#edits(edits, async () => {
      const lines = await this.#previewed();
      await this.#drop();
      return lines;
    });
  }

  /** The same, and answers what `changes` would tell after a commit of them. What was told last stays. */
  async trialChanges(edits) { return new Map(differences(this.#told, await this.trial(edits))); }

  async #drop() {
    await this.say('abort').catch(error => {
      if (!(error instanceof Refused || error instanceof Ended)) throw error;
    });
  }

  undo() { return this.#alone(async () => this.#hear(await this.say('undo'))); }
  redo() { return this.#alone(async () => this.#hear(await this.say('redo'))); }

  // ---- edits of the open transaction ----

  /** Sends an edit, and answers a word of its own. The transaction waits for it, so that it need not be awaited. */
  #edit(command, answer = () => undefined) {
    const open = this.#within.getStore();
    const done = (async () => {
      if (!open?.isOpen) throw new Error('an edit outside of a transaction');
      const sent = this.say(command());
      const word = answer();
      await sent;
      return word;
    })();
    done.catch(() => {});
    open?.pending.push(done);
    return done;
  }

  /** A box by its centre and its size; its id is yours, and has at most 18 digits. */
  addBox(box, x, y, w, h) { return this.#edit(() => `node ${id(box)} ${unit(x)} ${unit(y)} ${unit(w)} ${unit(h)}`); }
  move(box, x, y) { return this.#edit(() => `move ${id(box)} ${unit(x)} ${unit(y)}`); }
  resize(box, w, h) { return this.#edit(() => `size ${id(box)} ${unit(w)} ${unit(h)}`); }
  drop(box) { return this.#edit(() => `drop ${id(box)}`); }
  /** A pin, from the centre of its box, which lines may leave to these sides. */
  addPin(box, pinClass, dx, dy, sides = 'ESWN') {
    return this.#edit(() => `pin ${id(box)} ${count(pinClass)} ${unit(dx)} ${unit(dy)} ${letters(sides)}`);
  }
  dropPin(box, place) { return this.#edit(() => `unpin ${id(box)} ${count(place)}`); }
  /** Connects two boxes, and answers the number of the connector. Class 0 is the centre of a box. */
  connect(start, end, startClass = 0, endClass = 0) {
    return this.#edit(() => `edge ${id(start)} ${id(end)} ${count(startClass)} ${count(endClass)}`, () => this.#next++);
  }
  /** Moves the `start` or the `end` of a connector to another box, and answers its new number. The other end and the checkpoints
      stay; its label, its weight and other keys of the diagram do not. */
  reconnect(edge, end, box, pinClass = 0) {
    return this.#edit(() => `reconnect ${count(edge)} ${endWord(end)} ${id(box)} ${count(pinClass)}`, () => this.#next++);
  }
  setClasses(edge, startClass, endClass) {
    return this.#edit(() => `classes ${count(edge)} ${count(startClass)} ${count(endClass)}`);
  }
  cut(edge) { return this.#edit(() => `cut ${count(edge)}`); }
  /** A point that the line has to pass, before the checkpoint that has this place now, from 1. */
  addCheckpoint(edge, place, x, y) { return this.#edit(() => `via ${count(edge)} ${count(place)} ${unit(x)} ${unit(y)}`); }
  dropCheckpoint(edge, place) { return this.#edit(() => `unvia ${count(edge)} ${count(place)}`); }
  /** Sets `penalty`, `buffer` or `nudge`. */
  set(setting, value) { return this.#edit(() => `set ${known(setting)} ${unit(value)}`); }

  // ---- labels: no undo takes them back ----

  #label(command) {
    return this.#within.getStore()?.isOpen ? this.#edit(command) : this.#alone(async () => { await this.say(command()); });
  }

  /** Gives a box that was added a label, which `gml` has; an empty one is none, and one with a `"` is refused. */
  labelBox(box, text) { return this.#label(() => `label box ${id(box)} ${text}`); }
  /** The same for a connector. */
  labelConnector(edge, text) { return this.#label(() => `label connector ${count(edge)} ${text}`); }

  // ---- lines ----

  /** The corners of each connector that has a line, by its number. */
  lines() {
    this.#told = new Map(this.#lines);
    return new Map(this.#lines);
  }

  /**
   * The lines that differ from those that `lines` or `changes` told last. A connector whose line is gone, since it was cut or
   * has no legal route any more, has no corners. `for await (const changes of session.changes())` goes on with each later
   * change, each told once to each such loop, until the session ends.
   */
  changes() {
    const found = differences(this.#told, this.#lines);
    this.#told = new Map(this.#lines);
    let seen = this.#told;
    return new Changes(found, async () => {
      for (;;) {
        const changed = differences(seen, this.#lines);
        seen = new Map(this.#lines);
        if (changed.length) return new Map(changed);
        if (this.#fault) return null;
        await new Promise(done => this.#watching.add(done));
      }
    });
  }

  /** The lines that a commit of the open transaction would give. Nothing changes. */
  async preview() {
    if (!this.#within.getStore()?.isOpen) throw new Error('a preview outside of a transaction');
    return this.#previewed();
  }

  /** What `changes` would tell after that commit. What was told last stays. */
  async previewChanges() { return new Map(differences(this.#told, await this.preview())); }

  async #previewed() { return apply(await this.say('preview'), new Map(this.#lines)); }

  #hear(reported) {
    apply(reported, this.#lines);
    this.#wake();
  }

  #wake() {
    const woken = [...this.#watching];
    this.#watching.clear();
    woken.forEach(done => done());
  }

  // ---- the scene ----

  /** The scene of the open transaction, if one is open, otherwise the present one. A cost is that in the present scene. */
  async scene() { return sceneOf(await this.say('scene')); }

  // ---- questions about the present scene, whether or not a transaction is open ----

  /** The paths that the routes share, before nudging; `first` and `last` are runs of `a`, counted from 1. */
  async sharedPaths() { return (await this.say('shared')).map(sharedPath); }
  /** How often the lines cross. */
  async crossings() { return Number((await this.say('crossings'))[0].split(' ')[1]); }
  /** Judges a line of any origin as that of a connector. */
  async check(edge, corners) {
    const words = corners.flatMap(([x, y]) => [unit(x), unit(y)]);
    return verdict((await this.say(['check', count(edge), ...words].join(' ')))[0]);
  }

  // ---- texts ----

  /** The diagram in GML, with the present scene and its lines put in. */
  async gmlBytes() { return (await this.say('gml'))[0]; }
  async gml() { return (await this.gmlBytes()).toString(); }
}
