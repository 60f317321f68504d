// Reroute in a thread of its own, in a page and in Node: the names of reroute.mjs, each as a promise, so that a page never waits.
//
//   import { Reroute, Session } from './reroute-worker.mjs';
//
//   await Reroute.load();
//   const session = await Session.open();
//   const edge = await session.transaction(s => {
//     s.addBox(1, 0, 0, 20, 20);
//     s.addBox(2, 100, 0, 20, 20);
//     return s.connect(1, 2);
//   });
//   console.log((await session.lines()).get(edge)); // [ [ 0, 0 ], [ 100, 0 ] ]
//   await session.close();
//
// Transactions wait for each other. What one hands to its function makes the edits, and the edits of others can not come
// between them. Lines are copied, so those that stay are not the same arrays: ask `changes` and `previewChanges`.
import * as direct from './reroute.mjs';

const { Refused } = direct;
export { Refused };
const NAME = 'reroute'; // of the thread
const threads = globalThis.process?.getBuiltinModule?.('node:worker_threads');
const hear = (port, doing) => (port.on ? port.on('message', doing) : (port.onmessage = event => doing(event.data)));

// --- In the thread

/** What an error is, as a message. */
function packed(error) {
  if (error instanceof Refused) return { refused: [error.code, error.value, error.line] };
  return { kind: error instanceof RangeError ? 'RangeError' : 'Error', message: error.message };
}

function unpacked({ refused, kind, message }) {
  return refused ? new Refused(...refused) : kind === 'RangeError' ? new RangeError(message) : new Error(message);
}

/** Does what the messages of the port ask for. */
function serve(port) {
  const sessions = new Map();
  let engine = null;
  const own = {
    load: async (key, source, options) => (engine = await direct.Reroute.load(source, options)).version,
    open: (key, gml) => { sessions.set(key, new direct.Session({ gml, engine })); },
    close: key => { sessions.get(key)?.close(); sessions.delete(key); },
  };
  const does = (key, name, words) => {
    if (own[name]) return own[name](key, ...words);
    const session = sessions.get(key);
    if (!session) throw new Refused(98);
    return typeof session[name] === 'function' ? session[name](...words) : session[name];
  };
  hear(port, async ({ call, key, name, words }) => {
    try {
      const value = does(key, name, words);
      port.postMessage({ call, value: name === 'load' ? await value : value });
    } catch (error) {
      port.postMessage({ call, fault: packed(error) });
    }
  });
}

if (threads ? threads.workerData === NAME : globalThis.name === NAME && !globalThis.document) serve(threads?.parentPort ?? globalThis);

// --- In the page

/** A thread that runs this file. */
function started() {
  const address = new URL('reroute-worker.mjs', import.meta.url);
  return threads ? new threads.Worker(address, { workerData: NAME, execArgv: [] }) : new Worker(address, { type: 'module', name: NAME });
}

let loaded = null;

/** The engine in its thread. */
export class Reroute {
  #thread;
  #waiting = new Map(); // by the number of a call: what its answer settles
  #calls = 0;
  #fault = null;

  /** As that of reroute.mjs; `thread` is a worker that runs this file under the name `reroute`, if you start it yourself. */
  static async load(source, { thread = started(), ...options } = {}) {
    const engine = new Reroute(thread);
    // (the module is compiled here while the thread starts)
    engine.version = await engine.ask(0, 'load', [await direct.Reroute.compiled(source), options]);
    return loaded = engine;
  }

  constructor(thread) {
    const fail = error => this.#stop(new Error(`the engine's thread ended: ${error?.message ?? error}`));
    this.#thread = thread;
    hear(thread, answer => this.#settle(answer));
    if (thread.on) thread.on('error', fail).on('exit', fail);
    else thread.onerror = fail;
    thread.unref?.();
  }

  /** Asks the thread; the answers come in the order of the calls. */
  ask(key, name, words) {
    return new Promise((done, fail) => {
      if (this.#fault) { fail(this.#fault); return; }
      const call = ++this.#calls;
      this.#waiting.set(call, { done, fail });
      this.#thread.ref?.();
      this.#thread.postMessage({ call, key, name, words });
    });
  }

  #settle({ call, value, fault }) {
    const { done, fail } = this.#waiting.get(call);
    this.#waiting.delete(call);
    if (!this.#waiting.size) this.#thread.unref?.();
    if (fault) fail(unpacked(fault));
    else done(value);
  }

  #stop(error) {
    this.#fault ??= error;
    for (const { fail } of this.#waiting.values()) fail(this.#fault);
    this.#waiting.clear();
  }

  /** Ends the thread, with all its sessions. */
  async close() {
    this.#stop(new Error('the engine was closed'));
    await this.#thread.terminate();
  }
}

const EDITS = ['addBox', 'move', 'resize', 'drop', 'addPin', 'dropPin', 'connect', 'reconnect', 'setClasses', 'cut', 'addCheckpoint',
  'dropCheckpoint', 'set', 'labelBox', 'labelConnector', 'preview', 'previewChanges'];
const READS = ['lines', 'changes', 'cost', 'sharedPaths', 'crossings', 'check', 'scene', 'boxes', 'connectors', 'settings', 'gml', 'gmlBytes'];
const NUMBERS = ['next', 'searched', 'boxCount', 'connectorCount'];
const STEPS = ['begin', 'commit', 'abort', 'undo', 'redo', 'play'];

/** Gives a class these calls, over its `say`. */
function give(prototype, calls, doing) {
  for (const name of calls) Object.defineProperty(prototype, name, { value(...words) { return doing(this, name, words); } });
}
function giveReads(prototype) {
  give(prototype, READS, (it, name, words) => it.say(name, words));
  for (const name of NUMBERS) Object.defineProperty(prototype, name, { get() { return this.say(name, []); } });
}

/** What a transaction hands to its function: its edits, which may be awaited or not, and what can be read. */
class Edits {
  #say;
  #made = [];
  constructor(say) { this.#say = say; }
  say(name, words) {
    const answer = this.#say(name, words);
    answer.catch(() => {}); // (`made` says it)
    this.#made.push(answer);
    return answer;
  }
  /** When all edits are made; fails with the first that is refused. */
  made() { return Promise.all(this.#made); }
  static {
    give(this.prototype, EDITS, (it, name, words) => it.say(name, words));
    giveReads(this.prototype);
  }
}

/** A scene of boxes, pins and connectors, with the lines of the connectors. */
export class Session {
  static #last = 0;
  #engine;
  #key = ++Session.#last;
  #turn = Promise.resolve();
  #taken = 0; // how many transactions and trials were begun and are not over

  constructor(engine) { this.#engine = engine; }
  static async open({ gml = null, engine = loaded } = {}) {
    if (!engine) throw new Error('await Reroute.load() first');
    const session = new Session(engine);
    await session.say('open', [gml]);
    return session;
  }
  static fromGml(gml, options = {}) { return Session.open({ ...options, gml }); }
  close() { return this.say('close', []); }

  say(name, words) { return this.#engine.ask(this.#key, name, words); }

  /** Does something when what was begun before it is over. */
  #next(doing) {
    const mine = this.#turn.then(doing);
    this.#turn = mine.catch(() => {});
    return mine;
  }

  transaction(edits) {
    return this.#between(edits, async answer => { await this.say('commit', []); return answer; });
  }
  trial(edits) { return this.#tried(edits, 'preview'); }
  trialChanges(edits) { return this.#tried(edits, 'previewChanges'); }

  #tried(edits, name) {
    return this.#between(edits, async () => {
      const lines = this.say(name, []);
      await Promise.allSettled([lines, this.say('abort', [])]);
      return lines;
    });
  }

  #between(edits, end) {
    this.#taken += 1;
    return this.#next(async () => {
      try {
        const begun = this.say('begin', []), made = new Edits((name, words) => this.say(name, words));
        begun.catch(() => {});
        try {
          const answer = await edits(made);
          await Promise.all([begun, made.made()]);
          return await end(answer);
        } catch (error) {
          await this.say('abort', []).catch(() => {});
          throw error;
        }
      } finally {
        this.#taken -= 1;
      }
    });
  }

  #edit(name, words) {
    return this.#taken ? Promise.reject(new Error(`${name}: a transaction is under way; use what it hands to its function`))
      : this.say(name, words);
  }

  static {
    give(this.prototype, EDITS, (it, name, words) => it.#edit(name, words));
    give(this.prototype, STEPS, (it, name, words) => it.#next(() => it.say(name, words)));
    giveReads(this.prototype);
  }
}
