// The page's other back end: the names of reroute-worker.mjs that the page uses, over serve.py and the program reroute_live.
import { Refused, textOf } from './reroute.mjs';
import { decoded, idOf, listOf, listsOf, numberOf, pairsOf, wordOf } from './gml.mjs';

export { Refused };

const unit = value => {
  if (!Number.isFinite(value)) throw new RangeError(`${value} is no length`);
  return value.toFixed(3);
};

/** What the edits of a transaction are, as lines of a script. */
class Edits {
  lines = [];
  #next;
  constructor(next) { this.#next = next; }
  addBox(id, x, y, w, h) { this.lines.push(`node ${id} ${unit(x)} ${unit(y)} ${unit(w)} ${unit(h)}`); }
  move(id, x, y) { this.lines.push(`move ${id} ${unit(x)} ${unit(y)}`); }
  resize(id, w, h) { this.lines.push(`size ${id} ${unit(w)} ${unit(h)}`); }
  drop(id) { this.lines.push(`drop ${id}`); }
  addPin(id, pinClass, dx, dy, sides = 'ESWN') { this.lines.push(`pin ${id} ${pinClass} ${unit(dx)} ${unit(dy)} ${sides}`); }
  dropPin(id, place) { this.lines.push(`unpin ${id} ${place}`); }
  connect(start, end, startClass = 0, endClass = 0) {
    this.lines.push(`edge ${start} ${end} ${startClass} ${endClass}`);
    return this.#next++;
  }
  cut(edge) { this.lines.push(`cut ${edge}`); }
}

/** The replies to some lines: what they report, and the bytes of a diagram among them. */
function replies(bytes) {
  const said = { lines: new Map(), gml: null, next: null };
  const text = Array.from(bytes, byte => String.fromCharCode(byte)).join('');
  for (let at = 0; at < text.length;) {
    const end = text.indexOf('\n', at), line = text.slice(at, end), [first, ...words] = line.split(' ');
    at = end + 1;
    if (first === 'line') {
      const numbers = words.slice(1).map(Number);
      said.lines.set(Number(words[0]), numbers.flatMap((x, place) => (place % 2 ? [] : [[x, numbers[place + 1]]])));
    } else if (first === 'no') said.lines.set(Number(words[1]), []);
    else if (first === 'next') said.next = Number(words[0]);
    else if (first === 'gml') {
      said.gml = bytes.slice(at, at + Number(words[0]));
      at += Number(words[0]);
    } else if (first === 'refused') {
      const why = line.slice('refused '.length).replace(/^.*diagram: /, '');
      throw Refused.fromText(why) ?? new Error(why);
    }
  }
  return said;
}

export class Reroute {
  static async load() { return new Reroute(); }
}

function boxOf(node) {
  const at = listOf(node, 'graphics');
  return { id: idOf(node, 'id'), x: numberOf(at, 'x'), y: numberOf(at, 'y'), w: numberOf(at, 'w', 30), h: numberOf(at, 'h', 30),
    isGroup: numberOf(node, 'isGroup') === 1, pins: listsOf(node, 'pin').map(pin => ({ pinClass: numberOf(pin, 'class'),
      dx: numberOf(pin, 'x'), dy: numberOf(pin, 'y'), sides: decoded(wordOf(pin, 'dirs') ?? 'ESWN') })) };
}

function connectorOf(edge, number) {
  return { number, start: idOf(edge, 'source'), end: idOf(edge, 'target'), startClass: numberOf(edge, 'sourcePin'),
    endClass: numberOf(edge, 'targetPin'), checkpoints: listsOf(edge, 'via').map(via => [numberOf(via, 'x'), numberOf(via, 'y')]) };
}

/** Reads the scene from the diagram that the program writes. The number of a connector does not stand there, but follows from
    the commands, of which `did` is told in the words of a script. */
class SceneReader {
  #present; // the numbers of the connectors, as they follow each other in the diagram, and the next one
  #open = null;
  #past = [];
  #future = [];

  /** Of a diagram that was opened, whose next connector gets this number. */
  constructor(next) { this.#present = { numbers: Array.from({ length: next - 1 }, (_, at) => at + 1), next }; }

  did(command, number) {
    const { numbers, next } = this.#open ?? this.#present;
    if (command === 'begin') this.#open = this.#present;
    else if (command === 'edge') this.#open = { numbers: [...numbers, next], next: next + 1 };
    else if (command === 'cut') this.#open = { numbers: numbers.filter(one => one !== Number(number)), next };
    else if (command === 'commit') this.#commit();
    else if (command === 'undo') this.#step(this.#past, this.#future);
    else if (command === 'redo') this.#step(this.#future, this.#past);
    else if (command === 'abort' || command === 'refused') this.#open = null;
  }

  #commit() {
    this.#past = [...this.#past.slice(-99), this.#present]; // (the engine keeps a hundred)
    this.#future = [];
    this.#present = this.#open;
    this.#open = null;
  }

  #step(from, to) {
    to.push(this.#present);
    this.#present = from.pop();
  }

  /** The scene of the diagram: boxes, connectors and settings. */
  scene(gml) {
    const graph = listOf(pairsOf(gml), 'graph'), router = listOf(graph, 'router'), { numbers } = this.#present;
    return { boxes: listsOf(graph, 'node').map(boxOf),
      connectors: listsOf(graph, 'edge').map((edge, at) => connectorOf(edge, numbers[at])),
      settings: { penalty: numberOf(router, 'penalty', 50), buffer: numberOf(router, 'buffer', 4), nudge: numberOf(router, 'nudge', 4) } };
  }
}

/** A session of the program. */
export class Session {
  #key;
  #reader;
  #next;
  #changes = new Map(); // the lines that were reported and not yet asked for

  constructor(key) { this.#key = key; }
  static async fromGml(gml, { key }) {
    const session = new Session(key);
    session.#hear(await session.#say('/open', gml));
    await session.#count();
    session.#reader = new SceneReader(session.#next);
    return session;
  }
  async close() {}

  async #say(path, body) {
    const reply = await fetch(path, { method: 'POST', headers: { 'X-Key': this.#key }, body });
    const bytes = new Uint8Array(await reply.arrayBuffer());
    if (!reply.ok) throw new Error(new TextDecoder().decode(bytes).trim() || `the server answered ${reply.status}`);
    return replies(bytes);
  }

  #hear({ lines }) {
    for (const [edge, corners] of lines) this.#changes.set(edge, corners);
  }
  async #count() { this.#next = (await this.#say('/say', 'next')).next; }

  /** Sends lines, and tells the reader of them. */
  async #play(lines) {
    try {
      this.#hear(await this.#say('/say', lines.join('\n')));
    } catch (error) {
      this.#reader.did('refused');
      throw error;
    }
    for (const line of lines) this.#reader.did(...line.split(' '));
    await this.#count();
  }

  async transaction(edits) {
    const made = new Edits(this.#next), answer = await edits(made);
    await this.#play(['begin', ...made.lines, 'commit']);
    return answer;
  }
  async trialChanges(edits) {
    const made = new Edits(this.#next);
    await edits(made);
    return (await this.#say('/say', ['begin', ...made.lines, 'preview', 'abort'].join('\n'))).lines;
  }
  undo() { return this.#play(['undo']); }
  redo() { return this.#play(['redo']); }
  async changes() {
    const changes = this.#changes;
    this.#changes = new Map();
    return changes;
  }
  async scene() { return this.#reader.scene(textOf(await this.gmlBytes())); }
  async gmlBytes() { return (await this.#say('/say', 'gml')).gml; }
  get next() { return Promise.resolve(this.#next); }
}
