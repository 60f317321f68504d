// Part of tools/build-wasm: wasm_test.mjs FOLDER CASES
//
// Plays each case twice over the module in FOLDER, its lines by `play` and by the calls that they name, and compares all that the
// program prints. Then it tries the calls and the errors of the class, its thread, and what is left where memory is refused.
import assert from 'node:assert';
import fs from 'node:fs';
import { pathToFileURL } from 'node:url';

const [, , folder, cases] = process.argv;
const of = name => import(pathToFileURL(`${fs.realpathSync(folder)}/${name}`));
const { Reroute, Session, Refused } = await of('reroute.mjs');
const module = await WebAssembly.compile(fs.readFileSync(`${folder}/reroute.wasm`));
const MiB = 2 ** 20;
let failed = 0;

/** Says whether a part is right. */
async function part(name, doing) {
  try {
    console.log(`ok: ${name}${await doing() ?? ''}`);
  } catch (error) {
    failed += 1;
    console.log(`FAILED: ${name}: ${error.stack}`);
  }
}

// --- The scripts

const CALLS = { begin: s => s.begin(), commit: s => s.commit(), abort: s => s.abort(), undo: s => s.undo(), redo: s => s.redo(),
  node: (s, id, ...n) => s.addBox(id, ...n), move: (s, id, ...n) => s.move(id, ...n), size: (s, id, ...n) => s.resize(id, ...n),
  drop: (s, id) => s.drop(id), pin: (s, id, c, ...n) => s.addPin(id, +c, ...n), unpin: (s, id, at) => s.dropPin(id, +at),
  edge: (s, a, b, c, d) => s.connect(a, b, +c, +d), cut: (s, e) => s.cut(+e), classes: (s, e, c, d) => s.setClasses(+e, +c, +d),
  via: (s, e, at, ...n) => s.addCheckpoint(+e, +at, ...n), unvia: (s, e, at) => s.dropCheckpoint(+e, +at),
  set: (s, what, value) => s.set(what, value) };

/** The lines in a diagram, in the order of its edges. */
function linesIn(gml) {
  const edges = [...gml.matchAll(/^  edge \[\n([^]*?)\n  \]/gm)].map(([, body]) => body.replace(/^    via \[[^]*?^    \]/gm, ''));
  return edges.map(body => [...body.matchAll(/x (\S+)\s+y (\S+)/g)].map(([, x, y]) => [+x, +y]));
}

/** Puts changes into the lines that a user keeps. */
function kept(lines, changes) {
  for (const [edge, corners] of changes) if (corners.length) lines.set(edge, corners); else lines.delete(edge);
  return lines;
}

/** Plays a script line by line, keeps the lines by `changes` alone, and answers what the program would print before the diagram. */
function played(session, script, lines, byCalls) {
  const said = [];
  let isOpen = false;
  script.forEach((line, at) => {
    const [command, ...words] = line.trim().split(/\s+/);
    try {
      if (!byCalls) session.play(`${line}\n`);
      else if (CALLS[command]) CALLS[command](session, ...words);
      isOpen = command === 'begin' || (isOpen && command !== 'commit' && command !== 'abort');
      if (isOpen) session.previewChanges();
      else kept(lines, session.changes());
    } catch (error) {
      if (!(error instanceof Refused)) throw error;
      isOpen = false;
      said.push(`# line ${at + 1}: ${error.message.replace('line 1: ', '')}\n`);
    }
  });
  if (isOpen) {
    said.push('# end: X16 Unfinished\n');
    session.abort(); // (what is read after it is the present scene)
  }
  return said;
}

/** Plays a case; what it prints is as wanted, and the class says the same of lines, boxes and connectors as the diagram. */
function replay(gml, script, wanted, byCalls) {
  const session = Session.fromGml(gml), lines = kept(new Map(), session.changes());
  const said = played(session, script, lines, byCalls), text = session.gml(), inText = linesIn(text);
  kept(lines, session.changes());
  assert.deepStrictEqual([...lines].sort(), [...session.lines()].sort(), 'what changes() tells is what lines() has');
  session.connectors().forEach(({ number, start, end }, at) => {
    const cost = session.cost(number);
    said.push(`# edge ${number}: ${start === end ? 'loop' : cost === null ? 'no route' : `cost ${cost.toFixed(3)}`}\n`);
    if (start !== end) assert.deepStrictEqual(lines.get(number) ?? [], inText[at], `the line of connector ${number}`);
  });
  assert.strictEqual(said.join('') + text, wanted);
  assert.strictEqual(session.boxes().length, session.boxCount);
  session.close();
}

await Reroute.load(module);
for (const [byCalls, name] of [[false, 'by their lines'], [true, 'by the calls']]) {
  await part(`scripts ${name}, byte for byte as the program`, () => {
    const names = fs.readdirSync(cases);
    assert.ok(names.length, 'there are no cases');
    for (const one of names) {
      const [gml, script, wanted] = ['d.gml', 's.txt', 'out'].map(file => fs.readFileSync(`${cases}/${one}/${file}`, 'utf8'));
      try {
        replay(gml, script.replace(/\n$/, '').split('\n'), wanted, byCalls);
      } catch (error) {
        error.stack = `${one}: ${error.stack}`;
        throw error;
      }
    }
    return `: ${names.length}`;
  });
}

// --- The class

const refused = (doing, code, message) => assert.throws(doing, error => {
  assert.ok(error instanceof Refused, String(error));
  return error.code === code && (!message || error.message === message);
});
function pair() {
  const session = new Session();
  session.transaction(s => { s.addBox(1, 0, 0, 20, 20); s.addBox(2, 100, 0, 20, 20); return s.connect(1, 2); });
  return session;
}

await part('numbers that do not fit are refused before the engine is called', () => {
  const s = pair(), before = s.gml();
  for (const edits of [t => t.addBox(1.5, 0, 0, 1, 1), t => t.addBox('x', 0, 0, 1, 1), t => t.addBox(3, NaN, 0, 1, 1), t => t.addBox(3, 1e300, 0, 1, 1),
    t => t.move(1, Infinity, 0), t => t.move(2 ** 64, 0, 0), t => t.move(1, 2 ** 64 / 1000, 0), t => t.addBox(2n ** 63n, 0, 0, 1, 1),
    t => t.connect(1, 2, -1), t => t.cut(1.5), t => t.set('colour', 1), t => t.addPin(1, 1, 0, 0, 'EX')]) {
    assert.throws(() => s.transaction(edits), RangeError);
    assert.strictEqual(s.gml(), before);
  }
  s.close();
});

await part('refusals have the code, the name, the value and the words of the program, and nothing is open after them', () => {
  const s = pair();
  refused(() => s.addBox(3, 0, 0, 1, 1), 2, 'X2 NoTransaction');
  refused(() => s.transaction(t => t.addBox(3, 1e12, 0, 1, 1)), 9);
  refused(() => s.transaction(t => t.addBox(10n ** 18n, 0, 0, 1, 1)), 9, 'X9 OutOfRange 2');
  s.transaction(t => { t.addBox(10n ** 18n - 1n, 0, 300, 1, 1); t.drop(10n ** 18n - 1n); });
  refused(() => s.transaction(t => t.addPin(1, 1, 0, 0, '')), 1, 'X1 Syntax');
  refused(() => s.transaction(t => t.drop(999999999999999999n)), 4, 'X4 UnknownNode 999999999999999999');
  refused(() => s.transaction(t => { t.move(1, 5, 5); t.cut(7); }), 5, 'X5 UnknownEdge 7');
  refused(() => s.commit(), 2);
  refused(() => s.redo(), 15, 'X15 NothingToRedo');
  refused(() => s.play('begin\nbox\n'), 1, 'line 2: X1 Syntax');
  refused(() => Session.fromGml('node [ ]'), 103, 'NoGraph');
  refused(() => Session.fromGml('graph [ node [ id 1 ] ]'), 106, 'NoPlace node 1');
  assert.strictEqual(Refused.fromText('line 3: X4 UnknownNode -5').message, 'line 3: X4 UnknownNode -5');
  s.close();
  s.close();
  refused(() => s.lines(), 98, 'NoSession');
});

await part('a drag: previews and a cancel move nothing, and the commit reports what differs', () => {
  const s = pair(), screen = kept(new Map(), s.changes()), first = s.lines().get(1);
  s.transaction(t => t.addBox(3, 50, 200, 20, 40));
  assert.deepStrictEqual(s.changes(), new Map());
  for (let place = 0; place < 50; place++) s.trialChanges(t => t.move(3, 50, 200 - 4 * place));
  assert.deepStrictEqual(s.trialChanges(t => t.cut(1)), new Map([[1, []]]));
  assert.deepStrictEqual(s.changes(), new Map());
  assert.deepStrictEqual(s.lines().get(1), first);
  for (let place = 0; place < 50; place++) s.trial(t => t.move(3, 50, 200 - 4 * place));
  s.transaction(t => t.move(3, 50, 0));
  kept(screen, s.changes());
  assert.deepStrictEqual(screen.get(1), [[0, 0], [0, -24], [100, -24], [100, 0]]);
  s.transaction(t => t.move(3, 100, 0));
  assert.deepStrictEqual(s.changes(), new Map([[1, []]]));
  assert.strictEqual(s.cost(1), null);
  s.undo();
  s.undo();
  assert.deepStrictEqual(kept(screen, s.changes()).get(1), first);
  s.close();
});

await part('the scene is read, and a connector moves to another box', () => {
  const s = Session.fromGml('graph [ router [ buffer 6 ] node [ id 1 label "&auml; &#38; b" graphics [ x 0 y 0 ] pin [ class 3 x 15 y 0 dirs "E" ] ]\n' +
    'node [ id -7 isGroup 1 graphics [ x 200 y 0 w 20 h 10 ] ] node [ id 9 graphics [ x 100 y 90 ] ]\n' +
    'edge [ source 1 target 9 sourcePin 3 label "x" via [ x 50 y 50 ] ] edge [ source 9 target 9 ] ]');
  assert.deepStrictEqual(s.boxes()[0], { id: 1, x: 0, y: 0, w: 30, h: 30, isGroup: false,
    pins: [{ pinClass: 3, dx: 15, dy: 0, sides: 'E' }] });
  assert.deepStrictEqual(s.boxes().map(box => [box.id, box.isGroup]), [[1, false], [-7, true], [9, false]]);
  assert.deepStrictEqual(s.settings(), { penalty: 50, buffer: 6, nudge: 4 });
  const number = s.transaction(t => {
    t.move(9, 100, -90.5);
    assert.deepStrictEqual(t.boxes()[2], { id: 9, x: 100, y: -90.5, w: 30, h: 30, isGroup: false, pins: [] });
    return t.reconnect(1, 'end', -7);
  });
  assert.deepStrictEqual(s.connectors().map(({ number: one, start, end, startClass, checkpoints }) => [one, start, end, startClass, checkpoints.length]),
    [[2, 9, 9, 0, 0], [3, 1, -7, 3, 1]]);
  assert.deepStrictEqual([number, s.next, [...s.lines().keys()]], [3, 4, [3]]);
  s.undo();
  assert.deepStrictEqual([s.next, s.connectors()[1]], [3, { number: 2, start: 9, end: 9, startClass: 0, endClass: 0, checkpoints: [] }]);
  const refuses = (code, ...words) => refused(() => s.transaction(t => t.reconnect(...words)), code);
  refuses(5, 7, 'end', 9);
  refuses(4, 1, 'end', 8);
  refuses(8, 1, 'start', 9);
  refuses(11, 1, 'end', -7, 3);
  assert.throws(() => s.transaction(t => t.reconnect(1, 'target', -7)), RangeError);
  assert.deepStrictEqual([s.next, s.connectors().length], [3, 2]);
  s.close();
});

await part('shared paths, crossings and verdicts are of the present scene', () => {
  const s = pair(), around = [[0, 0], [0, -24], [100, -24], [100, 0]], verdict = (...words) => Object.values(s.check(...words));
  assert.deepStrictEqual([s.sharedPaths(), s.crossings()], [[], 0]);
  s.transaction(t => {
    t.addBox(3, 50, 0, 20, 40);
    t.connect(2, 1);
    assert.deepStrictEqual(t.sharedPaths(), []);
  });
  assert.deepStrictEqual(s.sharedPaths(), [{ a: 1, b: 2, first: 1, last: 3, bFirst: 3, bLast: 1, back: 'tie', ahead: 'tie', side: null }]);
  const parting = Session.fromGml('graph [ node [ id 1 graphics [ x 0 y 0 w 20 h 20 ] ] node [ id 2 graphics [ x 100 y 100 w 20 h 20 ] ]\n' +
    'node [ id 3 graphics [ x 200 y 300 w 20 h 20 ] ] edge [ source 1 target 2 ] edge [ source 1 target 3 ] ]');
  assert.deepStrictEqual(parting.sharedPaths().map(({ back, ahead, side }) => [back, ahead, side]), [['tie', 'right', 'right']]);
  assert.deepStrictEqual(verdict(1, around), [null, null, null, 248]);
  assert.deepStrictEqual(verdict(1, [[0, 0], [100, 0]]), ['Hits', 1, 3, null]);
  assert.deepStrictEqual(verdict(1, []), ['StartOff', null, null, null]);
  assert.deepStrictEqual(verdict(1, around.slice(0, 3)), ['EndOff', null, null, null]);
  assert.deepStrictEqual(verdict(1, [[0, 0], [100, 1]]), ['Slanted', 1, null, null]);
  s.transaction(t => {
    t.addCheckpoint(1, 1, 50, 30);
    t.addBox(4, 30, -80, 10, 10);
    t.addBox(5, 30, 80, 10, 10);
    t.connect(4, 5);
    refused(() => t.check(9, around), 5, 'X5 UnknownEdge 9');
    refused(() => t.check(1, [[0, 0], [2000001, 0]]), 9, 'X9 OutOfRange 5');
  });
  assert.deepStrictEqual(verdict(1, around), ['MissesVia', 1, null, null]);
  assert.strictEqual(s.crossings(), 2);
  assert.throws(() => s.check(1, [[NaN, 0]]), RangeError);
  s.close();
  parting.close();
  for (const call of [t => t.sharedPaths(), t => t.crossings(), t => t.check(1, []), t => t.reconnect(1, 'end', 2)]) refused(() => call(s), 98);
});

await part('labels of what was added are written, and no undo takes them back', () => {
  const s = pair();
  s.labelBox(2, 'Ship & bill');
  s.labelConnector(1, 'goes right');
  refused(() => s.labelBox(2, 'a " in it'), 1, 'X1 Syntax');
  for (const text of ['id 2\n    label "Ship & bill"\n', 'target 2\n    label "goes right"\n']) assert.ok(s.gml().includes(text));
  s.undo();
  assert.ok(!s.gml().includes('label'));
  s.redo();
  s.labelBox(2, '');
  assert.ok(s.gml().includes('goes right') && !s.gml().includes('Ship'));
  s.close();
});

await part('edits may be promises, and ids have up to 18 digits', async () => {
  const s = pair();
  await assert.rejects(s.transaction(async t => { await 0; t.cut(7); }), Refused);
  assert.strictEqual(await s.transaction(async t => { await 0; t.addCheckpoint(1, 1, 50, 50); return 5; }), 5);
  assert.ok(s.lines().get(1).some(([, y]) => y === 50));
  s.transaction(t => {
    t.addBox(123456789012345678n, 0, 99, 20, 20);
    for (const setting of ['penalty', 'buffer', 'nudge']) t.set(setting, 1);
    t.resize(2, 30, 30);
  });
  assert.strictEqual(s.boxes().at(-1).id, 123456789012345678n);
  const again = Session.fromGml(s.gmlBytes().buffer);
  assert.strictEqual(again.gml(), s.gml());
  s.close();
  again.close();
});

await part('the thread has the same calls as promises, and transactions wait for each other', async () => {
  const worker = await of('reroute-worker.mjs'), engine = await worker.Reroute.load(), s = await worker.Session.open();
  const edge = await s.transaction(t => { t.addBox(1, 0, 0, 20, 20); t.addBox(2, 100, 0, 20, 20); return t.connect(1, 2); });
  assert.deepStrictEqual([edge, await s.next, (await s.lines()).get(1)], [1, 2, [[0, 0], [100, 0]]]);
  const all = await Promise.allSettled([s.transaction(async t => { await t.move(1, 0, 5); await t.move(9, 0, 0); }),
    s.transaction(t => { t.move(2, 100, 50); }), s.move(1, 0, 0), s.trialChanges(t => { t.move(1, 0, 40); }), s.transaction(t => { t.addBox(1.5, 0, 0, 1, 1); })]);
  const own = pair();
  own.changes();
  own.transaction(t => t.move(2, 100, 50));
  assert.deepStrictEqual(all.map(one => one.reason?.message.slice(0, 16) ?? one.value), ['X4 UnknownNode 9', undefined, 'move: a transact',
    own.trialChanges(t => t.move(1, 0, 40)), '1.5 is no whole ']);
  assert.deepStrictEqual(await s.changes(), own.changes());
  assert.deepStrictEqual(await s.scene(), own.scene());
  assert.deepStrictEqual([await s.sharedPaths(), await s.crossings()], [[], 0]);
  assert.deepStrictEqual(await s.check(1, [[0, 0], [100, 51]]), { breach: 'Slanted', place: 1, box: null, cost: null });
  await assert.rejects(s.check(9, []), error => error instanceof worker.Refused && error.code === 5);
  assert.deepStrictEqual(await s.trial(t => { t.reconnect(1, 'start', 9); }).catch(error => error.code), 4);
  assert.deepStrictEqual(Buffer.from(await s.gmlBytes()), Buffer.from(own.gmlBytes()));
  await assert.rejects(worker.Session.fromGml('node [ ]'), error => error instanceof worker.Refused && error.code === 103);
  await s.undo();
  await s.close();
  await assert.rejects(s.lines(), /NoSession/);
  await engine.close();
  await assert.rejects(s.lines(), /closed/);
  own.close();
});

// --- Memory that is refused

/** A diagram of many boxes in rows, whose neighbours are connected. */
function rows(across, down) {
  const place = at => `x ${60 * (at % across)} y ${50 * Math.floor(at / across)}`;
  const nodes = Array.from({ length: across * down }, (_, at) => `node [ id ${at + 1} graphics [ ${place(at)} w 30 h 20 ] ]`);
  const straight = nodes.slice(0, -across).map((_, at) => `edge [ source ${at + 1} target ${at + across + 1} ]`);
  const edges = [...straight, ...straight.flatMap((_, at) => (at % across ? [`edge [ source ${at} target ${at + across + 1} ]`] : []))];
  return `graph [\n${[...nodes, ...edges].join('\n')}\n]\n`;
}

await part('a diagram that needs more memory is refused, and the engine then serves a small one', async () => {
  const gml = rows(16, 16);
  let refusals = 0;
  for (let size = 2; ; size += 0.5) {
    const engine = await Reroute.load(module, { mostBytes: size * MiB });
    try {
      const s = Session.fromGml(gml, { engine });
      assert.ok(s.lines().size > 300);
      break;
    } catch (error) {
      if (error.code !== 99) throw error;
      refusals += 1;
    }
    const s = new Session({ engine });
    s.transaction(t => { t.addBox(1, 0, 0, 20, 20); t.addBox(2, 100, 0, 20, 20); t.connect(1, 2); });
    assert.strictEqual(s.lines().size, 1);
  }
  assert.ok(refusals > 1);
  return `: ${refusals} bounds`;
});

/** Takes nearly all memory of an engine; what is left is about `left` bytes. */
function fill(engine, left, draw) {
  const taken = [];
  for (let size = 4 * MiB; size >= 8; size = Math.floor(size * 0.8)) for (;;) { try { taken.push([engine.alloc(size), size]); } catch { break; } }
  taken.sort(() => draw() - 0.5);
  while (left > 0 && taken.length) {
    const [at, size] = taken.pop();
    engine.call('free', at);
    left -= size;
  }
  return () => taken.forEach(([at]) => engine.call('free', at));
}

await part('a call that lacks memory changes nothing, and the session goes on as one that had it', async () => {
  let state = 1;
  const draw = () => (state = state * 48271 % 2147483647) / 2147483647;
  const engine = await Reroute.load(module, { mostBytes: 16 * MiB }), gml = rows(6, 6), s = Session.fromGml(gml, { engine });
  const wanted = Session.fromGml(gml, { engine: await Reroute.load(module) });
  const seen = { done: 0, refused: 0 };
  for (let step = 0; step < 300; step++) {
    const id = Math.ceil(draw() * 36), nth = Math.floor(draw() * 25), [x, y] = [Math.round(draw() * 400), Math.round(draw() * 300)];
    const doing = [t => t.transaction(e => e.move(id, x, y)), t => t.undo(), t => t.redo(), t => t.lines(), t => t.sharedPaths(),
      t => t.transaction(e => e.reconnect(e.connectors()[nth].number, 'end', id)), t => t.crossings(), t => t.check(2, t.lines().get(2) ?? [])][step % 8];
    const before = s.gml(), free = fill(engine, [0, 2e4, 1e5, 2e5, 4e5, 8e5, 2e6, 6e6][Math.floor(draw() * 8)], draw);
    let fault = null, answer = null;
    try { answer = doing(s); } catch (error) { fault = error; }
    free();
    if (fault && !(fault instanceof Refused)) throw fault;
    if (fault) {
      seen.refused += fault.code === 99 ? 1 : 0;
      assert.strictEqual(s.gml(), before);
      if (fault.code !== 99) refused(() => doing(wanted), fault.code);
    } else {
      seen.done += 1;
      assert.deepStrictEqual(doing(wanted), answer);
    }
    assert.strictEqual(s.gml(), wanted.gml());
    assert.deepStrictEqual([...s.lines()], [...wanted.lines()]);
  }
  assert.ok(seen.refused > 20 && seen.done > 20, JSON.stringify(seen));
  return `: ${seen.refused} refused, ${seen.done} done`;
});

console.log(failed ? 'FAILED' : 'ok');
process.exitCode = failed ? 1 : 0;
