// A drag, on the screen's own copy of the lines, which it keeps by what is told alone: 50 previews, cancelled; the same again,
// released; one released over another box, which leaves connectors without a line; and both undone:
// node drag_a_box.mjs DIAGRAM [PROGRAM]. It finds the package where it is installed, or else in this repository.
const { Session } = await import('reroute/live').catch(() => import('../../bindings/node/live.mjs'));

const BOX = 25, STEPS = 50;

function show(title, changes) {
  console.log(`${title}:`);
  for (const [connector, corners] of changes) {
    const words = corners.map(([x, y]) => `(${x}, ${y})`).join(' ');
    console.log(`  connector ${connector}: ${words || 'no line'}`);
  }
}

/** Previews the box at 50 places on its way, and shows what the last one changes. */
async function drag(session, start, end) {
  let told = 0, gone = 0, changes;
  for (let step = 1; step <= STEPS; step++) {
    const [x, y] = start.map((from, at) => from + ((end[at] - from) * step) / STEPS);
    changes = await session.trialChanges(() => session.move(BOX, x, y));
    told += changes.size;
    gone += [...changes.values()].filter(corners => !corners.length).length;
  }
  show(`Held, after ${STEPS} previews that told ${told} changes, ${gone} of them that a line is gone`, changes);
}

const release = (session, end) => session.transaction(() => session.move(BOX, ...end));

/** Draws what changed, and wipes out the lines that are gone. */
function redraw(session, screen, title) {
  const changes = session.changes();
  show(title, changes);
  changes.forEach((corners, connector) => (corners.length ? screen.set(connector, corners) : screen.delete(connector)));
  const all = session.lines();
  if (screen.size !== all.size || [...all].some(([connector, corners]) => String(screen.get(connector)) !== String(corners))) {
    throw new Error('the screen has other lines than the session');
  }
}

const [rest, between, over, screen] = [[300, 320], [300, 120], [300, 80], new Map()];
const session = await Session.open(process.argv[3], { diagram: process.argv[2] });
redraw(session, screen, 'Before');
await drag(session, rest, between);
redraw(session, screen, 'Cancelled');
await drag(session, rest, between);
await release(session, between);
redraw(session, screen, 'Released between others');
await drag(session, between, over);
await release(session, over);
redraw(session, screen, 'Released over another');
await session.undo();
await session.undo();
redraw(session, screen, 'Undone twice');
process.exitCode = await session.close();
