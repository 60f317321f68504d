// Two connectors cross; one gets its start at another box, and then runs beside the other. Lines of other origin are judged, and
// what is asked of a box or a connector that is not there is refused: node move_an_end.mjs [PROGRAM]
// It finds the package where it is installed, or else in this repository.
const { Refused, Session } = await import('reroute/live').catch(() => import('../../bindings/node/live.mjs'));

/** Prints the paths that routes share, and how often lines cross. */
async function showScene(session, title) {
  console.log(`${title}:`);
  for (const { a, b, first, last, back, ahead, side } of await session.sharedPaths()) {
    console.log(`  shared ${a} ${b} runs ${first}-${last}: back ${back}, ahead ${ahead}, side ${side ?? 'none'}`);
  }
  console.log(`  crossings ${await session.crossings()}`);
}

/** Prints the verdict on a line. */
async function judge(session, connector, corners) {
  const { breach, place, box, cost } = await session.check(connector, corners);
  const words = [...(breach === null ? ['cost', cost] : [breach]), ...(place === null ? [] : [place]), ...(box === null ? [] : ['node', box])];
  console.log(` ${corners.map(([x, y]) => ` (${x}, ${y})`).join('')}: ${words.join(' ')}`);
}

/** Prints why something is refused. */
async function refused(doing) {
  try {
    await doing();
  } catch (error) {
    if (!(error instanceof Refused)) throw error;
    console.log(`  ${error.message}`);
  }
}

const session = await Session.open(process.argv[2]);
const old = await session.transaction(async () => {
  await session.addBox(1, 0, 0, 20, 20);
  await session.addBox(2, 200, 0, 20, 20);
  await session.addBox(3, 100, -100, 20, 20);
  await session.addBox(4, 100, 100, 20, 20);
  await session.connect(1, 2);
  return session.connect(3, 4);
});
await showScene(session, 'Connector 2 from box 3 to box 4');
const connector = await session.transaction(() => session.reconnect(old, 'start', 1));
await showScene(session, 'Connector 3 from box 1 to box 4');
const below = [[0, 0], [0, 100], [100, 100]], above = [[0, 0], [0, -100], [100, -100], [100, 100]];
console.log(`Lines for connector ${connector}:`);
await judge(session, connector, below);
await judge(session, connector, above);
console.log('Refused:');
await refused(() => session.transaction(() => session.reconnect(connector, 'end', 9)));
await refused(() => session.check(old, below));
process.exitCode = await session.close();
