// Previews a move of a box between two others, makes it, has an edit refused, and undoes it: node move_a_box.mjs [PROGRAM]
// It finds the package where it is installed, or else in this repository.
const { Refused, Session } = await import('reroute/live').catch(() => import('../../bindings/node/live.mjs'));

const session = await Session.open(process.argv[2]);
const shown = (edge, lines = session.lines()) => JSON.stringify(lines.get(edge));
const edge = await session.transaction(async () => {
  await session.addBox(1, 0, 0, 20, 20);
  await session.addBox(2, 100, 0, 20, 20);
  await session.addBox(3, 50, 80, 20, 40);
  return session.connect(1, 2);
});
console.log('out of the way:', shown(edge));
console.log('would be:', shown(edge, await session.trial(() => session.move(3, 50, 0))));
console.log('still:', shown(edge));
await session.transaction(() => session.move(3, 50, 0));
console.log('between the others:', shown(edge, session.changes()));
try {
  await session.transaction(() => session.drop(1));
} catch (error) {
  if (!(error instanceof Refused)) throw error;
  console.log('refused:', error.message);
}
await session.undo();
console.log('back:', shown(edge));
process.exitCode = await session.close();
