"""Tests the clients in Python and Node over reroute_live: bad words, transactions side by side, programs that end."""
import json
import os
import shutil
import subprocess
import sys
import tempfile
import threading
import time
import unittest

TOP = os.path.dirname(os.path.dirname(os.path.dirname(os.path.realpath(__file__))))
REROUTE = os.path.abspath(os.environ.get('REROUTE') or f'{TOP}/out/reroute')
LIVE = os.path.abspath(os.environ.get('REROUTE_LIVE') or f'{TOP}/out/reroute_live')
DRAG = f'{TOP}/examples/c/drag_a_box'
NODE = f'{TOP}/bindings/node/live.mjs'
sys.dont_write_bytecode = True
sys.path[:0] = [f'{TOP}/bindings/python', f'{TOP}/tools']
import gml  # noqa: E402
from reroute.live import Ended, Refused, Session  # noqa: E402

STRAIGHT, AROUND = [(0, 0), (100, 0)], [(0, 0), (0, -24), (100, -24), (100, 0)]
PATIENCE = 300
# A program that reads one line and ends, as one that crashes does.
SHORT = '#!/bin/sh\nread line\necho "out of luck" >&2\nexit 7\n'


class LiveTest(unittest.TestCase):
    """A test that needs the program."""

    @classmethod
    def setUpClass(cls):
        if not os.path.exists(LIVE):
            raise unittest.SkipTest(f'{LIVE} is not there')

    def program(self, text):
        """A program of this text in a folder of its own."""
        folder = tempfile.TemporaryDirectory()
        self.addCleanup(folder.cleanup)
        with open(f'{folder.name}/program', 'w') as file:
            file.write(text)
        os.chmod(f'{folder.name}/program', 0o755)
        return f'{folder.name}/program'


class PythonTest(LiveTest):
    def drawn(self):
        session = Session(LIVE)
        self.addCleanup(session.close)
        with session.transaction():
            session.add_box(1, 0, 0, 20, 20)
            session.add_box(2, 100, 0, 20, 20)
            session.add_box(3, 50, 80, 20, 40)
            session.connect(1, 2)
        return session

    def test_a_line_end_in_a_command(self):
        session = self.drawn()
        for call in (lambda: session.say('lines\nnext'), lambda: session.say('next\r'), lambda: session.say('#' * 5000)):
            with self.assertRaises(ValueError):
                call()
        with self.assertRaises(TypeError), session.transaction():
            session.move('3 0 50\nnode 6', 5, 5)
        self.assertEqual(session.lines(), {1: STRAIGHT})
        self.assertEqual(session.say('next'), ['next 2'])

    def test_labels_are_of_what_was_added(self):
        session = self.drawn()
        session.label_box(3, 'Ship & bill')
        session.label_connector(1, 'goes right')
        with self.assertRaises(Refused):
            session.label_box(3, 'a " in it')
        self.assertIn(b'id 3\n    label "Ship & bill"\n', session.gml())
        self.assertIn(b'target 2\n    label "goes right"\n', session.gml())
        session.undo()
        self.assertNotIn(b'label', session.gml())
        session.redo()
        session.label_box(3, '')
        self.assertNotIn(b'Ship', session.gml())

    def test_an_end_moves_to_another_box(self):
        session = self.drawn()
        with session.transaction():
            session.add_pin(3, 7, 0, -20, 'N')
            self.assertEqual((session.reconnect(1, 'end', 3, 7), session.connect(1, 2)), (2, 3))
        self.assertEqual(sorted(session.changes()), [2, 3])
        with session.transaction():
            self.assertEqual((session.connect(2, 3), session.reconnect(3, 'start', 3)), (4, 5))
            self.assertEqual(session.say('next'), ['next 6'])
        for words, wanted in (((9, 'end', 3), 'X5 UnknownEdge 9'), ((2, 'end', 9), 'X4 UnknownNode 9')):
            with self.assertRaisesRegex(Refused, f'^{wanted}$'), session.transaction():
                session.reconnect(*words)
        with self.assertRaises(ValueError), session.transaction():
            session.reconnect(2, 'target', 3)
        self.assertEqual(sorted(session.lines()), [2, 4, 5])

    def test_the_scene_is_that_of_the_open_transaction(self):
        session = self.drawn()
        boxes = [(1, 0, 0, 20, 20, False, []), (2, 100, 0, 20, 20, False, []), (3, 50, 80, 20, 40, False, [])]
        self.assertEqual(session.scene(), (boxes, [(1, 1, 2, 0, 0, [])], {1: 100}, (50, 4, 4)))
        with session.trial():
            session.add_pin(3, 7, 0, -20, 'WN')
            session.add_checkpoint(1, 1, 50, 0.5)
            session.set('buffer', 5)
            session.connect(3, 2, 7)
            boxes[2][-1].append((7, 0, -20, 'WN'))
            connectors = [(1, 1, 2, 0, 0, [(50, 0.5)]), (2, 3, 2, 7, 0, [])]
            self.assertEqual(session.scene(), (boxes, connectors, {1: 100, 2: None}, (50, 5, 4)))

    def test_questions_about_the_present_scene(self):
        session = self.drawn()
        self.assertEqual((session.shared_paths(), session.crossings()), ([], 0))
        with session.transaction():
            session.connect(2, 1)
            session.move(3, 50, 0)
            self.assertEqual(session.shared_paths(), [])
        self.assertEqual(session.shared_paths(), [(1, 2, 1, 3, 'tie', 'tie', None)])
        with session.transaction():
            for corners, wanted in ((AROUND, (None, None, None, 248)), (STRAIGHT, ('Hits', 1, 3, None)),
                                    ([], ('StartOff', None, None, None)), ([(0, 0), (100, 1)], ('Slanted', 1, None, None))):
                self.assertEqual(session.check(1, corners), wanted)
            for words, wanted in (((9, AROUND), 'X5 UnknownEdge 9'), ((1, [(0, 0), (2_000_001, 0)]), 'X9 OutOfRange 5')):
                with self.assertRaisesRegex(Refused, f'^{wanted}$'):
                    session.check(*words)
            session.cut(2)
        self.assertEqual(sorted(session.lines()), [1])

    def test_words_that_are_none(self):
        session = self.drawn()
        for fault, call, words in (
                (ValueError, 'move', (1, float('nan'), 0)), (OverflowError, 'move', (1, 1e300, 0)),
                (TypeError, 'move', (1, '5', 0)), (OverflowError, 'drop', (2**64 + 3,)), (TypeError, 'cut', (1.0,)), (OverflowError, 'cut', (2**32 + 1,)),
                (ValueError, 'add_pin', (1, 1, 0, 0, 'E 5')), (ValueError, 'set', ('buffer 9\n', 1))):
            with self.subTest(call, words=words), self.assertRaises(fault), session.transaction():
                getattr(session, call)(*words)
        self.assertEqual(session.changes(), {1: STRAIGHT})

    def test_transactions_of_two_threads(self):
        session, refused = self.drawn(), []

        def move(box, places):
            for place in places:
                try:
                    with session.transaction():
                        session.move(box, place, place)
                        time.sleep(0.001)
                        session.resize(box, 20, 20 + place % 7)
                except Refused as fault:
                    refused.append(fault)

        threads = [threading.Thread(target=move, args=(box, range(start, start + 20))) for box, start in ((1, 300), (2, 600))]
        [thread.start() for thread in threads]
        [thread.join(PATIENCE) for thread in threads]
        self.assertEqual(refused, [])
        self.assertEqual(session.lines()[1][0], (319, 319))

    def test_a_transaction_within_a_transaction(self):
        session = self.drawn()
        with self.assertRaisesRegex(RuntimeError, 'within a transaction'), session.transaction():
            session.cut(1)
            with session.transaction():
                pass
        self.assertEqual(session.lines(), {1: STRAIGHT})

    def test_changes(self):
        session = self.drawn()
        session.lines()
        with session.trial():
            session.move(3, 50, 0)
            self.assertEqual((session.preview(), session.preview_changes()), ({1: AROUND}, {1: AROUND}))
        self.assertEqual(session.changes(), {})
        with session.transaction():
            session.move(3, 50, 0)
        self.assertEqual(session.changes(), {1: AROUND})
        with session.transaction():
            session.cut(1)
            self.assertEqual(session.connect(1, 3), 2)
        self.assertEqual(sorted(session.changes()), [1, 2])
        session.undo()
        self.assertEqual(session.changes(), {1: AROUND, 2: []})

    def test_programs_that_end_or_do_not_start(self):
        with self.assertRaisesRegex(Ended, 'cannot be started: No such file'):
            Session('/nowhere/reroute_live')
        with self.assertRaisesRegex(Ended, 'status 3: diagram: Syntax at 19'):
            Session(LIVE, f'{TOP}/README.md')
        with self.assertRaisesRegex(Ended, 'status 7: out of luck'):
            Session(self.program(SHORT))
        with self.assertRaises(ValueError):
            Session(LIVE, workers=9)
        session = self.drawn()
        session._process.kill()
        for _ in range(2):
            with self.assertRaisesRegex(Ended, 'status -9'), session.transaction():
                session.move(1, 0, 0)
        self.assertEqual(session.close(), -9)
        with self.assertRaisesRegex(Ended, 'closed'):
            session.undo()

    def test_an_interrupted_reply_is_not_taken_for_the_next(self):
        session = self.drawn()
        real = session._line

        def interrupted():
            session._line = real
            raise KeyboardInterrupt

        session._line = interrupted
        with self.assertRaises(KeyboardInterrupt):
            session.say('next')
        with self.assertRaises(Ended):
            session.say('lines')


class NodeTest(LiveTest):
    HEAD = f'''import {{ Ended, Refused, Session }} from {json.dumps('file://' + NODE)};
const said = [];
const say = (...words) => said.push(words.join(' '));
const tried = async doing => {{ try {{ say('done', await doing()); }} catch (error) {{ say(error.name, error.message); }} }};
const drawn = async () => {{
  const session = await Session.open({json.dumps(LIVE)});
  await session.transaction(async () => {{
    await session.addBox(1, 0, 0, 20, 20);
    await session.addBox(2, 100, 0, 20, 20);
    await session.addBox(3, 50, 80, 20, 40);
    await session.connect(1, 2);
  }});
  return session;
}};
const text = lines => JSON.stringify([...lines]);
'''

    def setUp(self):
        if not shutil.which('node'):
            self.skipTest('Node is not installed')

    def assert_says(self, body, *wanted):
        script = f'{self.HEAD}{body}\nconsole.log(JSON.stringify(said));\n'
        done = subprocess.run(['node', '--input-type=module'], input=script, capture_output=True, text=True, timeout=PATIENCE)
        self.assertEqual((done.returncode, done.stderr), (0, ''))
        said = json.loads(done.stdout.splitlines()[-1])
        self.assertEqual(len(said), len(wanted), said)
        for line, pattern in zip(said, wanted):
            self.assertRegex(line, pattern)

    def test_labels_are_of_what_was_added(self):
        self.assert_says('''
const session = await drawn();
await session.labelBox(3, 'Ship & bill');
await session.labelConnector(1, 'goes right');
await tried(() => session.labelBox(3, 'a " in it'));
const gml = await session.gml();
say(gml.includes('id 3\\n    label "Ship & bill"\\n'), gml.includes('target 2\\n    label "goes right"\\n'));
await session.labelBox(3, '');
say((await session.gml()).includes('Ship'));
await session.close();''', 'Refused X1 Syntax', 'true true', 'false')

    def test_an_end_moves_to_another_box(self):
        self.assert_says('''
const session = await drawn();
await session.transaction(async () => {
  session.addPin(3, 7, 0, -20, 'N');
  say(...await Promise.all([session.reconnect(1, 'end', 3, 7), session.connect(1, 2), session.reconnect(3, 'start', 3), session.connect(2, 1)]));
  say(await session.say('next'));
});
say([...session.changes().keys()]);
await tried(() => session.transaction(() => session.reconnect(9, 'end', 3)));
await tried(() => session.transaction(() => session.reconnect(2, 'end', 9)));
await tried(() => session.transaction(() => session.reconnect(2, 'target', 3)));
await session.close();''', '^2 3 4 5$', '^next 6$', '^2,4,5$', 'Refused X5 UnknownEdge 9', 'Refused X4 UnknownNode 9', 'TypeError')

    def test_the_scene_is_that_of_the_open_transaction(self):
        self.assert_says('''
const session = await drawn();
const told = async () => { const { boxes, connectors, settings } = await session.scene(); say(JSON.stringify([boxes[2], connectors, settings])); };
await session.trial(async () => {
  await session.addPin(3, 7, 0, -20, 'WN');
  await session.addCheckpoint(1, 1, 50, 0.5);
  await told();
});
await told();
await session.close();''', r'"pins":\[{"pinClass":7,"dx":0,"dy":-20,"sides":"WN"}\]},\[{"number":1,"start":1,"end":2,"startClass":0,"endClass":0,'
                         r'"checkpoints":\[\[50,0.5\]\],"cost":100}\],{"penalty":50,"buffer":4,"nudge":4}\]$',
                         r'^\[{"id":3,"x":50,"y":80,"w":20,"h":40,"isGroup":false,"pins":\[\]},.*"checkpoints":\[\],"cost":100}\]')

    def test_questions_about_the_present_scene(self):
        self.assert_says('''
const session = await drawn();
const all = (...values) => say(...values.map(value => JSON.stringify(value)));
await session.transaction(async () => { session.connect(2, 1); session.move(3, 50, 0); all(await session.sharedPaths()); });
all(await session.sharedPaths(), await session.crossings());
const around = [[0, 0], [0, -24], [100, -24], [100, 0]];
for (const corners of [around, [[0, 0], [100, 0]], [], [[0, 0], [100, 1]]]) all(Object.values(await session.check(1, corners)));
await session.transaction(async () => {
  await tried(() => session.check(9, around));
  await tried(() => session.check(1, [[0, 0], [2_000_001, 0]]));
  await tried(() => session.check(1, [[NaN, 0]]));
  await session.cut(2);
});
say(session.lines().size);
await session.close();''', r'^\[\]$',
                         r'^\[{"a":1,"b":2,"first":1,"last":3,"back":"tie","ahead":"tie","side":null}\] 0$',
                         r'^\[null,null,null,248\]$', r'^\["Hits",1,3,null\]$', r'^\["StartOff",null,null,null\]$',
                         r'^\["Slanted",1,null,null\]$', 'Refused X5 UnknownEdge 9', 'Refused X9 OutOfRange 5', 'RangeError', '^1$')

    def test_a_line_end_in_a_command(self):
        self.assert_says(r'''
const session = await drawn();
await tried(() => session.transaction(() => session.move('5 0 300 5 5\nnode 6', 0, 0)));
await tried(() => session.say('lines\nnext'));
await tried(() => session.say('next\r'));
await tried(() => session.say('#'.repeat(5000)));
say(await session.say('next'), text(session.lines()), await session.close());
''', 'TypeError .*no whole number', 'TypeError a command is one line', 'TypeError', 'TypeError',
                         r'^next 2 \[\[1,\[\[0,0\],\[100,0\]\]\]\] 0$')

    def test_words_that_are_none(self):
        self.assert_says('''
const session = await drawn();
const bad = [s => s.move(1, NaN, 0), s => s.move(1, Infinity, 0), s => s.move(1, 1e300, 0), s => s.move(1, '5', 0),
  s => s.move(1.5, 0, 0), s => s.drop(2n ** 64n + 3n), s => s.cut(2 ** 32 + 1), s => s.cut(-1),
  s => s.addPin(1, 1, 0, 0, 'E 5'), s => s.set('buffer 9', 1)];
for (const edit of bad) await tried(() => session.transaction(edit));
say(text(session.lines()), await session.close());
''', *['^RangeError'] * 3, *['^TypeError'] * 2, *['^RangeError'] * 3, *['^TypeError'] * 2,
                         r'^\[\[1,\[\[0,0\],\[100,0\]\]\]\] 0$')

    def test_transactions_side_by_side(self):
        self.assert_says('''
const session = await drawn();
const numbers = await Promise.all([1, 2, 3, 4].map(turn => session.transaction(async () => {
  await session.addBox(10 * turn, 0, 100 * turn, 20, 20);
  await session.addBox(10 * turn + 1, 100, 100 * turn, 20, 20);
  return session.connect(10 * turn, 10 * turn + 1);
})));
say(numbers, session.lines().size);
const [, lone, inner] = await Promise.allSettled([
  session.transaction(async () => { await new Promise(done => setTimeout(done, 20)); await session.cut(numbers[0]); }),
  session.move(2, 100, 50),
  session.transaction(() => session.transaction(() => 1)),
]);
say(lone.reason.message, inner.reason.message, session.lines().size, session.lines().get(1).length);
await session.close();
''', '^2,3,4,5 5$', 'an edit outside of a transaction a transaction within a transaction 4 2')

    def test_edits_that_are_not_awaited(self):
        self.assert_says('''
const session = await drawn();
await tried(() => session.transaction(() => { session.cut(1); session.drop(77); session.cut(1); }));
say(text(session.lines()));
await session.transaction(() => { session.move(3, 50, 0); });
say(text(session.changes()));
await session.close();
''', '^Refused X4 UnknownNode 77$', r'\[100,0\]', r'-24')

    def test_lines_given_out_cannot_be_changed(self):
        self.assert_says('''
const session = await drawn();
await tried(async () => session.lines().get(1).push([1, 1]));
await tried(async () => { session.lines().get(1)[0][0] = 5; });
session.lines().clear();
say(session.lines().size, session.changes().size);
await session.close();
''', '^TypeError', '^TypeError', '^1 0$')

    def test_changes(self):
        self.assert_says('''
const session = await drawn();
const heard = [];
session.lines();
const listening = (async () => { for await (const changes of session.changes()) heard.push(text(changes)); })();
say(text(await session.trial(() => session.move(3, 50, 0))), text(session.changes()));
say(text(await session.trialChanges(() => session.cut(1))), text(session.changes()));
await session.transaction(async () => { session.move(3, 50, 0); say(text(await session.previewChanges())); });
say(text(session.changes()), text(session.changes()));
await session.transaction(() => session.cut(1));
say(text(session.changes()));
await session.undo();
await session.close();
await listening;
say(heard.length, heard.join(' '));
''', r'-24.* \[\]$', r'^\[\[1,\[\]\]\] \[\]$', '-24', r'^\[\[1,.*-24.* \[\]$', r'^\[\[1,\[\]\]\]$', r'^3 .*-24.* \[\[1,\[\]\]\] .*-24')

    def test_programs_that_end_or_do_not_start(self):
        short = self.program(SHORT)
        loud = self.program('#!/bin/sh\necho hello\nsleep 1\n')
        self.assert_says(f'''
await tried(() => Session.open('/nowhere/reroute_live'));
await tried(() => Session.open({json.dumps(LIVE)}, {{ diagram: {json.dumps(TOP + '/README.md')} }}));
await tried(() => Session.open({json.dumps(short)}));
await tried(() => Session.open({json.dumps(loud)}));
await tried(() => Session.open({json.dumps(LIVE)}, {{ workers: 9 }}));
const session = await drawn();
await session.say('quit');
for (const turn of [1, 2]) await tried(() => session.transaction(() => session.cut(1)));
say(await session.close());
await tried(() => session.undo());
''', '^Ended .*cannot be started.*ENOENT', 'status 3: diagram: Syntax at 19', 'status 7: out of luck', '^Ended',
                         '^RangeError', *['^Ended .*status 0'] * 2, '^0$', '^Ended the session is closed')


class DragTest(unittest.TestCase):
    """The drag of the examples, by `reroute route` alone, which draws each of its diagrams from nothing."""

    def setUp(self):
        if not os.path.exists(REROUTE):
            self.skipTest(f'{REROUTE} is not there')
        folder = tempfile.TemporaryDirectory()
        self.addCleanup(folder.cleanup)
        self.script = f'{folder.name}/script'

    def drawn(self, *places, then=''):
        """The lines after box 25 has stood at these places of its column, by connector; without corners where there is none."""
        with open(self.script, 'w') as file:
            file.writelines(f'begin\nmove 25 300 {place:.3f}\ncommit\n' for place in places)
            file.write(then)
        done = subprocess.run([REROUTE, 'route', f'{DRAG}.gml', self.script], capture_output=True, check=True)
        return {edge.place: [(x / 1000, y / 1000) for x, y in edge.line or ()] for edge in gml.read(done.stdout).edges}

    @staticmethod
    def shown(title, old, new):
        yield f'{title}:'
        for connector, corners in new.items():
            if corners != old.get(connector):
                yield f'  connector {connector}: {" ".join(f"({x:g}, {y:g})" for x, y in corners) or "no line"}'

    def held(self, *places, to):
        """What 50 previews tell on the way to a place."""
        old = self.drawn(*places)
        start = places[-1] if places else 320
        each = [self.drawn(*places, start + (to - start) * step / 50) for step in range(1, 51)]
        told = [corners for new in each for connector, corners in new.items() if corners != old[connector]]
        return self.shown(f'Held, after 50 previews that told {len(told)} changes, {told.count([])} of them that a line is gone',
                          old, each[-1])

    def test_the_examples_tell_what_the_program_draws(self):
        first, between, over = self.drawn(), self.drawn(120), self.drawn(120, 80)
        told = [*self.shown('Before', {}, first), *self.held(to=120), 'Cancelled:', *self.held(to=120),
                *self.shown('Released between others', first, between), *self.held(120, to=80),
                *self.shown('Released over another', between, over),
                *self.shown('Undone twice', over, self.drawn(120, 80, then='undo\nundo\n'))]
        with open(f'{DRAG}.txt') as file:
            self.assertEqual(file.read().splitlines(), told)


class ExamplesTest(LiveTest):
    def test_examples(self):
        words = [sys.executable, f'{TOP}/tools/test-clients', LIVE]
        done = subprocess.run(words, capture_output=True, text=True, timeout=PATIENCE)
        self.assertEqual(done.returncode, 0, done.stdout)


if __name__ == '__main__':
    unittest.main()
