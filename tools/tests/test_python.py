"""Tests the Python package over the library: numbers that do not fit, sessions left open, what changed, graphs, pictures."""
import doctest
import gc
import importlib
import inspect
import math
import os
import re
import shutil
import subprocess
import sys
import tempfile
import typing
import unittest

TOP = os.path.dirname(os.path.dirname(os.path.dirname(os.path.realpath(__file__))))
LIBRARY = os.path.abspath(os.environ.get('REROUTE_LIBRARY') or f'{TOP}/out/library/libreroute.so.0')
PACKAGE = f'{TOP}/bindings/python'
sys.dont_write_bytecode = True
sys.path.insert(0, PACKAGE)
import reroute  # noqa: E402
from reroute import Code, Refused, Session  # noqa: E402

# A box between two others makes their line go round it, by the buffer of 4 and half its height.
STRAIGHT, AROUND = [(0, 0), (100, 0)], [(0, 0), (0, -24), (100, -24), (100, 0)]
SIDE = 2**64 / 1000
STRAIGHT_FILE = f'{TOP}/examples/straight.gml'


def run(*words, **more):
    """What a command of Python prints, its status and what it says on standard error."""
    variables = {**os.environ, 'PYTHONPATH': PACKAGE, 'PYTHONDONTWRITEBYTECODE': '1', **more}
    done = subprocess.run([sys.executable, *words], capture_output=True, text=True, env=variables)
    return done.stdout, done.returncode, done.stderr


class LibraryTest(unittest.TestCase):
    """A test that needs the library."""

    @classmethod
    def setUpClass(cls):
        if not os.path.exists(LIBRARY):
            raise unittest.SkipTest(f'{LIBRARY} is not there')
        os.environ['REROUTE_LIBRARY'] = LIBRARY

    def drawn(self):
        """A session with two boxes, a line between them, and a third box out of the way."""
        session = Session()
        self.addCleanup(session.close)
        with session.transaction():
            session.add_box(1, 0, 0, 20, 20)
            session.add_box(2, 100, 0, 20, 20)
            session.add_box(3, 50, 80, 20, 40)
            session.connect(1, 2)
        return session


class NumbersTest(LibraryTest):
    def assert_nothing_done(self, fault, call, *words):
        session = self.drawn()
        before = session.gml()
        with self.assertRaises(fault), session.transaction():
            getattr(session, call)(*words)
        self.assertEqual(session.gml(), before)

    def test_lengths_beyond_64_bits(self):
        for call, words in (('move', (1, SIDE, 0)), ('move', (1, 0, -SIDE)), ('resize', (1, SIDE + 5, 20)),
                            ('set', ('buffer', SIDE + 4)), ('add_box', (9, SIDE, 0, 20, 20)), ('add_pin', (1, 1, SIDE, 0)),
                            ('add_checkpoint', (1, 1, 0, SIDE))):
            with self.subTest(call, words=words):
                self.assert_nothing_done(OverflowError, call, *words)

    def test_whole_numbers_beyond_their_bits(self):
        for call, words in (('add_box', (2**64 + 7, 300, 0, 20, 20)), ('move', (2**64 + 1, 5, 5)), ('drop', (2**64 + 3,)),
                            ('cut', (2**32 + 1,)), ('cut', (-1,)), ('add_pin', (1, 2**32 + 5, 0, 0)),
                            ('set_classes', (2**32 + 1, 0, 0)), ('connect', (1, 3, 2**32)), ('connect', (2**64 + 1, 3)),
                            ('reconnect', (2**32 + 1, 'end', 3)), ('reconnect', (1, 'end', 2**64 + 3)), ('check', (2**32 + 1, []))):
            with self.subTest(call, words=words):
                self.assert_nothing_done(OverflowError, call, *words)
        with self.assertRaises(OverflowError):
            self.drawn().cost(2**32 + 1)

    def test_no_numbers(self):
        for value in (math.nan, math.inf, -math.inf):
            self.assert_nothing_done(ValueError, 'move', 1, value, 0)
            self.assert_nothing_done(ValueError, 'set', 'nudge', value)
        for words in ((1.5, 0, 0), ('1', 0, 0), (None, 0, 0), (1, '5', 0), (1, None, 0)):
            self.assert_nothing_done(TypeError, 'move', *words)

    def test_sides_and_settings(self):
        for sides in ('', 'EX', 'e'):
            self.assert_nothing_done(ValueError, 'add_pin', 1, 1, 0, 0, sides)
        self.assert_nothing_done(ValueError, 'set', 'speed', 1)
        self.assert_nothing_done(ValueError, 'reconnect', 1, 'target', 3)

    def test_limits_of_the_engine_are_refusals(self):
        self.assert_nothing_done(Refused, 'move', 1, 2_000_000_000, 0)
        self.assert_nothing_done(Refused, 'add_box', 10**18, 0, 0, 20, 20)


class SessionTest(LibraryTest):
    def test_labels_are_of_what_was_added(self):
        session = self.drawn()
        session.label_box(3, 'Ship & bill')
        session.label_connector(1, b'goes right')
        with self.assertRaises(Refused):
            session.label_box(3, 'a " in it')
        self.assertIn(b'id 3\n    label "Ship & bill"\n', session.gml())
        self.assertIn(b'target 2\n    label "goes right"\n', session.gml())
        session.undo()
        self.assertNotIn(b'label', session.gml())
        session.redo()
        session.label_box(3, '')
        self.assertNotIn(b'Ship', session.gml())
        self.assertIn(b'goes right', session.gml())

    def test_an_end_moves_to_another_box(self):
        session = self.drawn()
        with session.transaction():
            session.add_checkpoint(1, 1, 50, 30)
            session.add_pin(3, 7, 0, -20, 'N')
        session.changes()
        with session.transaction():
            self.assertEqual((session.reconnect(1, 'end', 3, 7), session.next), (2, 3))
        self.assertEqual(session.connectors(), [(2, 1, 3, 0, 7, [(50, 30)])])
        self.assertEqual(session.changes()[1], [])
        with session.transaction():
            self.assertEqual(session.reconnect(2, 'start', 2), 3)
        self.assertEqual(session.connectors(), [(3, 2, 3, 0, 7, [(50, 30)])])
        for words, wanted in (((9, 'end', 3), 'X5 UnknownEdge 9'), ((3, 'end', 9), 'X4 UnknownNode 9'), ((3, 'end', 2), 'X8 SameNode 2'),
                              ((3, 'end', 1, 7), 'X11 UnknownPinClass 7')):
            with self.assertRaisesRegex(Refused, f'^{wanted}$'), session.transaction():
                session.reconnect(*words)
        self.assertEqual((session.next, len(session.connectors())), (4, 1))

    def test_shared_paths_and_crossings(self):
        session = self.drawn()
        self.assertEqual((session.shared_paths(), session.crossings()), ([], 0))
        with session.transaction():
            session.connect(2, 1)
            session.move(3, 50, 0)
            self.assertEqual(session.shared_paths(), [])
        self.assertEqual(session.shared_paths(), [(1, 2, 1, 3, 3, 1, 'tie', 'tie', None)])
        with Session.open(f'{TOP}/examples/shared_paths.gml') as shared:
            self.assertEqual((shared.shared_paths(), shared.crossings()), ([(1, 2, 1, 1, 1, 1, 'tie', 'right', 'right')], 0))
        with session.transaction():
            session.add_box(4, 30, -80, 10, 10)
            session.add_box(5, 30, 80, 10, 10)
            session.connect(4, 5)
            session.cut(2)
        self.assertEqual((session.shared_paths(), session.crossings()), ([], 1))

    def test_verdicts(self):
        session = self.drawn()
        with session.transaction():
            session.move(3, 50, 0)
        for corners, wanted in ((AROUND, (None, None, None, 248)), (STRAIGHT, ('Hits', 1, 3, None)), ([], ('StartOff', None, None, None)),
                                ([(0, 0), (100, 1)], ('Slanted', 1, None, None)), (AROUND[:3], ('EndOff', None, None, None))):
            self.assertEqual(session.check(1, corners), wanted)
        with session.transaction():
            session.add_checkpoint(1, 1, 50, 30)
            self.assertEqual(session.check(1, AROUND).cost, 248)
            for words, wanted in (((9, AROUND), 'X5 UnknownEdge 9'), ((1, [(0, 0), (2_000_001, 0)]), 'X9 OutOfRange 5')):
                with self.assertRaisesRegex(Refused, f'^{wanted}$'):
                    session.check(*words)
        self.assertEqual(session.check(1, AROUND), ('MissesVia', 1, None, None))
        with self.assertRaises(ValueError):
            session.check(1, [(0, math.nan)])

    def test_open_sessions_are_closed_when_collected(self):
        session = Session()
        finalizer = session._close
        self.assertTrue(finalizer.alive)
        del session
        gc.collect()
        self.assertFalse(finalizer.alive)

    def test_unclosed_sessions_take_no_more_memory(self):
        with open(f'{TOP}/examples/move_a_box.gml') as file:
            diagram = file.read()
        grown, status, said = run('-c', f'''
import reroute, resource
def open_some():
    for _ in range(400):
        reroute.Session(gml={diagram.encode()!r})
open_some()
before = resource.getrusage(resource.RUSAGE_SELF).ru_maxrss
open_some()
print(resource.getrusage(resource.RUSAGE_SELF).ru_maxrss - before)
''', REROUTE_LIBRARY=LIBRARY)
        self.assertEqual((status, said), (0, ''))
        self.assertLess(int(grown), 4000)

    def test_the_library_is_loaded_once(self):
        self.assertIs(self.drawn()._library, self.drawn()._library)

    def test_a_library_of_another_version(self):
        if not shutil.which('cc'):
            self.skipTest('there is no C compiler')
        with tempfile.TemporaryDirectory() as folder:
            with open(f'{folder}/other.c', 'w') as file:
                file.write('unsigned reroute_version(void) { return 0x203; }\n')
            subprocess.run(['cc', '-shared', '-o', f'{folder}/other.so', f'{folder}/other.c'], check=True)
            with self.assertRaisesRegex(ImportError, r'version 0\.2\.3 .* not 0\.1'):
                Session(library=f'{folder}/other.so')

    def test_no_library(self):
        with self.assertRaisesRegex(ImportError, 'REROUTE_LIBRARY'):
            Session(library='/nowhere/libreroute.so.0')

    def test_open_takes_a_file_and_text_is_taken_as_bytes(self):
        path = f'{TOP}/examples/move_a_box.gml'
        with Session.open(path) as session, open(path) as file, Session(file.read()) as same:
            self.assertEqual(session.lines(), same.lines())
            self.assertEqual([len(session.connectors()), len(session.lines())], [5, 5])

    def test_a_closed_session_refuses(self):
        session = self.drawn()
        session.close()
        session.close()
        gc.collect()
        for call in (session.begin, session.lines, session.gml, session.undo, session.settings, session.shared_paths, session.crossings,
                     lambda: session.check(1, []), lambda: session.reconnect(1, 'end', 2)):
            with self.assertRaises(Refused) as caught:
                call()
            self.assertIs(caught.exception.code, Code.NO_SESSION)
        self.assertEqual((session.searched, session.box_count, session.next, session.cost(1), session.boxes()), (0, 0, 0, None, []))

    def test_refusals(self):
        session = self.drawn()
        with self.assertRaises(Refused) as caught, session.transaction():
            session.move(3, 0, 50)
            session.drop(1)
        refused = caught.exception
        self.assertEqual((refused.code, refused.reason, refused.value), (Code.NODE_IN_USE, 'NodeInUse', 1))
        self.assertEqual(str(refused), 'X7 NodeInUse 1')
        self.assertIsInstance(refused.code, Code)
        with self.assertRaisesRegex(Refused, r'^X2 NoTransaction$'):
            session.move(3, 0, 50)
        with self.assertRaisesRegex(Refused, r'^line 2: X4 UnknownNode 8$'):
            session.play('begin\nmove 8 0 0\n')
        with self.assertRaisesRegex(Refused, r'^SameId node 2$'):
            Session('graph [ node [ id 1 graphics [ x 0 y 0 ] ] node [ id 1 graphics [ x 0 y 90 ] ] ]')

    def test_codes_are_those_of_the_header(self):
        with open(f'{TOP}/bindings/reroute.h') as file:
            codes = re.search(r'REROUTE_OK = 0.*?^};', file.read(), flags=re.M | re.S)[0]
        header = {name: int(code) for name, code in re.findall(r'REROUTE_(\w+) = (\d+)', codes)}
        self.assertEqual({**Code.__members__, 'OK': 0, 'MEMORY': 99}, header)

    def test_the_scene_is_that_of_the_open_transaction(self):
        session = self.drawn()
        with session.trial():
            session.move(3, 50.5, -90)
            session.add_pin(3, 7, 1, -2.5, 'NE')
            session.add_checkpoint(1, 1, 50, 30)
            session.cut(session.connect(3, 1, 7))
            session.set('buffer', 2)
            self.assertEqual(session.boxes()[2], (3, 50.5, -90, 20, 40, False, [(7, 1, -2.5, 'EN')]))
            self.assertEqual(session.connectors(), [(1, 1, 2, 0, 0, [(50, 30)])])
            self.assertEqual(session.settings(), (50, 2, 4))
        self.assertEqual((session.boxes()[2].y, session.boxes()[2].pins, session.settings().buffer), (80, [], 4))
        self.assertEqual((len(session.boxes()), session.connectors()[0].checkpoints, session.cost(1)), (3, [], 100))
        with Session('graph [ node [ id -7 isGroup 1 graphics [ x 0 y 0 ] ] ]') as group:
            self.assertEqual((group.boxes(), group.connectors()), ([(-7, 0, 0, 30, 30, True, [])], []))

    def test_hints_and_doctests(self):
        for kind in (Session, importlib.import_module('reroute.live').Session):
            for name, call in inspect.getmembers(kind, inspect.isfunction):
                if not name.startswith('_'):
                    self.assertIn('return', typing.get_type_hints(call), name)
        self.assertTrue(os.path.exists(f'{PACKAGE}/reroute/py.typed'))
        tried = doctest.testmod(reroute)
        self.assertEqual((tried.failed, tried.attempted > 5), (0, True))


class ChangesTest(LibraryTest):
    def test_a_commit_after_previews_tells_what_differs_from_what_was_told(self):
        session = self.drawn()
        screen = session.lines()
        for y in (60, 40, 20, 0):
            with session.trial():
                session.move(3, 50, y)
                session.preview()
        with session.trial():
            session.move(3, 50, 0)
            self.assertEqual(session.preview_changes(), {1: AROUND})
        self.assertEqual(session.changes(), {})
        with session.transaction():
            session.move(3, 50, 0)
        self.assertEqual(session.changes(), {1: AROUND})
        self.assertEqual(session.changes(), {})
        self.assertEqual(screen, {1: STRAIGHT})

    def test_connectors_that_are_gone(self):
        session = self.drawn()
        session.lines()
        with session.transaction():
            session.move(3, 100, 0)
        self.assertEqual(session.changes(), {1: []})
        session.undo()
        self.assertEqual(session.changes(), {1: STRAIGHT})
        with session.transaction():
            session.cut(1)
        self.assertEqual(session.changes(), {1: []})

    def test_lines_given_out_are_the_callers(self):
        session = self.drawn()
        session.lines()[1].clear()
        self.assertEqual(session.changes(), {})


class LargeTest(LibraryTest):
    """Texts of more than 4,096 bytes, with 20 connectors of which each is straight."""

    def setUp(self):
        self.lines = {k + 1: [(0, 100 * k), (1000, 100 * k)] for k in range(20)}

    def test_a_text_is_opened_written_and_opened_again(self):
        nodes = ''.join(f'node [ id {k} graphics [ x 0 y {100 * k} w 20 h 20 ] ]\n'
                        f'node [ id {50 + k} graphics [ x 1000 y {100 * k} w 20 h 20 ] ]\n' for k in range(20))
        label = 'a connector of a text that is long '.ljust(100, '.')
        edges = ''.join(f'edge [ source {k} target {50 + k} label "{label}" ]\n' for k in range(20))
        text = f'graph [\n{nodes}{edges}]\n'
        self.assertGreater(len(text), 4096)
        with Session(text) as session:
            self.assertEqual(session.lines(), self.lines)
            written = session.gml()
        with Session(written) as session:
            self.assertEqual((session.lines(), session.gml()), (self.lines, written))

    def test_the_limits_of_the_program_for_files_do_not_hold(self):
        with Session('graph [ ]'.ljust(16_777_217)) as session:
            session.play('begin\nnode 1 0 0 20 20\ncommit\n'.ljust(4_194_305, '#'))
            self.assertEqual(session.box_count, 1)

    def test_a_script_draws_and_tells_all_lines(self):
        comment = 'so that the script is long '.ljust(200, '.')
        script = ''.join(f'node {k} 0 {100 * k} 20 20\nnode {50 + k} 1000 {100 * k} 20 20\nedge {k} {50 + k} 0 0\n'
                         f'# {comment}\n' for k in range(20))
        self.assertGreater(len(script), 4096)
        with Session() as session:
            session.play(f'begin\n{script}commit\n')
            self.assertEqual(session.changes(), self.lines)
            with session.transaction():
                session.move(19, 0, 1950)
                session.move(69, 1000, 1950)
            moved = {20: [(0, 1950), (1000, 1950)]}
            self.assertEqual((session.changes(), session.lines()), (moved, {**self.lines, **moved}))
            session.undo()
            self.assertEqual(session.lines(), self.lines)


class GraphTest(LibraryTest):
    def setUp(self):
        try:
            import networkx
        except ImportError:
            self.skipTest('networkx is not installed')
        self.networkx = networkx

    def test_parallel_edges_do_not_lie_on_each_other(self):
        graph = self.networkx.MultiGraph([('a', 'b'), ('a', 'b'), ('a', 'c'), ('b', 'b')])
        places = {'a': (0, 0), 'b': (100, 0), 'c': (0, 100)}
        lines = reroute.route_graph(graph, places, (40, 40))
        self.assertEqual(list(lines), list(graph.edges(keys=True)))
        self.assertEqual(lines['b', 'b', 0], [])
        first, second = lines['a', 'b', 0], lines['a', 'b', 1]
        self.assertTrue(first and second and not set(first) & set(second))
        self.assertEqual([len(lines[edge]) for edge in lines], [2, 2, 2, 0])

    def test_a_grid_keeps_all_routes_that_it_has_without_pins(self):
        graph = self.networkx.convert_node_labels_to_integers(self.networkx.grid_2d_graph(5, 5))
        graph.add_edges_from((a, (a * 7 + 3) % 25) for a in range(25))
        for node in graph:
            graph.nodes[node].update(pos=(node % 5 * 90, node // 5 * 90), size=(40, 30))
        lines = reroute.route_graph(graph)
        self.assertTrue(all(lines[edge] for edge in graph.edges if edge[0] != edge[1]))

    def test_nodes_without_a_place(self):
        graph = self.networkx.Graph([(1, 2)])
        with self.assertRaisesRegex(ValueError, 'node 1 has no pos'):
            reroute.route_graph(graph, size=(20, 20))
        with self.assertRaisesRegex(ValueError, 'node 2 has no size'):
            reroute.route_graph(graph, {1: (0, 0), 2: (50, 50)}, {1: (20, 20), 2: 7})


class CommandTest(LibraryTest):
    def test_a_picture_and_a_diagram(self):
        with tempfile.TemporaryDirectory() as folder:
            diagram = f'{TOP}/examples/move_a_box'
            said = run('-m', 'reroute', f'{diagram}.gml', '-s', f'{diagram}.script', '-o', f'{folder}/out.svg')
            self.assertEqual(said, ('', 0, ''))
            with open(f'{folder}/out.svg') as file:
                self.assertTrue(file.read().startswith('<svg'))
        text, status, _ = run('-m', 'reroute', STRAIGHT_FILE)
        self.assertEqual(status, 0)
        self.assertIn('Line', text)

    def test_faults_are_one_line(self):
        for words, wanted in (((f'{TOP}/nowhere.gml',), 'nowhere.gml'), ((f'{TOP}/README.md',), r'README\.md: Syntax at 19'),
                              ((STRAIGHT_FILE, '-s', f'{TOP}/examples/refused.script'), r'refused\.script: line \d+: X'),
                              ((STRAIGHT_FILE, '-o', '/nowhere/out.gml'), 'nowhere')):
            text, status, said = run('-m', 'reroute', *words)
            self.assertEqual((text, status, said.count('\n')), ('', 1, 1))
            self.assertRegex(said, wanted)
        self.assertEqual(run('-m', 'reroute')[1], 2)
        self.assertEqual(run('-m', 'reroute', '--version')[0], f'reroute {reroute.__version__}\n')


if __name__ == '__main__':
    unittest.main()
