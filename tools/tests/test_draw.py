"""Tries reroute-draw: each kind of input and output, its options, and what it says of edges without a route."""
import importlib.machinery
import importlib.util
import json
import os
import re
import shutil
import subprocess
import sys
import tempfile
import unittest
import unittest.mock
import xml.etree.ElementTree

TOP = os.path.dirname(os.path.dirname(os.path.dirname(os.path.realpath(__file__))))
DRAW, EXAMPLES = f'{TOP}/tools/reroute-draw', f'{TOP}/examples'
REROUTE = os.environ.get('REROUTE', f'{TOP}/out/reroute')
LIVE = os.environ.get('REROUTE_LIVE', f'{TOP}/out/reroute_live')
TWO = (b'graph [ node [ id 1 graphics [ x 0 y 0 w 20 h 20 ] ] node [ id 2 graphics [ x 100 y 0 w 20 h 20 ] ] '
       b'edge [ source 1 target 2 ] ]')
# Four boxes stand 14 units from the first, so that with a buffer of 8 or more each way out of it is closed.
WALLS = b' '.join(b'node [ id %d graphics [ x %d y %d w 20 h 20 ] ]' % wall
                  for wall in ((3, 34, 0), (4, -34, 0), (5, 0, 34), (6, 0, -34)))
TIGHT = TWO.replace(b' edge', b' %s edge' % WALLS)
DOT = b'digraph { a -> b -> c; a -> c }'


def module():
    loader = importlib.machinery.SourceFileLoader('reroute_draw', DRAW)
    found = importlib.util.module_from_spec(importlib.util.spec_from_loader(loader.name, loader))
    with unittest.mock.patch.object(sys, 'dont_write_bytecode', True):
        loader.exec_module(found)
    return found


def run(*words, data=b'', path=None):
    environment = {**os.environ, 'REROUTE': REROUTE, 'REROUTE_LIVE': LIVE, **({'PATH': path} if path is not None else {})}
    return subprocess.run([sys.executable, DRAW, *words], input=data, capture_output=True, timeout=120, env=environment)


class Kinds(unittest.TestCase):
    def test_dot_is_told_from_gml(self):
        is_dot = module().is_dot
        for data in (b'digraph { a -> b }', b'strict graph "a b" {', b'// a comment\n/* b */ DiGraph g\n{', b'# line\ngraph x_1{',
                     b'\n\n  graph{}'):
            self.assertTrue(is_dot('-', data), data)
        for data in (TWO, b'graph\n[\n]', b'Creator "yFiles"\ngraph [ ]', b'# edge 1: cost 3.000\ngraph [ ]', b'', b'graph',
                     b'graph [ label "graph {" ]'):
            self.assertFalse(is_dot('-', data), data)
        self.assertTrue(is_dot('x.GV', b''))
        self.assertFalse(is_dot('x.gml', b'digraph { }'))

    def test_progress_is_said_on_long_runs_alone(self):
        draw, printed, now = module(), [], [0.0]
        with unittest.mock.patch.object(draw.time, 'monotonic', lambda: now[0]), \
                unittest.mock.patch('builtins.print', lambda text, **_: printed.append(text)):
            say = draw.progress()
            for now[0] in (0.5, 1.9, 2.1, 2.5, 3.2):
                say(f'at {now[0]}')
        self.assertEqual(printed, ['reroute-draw: at 2.1', 'reroute-draw: at 3.2'])


class Arguments(unittest.TestCase):
    def assert_fault(self, done, text):
        self.assertEqual((done.returncode, done.stdout), (2, b''), done.stderr)
        self.assertIn(text, done.stderr.decode())
        self.assertNotIn('Traceback', done.stderr.decode())

    def test_help(self):
        done = run('--help')
        self.assertEqual(done.returncode, 0)
        self.assertTrue(all(word in done.stdout.decode() for word in ('--script', '--pins', '--buffer', '--report')))

    def test_what_is_not_understood(self):
        self.assert_fault(run('x.gml', '-o', 'x.doc'), 'the suffix is none of .svg')
        self.assert_fault(run('x.gml', '--report', 'json'), 'needs -o')
        self.assert_fault(run('x.gml', '--buffer', 'wide'), 'is no length')
        self.assert_fault(run('x.gml', '--pins', 'some'), 'invalid choice')
        self.assert_fault(run(), 'FILE')

    def test_files_that_are_none(self):
        self.assert_fault(run('/no such file.gml'), 'reroute-draw: /no such file.gml: No such file or directory')
        self.assert_fault(run(TOP), 'Is a directory')


@unittest.skipUnless(os.path.exists(REROUTE) and os.path.exists(LIVE), 'reroute and reroute_live are not built')
class Draws(unittest.TestCase):
    def setUp(self):
        self.folder = tempfile.TemporaryDirectory()
        self.addCleanup(self.folder.cleanup)

    def file(self, name, data):
        with open(f'{self.folder.name}/{name}', 'wb') as file:
            file.write(data)
        return f'{self.folder.name}/{name}'

    def out(self, *words, kind='svg', data=b'', status=0):
        """What is written into a file of this kind."""
        out = f'{self.folder.name}/out.{kind}'
        done = run(*words, '-o', out, data=data)
        self.assertEqual(done.returncode, status, done.stderr)
        with open(out, 'rb') as file:
            return file.read(), done

    def test_svg(self):
        svg, done = self.out(f'{EXAMPLES}/move_a_box.gml')
        xml.etree.ElementTree.fromstring(svg)
        self.assertEqual(len(re.findall(rb'id="edge-\d+"', svg)), 5)
        self.assertNotIn(b'unrouted"', svg)
        self.assertEqual((done.stdout, done.stderr), (b'', b''))

    def test_the_same_picture_each_time(self):
        self.assertEqual(run('-', data=TIGHT).stdout, run('-', data=TIGHT).stdout)

    def test_standard_input_and_output(self):
        done = run('-', data=TWO)
        self.assertTrue(done.stdout.startswith(b'<svg '))
        self.assertEqual(run('-', '-o', '-', '--format', 'json', data=TWO).stdout[:10], b'{"boxes": ')

    def test_gml_is_what_reroute_takes(self):
        written, _ = self.out('-', data=TIGHT, kind='gml')
        checked = subprocess.run([REROUTE, 'check', self.file('made.gml', written)], capture_output=True)
        self.assertEqual((checked.returncode, checked.stdout.split(b'cost')[0]), (0, b'edge 1: '))

    def test_json(self):
        found = json.loads(self.out('-', '--pins', 'none', data=TWO, kind='json')[0])
        self.assertEqual([(box['id'], box['x'], box['w']) for box in found['boxes']], [(1, 0, 20), (2, 100, 20)])
        self.assertEqual(found['edges'], [{'edge': 1, 'source': 1, 'target': 2, 'label': '', 'cost': 100,
                                           'line': [[0, 0], [100, 0]]}])

    def test_png_and_pdf(self):
        if not shutil.which('rsvg-convert') and not shutil.which('inkscape'):
            self.skipTest('neither rsvg-convert nor inkscape is installed')
        self.assertEqual(self.out('-', data=TWO, kind='png')[0][:8], b'\x89PNG\r\n\x1a\n')
        self.assertEqual(self.out('-', data=TWO, kind='pdf')[0][:5], b'%PDF-')

    def test_without_a_program_for_png(self):
        done = run('-', '--format', 'png', data=TWO, path='/nowhere')
        self.assertEqual((done.returncode, done.stdout), (2, b''))
        self.assertIn(b'there is no program rsvg-convert or inkscape', done.stderr)

    @unittest.skipUnless(shutil.which('dot'), 'Graphviz is not installed')
    def test_dot(self):
        svg, _ = self.out(self.file('g.dot', DOT))
        self.assertEqual([len(re.findall(rb'id="%s-\d+"' % kind, svg)) for kind in (b'node', b'edge')], [3, 3])
        self.assertNotIn(b'unrouted"', svg)
        self.assertEqual(run('-', data=DOT).stdout, svg)

    @unittest.skipUnless(shutil.which('dot'), 'Graphviz is not installed')
    def test_the_looks_of_dot_are_drawn(self):
        svg = run('-', data=b'digraph { a [shape=box style="rounded,filled" fillcolor="#dbeafe"]; b [shape=cylinder]; '
                            b'a -> b [color=red style=dashed dir=both] }').stdout.decode()
        self.assertRegex(svg, r'<rect [^>]*rx="9" class="shape filled" style="fill: #dbeafe"')
        self.assertRegex(svg, r'id="node-2".*<polygon [^>]*class="shape"')
        self.assertRegex(svg, r'id="edge-1".*stroke-dasharray: 5 4')
        self.assertIn('.k0, .box .k0 { stroke: #ff0000; }', svg)
        self.assertEqual(len(re.findall('id="edge-1-(source|target)"', svg)), 2)

    @unittest.skipUnless(shutil.which('dot'), 'Graphviz is not installed')
    def test_dot_that_is_none(self):
        done = run('-', data=b'digraph { a -> ')
        self.assertEqual((done.returncode, done.stdout), (2, b''))
        self.assertIn(b'syntax error', done.stderr)
        self.assertNotIn(b'Traceback', done.stderr)

    def test_a_script(self):
        script = self.file('s', b'begin\nmove 2 100 90\ncommit\n')
        boxes = json.loads(self.out('-', '--script', script, data=TWO, kind='json')[0])['boxes']
        self.assertEqual((boxes[1]['x'], boxes[1]['y']), (100, 90))

    def test_a_script_that_is_refused(self):
        svg, done = self.out('-', '--script', self.file('s', b'begin\ndrop 1\ncommit\n'), data=TWO, status=1)
        self.assertIn(b'id="edge-1"', svg)
        self.assertIn(b'line 2 of the script (drop 1): edge 1 ends at this node: cut it first', done.stderr)

    def settings(self, *words, data=TWO):
        report = json.loads(self.out('-', '--report', 'json', *words, data=data)[1].stdout)
        return report['buffer'], report['nudge'], report['pins']

    def test_buffer_and_nudge(self):
        self.assertEqual(self.settings('--buffer', '7', '--nudge', '5')[:2], (7, 5))
        self.assertEqual(self.settings('--pins', 'none'), (12, 8, 0))
        own = TWO.replace(b'graph [', b'graph [ router [ buffer 9 nudge 3 ]')
        self.assertEqual(self.settings('--pins', 'plain', data=own), (9, 3, 2))
        self.assertEqual(self.settings(data=own)[:2], (9, 3))

    def test_a_buffer_that_leaves_no_route_is_made_smaller(self):
        self.assertEqual(self.settings('--pins', 'none', data=TIGHT), (6, 8, 0))

    def test_edges_without_a_route_are_counted_with_the_reason(self):
        svg, done = self.out(f'{EXAMPLES}/no_route.gml')
        self.assertIn(b'edge 1: 1 to 2, no legal route', svg)
        said = done.stderr.decode().split('\n')
        self.assertEqual(said[0], 'reroute-draw: 1 of 2 edges have no route')
        self.assertRegex(said[1], r'reroute-draw: edge 1: .*its target, box 2')
        report = json.loads(self.out(f'{EXAMPLES}/no_route.gml', '--report', 'json')[1].stdout)
        self.assertEqual([lost['edge'] for lost in report['without_route']], [1])
        self.assertIn('box 2', report['without_route'][0]['why'])

    def test_the_report_counts_what_is_drawn(self):
        data = TWO.replace(b'y 0 w 20 h 20 ] ] edge', b'y 60 w 20 h 20 ] ] edge')
        report = json.loads(self.out('-', '--pins', 'none', '--report', 'json', data=data)[1].stdout)
        self.assertEqual([report[key] for key in ('boxes', 'edges', 'bends', 'crossings', 'length')], [2, 1, 1, 0, 160])

    def test_what_reroute_refuses(self):
        for data, text in ((b'graph [ node [ id 1 ] ]', b'has no place'), (b'hello', b'not GML'), (b'', b'no list graph'),
                           (b'graph [ ' + b'node [ id 1 graphics [ x 0 y 0 ] ] ' * 2 + b']', b'stands twice')):
            for pins in ('best', 'plain', 'none'):
                done = run('-', '--pins', pins, data=data)
                self.assertEqual((done.returncode, done.stdout), (2, b''), (data, pins))
                self.assertRegex(done.stderr, rb'\Areroute-draw: [^\n]+\n\Z')
        boxes = b' '.join(b'node [ id %d graphics [ x %d y 0 ] ]' % (k, 99 * k) for k in range(257))
        self.assertIn(b'256', run('-', data=b'graph [ %s ]' % boxes).stderr)

    def test_version(self):
        self.assertRegex(run('--version').stdout.decode(), r'\Areroute-draw \d+\.\d+\.\d+\n\Z')


if __name__ == '__main__':
    unittest.main()
