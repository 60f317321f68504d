"""Tests reroute-dot and reroute-as-dot, where Graphviz is there: routed DOT, options, faults, and the programs that call dot.

With REROUTE_LONG=1 also the files of Graphviz's documentation (graphviz-doc), beside splines=ortho.
"""
import collections
import glob
import gzip
import json
import math
import os
import re
import shutil
import statistics
import subprocess
import sys
import tempfile
import time
import unittest

TOP = os.path.dirname(os.path.dirname(os.path.dirname(os.path.realpath(__file__))))
LIVE = os.path.abspath(os.environ.get('REROUTE_LIVE') or f'{TOP}/out/reroute_live')
DOT, AS_DOT, EXAMPLES = f'{TOP}/tools/reroute-dot', f'{TOP}/tools/reroute-as-dot', f'{TOP}/examples/graphviz'
DOCUMENTATION = '/usr/share/doc/graphviz/examples/graphs'
ENVIRONMENT = {**os.environ, 'REROUTE_LIVE': LIVE}
PATIENCE = 120
# How many edges of each example are routed; all others are loops.
ROUTED = {'buckets': 6, 'clusters': 13, 'family': 24, 'layers': 61, 'lift': 7, 'machine': 11, 'network': 14, 'pipeline': 13,
          'records': 6, 'shapes': 17}
OWN_KEYS = ('_gvid', 'head', 'tail', 'pos', 'lp', 'xlp', 'head_lp', 'tail_lp', 'nodes', 'edges', 'subgraphs', 'bb')
SIDES = {'n': (0.5, 1), 's': (0.5, 0), 'e': (1, 0.5), 'w': (0, 0.5), 'nw': (0, 1), 'ne': (1, 1), 'sw': (0, 0), 'se': (1, 0)}


def run(words, text=None, **options):
    data = text.encode() if isinstance(text, str) else text
    return subprocess.run(words, input=data, stdout=subprocess.PIPE, stderr=subprocess.PIPE, timeout=PATIENCE,
                          **{'env': ENVIRONMENT, **options})


def graph_of(text):
    """The graph in some DOT with places, and what is drawn of it; reading it may neither take long nor warn."""
    done = subprocess.run(['neato', '-n2', '-Gnotranslate=true', '-Tjson'], input=text, stdout=subprocess.PIPE, stderr=subprocess.PIPE,
                          timeout=10)
    if done.returncode or done.stderr:
        raise AssertionError(done.stderr.decode())
    return json.loads(done.stdout.decode('utf-8', 'replace'), strict=False)


# ---- curves ----

def spots_of(edge):
    """The tips of arrow heads of an edge and the points of its curve."""
    tips, points = {}, []
    for word in edge['pos'].split(';')[0].split():
        kind = word[0] if word[0] in 'se' else None
        spot = tuple(float(v) for v in (word[2:] if kind else word).split(',')[:2])
        if kind:
            tips[kind] = spot
        else:
            points.append(spot)
    return tips, points


def is_flat(points, i):
    return max(p[i] for p in points) - min(p[i] for p in points) <= 0.02


def corners_of(points):
    """The corners of a curve of straight pieces and rounded corners; raises where it is something else."""
    found = [points[0]]
    for k in range(0, len(points) - 1, 3):
        a, b, c, d = points[k:k + 4]
        if is_flat((a, b, c, d), 0) or is_flat((a, b, c, d), 1):
            found.append(d)
            continue
        first = 0 if is_flat((a, b), 0) else 1
        radius = max(abs(a[i] - d[i]) for i in (0, 1))
        middle = tuple((a[i] + 3 * b[i] + 3 * c[i] + d[i]) / 8 for i in (0, 1))
        corner, center = ((a[0], d[1]), (d[0], a[1])) if first == 0 else ((d[0], a[1]), (a[0], d[1]))
        if not is_flat((a, b, corner), first) or not is_flat((c, d, corner), 1 - first):
            raise AssertionError(f'no corner on the axes: {a} {b} {c} {d}')
        if abs(math.dist(middle, center) - radius) > 0.02 + 0.01 * radius:
            raise AssertionError(f'no quarter of a circle: {a} {b} {c} {d}')
        found += [corner, d]
    return found


def line_of(edge):
    """The line of an edge, from tip to tip."""
    tips, points = spots_of(edge)
    line = corners_of(points)
    return [*([tips['s']] if 's' in tips else []), *line, *([tips['e']] if 'e' in tips else [])]


def runs_of(line):
    """The runs of a line by which both coordinates do not change, joined: (axis, where, from, to)."""
    found = []
    for (x, y), (u, v) in zip(line, line[1:]):
        if abs(x - u) < 0.3 < abs(y - v):
            new = ('v', (x + u) / 2, min(y, v), max(y, v))
        elif abs(y - v) < 0.3 < abs(x - u):
            new = ('h', (y + v) / 2, min(x, u), max(x, u))
        else:
            continue
        if found and found[-1][0] == new[0] and abs(found[-1][1] - new[1]) < 0.3:
            old = found.pop()
            new = (old[0], old[1], min(old[2], new[2]), max(old[3], new[3]))
        found.append(new)
    return found


# ---- outlines ----

def rectangle(x, y, w, h):
    return [(x - w / 2, y - h / 2), (x + w / 2, y - h / 2), (x + w / 2, y + h / 2), (x - w / 2, y + h / 2)]


def box_around(points):
    xs, ys = [p[0] for p in points], [p[1] for p in points]
    return min(xs), min(ys), max(xs), max(ys)


def outline_of(node):
    """The largest shape that is drawn of a node, its cells in HTML, or its box."""
    x, y = (float(v) for v in node['pos'].split(',')[:2])
    best = rectangle(x, y, float(node['width']) * 72, float(node['height']) * 72)
    shapes = []
    for draw in node.get('_draw_', ()):
        if draw['op'] in 'eE':
            center_x, center_y, w, h = draw['rect']
            shapes.append([(center_x + w * math.cos(k * math.pi / 360), center_y + h * math.sin(k * math.pi / 360)) for k in range(720)])
        elif draw['op'] in 'pP':
            shapes.append(draw['points'])
    if not node.get('_draw_'):
        cells = [spot for cell in cells_of(node) for spot in cell]
        if cells:
            left, low, right, high = box_around(cells)
            return [(left, low), (right, low), (right, high), (left, high)]
    whole = [shape for shape in shapes if area(shape) > 0.4 * area(best)]
    return max(whole, key=area, default=best)


def cells_of(node):
    return [draw['points'] for draw in node.get('_ldraw_', ()) if draw['op'] in 'pP']


def area(points):
    left, low, right, high = box_around(points)
    return (right - left) * (high - low)


def distance(spot, polygon):
    """How far a place is from the sides of a polygon."""
    def from_side(p, q):
        length = math.dist(p, q) ** 2
        part = max(0, min(1, sum((spot[i] - p[i]) * (q[i] - p[i]) for i in (0, 1)) / length)) if length else 0
        return math.dist(spot, [p[i] + (q[i] - p[i]) * part for i in (0, 1)])
    return min(from_side(p, q) for p, q in zip(polygon, [*polygon[1:], polygon[0]]))


def fields_of(node):
    """The fields of a record by their names, as boxes."""
    places = [[float(v) for v in field.split(',')] for field in node.get('rects', '').split()]
    names = [re.match(r'\s*<(\w+)>', field) for field in re.sub(r'[{}]', '', node['label']).split('|')]
    return {name[1]: place for name, place in zip(names, places) if name}


@unittest.skipUnless(shutil.which('gvpr') and shutil.which('neato'), 'Graphviz is not there')
@unittest.skipUnless(os.path.exists(LIVE), f'{LIVE} is not there')
class DotTest(unittest.TestCase):
    """A test that needs Graphviz and reroute_live."""

    def routed(self, text, *options):
        done = run([DOT, *options], text)
        self.assertEqual(done.returncode, 0, done.stderr.decode())
        return done.stdout

    def fault(self, words, status, said, text='', **options):
        done = run(words, text, **options)
        self.assertEqual((done.returncode, done.stdout), (status, b''))
        self.assertIn(said, done.stderr.decode())
        self.assertEqual(done.stderr.count(b'\n'), 1, done.stderr.decode())


class ExamplesTest(DotTest):
    """The examples, which have what people write in DOT."""

    @classmethod
    def setUpClass(cls):
        cls.graphs = {}
        for name in ROUTED:
            done = run([DOT, '--report', f'{EXAMPLES}/{name}.gv'])
            if done.returncode:
                raise AssertionError(f'{name}: {done.stderr.decode()}')
            cls.graphs[name] = graph_of(done.stdout), done.stderr.decode(), done.stdout

    def each(self):
        for name, (graph, *_) in self.graphs.items():
            nodes = {node['_gvid']: node for node in graph['objects']}
            yield name, nodes, [edge for edge in graph['edges'] if edge['tail'] != edge['head']]

    def test_all_edges_are_routed(self):
        self.assertEqual(set(ROUTED), {os.path.basename(file)[:-3] for file in glob.glob(f'{EXAMPLES}/*.gv')})
        for name, _, edges in self.each():
            with self.subTest(name):
                self.assertEqual(len(edges), ROUTED[name])
                self.assertIn(f'{ROUTED[name]} edges routed', self.graphs[name][1])
                self.assertIn('0 without a route', self.graphs[name][1])

    def test_corners_are_on_the_axes(self):
        for name, _, edges in self.each():
            for edge in edges:
                with self.subTest(name, edge=edge['_gvid']):
                    line = line_of(edge)
                    self.assertTrue(all(is_flat(run, 0) or is_flat(run, 1) for run in zip(line, line[1:])), line)

    def test_ends_are_on_the_outlines(self):
        for name, nodes, edges in self.each():
            clusters = {one['name']: one for one in nodes.values() if 'bb' in one}
            for edge in edges:
                line = line_of(edge)
                for key, cluster, spot in (('tail', edge.get('ltail'), line[0]), ('head', edge.get('lhead'), line[-1])):
                    with self.subTest(name, edge=edge['_gvid'], end=key):
                        x, y, u, v = (float(value) for value in clusters[cluster]['bb'].split(',')) if cluster else (0, 0, 0, 0)
                        outline = rectangle((x + u) / 2, (y + v) / 2, u - x, v - y) if cluster else outline_of(nodes[edge[key]])
                        self.assertLess(distance(spot, outline), 0.5)

    def test_no_line_runs_through_a_node(self):
        for name, nodes, edges in self.each():
            boxes = {number: box_around(outline_of(node)) for number, node in nodes.items() if 'pos' in node and 'bb' not in node}
            for edge in edges:
                for axis, at, low, high in runs_of(line_of(edge)):
                    for number, (x, y, u, v) in boxes.items():
                        if number not in (edge['tail'], edge['head']):
                            across, along = ((x, u), (y, v)) if axis == 'v' else ((y, v), (x, u))
                            is_through = across[0] + 1 < at < across[1] - 1 and low < along[1] - 1 and high > along[0] + 1
                            self.assertFalse(is_through, f'{name}: edge {edge["_gvid"]} through {nodes[number]["name"]}')

    def test_ports_are_at_their_places(self):
        count = 0
        for name, nodes, edges in self.each():
            for edge in edges:
                line = line_of(edge)
                for key, spot in (('tail', line[0]), ('head', line[-1])):
                    if f'{key}port' in edge:
                        with self.subTest(name, edge=edge['_gvid'], end=key):
                            self.check_port(nodes[edge[key]], edge[f'{key}port'], spot)
                            count += 1
        self.assertEqual(count, 24)

    def check_port(self, node, port, spot):
        """That a line ends in the field or the cell, and by the side that a compass point names."""
        field, _, point = port.partition(':')
        left, low, right, high = box_around(outline_of(node))
        cells = dict(zip(('id', 'name', 'n'), map(box_around, cells_of(node)))) if node['name'] == 'land' else fields_of(node)
        if field in cells:
            x, y, u, v = cells[field]
            self.assertTrue(x - 0.5 <= spot[0] <= u + 0.5 and y - 0.5 <= spot[1] <= v + 0.5, (spot, cells[field]))
            if point:
                self.assertAlmostEqual(spot['ew'.find(point) < 0], {'w': left, 'e': right, 's': low, 'n': high}[point], delta=0.5)
        else:
            across, along = SIDES[field]
            self.assertLess(math.dist(spot, (left + (right - left) * across, low + (high - low) * along)), 0.5)

    def test_all_else_stays(self):
        def known(one):
            return sorted((key, value) for key, value in one.items() if key not in OWN_KEYS and not key.startswith('_'))
        for name, (graph, _, _) in self.graphs.items():
            with self.subTest(name):
                before = graph_of(run(['dot', '-Tdot', f'{EXAMPLES}/{name}.gv']).stdout)
                for key in ('objects', 'edges'):
                    old, new = (sorted(known({**one, 'arrowsize': None} if key == 'edges' else one) for one in some[key]) for some in (before, graph))
                    self.assertEqual(old, new)
                places = [{one['name']: one['pos'] for one in some['objects'] if 'pos' in one} for some in (before, graph)]
                self.assertEqual(*places)
                loops = [[one['pos'] for one in some['edges'] if one['tail'] == one['head']] for some in (before, graph)]
                self.assertEqual(*loops)
                self.assertTrue(all(0 < float(one.get('arrowsize', 1)) <= 1 for one in graph['edges']))

    def test_labels_stand_beside_their_lines(self):
        for name, _, edges in self.each():
            for edge in edges:
                if 'lp' in edge:
                    spot = tuple(float(v) for v in edge['lp'].split(','))
                    line = line_of(edge)
                    near = min(distance(spot, pair) for pair in zip(line, line[1:]))
                    widest = max(draw['width'] for draw in edge['_ldraw_'] if draw['op'] == 'T')
                    self.assertLess(near, max(widest / 2, 20) + 6, f'{name}: edge {edge["_gvid"]}')


class InterfaceTest(DotTest):
    """What goes in, and which faults are named."""

    def test_places_are_kept(self):
        for wish in ('', 'layout=fdp; '):
            placed = run(['neato', '-Goverlap=false', '-Tdot'], f'graph {{ {wish}a--b--c--d--a; a--c }}').stdout
            places = re.findall(rb'pos="([\d.]+,[\d.]+)"', placed)
            again = graph_of(self.routed(placed))
            self.assertEqual([one['pos'] for one in again['objects']], [place.decode() for place in places])
            for edge in again['edges']:
                corners_of(spots_of(edge)[1])
        anew = graph_of(self.routed(run(['neato', '-Tdot'], 'graph { a--b--c--a }').stdout, '-K', 'dot'))
        self.assertEqual(len({one['pos'].split(',')[1] for one in anew['objects']}), 3)

    def test_labels_beside_ends_and_outside(self):
        graph = graph_of(self.routed('digraph { ranksep=1; a -> b [headlabel=many, taillabel=one, xlabel=of] }'))
        line = line_of(graph['edges'][0])
        for key, spot in (('head_lp', line[-1]), ('tail_lp', line[0])):
            self.assertLess(math.dist(spot, [float(v) for v in graph['edges'][0][key].split(',')]), 36)
        self.assertLess(distance([float(v) for v in graph['edges'][0]['xlp'].split(',')], line), 24)

    def test_the_same_bytes_each_time(self):
        text = run(['dot', '-Tdot', f'{EXAMPLES}/layers.gv']).stdout
        self.assertEqual(self.routed(text), self.routed(text))

    def test_the_result_goes_in_again(self):
        once = self.routed('digraph { a->b->c; a->c [label=x] }')
        places = [[one['pos'] for one in graph_of(text)['objects']] for text in (once, self.routed(once))]
        self.assertEqual(*places)

    def test_wishes_for_lines_do_not_matter(self):
        for wish in ('splines=ortho', 'splines=curved', 'concentrate=true', 'ratio=fill; size="3,3"', 'layout=fdp; overlap=false'):
            with self.subTest(wish):
                graph = graph_of(self.routed(f'digraph {{ {wish}; a->b [label=x]; a->b [label=y]; a->c; b->d; c->d }}'))
                self.assertEqual([len(corners_of(spots_of(edge)[1])) > 1 for edge in graph['edges']], [True] * 5)
        labelled = self.routed('digraph { a->b [label=x] }', '-Gsplines=ortho')
        self.assertEqual(spots_of(graph_of(labelled)['edges'][0]), spots_of(graph_of(self.routed('digraph { a->b [label=x] }'))['edges'][0]))
        self.assertNotIn('pos', graph_of(self.routed('digraph { splines=none; a->b }'))['edges'][0])

    def test_several_graphs(self):
        text = self.routed('digraph one { a->b } digraph two { c->d; c->e }').decode()
        self.assertEqual(re.findall(r'graph (one|two)', text), ['one', 'two'])
        self.assertEqual(text.count('pos="e,'), 3)

    def test_bytes_that_are_no_utf8(self):
        self.assertIn(b'\xe4', self.routed(b'digraph { charset=latin1; "\xe4" -> b }'))

    def test_loops_and_invisible_edges_stay(self):
        text = 'digraph { a->a; a->b [style=invis]; a->c }'
        before, after = graph_of(run(['dot', '-Tdot'], text).stdout), graph_of(self.routed(text))
        same = [old['pos'] == new['pos'] for old, new in zip(before['edges'], after['edges'])]
        self.assertEqual(same, [True, True, False])

    def test_lines_keep_off_loops(self):
        graph = graph_of(self.routed('digraph { rankdir=LR; node [shape=circle]; a->a [label=again]; b->a; c->a; a->d; e->a }'))
        loop = next(edge for edge in graph['edges'] if edge['tail'] == edge['head'])
        x, y, u, v = box_around(spots_of(loop)[1])
        for edge in graph['edges']:
            if edge is not loop:
                for axis, at, low, high in runs_of(line_of(edge)):
                    across, along = ((x, u), (y, v)) if axis == 'v' else ((y, v), (x, u))
                    self.assertFalse(across[0] < at < across[1] and low < along[1] and high > along[0])

    def test_a_fan_into_one_field_spreads(self):
        graph = graph_of(self.routed('digraph { rankdir=LR; r [shape=record, label="<f>a long field|<g>g", height=1.5]; a->r:f; b->r:f; c->r:f }'))
        ends = [line_of(edge)[-1] for edge in graph['edges']]
        self.assertEqual(len(set(ends)), 3)

    def test_no_route_is_said(self):
        done = run([DOT, '-K', 'neato', '-Goverlap=true', '--report'],
                   'graph { node [pin=true]; a [pos="0,0!", width=3, height=3]; b [pos="0.2,0!"]; c [pos="5,0!"]; b--c }')
        self.assertEqual(done.returncode, 0)
        self.assertIn('no route: b to c; it keeps the line of Graphviz', done.stderr.decode())
        self.assertEqual(len(spots_of(graph_of(done.stdout)['edges'][0])[1]), 4)

    def test_an_arrow_head_fits_a_short_run(self):
        graph = graph_of(self.routed('digraph { ranksep=0.2; node [shape=box]; a:s->b:n; a:s->c:n [arrowsize=0.2] }'))
        self.assertLess(float(graph['edges'][0]['arrowsize']), 0.9)
        self.assertEqual(graph['edges'][1]['arrowsize'], '0.2')

    def test_faults(self):
        many = 'digraph { ' + ' '.join(f'n{k} -> n{k + 1};' for k in range(300)) + ' }'
        self.fault([DOT], 2, 'syntax error in line 2', 'digraph {\n a -> }')
        self.fault([DOT, '/nowhere/at.all'], 2, "'/nowhere/at.all'")
        self.fault([DOT], 3, '301 boxes and 300 edges; Reroute takes at most 256 and 512', many)
        self.fault([sys.executable, DOT], 2, 'dot is not there; it comes with Graphviz', 'digraph { a->b }', env={**ENVIRONMENT, 'PATH': '/nowhere'})
        self.fault([DOT, '--live', '/nowhere/live'], 2, '/nowhere/live cannot be run', 'digraph { a->b }')
        self.fault([DOT, '-K', 'nothing'], 2, 'nothing', 'digraph { a->b }')

    def test_help_and_version(self):
        version = run([LIVE, '--version']).stdout.decode().split()[1]
        for program in (DOT, AS_DOT):
            self.assertEqual(run([program, '--version']).stdout.decode(), f'{os.path.basename(program)} {version}\n')
            self.assertIn(b'Graphviz' if program == DOT else b'Sphinx', run([program, '--help']).stdout)


class AsDotTest(DotTest):
    """The program that stands in for dot."""

    def setUp(self):
        folder = tempfile.TemporaryDirectory()
        self.addCleanup(folder.cleanup)
        self.folder = folder.name
        shutil.copy(f'{EXAMPLES}/machine.gv', self.folder)

    def drawn(self, *words, text=None, program=AS_DOT, **options):
        done = run([program, *words], text, cwd=self.folder, **options)
        self.assertEqual(done.returncode, 0, done.stderr.decode())
        return done.stdout

    def check_paths(self, svg, count):
        """That the edges of a picture are lines along the axes."""
        paths = [path for path in re.findall(r'<path [^>]*?\bd="(M[^"]*C[^"]*)"', svg)]
        lines = [corners_of([tuple(float(v) for v in spot.split(',')) for spot in re.findall(r'-?[\d.]+,-?[\d.]+', path)]) for path in paths]
        self.assertEqual(len(lines), count)

    def test_outputs(self):
        self.drawn('-Tsvg', '-omachine.svg', 'machine.gv')
        with open(f'{self.folder}/machine.svg') as file:
            svg = file.read()
        self.assertEqual(svg.count('class="edge"'), 13)
        self.drawn('-O', '-Tsvg', '-Tplain', 'machine.gv')
        with open(f'{self.folder}/machine.gv.svg') as file:
            self.assertEqual(file.read(), svg)
        self.assertEqual(sorted(os.listdir(self.folder)), ['machine.gv', 'machine.gv.plain', 'machine.gv.svg', 'machine.svg'])
        with open(f'{self.folder}/machine.gv') as file:
            self.assertEqual(self.drawn('-T', 'svg', text=file.read()).decode(), svg)

    def test_edges_are_along_the_axes(self):
        self.check_paths(self.drawn('-Tsvg', text='digraph { a->b->c; a->c; c->d; b->d }').decode(), 5)

    def test_options_reach_the_layout(self):
        graph = graph_of(self.drawn('-Grankdir=LR', '-Nshape=box', '-Tdot', text='digraph { a->b }'))
        self.assertEqual(len({one['pos'].split(',')[1] for one in graph['objects']}), 1)

    def test_what_dot_does_itself(self):
        self.assertEqual(run([AS_DOT, '-V']).stderr, run(['dot', '-V']).stderr)
        self.assertEqual(self.drawn('-Tcanon', 'machine.gv'), run(['dot', '-Tcanon', f'{EXAMPLES}/machine.gv']).stdout)
        many = 'digraph { ' + ' '.join(f'n{k} -> n{k + 1};' for k in range(300)) + ' }'
        self.assertEqual(self.drawn('-Tplain', text=many), run(['dot', '-Tplain'], many).stdout)
        wrong = run([AS_DOT, '-Tsvg'], 'digraph {')
        self.assertEqual(wrong.returncode, run(['dot', '-Tsvg'], 'digraph {').returncode)
        self.assertIn(b'syntax error', wrong.stderr)

    def test_other_names(self):
        for name in ('dot', 'neato'):
            os.symlink(AS_DOT, f'{self.folder}/{name}')
        path = {**ENVIRONMENT, 'PATH': self.folder + os.pathsep + os.environ['PATH']}
        for name in ('dot', 'neato'):
            graph = graph_of(self.drawn('-Tdot', text='graph { a--b--c--a }', program=f'{self.folder}/{name}', env=path))
            rows = {one['pos'].split(',')[1] for one in graph['objects']}
            self.assertEqual(len(rows), 3)
            for edge in graph['edges']:
                corners_of(spots_of(edge)[1])

    @unittest.skipUnless(shutil.which('sphinx-build'), 'Sphinx is not there')
    def test_sphinx(self):
        with open(f'{self.folder}/conf.py', 'w') as file:
            file.write(f"extensions = ['sphinx.ext.graphviz']\ngraphviz_dot = {AS_DOT!r}\ngraphviz_output_format = 'svg'\n")
        with open(f'{self.folder}/index.rst', 'w') as file:
            file.write('Orders\n======\n\n.. digraph:: orders\n\n   order -> check -> pack; check -> refuse; refuse -> order\n')
        self.drawn('-q', '-b', 'html', '.', 'out', program='sphinx-build')
        names = glob.glob(f'{self.folder}/out/_images/*.svg')
        self.assertEqual(len(names), 1)
        with open(names[0]) as file:
            self.check_paths(file.read(), 4)

    @unittest.skipUnless(shutil.which('plantuml'), 'PlantUML is not there')
    def test_plantuml(self):
        with open(f'{self.folder}/orders.puml', 'w') as file:
            file.write('@startuml\nclass Order\nclass Item\nclass Payment\nOrder *-- "1..*" Item : holds\nOrder --> Payment\n'
                       'Payment <|-- Card\nPayment <|-- Transfer\n@enduml\n')
        self.drawn('-tsvg', 'orders.puml', program='plantuml', env={**ENVIRONMENT, 'GRAPHVIZ_DOT': AS_DOT})
        with open(f'{self.folder}/orders.svg') as file:
            links = re.findall(r'<path d="([^"]*)" fill="none"', file.read())
        self.assertEqual(len(links), 4)
        for link in links:
            corners_of([tuple(float(v) for v in spot.split(',')) for spot in re.findall(r'-?[\d.]+,-?[\d.]+', link)])


# ---- Graphviz's documentation ----

Counts = collections.namedtuple('Counts', 'crossings overlaps bends edges')


def counted(graph):
    """What is counted of the visible edges of a picture, in the same way for all."""
    lines = []
    for edge in graph.get('edges', ()):
        if edge['tail'] != edge['head'] and 'pos' in edge and 'invis' not in edge.get('style', ''):
            tips, points = spots_of(edge)
            line = points[:1] + points[3::3]
            lines.append(runs_of([*([tips['s']] if 's' in tips else []), *line, *([tips['e']] if 'e' in tips else [])]))
    crossings = overlaps = 0
    for i, one in enumerate(lines):
        for other in lines[:i]:
            for axis, at, low, high in one:
                for axis_2, at_2, low_2, high_2 in other:
                    if axis != axis_2:
                        crossings += low + 0.5 < at_2 < high - 0.5 and low_2 + 0.5 < at < high_2 - 0.5
                    else:
                        overlaps += abs(at - at_2) < 0.8 and min(high, high_2) - max(low, low_2) > 1
    return Counts(crossings, overlaps, sum(max(0, len(line) - 1) for line in lines), len(lines))


@unittest.skipUnless(os.environ.get('REROUTE_LONG'), 'takes minutes; REROUTE_LONG=1 runs it')
@unittest.skipUnless(os.path.isdir(DOCUMENTATION), 'graphviz-doc is not there')
class DocumentationTest(DotTest):
    """The files of Graphviz's documentation, beside splines=ortho in the same run."""

    def files(self):
        for path in sorted(glob.glob(f'{DOCUMENTATION}/directed/*.gv*')) + glob.glob(f'{DOCUMENTATION}/undirected/process.gv*'):
            with (gzip.open if path.endswith('gz') else open)(path, 'rb') as file:
                yield os.path.basename(path).split('.')[0], file.read()

    def test_goals(self):
        ours, theirs, times, names = [], [], [], []
        for name, text in self.files():
            begun = time.perf_counter()
            done = run([DOT], text)
            times.append(time.perf_counter() - begun)
            self.assertEqual(done.returncode, 0, f'{name}: {done.stderr.decode()}')
            self.assertEqual(run(['neato', '-n2', '-Tsvg'], done.stdout).returncode, 0)
            names.append(name)
            ortho = run(['dot', '-Gsplines=ortho', '-Tjson'], text)
            if ortho.returncode == 0:
                pair = counted(json.loads(ortho.stdout.decode('utf-8', 'replace'), strict=False)), counted(graph_of(done.stdout))
                theirs.append(pair[0])
                ours.append(pair[1])
                print(f'{name:14} ortho {tuple(pair[0])}, reroute-dot {tuple(pair[1])}, {times[-1]:.2f} s', flush=True)
        ours, theirs = (Counts(*map(sum, zip(*some))) for some in (ours, theirs))
        median = statistics.median(times)
        print(f'{len(names)} files; ortho {theirs}, reroute-dot {ours}, {median:.2f} s in the middle, {max(times):.2f} s at most')
        self.assertEqual(len(names), 56)
        self.assertLessEqual(ours.crossings, 0.7 * theirs.crossings)
        self.assertLessEqual(ours.bends, 1.2 * theirs.bends)
        self.assertLessEqual(ours.overlaps, 5)
        self.assertLessEqual(median, 0.6)


if __name__ == '__main__':
    unittest.main()
