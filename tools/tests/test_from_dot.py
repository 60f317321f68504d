"""Tries from-dot: labels, looks, sizes, pins, limits and broken input. What runs dot is left out where dot is not there."""
import os
import shutil
import subprocess
import sys
import unittest

TOP = os.path.dirname(os.path.dirname(os.path.dirname(os.path.realpath(__file__))))
sys.path.insert(0, f'{TOP}/tools')
import gml  # noqa: E402

FROM_DOT, OTHERS = f'{TOP}/tools/from-dot', f'{TOP}/examples/other_tools'
LIVE = os.environ.get('REROUTE_LIVE', f'{TOP}/out/reroute_live')
PLAIN = ('graph 1 3 2\nnode a 0.5 1.5 1 0.5 a solid box black lightgrey\nnode "b c" 2 0.25 1 0.5 "two\\nlines" solid box black '
         'lightgrey\nedge a "b c" 4 0 0 1 1 2 2 3 3 says 1 1 solid black\nstop\n').encode()
BROKEN = [b'', b' \n', b'graph', b'graph 1 2', b'graph 1 2 x\n', b'graph 1 2 3\nnode a\n', b'graph 1 2 3\nnode a 1 1 x 1\n',
          b'graph 1 2 3\nnode a 1 1 -1 1\n', b'graph 1 2 3\nnode "a 1 1 1 1\n', b'graph 1 2 3\nedge a b 0\n',
          b'graph 1 2 3\nwhat\n', b'{', b'{}x', b'[]', b'{"objects": [{"pos": 1}]}', b'{"objects": 3}',
          b'{"objects": [], "edges": [{}]}', b'\xff\xfe']


def run(data, *options, live=LIVE):
    return subprocess.run([sys.executable, FROM_DOT, *options], input=data, capture_output=True, timeout=120,
                          env={**os.environ, 'REROUTE_LIVE': live})


def made(data, *options):
    done = run(data, *options)
    if done.returncode:
        raise AssertionError(done.stderr)
    return gml.read(done.stdout)


def labels(diagram):
    return [gml.text_of(gml.first(node.pairs, 'label')) for node in diagram.nodes]


def looks(one):
    graphics = gml.first_list(one.pairs, 'graphics')
    return {pair.key: gml.text_of(pair.value) for pair in graphics if pair.key not in 'xywh'}


class Plain(unittest.TestCase):
    def test_places_and_labels(self):
        found = made(PLAIN, '--plain')
        self.assertEqual([node[3:7] for node in found.nodes], [(36000, 36000, 72000, 36000), (144000, 126000, 72000, 36000)])
        self.assertEqual(labels(found), ['a', 'two\nlines'])
        self.assertEqual(gml.first(found.nodes[1].pairs, 'name'), '"b c"')
        self.assertEqual([gml.first(edge.pairs, 'label') for edge in found.edges], ['"says"'])
        self.assertEqual(made(PLAIN, '--plain', '--scale', '1').nodes[1][3:7], (2000, 1750, 1000, 500))

    def test_settings(self):
        self.assertEqual(made(PLAIN, '--plain')[:3], (50000, 12000, 8000))
        self.assertEqual(made(PLAIN, '--plain', '--buffer', '5', '--nudge', '0')[:3], (50000, 5000, 0))
        self.assertEqual(gml.first_list(made(PLAIN, '--without-pins').graph, 'router'), [])

    def test_files_of_other_tools(self):
        for name, nodes, edges in (('labels', 3, 2), ('orders', 5, 7)):
            with open(f'{OTHERS}/{name}.plain', 'rb') as file:
                found = made(file.read(), '--plain')
            self.assertEqual(len(found.nodes) >= nodes and len(found.edges) >= edges, True)
            self.assertTrue(all(all(edge.classes) for edge in found.edges if edge.source != edge.target))

    def test_too_large(self):
        nodes = ''.join(f'node n{k} {k} 0 0.5 0.5 n solid box black white\n' for k in range(257)).encode()
        done = run(b'graph 1 300 2\n' + nodes + b'stop\n', '--plain')
        self.assertEqual((done.returncode, done.stdout), (1, b''))
        self.assertEqual(done.stderr, b'from-dot: 257 nodes, and reroute takes at most 256\n')
        done = run(b'graph 1 300 2\n' + nodes[:80].rsplit(b'\n', 1)[0] + b'\n' + b'edge n0 n0 0\n' * 513 + b'stop\n', '--plain')
        self.assertEqual((done.returncode, done.stderr), (1, b'from-dot: 513 edges, and reroute takes at most 512\n'))

    def test_broken(self):
        for data in BROKEN:
            with self.subTest(data[:30]):
                done = run(data, '--plain')
                self.assertEqual((done.returncode, done.stdout), (2, b''))
                self.assertRegex(done.stderr, rb'\Afrom-dot: [^\n]+\n\Z')

    def test_no_program(self):
        done = run(PLAIN, live='/nowhere/reroute_live')
        self.assertEqual((done.returncode, done.stdout), (2, b''))
        self.assertIn(b'/nowhere/reroute_live cannot be run', done.stderr)


@unittest.skipUnless(os.access(LIVE, os.X_OK), 'there is no reroute_live')
class Pins(unittest.TestCase):
    def test_buffer_and_pins(self):
        found = made(PLAIN)
        self.assertEqual(found[:3], (50000, 12000, 8000))
        self.assertEqual([len(node.pins) for node in found.nodes], [1, 1])
        self.assertEqual(found.edges[0].classes, (1, 1))
        self.assertEqual(made(PLAIN, '--buffer', '7').buffer, 7000)
        self.assertEqual(run(PLAIN).stdout, run(PLAIN).stdout)


@unittest.skipUnless(shutil.which('dot'), 'there is no dot')
class Dot(unittest.TestCase):
    def test_labels_without_markup(self):
        found = made(b'digraph { r [shape=record label="{<in> up|{<a> x\\|y|<b> z}}"] h [label=<<b>bold</b> &lt;<br/>next>] '
                     b'n [label="\\N has\\ntwo"] e [label=""] r:a -> h:n [label="goes\\nthere"] }', '--plain')
        self.assertEqual(labels(found), ['up\nx|y z', 'bold <\nnext', 'n has\ntwo', ''])
        self.assertEqual(gml.text_of(gml.first(found.edges[0].pairs, 'label')), 'goes\nthere')

    def test_looks(self):
        found = made(b'graph { a [shape=diamond style="filled,dashed" fillcolor=gold color=red] b [shape=box] '
                     b'a -- b [color=blue style=dotted dir=both arrowtail=dot] a -- b }', '--plain')
        self.assertEqual(looks(found.nodes[0]), {'type': 'diamond', 'fill': '#ffd700', 'outline': '#ff0000', 'style': 'filled,dashed'})
        self.assertEqual(looks(found.nodes[1]), {'type': 'box'})
        self.assertEqual(looks(found.edges[0]), {'style': 'dotted', 'fill': '#0000ff', 'sourceArrow': 'dot', 'targetArrow': 'normal'})
        self.assertEqual(looks(found.edges[1]), {})
        self.assertEqual(gml.first(found.graph, 'directed'), '0')

    def test_three_ways_in(self):
        data = b'digraph { a -> b -> c; a -> c; subgraph cluster_x { label="frame" c d } b -> b }'
        json = subprocess.run(['dot', '-Tjson'], input=data, capture_output=True).stdout
        plain = subprocess.run(['dot', '-Tplain'], input=data, capture_output=True).stdout
        found = [made(text, '--plain') for text in (data, json, plain)]
        for other in found[1:]:
            self.assertEqual([edge[2:4] for edge in other.edges], [edge[2:4] for edge in found[0].edges])
            self.assertEqual(labels(other), labels(found[0]))
            for one, two in zip(found[0].nodes, other.nodes):
                self.assertTrue(all(abs(p - q) <= 40 for p, q in zip(one[3:7], two[3:7])))
        self.assertEqual(len(found[0].nodes), 4)

    def test_no_layout(self):
        done = run(b'digraph { a -> ', '--plain')
        self.assertEqual((done.returncode, done.stdout), (2, b''))
        self.assertRegex(done.stderr, rb'\Afrom-dot: dot: [^\n]+\n\Z')


if __name__ == '__main__':
    unittest.main()
