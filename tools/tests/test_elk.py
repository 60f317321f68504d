"""Tests reroute-elk: sections of the examples in ELK's JSON, what stays as it is, and faults."""
import copy
import json
import os
import subprocess
import unittest

TOP = os.path.dirname(os.path.dirname(os.path.dirname(os.path.realpath(__file__))))
LIVE = os.path.abspath(os.environ.get('REROUTE_LIVE') or f'{TOP}/out/reroute_live')
ELK, EXAMPLES = f'{TOP}/tools/reroute-elk', f'{TOP}/examples/elk'
ENVIRONMENT = {**os.environ, 'REROUTE_LIVE': LIVE}
PATIENCE = 120
# The corners of lines between ports, which nothing else decides, in the coordinates of their containers.
FLOW = {'round': [(66, 60), (70, 60), (70, 30), (170, 30), (170, 60), (214, 60)],
        'down': [(30, 86), (30, 160), (214, 160)], 'older': [(250, 80), (250, 140)]}
CHIP = {'beat': [(66, 170), (124, 170)], 'in': [(0, 130), (10, 130), (10, 55), (34, 55)], 'sum': [(116, 70), (164, 70)],
        'out': [(246, 70), (260, 70), (260, 210), (280, 210)],
        'back': [(246, 70), (250, 70), (250, 110), (30, 110), (30, 85), (34, 85)]}


def run(text, *options):
    data = text if isinstance(text, bytes) else (text if isinstance(text, str) else json.dumps(text)).encode()
    return subprocess.run([ELK, *options], input=data, stdout=subprocess.PIPE, stderr=subprocess.PIPE, timeout=PATIENCE, env=ENVIRONMENT)


def example(name):
    with open(f'{EXAMPLES}/{name}.json') as file:
        return json.load(file)


def corners(section):
    return [(spot['x'], spot['y']) for spot in (section['startPoint'], *section.get('bendPoints', ()), section['endPoint'])]


def walk(node, origin=(0, 0), depth=0):
    """Each node with its place and whether it has children; the root has none."""
    x, y = (origin[0] + node.get('x', 0), origin[1] + node.get('y', 0)) if depth else (0, 0)
    yield node, (x, y)
    for child in node.get('children', ()):
        yield from walk(child, (x, y), depth + 1)


def edges_of(graph):
    return {edge['id']: edge for node, _ in walk(graph) for edge in node.get('edges', ())}


def stripped(graph):
    """The graph without what is written into it."""
    graph = copy.deepcopy(graph)
    for edge in edges_of(graph).values():
        for key in ('sections', 'container', 'junctionPoints'):
            edge.pop(key, None)
        for label in edge.get('labels', ()):
            label.pop('x', None), label.pop('y', None)
    return graph


@unittest.skipUnless(os.path.exists(LIVE), f'{LIVE} is not there')
class ElkTest(unittest.TestCase):
    def routed(self, graph, *options):
        done = run(graph, *options)
        self.assertEqual(done.returncode, 0, done.stderr.decode())
        return json.loads(done.stdout.decode())

    def check(self, graph):
        """That all lines are along the axes, and run through no node that is neither an end nor around one."""
        nodes = {node['id']: (place, node) for node, place in walk(graph)}
        owner = {port['id']: node['id'] for node, _ in walk(graph) for port in node.get('ports', ())}
        around = {}
        for node, _ in walk(graph):
            for child in node.get('children', ()):
                around[child['id']] = node['id']
        for edge in edges_of(graph).values():
            for section in edge['sections']:
                ends = {owner.get(end, end) for end in (section['incomingShape'], section['outgoingShape'])}
                free = set(ends)
                for end in ends:
                    while end in around:
                        end = around[end]
                        free.add(end)
                (x, y), line = nodes[edge['container']][0], corners(section)
                for (a, b), (c, d) in zip(line, line[1:]):
                    self.assertTrue((a == c) != (b == d), (edge['id'], line))
                    for name, ((left, top), node) in nodes.items():
                        if name not in free:
                            is_off = (max(a, c) + x <= left or min(a, c) + x >= left + node['width']
                                      or max(b, d) + y <= top or min(b, d) + y >= top + node['height'])
                            self.assertTrue(is_off, f'{edge["id"]} through {name}')

    def test_flow(self):
        before, after = example('flow'), self.routed(example('flow'))
        edges = edges_of(after)
        self.assertEqual({name: corners(edges[name]['sections'][0]) for name in FLOW}, FLOW)
        self.assertEqual(edges['round']['sections'][0]['incomingShape'], 'a.out')
        self.assertEqual(edges['loop'], edges_of(before)['loop'])
        self.assertEqual(stripped(after), stripped(before))
        self.assertNotIn('junctionPoints', edges['down'])
        label = edges['round']['labels'][0]
        self.assertTrue(label['y'] + label['height'] <= 30 and 70 <= label['x'] <= 130, label)

    def test_chip(self):
        before, after = example('chip'), self.routed(example('chip'))
        edges = edges_of(after)
        self.assertEqual({name: corners(edges[name]['sections'][0]) for name in CHIP}, CHIP)
        self.assertEqual({name: edge['container'] for name, edge in edges.items()},
                         {**dict.fromkeys(('in', 'sum', 'back', 'out', 'tick', 'wake'), 'chip'), **dict.fromkeys(('beat', 'data', 'call'), 'board')})
        self.assertEqual([section['outgoingShape'] for section in edges['data']['sections']], ['memory', 'serial'])
        self.assertEqual(stripped(after), stripped(before))
        self.check(after)
        for name in ('in', 'sum', 'back', 'out', 'tick', 'wake'):
            for x, y in corners(edges[name]['sections'][0]):
                self.assertTrue(0 <= x <= 280 and 0 <= y <= 300, name)

    def test_lines_across_levels(self):
        graph = example('chip')
        graph['edges'].append({'id': 'across', 'sources': ['control'], 'targets': ['memory']})
        edges = edges_of(self.routed(graph))
        self.assertEqual(edges['across']['container'], 'board')
        self.assertEqual(len(edges['across']['sections']), 1)
        self.assertEqual(len([edge for edge in edges.values() if edge['sections']]), 10)

    def test_a_parent_is_met_from_within(self):
        graph = example('chip')
        graph['children'][1]['edges'].append({'id': 'ground', 'sources': ['control'], 'targets': ['chip']})
        section = edges_of(self.routed(graph))['ground']['sections'][0]
        self.assertEqual(corners(section)[-1][1], 300)
        self.assertTrue(all(y <= 300 for _, y in corners(section)))

    def test_the_buffer_gives_way(self):
        graph = example('flow')
        graph['children'][1].update(x=90, width=100, y=0, height=110)
        graph['edges'] = graph['edges'][:1]
        graph['children'].append({'id': 'wall', 'x': 66, 'y': -60, 'width': 190, 'height': 50})
        graph['children'].append({'id': 'floor', 'x': 66, 'y': 120, 'width': 20, 'height': 90})
        done = run(graph)
        self.assertEqual((done.returncode, done.stderr), (0, b''))
        self.assertIn('sections', json.loads(done.stdout)['edges'][0])

    def test_no_route_is_said(self):
        graph = {'id': 'g', 'children': [{'id': name, 'x': x, 'y': 0, 'width': w, 'height': w} for name, x, w in (('a', 10, 10), ('b', 0, 50), ('c', 90, 20))],
                 'edges': [{'id': 'lost', 'sources': ['a'], 'targets': ['c'], 'sections': [{'id': 'old'}]}]}
        done = run(graph)
        self.assertEqual((done.returncode, done.stderr), (0, b'reroute-elk: no route: lost\n'))
        self.assertEqual(json.loads(done.stdout)['edges'][0]['sections'], [{'id': 'old'}])

    def test_texts_are_kept(self):
        graph = {'id': 'g', 'note': 'Straße "x" \u2028', 'deep': {'list': [1, 2.5, None, True]}, 'children': []}
        self.assertEqual(self.routed(graph), graph)

    def test_faults(self):
        node = {'id': 'a', 'x': 0, 'y': 0, 'width': 10, 'height': 10}
        many = [{**node, 'id': k, 'x': 20 * k} for k in range(300)]
        for graph, status, said in (
                ('{', 2, 'not JSON'), (b'\xff', 2, 'not JSON'), ('[]', 2, 'the file holds no graph'), ('{"id": 1, "id": 2}', 2, "the key 'id' stands twice"),
                ('{"id": NaN}', 2, 'NaN is no number'), ('[' * 100000, 2, 'too many levels'),
                ({'id': 'g', 'children': 3}, 2, 'children is no list of objects'),
                ({'id': 'g', 'children': [{'id': 'a', 'width': 1, 'height': 1}]}, 2, "node 'a' has no number x: lay the graph out first"),
                ({'id': 'g', 'children': [node, node]}, 2, "the id 'a' stands twice"),
                ({'id': 'g', 'children': [{**node, 'id': None}]}, 2, 'has no id'),
                ({'id': 'g', 'children': [node], 'edges': [{'id': 'e', 'sources': ['a'], 'targets': ['z']}]}, 2, "edge 'e': its end 'z'"),
                ({'id': 'g', 'children': [node], 'edges': [{'id': 'e', 'sources': ['a']}]}, 2, "edge 'e': its end None"),
                ({'id': 'g', 'layoutOptions': {'elk.spacing.edgeNode': 'wide'}, 'children': [node, {**node, 'id': 'b', 'x': 50}],
                  'edges': [{'id': 'e', 'sources': ['a'], 'targets': ['b']}]}, 2, 'spacing.edgeNode is no number'),
                ({'id': 'g', 'children': many, 'edges': [{'id': 'e', 'sources': [0], 'targets': [299]}]}, 3, '300 boxes and 1 edges')):
            with self.subTest(said):
                done = run(graph)
                self.assertEqual((done.returncode, done.stdout, done.stderr.count(b'\n')), (status, b'', 1), done.stderr.decode())
                self.assertIn(said, done.stderr.decode())
        missing = subprocess.run([ELK, '/nowhere/at.all'], capture_output=True, timeout=PATIENCE)
        self.assertEqual((missing.returncode, missing.stderr.count(b'\n')), (2, 1))


if __name__ == '__main__':
    unittest.main()
