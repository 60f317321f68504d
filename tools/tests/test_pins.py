"""Tries reroute-pins: what lines look like with its pins, by counters of its own; what it keeps, its limits, and broken input.

The programs are those of the environment, REROUTE and REROUTE_LIVE, or out/reroute and out/reroute_live.
"""
import glob
import os
import random
import subprocess
import sys
import tempfile
import unittest

TOP = os.path.dirname(os.path.dirname(os.path.dirname(os.path.realpath(__file__))))
sys.path.insert(0, f'{TOP}/tools')
import gml  # noqa: E402
import pins  # noqa: E402

PINS = f'{TOP}/tools/reroute-pins'
ROUTE = os.environ.get('REROUTE', f'{TOP}/out/reroute')
LIVE = os.environ.get('REROUTE_LIVE', f'{TOP}/out/reroute_live')
ARE_THERE = os.access(ROUTE, os.X_OK) and os.access(LIVE, os.X_OK)
REFUSED = ('igraph', 'gephi_text_ids', 'networkx_infinity', 'networkx_without_places')
BROKEN = [b'', b'graph [', b'graph [ ] ]', b'digraph { a -> b }', b'{"a": 1}', bytes(range(256)), b'diagram: NoGraph\n',
          b'graph [ node [ id 1 ] ]', b'graph [ edge [ source 1 target 2 ] ]',
          b'graph [ node [ id 1 graphics [ x 0 y 0 w -1 ] ] ]', b'graph [ node [ id 1 graphics [ x 1e9 y 0 ] ] ]']


def pins_of(data, *options, live=LIVE):
    return subprocess.run([sys.executable, PINS, '--live', live, *options], input=data, capture_output=True, timeout=120)


def routed(data, script):
    with tempfile.TemporaryDirectory() as folder:
        for name, text in (('d.gml', data), ('s.script', script)):
            with open(f'{folder}/{name}', 'wb') as file:
                file.write(text)
        return subprocess.run([ROUTE, 'route', f'{folder}/d.gml', f'{folder}/s.script'], capture_output=True).stdout


def read_file(name):
    with open(name, 'rb') as file:
        return file.read()


# ---- counters ----

def corners_of(line):
    """The line without points at which it goes straight on."""
    found = []
    for point in line:
        if len(found) > 1 and any(found[-2][way] == found[-1][way] == point[way] for way in (0, 1)):
            found.pop()
        if not found or found[-1] != point:
            found.append(point)
    return found


def outside(line, box):
    """The line from where it leaves the box in which it begins."""
    (x, y), (u, v) = line[:2]
    if x == u:
        edge = box.y + (box.h // 2 if v > y else -(box.h // 2))
        return [(x, min(max(edge, min(y, v)), max(y, v))), *line[1:]]
    edge = box.x + (box.w // 2 if u > x else -(box.w // 2))
    return [(min(max(edge, min(x, u)), max(x, u)), y), *line[1:]]


def counted(data):
    """Of a routed diagram: edges without a route, bends, crossings, and runs of two lines less than a unit apart."""
    diagram = gml.read(data)
    boxes, lines, unrouted = {node.id: node for node in diagram.nodes}, [], 0
    for edge in diagram.edges:
        line = corners_of(edge.line)
        if edge.source != edge.target and len(line) > 1:
            lines.append(outside(outside(line, boxes[edge.source])[::-1], boxes[edge.target]))
        unrouted += edge.source != edge.target and len(edge.line) < 2
    runs = [(k, a, b) for k, line in enumerate(lines) for a, b in zip(line, line[1:])]
    crossings = overlaps = 0
    for k, a, b in runs:
        for other, c, d in runs:
            if k != other and a[1] == b[1] and c[0] == d[0]:
                crossings += min(a[0], b[0]) < c[0] < max(a[0], b[0]) and min(c[1], d[1]) < a[1] < max(c[1], d[1])
            for way in (0, 1):
                if k < other and a[way] == b[way] and c[way] == d[way] and abs(a[way] - c[way]) < 1000:
                    spans = [sorted((p[1 - way], q[1 - way])) for p, q in ((a, b), (c, d))]
                    overlaps += min(spans[0][1], spans[1][1]) - max(spans[0][0], spans[1][0]) > 1000
    return unrouted, sum(len(line) - 2 for line in lines), crossings, overlaps


def with_pins(data, *options):
    done = pins_of(data, *options)
    if done.returncode:
        raise AssertionError(done.stderr)
    return counted(routed(data, done.stdout))


# ---- diagrams ----

def graph(boxes, edges, more=''):
    rows = [f'node [ id {k} graphics [ x {x} y {y} w {w} h {h} ] ]' for k, (x, y, w, h) in enumerate(boxes, 1)]
    rows += [f'edge [ source {a} target {b} ]' for a, b in edges]
    return f'graph [ {more} {" ".join(rows)} ]'.encode()


def layers(count, most, scale=1):
    """A made diagram of boxes in layers, with edges mostly to the next layer."""
    draw = random.Random(7)
    boxes = [((k % 6) * 120 * scale + draw.randint(-20, 20) * scale, (k // 6) * 90 * scale, 70 * scale, 36 * scale)
             for k in range(count)]
    edges = sorted({(a, min(count, a + draw.choice((1, 5, 6, 6, 7, 12)))) for a in draw.choices(range(1, count), k=most)})
    return graph(boxes, [(a, b) for a, b in edges if a != b])


@unittest.skipUnless(ARE_THERE, 'there is no reroute and reroute_live')
class Pictures(unittest.TestCase):
    def test_examples(self):
        for name in sorted(glob.glob(f'{TOP}/examples/*.gml') + glob.glob(f'{TOP}/examples/other_tools/*.gml')):
            if os.path.basename(name)[:-4] not in REFUSED:
                with self.subTest(os.path.basename(name)):
                    data = read_file(name)
                    new, old = with_pins(data), with_pins(data, '--plain')
                    self.assertLessEqual(new[:2], old[:2])
                    self.assertEqual(new[3], 0)

    def test_facing_boxes_have_straight_lines(self):
        boxes = [(0, 0, 60, 40), (200, 15, 60, 40), (0, 200, 60, 40), (40, 400, 100, 40)]
        self.assertEqual(with_pins(graph(boxes, [(1, 2), (1, 3), (3, 4)])), (0, 0, 0, 0))

    def test_parallel_edges_are_straight_and_apart(self):
        self.assertEqual(with_pins(graph([(0, 0, 60, 60), (200, 0, 60, 60)], [(1, 2), (2, 1), (1, 2)])), (0, 0, 0, 0))

    def test_a_star_has_no_crossing(self):
        ring = [(x, y, 30, 30) for x in range(-200, 201, 80) for y in (-200, 200)]
        found = with_pins(graph([(0, 0, 120, 60), *ring], [(1, k) for k in range(2, 14)]))
        self.assertEqual((found[0], found[2], found[3]), (0, 0, 0))
        self.assertLessEqual(found[1], 24)

    def test_sixty_boxes(self):
        data = layers(60, 110)
        new, old = with_pins(data), with_pins(data, '--plain')
        self.assertEqual((new[0], new[3]), (0, 0))
        self.assertLess(new[1], 0.6 * old[1])
        self.assertLess(new[2], old[2])

    def test_small_boxes(self):
        data = layers(24, 30, 1 / 36)
        found = pins_of(data)
        self.assertIn(b'set penalty', found.stdout)
        self.assertEqual(counted(routed(data, found.stdout))[0], 0)
        self.assertGreater(with_pins(data, '--plain')[0], 0)


@unittest.skipUnless(ARE_THERE, 'there is no reroute and reroute_live')
class Scripts(unittest.TestCase):
    def test_same_bytes(self):
        data = layers(24, 36)
        self.assertEqual(pins_of(data).stdout, pins_of(data).stdout)

    def test_kept_and_given_settings(self):
        boxes, edges = [(0, 0, 60, 40), (200, 90, 60, 40)], [(1, 2)]
        rows = pins_of(graph(boxes, edges, 'router [ buffer 5 nudge 6 penalty 20 ]')).stdout.split(b'\n')
        self.assertEqual([row for row in rows if row.startswith(b'set')], [])
        rows = pins_of(graph(boxes, edges, 'router [ buffer 5 ]'), '--buffer', '9', '--nudge', '2.5').stdout.split(b'\n')
        self.assertEqual([row for row in rows if row.startswith(b'set')], [b'set buffer 9', b'set nudge 2.5'])
        rows = pins_of(graph(boxes, edges)).stdout.split(b'\n')
        self.assertEqual([row for row in rows if row.startswith(b'set')], [b'set buffer 12', b'set nudge 8'])

    def test_classes_that_are_named_stay(self):
        data = (b'graph [ node [ id 1 graphics [ x 0 y 0 w 60 h 40 ] pin [ class 2 x 30 y 0 dirs "E" ] ] '
                b'node [ id 2 graphics [ x 200 y 90 w 60 h 40 ] ] edge [ source 1 target 2 sourcePin 2 ] edge [ source 1 target 2 ] ]')
        found = pins_of(data)
        diagram = gml.read(routed(data, found.stdout))
        self.assertEqual(diagram.nodes[0].pins[0], gml.Pin(2, 30000, 0, 'E'))
        self.assertEqual(diagram.edges[0].classes[0], 2)
        self.assertNotIn(2, diagram.edges[1].classes[:1])
        self.assertTrue(all(all(edge.classes) for edge in diagram.edges))

    def test_more_ends_than_pins(self):
        data = layers(100, 300)
        found = pins_of(data, '--tries', '5')
        self.assertEqual(found.returncode, 0, found.stderr)
        self.assertLessEqual(sum(row.startswith(b'pin ') for row in found.stdout.split(b'\n')), 256)
        self.assertRegex(found.stderr, rb'reroute-pins: \d+ ends have no pin, since a diagram has at most 256\n')
        self.assertEqual(counted(routed(data, found.stdout))[0], 0)

    def test_no_route_is_said(self):
        found = pins_of(read_file(f'{TOP}/examples/no_route.gml'))
        self.assertEqual((found.returncode, found.stderr), (0, b'reroute-pins: no legal route: edge 1\n'))

    def test_what_choose_gives(self):
        choice = pins.choose(layers(12, 14), LIVE)
        self.assertEqual(choice.bare, 0)
        self.assertTrue(all(len(line) > 1 for line in choice.lines.values()))
        drawn = {edge.place: list(edge.line) for edge in
                 gml.read(routed(layers(12, 14), '\n'.join(choice.script()).encode() + b'\n')).edges}
        self.assertEqual({place: list(line) for place, line in choice.lines.items()}, drawn)


class Input(unittest.TestCase):
    def check(self, done, status, said):
        self.assertEqual((done.returncode, done.stdout), (status, b''))
        self.assertRegex(done.stderr, rb'\Areroute-pins: [^\n]+\n\Z')
        self.assertIn(said, done.stderr)

    def test_broken(self):
        for data in BROKEN:
            with self.subTest(data[:30]):
                self.check(pins_of(data), 2, b'')
                self.check(pins_of(data, '--plain'), 2, b'')

    def test_no_program(self):
        data = graph([(0, 0, 60, 40), (200, 90, 60, 40)], [(1, 2)])
        self.check(pins_of(data, live='/nowhere/reroute_live'), 2, b'/nowhere/reroute_live cannot be run')
        self.check(pins_of(data, live='/bin/false'), 2, b'reroute_live ended')
        self.assertEqual(pins_of(data, '--plain', live='/nowhere/reroute_live').returncode, 0)

    def test_plain(self):
        rows = pins_of(graph([(0, 0, 60, 40), (200, 0, 60, 40)], [(1, 2), (1, 2)]), '--plain').stdout.decode().split('\n')
        self.assertEqual(rows[:5], ['begin', 'pin 1 1 30.000 -6.667 E', 'pin 1 2 30.000 6.666 E', 'pin 2 1 -30.000 -6.667 W',
                                    'pin 2 2 -30.000 6.666 W'])
        self.assertEqual(rows[5:], ['classes 1 1 1', 'classes 2 2 2', 'commit', ''])

    def test_files(self):
        self.check(subprocess.run([sys.executable, PINS, '/nowhere'], capture_output=True), 2, b'/nowhere')
        self.assertEqual(subprocess.run([sys.executable, PINS, '--tries', 'x'], capture_output=True).returncode, 2)
        self.assertIn(b'reroute-pins 0', subprocess.run([sys.executable, PINS, '--version'], capture_output=True).stdout)


if __name__ == '__main__':
    unittest.main()
