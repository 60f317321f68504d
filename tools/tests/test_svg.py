"""Tries reroute-svg: a case for each rule of drawing, all examples, and input that is broken."""
import math
import os
import random
import re
import subprocess
import sys
import unittest
import xml.etree.ElementTree

TOP = os.path.dirname(os.path.dirname(os.path.dirname(os.path.realpath(__file__))))
sys.path.insert(0, f'{TOP}/tools')
import drawing
import gml
import looks
import places

SVG = f'{TOP}/tools/reroute-svg'
NAME = '{http://www.w3.org/2000/svg}'
# The files of other tools that are no diagrams.
REFUSED = {'gephi_text_ids', 'igraph', 'networkx_infinity', 'networkx_without_places'}
NODE = b'node [ id 1 graphics [ x 0 y 0 ] ]'
BROKEN = [
    b'', b' \n', bytes(range(256)) * 9, b'\0' * 99, b'a 1', b'graph [', b'graph [ label "ab', b'graph [ ] ]', b'graph',
    b'graph [ a-b 1 ]', b'a[' * 65, b'a[' * 100000, b'\xef\xbb\xbfgraph [ ]', 'graph [ ]'.encode('utf-16'),
    b'<?xml version="1.0"?><graphml/>', b'digraph g { a -> b }', b'{"a": 1}', b'diagram: Syntax at 3\n',
    b'graph [ node [ id 1 graphics [ x "0" y 0 ] ] ]', b'graph [ node [ id 1 graphics [ x 1e999999999999 y 0 ] ] ]',
    b'graph [ node [ id 1 graphics [ x 0 y 0 w -1 ] ] ]', b'graph [ node [ graphics [ x 0 y 0 ] ] ]',
    b'graph [ node [ id 1 ] ]', b'graph [ %s %s ]' % (NODE, NODE), b'graph [ %s edge [ source 1 target 2 ] ]' % NODE]


def box(number, x, y, w=40, h=40, more='', looks_of=''):
    return f'node [ id {number} label "B{number}" {more} graphics [ x {x} y {y} w {w} h {h} {looks_of} ] ]'


def edge(source, target, *spots, more='', looks_of=''):
    points = ' '.join(f'point [ x {x} y {y} ]' for x, y in spots)
    line = f'Line [ {points} ]' if spots else ''
    return f'edge [ source {source} target {target} {more} graphics [ {line} {looks_of} ] ]'


def graph(*parts):
    return ('graph [ ' + ' '.join(parts) + ' ]').encode()


class Picture:
    """What is drawn of a diagram."""

    def __init__(self, data, look=drawing.ROUND):
        self.text = drawing.svg(data, look)
        self.root = xml.etree.ElementTree.fromstring(self.text)
        self.order = list(self.root.iter())

    def of(self, name):
        return next(found for found in self.order if found.get('id') == name)

    def paths(self, name):
        return [found for found in self.of(name).iter(f'{NAME}path')]

    def path(self, name):
        return self.paths(name)[-1].get('d')

    def title(self, name):
        return self.of(name).find(f'{NAME}title').text

    def place(self, name):
        """Where in the document an element stands."""
        return self.order.index(self.of(name))

    def shape(self, name):
        return next(found for found in self.of(name) if 'shape' in found.get('class', ''))

    def labels(self):
        """The text of each label of a line, with its rectangle."""
        found = {}
        for text in self.root.iter(f'{NAME}text'):
            if text.get('class') == 'label':
                w, x, y = drawing.width_of(text.text) * 9, float(text.get('x')), float(text.get('y')) - 3.2
                found[text.text] = (x - w / 2, y - 5, x + w / 2, y + 5)
        return found


def numbers(path):
    return [float(word) for word in re.findall(r'-?\d+\.?\d*', path)]


APART = box(1, 0, 0), box(2, 200, 100)
BENT = edge(1, 2, (20, 0), (100, 0), (100, 100), (180, 100))


class Lines(unittest.TestCase):
    def test_corners_are_round(self):
        path = Picture(graph(*APART, BENT)).path('edge-1')
        self.assertEqual(path.count('Q'), 2)
        self.assertIn('L94 0 Q100 0 100 6', path)

    def test_a_short_run_has_small_corners(self):
        path = Picture(graph(*APART, edge(1, 2, (20, 0), (100, 0), (100, 4), (180, 4), more=''))).path('edge-1')
        self.assertIn('L98 0 Q100 0 100 2', path)

    def test_plain_corners_are_square(self):
        path = Picture(graph(*APART, BENT), drawing.PLAIN).path('edge-1')
        self.assertNotIn('Q', path)

    def crossing(self, *columns, look=drawing.ROUND, level=((20, 0), (280, 0))):
        uprights = [edge(3, 4, (x, -100), (x, 100)) for x in columns]
        return Picture(graph(box(1, 0, 0), box(2, 300, 0), box(3, 150, -120, 300), box(4, 150, 120, 300),
                             edge(1, 2, *level), *uprights), look)

    def test_a_level_line_bows_over_an_upright_one(self):
        picture = self.crossing(100)
        self.assertIn('L96 0 A4 4 0 0 1 100 -4 A4 4 0 0 1 104 0', picture.path('edge-1'))
        self.assertNotIn('A', picture.path('edge-2'))

    def test_a_line_to_the_left_bows_upwards_too(self):
        picture = self.crossing(100, level=((280, 0), (20, 0)))
        self.assertIn('L104 0 A4 4 0 0 0 100 -4 A4 4 0 0 0 96 0', picture.path('edge-1'))

    def test_neighbours_are_under_one_bow(self):
        path = self.crossing(100, 106, 150).path('edge-1')
        self.assertIn('A4 4 0 0 1 100 -4 H106 A4 4 0 0 1 110 0', path)
        self.assertEqual(path.count('A'), 4)

    def test_no_bow_under_a_head(self):
        self.assertNotIn('A', self.crossing(275).path('edge-1'))

    def test_no_bow_where_a_line_ends_at_another(self):
        picture = Picture(graph(box(1, 0, 0), box(2, 300, 0), box(3, 100, 120, 100), edge(1, 2, (20, 0), (280, 0)),
                                edge(3, 2, (100, 100), (100, 0), (280, 0))))
        self.assertNotIn('A', picture.path('edge-1'))

    def test_plain_lines_have_no_bows(self):
        self.assertNotIn('A', self.crossing(100, look=drawing.PLAIN).path('edge-1'))


class Heads(unittest.TestCase):
    def head(self, picture, name='edge-1-target'):
        """The tip of a head and how far behind it its corners reach."""
        found = picture.of(name)
        tip = numbers(found.get('transform'))[:2]
        return tip, -min(numbers(found[0].get('d')))

    def test_a_head_has_nine_units_where_there_is_room(self):
        self.assertEqual(self.head(Picture(graph(*APART, BENT))), ([180, 100], 9))

    def test_a_head_fits_the_last_run(self):
        picture = Picture(graph(*APART, edge(1, 2, (20, 0), (174, 0), (174, 100), (180, 100))))
        self.assertEqual(self.head(picture), ([180, 100], 6))

    def test_two_heads_share_a_short_line(self):
        picture = Picture(graph(box(1, 0, 0), box(2, 54, 0), edge(
            1, 2, (20, 0), (34, 0), looks_of='sourceArrow "standard" targetArrow "standard"')))
        self.assertEqual([self.head(picture, f'edge-1-{end}')[1] for end in ('source', 'target')], [7, 7])

    def test_the_line_ends_under_its_head(self):
        self.assertEqual(numbers(Picture(graph(*APART, BENT)).path('edge-1'))[-2:], [180 - 0.9 * 9, 100])

    def test_heads_lie_above_all_lines_and_boxes(self):
        picture = Picture(graph(*APART, box(3, 400, 0), BENT, edge(2, 3, (200, 80), (200, 0), (380, 0)), edge(1, 3)))
        heads = [picture.place(f'edge-{place}-target') for place in (1, 2, 3)]
        self.assertGreater(min(heads), max(picture.place(name) for name in ('edge-1', 'edge-2', 'edge-3', 'node-3')))

    def heads(self, looks_of, more=''):
        picture = Picture(graph(more, *APART, edge(1, 2, (20, 0), (100, 0), (100, 100), (180, 100), looks_of=looks_of)))
        return [found.get('id')[7:] for found in picture.order if re.fullmatch(r'edge-1-\w+', found.get('id', ''))]

    def test_arrows_of_both_ends(self):
        self.assertEqual(self.heads(''), ['target'])
        self.assertEqual(self.heads('sourceArrow "delta" targetArrow "delta"'), ['source', 'target'])
        self.assertEqual(self.heads('sourceArrow "delta"'), ['source'])
        self.assertEqual(self.heads('targetArrow "none"'), [])
        self.assertEqual(self.heads('arrow "both"'), ['source', 'target'])
        self.assertEqual(self.heads('', more='directed 0'), [])

    def test_kinds_of_arrows(self):
        for name, kind, is_hollow in (('white_delta', 'delta', True), ('odiamond', 'diamond', True), ('vee', 'open', False),
                                      ('odot', 'circle', True), ('crows_foot_many', 'crow', False), ('new one', 'delta', False)):
            self.assertEqual(looks.head_of(f'"{name}"'), (kind, is_hollow))
        picture = Picture(graph(*APART, edge(1, 2, (20, 0), (180, 0), looks_of='targetArrow "odot"')))
        self.assertEqual(picture.of('edge-1-target')[0].tag, f'{NAME}circle')
        self.assertIn('hollow', picture.of('edge-1-target')[0].get('class'))


class Labels(unittest.TestCase):
    def assert_apart(self, one, other):
        self.assertFalse(places.overlap(one, other), f'{one} and {other} overlap')

    def test_labels_keep_off_lines_boxes_and_each_other(self):
        # (the middle of each labelled line is crossed by another line, covered by a box, or by the other's label)
        lines = [((20, 0), (380, 0)), ((20, 8), (380, 8)), ((200, -80), (200, 180))]
        walls = [(-20, -20, 20, 20), (380, -20, 420, 20), (180, -120, 220, -80), (180, 180, 220, 220)]
        data = graph(box(1, 0, 0), box(2, 400, 0), box(3, 200, -100), box(4, 200, 200), box(5, 200, 30, 30, 30),
                     edge(1, 2, *lines[0], more='label "first label"'), edge(1, 2, *lines[1], more='label "second label"'),
                     edge(3, 4, *lines[2], more='label "third label"'))
        labels = list(Picture(data).labels().values())
        self.assertEqual(len(labels), 3)
        for place, label in enumerate(labels):
            for wall in walls:
                self.assert_apart(label, wall)
            for other, line in enumerate(lines):
                if other != place:
                    self.assert_apart(label, places.around(*line))
            for other in labels[place + 1:]:
                self.assert_apart(label, other)

    def test_a_label_lies_on_its_line_where_that_is_free(self):
        label = Picture(graph(box(1, 0, 0), box(2, 300, 0), edge(1, 2, (20, 0), (280, 0), more='label "free"'))).labels()['free']
        self.assertEqual(((label[0] + label[2]) / 2, round((label[1] + label[3]) / 2)), (150, 0))

    def test_a_label_does_not_hide_a_short_line(self):
        # (the line is as long as the label, which would meet no box and no head on it)
        length = drawing.width_of('quite long') * 9 + 6
        line = (20, 0), (20 + length, 0)
        label = Picture(graph(box(1, 0, 0), box(2, 40 + length, 0), edge(
            1, 2, *line, more='label "quite long"', looks_of='targetArrow "none"'))).labels()
        self.assertFalse(places.overlap(label['quite long'], places.around(*line)))

    def test_a_label_keeps_off_a_box_beside_its_line(self):
        label = Picture(graph(box(1, 0, 0), box(2, 400, 0), box(3, 200, -23), edge(
            1, 2, (20, 0), (380, 0), more='label "free"'))).labels()['free']
        self.assert_apart(label, (180, -43, 220, -3))

    def test_the_picture_holds_all_labels(self):
        picture = Picture(graph(box(1, 0, 0, 10, 10), box(2, 0, 300, 10, 10),
                                edge(1, 2, (0, 5), (0, 295), more='label "much wider than both of the boxes"')))
        left, _, width, _ = map(float, picture.root.get('viewBox').split())
        label = next(iter(picture.labels().values()))
        self.assertLess(left, label[0])
        self.assertGreater(left + width, label[2])

    def test_a_label_of_several_lines(self):
        picture = Picture(graph(box(1, 0, 0), box(2, 300, 0), edge(1, 2, (20, 0), (280, 0), more='label "one\ntwo"')))
        self.assertEqual(sorted(picture.labels()), ['one', 'two'])


class Order(unittest.TestCase):
    def test_groups_are_behind_the_lines_and_boxes_before_them(self):
        picture = Picture(graph(*APART, box(9, 100, 50, 400, 300, 'isGroup 1'), BENT))
        self.assertLess(picture.place('node-9'), picture.place('edge-1'))
        self.assertLess(picture.place('edge-1'), picture.place('node-1'))
        self.assertEqual(picture.of('node-9').get('class'), 'box group')

    def test_the_label_of_a_group_keeps_off_lines(self):
        line = (-90, -93), (190, -93)
        picture = Picture(graph(box(1, -110, -93), box(2, 210, -93), box(9, 50, 0, 240, 200, 'isGroup 1'), edge(1, 2, *line)))
        text = picture.of('node-9').find(f'{NAME}text')
        self.assertGreater(float(text.get('y')), 0)


class WithoutRoute(unittest.TestCase):
    WALLED = (box(1, 0, 0), box(2, 200, 0), box(3, 100, 0, 20, 60))
    REPORT = b'# edge 1: no route\n'

    def test_it_is_red_dashed_and_says_so(self):
        picture = Picture(self.REPORT + graph(*self.WALLED, edge(1, 2)))
        self.assertEqual(picture.title('edge-1'), 'edge 1: 1 to 2, no legal route')
        self.assertEqual(picture.of('edge-1').get('class'), 'edge unrouted')
        self.assertIn('lost', picture.paths('edge-1')[0].get('class'))
        self.assertRegex(picture.text, r'\.edge \.lost \{ stroke-dasharray')
        self.assertIn('.lost { stroke: #c62828; }', picture.text)

    def lines(self, *more):
        scene = drawing.Scene(self.REPORT + graph(*self.WALLED, edge(1, 2), *more), drawing.ROUND)
        return scene.edges[0].line

    def test_it_has_right_angles_and_goes_round_a_box(self):
        line = self.lines()
        self.assertTrue(all((x == u) != (y == v) for (x, y), (u, v) in zip(line, line[1:])))
        self.assertFalse(any(places.overlap(places.around(*run), (90, -30, 110, 30)) for run in zip(line, line[1:])))

    def test_it_crosses_few_lines(self):
        # (lines hang down from above, so that the way below crosses none)
        hanging = [part for k in range(4) for part in (box(10 + k, 60 + 20 * k, -80, 10, 10), edge(
            10 + k, 20, (60 + 20 * k, -75), (60 + 20 * k, -33)))]
        line = self.lines(box(20, 100, -33, 160, 4, 'isGroup 1'), *hanging)
        self.assertTrue(all(y >= 0 for _, y in line), line)

    def test_it_lies_above_the_boxes(self):
        picture = Picture(self.REPORT + graph(*self.WALLED, edge(1, 2)))
        self.assertGreater(picture.place('edge-1'), picture.place('node-3'))

    def test_beside_lines_that_are_drawn_a_missing_one_is_lost(self):
        self.assertIn('no legal route', Picture(graph(*APART, box(3, 400, 0), BENT, edge(1, 3))).title('edge-2'))

    def test_a_diagram_that_is_not_routed_has_straight_lines(self):
        picture = Picture(graph(*APART, edge(1, 2)))
        self.assertEqual(picture.title('edge-1'), 'edge 1: 1 to 2, not routed')
        self.assertEqual(len(numbers(picture.path('edge-1'))), 4)
        self.assertNotIn('lost', picture.paths('edge-1')[0].get('class'))


class Loops(unittest.TestCase):
    def test_a_loop_is_solid(self):
        picture = Picture(graph(box(1, 0, 0), edge(1, 1)))
        self.assertEqual(picture.of('edge-1').get('class'), 'edge loop')
        self.assertIsNone(picture.paths('edge-1')[0].get('style'))
        self.assertNotRegex(picture.text, r'\.loop[^}]*dash')

    def test_loops_keep_off_lines_and_each_other(self):
        lines = [edge(1, 2, (10, -20), (10, -100), (280, -100)), edge(1, 2, (20, 10), (280, 10))]
        scene = drawing.Scene(graph(box(1, 0, 0), box(2, 300, -50, 40, 140), *lines, edge(1, 1), edge(1, 1)), drawing.ROUND)
        runs = [list(zip(found.line, found.line[1:])) for found in scene.edges]
        for place, loop in enumerate(runs[2:], 2):
            for other in runs[:place]:
                self.assertFalse(any(places.overlap(places.around(*one), places.around(*run)) for one in loop for run in other))


class Looks(unittest.TestCase):
    def shape(self, looks_of, look=drawing.ROUND):
        return Picture(graph(box(1, 0, 0, 80, 40, looks_of=looks_of)), look).shape('node-1')

    def test_shapes(self):
        for name, tag in (('ellipse', 'ellipse'), ('diamond', 'polygon'), ('cylinder', 'polygon'), ('rectangle', 'rect'),
                          ('hexagon', 'polygon'), ('rhomb', 'polygon'), ('no such shape', 'rect')):
            self.assertEqual(self.shape(f'type "{name}"').tag, NAME + tag, name)
        self.assertGreater(float(self.shape('type "roundrectangle"').get('rx')), float(self.shape('').get('rx')))
        self.assertEqual(self.shape('type "ellipse"', drawing.PLAIN).tag, f'{NAME}rect')
        circles = Picture(graph(box(1, 0, 0, looks_of='type "doublecircle"'))).of('node-1').findall(f'{NAME}ellipse')
        self.assertEqual([circle.get('rx') for circle in circles], ['20', '16'])

    def test_lines_end_at_the_outline(self):
        for name, spot in (('ellipse', (24, 20 - 20 * math.sqrt(1 - 0.6 ** 2))), ('diamond', (24, 12)), ('rectangle', (24, 0))):
            data = graph(box(1, 24, -100), box(2, 0, 20, 80, 40, looks_of=f'type "{name}"'), edge(1, 2, (24, -80), (24, 0)))
            end = drawing.Scene(data, drawing.ROUND).edges[0].line[-1]
            self.assertEqual(end[0], 24)
            self.assertAlmostEqual(end[1], spot[1], delta=0.15, msg=name)

    def test_fill_outline_and_dashes(self):
        shape = self.shape('fill "#ffcc00" outline "darkgreen" style "dashed"')
        self.assertIn('fill: #ffcc00', shape.get('style'))
        self.assertIn('stroke-dasharray: 5 4', shape.get('style'))
        self.assertIn('.box .k0 { stroke: #006400; }', Picture(graph(box(1, 0, 0, looks_of='outline "darkgreen"'))).text)
        self.assertIsNone(self.shape('fill "#ffffff" outline "#000000"').get('style'))
        self.assertIsNone(self.shape('fill "#ffcc00"', drawing.PLAIN).get('style'))

    def test_letters_are_seen_on_their_box(self):
        def letters(fill):
            return Picture(graph(box(1, 0, 0, looks_of=f'fill "{fill}"'))).of('node-1').find(f'{NAME}text').get('style')
        self.assertEqual((letters('#1b2f52'), letters('#ffe0a0')), ('fill: #ffffff', f'fill: {drawing.LIGHT["ink"]}'))

    def test_colours_that_are_none_are_passed_over(self):
        for colour in ('red; } * { fill: blue', '#12', 'no colour', '#ggg', ''):
            self.assertIsNone(looks.colour_of(f'"{colour}"'), colour)
        self.assertEqual([looks.colour_of(f'"{name}"') for name in ('#F80', 'Tomato', 'grey50', '#11223344')],
                         ['#ff8800', '#ff6347', '#7f7f7f', '#112233'])

    def test_lines_have_the_colours_and_dashes_of_the_file(self):
        picture = Picture(graph(*APART, edge(1, 2, (20, 0), (180, 0), looks_of='fill "#ff0000" style "dotted"')))
        self.assertEqual(picture.paths('edge-1')[0].get('class'), 'k0')
        self.assertEqual(picture.paths('edge-1')[0].get('style'), 'stroke-dasharray: 1.5 3')
        self.assertIn('.k0, .box .k0 { stroke: #ff0000; }', picture.text)
        self.assertEqual(Picture(graph(*APART, BENT)).paths('edge-1')[0].get('class'), 'c0')

    def test_hidden_edges_are_not_drawn(self):
        self.assertNotIn('edge-1', Picture(graph(*APART, edge(1, 2, looks_of='style "invis"'))).text)

    def test_light_and_dark(self):
        text = Picture(graph(*APART, edge(1, 2, (20, 0), (180, 0), looks_of='fill "#00008b"'))).text
        light, dark = text.split('@media (prefers-color-scheme: dark)')
        self.assertIn(f'fill: {drawing.LIGHT["paper"]}', light)
        self.assertIn(f'fill: {drawing.DARK["paper"]}', dark)
        shown = re.search(r'\.k0, \.box \.k0 \{ stroke: (#\w+)', dark)[1]
        self.assertGreaterEqual(looks.contrast(shown, drawing.DARK['paper']), 3.5)

    def test_plain_lines_have_six_colours_and_boxes_their_pins(self):
        data = graph(box(1, 0, 0, more='pin [ class 1 x 20 y 0 ]'), box(2, 300, 0),
                     *(edge(1, 2, (20, y), (280, y)) for y in range(7)))
        picture = Picture(data, drawing.PLAIN)
        classes = [picture.paths(f'edge-{place}')[-1].get('class') for place in range(1, 8)]
        self.assertEqual(classes, ['c0', 'c1', 'c2', 'c3', 'c4', 'c5', 'c0'])
        self.assertEqual(picture.text.count('class="pin"'), 1)
        self.assertNotIn('class="pin"', Picture(data).text)


def run(data, *words):
    return subprocess.run([sys.executable, SVG, *words], input=data, capture_output=True, timeout=60)


class Program(unittest.TestCase):
    def assert_picture_or_fault(self, done, name=''):
        if done.returncode == 0:
            root = xml.etree.ElementTree.fromstring(done.stdout)
            ids = [found.get('id') for found in root.iter() if found.get('id')]
            self.assertEqual(len(ids), len(set(ids)), name)
            values = ' '.join(value for found in root.iter() for key, value in found.items() if key not in ('id', 'class', 'style'))
            self.assertNotRegex(values, r'\b(nan|inf)\b', name)
        else:
            self.assertEqual((done.returncode, done.stdout), (2, b''), f'{name}: {done.stderr}')
            self.assertRegex(done.stderr.decode(), r'\Areroute-svg: [^\n]+\n\Z', name)

    def test_all_examples_are_drawn(self):
        for folder in ('examples', 'examples/other_tools'):
            for name in sorted(os.listdir(f'{TOP}/{folder}')):
                if name.endswith('.gml'):
                    data = gml.read_file(f'{TOP}/{folder}/{name}')
                    done = run(data)
                    self.assert_picture_or_fault(done, name)
                    wanted = [0, 0] if name[:-4] in REFUSED else [len(re.findall(rb'\b%s\s*\[' % kind, data))
                                                                 for kind in (b'node', b'edge')]
                    drawn = [len(re.findall(rb'id="%s--?\d+"' % kind, done.stdout)) for kind in (b'node', b'edge')]
                    self.assertEqual(drawn, wanted, name)

    def test_broken_input(self):
        for data in BROKEN:
            self.assert_picture_or_fault(run(data), data[:40])

    def test_odd_input(self):
        for data in (b'graph [ ]', b'graph [ %s edge [ source 1 target 1 ] ]' % NODE,
                     b'graph [ node [ id 1 graphics [ x 0 y 0 w 0 h 0 ] ] ]',
                     b'graph [ node [ id 1 graphics [ x 999999 y -999999 w 1 h 1 ] ] %s edge [ source 1 target 2 ] ]'
                     % NODE.replace(b'1', b'2'),
                     b'graph [ node [ id 2 graphics [ x 0 y 0 ] ] %s edge [ source 1 target 2 ] ]' % NODE,
                     b'graph [ node [ id 1 graphics [ x 0 y 0 ] label "&#0;&#1;&lt;b&gt;\x01\xff\xfe]]>" ] ]'):
            done = run(data)
            self.assertEqual(done.returncode, 0, f'{data}: {done.stderr}')
            self.assert_picture_or_fault(done, data)

    def test_turned_bytes(self):
        draws = random.Random(7)
        for name in ('move_a_box', 'group', 'checkpoints', 'other_tools/yed', 'other_tools/ogdf'):
            data = bytearray(gml.read_file(f'{TOP}/examples/{name}.gml'))
            for _ in range(draws.randint(1, 4)):
                at, size = draws.randrange(len(data)), draws.choice([1, 1, 9, 99])
                data[at:at + size] = draws.choice([b'', bytes([draws.randrange(256)]), data[at:at + size] * 2, b'[', b'"', b'9' * 30])
            self.assert_picture_or_fault(run(bytes(data)), name)

    def test_a_large_diagram_is_drawn_in_time(self):
        boxes = [box(k, k % 16 * 100, k // 16 * 100) for k in range(256)]
        edges = [edge(k, (k * 7 + 5) % 256, more='label "of 100"') for k in range(100)]
        report = b''.join(b'# edge %d: no route\n' % k for k in range(1, 101))
        done = run(report + graph(*boxes, *edges))
        self.assert_picture_or_fault(done)
        self.assertEqual(done.returncode, 0)

    def test_help_and_files_that_are_none(self):
        self.assertEqual(run(b'', '--help').returncode, 0)
        self.assert_picture_or_fault(run(b'', '/no such file'))
        self.assert_picture_or_fault(run(b'', TOP))


if __name__ == '__main__':
    unittest.main()
