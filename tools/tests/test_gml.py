"""Tries the module that reads and writes GML: pairs as they stand in a file, values, diagrams, and what is said of faults."""
import glob
import os
import sys
import unittest

TOP = os.path.dirname(os.path.dirname(os.path.dirname(os.path.realpath(__file__))))
sys.path.insert(0, f'{TOP}/tools')
import gml  # noqa: E402

NODE = b'node [ id 1 graphics [ x 0 y 0 ] ]'
OTHER = b'node [ id 2 graphics [ x 90 y 0 ] ]'
# Input that is no GML, with the offset of the fault and a part of what is said.
NOT_GML = [
    (b'graph [', 7, 'the file ends inside a list'), (b'graph', 5, 'after a key'), (b'graph [ ] ]', 10, 'line 1, column 11'),
    (b'x 1 2', 4, 'line 1, column 5'), (b'\n\n x "a', 5, 'line 3, column 4'), (b'a[' * 65, 129, 'more than 64 lists'),
    (b'graph [ a-b 1 ]', 8, 'line 1, column 9'), (b'\xef\xbb\xbfgraph [ ]', 0, 'line 1, column 1'),
    (b'graph [ x NaN ]', 10, 'line 1, column 11'), (bytes(range(256)), 0, 'not GML')]
# Pairs of a graph that make no diagram, with a part of what is said.
NO_DIAGRAM = [
    (b'node 1', None), (b'node [ id 1 ]', 'node 1 (line 1, column 9): there is no list graphics'),
    (b'node [ id 1.5 graphics [ x 0 y 0 ] ]', 'id is no whole number'),
    (b'node [ graphics [ x 0 y 0 ] ]', 'id is missing'), (b'node [ id 1 graphics [ x 0 ] ]', 'y is missing'),
    (b'node [ id 1 graphics [ x "0" y 0 ] ]', 'x is no number'),
    (b'node [ id 1 graphics [ x 1e999999999999 y 0 ] ]', 'x is beyond 2,000,000'),
    (b'node [ id 1 graphics [ x 0 y 0 w -1 ] ]', 'a size is negative'), (NODE + b'\n' + NODE, 'node 2 (line 2, column 1): the id 1'),
    (NODE + b'edge [ source 1 target 2 ]', 'its target 2 is the id of no node'),
    (b'node [ id 1 graphics [ x 0 y 0 ] pin [ class 1 x 0 y 0 dirs "X" ] ]', 'pin 1: dirs is not one to four'),
    (NODE + OTHER + b'edge [ source 1 target 2 via [ x 0 ] ]', 'via 1: y is missing')]


class Pairs(unittest.TestCase):
    def test_written_again(self):
        for name in glob.glob(f'{TOP}/examples/*.gml'):
            with self.subTest(name), open(name, 'rb') as file:
                text = gml.written(gml.parse(file.read()))
                self.assertEqual(gml.written(gml.parse(text.encode('latin-1'))), text)

    def test_what_is_kept(self):
        pairs = gml.parse(b'graph [ a 1.50 b "x # y" a 2 # 3\n b [ a +.5e1 ] ]')
        self.assertEqual([(pair.key, pair.at) for pair in pairs[0].value], [('a', 8), ('b', 15), ('a', 25), ('b', 34)])
        self.assertEqual([pair.value for pair in pairs[0].value][:3], ['1.50', '"x # y"', '2'])
        self.assertEqual(gml.first(pairs[0].value, 'a'), '1.50')
        self.assertEqual(gml.first_list(pairs[0].value, 'b')[0].value, '+.5e1')
        self.assertEqual(gml.first_list(pairs[0].value, 'c'), [])

    def test_no_gml(self):
        for data, at, text in NOT_GML:
            with self.subTest(data[:20]), self.assertRaises(gml.Fault) as caught:
                gml.parse(data)
            self.assertEqual(caught.exception.at, at)
            self.assertIn(text, str(caught.exception))


class Values(unittest.TestCase):
    def test_numbers(self):
        for text, value in (('1', 1000), ('-1.0004', -1000), ('.0005', 1), ('-.0005', -1), ('0.00049', 0), ('1.', 1000),
                            ('+2E-3', 2), ('1e3', 10**6), ('0e9999999999999', 0), ('1e-99999999999', 0), ('"1"', None),
                            ('NaN', None), (None, None), ([], None), ('9' * 5000, 10**16), ('\u0661', None)):
            with self.subTest(text if isinstance(text, str) else repr(text)):
                self.assertEqual(gml.milli_of(text), value)

    def test_lengths(self):
        for value, long, short in ((0, '0.000', '0'), (-500, '-0.500', '-0.5'), (12000, '12.000', '12'), (1001, '1.001', '1.001')):
            self.assertEqual((gml.units(value), gml.short_units(value)), (long, short))

    def test_texts(self):
        for text in ('', 'a "b" & c', 'two\nlines', 'na\u00efve \u2192 \U0001f600'):
            self.assertEqual(gml.text_of(gml.quoted(text)), text)
        self.assertEqual(gml.text_of('"caf\xc3\xa9 &#233; &amp; \x01"'), 'caf\u00e9 \u00e9 & ')
        self.assertEqual(gml.text_of('"caf\xe9"'), 'caf\u00e9')
        self.assertEqual((gml.text_of(None), gml.text_of([])), ('', ''))


class Diagrams(unittest.TestCase):
    def test_whole(self):
        found = gml.read(b'# a comment\ngraph [ router [ buffer 8 ] node [ id 2 isGroup 1.0 graphics [ x 1 y 2 w 3 ] label "B" '
                         b'pin [ class 4 x 1 y 0 ] ] ' + NODE + b' node 3 edge [ source 2 target 1 sourcePin 4 via [ x 5 y 6 ] '
                         b'graphics [ Line [ point [ x 1 y 2 ] point [ x 0 y 2 ] ] ] ] edge [ source 1 target 1 targetPin 9 ] ]')
        self.assertEqual((found.penalty, found.buffer, found.nudge), (50000, 8000, 4000))
        box, edge, loop = found.nodes[0], found.edges[0], found.edges[1]
        self.assertEqual(box[2:9], (2, 1000, 2000, 3000, 30000, True, (gml.Pin(4, 1000, 0, 'ESWN'),)))
        self.assertEqual(gml.first(box.pairs, 'label'), '"B"')
        self.assertEqual(edge[2:7], (2, 1, (4, 0), ((5000, 6000),), ((1000, 2000), (0, 2000))))
        self.assertEqual(loop[2:7], (1, 1, (0, 0), (), ()))

    def test_no_diagram(self):
        for pairs, text in NO_DIAGRAM:
            with self.subTest(pairs[:40]):
                if text is None:
                    self.assertEqual(gml.read(b'graph [ %s ]' % pairs).nodes, [])
                    continue
                with self.assertRaises(gml.Fault) as caught:
                    gml.read(b'graph [ %s ]' % pairs)
                self.assertIn(text, str(caught.exception))

    def test_no_graph(self):
        for data, text in ((b'', 'no list graph'), (b'graph 1', 'no list graph'),
                           (b'diagram: Syntax at 3\n', 'an answer of reroute: diagram: Syntax at 3')):
            with self.assertRaises(gml.Fault) as caught:
                gml.read(data)
            self.assertIn(text, str(caught.exception))


if __name__ == '__main__':
    unittest.main()
