"""Tries reroute-explain: on all examples, on files of other tools, on broken input, and on answers that are none."""
import importlib.machinery
import importlib.util
import os
import random
import re
import subprocess
import sys
import tempfile
import unittest

TOP = os.path.dirname(os.path.dirname(os.path.dirname(os.path.realpath(__file__))))
EXAMPLES, OTHERS, EXPLAIN = f'{TOP}/examples', f'{TOP}/examples/other_tools', f'{TOP}/tools/explain'
sys.dont_write_bytecode = True
LOADER = importlib.machinery.SourceFileLoader('explain', EXPLAIN)
explain = importlib.util.module_from_spec(importlib.util.spec_from_loader('explain', LOADER))
LOADER.exec_module(explain)
REROUTE = os.environ.get('REROUTE', f'{TOP}/out/reroute')
LIVE = os.environ.setdefault('REROUTE_LIVE', f'{TOP}/out/reroute_live')
# The files of other tools that reroute refuses, with what it says and a part of what explain says of it.
REFUSED = {
    'gephi_text_ids': ('diagram: Syntax at 55', "line 7, column 8 (byte 55): 'n0' stands where a value has to stand"),
    'igraph': ('diagram: NoPlace node 1', 'not in a list graphics'),
    'networkx_infinity': ('diagram: Syntax at 253', '+INF is no number in GML'),
    'networkx_without_places': ('diagram: NoPlace node 1', 'has no graphics')}
NODE, OTHER = 'node [ id 1 graphics [ x 0 y 0 ] ]', 'node [ id 2 graphics [ x 200 y 0 ] ]'
# Broken diagrams, with a part of what explain says of each.
BROKEN = (
    ('', 'it is empty'), (' \n', 'no list graph'), ('a 1', 'no list graph'), ('graph [', 'the list that begins at line 1, column 7'),
    ('graph [ label "ab', 'the string that begins at line 1, column 15'), ('graph [ ] ]', "']' may not stand here"),
    ('graph', 'after a key that has no value'), ('graph [ a-b 1 ]', "'a-b' is no key"), ('a[' * 65, 'lies in 64 others'),
    ('\ufeffgraph [ ]', 'byte-order mark'), ('<?xml version="1.0"?><graphml/>', 'is XML'), ('digraph g { a -> b }', 'is DOT'),
    ('graph { a -- b }', 'is DOT'), ('{"a": 1}', 'is JSON'), ('graph [ node [ id 1 graphics [ x NaN y 0 ] ] ]', 'NaN is no number'),
    ('graph [ node [ id 1 graphics [ x "0" y 0 ] ] ]', 'x is "0", which is no number'),
    ('graph [ node [ id 1 graphics [ x 1e999999999999 y 0 ] ] ]', 'beyond 1,000,000 units'),
    ('graph [ node [ id 1 graphics [ x 0 y 0 w -1 ] ] ]', 'w or h is negative'),
    ('graph [ node [ graphics [ x 0 y 0 ] ] ]', 'its id is missing'), ('graph [ node [ id "a" graphics [ x 0 y 0 ] ] ]', 'its id is "a"'),
    (f'graph [ {NODE} {NODE} ]', 'an earlier node has the id 1'), ('graph [ node [ id 1 ] ]', 'it has no graphics'),
    ('graph [ node [ id 1 graphics [ x 1 ] ] ]', 'its graphics has no y'),
    (f'graph [ {NODE} edge [ source 1 target 2 ] ]', 'its target is 2, and no node has this id'),
    (f'graph [ {NODE} edge [ source 1 ] ]', 'its target is missing'),
    (f'graph [ {NODE} {OTHER} edge [ source 1 target 2 sourcePin 7 ] ]', 'no class of a pin'),
    ('graph [ node [ id 1 graphics [ x 0 y 0 ] pin [ class 1 x 99 y 0 ] ] ]', 'one of its pins'),
    (f'graph [ {NODE} {OTHER} edge [ source 1 target 2 via [ x 1 ] ] ]', 'one of its checkpoints'),
    (f'graph [ {NODE} {OTHER} edge [ source 1 target 2 nudgeWeight 5 ] ]', 'its nudgeWeight is 5'),
    ('graph [ router [ buffer -1 ] ]', 'in the list router'))
BROKEN_LINE = (f'graph [ {NODE} {OTHER} edge [ source 1 target 2 graphics [ Line [ point [ x 1 y "2" ] ] ] ] ]', 'y is "2", which is no number')
# Answers of reroute, with a part of what explain says of each.
ANSWERS = (
    ('words: not understood\n', 'check FILE; route FILE FILE'), ('read fault: x\n', 'x cannot be read'),
    ('too long: x limit 16777216\n', 'more than 16,777,216 bytes'), ('', 'printed nothing'), ('audit: yes\n', 'no legal line costs less'),
    ('audit: no, line 4\n', 'line 4 of it'), ('audit: no, edge 2 rule 3\n', 'cost of edge 2: the line is not legal'),
    ('edge 1: Hits 1 node 3\n', 'through the box with the id 3'), ('edge 1: Slanted 2\nedge 2: StartOff\n', 'segment 2 of its line'),
    ('preview 1: searched 0\npreview 2: X7 NodeInUse 5 at edit 3\n', 'proposal 2, edit 3: edge 5 ends at this node'),
    ('preview 1: searched 1\npreview 1 edge 4: no route\n', 'proposal 1: edge 4 would have no route'),
    ('preview 1: X14 NothingToUndo at edit 1\n', 'there is nothing to undo'),
    ('shared 1 2 runs 1-1: back tie, ahead tie, side none\ncrossings 0\n', 'nothing was refused'))
# Answers that are none, or that belong to another file.
STRANGE = (b'\0\xff', b'diagram: Syntax at 99999999\n', b'diagram: TooDeep at 3\n', b'diagram: BadId node 99\n', b'diagram: Odd node 1\n',
           b'diagram: TooMany pin\n', b'diagram: BadEnd edge 1\n', b'diagram: BadPin node 1\n', b'# edge 1: no route\n',
           b'# edge 9: no route\ngraph [ ]\n', b'# line 99: X1 Syntax\n')
# Diagrams with an edge that has no route, and why.
CLOSED = (
    (f'{NODE} node [ id 2 graphics [ x 0 y 0 w 90 h 90 ] ]', '', 'each way out of its source, box 1, is closed, the first by box 2'),
    (f'{NODE} {OTHER}', 'via [ x 200 y 0 ]', 'its checkpoint 1 at (200, 0) lies inside box 2'),
    (f'{NODE} {OTHER} ' + ' '.join(f'node [ id {k} graphics [ x {x} y {y} w {w} h {h} ] ]' for k, x, y, w, h in (
        (3, 0, -50, 140, 20), (4, 0, 50, 140, 20), (5, -60, 0, 20, 120), (6, 60, 0, 20, 120))), '', 'boxes leave no way between its ends and checkpoints'),
    (f'{NODE} {OTHER} ' + ' '.join(f'node [ id {k} graphics [ x {x} y {y} ] ]' for k, x, y in (
        (3, 32, 0), (4, -32, 0), (5, 0, 32), (6, 0, -32))), '', 'is closed, the first by box 3'),
    (f'{NODE} {OTHER} node [ id 3 graphics [ x 200 y 0 w 90 h 90 ] ]', '', 'each way out of its target, box 2, is closed, the first by box 3'))


def run(words, data=b''):
    return subprocess.run(words, input=data, capture_output=True, timeout=120, check=False)


def said_of(output, data, script=None):
    return ''.join(f'{line}\n' for line in explain.explain(output, data, script))


def bytes_of(name):
    with open(name, 'rb') as file:
        return file.read()


class Answers(unittest.TestCase):
    """What needs no executable."""

    def test_each_answer_is_told(self):
        data = bytes_of(f'{EXAMPLES}/straight.gml')
        for answer, why in ANSWERS:
            with self.subTest(answer=answer):
                self.assertIn(why, '\n'.join(explain.explain(answer.encode(), data, None)))

    def test_strange_answers_get_a_plain_line(self):
        for answer in STRANGE:
            with self.subTest(answer=answer):
                self.assert_plain(run([EXPLAIN, '/dev/null'], answer))

    def test_files_that_are_not_there(self):
        self.assert_plain(run([EXPLAIN, '/no such file'], b'diagram: Syntax at 1\n'))
        done = run([EXPLAIN, '/no such file'], b'read fault: /no such file\n')
        self.assertEqual((done.returncode, done.stderr), (0, b''))
        self.assertIn(b'cannot be read', done.stdout)

    def assert_plain(self, done):
        """Status 0, or status 2 with one line and nothing printed."""
        if done.returncode:
            self.assertEqual((done.returncode, done.stdout), (2, b''))
            self.assertRegex(done.stderr.decode(), r'\A(reroute-)?explain: [^\n]+\n\Z')


@unittest.skipUnless(os.path.exists(REROUTE) and os.path.exists(LIVE), 'reroute and reroute_live are not built')
class Diagrams(unittest.TestCase):
    """What reroute says of files."""

    def explained(self, text, *words):
        """What reroute prints of a diagram by a subcommand, and what is said of that."""
        data = text if isinstance(text, bytes) else text.encode()
        with tempfile.NamedTemporaryFile(suffix='.gml') as file:
            file.write(data)
            file.flush()
            output = run([REROUTE, words[0], file.name, *words[1:]]).stdout
        return output.decode('latin-1'), said_of(output, data)

    def test_broken_diagrams(self):
        for text, why in BROKEN:
            with self.subTest(text=text[:60]):
                self.assertIn(why, self.explained(text, 'route', '/dev/null')[1])
        self.assertIn(BROKEN_LINE[1], self.explained(BROKEN_LINE[0], 'check')[1])

    def test_binary_input(self):
        for data in (bytes(range(256)) * 9, b'\0' * 99, 'graph [ ]'.encode('utf-16'), b'a[' * 100000):
            with self.subTest(data=data[:20]):
                self.assertNotEqual(self.explained(data, 'check')[1], 'nothing was refused\n')

    def test_edges_without_a_route(self):
        for nodes, via, why in CLOSED:
            with self.subTest(why=why):
                self.assertIn(why, self.explained(f'graph [ {nodes} edge [ source 1 target 2 {via} ] ]', 'route', '/dev/null')[1])

    def test_examples(self):
        """A line for each refusal, and no other."""
        for name in sorted(os.listdir(EXAMPLES)):
            if name.endswith('.gml'):
                script = f'{EXAMPLES}/{name[:-4]}.script'
                script = script if os.path.exists(script) else '/dev/null'
                output = run([REROUTE, 'route', f'{EXAMPLES}/{name}', script]).stdout
                lines = said_of(output, bytes_of(f'{EXAMPLES}/{name}'), bytes_of(script)).splitlines()
                refusals = len(re.findall(rb'(?m)^# (line \d+: X|end: X|edge \d+: no route)', output))
                with self.subTest(name=name):
                    self.assertEqual(len(lines), max(1, refusals))
                    self.assertEqual(lines == ['nothing was refused'], not refusals)

    def test_files_of_other_tools(self):
        for name in sorted(os.listdir(OTHERS)):
            if name.endswith('.gml'):
                done = run([REROUTE, 'route', f'{OTHERS}/{name}', '/dev/null'])
                said = said_of(done.stdout, bytes_of(f'{OTHERS}/{name}'))
                with self.subTest(name=name):
                    if name[:-4] in REFUSED:
                        self.assertEqual(done.stdout.decode().split('\n')[0], REFUSED[name[:-4]][0])
                        self.assertIn(REFUSED[name[:-4]][1], said)
                    elif name == 'graphviz_gv2gml.gml':
                        self.assertTrue(said.startswith('warning: of 5 boxes the H is passed over'))
                    else:
                        self.assertEqual((done.returncode, said), (0, 'nothing was refused\n'))

    def test_examples_with_bytes_turned(self):
        draws = random.Random(1)
        for name in sorted(os.listdir(EXAMPLES)):
            if not name.endswith('.gml'):
                continue
            data = bytearray(bytes_of(f'{EXAMPLES}/{name}'))
            for _ in range(draws.randint(1, 4)):
                at, size = draws.randrange(len(data)), draws.choice([1, 1, 1, 9, 99])
                data[at:at + size] = draws.choice([b'', bytes([draws.randrange(256)]), data[at:at + size] * 2, b'9' * 30, b'[', b'"', b' x '])
            with self.subTest(name=name):
                output, said = self.explained(bytes(data), 'route', '/dev/null')
                self.assertFalse(output.startswith('diagram') and said == 'nothing was refused\n', output[:60])


if __name__ == '__main__':
    unittest.main()
