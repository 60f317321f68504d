"""Tests the statuses of reroute, and the line for people on standard error that comes with each."""
import os
import resource
import subprocess
import tempfile
import threading
import unittest

TOP = os.path.dirname(os.path.dirname(os.path.dirname(os.path.realpath(__file__))))
REROUTE = os.path.abspath(os.environ.get('REROUTE') or f'{TOP}/out/reroute')
PATIENCE = 60
MOST_BYTES = 16_777_216
# Bytes of memory with which the program starts, and in which no diagram of the greatest length has room.
LITTLE = 12_000_000
EMPTY = 'graph [ ]'
BREACH = """graph [ node [ id 1 graphics [ x 0 y 0 w 20 h 20 ] ] node [ id 2 graphics [ x 100 y 0 w 20 h 20 ] ]
  edge [ source 1 target 2 graphics [ Line [ point [ x 0 y 1 ] point [ x 100 y 1 ] ] ] ] ]"""
# A box in a larger one, two others, and edges of which two end in the larger one.
COVERED = """begin
node 1 0 0 20 20
node 2 200 0 20 20
node 3 0 0 60 60
node 4 200 100 20 20
edge 1 2 0 0
edge 2 4 0 0
edge 4 1 0 0
commit
"""
ONE_COVERED = COVERED.replace('edge 4 1 0 0\n', '')


@unittest.skipUnless(os.path.exists(REROUTE), f'{REROUTE} is not there')
class StatusTest(unittest.TestCase):
    def setUp(self):
        folder = tempfile.TemporaryDirectory()
        self.addCleanup(folder.cleanup)
        self.folder = folder.name
        for name, text in (('empty.gml', EMPTY), ('breach.gml', BREACH), ('covered.script', COVERED), ('one.script', ONE_COVERED),
                           ('undo.script', 'undo\n'), ('bad.gml', 'graph [\n]\n]'), ('false.proof', 'edge 1 cut\n'),
                           ('full.gml', EMPTY.ljust(MOST_BYTES)), ('long.gml', EMPTY.ljust(MOST_BYTES + 1))):
            with open(f'{self.folder}/{name}', 'w') as file:
                file.write(text)

    def run_on(self, *words, memory=resource.RLIM_INFINITY, stdout=subprocess.PIPE, **how):
        def confine():
            resource.setrlimit(resource.RLIMIT_AS, (memory, memory))

        return subprocess.run([REROUTE, *words], cwd=self.folder, stdout=stdout, stderr=subprocess.PIPE, timeout=PATIENCE,
                              preexec_fn=confine, **how)

    def assert_ends(self, words, status, said, **how):
        """The program ends with this status, and standard error has one line that is this one or begins so, or nothing."""
        done = self.run_on(*words.split(), **how)
        with self.subTest(words):
            self.assertEqual(done.returncode, status)
            printed = done.stderr.decode()
            self.assertTrue(printed.startswith(said) and printed.count('\n') == bool(said), printed)

    def test_each_status(self):
        usage = 'check FILE, route FILE FILE'
        for words, status, said in (
                ('check empty.gml', 0, ''), ('route empty.gml covered.script', 0, 'reroute: 2 of 3 edges have no route; reroute-explain says why\n'),
                ('route empty.gml one.script', 0, 'reroute: 1 of 2 edges has no route; reroute-explain says why\n'),
                ('route empty.gml undo.script', 1, 'reroute: a line of the script was refused'),
                ('check', 2, f'reroute: {usage}'), ('chek empty.gml', 2, f"reroute: 'chek' is no subcommand: {usage}"),
                ('', 2, f'reroute: no subcommand is given: {usage}'),
                ('check bad.gml', 3, 'reroute: line 3, column 1: the file is no diagram'),
                ('check breach.gml', 8, 'reroute: a line breaks a rule'), ('check nowhere', 4, 'reroute: the file cannot be read'),
                ('route empty.gml nowhere', 4, 'reroute: the file cannot be read'), ('check long.gml', 7, 'reroute: the file is too long'),
                ('audit empty.gml false.proof', 9, 'reroute: the certificate does not prove')):
            self.assert_ends(words, status, said)

    def test_a_full_disk(self):
        with open('/dev/full', 'wb') as full:
            self.assert_ends('check breach.gml', 5, 'reroute: the output could not be written', stdout=full)

    def test_little_memory_says_nothing(self):
        self.assert_ends('check full.gml', 6, '', memory=LITTLE)

    def test_a_place_on_standard_input(self):
        self.assert_ends('route /dev/stdin /dev/null', 3, 'reroute: line 2, column 7: the file is no diagram', input=b'\ngraph ]')

    def test_a_pipe_with_a_name_is_read_once(self):
        os.mkfifo(f'{self.folder}/pipe')

        def write():
            with open(f'{self.folder}/pipe', 'wb') as pipe:
                pipe.write(b'graph [')

        writer = threading.Thread(target=write)
        writer.start()
        self.assert_ends('check pipe', 3, 'reroute: line 1, column 8: the file is no diagram')
        writer.join(PATIENCE)


if __name__ == '__main__':
    unittest.main()
