"""Tests of bench/traps: a trap fails where it is above its limit, and where the program does."""
import os
import subprocess
import unittest

TRAPS = os.path.join(os.path.dirname(os.path.realpath(__file__)), '..', '..', 'bench', 'traps')


def traps(program, times):
    """The status and the output for one diagram."""
    words = [TRAPS, '--program', f'/bin/{program}', '--times', times, 'certified']
    done = subprocess.run(words, stdout=subprocess.PIPE, text=True)
    return done.returncode, done.stdout


class Traps(unittest.TestCase):
    def test_within_the_limit(self):
        status, out = traps('true', '1')
        self.assertEqual((status, out.splitlines()[-1]), (0, '1 traps, 0 over'))

    def test_a_limit_of_0(self):
        status, out = traps('true', '0')
        self.assertEqual((status, out[:21]), (1, 'OVER prove certified:'))

    def test_a_program_that_fails(self):
        status, out = traps('false', '1')
        self.assertEqual((status, out[:21]), (1, 'OVER prove certified:'))


if __name__ == '__main__':
    unittest.main()
