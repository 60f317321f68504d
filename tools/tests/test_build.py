"""Tries what the tools that build and install say without building."""
import os
import subprocess
import unittest

TOP = os.path.dirname(os.path.dirname(os.path.dirname(os.path.realpath(__file__))))
TOOLS = ('build', 'build-library', 'install', 'test-tools', 'test-clients', 'check-pages', 'make-pages')


class Help(unittest.TestCase):
    def run_tool(self, tool, *words):
        return subprocess.run([f'{TOP}/tools/{tool}', *words], capture_output=True, text=True, timeout=60, check=False)

    def test_each_tool_tells_how_it_is_called(self):
        for tool in TOOLS:
            with self.subTest(tool=tool):
                done = self.run_tool(tool, '--help')
                self.assertEqual((done.returncode, done.stderr), (0, ''))
                self.assertIn('usage: ', done.stdout)

    def test_words_that_are_not_understood(self):
        for tool, words in (('build', ['--no-such-option']), ('install', []), ('test-tools', ['no_such_test']), ('make-pages', ['x'])):
            with self.subTest(tool=tool):
                self.assertEqual(self.run_tool(tool, *words).returncode, 2)


if __name__ == '__main__':
    unittest.main()
