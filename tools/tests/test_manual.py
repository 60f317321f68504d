"""Tries make-manual: a man page, and completion for each shell, of every installed program."""
import importlib.machinery
import importlib.util
import os
import re
import shutil
import subprocess
import sys
import tempfile
import unittest
import unittest.mock

TOP = os.path.dirname(os.path.dirname(os.path.dirname(os.path.realpath(__file__))))
MAKE = f'{TOP}/tools/make-manual'


def module(name):
    loader = importlib.machinery.SourceFileLoader(name.replace('-', '_'), f'{TOP}/tools/{name}')
    found = importlib.util.module_from_spec(importlib.util.spec_from_loader(loader.name, loader))
    with unittest.mock.patch.object(sys, 'dont_write_bytecode', True):
        loader.exec_module(found)
    return found


class Manual(unittest.TestCase):
    @classmethod
    def setUpClass(cls):
        cls.folder = tempfile.TemporaryDirectory()
        done = subprocess.run([sys.executable, MAKE, cls.folder.name], capture_output=True, text=True, timeout=120)
        assert (done.returncode, done.stdout, done.stderr) == (0, '', ''), done
        install = module('install')
        cls.programs = [*install.PROGRAMS, *install.TOOLS.values()]

    @classmethod
    def tearDownClass(cls):
        cls.folder.cleanup()

    def path(self, kind, name):
        form = {'man': 'man/man1/{}.1', 'bash': 'bash-completion/completions/{}', 'zsh': 'zsh/site-functions/_{}',
                'fish': 'fish/vendor_completions.d/{}.fish'}[kind]
        return f'{self.folder.name}/{form.format(name)}'

    def text(self, kind, name):
        with open(self.path(kind, name), encoding='utf-8') as file:
            return file.read()

    def test_every_installed_program_has_all_four(self):
        for name in self.programs:
            for kind in ('man', 'bash', 'zsh', 'fish'):
                self.assertTrue(os.path.getsize(self.path(kind, name)), (kind, name))

    def test_pages_name_every_option_that_the_program_has(self):
        for source, name in module('install').TOOLS.items():
            said = subprocess.run([sys.executable, f'{TOP}/tools/{source}', '--help'], capture_output=True, text=True).stdout
            for option in set(re.findall(r'--[a-z][a-z-]+', said.split('options:')[-1])) - {'--help'}:
                self.assertIn(option.replace('-', '\\-'), self.text('man', name), name)
                for kind in ('bash', 'zsh'):
                    self.assertIn(option, self.text(kind, name), (kind, name))

    def test_pages_of_reroute_have_the_tables(self):
        page = self.text('man', 'reroute')
        for part in ('reroute route FILE FILE [\\-\\-workers N] [\\-\\-count]', '.SH EXIT STATUS', 'too long', 'via EDGE PLACE X Y'):
            self.assertIn(part, page)
        self.assertIn('refused CODE NAME VALUE', self.text('man', 'reroute_live'))
        self.assertNotRegex(page, r'\]\(|\.md')

    def test_a_cell_that_begins_with_a_point_is_no_command_of_roff(self):
        make = module('make-manual')
        self.assertEqual(make.roff(".svg and 'x'\n'y' a\\b"), "\\&.svg and 'x'\n\\&'y' a\\eb")

    def test_a_page_without_its_table(self):
        make = module('make-manual')
        with self.assertRaisesRegex(make.Fault, 'docs/GUIDE.md has no table under No such heading'):
            make.table('docs/GUIDE.md', 'No such heading')

    @unittest.skipUnless(shutil.which('man'), 'man is not installed')
    def test_man_has_no_warnings(self):
        for name in self.programs:
            done = subprocess.run(['man', '--warnings', '-l', self.path('man', name)], capture_output=True, text=True,
                                  env={**os.environ, 'MANPAGER': 'cat', 'LC_ALL': 'C.UTF-8'})
            self.assertEqual((done.returncode, done.stderr), (0, ''), name)
            self.assertIn('SEE ALSO', done.stdout)

    def complete_bash(self, name, *words):
        """What bash offers for the last of these words."""
        given = ' '.join(f"'{word}'" for word in (name, *words))
        script = (f'. {self.path("bash", name)}\nCOMP_WORDS=({given})\nCOMP_CWORD={len(words)}\n'
                  f'_{name.replace("-", "_")}\nprintf "%s\\n" "${{COMPREPLY[@]}}"')
        return subprocess.run(['bash', '-c', script], capture_output=True, text=True, cwd=TOP).stdout.split()

    @unittest.skipUnless(shutil.which('bash'), 'bash is not installed')
    def test_bash(self):
        self.assertEqual(self.complete_bash('reroute', 'p'), ['preview', 'prove'])
        self.assertEqual(self.complete_bash('reroute', 'route', '--'), ['--workers', '--count'])
        self.assertEqual(self.complete_bash('reroute', 'check', '--'), [])
        self.assertEqual(self.complete_bash('reroute', 'route', 'a.gml', '--workers', ''), ['1', '2', '3', '4'])
        self.assertEqual(self.complete_bash('reroute-draw', 'g.dot', '--pins', ''), ['best', 'plain', 'none'])
        self.assertEqual(self.complete_bash('reroute-draw', 'g.dot', '--buffer', ''), [])
        self.assertEqual(self.complete_bash('reroute-svg', 'READ'), ['README.md'])

    @unittest.skipUnless(shutil.which('fish'), 'fish is not installed')
    def test_fish(self):
        for name, line, wanted in (('reroute', 'reroute pr', ['preview', 'prove']), ('reroute', 'reroute route --c', ['--count']),
                                   ('reroute-draw', 'reroute-draw --pins ', ['best', 'none', 'plain'])):
            done = subprocess.run(['fish', '--no-config', '-c', f'source {self.path("fish", name)}; complete -C "{line}"'],
                                  capture_output=True, text=True, cwd=self.folder.name)
            self.assertEqual([row.split('\t')[0] for row in done.stdout.split('\n') if row], wanted, done.stderr)

    @unittest.skipUnless(shutil.which('zsh'), 'zsh is not installed')
    def test_zsh(self):
        for name in self.programs:
            text = self.text('zsh', name)
            self.assertTrue(text.startswith(f'#compdef {name}\n'))
            self.assertEqual(subprocess.run(['zsh', '-n', self.path('zsh', name)], capture_output=True).stderr, b'')
        # (_arguments is replaced by a function that shows what it is given)
        shown = subprocess.run(['zsh', '-fc', f'_arguments() {{ print -rl -- "$@" }}; . {self.path("zsh", "reroute-draw")}'],
                               capture_output=True, text=True).stdout.split('\n')
        self.assertTrue({'--out=[what is written]:OUT:_files', '-o+[what is written]:OUT:_files'} <=
                        {re.sub(r'^\([^)]*\)', '', row) for row in shown}, shown)
        self.assertIn('--pins=[where lines end]:WORD:(best plain none)', shown)


if __name__ == '__main__':
    unittest.main()
