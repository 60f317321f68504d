"""Tries check-pages and make-pages on this repository, and on copies with a fault in them."""
import os
import shutil
import subprocess
import tempfile
import unittest

TOP = os.path.dirname(os.path.dirname(os.path.dirname(os.path.realpath(__file__))))
# Faults that are put into a copy: the file, a text of it and what it becomes, and what check-pages says then.
FAULTS = (
    ('README.md', '(docs/GUIDE.md)', '(docs/GUIDES.md)', 'README.md', 'docs/GUIDES.md, which is not there'),
    ('docs/GUIDE.md', '](#exit-statuses)', '](#exit-status)', 'docs/GUIDE.md', 'has no heading `exit-status`'),
    ('docs/ARCHITECTURE.md', '[`exit_of`]', '[`exits_of`]', 'docs/ARCHITECTURE.md', '`exits_of` is not in'),
    ('README.md', 'at most 256 boxes', 'at most 255 boxes', 'README.md', '255 for the limit MOST_NODES, which is 256'),
    ('docs/SPECIFICATION.md', 'The penalty is 50 units', 'The penalty is 40 units', 'docs/SPECIFICATION.md', '40 for the default penalty'),
    ('docs/WORDS.md', 'keep from boxes; 4 units', 'keep from boxes; 5 units', 'docs/WORDS.md', '5 for the default buffer'),
    ('tools/gml.py', "('nudge', 4000)", "('nudge', 8000)", 'tools/gml.py', '8000 for the default nudge'),
    ('crates/plane_geom/src/lib.rt', '//! ', '// ', 'crates/plane_geom/src/lib.rt', 'does not begin with a line'),
    ('crates/plane_geom/must-fail/closed_rectangle.edit', 'old: ', 'old: @', 'crates/plane_geom/must-fail/closed_rectangle.edit', 'stands 0 times'),
    ('crates/README.md', '(plane_geom/README.md)', '(walk_model/README.md)', 'crates/README.md', 'plane_geom'),
    ('CONTRIBUTING.md', '# Contributing', '# Contributing\n' + 'word ' * 600, 'CONTRIBUTING.md', '600 are the most'),
    ('tools/trace.txt', 'reroute_app:IsFormOutcome', 'reroute_app:IsFormsOutcome', 'tools/trace.txt', 'does not declare IsFormsOutcome'))


def run(*words, cwd=TOP):
    return subprocess.run(words, cwd=cwd, capture_output=True, text=True, timeout=600, check=False)


class Pages(unittest.TestCase):
    @classmethod
    def setUpClass(cls):
        """A copy of the tracked files, as a repository of its own."""
        cls.folder = tempfile.mkdtemp()
        cls.copy = f'{cls.folder}/copy'
        for path in run('git', 'ls-files', '-z').stdout.split('\0'):
            if path and os.path.exists(f'{TOP}/{path}'):
                os.makedirs(os.path.dirname(f'{cls.copy}/{path}'), exist_ok=True)
                shutil.copy(f'{TOP}/{path}', f'{cls.copy}/{path}')
        run('git', 'init', '-q', cwd=cls.copy)
        run('git', 'add', '-A', cwd=cls.copy)

    @classmethod
    def tearDownClass(cls):
        shutil.rmtree(cls.folder)

    def test_pages_have_no_fault(self):
        done = run('tools/check-pages', cwd=self.copy)
        self.assertEqual((done.returncode, done.stderr), (0, ''), done.stdout)

    def test_faults_are_found(self):
        """Each fault has its line, and nothing but that is said where one alone is put in."""
        kept = {}
        for path, old, new, _, _ in FAULTS:
            with open(f'{self.copy}/{path}', encoding='utf-8') as file:
                text = file.read()
            kept.setdefault(path, text)
            self.assertIn(old, text, path)
            with open(f'{self.copy}/{path}', 'w', encoding='utf-8') as file:
                file.write(text.replace(old, new, 1))
        try:
            done = run('tools/check-pages', cwd=self.copy)
        finally:
            for path, text in kept.items():
                with open(f'{self.copy}/{path}', 'w', encoding='utf-8') as file:
                    file.write(text)
        self.assertEqual(done.returncode, 1, done.stderr)
        lines = done.stdout.split('\n')
        for _, _, _, path, said in FAULTS:
            with self.subTest(path=path, said=said):
                self.assertTrue(any(line.startswith(f'{path}:') and said in line for line in lines), done.stdout)

    def test_generated_pages_are_fresh(self):
        done = run('tools/make-pages', '--check', cwd=self.copy)
        self.assertEqual((done.returncode, done.stdout, done.stderr), (0, '', ''))

    def test_a_program_that_is_none(self):
        done = run('tools/check-pages', '--program', '/dev/null')
        self.assertEqual((done.returncode, done.stdout), (2, ''))
        self.assertRegex(done.stderr, r'\Acheck-pages: [^\n]+\n\Z')


if __name__ == '__main__':
    unittest.main()
