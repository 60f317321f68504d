"""Tests what tools/build-wasm does around the build: what is not installed, the functions that a host calls, the page in one file."""
import importlib.machinery
import importlib.util
import os
import shutil
import subprocess
import sys
import tempfile
import unittest

TOP = os.path.dirname(os.path.dirname(os.path.dirname(os.path.realpath(__file__))))
TOOL = f'{TOP}/tools/build-wasm'
sys.dont_write_bytecode = True
loader = importlib.machinery.SourceFileLoader('build_wasm', TOOL)
build_wasm = importlib.util.module_from_spec(importlib.util.spec_from_loader('build_wasm', loader))
loader.exec_module(build_wasm)


def run(*words, path=''):
    return subprocess.run([sys.executable, TOOL, *words], capture_output=True, text=True, env={**os.environ, 'PATH': path})


class Missing(unittest.TestCase):
    def test_without_binaryen_nothing_is_built(self):
        done = run('/nowhere/at/all')
        self.assertEqual((done.returncode, done.stderr), (3, ''))
        self.assertIn('binaryen', done.stdout)

    def test_without_node_nothing_is_tested(self):
        done = run('--built', '--test', '/nowhere/at/all')
        self.assertEqual((done.returncode, done.stderr), (3, ''))
        self.assertIn('there is no Node', done.stdout)

    def test_a_folder_without_a_module_is_a_fault(self):
        with tempfile.TemporaryDirectory() as folder:
            done = run('--built', folder)
            self.assertEqual(done.returncode, 1)
            self.assertIn('reroute.wasm', done.stderr)
            self.assertNotIn('Traceback', done.stderr)

    def test_arguments(self):
        self.assertEqual(run('--level', 'fast').returncode, 2)
        self.assertEqual(run('--level').returncode, 2)
        for level in (('--level', '-O1'), ('--level=-O1',)):
            self.assertEqual(run(*level, '/nowhere/at/all').returncode, 3)
        self.assertEqual(run('--help').returncode, 0)


class Exports(unittest.TestCase):
    def shown(self, result, name, words, struct=''):
        return build_wasm.shown_export(result, name, words, build_wasm.exports()[name][1], struct)

    def test_addresses_and_sizes_have_32_bits(self):
        text = self.shown('void', 'reroute_ready', ['ptr %a'])
        self.assertIn('define void @reroute_ready(i32 %a0)', text)
        self.assertIn('inttoptr i32 %a0 to ptr', text)
        self.assertIn('define i32 @reroute_size()', self.shown('i64', 'reroute_size', [], 'usize'))

    def test_a_struct_goes_where_the_first_parameter_says(self):
        text = self.shown('{ i32, i64 }', 'reroute_begin', ['ptr %a', 'ptr %b'], 'Fault')
        self.assertIn('define void @reroute_begin(i32 %out, ', text)
        self.assertIn('store { i32, i64 } %r, ptr %o', text)

    def test_a_bool_is_a_number(self):
        types = build_wasm.exports()['reroute_reconnect'][1]
        words = ['ptr %x'] * types.count('Global') + ['ptr %h', 'i32 %a', 'i1 noundef zeroext %b', 'i64 %c', 'i32 %d', 'ptr %e']
        text = self.shown('{ i32, i64 }', 'reroute_reconnect', words, 'Fault')
        at = len(words) - 4
        self.assertIn(f'i32 %a{at}, i64 %a{at + 1}', text)
        self.assertIn(f'%b{at} = icmp ne i32 %a{at}, 0', text)
        self.assertIn(f'i1 zeroext %b{at}, i64 %a{at + 1}', text)

    def test_ids_and_lengths_keep_64_bits(self):
        types = build_wasm.exports()['reroute_move_box'][1]
        words = ['ptr %x'] * types.count('Global') + ['ptr %h', 'i64 %a', 'i64 %b', 'i64 %c']
        self.assertIn('i64 %a', self.shown('{ i32, i64 }', 'reroute_move_box', words, 'Fault'))


class Scripts(unittest.TestCase):
    def test_a_module_becomes_a_part_of_a_script(self):
        text = build_wasm.as_script('x.mjs', "import * as a from './a.mjs';\nimport { b } from './b.mjs';\nexport const one = a.f(b);\n"
                                    "export { b };\nexport class Two {}\n")
        self.assertEqual(text, "modules['x.mjs'] = (() => {\nconst a = modules['a.mjs'];\nconst { b } = modules['b.mjs'];\n"
                         'const one = a.f(b);\nclass Two {}\n\nreturn { one, Two, b };\n})();\n')

    def test_what_it_does_not_take_is_a_fault(self):
        for line in ("import x from './x.mjs';\n", 'export default 1;\n', "const x = import('y');\n"):
            with self.assertRaises(build_wasm.lowered.Failed):
                build_wasm.as_script('x.mjs', line)

    def test_all_modules_of_the_page_are_taken(self):
        with tempfile.TemporaryDirectory() as folder:
            with open(f'{folder}/reroute.wasm', 'wb') as file:
                file.write(b'\0asm')
            build_wasm.put_beside(folder)
            self.assertTrue({'reroute.mjs', 'reroute-worker.d.mts', 'LICENCES.md', 'index.html'} <= set(os.listdir(folder)))
            text = build_wasm.text_of(f'{folder}/reroute.html')
            self.assertNotIn('src="page.mjs"', text)
            for name in ('reroute.mjs', 'reroute-worker.mjs', 'page.mjs', 'drawing.mjs', 'gml.mjs', 'words.mjs', 'first.mjs', 'live.mjs'):
                self.assertIn(f"modules['{name}'] = ", text)

    def test_made_scripts_are_the_same_each_time(self):
        first, again, other = (list(build_wasm.scripts(5, seed)) for seed in (1, 1, 2))
        self.assertEqual(first, again)
        self.assertNotEqual(first, other)


REROUTE = os.path.abspath(os.environ.get('REROUTE') or f'{TOP}/out/reroute')


@unittest.skipUnless(shutil.which('node') and os.path.exists(f'{TOP}/out/wasm/reroute.wasm') and os.path.exists(REROUTE),
                     'there is no Node, no module in out/wasm, or no program')
class Example(unittest.TestCase):
    def test_a_file_is_routed_as_by_the_program(self):
        diagram = f'{TOP}/examples/editor.gml'
        done = subprocess.run(['node', f'{TOP}/examples/clients/route.mjs', diagram], capture_output=True, check=True)
        program = subprocess.run([REROUTE, 'route', diagram, '/dev/null'], capture_output=True, check=True).stdout
        self.assertEqual(done.stdout, b''.join(line for line in program.splitlines(True) if not line.startswith(b'# ')))


@unittest.skipUnless(shutil.which('node'), 'there is no Node')
class Page(unittest.TestCase):
    """What the page draws and says, in Node."""

    def value(self, text):
        """What an expression over the page's modules is, as text."""
        with tempfile.TemporaryDirectory() as folder:
            for path in ('bindings/reroute.mjs', *(f'examples/page/{name}.mjs' for name in ('drawing', 'gml', 'words'))):
                shutil.copy(f'{TOP}/{path}', folder)
            with open(f'{folder}/run.mjs', 'w', encoding='utf-8') as file:
                file.write("import * as drawing from './drawing.mjs';\nimport * as words from './words.mjs';\n"
                           f"import {{ Refused }} from './reroute.mjs';\nconsole.log({text});\n")
            return subprocess.run(['node', f'{folder}/run.mjs'], capture_output=True, text=True, check=True).stdout.strip()

    def test_corners_are_round_and_crossings_have_bows(self):
        self.assertEqual(self.value('drawing.pathOf([[0, 0], [20, 0], [20, 30]])'), 'M0,0L14,0Q20,0 20,6L20,30')
        self.assertEqual(self.value('drawing.pathOf([[0, 0], [100, 0]], [[50]])'), 'M0,0L46,0A4,4 0 0 1 54,0L100,0')
        self.assertEqual(self.value('drawing.pathOf([[100, 0], [0, 0]], [[50, 55]])'), 'M100,0L59,0A6.5,4 0 0 0 46,0L0,0')
        crossed = 'JSON.stringify([...drawing.crossings(new Map([[1, [[0, 0], [100, 0]]], [2, [[50, -20], [50, 20]]], [3, [[60, 0], [60, 20]]]]))])'
        self.assertEqual(self.value(crossed), '[[1,[[50]]],[2,[[]]],[3,[[]]]]')

    def test_lines_begin_and_end_at_the_sides_of_boxes(self):
        box = '{ x: 0, y: 0, w: 20, h: 20 }'
        self.assertEqual(self.value(f'drawing.visible([[0, 0], [5, 0], [5, 50], [100, 50]], {box}, {{ x: 100, y: 50, w: 30, h: 10 }})'),
                         '[ [ 5, 10 ], [ 5, 50 ], [ 85, 50 ] ]')
        self.assertEqual(self.value(f'drawing.visible([[10, 0], [50, 0]], {box}, {{ x: 60, y: 0, w: 20, h: 20 }})'), '[ [ 10, 0 ], [ 50, 0 ] ]')

    def test_refused_files_are_told_by_line_and_column(self):
        def said(code, value, text):
            return self.value(f'words.ofDiagram(new Refused({code}, {value}), new TextEncoder().encode({text!r}))')

        self.assertEqual(said(101, 9, 'graph [\n ] x ]'), 'line 2, column 2: "]" can not stand here')
        self.assertEqual(said(105, 2, 'graph [ # [ node\n node [ id 1 ]\n  node [ id 1 ] ]'), 'line 3, column 3: node 2: an earlier node has its id')
        self.assertEqual(said(133, 0, ''), 'a diagram has at most 512 connectors')


if __name__ == '__main__':
    unittest.main()
