"""Tests what tools/package makes: the same bytes twice, each installed in a clean place and tried, one version everywhere."""
import importlib.machinery
import importlib.util
import json
import os
import pathlib
import re
import shutil
import subprocess
import sys
import tempfile
import unittest

TOP = os.path.dirname(os.path.dirname(os.path.dirname(os.path.realpath(__file__))))
REROUTE = os.path.abspath(os.environ.get('REROUTE') or f'{TOP}/out/reroute')
LIVE = os.path.abspath(os.environ.get('REROUTE_LIVE') or f'{TOP}/out/reroute_live')
LIBRARY = os.path.abspath(os.environ.get('REROUTE_LIBRARY') or f'{TOP}/out/library/libreroute.so.0')
PATIENCE = 900
DIAGRAM = 'examples/c/drag_a_box.gml'
PROJECT = '''cmake_minimum_required(VERSION 3.16)
project(editor CXX)
find_package(reroute 0.1 REQUIRED CONFIG)
add_executable(tried examples/c/drag_a_box.cpp)
target_link_libraries(tried reroute::reroute)
'''
sys.dont_write_bytecode = True


def module(name):
    """A tool as a module."""
    loader = importlib.machinery.SourceFileLoader(name, f'{TOP}/tools/{name}')
    found = importlib.util.module_from_spec(importlib.util.spec_from_loader(name, loader))
    loader.exec_module(found)
    return found


def text_of(path):
    with open(f'{TOP}/{path}') as file:
        return file.read()


def clean(**more):
    """The variables of a place that knows nothing of this repository."""
    names = ('PATH', 'HOME', 'LANG', 'TMPDIR')
    return {**{name: os.environ[name] for name in names if name in os.environ}, 'PYTHONDONTWRITEBYTECODE': '1', **more}


def output(words, folder, **more):
    done = subprocess.run(words, cwd=folder, env=clean(**more), capture_output=True, text=True, timeout=PATIENCE)
    if done.returncode:
        raise AssertionError(f'{words}: status {done.returncode}: {done.stdout}{done.stderr}')
    return done.stdout


def staged(prefix):
    """An installation of what is built, as tools/install makes it."""
    install = module('install')
    programs = {'reroute': REROUTE, 'reroute_live': LIVE}
    for name, path in programs.items():
        install.put(path, f'{prefix}/bin', name, 0o755)
    for tool, name in install.TOOLS.items():
        install.put(f'{TOP}/tools/{tool}', f'{prefix}/bin', name, 0o755)
    for name in getattr(install, 'MODULES', ()):
        install.put(f'{TOP}/tools/{name}', f'{prefix}/share/reroute', name, 0o644)
    output([sys.executable, f'{TOP}/tools/build-library', '--built', '--install', prefix, os.path.dirname(LIBRARY)], TOP)
    if os.path.exists(f'{TOP}/tools/make-manual'):
        output([sys.executable, f'{TOP}/tools/make-manual', f'{prefix}/share'], TOP)


def made(prefix, out):
    output([sys.executable, f'{TOP}/tools/package', prefix, out], TOP)
    return {str(path.relative_to(out)): path.read_bytes() for path in sorted(pathlib.Path(out).rglob('*')) if path.is_file()}


class PackageTest(unittest.TestCase):
    @classmethod
    def setUpClass(cls):
        for path in (REROUTE, LIVE, LIBRARY, f'{os.path.dirname(LIBRARY)}/BUILT'):
            if not os.path.exists(path):
                raise unittest.SkipTest(f'{path} is not there')
        for name in ('objdump', 'strip', 'nm'):
            if not shutil.which(name):
                raise unittest.SkipTest(f'{name} is not installed')
        cls.place = tempfile.TemporaryDirectory()
        cls.addClassCleanup(cls.place.cleanup)
        cls.prefix, cls.out = f'{cls.place.name}/prefix', f'{cls.place.name}/out'
        staged(cls.prefix)
        cls.files = made(cls.prefix, cls.out)

    def setUp(self):
        folder = tempfile.TemporaryDirectory()
        self.addCleanup(folder.cleanup)
        self.folder = folder.name
        shutil.copytree(f'{TOP}/examples', f'{self.folder}/examples')
        self.moved, self.dragged = text_of('examples/c/move_a_box.txt'), text_of('examples/c/drag_a_box.txt')

    def installed_debs(self):
        if not shutil.which('dpkg-deb'):
            self.skipTest('dpkg-deb is not installed')
        for name in self.files:
            if name.endswith('.deb'):
                output(['dpkg-deb', '-x', f'{self.out}/{name}', f'{self.folder}/installed'], self.folder)
        return f'{self.folder}/installed/usr'

    def test_two_runs_make_the_same_bytes(self):
        staged(f'{self.folder}/another/prefix')
        again = made(f'{self.folder}/another/prefix', f'{self.folder}/another/out')
        self.assertEqual(sorted(again), sorted(self.files))
        self.assertEqual([name for name in again if again[name] != self.files[name]], [])

    def test_the_wheel(self):
        name = next(name for name in self.files if name.endswith('.whl'))
        output([sys.executable, '-m', 'venv', 'venv'], self.folder)
        python = f'{self.folder}/venv/bin/python'
        output([python, '-m', 'pip', 'install', '--no-index', '--no-cache-dir', f'{self.out}/{name}'], self.folder)
        self.assertEqual(output([python, 'examples/c/move_a_box.py'], self.folder), self.moved)
        self.assertEqual(output([python, 'examples/c/drag_a_box.py', DIAGRAM], self.folder), self.dragged)
        self.assertEqual(output([python, 'examples/c/drag_a_box.py', DIAGRAM, LIVE], self.folder), self.dragged)
        output([python, '-m', 'reroute', 'examples/move_a_box.gml', '-o', 'out.svg'], self.folder)
        with open(f'{self.folder}/out.svg') as file:
            self.assertTrue(file.read().startswith('<svg'))
        tried = 'import doctest, reroute; tried = doctest.testmod(reroute); print(tried.failed, tried.attempted > 5)'
        self.assertEqual(output([python, '-c', tried], self.folder), '0 True\n')
        where = output([python, '-c', 'import reroute; print(reroute.__file__)'], self.folder)
        self.assertIn('venv', where)

    def test_the_folder_for_npm(self):
        if not shutil.which('npm'):
            self.skipTest('npm is not installed')
        for name in ('move_a_box.mjs', 'drag_a_box.mjs'):
            shutil.copy(f'{TOP}/examples/clients/{name}', self.folder)
        with open(f'{self.folder}/package.json', 'w') as file:
            json.dump({'name': 'editor', 'private': True}, file)
        output(['npm', 'install', '--offline', '--no-audit', '--no-fund', '--install-links', f'{self.out}/npm'], self.folder)
        self.assertEqual(output(['node', 'drag_a_box.mjs', DIAGRAM], self.folder), self.dragged)
        self.assertIn('back: [[0,0],[100,0]]', output(['node', 'move_a_box.mjs'], self.folder))
        checked = output(['npx', '--offline', 'reroute', 'check', 'examples/straight.gml'], self.folder)
        self.assertEqual(checked, 'edge 1: cost 100.000\n')
        package = json.loads(self.files['npm/package.json'])
        self.assertEqual((package['version'], package['bin']['reroute']), (VersionTest.VERSION, 'bin/reroute'))
        for target in package['exports'].values():
            for path in target.values() if isinstance(target, dict) else [target]:
                self.assertIn(os.path.normpath(f'npm/{path}'), self.files)

    def test_the_packages_for_debian(self):
        usr = self.installed_debs()
        library, python = f'{usr}/lib/x86_64-linux-gnu', f'{usr}/lib/python3/dist-packages'
        checked = output([f'{usr}/bin/reroute', 'check', 'examples/straight.gml'], self.folder)
        self.assertEqual(checked, 'edge 1: cost 100.000\n')
        self.assertTrue(output([f'{usr}/bin/reroute-svg', 'examples/straight.gml'], self.folder).startswith('<svg'))
        for script, wanted in (('move_a_box', self.moved), ('drag_a_box', self.dragged)):
            said = output([sys.executable, f'examples/c/{script}.py', DIAGRAM], self.folder, PYTHONPATH=python, LD_LIBRARY_PATH=library)
            self.assertEqual(said, wanted)
        self.assertEqual(output([sys.executable, 'examples/clients/move_a_box.py', f'{usr}/bin/reroute_live'], self.folder,
                                PYTHONPATH=python).splitlines()[-1], 'back: [(0.0, 0.0), (100.0, 0.0)]')

    def test_programs_over_the_packages_for_debian(self):
        if not (shutil.which('c++') and shutil.which('pkg-config')):
            self.skipTest('there is no C++ compiler, or no pkg-config')
        usr = self.installed_debs()
        library = f'{usr}/lib/x86_64-linux-gnu'
        found = output(['pkg-config', '--cflags', '--libs', 'reroute'], self.folder, PKG_CONFIG_PATH=f'{library}/pkgconfig',
                       PKG_CONFIG_SYSROOT_DIR=os.path.dirname(usr)).split()
        for name, wanted in (('move_a_box.c', self.moved), ('drag_a_box.c', self.dragged), ('drag_a_box.cpp', self.dragged)):
            output(['c++' if name.endswith('cpp') else 'cc', f'examples/c/{name}', *found, '-o', 'tried'], self.folder)
            self.assertEqual(output([f'{self.folder}/tried', DIAGRAM], self.folder, LD_LIBRARY_PATH=library), wanted)
        if shutil.which('cmake'):
            with open(f'{self.folder}/CMakeLists.txt', 'w') as file:
                file.write(PROJECT)
            output(['cmake', '-S', '.', '-B', 'build', f'-Dreroute_DIR={library}/cmake/reroute'], self.folder)
            output(['cmake', '--build', 'build'], self.folder)
            self.assertEqual(output([f'{self.folder}/build/tried', DIAGRAM], self.folder), self.dragged)

    def test_lintian_finds_nothing(self):
        if not shutil.which('lintian'):
            self.skipTest('lintian is not installed')
        names = [f'{self.out}/{name}' for name in self.files if name.endswith('.deb')]
        options = [] if os.path.exists(f'{TOP}/tools/make-manual') else ['--suppress-tags', 'no-manual-page']
        done = subprocess.run(['lintian', '--allow-root', *options, *names], capture_output=True, text=True, timeout=PATIENCE)
        self.assertEqual(re.findall(r'(?m)^[EW]: .*', done.stdout), [])

    def test_what_is_missing_is_said_in_a_line(self):
        tool = [sys.executable, f'{TOP}/tools/package']
        done = subprocess.run([*tool, f'{self.folder}/nowhere', f'{self.folder}/out'], capture_output=True, text=True)
        self.assertEqual((done.returncode, done.stderr.count('\n'), 'nowhere' in done.stderr), (1, 1, True))
        done = subprocess.run([*tool, self.prefix, self.folder, 'rpm'], capture_output=True, text=True)
        self.assertEqual(done.returncode, 2)


class VersionTest(unittest.TestCase):
    VERSION = module('package').version()

    def test_the_places_that_spell_it(self):
        for path, pattern in (('bindings/python/reroute/__init__.py', r"__version__ = '(.*)'"),
                              ('CHANGELOG.md', r'(?m)^## (\d+\.\d+\.\d+)'),
                              ('crates/reroute_live/src/arguments.rt', r'\.version\("(.*)"\)')):
            with self.subTest(path):
                self.assertEqual(re.search(pattern, text_of(path))[1], self.VERSION)
        self.assertIn(f'version {self.VERSION.rsplit(".", 1)[0]}.\n', text_of('bindings/reroute.h'))

    def test_the_library(self):
        if not os.path.exists(LIBRARY):
            self.skipTest(f'{LIBRARY} is not there')
        import ctypes
        number = ctypes.CDLL(LIBRARY).reroute_version()
        self.assertEqual(f'{number >> 16}.{number >> 8 & 255}.{number & 255}', self.VERSION)

    def test_programs_that_tell_it(self):
        if not os.path.exists(LIVE):
            self.skipTest(f'{LIVE} is not there')
        self.assertEqual(output([LIVE, '--version'], TOP), f'reroute_live {self.VERSION}\n')

    def test_tools_that_tell_it(self):
        for tool, name in {**module('install').TOOLS, 'package': 'package'}.items():
            if "add_argument('--version'" in text_of(f'tools/{tool}'):
                with self.subTest(tool):
                    said = output([sys.executable, f'{TOP}/tools/{tool}', '--version'], TOP)
                    self.assertEqual(said, f'{name} {self.VERSION}\n')


if __name__ == '__main__':
    unittest.main()
