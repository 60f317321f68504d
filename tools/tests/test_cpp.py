"""Tests the C++ class over the library, and what CMake finds of an installed one."""
import os
import shutil
import subprocess
import sys
import tempfile
import unittest

TOP = os.path.dirname(os.path.dirname(os.path.dirname(os.path.realpath(__file__))))
LIBRARY = os.path.abspath(os.environ.get('REROUTE_LIBRARY') or f'{TOP}/out/library/libreroute.so.0')
WARNINGS = ['-Wall', '-Wextra', '-Wpedantic', '-Wshadow', '-Wconversion', '-Wsign-conversion', '-Werror']
HEAD = r'''
#include "reroute.hpp"
#include <cstdio>
#include <cstdlib>
#include <limits>
#define EXPECT(what) do { if (!(what)) { std::printf("not so: %s\n", #what); std::exit(1); } } while (0)
#define THROWS(kind, what) \
    do { bool thrown = false; try { what; } catch (const kind &) { thrown = true; } EXPECT(thrown); } while (0)
using reroute::Corners;
using reroute::Lines;
using reroute::Session;
static const Corners straight = {{0, 0}, {100, 0}}, around = {{0, 0}, {0, -24}, {100, -24}, {100, 0}};
// Two boxes with a line between them, and a third box out of the way.
inline Session drawn() {
    Session session;
    session.transaction([](Session &s) {
        s.addBox(1, 0, 0, 20, 20);
        s.addBox(2, 100, 0, 20, 20);
        s.addBox(3, 50, 80, 20, 40);
        s.connect(1, 2);
    });
    return session;
}
'''


def compiled(folder, body, *options, compiler='c++', standard='c++11'):
    """The program of a body, which expects to be run beside the library."""
    source = os.path.join(folder, 'tried.cpp')
    with open(source, 'w') as file:
        file.write(f'{HEAD}\nint main() {{\n{body}\n    return 0;\n}}\n')
    done = subprocess.run([compiler, f'-std={standard}', *WARNINGS, *options, f'-I{TOP}/bindings', source, LIBRARY,
                           f'-Wl,-rpath,{os.path.dirname(LIBRARY)}', '-o', f'{folder}/tried'], capture_output=True, text=True)
    if done.returncode:
        raise AssertionError(done.stderr)
    return f'{folder}/tried'


class CompilerTest(unittest.TestCase):
    """A test that needs a compiler, the library and a folder."""

    @classmethod
    def setUpClass(cls):
        if not os.path.exists(LIBRARY) or not shutil.which('c++'):
            raise unittest.SkipTest(f'there is no C++ compiler, or no {LIBRARY}')

    def setUp(self):
        folder = tempfile.TemporaryDirectory()
        self.addCleanup(folder.cleanup)
        self.folder = folder.name


class ClassTest(CompilerTest):
    def assert_holds(self, body, *options, **more):
        done = subprocess.run([compiled(self.folder, body, *options, **more)], capture_output=True, text=True)
        self.assertEqual((done.returncode, done.stdout + done.stderr), (0, ''))

    def test_sessions_move(self):
        self.assert_holds('''
    std::vector<Session> sessions;
    for (int count = 0; count < 5; count++) sessions.push_back(drawn());
    Session moved = std::move(sessions[0]);
    EXPECT(moved.lines().at(1) == straight && sessions[4].boxCount() == 3);
    THROWS(reroute::Refused, sessions[0].undo());
    sessions[0] = drawn();
    EXPECT(sessions[0].boxCount() == 3);''', '-fsanitize=address,undefined')

    def test_labels_are_of_what_was_added(self):
        self.assert_holds('''
    Session session = drawn();
    session.labelBox(3, "Ship & bill");
    session.labelConnector(1, "goes right");
    THROWS(reroute::Refused, session.labelBox(3, "a \\" in it"));
    EXPECT(session.gml().find("id 3\\n    label \\"Ship & bill\\"\\n") != std::string::npos);
    EXPECT(session.gml().find("target 2\\n    label \\"goes right\\"\\n") != std::string::npos);
    session.labelBox(3, "");
    EXPECT(session.gml().find("Ship") == std::string::npos);''')

    def test_an_end_moves_to_another_box(self):
        self.assert_holds('''
    Session session = drawn();
    session.transaction([](Session &s) { s.addPin(3, 7, 0, -20, "N"); s.addCheckpoint(1, 1, 50, 30); });
    EXPECT(session.transaction([](Session &s) { return s.reconnect(1, reroute::End::end, 3, 7); }) == 2);
    const reroute::Connector one = session.connectors().at(0);
    EXPECT(one.number == 2 && one.start == 1 && one.end == 3 && one.startClass == 0 && one.endClass == 7);
    EXPECT(one.checkpoints == (Corners{{50, 30}}));
    EXPECT(session.transaction([](Session &s) { return s.reconnect(2, reroute::End::start, 2); }) == 3);
    EXPECT(session.connectors().at(0).start == 2 && session.connectors().at(0).endClass == 7);
    THROWS(reroute::Refused, session.transaction([](Session &s) { s.reconnect(3, reroute::End::end, 9); }));
    THROWS(reroute::Refused, session.transaction([](Session &s) { s.addBox(1000000000000000000, 0, 0, 20, 20); }));
    EXPECT(session.connectorCount() == 1 && session.next() == 4);''', '-fsanitize=address,undefined')

    def test_questions_about_the_present_scene(self):
        self.assert_holds('''
    Session session = drawn();
    EXPECT(session.sharedPaths().empty() && session.crossings() == 0);
    session.transaction([](Session &s) { s.connect(2, 1); s.move(3, 50, 0); });
    const std::vector<reroute::SharedPath> paths = session.sharedPaths();
    EXPECT(paths.size() == 1 && paths[0].a == 1 && paths[0].b == 2 && paths[0].first == 1 && paths[0].last == 3);
    EXPECT(paths[0].bFirst == 3 && paths[0].bLast == 1 && paths[0].back == reroute::Hand::none);
    EXPECT(paths[0].ahead == reroute::Hand::none && paths[0].side == reroute::Hand::none);
    const reroute::SharedPath parting = Session("graph [ node [ id 1 graphics [ x 0 y 0 w 20 h 20 ] ]"
        " node [ id 2 graphics [ x 100 y 100 w 20 h 20 ] ] node [ id 3 graphics [ x 200 y 300 w 20 h 20 ] ]"
        " edge [ source 1 target 2 ] edge [ source 1 target 3 ] ]").sharedPaths().at(0);
    EXPECT(parting.back == reroute::Hand::none && parting.ahead == reroute::Hand::right && parting.side == reroute::Hand::right);
    reroute::Verdict verdict = session.check(1, around);
    EXPECT(verdict.breach == reroute::Breach::none && verdict.cost > 247 && verdict.cost < 249 && verdict.place == 0);
    verdict = session.check(1, straight);
    EXPECT(verdict.breach == reroute::Breach::hits && verdict.place == 1 && verdict.box == 3);
    EXPECT(session.check(1, {}).breach == reroute::Breach::startOff);
    EXPECT(session.check(1, {{0, 0}, {100, 1}}).breach == reroute::Breach::slanted);
    session.begin();
    THROWS(reroute::Refused, session.check(9, around));
    THROWS(reroute::Refused, session.check(1, {{0, 0}, {2000001, 0}}));
    session.commit();
    const Session moved = std::move(session);
    THROWS(reroute::Refused, session.crossings());
    EXPECT(moved.crossings() == 0);''', '-fsanitize=address,undefined')

    def test_a_transaction_answers_what_its_edits_answer(self):
        self.assert_holds('''
    Session session = drawn();
    const uint32_t connector = session.transaction([](Session &s) { return s.connect(1, 3); });
    EXPECT(connector == 2 && session.connectorCount() == 2);
    EXPECT(session.trial([](Session &s) { s.cut(2); return s.preview().size(); }) == 1);
    EXPECT(session.connectorCount() == 2);
    THROWS(int, session.transaction([](Session &s) -> int { s.cut(1); throw 5; }));
    EXPECT(session.connectorCount() == 2);
    THROWS(reroute::Refused, session.transaction([](Session &s) { s.cut(1); s.cut(7); }));
    EXPECT(session.connectorCount() == 2);
    session.begin();
    session.cut(1);
    session.commit();
    EXPECT(session.connectorCount() == 1 && session.next() == 3);''')

    def test_a_commit_after_previews_tells_what_differs_from_what_was_told(self):
        self.assert_holds('''
    Session session = drawn();
    EXPECT(session.lines().at(1) == straight);
    for (int y = 60; y >= 0; y -= 20) session.previewLines([&](Session &s) { s.move(3, 50, y); });
    EXPECT(session.previewLines([](Session &s) { s.move(3, 50, 0); }).at(1) == around);
    EXPECT(session.trial([](Session &s) { s.move(3, 50, 0); return s.previewChanges(); }).at(1) == around);
    EXPECT(session.changes().empty());
    session.transaction([](Session &s) { s.move(3, 50, 0); });
    const Lines told = session.changes();
    EXPECT(told.size() == 1 && told.at(1) == around && session.changes().empty());''')

    def test_connectors_that_are_gone_are_told(self):
        self.assert_holds('''
    Session session = drawn();
    session.lines();
    session.transaction([](Session &s) { s.move(3, 100, 0); });
    Lines told = session.changes();
    EXPECT(told.size() == 1 && told.at(1).empty());
    session.undo();
    EXPECT(session.changes().at(1) == straight);
    session.transaction([](Session &s) { s.cut(1); });
    told = session.changes();
    EXPECT(told.size() == 1 && told.at(1).empty());''')

    def test_the_scene_is_that_of_the_open_transaction(self):
        self.assert_holds('''
    Session session = drawn();
    session.trial([](Session &s) {
        s.addPin(3, 7, 1, -2.5, "NE");
        s.addCheckpoint(1, 1, 50, 30);
        s.set(reroute::Setting::buffer, 2);
        const reroute::Box box = s.boxes().at(2);
        EXPECT(box.id == 3 && !box.isGroup && (Corners{{box.x, box.y}, {box.w, box.h}}) == (Corners{{50, 80}, {20, 40}}));
        EXPECT(box.pins.size() == 1 && box.pins[0].pinClass == 7 && box.pins[0].sides == "EN");
        EXPECT((Corners{{box.pins[0].dx, box.pins[0].dy}}) == (Corners{{1, -2.5}}));
        const reroute::Connector one = s.connectors().at(0);
        EXPECT(one.number == 1 && one.start == 1 && one.end == 2 && one.startClass == 0 && one.endClass == 0);
        EXPECT(one.checkpoints == (Corners{{50, 30}}) && s.settings().buffer < 3 && s.settings().penalty > 49);
    });
    EXPECT(session.boxes().size() == 3 && session.boxes()[2].pins.empty() && session.connectors()[0].checkpoints.empty());
    EXPECT(session.settings().buffer > 3 && Session("graph [ node [ id -7 isGroup 1 graphics [ x 0 y 0 ] ] ]").boxes()[0].isGroup);
    const Session moved = std::move(session);
    THROWS(reroute::Refused, session.boxes());''')

    def test_lengths_that_are_none(self):
        # (a compiler that folds constants rounds what is no number to 0)
        self.assert_holds('''
    Session session = drawn();
    session.begin();
    THROWS(std::invalid_argument, session.move(2, std::nan(""), 0));
    THROWS(std::invalid_argument, session.move(2, NAN, 0));
    THROWS(std::invalid_argument, session.move(2, 0, -std::numeric_limits<double>::infinity()));
    THROWS(std::invalid_argument, session.addBox(9, 1e17, 0, 20, 20));
    THROWS(std::invalid_argument, session.set(reroute::Setting::nudge, NAN));
    THROWS(std::invalid_argument, session.addPin(2, 1, 0, 0, "EX"));
    THROWS(std::invalid_argument, session.addPin(2, 1, 0, 0, ""));
    session.commit();
    EXPECT(session.lines().at(1) == straight);''', '-O1')

    def test_refusals_have_a_value_only_where_they_name_something(self):
        self.assert_holds('''
    Session session = drawn();
    try { session.play("begin\\nmove 7 0 0\\n"); EXPECT(false); } catch (const reroute::Refused &refused) {
        EXPECT(refused.what() == std::string("reroute: line 2: X4 UnknownNode 7") && refused.line == 2 && refused.hasValue());
    }
    try { session.abort(); EXPECT(false); } catch (const reroute::Refused &refused) {
        EXPECT(refused.what() == std::string("reroute: X2 NoTransaction") && !refused.hasValue());
    }''')

    def test_cost_is_optional_from_cpp_17_on(self):
        body = '''
    const Session session = drawn();
    double cost = 0;
    EXPECT(session.cost(1, cost) && cost > 99 && cost < 101 && !session.cost(2, cost));
#if __cplusplus >= 201703L
    EXPECT(session.cost(1).value() > 99 && !session.cost(2));
#endif
    EXPECT(session.searched() == 1 && session.gml().size() > 100);'''
        for compiler, standard in (('g++', 'c++11'), ('g++', 'c++17'), ('clang++', 'c++11'), ('clang++', 'c++20')):
            if shutil.which(compiler):
                with self.subTest(compiler, standard=standard):
                    self.assert_holds(body, compiler=compiler, standard=standard)


class CmakeTest(CompilerTest):
    PROJECT = '''cmake_minimum_required(VERSION 3.16)
project(editor LANGUAGES C CXX)
find_package(reroute {version} REQUIRED CONFIG)
add_executable(shared {examples}/move_a_box.cpp)
target_link_libraries(shared PRIVATE reroute::reroute)
add_executable(static {examples}/move_a_box.c)
target_link_libraries(static PRIVATE reroute::static)
'''

    def configured(self, version):
        """Installs the library, and configures a project that asks for a version of it."""
        subprocess.run([sys.executable, f'{TOP}/tools/build-library', '--built', '--install', f'{self.folder}/prefix',
                        os.path.dirname(LIBRARY)], check=True, capture_output=True)
        os.makedirs(f'{self.folder}/editor', exist_ok=True)
        with open(f'{self.folder}/editor/CMakeLists.txt', 'w') as file:
            file.write(self.PROJECT.format(version=version, examples=f'{TOP}/examples/c'))
        return subprocess.run(['cmake', '-S', f'{self.folder}/editor', '-B', f'{self.folder}/build',
                               f'-DCMAKE_PREFIX_PATH={self.folder}/prefix'], capture_output=True, text=True)

    def setUp(self):
        super().setUp()
        if not shutil.which('cmake') or not os.path.exists(f'{os.path.dirname(LIBRARY)}/BUILT'):
            self.skipTest('there is no cmake, or no library that tools/build-library has built')

    def test_a_project_finds_both_libraries(self):
        done = self.configured('0.1')
        self.assertEqual(done.returncode, 0, done.stderr)
        subprocess.run(['cmake', '--build', f'{self.folder}/build'], check=True, capture_output=True)
        with open(f'{TOP}/examples/c/move_a_box.txt') as file:
            wanted = file.read()
        for name in ('shared', 'static'):
            self.assertEqual(subprocess.check_output([f'{self.folder}/build/{name}'], text=True), wanted)

    def test_another_minor_version_is_not_served(self):
        for version in ('0.2', '0.1.7', '1.0'):
            self.assertIn('compatible', self.configured(version).stderr)


if __name__ == '__main__':
    unittest.main()
