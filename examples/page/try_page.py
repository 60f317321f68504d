#!/usr/bin/env python3
"""Tries the page in headless Chromium: try_page.py [FOLDER] [--live PROGRAM] [--pictures PICTURES]

FOLDER is what tools/build-wasm has made, out/wasm where it is left out: its page is tried as a server of files gives it, and as
the one file that opens from a disk. With --live it is tried over PROGRAM, which is reroute_live, behind serve.py too. Pictures of
what was seen are put into PICTURES. Status 0 where all is as it should be, 1 where something is not, 2 for arguments that are not
understood, 3 where there is no Chromium.
"""
import argparse
import base64
import functools
import http.server
import json
import os
import re
import shutil
import subprocess
import sys
import tempfile
import threading
import time
import xml.etree.ElementTree

HERE = os.path.dirname(os.path.realpath(__file__))
TOP = os.path.dirname(os.path.dirname(HERE))
EXAMPLES = f'{TOP}/examples'
# Files that are refused, and what the page then says.
BAD_FILES = (
    ('graph [\n  node [ id 1\n    label "ab', 'line 3, column 14: the file ends'), ('<xml>', 'XML or JSON'), ('node [ ]', 'no list graph'),
    ('graph [\n  node [ id 1 graphics [ x 0 y 0 ] ]\n  node [ id 1 graphics [ x 9 y 0 ] ]\n]', 'line 3, column 3: node 2: an earlier'),
    ('graph [ node [ id 1 graphics [ x 0 y 0 ] ]\nedge [ source 1 target 7 ] ]', 'line 2, column 1: edge 1: its source or its'))
READY = 'new Promise(done => { const look = () => document.body?.dataset.ready ? done() : setTimeout(look, 10); look(); })'


class Browser:
    """Chromium, driven over two pipes."""

    def __init__(self, command, folder):
        to_browser, self.to = os.pipe()
        self.of, of_browser = os.pipe()

        def lend():
            # (Chromium reads file 3 and writes file 4; the first copies keep the two from closing each other)
            a, b = os.dup(to_browser), os.dup(of_browser)
            os.dup2(a, 3)
            os.dup2(b, 4)

        self.process = subprocess.Popen(
            [command, '--headless', '--no-sandbox', '--disable-gpu', '--remote-debugging-pipe', '--window-size=1200,800',
             f'--user-data-dir={folder}', 'about:blank'],
            preexec_fn=lend, close_fds=False, stdout=subprocess.DEVNULL, stderr=subprocess.DEVNULL)
        self.number = 0
        self.rest = b''
        self.dialogs = 0  # which were answered with yes
        self.downloads = f'{folder}/downloads'
        os.makedirs(self.downloads)
        self.call(None, 'Browser.setDownloadBehavior', behavior='allow', downloadPath=self.downloads)

    def send(self, session, method, words):
        self.number += 1
        message = {'id': self.number, 'method': method, 'params': words, **({'sessionId': session} if session else {})}
        os.write(self.to, json.dumps(message).encode() + b'\0')
        return self.number

    def call(self, session, method, **words):
        number = self.send(session, method, words)
        while True:
            while b'\0' not in self.rest:
                self.rest += os.read(self.of, 1 << 20)
            text, self.rest = self.rest.split(b'\0', 1)
            heard = json.loads(text)
            if heard.get('method') == 'Page.javascriptDialogOpening':
                self.dialogs += 1
                self.send(heard['sessionId'], 'Page.handleJavaScriptDialog', {'accept': True})
            if heard.get('id') == number:
                if 'error' in heard:
                    raise RuntimeError(heard['error'])
                return heard['result']

    def tab(self, address):
        target = self.call(None, 'Target.createTarget', url='about:blank')['targetId']
        return Tab(self, self.call(None, 'Target.attachToTarget', targetId=target, flatten=True)['sessionId'], address)

    def close(self):
        self.process.terminate()
        self.process.wait()


class Tab:
    """A tab with the page."""

    def __init__(self, browser, session, address):
        self.browser, self.session = browser, session
        self.call('Page.enable')
        self.call('Page.navigate', url=address)
        self.value(READY)

    def call(self, method, **words):
        return self.browser.call(self.session, method, **words)

    def value(self, expression):
        done = self.call('Runtime.evaluate', expression=expression, awaitPromise=True, returnByValue=True)
        if 'exceptionDetails' in done:
            raise RuntimeError(done['exceptionDetails'])
        return done['result'].get('value')

    def reload(self):
        self.value('window.isOld = true')
        self.call('Page.reload')
        for _ in range(250):
            try:
                if self.value('!window.isOld && document.body?.dataset.ready === "yes"'):
                    break
            except RuntimeError:
                pass  # (the old document is gone, and the new one is not there)
            time.sleep(0.02)
        self.idle()

    def idle(self):
        return self.value('reroute.isIdle()')

    def mouse(self, kind, x, y, clicks=1):
        self.call('Input.dispatchMouseEvent', type=kind, x=x, y=y, button='left', buttons=0 if kind == 'mouseReleased' else 1,
                  clickCount=clicks)

    def click(self, x, y, clicks=1):
        for at in range(1, clicks + 1):
            self.mouse('mousePressed', x, y, at)
            self.mouse('mouseReleased', x, y, at)
        self.idle()

    def wheel(self, x, y, by, control=False):
        self.call('Input.dispatchMouseEvent', type='mouseWheel', x=x, y=y, deltaX=0, deltaY=by, modifiers=2 if control else 0)

    def touch(self, kind, *points):
        self.call('Input.dispatchTouchEvent', type=kind, touchPoints=[{'x': x, 'y': y, 'id': at} for at, (x, y) in enumerate(points)])

    def key(self, key, control=False):
        for kind in ('keyDown', 'keyUp'):
            self.call('Input.dispatchKeyEvent', type=kind, key=key, modifiers=2 if control else 0)
        self.idle()

    def write(self, text):
        self.call('Input.insertText', text=text)

    def press(self, button):
        self.value(f"document.getElementById('{button}').click()")
        self.idle()

    def open(self, path):
        root = self.call('DOM.getDocument')['root']['nodeId']
        node = self.call('DOM.querySelector', nodeId=root, selector='#open')['nodeId']
        before = self.text('said')
        self.call('DOM.setFileInputFiles', nodeId=node, files=[path])
        for _ in range(200):
            if self.text('said') != before:
                break
            time.sleep(0.02)
        self.idle()

    def saved(self, button, name):
        """The bytes that a button saves."""
        path = f'{self.browser.downloads}/{name}'
        if os.path.exists(path):
            os.remove(path)
        self.press(button)
        for _ in range(250):
            if os.path.exists(path):
                break
            time.sleep(0.02)
        with open(path, 'rb') as file:
            return file.read()

    def text(self, element):
        return self.value(f"document.getElementById('{element}').textContent")

    def count(self, selector):
        return self.value(f'document.querySelectorAll({json.dumps(selector)}).length')

    def middle(self, selector):
        return self.value(f'''(() => {{ const r = document.querySelector({json.dumps(selector)}).getBoundingClientRect();
            return [r.x + r.width / 2, r.y + r.height / 2]; }})()''')

    def box(self, number):
        return self.middle(f'[data-box="{number}"] rect')

    def lines(self):
        """The lines that are reported."""
        return {edge: corners for edge, corners in self.value('[...reroute.lines]')}

    def shown(self):
        return {edge: corners for edge, corners in self.value('[...reroute.shown().lines]')}

    def program(self):
        """The lines of the program's diagram, by the places of its edges."""
        return lines_in(self.value('reroute.gml()'))

    def drag(self, start, end, look=None):
        """Drags from a place to another, and looks before it is released."""
        (x, y), (u, v) = start, end
        self.mouse('mousePressed', x, y)
        for part in range(1, 11):
            self.mouse('mouseMoved', x + (u - x) * part / 10, y + (v - y) * part / 10)
            self.idle()
        if look:
            look()
        self.mouse('mouseReleased', u, v)
        self.idle()

    def drag_box(self, number, dx, dy, look=None):
        x, y = self.box(number)
        self.drag((x, y), (x + dx, y + dy), look)


def lines_in(gml):
    """The lines of a diagram, by the places of its edges."""
    edges = re.findall(r'^  edge \[(.*?)\n  \]', gml, re.S | re.M)
    points = [[[float(x), float(y)] for x, y in re.findall(r'x (\S+)\s+y (\S+)', edge)] for edge in edges]
    return {number: corners for number, corners in enumerate(points, 1) if corners}


class Trial:
    """What is tried of one page, and what was not as it should be."""

    def __init__(self, browser, address, pictures, name):
        self.browser, self.address, self.pictures, self.name, self.faults = browser, address, pictures, name, []
        self.tab = browser.tab(address)

    def expect(self, what, is_so, seen=''):
        print(f'{"passed" if is_so else "FAILED"}: {self.name}: {what}{"" if is_so else f" {seen}"}', flush=True)
        if not is_so:
            self.faults.append(what)

    def picture(self, what):
        if self.pictures:
            with open(f'{self.pictures}/{self.name}_{what}.png', 'wb') as file:
                file.write(base64.b64decode(self.tab.call('Page.captureScreenshot', format='png')['data']))

    def all(self, is_live):
        for part in (self.beginning, self.dragging, self.keys, self.boxes, self.connecting, self.naming, self.viewing, self.touching,
                     self.files, self.refusals, self.reload, self.tabs, self.looks):
            part()
        said = self.tab.text('back')
        self.expect('it says what runs there', ('reroute_live' if is_live else 'not proved') in said, said)

    def beginning(self):
        tab = self.tab
        print(f'{self.name}: the first diagram was drawn {tab.value("Math.round(reroute.drawnAfter)")} ms after the navigation')
        self.expect('each connector of the first diagram has a line', len(tab.lines()) == 16)
        self.expect('with pins, heads and round corners', tab.count('.pin') == 32 and tab.count('.head') == 16 and tab.value(
            "[...document.querySelectorAll('.line')].some(it => it.getAttribute('d').includes('Q'))"))
        layers = tab.value("[...document.querySelectorAll('#sheet > g')].map(it => it.firstElementChild?.getAttribute('class') ?? '')")
        opacity = tab.value("getComputedStyle(document.querySelector('.group rect')).fillOpacity")
        self.expect('groups lie behind the lines and are not opaque', layers[0] == 'group' and layers[1].startswith('wire')
                    and float(opacity) < 0.3, (layers, opacity))
        self.picture('first')

    def dragging(self):
        tab, during = self.tab, {}
        before = tab.lines()

        def look():
            during.update(tab.shown())
            self.expect('while a box is dragged, lines follow', during != before)
            self.expect("and the program's diagram stays", tab.program() == before)
            self.picture('drag')

        tab.drag_box(13, 0, -311, look)
        after = tab.lines()
        self.expect('a release gives the lines that were shown', after == during and after != before)
        self.expect('changed lines are marked', tab.count('.wire.changed') > 0)
        self.expect('no text is selected', tab.value('getSelection().toString()') == '')
        self.expect("the lines are those of the program's diagram", tab.program() == after)
        drawn = tab.value("[...document.querySelectorAll('.wire')].every(it => it.querySelector('.line').getAttribute('d').startsWith('M'))")
        self.expect('every line is drawn', drawn)
        tab.press('undo')
        self.expect('one undo takes the whole drag back', tab.lines() == before)
        tab.key('y', control=True)
        self.expect('a key redoes it', tab.lines() == after)
        tab.key('z', control=True)
        self.expect('a key undoes it', tab.lines() == before)
        x, y = tab.middle('.group text')
        tab.drag((x, y), (x + 30, y + 40))
        self.expect('a group is dragged by its name', abs(tab.middle('.group text')[1] - y - 40) < 1)
        tab.press('undo')
        x, y = tab.box(2)
        tab.mouse('mousePressed', x, y)
        tab.mouse('mouseMoved', x + 80, y + 90)
        tab.idle()
        tab.key('Escape')
        tab.mouse('mouseReleased', x + 80, y + 90)
        tab.idle()
        self.expect('Escape gives a drag up', tab.shown() == before and tab.program() == before)

    def keys(self):
        tab = self.tab
        before = tab.lines()
        tab.value('''document.querySelector('[data-box="1"]').focus()''')
        for _ in range(4):
            tab.key('ArrowDown')
        self.expect('arrows move the box that is chosen', tab.lines() != before)
        tab.key('z', control=True)
        self.expect('and four of them are one step', tab.lines() == before)
        tab.key('Tab')
        self.expect('Tab goes on to the next', tab.value("document.activeElement.dataset.box ?? document.activeElement.dataset.edge") is not None)

    def overlapping(self):
        """How many boxes stand on others."""
        return self.tab.value('''(() => { const all = [...document.querySelectorAll('.box rect')].map(it => it.getBoundingClientRect());
            const meet = (a, b) => a.left < b.right && b.left < a.right && a.top < b.bottom && b.top < a.bottom;
            return all.filter((a, i) => all.some((b, j) => i < j && meet(a, b))).length; })()''')

    def boxes(self):
        tab = self.tab
        before = tab.lines()
        for _ in range(3):
            tab.key('n')
        self.expect('new boxes stand where there is room', tab.count('.box') == 16 and self.overlapping() == 0
                    and len(tab.lines()) == 16 and tab.count('.none') == 0, (tab.count('.box'), self.overlapping()))
        self.picture('added')
        tab.key('Delete')
        self.expect('a box is removed', tab.count('.box') == 15)
        for _ in range(4):
            tab.press('undo')
        self.expect('all of that is undone', tab.count('.box') == 13 and tab.lines() == before)
        (x, y), (u, v) = tab.box(4), tab.box(3)
        tab.drag_box(3, x - u, y - v)
        self.expect('a connector without a route is dashed, and a note says why', tab.count('.wire.none') > 0 and
                    'stands too close to' in tab.text('note'), tab.text('note'))
        self.picture('no_route')
        tab.press('undo')
        self.expect('it is back after an undo', tab.lines() == before and tab.text('note') == '')

    def connecting(self):
        tab = self.tab
        before, pins = tab.lines(), tab.count('.pin')
        tab.click(*tab.box(9))
        tab.press('connect')
        tab.click(*tab.box(12))
        self.expect('a button and a click connect two boxes', len(tab.lines()) == 17 and tab.count('.pin') == pins + 2)
        tab.key('Delete')
        self.expect('its removal removes its pins', tab.lines() == before and tab.count('.pin') == pins)
        tab.click(*tab.box(3))
        shown = []
        tab.drag(tab.middle('.handle'), tab.box(12), lambda: (shown.append(tab.shown()), self.picture('pull')))
        self.expect('one is pulled from the handle to a box, and shown before the release', shown[0] == tab.lines() and len(shown[0]) == 17)
        tab.press('undo')
        tab.drag(tab.middle('.handle') if tab.count('.handle') else tab.box(13), (600, 600))
        self.expect('a release over the paper connects nothing', len(tab.lines()) == 16)
        tab.press('undo')
        tab.press('undo')
        tab.press('undo')

    def naming(self):
        tab = self.tab
        tab.click(*tab.box(1), clicks=2)
        self.expect('a double click asks for a name', tab.count('#name') == 1)
        tab.write('Käufer & "Co" mit einem langen Namen')
        tab.key('Enter')
        lines = tab.count('[data-box="1"] tspan')
        self.expect('the name is wrapped in the box', lines >= 2, lines)
        self.expect('and saved in GML', 'label "K&#228;ufer &#38; &#34;Co&#34; mit einem langen Namen"' in tab.value('reroute.gml()'))
        self.picture('named')
        tab.press('undo')
        self.expect('an undo gives the old name back', tab.value('''document.querySelector('[data-box="1"] title').textContent''') == 'Shop')

    def scale(self):
        return self.tab.value('reroute.view.scale')

    def viewing(self):
        tab = self.tab
        first = self.scale()
        tab.press('in')
        self.expect('a button zooms', self.scale() > first)
        x, y = tab.box(6)
        tab.wheel(x, y, -120, control=True)
        u, v = tab.box(6)
        self.expect('the wheel zooms about the pointer', self.scale() > 1.3 * first and abs(u - x) + abs(v - y) < 3, (x, y, u, v))
        tab.wheel(x, y, 60)
        self.expect('and without Ctrl it pans', abs(tab.box(6)[1] - v + 60) < 1, (tab.box(6), v))
        x, y = tab.box(6)
        tab.drag((20, 400), (70, 380))
        u, v = tab.box(6)
        self.expect('the paper is dragged', abs(u - x - 50) < 1 and abs(v - y + 20) < 1, (x, y, u, v))
        tab.press('fit')
        self.expect('a button shows everything', abs(self.scale() - first) < 0.2 and self.inside())

    def inside(self):
        """Whether all boxes are in sight."""
        return self.tab.value('''(() => { const s = document.getElementById('sheet').getBoundingClientRect();
            return [...document.querySelectorAll('.box rect')].every(it => { const r = it.getBoundingClientRect();
                return r.left >= s.left && r.right <= s.right && r.top >= s.top && r.bottom <= s.bottom; }); })()''')

    def touching(self):
        tab = self.tab
        tab.call('Emulation.setTouchEmulationEnabled', enabled=True)
        before, first = tab.lines(), self.scale()
        x, y = tab.box(13)
        tab.touch('touchStart', (x, y))
        for part in range(1, 9):
            tab.touch('touchMove', (x + 10 * part, y - 30 * part))
            tab.idle()
        tab.touch('touchEnd')
        tab.idle()
        self.expect('a finger drags a box', tab.lines() != before)
        tab.press('undo')
        tab.touch('touchStart', (500, 620), (600, 620))
        for part in range(1, 6):
            tab.touch('touchMove', (500 - 20 * part, 620), (600 + 20 * part, 620))
        tab.touch('touchEnd')
        self.expect('two fingers zoom', self.scale() > 1.5 * first and tab.lines() == before, (first, self.scale()))
        tab.press('fit')
        tab.call('Emulation.setTouchEmulationEnabled', enabled=False)

    def files(self):
        tab = self.tab
        path = f'{self.browser.downloads}/labels.gml'
        with open(path, 'wb') as file:
            file.write(b'graph [\n  node [ id 1 label "&quot;Stripe&quot; &#228; &ouml; (T\xe4x)" graphics [ x 0 y 0 w 60 h 60 ] ]\n'
                       b'  node [ id 2 label "Web front end (React)" graphics [ x 200 y 0 w 60 h 40 ] ]\n'
                       b'  edge [ source 1 target 2 label "pays" ]\n]\n')
        tab.open(path)
        self.expect('that ends have no pins is told', 'reroute-draw labels.gml' in tab.text('said'), tab.text('said'))
        titles = tab.value("[...document.querySelectorAll('.box title')].map(it => it.textContent)")
        self.expect('labels are decoded', titles[0] == '"Stripe" ä ö (Täx)', titles)
        self.expect('and wrapped', tab.count('[data-box="2"] tspan') == 2)
        self.expect('after a file is opened no line is marked', tab.count('.wire.changed') == 0)
        self.expect('its bytes are kept', b'(T\xe4x)' in tab.saved('save', 'diagram.gml'))
        self.picture('labels')
        tab.open(f'{EXAMPLES}/editor.gml')
        self.expect('a file is opened', tab.count('.box') == 2 and tab.count('.group') == 1, tab.text('said'))
        saved = tab.saved('save', 'diagram.gml')
        self.expect('and saved as the program writes it', saved == tab.value('reroute.gml()').encode('latin-1')
                    and lines_in(saved.decode()) == tab.lines())
        self.picture('opened')
        picture = xml.etree.ElementTree.fromstring(tab.saved('export', 'diagram.svg'))
        classes = [it.get('class') or '' for it in picture.iter()]
        self.expect('the picture is saved as SVG', picture.get('viewBox') is not None and 'hit' not in classes
                    and any('line' in one for one in classes))

    def refusals(self):
        tab = self.tab
        before = tab.count('.box')
        for text, wanted in BAD_FILES:
            path = f'{self.browser.downloads}/bad.gml'
            with open(path, 'w', encoding='utf-8') as file:
                file.write(text)
            tab.value("document.getElementById('said').textContent = ''")
            tab.open(path)
            self.expect(f'a refused file is told in words: {wanted}', wanted in tab.text('said'), tab.text('said'))
        self.expect('and the page stays as it was', tab.count('.box') == before and tab.program() == tab.lines())

    def reload(self):
        tab = self.tab
        tab.drag_box(1, 60, 40)
        tab.click(*tab.box(1), clicks=2)
        tab.write('kept')
        tab.key('Enter')
        time.sleep(0.4)
        tab.idle()
        before, dialogs, gml = tab.lines(), self.browser.dialogs, tab.value('reroute.gml()')
        tab.reload()
        self.expect('leaving the page with edits that are not saved asks', self.browser.dialogs == dialogs + 1, self.browser.dialogs - dialogs)
        self.expect('after a reload the diagram is there, with its names', tab.lines() == before and tab.value('reroute.gml()') == gml)

    def tabs(self):
        mine = self.tab
        before, other = mine.lines(), self.browser.tab(self.address)
        self.expect('a second tab has a diagram of its own', len(other.lines()) == 16 and other.program() == other.lines())
        other.drag_box(13, 40, -250)
        self.expect('what is done there stays there', mine.lines() == before and mine.program() == before)
        mine.call('Page.bringToFront')
        mine.drag_box(1, 0, 60)
        self.expect('and the first one goes on', mine.program() == mine.lines() and other.program() == other.lines())
        other.call('Page.close')

    def looks(self):
        """A phone's width, and a dark page."""
        self.tab = self.browser.tab(self.address)
        tab = self.tab
        light = tab.value("getComputedStyle(document.querySelector('.box rect')).fill")
        tab.call('Emulation.setEmulatedMedia', features=[{'name': 'prefers-color-scheme', 'value': 'dark'}])
        self.expect('it has a dark look', tab.value("getComputedStyle(document.querySelector('.box rect')).fill") != light)
        self.picture('dark')
        tab.call('Emulation.setDeviceMetricsOverride', width=375, height=667, deviceScaleFactor=2, mobile=True)
        tab.call('Emulation.setTouchEmulationEnabled', enabled=True)
        tab.reload()
        self.expect("on a phone nothing is wider than the screen", tab.value('document.documentElement.scrollWidth') == 375)
        self.expect('all buttons are on it', tab.value('''[...document.querySelectorAll('button, label.button')].every(it => {
            const r = it.getBoundingClientRect(); return r.left >= 0 && r.right <= 375 && r.top >= 0 && r.bottom <= 667 && r.width >= 34; })'''))
        self.expect('and all boxes', self.inside())
        self.picture('phone_dark')
        tab.call('Emulation.setEmulatedMedia', features=[{'name': 'prefers-color-scheme', 'value': 'light'}])
        self.picture('phone')


def tried(command, address, given, name, is_live=False):
    """What is not as it should be at an address."""
    with tempfile.TemporaryDirectory(ignore_cleanup_errors=True) as folder:
        browser = Browser(command, folder)
        try:
            trial = Trial(browser, address, given.pictures, name)
            trial.all(is_live)
            return trial.faults
        finally:
            browser.close()


class Files(http.server.SimpleHTTPRequestHandler):
    def log_message(self, *words):
        pass


def tried_module(command, given):
    server = http.server.ThreadingHTTPServer(('127.0.0.1', 0), functools.partial(Files, directory=given.folder))
    threading.Thread(target=server.serve_forever, daemon=True).start()
    try:
        return tried(command, f'http://127.0.0.1:{server.server_address[1]}/', given, 'served')
    finally:
        server.shutdown()


def tried_live(command, given):
    server = subprocess.Popen([sys.executable, f'{HERE}/serve.py', given.live, '--port', '0'], stdout=subprocess.PIPE)
    try:
        return tried(command, server.stdout.readline().decode().strip(), given, 'live', is_live=True)
    finally:
        server.terminate()
        server.wait()


def main():
    parser = argparse.ArgumentParser(description=__doc__, formatter_class=argparse.RawDescriptionHelpFormatter)
    parser.add_argument('folder', type=os.path.abspath, nargs='?', metavar='FOLDER', default=f'{TOP}/out/wasm')
    parser.add_argument('--live', metavar='PROGRAM', type=os.path.abspath)
    parser.add_argument('--pictures', metavar='PICTURES', type=os.path.abspath)
    given = parser.parse_args()
    command = shutil.which('chromium') or shutil.which('chromium-browser') or shutil.which('google-chrome')
    if not command:
        print('try_page.py: Chromium is not installed', file=sys.stderr)
        return 3
    if not os.path.exists(f'{given.folder}/reroute.html'):
        print(f'try_page.py: there is no page in {given.folder}; tools/build-wasm makes it', file=sys.stderr)
        return 2
    if given.pictures:
        os.makedirs(given.pictures, exist_ok=True)
    faults = tried_module(command, given) + tried(command, f'file://{given.folder}/reroute.html', given, 'file')
    if given.live:
        faults += tried_live(command, given)
    return 1 if faults else 0


if __name__ == '__main__':
    sys.exit(main())
