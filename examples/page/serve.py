#!/usr/bin/env python3
"""Serves a page to try the engine: serve.py [PROGRAM] [--port N]

PROGRAM is reroute_live; without it, it is looked for on the path. Each page that is opened has a session of its own, and the
eight that were used last are kept. The page can be opened from this machine alone, under its own address alone. Nothing is
kept: save the diagram from the page.

Status 0 when it is interrupted, 1 where there is no such program or the port is in use, 2 for arguments that are not
understood.
"""
import argparse
import errno
import http.server
import os
import secrets
import shutil
import subprocess
import sys
import tempfile
import threading

HERE = os.path.dirname(os.path.realpath(__file__))
BINDINGS = f'{os.path.dirname(os.path.dirname(HERE))}/bindings'
# What the page consists of, by path.
FILES = {'/': f'{HERE}/index.html', '/reroute.mjs': f'{BINDINGS}/reroute.mjs',
         **{f'/{name}': f'{HERE}/{name}' for name in ('page.mjs', 'live.mjs', 'drawing.mjs', 'gml.mjs', 'words.mjs', 'first.mjs')}}
MOST_BYTES, MOST_SESSIONS = 16_777_216, 8


class Live:
    """The session of a page: a running reroute_live, which is started anew for each diagram that is opened."""

    def __init__(self, program):
        self.program = program
        self.lock = threading.Lock()
        self.process = self.started()

    def started(self, *diagram):
        return subprocess.Popen([self.program, '--workers', '4', *diagram], stdin=subprocess.PIPE, stdout=subprocess.PIPE,
                                stderr=subprocess.PIPE)

    def say(self, commands):
        """The replies to the lines, one after another, and each up to the first that is refused."""
        said = []
        with self.lock:
            for line in commands.split(b'\n'):
                # (a page cannot end its program: quit with a blank after it is refused as no command)
                reply = asked(self.process, b'quit ' if line.rstrip(b'\r') == b'quit' else line)
                said += reply
                if reply[-1].startswith(b'refused'):
                    break
        return b''.join(said)

    def open(self, gml):
        """Starts on these bytes, and answers the lines, or why they are not a diagram."""
        with tempfile.NamedTemporaryFile(suffix='.gml') as file:
            file.write(gml)
            file.flush()
            started = self.started(file.name)
            try:
                lines = asked(started, b'lines')
            except EOFError as fault:
                # (a line with advice may follow)
                why = started.stderr.readline().strip() or str(fault).encode()
                close(started)
                return b'refused ' + why + b'\n'
            with self.lock:
                old, self.process = self.process, started
            close(old)
            return b''.join(lines)


def asked(process, line):
    """The reply to a line."""
    lines = []
    try:
        process.stdin.write(line + b'\n')
        process.stdin.flush()
    except OSError:
        pass  # (it has ended, which reading says)
    while True:
        line = process.stdout.readline()
        if not line:
            raise EOFError(f'the program ended with status {process.wait()}')
        lines.append(line)
        if line.startswith(b'gml '):
            lines.append(process.stdout.read(int(line[4:])))
        elif line.startswith((b'ok', b'refused')):
            return lines


def close(process):
    """Ends a program, which may have ended by itself."""
    try:
        process.stdin.close()
    except OSError:
        pass
    process.wait()
    process.stdout.close()
    process.stderr.close()


class Sessions:
    """The sessions of the pages, by their keys, the one that was used last at the end."""

    def __init__(self, program):
        self.program, self.lock, self.found = program, threading.Lock(), {}

    def start(self):
        """A new session; its key keeps other pages that the browser has open from using it."""
        key, live = secrets.token_hex(16), Live(self.program)
        with self.lock:
            self.found[key] = live
            old = [self.found.pop(next(iter(self.found))) for _ in range(len(self.found) - MOST_SESSIONS)]
        self.end(old)
        return key

    def of(self, key):
        with self.lock:
            live = self.found.pop(key, None)
            if live:
                self.found[key] = live
            return live

    @staticmethod
    def end(sessions):
        for live in sessions:
            with live.lock:
                close(live.process)


class Page(http.server.BaseHTTPRequestHandler):
    timeout = 60

    def answer(self, status, kind, body):
        self.send_response(status)
        self.send_header('Content-Type', kind)
        self.send_header('Content-Length', str(len(body)))
        self.end_headers()
        self.wfile.write(body)

    def is_ours(self):
        """Whether the request is to our address: a foreign name that leads here is that of another page."""
        port = self.server.server_address[1]
        if self.headers.get('Host') in (f'127.0.0.1:{port}', f'localhost:{port}'):
            return True
        self.answer(403, 'text/plain', b'another host\n')
        return False

    def do_GET(self):
        if not self.is_ours():
            return
        if self.path not in FILES:
            self.answer(404, 'text/plain', b'there is one page alone\n')
            return
        with open(FILES[self.path], 'rb') as file:
            text = file.read()
        if self.path == '/':
            self.answer(200, 'text/html; charset=utf-8', text.replace(b'{{key}}', self.server.sessions.start().encode()))
        else:
            self.answer(200, 'text/javascript; charset=utf-8', text)

    def do_POST(self):
        if not self.is_ours():
            return
        length = self.headers.get('Content-Length', '')
        if not (length.isascii() and length.isdigit()) or int(length) > MOST_BYTES:
            self.answer(413, 'text/plain', f'a request has at most {MOST_BYTES} bytes\n'.encode())
            return
        body = self.rfile.read(int(length))
        live = self.server.sessions.of(self.headers.get('X-Key'))
        if not live:
            self.answer(403, 'text/plain', b'the session of this page has ended; load the page again\n')
            return
        try:
            said = live.open(body) if self.path == '/open' else live.say(body)
        except (EOFError, OSError, ValueError) as fault:
            self.answer(500, 'text/plain', f'{fault}; load the page again\n'.encode())
            return
        self.answer(200, 'text/plain', said)

    def log_message(self, *words):
        pass


class Server(http.server.ThreadingHTTPServer):
    def handle_error(self, request, client_address):
        """Says nothing of a page that was closed before its answer."""
        if not isinstance(sys.exc_info()[1], OSError):
            super().handle_error(request, client_address)


def port(text):
    number = int(text)
    if not 0 <= number <= 65535:
        raise ValueError
    return number


def main():
    parser = argparse.ArgumentParser(description=__doc__, formatter_class=argparse.RawDescriptionHelpFormatter)
    parser.add_argument('program', metavar='PROGRAM', nargs='?', default='reroute_live')
    parser.add_argument('--port', type=port, default=8017, metavar='N', help='0 to 65535; 0 takes one that is free')
    given = parser.parse_args()
    program = shutil.which(given.program)
    if not program:
        print(f'serve.py: there is no program {given.program}', file=sys.stderr)
        return 1
    try:
        server = Server(('127.0.0.1', given.port), Page)
    except OSError as fault:
        why = 'is in use; --port takes another' if fault.errno == errno.EADDRINUSE else f'cannot be used: {fault.strerror}'
        print(f'serve.py: port {given.port} {why}', file=sys.stderr)
        return 1
    server.sessions = Sessions(program)
    print(f'http://127.0.0.1:{server.server_address[1]}/', flush=True)
    try:
        server.serve_forever()
    except KeyboardInterrupt:
        pass
    server.sessions.end(server.sessions.found.values())
    return 0


if __name__ == '__main__':
    sys.exit(main())
