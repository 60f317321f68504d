"""Tests the server of the page: sessions of several pages, foreign hosts, files that are refused, quit, a port in use."""
import http.client
import os
import re
import signal
import socket
import subprocess
import sys
import unittest

TOP = os.path.dirname(os.path.dirname(os.path.dirname(os.path.realpath(__file__))))
LIVE = os.path.abspath(os.environ.get('REROUTE_LIVE') or f'{TOP}/out/reroute_live')
SERVE = f'{TOP}/examples/page/serve.py'
PATIENCE = 120
DRAWN = b'begin\nnode 901 9000 0 20 20\nnode 902 9100 0 20 20\nedge 901 902 0 0\ncommit'


class ServeTest(unittest.TestCase):
    def setUp(self):
        if not os.path.exists(LIVE):
            self.skipTest(f'{LIVE} is not there')
        self.server = subprocess.Popen([sys.executable, SERVE, LIVE, '--port', '0'], stdout=subprocess.PIPE,
                                       stderr=subprocess.PIPE, text=True)
        self.addCleanup(self.stop)
        self.port = int(re.search(r':(\d+)/', self.server.stdout.readline())[1])

    def stop(self):
        """Interrupts the server, as a user does, and expects that it has said nothing more."""
        self.server.send_signal(signal.SIGINT)
        said = self.server.communicate(timeout=PATIENCE)
        self.assertEqual((self.server.returncode, *said), (0, '', ''))

    def ask(self, path, body=None, host=None, **headers):
        """The status and the body of an answer."""
        connection = http.client.HTTPConnection('127.0.0.1', self.port, timeout=PATIENCE)
        self.addCleanup(connection.close)
        headers = {name.replace('_', '-'): value for name, value in headers.items()}
        if host:
            headers['Host'] = host
        connection.request('GET' if body is None else 'POST', path, body, headers)
        answer = connection.getresponse()
        return answer.status, answer.read()

    def page(self):
        """Opens the page; its key."""
        status, text = self.ask('/')
        self.assertEqual(status, 200)
        return re.search(rb'\b[0-9a-f]{32}\b', text)[0].decode()

    def say(self, key, commands):
        return self.ask('/say', commands, X_Key=key)

    def test_each_page_has_a_session(self):
        first = self.page()
        self.assertEqual(self.say(first, DRAWN)[1].splitlines()[-1], b'ok')
        second = self.page()
        self.assertNotEqual(first, second)
        self.assertEqual(self.ask('/open', b'graph [ ]', X_Key=second), (200, b'ok\n'))
        self.assertEqual(self.say(second, b'lines'), (200, b'ok\n'))
        self.assertIn(b'9100.000', self.say(first, b'lines')[1])

    def test_eight_pages_are_kept(self):
        keys = [self.page()]
        self.say(keys[0], b'next')
        keys += [self.page() for _ in range(8)]
        self.assertEqual(self.say(keys[0], b'next'), (403, b'the session of this page has ended; load the page again\n'))
        self.assertEqual([self.say(key, b'next')[0] for key in keys[1:]], [200] * 8)

    def test_other_hosts_get_nothing(self):
        key = self.page()
        for host in ('evil.example', f'evil.example:{self.port}', f'127.0.0.1:{self.port + 1}', 'localhost'):
            self.assertEqual(self.ask('/', host=host)[0], 403)
            self.assertEqual(self.ask('/say', b'lines', host=host, X_Key=key)[0], 403)
        self.assertEqual(self.ask('/', host=f'localhost:{self.port}')[0], 200)

    def test_other_files_are_not_served(self):
        for path in ('/../../etc/passwd', '/%2e%2e/serve.py', '//etc/passwd', '/serve.py'):
            self.assertEqual(self.ask(path)[0], 404)

    def test_a_refused_file_is_said_to_be_one(self):
        key = self.page()
        self.say(key, DRAWN)
        for _ in range(20):
            self.assertEqual(self.ask('/open', b'this is no diagram', X_Key=key), (200, b'refused diagram: Syntax at 5\n'))
        self.assertIn(b'9100.000', self.say(key, b'lines')[1])

    def test_quit_ends_nothing(self):
        key = self.page()
        for command in (b'quit', b'quit\r', b'begin\nquit'):
            self.assertEqual(self.say(key, command)[1].splitlines()[-1], b'refused X1 Syntax')
            self.assertEqual(self.say(key, b'next'), (200, b'next 1\nok\n'))
        self.assertEqual(self.ask('/open', b'graph [ ]', X_Key=key), (200, b'ok\n'))

    def test_requests_that_are_none(self):
        key = self.page()
        for length in ('x', '-5', '99999999999', '\N{SUPERSCRIPT TWO}'.encode('latin-1')):
            self.assertEqual(self.ask('/say', b'lines', X_Key=key, Content_Length=length)[0], 413)
        self.assertEqual(self.ask('/say', b'lines')[0], 403)
        self.assertEqual(self.ask('/say', b'lines', X_Key='0' * 32)[0], 403)

    def test_a_page_that_is_closed_before_its_answer(self):
        key = self.page()
        with socket.create_connection(('127.0.0.1', self.port)) as connection:
            connection.setsockopt(socket.SOL_SOCKET, socket.SO_LINGER, b'\1\0\0\0\0\0\0\0')
            connection.sendall(f'POST /say HTTP/1.1\r\nHost: 127.0.0.1:{self.port}\r\nX-Key: {key}\r\n'
                               'Content-Length: 5\r\n\r\nlines'.encode())
        self.assertEqual(self.say(key, b'lines')[0], 200)

    def test_a_port_in_use_is_said_plainly(self):
        words = [sys.executable, SERVE, LIVE, '--port', str(self.port)]
        done = subprocess.run(words, capture_output=True, text=True, timeout=PATIENCE)
        wanted = f'serve.py: port {self.port} is in use; --port takes another\n'
        self.assertEqual((done.returncode, done.stdout, done.stderr), (1, '', wanted))

    def test_arguments_that_are_none(self):
        for words, status in ((['--port', '99999'], 2), (['--port', 'x'], 2), (['/nowhere/reroute_live'], 1)):
            done = subprocess.run([sys.executable, SERVE, *words], capture_output=True, text=True, timeout=PATIENCE)
            self.assertEqual(done.returncode, status)
            self.assertNotIn('Traceback', done.stderr)


if __name__ == '__main__':
    unittest.main()
