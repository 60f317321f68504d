"""A running reroute_live with a diagram, for tools: with session.Session(program, data) as running: running.ask(["lines"])"""
import os
import subprocess
import sys
import tempfile

import gml


class Session:
    """The program, which is given the diagram as a file. Lengths are whole thousandths."""

    def __init__(self, program, data):
        self.file = tempfile.NamedTemporaryFile(suffix='.gml')
        self.file.write(data)
        self.file.flush()
        pipe = subprocess.PIPE
        try:
            self.run = subprocess.Popen([program, self.file.name], stdin=pipe, stdout=pipe, stderr=pipe)
        except OSError as fault:
            self.file.close()
            raise gml.Fault(f'{program} cannot be run: {fault.strerror}')

    def __enter__(self):
        return self

    def __exit__(self, *_):
        self.run.communicate()
        self.file.close()

    def ask(self, requests):
        """Sends requests; what they report by the numbers of connectors, and the first refusal.

        A connector has a line, None for no line, or the words that tell why it has no route.
        """
        found, refusal, left = {}, None, len(requests)
        try:
            self.run.stdin.write(''.join(f'{request}\n' for request in requests).encode())
            self.run.stdin.flush()
        except BrokenPipeError:
            pass  # (it has ended, and its last words say why)
        while left:
            words = self.run.stdout.readline().split()
            if not words:
                raise gml.Fault('reroute_live ended: ' + self.run.stderr.read().decode('utf-8', 'replace').strip())
            if words[0] == b'line':
                numbers = [int(word.replace(b'.', b'')) for word in words[2:]]
                found[int(words[1])] = list(zip(numbers[::2], numbers[1::2]))
            elif words[0] == b'no':
                found[int(words[2])] = None
            elif words[0] == b'why':
                found[int(words[1])] = [word.decode() for word in words[2:]]
            elif words[0] in (b'ok', b'refused'):
                left -= 1
                if words[0] == b'refused' and not refusal:
                    refusal = b' '.join(words).decode()
        return found, refusal


def live_program(name=None):
    """The program reroute_live: as named, that of the environment, beside the tool, built in the repository, or on the path."""
    home = os.path.dirname(os.path.realpath(sys.argv[0]))
    built = (f'{home}/reroute_live', f'{home}/../out/reroute_live')
    return name or os.environ.get('REROUTE_LIVE') or next((path for path in built if os.access(path, os.X_OK)), 'reroute_live')
