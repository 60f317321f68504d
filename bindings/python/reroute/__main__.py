"""Routes the edges of a diagram in this process, and writes it, or draws it as SVG."""
import argparse
import os
import shutil
import subprocess
import sys
from typing import Optional

from . import Refused, Session, __version__

HERE = os.path.dirname(os.path.realpath(__file__))
# Where the program that draws stands in an installed package, in the repository, and on the path.
DRAWERS = (f'{HERE}/_tools/reroute-svg', f'{HERE}/../../../tools/reroute-svg', shutil.which('reroute-svg') or '')


class Failed(Exception):
    """Why there is nothing to write."""


def read(name: str) -> bytes:
    if name == '-':
        return sys.stdin.buffer.read()
    with open(name, 'rb') as file:
        return file.read()


def drawn(diagram: bytes) -> bytes:
    """A diagram with its lines as SVG."""
    drawer = next((path for path in DRAWERS if os.path.exists(path)), None)
    if not drawer:
        raise Failed('reroute-svg, which draws, is not part of this installation; write GML instead')
    done = subprocess.run([sys.executable, drawer, '-'], input=diagram, stdout=subprocess.PIPE, stderr=subprocess.PIPE)
    if done.returncode:
        raise Failed(done.stderr.decode(errors='replace').strip())
    return done.stdout


def routed(diagram: bytes, script: Optional[bytes]) -> bytes:
    with Session(diagram) as session:
        if script is not None:
            session.play(script)
        return session.gml()


def write(name: str, data: bytes) -> None:
    if name == '-':
        sys.stdout.buffer.write(data)
        sys.stdout.flush()
    else:
        with open(name, 'wb') as file:
            file.write(data)


def main() -> int:
    parser = argparse.ArgumentParser(prog='python -m reroute', description=__doc__,
                                     epilog='Status 0, or 1 where a file is refused or cannot be read or written.')
    parser.add_argument('diagram', metavar='DIAGRAM', help='in GML; - is standard input')
    parser.add_argument('-s', '--script', metavar='SCRIPT', help='edits that are played first')
    parser.add_argument('-o', '--output', metavar='OUT', default='-', help='SVG where the name ends in .svg, otherwise GML')
    parser.add_argument('--version', action='version', version=f'reroute {__version__}')
    given = parser.parse_args()
    try:
        data = routed(read(given.diagram), read(given.script) if given.script else None)
        write(given.output, drawn(data) if given.output.endswith('.svg') else data)
    except BrokenPipeError:
        os.dup2(os.open(os.devnull, os.O_WRONLY), 1)
        return 1
    except Refused as fault:
        print(f'reroute: {given.script if fault.line else given.diagram}: {fault}', file=sys.stderr)
        return 1
    except (Failed, ImportError, MemoryError, OSError) as fault:
        print(f'reroute: {fault or "no memory is left"}', file=sys.stderr)
        return 1
    return 0


if __name__ == '__main__':
    sys.exit(main())
