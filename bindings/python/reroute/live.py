"""The calls of `reroute.Session` over the program `reroute_live`, which runs beside this process.

    from reroute.live import Session

    with Session('reroute_live') as session:
        with session.transaction():
            session.add_box(1, 0, 0, 20, 20)
            session.add_box(2, 100, 0, 20, 20)
            connector = session.connect(1, 2)
        print(session.lines()[connector])  # [(0.0, 0.0), (100.0, 0.0)]

A transaction of another thread waits until the one that is open ends.
"""
import contextlib
import os
import subprocess
import tempfile
import threading
from typing import Any, BinaryIO, Dict, Iterable, Iterator, List, NamedTuple, Optional, Tuple, Union

from ._faults import Refused, milli, whole
from ._session import Box, Connector, Lines, Pin, Settings, Verdict, is_target

__all__ = ['Box', 'Connector', 'Ended', 'Pin', 'Refused', 'Scene', 'Session', 'Settings', 'SharedPath', 'Verdict']

SIDES = 'ESWN'
SETTINGS = ('penalty', 'buffer', 'nudge')
MOST_BYTES = 4096
Reply = List[Union[str, bytes]]


class Ended(Exception):
    """The program could not be started, or has ended."""


class SharedPath(NamedTuple):
    """As `reroute.SharedPath`, without the runs of `b`, which the program does not tell."""
    a: int
    b: int
    first: int
    last: int
    back: str
    ahead: str
    side: Optional[str]


class Scene(NamedTuple):
    """The boxes with their pins, the connectors with their checkpoints, what the routes of these cost in the present scene,
    None where there is none, and the settings."""
    boxes: List[Box]
    connectors: List[Connector]
    costs: Dict[int, Optional[float]]
    settings: Settings


def units(value: float) -> str:
    number = milli(value)
    return f'{"-" if number < 0 else ""}{abs(number) // 1000}.{abs(number) % 1000:03}'


def refusal(why: str) -> Exception:
    """What a line that begins with `refused` says."""
    word, _, value = why.split(' ', 1)[1].partition(' ')
    if word == 'NoMemory':
        return MemoryError()
    return Refused(int(word[1:]), int(value.split()[1]) if ' ' in value else 0)


def apply(reported: Iterable[Any], lines: Lines) -> None:
    """Applies what is reported to have changed."""
    for words in (line.split() for line in reported):
        if words[0] == 'no':
            lines.pop(int(words[2]), None)
        else:
            numbers = [float(word) for word in words[2:]]
            lines[int(words[1])] = list(zip(numbers[::2], numbers[1::2]))


def shared_path(line: str) -> SharedPath:
    """The path of a line as `shared 1 2 runs 1-3: back tie, ahead left, side left`."""
    _, a, b, _, runs, _, back, _, ahead, _, side = line.replace(':', '').replace(',', '').split()
    first, last = map(int, runs.split('-'))
    return SharedPath(int(a), int(b), first, last, back, ahead, None if side == 'none' else side)


def verdict(line: str) -> Verdict:
    """The verdict of a line as `edge 1: cost 248.000`, `edge 1: EndOff` or `edge 1: Hits 1 node 3`."""
    word, *rest = line.split()[2:]
    if word == 'cost':
        return Verdict(None, None, None, float(rest[0]))
    return Verdict(word, int(rest[0]) if rest else None, int(rest[2]) if word == 'Hits' else None, None)


def scene(reply: Iterable[Any]) -> Scene:
    """The scene of the lines of a reply."""
    boxes: List[Box] = []
    connectors: List[Connector] = []
    costs: Dict[int, Optional[float]] = {}
    settings = Settings(0.0, 0.0, 0.0)
    for word, *rest in (line.split() for line in reply):
        if word == 'settings':
            settings = Settings(*map(float, rest))
        elif word == 'box':
            x, y, w, h = map(float, rest[1:5])
            boxes.append(Box(int(rest[0]), x, y, w, h, rest[5:] == ['group'], []))
        elif word == 'pin':
            boxes[-1].pins.append(Pin(int(rest[0]), float(rest[1]), float(rest[2]), rest[3]))
        elif word == 'connector':
            number, start, end, start_class, end_class = map(int, rest[:5])
            connectors.append(Connector(number, start, end, start_class, end_class, []))
            costs[number] = float(rest[6]) if rest[5] == 'cost' else None
        elif word == 'checkpoint':
            connectors[-1].checkpoints.append((float(rest[0]), float(rest[1])))
    return Scene(boxes, connectors, costs, settings)


def copied(lines: Lines) -> Lines:
    return {connector: list(corners) for connector, corners in lines.items()}


def differences(old: Lines, new: Lines) -> Lines:
    """The lines that are other ones now; a connector whose line is gone has no corners."""
    found = {connector: corners for connector, corners in new.items() if old.get(connector) != corners}
    found.update((connector, []) for connector in old if connector not in new)
    return dict(sorted(found.items()))


class Session:
    """A scene with its lines, in a program of its own; it begins with the diagram of a file, or with none."""

    def __init__(self, program: str = 'reroute_live', diagram: Union[str, 'os.PathLike[str]', None] = None,
                 workers: int = 1) -> None:
        if workers not in (1, 2, 3, 4):
            raise ValueError(f'there are 1 to 4 workers, and not {workers!r}')
        words = [program, '--workers', str(workers)] + ([os.path.abspath(diagram)] if diagram is not None else [])
        self._program, self._errors = program, tempfile.TemporaryFile()
        try:
            self._process = subprocess.Popen(words, stdin=subprocess.PIPE, stdout=subprocess.PIPE, stderr=self._errors)
        except OSError as fault:
            self._errors.close()
            raise Ended(f'{program} cannot be started: {fault.strerror}') from None
        self._lock, self._is_open, self._is_closed = threading.RLock(), False, False
        self._known: Lines = {}  # as the program told them
        self._told: Lines = {}  # as `lines` and `changes` told them
        self._next = 0
        try:
            self._refresh()
        except BaseException:
            self.close()
            raise

    def __enter__(self) -> 'Session':
        return self

    def __exit__(self, *_: Any) -> None:
        self.close()

    def close(self) -> int:
        """Ends the program, and answers its exit status."""
        with self._lock:
            self._is_closed = True
            with contextlib.suppress(OSError):
                self._pipe(self._process.stdin).close()
            status = self._process.wait()
            self._pipe(self._process.stdout).close()
            self._errors.close()
        return status

    @staticmethod
    def _pipe(pipe: Any) -> BinaryIO:
        return pipe

    # ---- the lines of text ----

    def say(self, command: str) -> Reply:
        """Sends one line, and answers the lines of the reply before its last one."""
        data = command.encode()
        if b'\n' in data or b'\r' in data or len(data) > MOST_BYTES:
            raise ValueError(f'a command is one line of at most {MOST_BYTES} bytes')
        with self._lock:
            if self._is_closed:
                raise Ended('the session is closed')
            try:
                lines, last = self._exchange(data)
            except BaseException:
                # (the rest of a reply that was not read would be taken for the next one)
                self._process.kill()
                self._process.wait()  # (else the next command may still be written, and find that rest)
                raise
            if last.startswith('refused'):
                raise refusal(last)
            if last == 'ok untold':
                self._refresh()
            return lines

    def _exchange(self, command: bytes) -> Tuple[Reply, str]:
        """The lines of a reply, and its last one."""
        try:
            self._pipe(self._process.stdin).write(command + b'\n')
            self._pipe(self._process.stdin).flush()
        except OSError:
            raise self._ended() from None
        lines: Reply = []
        while True:
            line = self._line()
            if line.startswith(('ok', 'refused')):
                return lines, line
            lines.append(self._bytes(int(line[4:])) if line.startswith('gml ') else line)

    def _line(self) -> str:
        line = self._pipe(self._process.stdout).readline()
        if not line.endswith(b'\n'):
            raise self._ended()
        return line.decode().rstrip('\n')

    def _bytes(self, count: int) -> bytes:
        text = self._pipe(self._process.stdout).read(count)
        if len(text) < count:
            raise self._ended()
        return text

    def _ended(self) -> Ended:
        status = self._process.wait()
        self._errors.seek(0)
        said = self._errors.read(2000).decode(errors='replace').strip()
        return Ended(f'{self._program} ended with status {status}' + (f': {said}' if said else ''))

    def _refresh(self) -> None:
        reported = self.say('lines')
        self._known = {}
        apply(reported, self._known)

    # ---- transactions ----

    def begin(self) -> None:
        self.say('begin')
        self._next = int(str(self.say('next')[0]).split()[1])

    def commit(self) -> None:
        apply(self.say('commit'), self._known)

    def abort(self) -> None:
        self.say('abort')

    @contextlib.contextmanager
    def _edits(self) -> Iterator[None]:
        """A transaction that is open here and nowhere else; what goes wrong in it drops it."""
        with self._lock:
            if self._is_open:
                raise RuntimeError('a transaction within a transaction')
            self._is_open = True
            try:
                self.begin()
                yield
            except BaseException:
                self._drop()
                raise
            finally:
                self._is_open = False

    def _drop(self) -> None:
        with contextlib.suppress(Refused, Ended):
            self.abort()

    @contextlib.contextmanager
    def transaction(self) -> Iterator['Session']:
        """Edits that hold together: any exception among them drops all of them."""
        with self._edits():
            yield self
            self.commit()

    @contextlib.contextmanager
    def trial(self) -> Iterator['Session']:
        """Edits that are dropped at the end. Ask for their `preview` or `preview_changes` among them."""
        with self._edits():
            yield self
            self._drop()

    def undo(self) -> None:
        apply(self.say('undo'), self._known)

    def redo(self) -> None:
        apply(self.say('redo'), self._known)

    # ---- edits of the open transaction ----

    def add_box(self, box: int, x: float, y: float, w: float, h: float) -> None:
        """A box by its centre and its size; its id is yours, and has at most 18 digits."""
        self.say(f'node {whole(box, 64)} {units(x)} {units(y)} {units(w)} {units(h)}')

    def move(self, box: int, x: float, y: float) -> None:
        self.say(f'move {whole(box, 64)} {units(x)} {units(y)}')

    def resize(self, box: int, w: float, h: float) -> None:
        self.say(f'size {whole(box, 64)} {units(w)} {units(h)}')

    def drop(self, box: int) -> None:
        self.say(f'drop {whole(box, 64)}')

    def add_pin(self, box: int, pin_class: int, dx: float, dy: float, sides: str = SIDES) -> None:
        """A pin, from the centre of its box, which lines may leave to these sides."""
        if not sides or set(sides) - set(SIDES):
            raise ValueError(f'sides are letters of {SIDES}, and not {sides!r}')
        self.say(f'pin {whole(box, 64)} {whole(pin_class, 32)} {units(dx)} {units(dy)} {sides}')

    def drop_pin(self, box: int, place: int) -> None:
        self.say(f'unpin {whole(box, 64)} {whole(place, 32)}')

    def connect(self, start: int, end: int, start_class: int = 0, end_class: int = 0) -> int:
        """Connects two boxes, and answers the number of the connector. Class 0 is the centre of a box."""
        with self._lock:
            self.say(f'edge {whole(start, 64)} {whole(end, 64)} {whole(start_class, 32)} {whole(end_class, 32)}')
            self._next += 1
            return self._next - 1

    def reconnect(self, connector: int, end: str, box: int, pin_class: int = 0) -> int:
        """Moves the `start` or the `end` of a connector to another box, and answers its new number. The other end and the
        checkpoints stay; its label, its weight and other keys of the diagram do not."""
        which = 'target' if is_target(end) else 'source'
        with self._lock:
            replies = self.say(f'reconnect {whole(connector, 32)} {which} {whole(box, 64)} {whole(pin_class, 32)}')
            number = int(str(replies[0]).split()[1])
            self._next = number + 1
            return number

    def set_classes(self, connector: int, start_class: int, end_class: int) -> None:
        self.say(f'classes {whole(connector, 32)} {whole(start_class, 32)} {whole(end_class, 32)}')

    def cut(self, connector: int) -> None:
        self.say(f'cut {whole(connector, 32)}')

    def add_checkpoint(self, connector: int, place: int, x: float, y: float) -> None:
        """A point that the line has to pass, before the checkpoint that has this place now, from 1."""
        self.say(f'via {whole(connector, 32)} {whole(place, 32)} {units(x)} {units(y)}')

    def drop_checkpoint(self, connector: int, place: int) -> None:
        self.say(f'unvia {whole(connector, 32)} {whole(place, 32)}')

    def set(self, setting: str, value: float) -> None:
        """Sets `penalty`, `buffer` or `nudge`."""
        if setting not in SETTINGS:
            raise ValueError(f'a setting is one of {", ".join(SETTINGS)}, and not {setting!r}')
        self.say(f'set {setting} {units(value)}')

    # ---- labels: no undo takes them back ----

    def label_box(self, box: int, label: str) -> None:
        """Gives a box that was added a label, which `gml` has; an empty one is none, and one with a `"` is refused."""
        self.say(f'label box {whole(box, 64)} {label}')

    def label_connector(self, connector: int, label: str) -> None:
        """The same for a connector."""
        self.say(f'label connector {whole(connector, 32)} {label}')

    # ---- lines and texts ----

    def lines(self) -> Lines:
        """The corners of each connector that has a line, by its number."""
        self._told = copied(self._known)
        return copied(self._known)

    def changes(self) -> Lines:
        """The lines that differ from those that `lines` or `changes` told last. A connector whose line is gone, since it was
        cut or has no legal route any more, has no corners."""
        old = self._told
        return differences(old, self.lines())

    def preview(self) -> Lines:
        """The lines that a commit of the open transaction would give. Nothing changes."""
        with self._lock:
            lines = copied(self._known)
            apply(self.say('preview'), lines)
        return lines

    def preview_changes(self) -> Lines:
        """What `changes` would tell after that commit. What was told last stays."""
        return differences(self._told, self.preview())

    def scene(self) -> Scene:
        """The scene of the open transaction, if one is open, otherwise the present one."""
        return scene(self.say('scene'))

    def shared_paths(self) -> List[SharedPath]:
        """The paths that the routes of the present scene share."""
        return [shared_path(str(line)) for line in self.say('shared')]

    def crossings(self) -> int:
        """How often the lines of the present scene cross."""
        return int(str(self.say('crossings')[0]).split()[1])

    def check(self, connector: int, corners: Iterable[Tuple[float, float]]) -> Verdict:
        """Judges a line of any origin as that of a connector of the present scene."""
        words = [f'{units(x)} {units(y)}' for x, y in corners]
        return verdict(str(self.say(' '.join(['check', str(whole(connector, 32)), *words]))[0]))

    def gml(self) -> bytes:
        """The diagram in GML, with the present scene, its lines and the labels put in."""
        return bytes(self.say('gml')[0])
