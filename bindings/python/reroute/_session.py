"""A session of the engine in this process."""
import contextlib
import ctypes
import itertools
import os
import weakref
from typing import Any, Dict, Iterable, Iterator, List, NamedTuple, Optional, Tuple, Union

from ._faults import Code, Refused, milli, whole
from ._library import (CALLS, BoxInfo, ConnectorInfo, Directions, Handle, I, PinInfo, Point, SettingsInfo, SharedInfo, U,
                       VerdictInfo, Z, default_path, loaded)

__all__ = ['Box', 'Connector', 'Corners', 'Lines', 'Pin', 'Session', 'Settings', 'SharedPath', 'Verdict']

Corners = List[Tuple[float, float]]
Lines = Dict[int, Corners]
SIDES = 'ESWN'
SETTINGS = ('penalty', 'buffer', 'nudge')
ENDS = ('start', 'end')
HANDS = ('tie', 'left', 'right')
BREACHES = (None, 'Slanted', 'StartOff', 'EndOff', 'Hits', 'MissesVia')
NO_MEMORY = 99


class Pin(NamedTuple):
    """A pin by its class, its place from the centre of its box, and the sides to which lines may leave."""
    pin_class: int
    dx: float
    dy: float
    sides: str


class Box(NamedTuple):
    """A box by its centre and its size; lines may cross a group."""
    id: int
    x: float
    y: float
    w: float
    h: float
    is_group: bool
    pins: List[Pin]


class Connector(NamedTuple):
    """A connector with the boxes and the classes of pins of its ends."""
    number: int
    start: int
    end: int
    start_class: int
    end_class: int
    checkpoints: Corners


class Settings(NamedTuple):
    """What a bend costs, how far lines keep from boxes, and how far lines side by side are kept apart."""
    penalty: float
    buffer: float
    nudge: float


class SharedPath(NamedTuple):
    """A path that the routes of two connectors share, before nudging: the runs from `first` to `last` of `a`, counted from 1,
    and those from `b_first` to `b_last` of `b`. `back` and `ahead` are its ends, seen along `a`: 'left' or 'right' where the
    routes part, for the hand on which `a` is, or 'tie' where both stop. `side` is the hand on which `a` belongs all along, or
    None."""
    a: int
    b: int
    first: int
    last: int
    b_first: int
    b_last: int
    back: str
    ahead: str
    side: Optional[str]


class Verdict(NamedTuple):
    """What a line costs, or its first breach: 'Slanted', 'StartOff', 'EndOff', 'Hits' or 'MissesVia', with the place of the
    segment or of the checkpoint, from 1, and the box that is hit. What does not apply is None."""
    breach: Optional[str]
    place: Optional[int]
    box: Optional[int]
    cost: Optional[float]


def is_target(end: str) -> bool:
    """Whether it is the end where a connector ends, and not the one where it begins."""
    if end not in ENDS:
        raise ValueError(f'an end is one of {", ".join(ENDS)}, and not {end!r}')
    return end == 'end'


def fitting(kind: Any, word: Any) -> Any:
    """A parameter that the C type holds: ctypes would take a number modulo 2**64 or 2**32."""
    return whole(word, 64) if kind is I else whole(word, 32) if kind is U else word


def encoded(text: Union[bytes, str]) -> bytes:
    return text.encode() if isinstance(text, str) else bytes(text)


def directions(sides: str) -> Directions:
    if not sides or set(sides) - set(SIDES):
        raise ValueError(f'sides are letters of {SIDES}, and not {sides!r}')
    return Directions(*(side in sides for side in SIDES))


def letters(to: Directions) -> str:
    return ''.join(side for side, has in zip(SIDES, (to.east, to.south, to.west, to.north)) if has)


def checked(fault: Any, line: int = 0) -> None:
    if fault.code == NO_MEMORY:
        raise MemoryError
    if fault.code:
        raise Refused(fault.code, fault.value, line)


def closed(library: Any, handle: Handle, room: Any) -> None:
    """Closes a session whose room is there until then; later calls read that it is closed, so the session keeps it too."""
    library.reroute_close(handle)


class Session:
    """A scene of boxes and connectors, with the lines of the connectors: the empty scene, or that of a diagram in GML.

    Use it in a `with`, which closes it; one that is left open is closed when nothing refers to it any more. A session is
    used by one thread at a time. `library` is the file of libreroute; without it, see `REROUTE_LIBRARY`.

    A number that is no length, or that the engine's types do not hold, is a ValueError, OverflowError or TypeError before
    any call. What the engine refuses is `Refused`.
    """

    def __init__(self, gml: Union[bytes, str, None] = None, *, library: Optional[str] = None) -> None:
        self._library = loaded(library or default_path())
        # (words of 16 bytes, since the room is aligned to 16)
        self._room = ctypes.create_string_buffer(self._library.reroute_size() + 16)
        start = ctypes.addressof(self._room)
        self._handle = Handle(start + -start % 16)
        self._library.reroute_ready(self._handle.held)
        if gml is None:
            self._call('open')
        else:
            text = gml.encode() if isinstance(gml, str) else bytes(gml)
            self._call('open_gml', text, len(text))
        self._close = weakref.finalize(self, closed, self._library, self._handle, self._room)

    @classmethod
    def open(cls, path: Union[str, 'os.PathLike[str]'], *, library: Optional[str] = None) -> 'Session':
        """A session on the diagram of a GML file."""
        with open(path, 'rb') as file:
            return cls(file.read(), library=library)

    def __enter__(self) -> 'Session':
        return self

    def __exit__(self, *_: Any) -> None:
        self.close()

    def close(self) -> None:
        """Gives the memory back; every later call is refused."""
        self._close()

    def _call(self, name: str, *words: Any) -> None:
        kinds = CALLS[name][1:]
        checked(getattr(self._library, f'reroute_{name}')(self._handle, *map(fitting, kinds, words)))

    # ---- transactions ----

    def begin(self) -> None:
        self._call('begin')

    def commit(self) -> None:
        self._call('commit')

    def abort(self) -> None:
        self._call('abort')

    @contextlib.contextmanager
    def transaction(self) -> Iterator['Session']:
        """Edits that hold together: any exception among them drops all of them."""
        self.begin()
        try:
            yield self
        except BaseException:
            self._library.reroute_abort(self._handle)
            raise
        self.commit()

    @contextlib.contextmanager
    def trial(self) -> Iterator['Session']:
        """Edits that are dropped at the end. Ask for their `preview` or `preview_changes` among them."""
        self.begin()
        try:
            yield self
        finally:
            self._library.reroute_abort(self._handle)

    def undo(self) -> None:
        self._call('undo')

    def redo(self) -> None:
        self._call('redo')

    # ---- edits of the open transaction ----

    def add_box(self, box: int, x: float, y: float, w: float, h: float) -> None:
        """A box by its centre and its size; its id is yours, and has at most 18 digits."""
        self._call('add_box', box, milli(x), milli(y), milli(w), milli(h))

    def move(self, box: int, x: float, y: float) -> None:
        self._call('move_box', box, milli(x), milli(y))

    def resize(self, box: int, w: float, h: float) -> None:
        self._call('size_box', box, milli(w), milli(h))

    def drop(self, box: int) -> None:
        self._call('drop_box', box)

    def add_pin(self, box: int, pin_class: int, dx: float, dy: float, sides: str = SIDES) -> None:
        """A pin, from the centre of its box, which lines may leave to these sides."""
        self._call('add_pin', box, pin_class, milli(dx), milli(dy), directions(sides))

    def drop_pin(self, box: int, place: int) -> None:
        self._call('drop_pin', box, place)

    def connect(self, start: int, end: int, start_class: int = 0, end_class: int = 0) -> int:
        """Connects two boxes, and answers the number of the connector. Class 0 is the centre of a box."""
        number = U()
        self._call('connect', start, start_class, end, end_class, number)
        return number.value

    def reconnect(self, connector: int, end: str, box: int, pin_class: int = 0) -> int:
        """Moves the `start` or the `end` of a connector to another box, and answers its new number. The other end and the
        checkpoints stay; its label, its weight and other keys of the diagram do not."""
        number = U()
        self._call('reconnect', connector, is_target(end), box, pin_class, number)
        return number.value

    def set_classes(self, connector: int, start_class: int, end_class: int) -> None:
        self._call('set_classes', connector, start_class, end_class)

    def cut(self, connector: int) -> None:
        self._call('cut', connector)

    def add_checkpoint(self, connector: int, place: int, x: float, y: float) -> None:
        """A point that the line has to pass, before the checkpoint that has this place now, from 1."""
        self._call('add_checkpoint', connector, place, milli(x), milli(y))

    def drop_checkpoint(self, connector: int, place: int) -> None:
        self._call('drop_checkpoint', connector, place)

    def set(self, setting: str, value: float) -> None:
        """Sets `penalty`, `buffer` or `nudge`."""
        if setting not in SETTINGS:
            raise ValueError(f'a setting is one of {", ".join(SETTINGS)}, and not {setting!r}')
        self._call(f'set_{setting}', milli(value))

    # ---- lines ----

    def lines(self) -> Lines:
        """The corners of each connector that has a line, by its number."""
        return self._read('lines')

    def changes(self) -> Lines:
        """The lines that differ from those that `lines` or `changes` told last. A connector whose line is gone, since it was
        cut or has no legal route any more, has no corners."""
        return self._read('lines', is_changes=True)

    def preview(self) -> Lines:
        """The lines that a commit of the open transaction would give. Nothing changes."""
        return self._read('preview')

    def preview_changes(self) -> Lines:
        """What `changes` would tell after that commit. What was told last stays."""
        return self._read('preview', is_changes=True)

    def _read(self, call: str, is_changes: bool = False) -> Lines:
        """The lines that a call gives; or those that changed, with the connectors that are gone."""
        count, library = Z(), self._library
        self._call(call, count)
        lines = [library.reroute_line(self._handle, place) for place in range(count.value)]
        found = {line.connector: self._points('corner', place) for place, line in enumerate(lines)
                 if line.changed or not is_changes}
        gone = range(library.reroute_gone_count(self._handle) if is_changes else 0)
        found.update((library.reroute_gone(self._handle, place), []) for place in gone)
        return dict(sorted(found.items()))

    def _all(self, call: str, kind: Any, *of: int) -> Iterator[Any]:
        """What a call has at the places from 0 on."""
        for place in itertools.count():
            info = kind()
            if not getattr(self._library, f'reroute_{call}')(self._handle, *of, place, info):
                return
            yield info

    def _points(self, call: str, of: int) -> Corners:
        return [(point.x / 1000, point.y / 1000) for point in self._all(call, Point, of)]

    def cost(self, connector: int) -> Optional[float]:
        """What the connector's route costs, before nudging, or None if it has none."""
        cost = ctypes.c_uint64()
        is_routed = self._library.reroute_cost(self._handle, whole(connector, 32), cost)
        return cost.value / 1000 if is_routed else None

    @property
    def next(self) -> int:
        """The number that the next connector gets."""
        return self._library.reroute_next(self._handle)

    @property
    def searched(self) -> int:
        """How many searches the session has made."""
        return self._library.reroute_searched(self._handle)

    # ---- questions about the present scene, whether or not a transaction is open ----

    def shared_paths(self) -> List[SharedPath]:
        """The paths that the routes share, in the order of `a`, `b`, `first` and `b_first`."""
        count = Z()
        self._call('shared', SharedInfo(), 0, count)
        # (no pointer may be NULL, so an array has an entry at least)
        paths = (SharedInfo * max(count.value, 1))()
        self._call('shared', paths, count.value, count)
        return [SharedPath(one.a, one.b, one.first, one.last, one.b_first, one.b_last, HANDS[one.back], HANDS[one.ahead],
                           HANDS[one.side] if one.side else None) for one in paths[:count.value]]

    def crossings(self) -> int:
        """How often the lines cross."""
        count = ctypes.c_uint64()
        self._call('crossings', count)
        return count.value

    def check(self, connector: int, corners: Iterable[Tuple[float, float]]) -> Verdict:
        """Judges a line of any origin as that of a connector."""
        points = [Point(milli(x), milli(y)) for x, y in corners]
        found = VerdictInfo()
        self._call('check', connector, (Point * max(len(points), 1))(*points), len(points), found)
        breach = BREACHES[found.breach]
        return Verdict(breach, found.place or None, found.box if breach == 'Hits' else None, None if breach else found.cost / 1000)

    # ---- the scene: that of the open transaction if one is open, otherwise the present one ----

    def boxes(self) -> List[Box]:
        """The boxes with their pins."""
        return [Box(box.id, box.x / 1000, box.y / 1000, box.w / 1000, box.h / 1000, box.group, self._pins(place))
                for place, box in enumerate(self._all('box', BoxInfo))]

    def _pins(self, place: int) -> List[Pin]:
        return [Pin(pin.pin_class, pin.dx / 1000, pin.dy / 1000, letters(pin.directions))
                for pin in self._all('pin', PinInfo, place)]

    def connectors(self) -> List[Connector]:
        """The connectors with their checkpoints, in the order of their numbers."""
        return [Connector(one.number, one.start, one.end, one.start_class, one.end_class, self._points('checkpoint', place))
                for place, one in enumerate(self._all('connector', ConnectorInfo))]

    def settings(self) -> Settings:
        """The settings; a closed session refuses."""
        found = SettingsInfo()
        if not self._library.reroute_settings(self._handle, found):
            raise Refused(Code.NO_SESSION, 0)
        return Settings(found.penalty / 1000, found.buffer / 1000, found.nudge / 1000)

    @property
    def box_count(self) -> int:
        """How many boxes `boxes` has."""
        return self._library.reroute_box_count(self._handle)

    @property
    def connector_count(self) -> int:
        """How many connectors `connectors` has."""
        return self._library.reroute_connector_count(self._handle)

    # ---- labels and texts ----

    def label_box(self, box: int, label: Union[bytes, str]) -> None:
        """Gives a box that was added a label, which `gml` has; an empty one is none, and one with a `"` is refused. No
        transaction need be open, and no undo takes it back."""
        text = encoded(label)
        self._call('label_box', box, text, len(text))

    def label_connector(self, connector: int, label: Union[bytes, str]) -> None:
        """The same for a connector."""
        text = encoded(label)
        self._call('label_connector', connector, text, len(text))

    def gml(self) -> bytes:
        """The diagram in GML, with the present scene, its lines and the labels put in."""
        length = Z()
        self._call('write_gml', ctypes.create_string_buffer(1), 0, length)
        text = ctypes.create_string_buffer(length.value)
        self._call('write_gml', text, length.value, length)
        return text.raw

    def play(self, script: Union[bytes, str]) -> None:
        """Plays a script up to its first line that is refused; `line` of the exception is its number."""
        text, line = encoded(script), Z()
        fault = self._library.reroute_play(self._handle, text, len(text), line)
        checked(fault, line.value)
