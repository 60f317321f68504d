"""The lines of a graph of networkx."""
import collections
import math
from typing import TYPE_CHECKING, Any, Dict, Hashable, Iterator, List, Mapping, NamedTuple, Optional, Tuple, Union

from ._session import Corners, Lines, Session

if TYPE_CHECKING:
    import networkx

__all__ = ['route_graph']

MOST_PINS = 256
OPPOSITE = {'E': 'W', 'W': 'E', 'S': 'N', 'N': 'S'}
Pair = Tuple[float, float]


class Box(NamedTuple):
    x: float
    y: float
    w: float
    h: float


class End(NamedTuple):
    """An end of a connector: its place is 0 at the source and 1 at the target."""
    connector: int
    place: int
    box: int
    side: str
    order: Tuple[float, int]


def route_graph(graph: 'networkx.Graph', pos: Union[str, Mapping] = 'pos', size: Union[str, Mapping, Pair] = 'size', *,
                buffer: float = 8, nudge: float = 8, penalty: float = 50,
                library: Optional[str] = None) -> Dict[Any, Corners]:
    """The corners of each edge of a graph of networkx, by its key as `graph.edges` gives it.

    `pos` and `size` are the names of node attributes, or mappings from the nodes, as the layouts of networkx answer; one
    pair is the size of all. An edge has no corners if no legal line exists, or if it is a loop. Lines that leave a box by
    one side get a pin each, so that they do not lie on each other: at most 256 in all.

    >>> import networkx
    >>> graph = networkx.DiGraph([('here', 'there')])
    >>> route_graph(graph, {'here': (0, 0), 'there': (100, 0)}, (20, 20))
    {('here', 'there'): [(0.0, 0.0), (100.0, 0.0)]}
    """
    numbers = {node: number for number, node in enumerate(graph.nodes, 1)}
    boxes = {number: Box(*pair_of(graph, node, pos, 'pos'), *pair_of(graph, node, size, 'size'))
             for node, number in numbers.items()}
    edges = list(graph.edges(keys=True) if graph.is_multigraph() else graph.edges)
    with Session(library=library) as session:
        with session.transaction():
            for setting, value in (('penalty', penalty), ('buffer', buffer), ('nudge', nudge)):
                session.set(setting, value)
            for number, box in boxes.items():
                session.add_box(number, *box)
            ends = {session.connect(numbers[edge[0]], numbers[edge[1]]): (numbers[edge[0]], numbers[edge[1]])
                    for edge in edges if edge[0] != edge[1]}
        lines = with_pins(session, boxes, ends)
    found = iter(lines.get(connector, []) for connector in ends)
    return {edge: next(found) if edge[0] != edge[1] else [] for edge in edges}


def pair_of(graph: 'networkx.Graph', node: Hashable, source: Union[str, Mapping, Pair], name: str) -> Pair:
    """The place or the size of a node."""
    try:
        value = graph.nodes[node][source] if isinstance(source, str) else \
            source[node] if isinstance(source, Mapping) else source
        first, second = value
        return float(first), float(second)
    except (KeyError, TypeError, ValueError):
        raise ValueError(f'node {node!r} has no {name} that is a pair of numbers') from None


def with_pins(session: Session, boxes: Dict[int, Box], ends: Dict[int, Pair]) -> Lines:
    """The lines after each end that shares the side of a box has a pin of its own there, in the order of the lines."""
    before = session.lines()
    spots = spots_of(before, boxes, ends)
    classes = {connector: [0, 0] for connector in ends}
    used: Dict[int, int] = collections.Counter()
    with session.transaction():
        for end, along in spots.items():
            used[end.box] += 1
            classes[end.connector][end.place] = used[end.box]
            session.add_pin(end.box, used[end.box], *offset(boxes[end.box], end.side, along), end.side)
        for connector, pair in classes.items():
            if any(pair):
                session.set_classes(connector, *pair)
    lost = [connector for connector in before if connector not in session.lines()]
    if lost:
        # (a pin may lead to where other boxes stand, and the centre has more ways out)
        with session.transaction():
            for connector in lost:
                session.set_classes(connector, 0, 0)
    return session.lines()


def ends_of(lines: Lines, ends: Dict[int, Pair]) -> Iterator[End]:
    """The ends of the lines, with the sides by which they leave."""
    for connector, corners in lines.items():
        for place, box in enumerate(ends[connector]):
            other = ends[connector][1 - place]
            (x, y), (u, v), *rest = corners[::-1] if place else corners
            side = ('E' if u > x else 'W') if abs(u - x) > abs(v - y) else ('S' if v > y else 'N')
            # Of those that turn to one hand, the one that turns first stands outermost.
            far = math.hypot(u - x, v - y)
            turn = 0.0 if not rest else rest[0][0] - u if side in 'NS' else rest[0][1] - v
            key = math.copysign(1 / (1 + far), turn) if turn else 0.0
            # Parallel edges go clockwise round the one box and the other way round the other, so none cross.
            tie = connector if (box < other) == (side in 'NE') else -connector
            yield End(connector, place, box, side, (key, tie))


def spots_of(lines: Lines, boxes: Dict[int, Box], ends: Dict[int, Pair]) -> Dict[End, float]:
    """Where pins go along their sides, from the middle: on sides with several lines evenly, as far as pins go."""
    sides: Dict[Tuple[int, str], List[End]] = collections.defaultdict(list)
    for end in ends_of(lines, ends):
        sides[end.box, end.side].append(end)
    spots: Dict[End, float] = {}
    for row in sorted(sides.values(), key=lambda row: (-len(row), row[0])):
        if 1 < len(row) <= MOST_PINS - len(spots):
            length = room(boxes[row[0].box], row[0].side)
            row.sort(key=lambda end: end.order)
            spots.update((end, length * at / (len(row) + 1) - length / 2) for at, end in enumerate(row, 1))
    straighten(spots, [row[0] for row in sides.values() if len(row) == 1], boxes)
    return spots


def straighten(spots: Dict[End, float], alone: List[End], boxes: Dict[int, Box]) -> None:
    """Gives an end that is alone on its side a pin where its line is straight, if the other end faces it."""
    others = {(end.connector, end.place): end for end in spots}
    for end in alone:
        other = others.get((end.connector, 1 - end.place))
        if not other or other.side != OPPOSITE[end.side] or len(spots) == MOST_PINS:
            continue
        box, there = boxes[end.box], boxes[other.box]
        wanted = spots[other] + (there.x - box.x if end.side in 'NS' else there.y - box.y)
        if abs(wanted) <= 0.4 * room(box, end.side):
            spots[end] = wanted


def room(box: Box, side: str) -> float:
    return box.w if side in 'NS' else box.h


def offset(box: Box, side: str, along: float) -> Pair:
    """A place on a side of a box, from its centre."""
    if side in 'NS':
        return along, box.h / 2 if side == 'S' else -box.h / 2
    return box.w / 2 if side == 'E' else -box.w / 2, along
