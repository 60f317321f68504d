"""Routes the diagrams of other tools, for reroute-dot and reroute-elk: boxes and edges in, the corners of lines out.

    diagram = adapter.Diagram()
    a, b = diagram.box(0, 0, 20, 20), diagram.box(100, 0, 20, 20)    # centre and size; y grows downwards
    diagram.edge(a, b, [adapter.Pin(10, 0, 'E')])                    # one end at one of these pins, the other is free
    routed = diagram.route()
    routed.lines                                                     # [[(x, y), ..] or None, ..], in the order of the edges

Free ends get their pins by `pins.py`. The rest are the shapes that both programs need: where a line meets the outline of a
box, and where beside a line its label stands.
"""
import collections
import math

import gml
import pins
import session

MOST_BOXES, MOST_EDGES, MOST_PINS = 256, 512, 256
FARTHEST = 1_000_000
TOLERANCE = 0.05
BUFFERS = (12, 8, 4, 2, 1)

Pin = collections.namedtuple('Pin', 'x y sides')        # its offset from the centre of its box, and letters of E, S, W, N
Box = collections.namedtuple('Box', 'x y w h is_group')
Edge = collections.namedtuple('Edge', 'ends pins')
Routed = collections.namedtuple('Routed', 'lines buffer without_pin')


class TooLarge(Exception):
    """The diagram has more boxes or edges than Reroute takes."""


def milli(value):
    return round(value * 1000)


class Diagram:
    """Boxes, which are numbered from 0, and edges between them."""

    def __init__(self):
        self.boxes, self.edges = [], []

    def copy(self):
        found = Diagram()
        found.boxes, found.edges = list(self.boxes), list(self.edges)
        return found

    def box(self, x, y, w, h, is_group=False):
        """Adds a box, by its centre and size. Lines may pass through a group."""
        if not all(math.isfinite(value) and abs(value) <= FARTHEST for value in (x, y, w, h)):
            raise gml.Fault(f'a box lies beyond {FARTHEST:,} units')
        half_w, half_h = milli(max(w, 0) / 2), milli(max(h, 0) / 2)
        self.boxes.append(Box(milli(x), milli(y), 2 * half_w, 2 * half_h, is_group))
        return len(self.boxes) - 1

    def edge(self, tail, head, tail_pins=(), head_pins=()):
        """Adds an edge. An end with pins leaves by the one by which its line is cheapest; one without is free."""
        self.edges.append(Edge((tail, head), (tuple(tail_pins), tuple(head_pins))))

    def spots(self, at, choices):
        """Pins as Reroute reads them, on the box."""
        half_w, half_h = self.boxes[at].w // 2, self.boxes[at].h // 2
        return tuple((max(-half_w, min(half_w, milli(pin.x))), max(-half_h, min(half_h, milli(pin.y))), pin.sides)
                     for pin in choices)

    def fixed_pins(self):
        """The pins of each class of each box, and the class of each end that is fixed.

        Where there are more pins than may be, ends have no choice, and then those that come last are free.
        """
        fixed = [(place, k, at, self.spots(at, choices)) for place, edge in enumerate(self.edges)
                 for k, (at, choices) in enumerate(zip(edge.ends, edge.pins)) if choices]
        most = None if sum(len(spots) for *_, spots in fixed) <= MOST_PINS else 1
        found, classes, left = collections.defaultdict(list), {}, MOST_PINS
        for place, k, at, spots in fixed:
            spots = spots[:most]
            if spots not in found[at]:
                if len(spots) > left:
                    continue
                found[at].append(spots)
                left -= len(spots)
            classes[place, k] = found[at].index(spots) + 1
        return found, classes

    def gml(self):
        """The diagram as Reroute reads it."""
        if len(self.boxes) > MOST_BOXES or len(self.edges) > MOST_EDGES:
            raise TooLarge(f'{len(self.boxes)} boxes and {len(self.edges)} edges; '
                           f'Reroute takes at most {MOST_BOXES} and {MOST_EDGES}')
        found, classes = self.fixed_pins()
        graph = []
        for at, box in enumerate(self.boxes):
            place = [(key, gml.units(value)) for key, value in zip('xywh', box)]
            node = [('id', at + 1), ('isGroup', 1)] if box.is_group else [('id', at + 1)]
            node.append(('graphics', place))
            node += [('pin', [('class', kind), ('x', gml.units(x)), ('y', gml.units(y)), ('dirs', f'"{sides}"')])
                     for kind, spots in enumerate(found[at], 1) for x, y, sides in spots]
            graph.append(('node', node))
        for place, edge in enumerate(self.edges):
            ends = [('source', edge.ends[0] + 1), ('target', edge.ends[1] + 1)]
            ends += [(key, classes[place, k]) for k, key in enumerate(('sourcePin', 'targetPin')) if (place, k) in classes]
            graph.append(('edge', ends))
        return gml.written([('graph', graph)]).encode('ascii')

    def shares_pins(self):
        """Whether several ends are fixed to one pin. Their lines part where the buffer ends."""
        found = [(at, spot) for edge in self.edges for at, choices in zip(edge.ends, edge.pins) for spot in self.spots(at, choices)]
        return len(set(found)) < len(found)

    def route(self, live=None, buffer=None, **options):
        """The lines of the edges, in units; further options are those of `pins.choose`.

        Without a buffer, the picture decides on it, but where pins are shared it is as large as fits: the picture would
        have the shortest common runs.
        """
        if not self.edges:
            return Routed([], None, 0)
        best, program = None, session.live_program(live)
        for wanted in BUFFERS if buffer is None and self.shares_pins() else [buffer]:
            choice = pins.choose(self.gml(), live=program, **({} if wanted is None else {'buffer': milli(wanted)}), **options)
            lines = [choice.lines.get(place) for place in range(1, len(self.edges) + 1)]
            lines = [line and [(x / 1000, y / 1000) for x, y in line] for line in lines]
            if best is None or lines.count(None) < best.lines.count(None):
                best = Routed(lines, choice.buffer / 1000, choice.bare)
            if None not in lines:
                break
        return best


# ---- lines ----

def are_near(a, b):
    return abs(a - b) < TOLERANCE


def plain(line):
    """The line without points that lie on the one before, or between their neighbours on one run."""
    kept = []
    for x, y in line:
        if kept and are_near(kept[-1][0], x) and are_near(kept[-1][1], y):
            continue
        if len(kept) > 1 and any(are_near(kept[-2][i], kept[-1][i]) and are_near(kept[-1][i], (x, y)[i]) for i in (0, 1)):
            kept.pop()
        kept.append((x, y))
    return kept


def meetings(start, end, polygon):
    """Where a run meets the sides of a polygon, as parts of its length."""
    (x, y), (u, v) = start, end
    for (a, b), (c, d) in zip(polygon, polygon[1:] + polygon[:1]):
        across = (u - x) * (d - b) - (v - y) * (c - a)
        if across:
            part = ((a - x) * (d - b) - (b - y) * (c - a)) / across
            along = ((a - x) * (v - y) - (b - y) * (u - x)) / across
            if -1e-9 <= part <= 1 + 1e-9 and -1e-9 <= along <= 1 + 1e-9:
                yield part


def clipped(line, polygon):
    """The line from where it last leaves the polygon; None where it does not meet it."""
    for i in range(len(line) - 2, -1, -1):
        (x, y), (u, v) = line[i:i + 2]
        part = max(meetings(line[i], line[i + 1], polygon), default=None)
        if part is not None:
            return [(x + part * (u - x), y + part * (v - y)), *line[i + 1:]]
    return None


def rectangle(x, y, w, h):
    """The corners of a box, by its centre and size."""
    return [(x - w / 2, y - h / 2), (x + w / 2, y - h / 2), (x + w / 2, y + h / 2), (x - w / 2, y + h / 2)]


# ---- labels ----

class Labels:
    """Places labels beside lines, each where it covers least of the boxes, lines and labels that are there."""

    def __init__(self, boxes, lines):
        """Boxes by their centre and size."""
        self.taken = [(10, (x - w / 2, y - h / 2, x + w / 2, y + h / 2)) for x, y, w, h in boxes]
        self.taken += [(3, (min(x, u), min(y, v), max(x, u), max(y, v)))
                       for line in lines for (x, y), (u, v) in zip(line, line[1:])]

    def cost(self, x, y, w, h):
        left, low, right, high = x - w / 2, y - h / 2, x + w / 2, y + h / 2
        return sum(cost for cost, (a, b, c, d) in self.taken if left <= c and right >= a and low <= d and high >= b)

    def spots(self, line, w, h):
        """Places beside the runs of the line, the longest run first."""
        for (x, y), (u, v) in sorted(zip(line, line[1:]), key=lambda run: -math.dist(*run)):
            for part in (0.5, 0.4, 0.6, 0.3, 0.7, 0.2, 0.8, 0.1, 0.9):
                yield from self.beside(x + (u - x) * part, y + (v - y) * part, abs(y - v) < abs(x - u), w, h)

    def end_spots(self, run, w, h):
        """Places beside a run, the nearest to where it begins first."""
        (x, y), (u, v) = run
        length, room = math.dist(*run), (h if are_near(x, u) else w) / 2 + 2
        for far in (room, room + 8, room + 16, room + 32):
            part = min(far, length) / length
            yield from self.beside(x + (u - x) * part, y + (v - y) * part, are_near(y, v), w, h)

    def beside(self, x, y, is_flat, w, h):
        """The places of a label on both sides of a run."""
        if is_flat:
            return (x, y + h / 2 + 2), (x, y - h / 2 - 2)
        return (x + w / 2 + 4, y), (x - w / 2 - 4, y)

    def place(self, line, w, h):
        """The centre of the label of a line."""
        return self.best(self.spots(line, w, h), w, h)

    def place_at_end(self, run, w, h):
        """The centre of a label where a run begins."""
        return self.best(self.end_spots(run, w, h), w, h)

    def best(self, spots, w, h):
        """The first of the places that cover least, which is taken from now on."""
        found = None
        for spot in spots:
            cost = self.cost(*spot, w, h)
            if found is None or cost < found[0]:
                found = cost, spot
            if not cost:
                break
        x, y = found[1]
        self.taken.append((20, (x - w / 2, y - h / 2, x + w / 2, y + h / 2)))
        return x, y
