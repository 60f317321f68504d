"""Chooses pins for the ends of the edges of a diagram, so that its lines have few bends and crossings.

    choice = pins.choose(data)                            # data: the bytes of a diagram in GML; runs reroute_live
    choice = pins.plain(data)                             # on the sides that face; starts no program
    '\\n'.join(choice.script())                            # what `reroute route` takes

Lengths are whole thousandths. `choose` keeps a buffer, nudge and penalty that the diagram sets, unless it is given others.
Both raise `gml.Fault` for a diagram that is none, or a program that does not run. The same input gives the same choice.

`choose` asks a running reroute_live for the lines and judges the whole picture (`Picture`). It tries places and sides by
previews: of many edges at once for each of some ways to give sides, and then edge by edge for the best of these.
"""
import collections
import itertools

import gml
import session as sessions
from costs import NEAR, OPPOSITE, PAD, Estimates, Picture, fitted, looks, untidy

TRIES, EFFORT, SIDES_TRIED = 1200, 15_000_000, 5    # (the effort is tries by the square of the number of edges)
MOST_PINS, SIDES = 255, 'NESW'      # (one pin less than a diagram has, since an end that moves has two for a moment)
# Lengths in units; a pin is at most REACH from the place that is nearest to its other end.
BUFFERS, NUDGE, PENALTY = (12, 10, 8, 6, 4, 2, 1), 8, 50
GAP, REACH, USUAL_SIDE = 8, 30, 36


class Choice:
    """What was chosen.

    settings  {'buffer': .., 'nudge': ..}: what the script sets; what the diagram had set and keeps is not in it
    buffer    the buffer that holds afterwards
    pins      [(id of node, class, x, y, side)], in the order in which they follow the pins that the node has already
    classes   {place of edge from 1: (class at its source, class at its target)}, of edges that change
    bare      how many ends have no pin, since a diagram has at most 256
    lines     {place of edge: [(x, y), ..]}, as reroute_live drew them; None for an edge without a legal route; {} by `plain`
    """

    def __init__(self, settings, buffer, scene, lines):
        self.settings, self.buffer, self.bare, self.lines = settings, buffer, len(scene.bare), lines
        self.pins, self.classes = [], {}
        for end in sorted(set(scene.ends) - scene.bare, key=lambda end: (end.box.place, end.kind)):
            self.pins.append((end.box.id, end.kind, *end.point(), end.side))
            self.classes.setdefault(end.edge.place, list(end.edge.classes))[end.k] = end.kind

    def script(self):
        """The lines of a script that does it, from begin to commit."""
        rows = [f'set {name} {gml.short_units(value)}' for name, value in self.settings.items()]
        rows += [f'pin {node} {kind} {gml.units(x)} {gml.units(y)} {side}' for node, kind, x, y, side in self.pins]
        rows += [f'classes {place} {source} {target}' for place, (source, target) in sorted(self.classes.items())]
        return ['begin', *rows, 'commit']


# ---- boxes and ends ----

class Box:
    def __init__(self, node, unit):
        self.place, self.id, self.is_group, self.unit = node.place, node.id, node.is_group, unit
        self.x, self.y, self.w, self.h = node.x, node.y, node.w, node.h
        self.kinds = [pin.kind for pin in node.pins]  # the classes of its pins as the program has them, in their order
        self.ends, self.classes = [], set(self.kinds)

    def new_class(self):
        kind = next(kind for kind in itertools.count(1) if kind not in self.classes)
        self.classes.add(kind)
        return kind

    def room(self, side):
        return self.w if side in 'NS' else self.h

    def middle(self, side):
        return self.x if side in 'NS' else self.y

    def depth(self, side):
        """How far its side is from its centre, to the east or south."""
        return {'N': -(self.h // 2), 'S': self.h // 2, 'W': -(self.w // 2), 'E': self.w // 2}[side]

    def limits(self, side, count=1):
        """The first and the last place for so many ends on a side, from its middle, and the gap between them."""
        room = self.room(side)
        pad = min(PAD * self.unit, room // (count + 1))
        low, high = -(room // 2) + pad, room // 2 - pad
        return low, high, min(GAP * self.unit, (high - low) // (count - 1)) if count > 1 else 0

    def row(self, side):
        """The ends on a side, in their order."""
        return sorted((end for end in self.ends if end.side == side), key=lambda end: (end.t, end.edge.place))


class End:
    """One end of an edge that came without a class: on a side of its box, at t from the middle of the side."""

    def __init__(self, edge, k, kind):
        self.edge, self.k, self.kind, self.box, self.far = edge, k, kind, edge.boxes[k], edge.boxes[1 - k]
        self.side, self.t, self.order, self.other, self.told = 'E', 0, (), None, None

    def at(self):
        return self.box.middle(self.side) + self.t

    def span(self):
        low, high, _ = self.box.limits(self.side)
        return low + self.box.middle(self.side), high + self.box.middle(self.side)

    def point(self):
        across = self.box.depth(self.side)
        return (self.t, across) if self.side in 'NS' else (across, self.t)

    def pin(self):
        x, y = self.point()
        return f'pin {self.box.id} {self.kind} {gml.units(x)} {gml.units(y)} {self.side}'

    def faces(self):
        """Whether its side and that of the other end look at each other."""
        if self.other is None or OPPOSITE[self.other.side] != self.side:
            return False
        away = self.far.y - self.box.y if self.side in 'NS' else self.far.x - self.box.x
        return (away if self.side in 'SE' else -away) > 0

    def is_straight(self):
        """Whether a straight line could join the two ends."""
        return self.faces() and self.other.at() == self.at()

    def towards(self):
        """The place on its side, from the middle, that is nearest to the other end or the other box."""
        low, high, _ = self.box.limits(self.side)
        is_along = self.other and (self.other.side in 'NS') == (self.side in 'NS')
        there = self.other.at() if is_along else self.far.middle(self.side)
        return min(max(there - self.box.middle(self.side), low), high)

    def tie(self):
        """Parallel edges go clockwise round the one box and the other way round the other, so that they do not cross."""
        return self.edge.place if (self.box.place < self.far.place) == (self.side in 'NE') else -self.edge.place


class Edge:
    def __init__(self, edge, boxes):
        self.place, self.classes, self.is_loop = edge.place, edge.classes, edge.source == edge.target
        self.boxes, self.ends = (boxes[edge.source], boxes[edge.target]), [None, None]

    def common_span(self):
        """The first and the last place that both of its ends can have; none where the first is greater."""
        lows, highs = zip(*(end.span() for end in self.ends))
        return max(lows), min(highs)


class Scene:
    """The boxes and edges of a diagram, its ends without a class, and its scale: one unit in thousandths."""

    def __init__(self, diagram):
        sizes = sorted(min(node.w, node.h) for node in diagram.nodes if not node.is_group)
        self.unit = max(1, min(1000, sizes[len(sizes) // 2] // USUAL_SIDE)) if sizes else 1000
        boxes = {node.id: Box(node, self.unit) for node in diagram.nodes}
        self.edges = [Edge(edge, boxes) for edge in diagram.edges]
        self.solids = [box for box in boxes.values() if not box.is_group]
        self.kept, self.ends = sum(len(box.kinds) for box in boxes.values()), []
        for edge in self.edges:
            for k in (0, 1):
                if not edge.is_loop and not edge.classes[k]:
                    edge.ends[k] = End(edge, k, edge.boxes[k].new_class())
                    self.ends.append(edge.ends[k])
                    edge.boxes[k].ends.append(edge.ends[k])
            if all(edge.ends):
                edge.ends[0].other, edge.ends[1].other = edge.ends[::-1]
        self.bare = set(self.ends)                  # ends that have no pin

    def rows(self):
        """The ends on each side of each box."""
        found = collections.defaultdict(list)
        for end in self.ends:
            found[end.box, end.side].append(end)
        return found

    def face(self):
        for end in self.ends:
            end.side = facing_side(end.box, end.far)

    def choose_bare(self):
        """Where there are more ends than pins: those alone on their side have none, then those of the emptiest sides."""
        over, self.bare = len(self.ends) + self.kept - MOST_PINS, set()
        for row in sorted(self.rows().values(), key=lambda row: (len(row), sum(abs(end.t) for end in row))):
            if len(self.bare) < over:
                self.bare.update(row)


# ---- places on a side ----

class Places:
    """Gives ends their places on the sides that they have."""

    def __init__(self, scene):
        self.scene, self.unit = scene, scene.unit

    def evenly(self, row):
        """The wanted places of the ends of a side: even, but on a long one not far from those nearest to the other ends."""
        room, reach, found = row[0].box.room(row[0].side), REACH * self.unit, []
        for i, end in enumerate(row, 1):
            even, near = room * i // (len(row) + 1) - room // 2, end.towards()
            found.append(min(max(even, near - reach), near + reach))
        return found

    def facing_pairs(self, wants, estimates):
        """The pairs of ends that could have one place, in the coordinate of the sheet, those first that differ least."""
        found = []
        for edge in self.scene.edges:
            if all(edge.ends) and edge.ends[0].faces():
                (low, high), wanted = edge.common_span(), [wants[end] for end in edge.ends]
                spots = [min(max(spot, low), high) for spot in (sum(wanted) // 2, *wanted, low, high)] if low <= high else []
                spot = next((spot for spot in spots if estimates.is_straight_clear(edge, spot)), None)
                if spot is not None:
                    found.append((abs(wanted[0] - wanted[1]), edge.place, spot, edge))
        return [(spot, edge) for _, _, spot, edge in sorted(found, key=lambda pair: pair[:2])]

    def place_all(self, estimates):
        """Gives each end its place: opposite its other end where order, gap and boxes allow, else evenly."""
        rows, wants, held = self.scene.rows(), {}, set()
        for row in rows.values():
            row.sort(key=lambda end: end.order)
            wants.update(zip(row, (row[0].box.middle(row[0].side) + place for place in self.evenly(row))))
        for row in rows.values():
            self.fit(row, wants, held)
        for spot, edge in self.facing_pairs(wants, estimates):
            sides = [rows[end.box, end.side] for end in edge.ends]
            before = [(end, end.t) for row in sides for end in row]
            held.update(edge.ends)
            for end, row in zip(edge.ends, sides):
                end.t = spot - end.box.middle(end.side)
                self.fit(row, wants, held)
            if not all(end.is_straight() for end, _ in before if end in held):
                held.difference_update(edge.ends)
                for end, t in before:
                    end.t = t

    def fit(self, row, wants, held):
        """The places on one side that are nearest to the wanted ones; those that are held stay if they can."""
        limits, middle = row[0].box.limits(row[0].side, len(row)), row[0].box.middle(row[0].side)
        places = fitted([(end.t, 1e6) if end in held else (wants[end] - middle, 1) for end in row], *limits)
        for end, t in zip(row, places):
            end.t = t

    def refit(self, box, side, held=None, evenly=True):
        """The places of the ends of one side anew, in their order; those whose lines are straight stay if they can."""
        row = box.row(side)
        if row:
            wants = [box.middle(side) + place for place in self.evenly(row)] if evenly else [end.at() for end in row]
            self.fit(row, dict(zip(row, wants)), {end for end in row if end is held or end.is_straight()})


# ---- sides ----

def facing_side(box, other):
    """The side of a box that faces another one most."""
    dx, dy = other.x - box.x, other.y - box.y
    if abs(dy) * (box.w + other.w) >= abs(dx) * (box.h + other.h):
        return 'S' if dy >= 0 else 'N'
    return 'E' if dx > 0 else 'W'


def order_by_angle(end):
    """Where an end stands on its side by the direction from the middle of the side to its other end."""
    box, other, far = end.box, end.other, end.far
    x = far.x + (far.depth(other.side) if other and other.side in 'EW' else 0)
    y = far.y + (far.depth(other.side) if other and other.side in 'NS' else 0)
    along, out = (x - box.x, y - box.y) if end.side in 'NS' else (y - box.y, x - box.x)
    out = (out - box.depth(end.side)) * (1 if end.side in 'SE' else -1)
    if out > 0:
        return 0, along / out, along, end.tie()
    return 1 if along > 0 else -1, -along, 0, end.tie()


# ---- the search ----

class Search:
    """Changes sides and places as long as the picture of a session gets better."""

    def __init__(self, scene, session, tries, say):
        self.scene, self.session, self.say = scene, session, say
        self.tries = min(TRIES, EFFORT // max(1, len(scene.edges)) ** 2) if tries is None else tries
        self.picture, self.places = Picture(scene, session.ask(['lines'])[0]), Places(scene)
        self.used, self.failed = 0, {}

    def state(self, ends):
        return {end: (end.side, end.t) for end in ends}

    def restore(self, state):
        for end, place in state.items():
            end.side, end.t = place

    def edits(self):
        """The edits that bring the pins of the program to their present places, and the pins of boxes after them."""
        rows, kinds = [], {}
        for end in self.moved():
            mine = kinds.setdefault(end.box, list(end.box.kinds))
            rows += [end.pin(), f'unpin {end.box.id} {mine.index(end.kind) + 1}']
            mine.append(end.kind)
            mine.remove(end.kind)
        return rows, kinds

    def moved(self):
        return [end for end in self.scene.ends if end not in self.scene.bare and end.told != (end.side, end.t)]

    def commit(self, *first):
        rows, kinds = self.edits()
        found, refusal = self.session.ask(['begin', *first, *rows, 'commit'])
        if refusal:
            raise gml.Fault(f'reroute_live: {refusal}')
        for end in self.moved():
            end.told = end.side, end.t
        for box, mine in kinds.items():
            box.kinds = mine
        self.picture.drawn.update(self.picture.drawn_from(found))

    def give_pins(self):
        """Gives pins to all ends but those that remain bare."""
        self.scene.choose_bare()
        rows = []
        for edge in self.scene.edges:
            ends = [end for end in edge.ends if end and end not in self.scene.bare]
            for end in ends:
                rows.append(end.pin())
                end.box.kinds.append(end.kind)
                end.told = end.side, end.t
            classes = [end.kind if end in ends else edge.classes[k] for k, end in enumerate(edge.ends)]
            rows += [f'classes {edge.place} {classes[0]} {classes[1]}'] if ends else []
        self.commit(*rows)

    def set_buffer(self, buffer):
        self.buffer, self.estimates = buffer, Estimates(self.scene, buffer)
        self.commit(f'set buffer {gml.units(buffer)}')

    def by_lines(self, gives_sides=True):
        """Gives ends the sides by which their lines leave, or only the order of those that leave by the side they have."""
        for end in self.scene.ends:
            drawn = self.picture.drawn[end.edge.place]
            if drawn and len(drawn.corners) > 1:
                side, order = drawn.side_and_order(end)
                if gives_sides or side == end.side:
                    end.side, end.order = side, order

    def by_least(self):
        """Gives ends the sides between which the line costs least, if only boxes are in its way."""
        for edge in self.scene.edges:
            choices = itertools.product(SIDES, SIDES)
            sides = min(choices, key=lambda sides: (self.estimates.of(edge, *sides), OPPOSITE[sides[0]] != sides[1]))
            for end in filter(None, edge.ends):
                end.side = sides[end.k] if end.other else facing_side(end.box, end.far)

    def by_better(self, starts):
        """Gives the ends of each edge the sides that they have where it costs least."""
        found = {place: min(starts, key=lambda start: start[2][place])[1] for place in self.picture.edges}
        for end in self.scene.ends:
            end.side, _ = found[end.edge.place][end]

    def start(self):
        """Commits the best of some starts, each bettered: sides by lines without pins, by boxes, and by the best for each edge."""
        starts = []                                 # (what the picture costs, the state, what each edge costs)
        for give_sides in (self.by_lines, self.scene.face, self.by_least, lambda: self.by_better(starts)):
            give_sides()
            for end in self.scene.ends if starts else ():
                end.order = order_by_angle(end)
            self.places.place_all(self.estimates)
            self.commit() if starts else self.give_pins()
            self.reorder()
            self.improve_groups()
            starts.insert(0, (self.picture.total(), self.state(self.scene.ends), self.picture.of_edges()))
        self.restore(min(starts[1:] + starts[:1], key=lambda start: start[0])[1])
        self.commit()

    def reorder(self):
        """Orders the ends by their lines while that is better."""
        total = self.picture.total()
        for _ in range(3):
            now = self.state(self.scene.ends)
            self.by_lines(gives_sides=False)
            self.places.place_all(self.estimates)
            self.commit()
            if self.picture.total() >= total:
                self.restore(now)
                self.commit()
                break
            total = self.picture.total()

    def settle(self, buffers):
        """Takes the buffer with the best picture; a larger one is worth a little, for arrow heads need it."""
        def worth(buffer):
            self.set_buffer(buffer)
            units = buffer / self.scene.unit
            return self.picture.total() - (0.25 * units - 5 * max(0, 4 - units)) * len(self.picture.edges)
        self.set_buffer(min(buffers, key=worth) if len(buffers) > 1 else buffers[0])

    # (moves; each puts ends elsewhere and yields, and finds them where they were when it goes on)

    def plans(self, edge, moves):
        """The sides and places that each of the moves gives the ends at the boxes of an edge."""
        ends = [end for box in edge.boxes for end in box.ends]
        found = [self.state(ends)]
        for _ in moves:
            plan = self.state(ends)
            if plan not in found:
                found.append(plan)
            self.restore(found[0])
        return found[1:]                            # (the first is the present one)

    def previewed(self, plans):
        """Puts ends where some plans have them; the lines that would change."""
        for plan in plans:
            self.restore(plan)
        self.used += 1
        if self.say and self.used % 100 == 0:
            self.say(f'tried {self.used} places of pins, of at most {self.tries}')
        return self.session.ask(['begin', *self.edits()[0], 'preview', 'abort'])[0]

    def best_of(self, edges, moves):
        """Tries moves of edges that share no box, one of each edge at a time, and commits the best of each if the picture gains by
        them; how much that is. An edge alone is judged by the whole picture, else each by what it costs itself."""
        now, trials = self.state(self.scene.ends), [self.plans(edge, moves(edge)) for edge in edges]
        costs, looked = [self.picture.of_edge(edge.place) for edge in edges], [looks(edge) for edge in edges]
        best = [(0.0, {}) for _ in edges]
        for plans in itertools.zip_longest(*trials, fillvalue={}):
            if self.used < self.tries:
                lines = self.previewed(plans)
                drawn = {**self.picture.drawn, **self.picture.drawn_from(lines)}
                for i, (edge, plan) in enumerate(zip(edges, plans)):
                    if plan:
                        more = self.picture.cost([edge.place], drawn) - costs[i] if edges[1:] else self.picture.more_with(lines)
                        best[i] = min(best[i], (more + looks(edge) - looked[i], plan), key=lambda pair: pair[0])
                self.restore(now)
        more = 0.0
        if any(plan for _, plan in best):
            more = self.picture.more_with(self.previewed(plan for _, plan in best)) + sum(map(looks, edges)) - sum(looked)
        if more < -1:
            self.commit()
            return -more
        self.restore(now)
        return 0.0

    def groups(self):
        """The edges that may gain something in groups of which no two share a box, without those that are alone."""
        groups = []
        for edge in self.by_gain():
            boxes, group = next((pair for pair in groups if pair[0].isdisjoint(edge.boxes)), (set(), []))
            if not group:
                groups.append((boxes, group))
            boxes.update(edge.boxes)
            group.append(edge)
        return [group for _, group in groups if group[1:]]

    def gaps(self, ends, low, high, most):
        """The middles of the widest gaps between low and high that other ends leave on the sides of these ends."""
        taken = sorted({other.at() for end in ends for other in end.box.row(end.side) if other not in ends})
        found, half = [], GAP * self.scene.unit // 2
        for left, right in zip([low - half, *taken], [*taken, high + half]):
            start, end = max(low, left + half), min(high, right - half)
            if start <= end:
                found.append((end - start, start, end))
        return [(start + end) // 2 for _, start, end in sorted(found, reverse=True)[:most]]

    def aligned(self, edge, most):
        """Two ends that face each other as they stand, and at one place: in gaps, or with the others moved aside."""
        here, (low, high) = self.state(end for box in edge.boxes for end in box.ends), edge.common_span()
        yield
        if low > high:
            return
        self.restore(here)
        spots = [end.at() for end in edge.ends if low <= end.at() <= high][:1] + self.gaps(edge.ends, low, high, most)
        for spot in [*dict.fromkeys(spots), None]:
            self.restore(here)
            for end in edge.ends:
                end.t = ((low + high) // 2 if spot is None else spot) - end.box.middle(end.side)
            for end in edge.ends if spot is None else ():
                self.places.refit(end.box, end.side, end)
            yield

    def moves(self, edge):
        """Other places of the ends on their sides, and other sides."""
        if all(edge.ends) and edge.ends[0].faces() and not edge.ends[0].is_straight():
            yield from self.aligned(edge, 4)
        for end in filter(None, edge.ends):
            (low, high), middle = end.span(), end.box.middle(end.side)
            taken = [other.at() for other in end.box.row(end.side) if other is not end]
            for spot in dict.fromkeys([*self.gaps((end,), low, high, 3), low, high, end.towards() + middle]):
                if all(abs(spot - at) >= NEAR * self.scene.unit for at in taken):
                    end.t = spot - middle
                    yield
        yield from self.sides_tried(edge)

    def put_on(self, end, side, by_angle):
        """Puts an end on another side, by its angle among those that are there, or as near to the other box as can be."""
        row = end.box.row(side)
        end.side = side
        before = sum(order_by_angle(other) < order_by_angle(end) for other in row)
        end.t = 0 if not row else row[before].t - 1 if before < len(row) else row[-1].t + 1
        if not by_angle:
            end.t = end.towards()

    def sides_tried(self, edge):
        """The other sides of the ends that may cost least."""
        present, cost = tuple(end.side if end else ' ' for end in edge.ends), self.picture.of_edge(edge.place)
        choices = itertools.product(*(SIDES if end else ' ' for end in edge.ends))
        choices = sorted((self.estimates.of(edge, *sides), sides) for sides in choices if sides != present)
        choices = [sides for least, sides in choices if least < cost - 10][:SIDES_TRIED]
        for sides in choices:
            moved = [(end, side) for end, side in zip(edge.ends, sides) if end and end.side != side]
            left = [(end.box, end.side) for end, _ in moved]
            for evenly in (False, True) if sides == choices[0] else (True,):
                for end, side in moved:
                    self.put_on(end, side, by_angle=evenly)
                for box, side in [*left, *((end.box, side) for end, side in moved)]:
                    self.places.refit(box, side, evenly=evenly)
                if all(edge.ends) and edge.ends[0].faces():
                    yield from self.aligned(edge, 3)
                    break
                yield

    def by_gain(self):
        """The edges that may gain something, those first that may gain most."""
        found = []
        for place, edge in self.picture.edges.items():
            if any(edge.ends):
                least = min(self.estimates.of(edge, *sides) for sides in itertools.product(SIDES, SIDES))
                found.append((least - self.picture.of_edge(place), place))
        return [self.picture.edges[place] for more, place in sorted(found) if more < -10]

    def improve_groups(self):
        for group in self.groups():
            self.best_of(group, self.moves)

    def improve(self):
        """One round over the edges whose cost or boxes are not as when their moves failed; what the picture gains."""
        gained = 0.0
        for edge in self.by_gain():
            surroundings = round(self.picture.of_edge(edge.place), 1), [(end.side, end.t) for box in edge.boxes for end in box.ends]
            if self.failed.get(edge) != surroundings and self.used < 7 * self.tries // 8:
                more = self.best_of([edge], self.moves)
                gained += more
                self.failed[edge] = None if more else surroundings
        return gained

    def tidy(self):
        """Evens sides, and moves straight lines off corners, where the picture does not suffer."""
        for box, side in self.scene.rows():
            row = box.row(side)
            if untidy(row, box) > 4:
                self.best_of([row[0].edge], lambda edge: (self.places.refit(box, side) for _ in range(1)))
        for edge in self.scene.edges:
            if all(edge.ends) and edge.ends[0].is_straight() and any(untidy([end], end.box) > 2 for end in edge.ends):
                self.best_of([edge], lambda edge: self.aligned(edge, 3))

    def go(self, buffers):
        self.set_buffer(buffers[len(buffers) // 2])
        self.start()
        self.improve_groups()
        for number in range(6):
            gained = self.improve()
            if number == 0:
                self.settle(buffers)
            elif gained < 0.001 * self.picture.total():
                break
        self.tidy()


# ---- what users call ----

def choose(data, live='reroute_live', buffer=None, nudge=None, tries=None, say=None):
    """The best choice that is found with about so many tries; `say` gets a line of text now and then on long runs."""
    diagram = gml.read(data)
    scene, router = Scene(diagram), gml.first_list(diagram.graph, 'router')
    is_kept, settings = buffer is None and gml.first(router, 'buffer'), {}
    if nudge is not None or not gml.first(router, 'nudge'):
        settings['nudge'] = NUDGE * scene.unit if nudge is None else nudge
    if scene.unit < 1000 and not gml.first(router, 'penalty'):
        settings['penalty'] = PENALTY * scene.unit
    with sessions.Session(live, data) as session:
        search = Search(scene, session, tries, say)
        search.commit(*(f'set {name} {gml.units(value)}' for name, value in settings.items()))
        search.go([buffer or diagram.buffer] if buffer or is_kept else [units * scene.unit for units in BUFFERS])
        lines = session.ask(['lines'])[0]
    settings = settings if is_kept else {'buffer': search.buffer, **settings}
    return Choice(settings, search.buffer, scene, {place: lines.get(place) for place in search.picture.edges})


def plain(data, buffer=None, nudge=None):
    """Pins on the sides that face the other boxes, evenly spread, in the order of the directions."""
    diagram = gml.read(data)
    scene = Scene(diagram)
    scene.face()
    for (box, side), row in scene.rows().items():
        for i, end in enumerate(sorted(row, key=order_by_angle), 1):
            end.t = box.room(side) * i // (len(row) + 1) - box.room(side) // 2
    scene.choose_bare()
    settings = {name: value for name, value in (('buffer', buffer), ('nudge', nudge)) if value is not None}
    return Choice(settings, buffer or diagram.buffer, scene, {})
