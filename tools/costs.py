"""Costs, for pins.py: of drawn lines, alone and together; of places of pins on a side; and what a line costs at least.

All costs are in units of the diagram. The scene, its edges, ends and boxes are those of pins.py; places are whole thousandths.
"""
import itertools

# What a picture costs, besides the lengths of its lines.
BEND, CROSSING, TOUCH, OVERLAP, CLOSE, SHORT, UNROUTED = 84, 47, 30, 300, 37, 25, 10000
# Runs nearer than NEAR are close, end runs under HEAD are short for an arrow head, and pins keep PAD from corners.
NEAR, HEAD, PAD = 3, 9, 4
OPPOSITE = dict(zip('NESW', 'SWNE'))


# ---- what a picture costs ----

def seen_from_side(point, following, box):
    """Where a line that ends at the point leaves the box; an end may be at the centre."""
    (x, y), (u, v) = point, following
    if x == u:
        return x, min(max(box.y + box.depth('S' if v > y else 'N'), min(y, v)), max(y, v))
    return min(max(box.x + box.depth('E' if u > x else 'W'), min(x, u)), max(x, u)), y


class Drawn:
    """One line as it is seen: its runs (way, place across, low, high), where way 0 is vertical."""

    def __init__(self, line, edge, unit):
        self.corners = corners = []
        for x, y in line:
            if corners and (x, y) == corners[-1]:
                continue
            if len(corners) > 1 and (corners[-2][0] == corners[-1][0] == x or corners[-2][1] == corners[-1][1] == y):
                corners.pop()
            corners.append((x, y))
        seen = list(corners) if len(corners) > 1 else [line[0], line[-1]]
        seen[0] = seen_from_side(seen[0], seen[1], edge.boxes[0])
        seen[-1] = seen_from_side(seen[-1], seen[-2], edge.boxes[1])
        self.runs, length = [], 0
        for (x, y), (u, v) in zip(seen, seen[1:]):
            length += abs(x - u) + abs(y - v)
            self.runs.append((0, x, min(y, v), max(y, v)) if x == u else (1, y, min(x, u), max(x, u)))
        self.bends = len(seen) - 2
        short = sum(run[3] - run[2] < HEAD * unit for run in (self.runs[0], self.runs[-1])) if self.bends else 0
        self.cost = length / unit + BEND * self.bends + SHORT * short
        xs, ys = zip(*seen)
        self.frame = min(xs), min(ys), max(xs), max(ys)
        self.known = {}                             # what it costs together with some other lines

    def side_and_order(self, end):
        """The side by which the line leaves one of its ends, and its order among those that leave there: by its turn, then how far
        that is."""
        corners = self.corners[::-1] if end.k else self.corners
        (x, y), (u, v) = corners[:2]
        side = ('E' if u > x else 'W') if abs(u - x) > abs(v - y) else ('S' if v > y else 'N')
        way, far = 0 if side in 'NS' else 1, abs(u - x) + abs(v - y)
        turn = corners[2][way] - corners[1][way] if len(corners) > 2 else 0
        return side, ((turn > 0) - (turn < 0), far if turn < 0 else -far if turn > 0 else 0, corners[-1][way], end.tie())

    def cost_with(self, other, unit):
        cost = self.known.get(other, other.known.get(self))
        if cost is None:
            cost = self.known[other] = together(self, other, unit)
        return cost


def together(one, two, unit):
    """What two lines cost for how they stand to each other."""
    total = 0
    for way, at, low, high in one.runs:
        for other_way, across, start, end in two.runs:
            if way != other_way:
                if low < across < high and start < at < end:
                    total += CROSSING
            elif abs(at - across) < NEAR * unit and min(high, end) - max(low, start) > unit:
                total += OVERLAP if abs(at - across) < unit else CLOSE
            elif at == across and (low == end or high == start):
                total += TOUCH                      # (two corners or ends that touch look like one line)
    return total


class Picture:
    """All lines by the places of their edges; None where there is no legal route."""

    def __init__(self, scene, lines):
        self.edges, self.unit = {edge.place: edge for edge in scene.edges if not edge.is_loop}, scene.unit
        self.drawn = dict.fromkeys(self.edges)
        self.drawn.update(self.drawn_from(lines))

    def drawn_from(self, lines):
        return {place: line and Drawn(line, self.edges[place], self.unit) for place, line in lines.items()}

    def cost(self, places, drawn):
        """What some lines cost alone, and with each other and all others."""
        near, total = NEAR * self.unit, 0
        for place in places:
            line = drawn[place]
            if line is None:
                total += UNROUTED
                continue
            left, top, right, bottom = line.frame
            left, top, right, bottom = left - near, top - near, right + near, bottom + near
            total += line.cost
            for number, other in drawn.items():
                # (a pair of two of the places is counted once)
                if other and number != place and (number > place or number not in places):
                    frame = other.frame
                    if frame[0] < right and left < frame[2] and frame[1] < bottom and top < frame[3]:
                        total += line.cost_with(other, self.unit)
        return total

    def total(self):
        return self.cost(self.edges, self.drawn)

    def of_edge(self, place):
        return self.cost([place], self.drawn)

    def of_edges(self):
        return {place: self.of_edge(place) for place in self.edges}

    def more_with(self, lines):
        """What the picture costs more with these lines."""
        return self.cost(lines, {**self.drawn, **self.drawn_from(lines)}) - self.cost(lines, self.drawn)


# ---- what the places on a side cost ----

def untidy(row, box):
    """What the places on one side cost by their looks: far from even ones, near a corner, near each other."""
    total, last, unit = 0.0, None, box.unit
    for i, end in enumerate(row, 1):
        room = box.room(end.side)
        uneven = 1.1 * abs(end.t - room * i // (len(row) + 1) + room // 2) / unit
        total += min(uneven, 16 if end.is_straight() else 40)
        if room > 24 * unit:
            total += max(0.0, 8 - (room / 2 - abs(end.t)) / unit) * 1.5
        if last is not None:
            total += max(0.0, 8 - (end.t - last) / unit) * 3
        last = end.t
    return total


def looks(edge):
    """What all places on the two boxes of an edge cost by their looks."""
    return sum(untidy(box.row(side), box) for box in edge.boxes for side in OPPOSITE)


def fitted(wants, low, high, gap):
    """Places as near to the wanted ones (place, weight) as their order, the gap and the limits allow, by least squares."""
    blocks = []
    for i, (want, weight) in enumerate(wants):
        blocks.append([(want - i * gap) * weight, weight, 1])
        while len(blocks) > 1 and blocks[-2][0] * blocks[-1][1] >= blocks[-1][0] * blocks[-2][1]:
            part, weight, count = blocks.pop()
            blocks[-1] = [blocks[-1][0] + part, blocks[-1][1] + weight, blocks[-1][2] + count]
    flat = [part / weight for part, weight, count in blocks for _ in range(count)]
    return [round(min(max(value, low), high - (len(wants) - 1) * gap)) + i * gap for i, value in enumerate(flat)]


# ---- what a line costs at least ----

class Estimates:
    """What the line of an edge costs at least with some sides, if only other boxes are in its way."""

    def __init__(self, scene, buffer):
        self.scene, self.buffer, self.known, self.near = scene, buffer, {}, {}
        self.walls = [(box, *self.wall(box)) for box in scene.solids]

    def wall(self, box):
        """The left, right, top and bottom of a box with the buffer round it."""
        w, h = box.w // 2 + self.buffer, box.h // 2 + self.buffer
        return box.x - w, box.x + w, box.y - h, box.y + h

    def between(self, boxes):
        """The walls of other boxes that meet the rectangle round two boxes, in which simple lines run."""
        if boxes not in self.near:
            lefts, rights, tops, bottoms = zip(*map(self.wall, boxes))
            x, u, y, v = min(lefts), max(rights), min(tops), max(bottoms)
            self.near[boxes] = [(left, right, top, bottom) for box, left, right, top, bottom in self.walls
                                if left < u and x < right and top < v and y < bottom and box not in boxes]
        return self.near[boxes]

    def is_clear(self, line, boxes):
        walls = self.between(boxes)
        for (x, y), (u, v) in zip(line, line[1:]):
            if x > u:
                x, u = u, x
            if y > v:
                y, v = v, y
            for left, right, top, bottom in walls:
                if left < u and x < right and top < v and y < bottom:
                    return False
        return True

    def port(self, box, side, t):
        """The point outside of a place on a side where a line leaves the buffer."""
        out = box.depth(side) + (self.buffer if side in 'SE' else -self.buffer)
        return (box.x + t, box.y + out) if side in 'NS' else (box.x + out, box.y + t)

    def is_straight_clear(self, edge, at):
        """Whether nothing is in the way of a straight line at this place between the sides of two ends that face each other."""
        line = [self.port(end.box, end.side, at - end.box.middle(end.side)) for end in edge.ends]
        return self.is_clear(line, edge.boxes)

    def simple_lines(self, boxes, sides):
        """Lines of two or three runs between two sides that allow it: round a corner, or in three channels between the sides."""
        turned, sign = (1 if sides[0] in 'NS' else -1), (1 if sides[0] in 'SE' else -1)
        places = []
        for box, other, side in zip(boxes, boxes[::-1], sides):
            low, high, _ = box.limits(side)
            places.append(sorted({low, 0, high, min(max(other.middle(side) - box.middle(side), low), high)}))
        for p, q in itertools.product(*places):
            # (x, y and u, v as if the first side were the upper or the lower one)
            (x, y), (u, v) = (self.port(box, side, t)[::turned] for box, side, t in zip(boxes, sides, (p, q)))
            if OPPOSITE[sides[0]] == sides[1]:
                lines = [[(x, y), (x, at), (u, at), (u, v)] for at in (y + (v - y) * part // 4 for part in (1, 2, 3))]
            else:
                is_ahead = (v - y) * sign >= 0 and (x - u) * (1 if sides[1] in 'SE' else -1) >= 0
                lines = [[(x, y), (x, v), (u, v)]] if is_ahead else []
            yield from ([point[::turned] for point in line] for line in lines)

    def bends(self, boxes, sides):
        (one, two), (side, other) = boxes, sides
        if side == other:
            return 2
        if OPPOSITE[side] == other:
            ahead = two.y + two.depth(other) - one.y - one.depth(side) if side in 'NS' else \
                two.x + two.depth(other) - one.x - one.depth(side)
            if (ahead if side in 'SE' else -ahead) < 2 * self.buffer:
                return 4
            if abs(one.middle(side) - two.middle(side)) < (one.room(side) + two.room(side)) // 2 - 2 * PAD * self.scene.unit:
                return 0
            return 2 if any(self.is_clear(line, boxes) for line in self.simple_lines(boxes, sides)) else 4
        return 1 if any(self.is_clear(line, boxes) for line in self.simple_lines(boxes, sides)) else 3

    def of(self, edge, *sides):
        key = edge.place, sides
        if key not in self.known:
            self.known[key] = self.anew(edge.boxes, sides) if all(edge.ends) else 0
        return self.known[key]

    def anew(self, boxes, sides):
        (x, y), (u, v) = (self.port(box, side, 0) for box, side in zip(boxes, sides))
        slack = boxes[0].room(sides[0]) // 2 + (boxes[1].room(sides[1]) // 2 if sides[0] != sides[1] else 0)
        length = max(0, abs(x - u) + abs(y - v) - slack) + 2 * self.buffer
        return length / self.scene.unit + BEND * self.bends(boxes, sides)
