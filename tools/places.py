"""Where the things of a picture go: lines without a route, loops, labels, and the corners and bows of lines.

A rectangle is (left, top, right, bottom), a line a list of points; all in units of the diagram.
"""
import bisect
import collections
import math

import looks

CELLS = 48
MOST_WAYS = 24
# What a label pays for each thing that it covers, for a place beside its line, and for one off the middle of a run.
ON_BOX, ON_HEAD, ON_LINE, ON_OWN, BESIDE, OFF_MIDDLE, HIDES_RUN, LATER_RUN = 30.0, 14.0, 8.0, 5.0, 1.5, 1.0, 4.0, 0.4


class Field:
    """Rectangles, each with an owner, kept by the cells of a grid, to find those that a rectangle meets."""

    def __init__(self, frame):
        self.left, self.top = frame[:2]
        self.step = max(frame[2] - frame[0], frame[3] - frame[1], 1.0) / CELLS
        self.cells = collections.defaultdict(list)

    def cells_of(self, rectangle):
        left, top, right, bottom = rectangle
        columns = range(self.cell(left - self.left), self.cell(right - self.left) + 1)
        rows = range(self.cell(top - self.top), self.cell(bottom - self.top) + 1)
        return [(x, y) for x in columns for y in rows]

    def cell(self, distance):
        at = distance // self.step
        return -1 if at < 0 else CELLS if at > CELLS else int(at)

    def add(self, rectangle, owner):
        item = (rectangle, owner)
        for cell in self.cells_of(rectangle):
            self.cells[cell].append(item)

    def add_line(self, line, owner):
        for one, other in zip(line, line[1:]):
            self.add(around(one, other), owner)

    def meeting(self, rectangle):
        """The rectangles that this one meets, a common border being no meeting, with their owners."""
        left, top, right, bottom = rectangle
        found = {}
        for cell in self.cells_of(rectangle):
            for item in self.cells.get(cell, ()):
                (a, b, c, d), _ = item
                if a < right and c > left and b < bottom and d > top:
                    found[id(item)] = item
        return list(found.values())


def around(one, other, room=0.01):
    """The rectangle round two points, with some room, so that a straight line has an inside."""
    return (min(one[0], other[0]) - room, min(one[1], other[1]) - room,
            max(one[0], other[0]) + room, max(one[1], other[1]) + room)


def overlap(one, other):
    """The longer side of what two rectangles have in common; 0 where they do not meet."""
    w, h = min(one[2], other[2]) - max(one[0], other[0]), min(one[3], other[3]) - max(one[1], other[1])
    return max(w, h) if min(w, h) > 0 else 0.0


def length_of(line):
    return sum(map(math.dist, line, line[1:]))


def simplified(line):
    """The line without repeated points and without those in the middle of a straight part."""
    kept = []
    for spot in line:
        if kept and math.dist(kept[-1], spot) < 1e-6:
            continue
        if len(kept) > 1 and any(kept[-2][i] == kept[-1][i] == spot[i] for i in (0, 1)):
            before, corner = kept[-2:]
            if (corner[0] - before[0]) * (spot[0] - corner[0]) + (corner[1] - before[1]) * (spot[1] - corner[1]) >= 0:
                kept.pop()  # (a line that turns back keeps the point where it does)
        kept.append(spot)
    return kept


# ---- ends of lines at the outlines of their boxes ----

def way_out(box, end, towards):
    """Where the straight line from an end within the box to a point outside leaves the box."""
    parts = [1.0]
    for start, step, low, high in ((end[0], towards[0] - end[0], box.left, box.right),
                                   (end[1], towards[1] - end[1], box.top, box.bottom)):
        if step:
            parts.append(((high if step > 0 else low) - start) / step)
    part = max(0.0, min(parts))
    return end[0] + part * (towards[0] - end[0]), end[1] + part * (towards[1] - end[1])


def cut(line, box):
    """The line from where it last leaves the box, if it begins in it."""
    if not box.has(line[0]):
        return line
    for i in range(1, len(line)):
        if not box.has(line[i]):
            return [way_out(box, line[i - 1], line[i]), *line[i:]]
    return line


def met(line, box):
    """The line with its first run drawn on to the outline of its box."""
    if box.shape.corners is None or len(line) < 2 or line[0] == line[1]:
        return line
    (x, y), (u, v) = line[:2]
    return [looks.touched(box.shape.corners, box, (x, y), (x - u, y - v)), *line[1:]]


def fitted(line, source, target):
    """The line from the outline of its source to that of its target."""
    line = cut(cut(line, source)[::-1], target)
    return simplified(met(met(line, target)[::-1], source))


# ---- lines that have no route ----

def coordinates(start, end, edges_of_boxes):
    """Places for the middle run of a line: halfway, and beside boxes, the nearest first."""
    middle = (start + end) / 2
    near = sorted(set(edges_of_boxes), key=lambda at: (abs(at - middle), at))
    return [middle, *near[:MOST_WAYS]]


def lost_line(source, target, boxes, walls, lines, room):
    """A line of at most three runs between two boxes that have no route: in as few boxes, and as little of them, as can
    be; then over few lines; then short."""
    (x, y), (u, v) = (source.x, source.y), (target.x, target.y)
    beside_x = [at for box in boxes for at in (box.left - room, box.right + room)]
    beside_y = [at for box in boxes for at in (box.top - room, box.bottom + room)]
    ways = [[(x, y), (u, y), (u, v)], [(x, y), (x, v), (u, v)]]
    ways += [[(x, y), (at, y), (at, v), (u, v)] for at in coordinates(x, u, beside_x)]
    ways += [[(x, y), (x, at), (u, at), (u, v)] for at in coordinates(y, v, beside_y)]

    def price(way):
        way = simplified(way)
        inside, crossed = collections.Counter(), 0
        for one, other in zip(way, way[1:]):
            run = around(one, other)
            for wall, box in walls.meeting(run):
                if box is not source and box is not target:
                    inside[box.id] += overlap(run, wall)
            crossed += len(lines.meeting(run))
        return len(inside), sum(inside.values()), crossed, length_of(way) + 30 * room * len(way) / 4
    return simplified(min(ways, key=price))


# ---- loops ----

def loop_lines(box, size):
    """The ways of a loop: over each corner of its box, from a horizontal side to a vertical one."""
    in_x, in_y = min(size, box.w / 2), min(size, box.h / 2)
    for right in (1, -1):
        for lower in (-1, 1):
            x, y = (box.right if right > 0 else box.left), (box.bottom if lower > 0 else box.top)
            yield [(x - right * in_x, y), (x - right * in_x, y + lower * size), (x + right * size, y + lower * size),
                   (x + right * size, y - lower * in_y), (x, y - lower * in_y)]


def loop_line(box, size, walls, lines):
    """The way of a loop that meets least of boxes, lines and other loops; with what is there already it may be larger."""
    def price(way):
        found = 0.0
        for one, other in zip(way, way[1:]):
            run = around(one, other, size / 4)
            found += 3 * sum(1 for _, owner in walls.meeting(run) if owner is not box) + len(lines.meeting(run))
        return found
    ways = [way for step in (1, 1.6, 2.2) for way in loop_lines(box, size * step)]
    return min(ways, key=price)


# ---- labels ----

class Labels:
    """Places for labels of lines, one after the other; `boxes`, `heads` and `lines` are fields of what they may cover."""

    def __init__(self, frame, boxes, heads, lines):
        self.boxes, self.heads, self.lines = boxes, heads, lines
        self.labels, self.placed = Field(frame), {}

    def spots(self, line, w, h, gap):
        """Centres for a label of this size, each with what it costs by itself, on and beside the longest runs."""
        runs = sorted(zip(line, line[1:]), key=lambda ends: -math.dist(*ends))[:6]
        for order, ((x, y), (u, v)) in enumerate(runs):
            is_level = abs(u - x) >= abs(v - y)
            hides = (abs(u - x) if is_level else abs(v - y)) < (w if is_level else h) + 2 * gap
            for part in (0.5, 0.35, 0.65, 0.22, 0.78, 0.1, 0.9):
                spot = (x + (u - x) * part, y + (v - y) * part)
                price = LATER_RUN * order + OFF_MIDDLE * abs(part - 0.5)
                yield spot, price + HIDES_RUN * hides
                for way in (-1, 1):
                    beside = (0, way * (h / 2 + gap)) if is_level else (way * (w / 2 + gap), 0)
                    yield (spot[0] + beside[0], spot[1] + beside[1]), price + BESIDE + ON_OWN

    def price(self, rectangle, place):
        """What a label of the line of this place pays for what it covers."""
        found = sum(ON_BOX for _ in self.boxes.meeting(rectangle))
        found += sum(ON_HEAD for _ in self.heads.meeting(rectangle))
        found += sum(ON_OWN if owner == place else ON_LINE for _, owner in self.lines.meeting(rectangle))
        # (a label that was placed anew is still found where it stood before)
        return found + sum(ON_BOX for other, owner in self.labels.meeting(rectangle)
                           if owner != place and self.placed[owner] == other)

    def put(self, place, line, w, h, gap):
        """Chooses the place of a label, and keeps others off it; its centre."""
        best = None
        for spot, price in self.spots(line, w, h, gap):
            rectangle = (spot[0] - w / 2, spot[1] - h / 2, spot[0] + w / 2, spot[1] + h / 2)
            price += self.price(rectangle, place)
            if best is None or price < best[0] - 1e-9:
                best = (price, spot, rectangle)
        self.placed[place] = best[2]
        self.labels.add(best[2], place)
        return best[1]


# ---- the path of a line ----

def corner_cuts(line, radius, reserved):
    """How much of a line each of its corners rounds off; 0 at its ends, where some of the first and last run is reserved."""
    spans = [math.dist(one, other) for one, other in zip(line, line[1:])]
    room = [span / 2 for span in spans]
    room[0] = spans[0] - reserved[0] if len(spans) > 1 else 0.0
    room[-1] = spans[-1] - reserved[1] if len(spans) > 1 else 0.0
    return [0.0, *(max(0.0, min(radius, one, other)) for one, other in zip(room, room[1:])), 0.0]


def crossings(level, uprights, place):
    """Where along a horizontal run upright runs of other lines cross it; `uprights` are (x, top, bottom, place), sorted."""
    (x, y), (u, _) = level
    low, high = min(x, u), max(x, u)
    found = []
    for at, top, bottom, other in uprights[bisect.bisect_right(uprights, (low, math.inf)):]:
        if at >= high:
            break
        if other != place and top < y < bottom:
            found.append(at)
    return found


def count_crossings(lines):
    """How often lines cross: the places inside a horizontal run of one and an upright run of another."""
    runs = [(one, other, place) for place, line in enumerate(lines) for one, other in zip(line, line[1:])]
    uprights = sorted((x, min(y, v), max(y, v), place) for (x, y), (u, v), place in runs if x == u)
    return sum(len(crossings((one, other), uprights, place)) for one, other, place in runs if one[1] == other[1])


def bows_of(level, uprights, place, radius, cuts):
    """Where a horizontal run bows over others: (from, to) in its direction, neighbours under one bow."""
    (x, _), (u, _) = level
    way = 1 if u > x else -1
    start, end = x + way * cuts[0], u - way * cuts[1]
    spots = sorted({at for at in crossings(level, uprights, place)
                    if (at - start) * way > radius and (end - at) * way > radius}, reverse=way < 0)
    groups = []
    for at in spots:
        if groups and abs(at - groups[-1][1]) <= 2 * radius + 1:
            groups[-1][1] = at
        else:
            groups.append([at, at])
    return groups
