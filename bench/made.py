#!/usr/bin/env python3
"""Prints a diagram that is generated from a seed, or its moves: made.py NAME [SEED] [--moves]

far_N      N separate boxes (a number up to 256) and 2 N edges between any two of them
near_N     the same boxes, and 2 N edges between boxes that stand side by side
channels   256 boxes that leave a net of channels between them, 2 to 6 units wide, and 512 edges between any two
pins       64 boxes with four pins each, and 512 edges that name a pin at each end; 256 have a checkpoint
serpentine_N
           512 equal edges on one long way round N walls, so that each channel has a run of every edge (N to 246)
joined_N   the same with one straight edge along it, whose run has to keep apart from all that turn below it
fan_N      512 edges on such a way, from and to 40 boxes each, so that their runs change places (N to 160)
mirrored   a crowd that is its own mirror image in the diagonal, and 512 edges from one end of the diagonal to the other;
           64 have four checkpoints, by turns near its two ends
greatest   the diagram with the most lines and crossings within the limits: 1280 whole lines each way
certified  the same within the limits of certificates: 48 boxes, pins and checkpoints, and 64 edges
pairs      two boxes and an edge, and a list of as many short foreign pairs as 16 MiB leave room for
nodes      256 boxes, each with as many foreign pairs of the kinds that editors write as 16 MiB leave room for
nested     16 MiB of empty texts in lists nested 63 deep, each of which has a far indented line in the output

With --moves it prints a script of 30 transactions, each of which moves a box; from serpentine_N on there are none.
"""
import argparse
import os
import random
import sys

MOST_BYTES = 16 * 1024 * 1024
PAIRS = ('label "box one" fill "#ffcc00" outline "#000000" width 1.5 visible 1 anchor "c" '
         'font [ name "Dialog" size 12 style "bold" ]\n')
CELL = 140


class Draws:
    """Numbers from a seed; only `random` is promised to stay the same in later versions of Python."""

    def __init__(self, *seed):
        self.random = random.Random('/'.join(map(str, seed))).random

    def below(self, count):
        return int(self.random() * count)

    def between(self, low, high):
        return low + self.below(high - low + 1)


def node(number, x, y, w=20, h=20, rest=''):
    return f' node [ id {number} graphics [ x {x} y {y} w {w} h {h} ]{rest} ]\n'


def edge(source, target, rest=''):
    return f' edge [ source {source} target {target}{rest} ]\n'


def graph(nodes, edges):
    return 'graph [\n' + ''.join(nodes) + ''.join(edges) + ']\n'


def script(moves):
    return ''.join(f'begin\nmove {number} {x} {y}\ncommit\n' for number, x, y in moves)


def moves_near(boxes, draws, most):
    """Thirty moves, each of a box by at most that many units each way from where it stands."""
    places, moves = {box[0]: list(box[1:3]) for box in boxes}, []
    for _ in range(30):
        number = boxes[draws.below(len(boxes))][0]
        for way in (0, 1):
            places[number][way] += draws.between(-most, most)
        moves.append((number, *places[number]))
    return script(moves)


def any_edges(count, most, draws, rest=lambda k: ''):
    edges = []
    while len(edges) < most:
        source, target = 1 + draws.below(count), 1 + draws.below(count)
        if source != target:
            edges.append(edge(source, target, rest(len(edges))))
    return edges


def separate_boxes(count, draws):
    """Boxes of 20 to 80 units in the cells of a square, with at least 28 units between any two."""
    side = next(side for side in range(1, 17) if side * side >= count)
    boxes = []
    for k in range(count):
        w, h = draws.between(20, 80), draws.between(20, 80)
        x, y = ((CELL - size) // 2 - 14 for size in (w, h))
        boxes.append((k + 1, k % side * CELL + draws.between(-x, x), k // side * CELL + draws.between(-y, y), w, h))
    return boxes, side


def far(count, draws):
    boxes, _ = separate_boxes(count, draws)
    return graph([node(*box) for box in boxes], any_edges(count, 2 * count, draws)), moves_near(boxes, draws, 30)


def near(count, draws):
    boxes, side = separate_boxes(count, draws)
    edges = []
    while len(edges) < 2 * count:
        source = draws.below(count)
        column, row = source % side + draws.between(-1, 1), source // side + draws.between(-1, 1)
        target = row * side + column
        if 0 <= column < side and 0 <= target < count and target != source:
            edges.append(edge(source + 1, target + 1))
    return graph([node(*box) for box in boxes], edges), moves_near(boxes, draws, 30)


def channels(draws):
    # (a box of 48 units with its buffer is 56 wide, in a cell of 60)
    boxes = [(k + 1, k % 16 * 60 + draws.between(-1, 1), k // 16 * 60 + draws.between(-1, 1), 48, 48)
             for k in range(256)]
    return graph([node(*box) for box in boxes], any_edges(256, 512, draws)), moves_near(boxes, draws, 2)


def pins(draws):
    boxes, _ = separate_boxes(64, draws)

    def rest(k):
        via = f' via [ x {draws.below(8 * CELL)} y {draws.below(8 * CELL)} ]' if k % 2 == 0 else ''
        return f' sourcePin {draws.between(1, 4)} targetPin {draws.between(1, 4)}{via}'

    nodes = []
    for number, x, y, w, h in boxes:
        places = ((w / 2, 0, 'E'), (0, h / 2, 'S'), (-w / 2, 0, 'W'), (0, -h / 2, 'N'))
        own = ''.join(f' pin [ class {k + 1} x {dx:g} y {dy:g} dirs "{way}" ]'
                      for k, (dx, dy, way) in enumerate(places))
        nodes.append(node(number, x, y, w, h, own))
    return graph(nodes, any_edges(64, 512, draws, rest)), moves_near(boxes, draws, 30)


def whole_lines(boxes, count, vias):
    """Groups, which have no solids, have one pin each, and some connectors a checkpoint. No two of the ports, pins and
    checkpoints are in line unless they are of one node's centre, so each has lines of its own, which no box interrupts."""
    nodes = []
    for k in range(boxes):
        # (37 and 101 have no factor in common with 256 or 48)
        x, y = 3000 * k, 3000 * (k * 37 % boxes)
        nodes.append(node(k + 1, x, y, 200, 200, ' isGroup 1 pin [ class 1 x 50 y 50 dirs "ESWN" ]'))
    edges = []
    for k in range(count):
        source = k % boxes + 1
        target = (k * 7 + 11 + k // boxes) % boxes + 1
        target = target if target != source else target % boxes + 1
        x, y = 3000 * k + 1500, 3000 * (k * 101 % boxes) + 1500
        edges.append(edge(source, target, f' via [ x {x} y {y} ]' if k < vias else ''))
    return graph(nodes, edges), ''


def greatest(_):
    return whole_lines(256, 512, 256)


def certified(_):
    return whole_lines(48, 64, 48)


def walls_of(turns, aside, above):
    """Walls from below and from above, within a ring so far aside, that leave one way, which turns round each of them.
    The ring's upper side is given."""
    walls = [node(k + 10, 50 + k * 50, 550 if k % 2 else -543, 10, 1100 if k % 2 else 1086) for k in range(turns)]
    sides = [node(k + 4, x, 0, 20, 2300) for k, x in enumerate((20 - aside, turns * 50 + 30 + aside))]
    return [*walls, *sides, node(3, turns * 25, 1100, turns * 50 + 2 * aside, 20), *above]


def whole_above(turns, aside):
    return [node(6, turns * 25, -1100, turns * 50 + 2 * aside, 20)]


def serpentine(turns, _):
    ends = [node(1, 0, 0), node(2, turns * 50 + 50, 0)]
    return graph([*ends, *walls_of(turns, 200, whole_above(turns, 200))], [edge(1, 2)] * 512), ''


def joined(turns, _):
    """The upper side of the ring is two boxes, which a wall parts and an edge joins. Its run goes along their lower
    sides, past all runs that may rise to there: the buffer of 4 keeps these from the boxes, the gap of 5 from it."""
    parted, far = 50 + turns // 4 * 100, turns * 50 + 50

    def half(number, low, high, pin):
        middle = (low + high) / 2
        return node(number, middle, -1100, high - low, 20, f' pin [ class 1 x {pin - middle:g} y 10 ]')

    above = [half(6, -200, parted - 5, 0), half(7, parted + 5, far + 200, far)]
    nodes = [' router [ nudge 5 ]\n', node(1, 0, 0), node(2, far, 0), *walls_of(turns, 200, above)]
    return graph(nodes, [edge(6, 7, ' sourcePin 1 targetPin 1'), *[edge(1, 2)] * 511]), ''


def fan(turns, draws):
    columns = [node(first + k, x - k % 2 * 60, k * 50 - 1000)
               for first, x in ((300, -60), (400, turns * 50 + 120)) for k in range(40)]
    edges = [edge(300 + draws.below(40), 400 + draws.below(40), f' nudgeWeight {draws.between(1, 4)}')
             for _ in range(512)]
    return graph([*columns, *walls_of(turns, 400, whole_above(turns, 400))], edges), ''


def mirrored(draws):
    """Boxes of 2 to 4 units, each with its mirror image, and eight on the diagonal, which edges join."""
    boxes = [node(k + 1, k * 400, k * 400) for k in range(8)]
    for k in range(124):
        x, y, w, h = (k + 1) * 24, draws.between(0, 3000), 2 * draws.between(1, 2), 2 * draws.between(1, 2)
        y += 200 if abs(x - y) < 80 else 0
        boxes += [node(k + 10, x, y, w, h), node(k + 200, y, x, h, w)]

    def rest(k):
        at = [draws.between(0, 300) + 2700 * ((j + k) % 2 == 0) for j in range(4 if k < 64 else 0)]
        return ''.join(f' via [ x {z} y {z} ]' for z in at)

    return graph(boxes, [edge(*((1, 8) if k % 2 else (8, 1)), rest(k)) for k in range(512)]), ''


def pairs(_):
    front = 'graph [\n' + node(1, 0, 0) + node(2, 100, 0) + edge(1, 2) + ' data [\n'
    end = ' ]\n]\n'
    lines, left, number = [], MOST_BYTES - len(front) - len(end), 0
    while len(f'  key {number}\n') <= left:
        lines.append(f'  key {number}\n')
        left -= len(lines[-1])
        number += 1
    return front + ''.join(lines) + end, ''


def nodes(_):
    own = ' ' + PAIRS * ((MOST_BYTES // 256 - 110) // len(PAIRS))
    return graph([node(k + 1, k % 16 * 100, k // 16 * 100, rest=own) for k in range(256)], []), ''


def nested(_):
    front, end = 'graph [' + 'a[' * 62, ']' * 63
    return front + 'a""' * ((MOST_BYTES - len(front) - len(end)) // 3) + end, ''


# The kinds of diagrams of a size, with the greatest.
KINDS = {'far': (far, 256), 'near': (near, 256), 'serpentine': (serpentine, 246), 'joined': (joined, 246),
         'fan': (fan, 160)}
NAMES = {made.__name__: made for made in (channels, pins, mirrored, greatest, certified, pairs, nodes, nested)}


def made(name, seed=1):
    """The diagram of that name and its moves, or None if there is no such name."""
    kind, _, count = name.partition('_')
    make, most = KINDS.get(kind, (None, 0))
    if count.isdigit() and 2 <= int(count) <= most:
        return make(int(count), Draws(name, seed))
    return NAMES[name](Draws(name, seed)) if name in NAMES else None


def texts(name):
    """The diagram of that name and its moves, of the folder `diagrams` or generated; None if there is no such name."""
    base = f'{os.path.dirname(os.path.realpath(__file__))}/diagrams/{name}'
    if not os.path.exists(f'{base}.gml'):
        return made(name)
    with open(f'{base}.gml') as diagram, open(f'{base}.moves') as moves:
        return diagram.read(), moves.read()


def main():
    parser = argparse.ArgumentParser(description=__doc__, formatter_class=argparse.RawDescriptionHelpFormatter)
    parser.add_argument('name', metavar='NAME')
    parser.add_argument('seed', metavar='SEED', type=int, nargs='?', default=1)
    parser.add_argument('--moves', action='store_true')
    given = parser.parse_args()
    found = made(given.name, given.seed)
    if not found:
        parser.error(f'there is no diagram {given.name}')
    sys.stdout.write(found[given.moves])


if __name__ == '__main__':
    main()
