"""Diagrams as `run` needs them: read from GML, written for other routers, and the lines that routers draw judged.

It is a module of `run`, and no program itself. All lengths are in units.
"""
import json
import os
import sys
from bisect import bisect_left, bisect_right
from collections import namedtuple

sys.path.append(os.path.join(os.path.dirname(os.path.realpath(__file__)), '..', 'tools'))
import gml  # noqa: E402

Node = namedtuple('Node', 'id x y w h is_group pins')
Pin = namedtuple('Pin', 'of_class x y dirs')
Edge = namedtuple('Edge', 'source target source_class target_class via line')
Diagram = namedtuple('Diagram', 'penalty buffer nudge nodes edges')


def units(*lengths):
    return tuple(length / 1000 for length in lengths)


def read(text):
    found = gml.read(text.encode())
    nodes = tuple(Node(node.id, *units(node.x, node.y, node.w, node.h), node.is_group,
                       tuple(Pin(pin.kind, *units(pin.x, pin.y), pin.sides) for pin in node.pins)) for node in found.nodes)
    edges = tuple(Edge(edge.source, edge.target, *edge.classes, tuple(units(*spot) for spot in edge.vias),
                       tuple(units(*spot) for spot in edge.line)) for edge in found.edges)
    return Diagram(*units(found.penalty, found.buffer, found.nudge), nodes, edges)


def written(diagram):
    """The diagram as GML, with the lines of its edges."""
    text = [f'graph [\n router [ penalty {diagram.penalty} buffer {diagram.buffer} nudge {diagram.nudge} ]\n']
    for node in diagram.nodes:
        pins = ''.join(f' pin [ class {pin.of_class} x {pin.x:.3f} y {pin.y:.3f} dirs "{pin.dirs}" ]'
                       for pin in node.pins)
        group = ' isGroup 1' if node.is_group else ''
        text.append(f' node [ id {node.id} graphics [ x {node.x} y {node.y} w {node.w} h {node.h} ]{group}{pins} ]\n')
    for edge in diagram.edges:
        via = ''.join(f' via [ x {x} y {y} ]' for x, y in edge.via)
        points = ''.join(f' point [ x {x:.6f} y {y:.6f} ]' for x, y in edge.line)
        line = f' graphics [ Line [{points} ] ]' if edge.line else ''
        text.append(f' edge [ source {edge.source} target {edge.target} sourcePin {edge.source_class} '
                    f'targetPin {edge.target_class}{via}{line} ]\n')
    return ''.join(text) + ']\n'


def with_lines(diagram, lines):
    return diagram._replace(edges=tuple(edge._replace(line=tuple(line)) for edge, line in zip(diagram.edges, lines)))


# ---- libavoid ----

def for_libavoid(diagram, moves):
    """The input of libavoid/driver.cc."""
    text = [f'set {diagram.penalty} {diagram.buffer} {diagram.nudge}\n']
    for node in diagram.nodes:
        text.append(f'node {node.id} {node.x} {node.y} {node.w} {node.h}\n')
        text += [f'pin {node.id} {pin.of_class} {pin.x} {pin.y} {pin.dirs}\n' for pin in node.pins]
    for edge in diagram.edges:
        text.append(f'edge {edge.source} {edge.target} {edge.source_class} {edge.target_class}\n')
        text += [f'via {x} {y}\n' for x, y in edge.via]
    return ''.join(text) + ''.join(f'move {number} {x} {y}\n' for number, x, y in moves)


def lines_of_libavoid(text):
    """The raw lines and those that are drawn."""
    kinds = {'raw': [], 'drawn': []}
    for row in text.splitlines():
        kind, *numbers = row.split()
        kinds[kind].append(list(zip(map(float, numbers[::2]), map(float, numbers[1::2]))))
    return kinds['raw'], kinds['drawn']


# ---- Graphviz ----

# A unit in its points. With most other scales its orthogonal router ends by a failed assertion, or takes minutes, on
# some of the diagrams; with this one sizes in inches are exact.
POINTS = 18


def for_graphviz(diagram):
    """The diagram for `neato -n`, whose y grows upwards."""
    text = ['graph {\n node [ shape=box fixedsize=true label="" ]\n']
    text += [f' {node.id} [ pos="{node.x * POINTS},{-node.y * POINTS}" width={node.w * POINTS / 72} '
             f'height={node.h * POINTS / 72} ]\n' for node in diagram.nodes]
    text += [f' {edge.source} -- {edge.target} [ id={k} ]\n' for k, edge in enumerate(diagram.edges)]
    return ''.join(text) + '}\n'


def lines_of_graphviz(diagram, text):
    """The lines that it drew; those that it left out are empty."""
    drawn = json.loads(text)
    # (it moves the whole drawing, so that its lower left corner is at 0, 0)
    box = next(step['points'] for step in drawn['objects'][0]['_draw_'] if step['op'] in 'pP')
    off_x, off_y = (sum(way) / len(box) for way in zip(*box))
    off_x, off_y = off_x / POINTS - diagram.nodes[0].x, off_y / POINTS + diagram.nodes[0].y
    lines = [[] for _ in diagram.edges]
    for edge in drawn.get('edges', []):
        curves = [step['points'] for step in edge.get('_draw_', []) if step['op'] == 'b']
        lines[int(edge['id'])] = [(x / POINTS - off_x, off_y - y / POINTS) for curve in curves for x, y in curve]
    return lines


def ends_pinned(diagram, lines):
    """Copies of the diagram in which each end of each line that is drawn is a pin of its own, on the side where the
    line ends. A diagram may have 256 pins, so each copy has at most 128 of the edges."""
    drawn = [(edge, squared(line)) for edge, line in zip(diagram.edges, lines) if len(line) > 1]
    copies = []
    for at in range(0, len(drawn), 128):
        pins, edges = {node.id: [] for node in diagram.nodes}, []
        for edge, line in drawn[at:at + 128]:
            ends = []
            for node_id, end in ((edge.source, 0), (edge.target, -1)):
                node = next(node for node in diagram.nodes if node.id == node_id)
                point, side = pin_at(node, line[end])
                line[end] = (node.x + point[0], node.y + point[1])
                pins[node_id].append(Pin(len(pins[node_id]) + 1, *point, side))
                ends.append(len(pins[node_id]))
            edges.append(Edge(edge.source, edge.target, *ends, (), tuple(squared(line))))
        copies.append(diagram._replace(nodes=tuple(node._replace(pins=tuple(pins[node.id])) for node in diagram.nodes),
                                       edges=tuple(edges)))
    return copies


def pin_at(node, point):
    """The place on the nearest side of the box, by its offset from the centre, and that side."""
    x, y = point[0] - node.x, point[1] - node.y
    half_w, half_h = node.w / 2, node.h / 2
    away = {'E': half_w - x, 'W': half_w + x, 'S': half_h - y, 'N': half_h + y}
    side = min(away, key=lambda name: abs(away[name]))
    x, y = max(-half_w, min(half_w, x)), max(-half_h, min(half_h, y))
    return {'E': (half_w, y), 'W': (-half_w, y), 'S': (x, half_h), 'N': (x, -half_h)}[side], side


def squared(line):
    """The line's corners, with each piece made straight where rounding left it a little slanted."""
    corners = []
    for x, y in line:
        if corners:
            last_x, last_y = corners[-1]
            x, y = (last_x if abs(x - last_x) < 0.02 else x), (last_y if abs(y - last_y) < 0.02 else y)
        corners.append((x, y))
    return merged(corners)


# ---- what a user sees ----

def merged(line):
    """The line without equal neighbours and without corners at which it goes straight on."""
    corners = []
    for point in line:
        if corners and corners[-1] == point:
            continue
        if len(corners) > 1 and any(corners[-2][way] == corners[-1][way] == point[way] for way in (0, 1)):
            corners.pop()
        corners.append(point)
    return corners


def segments(lines):
    """The segments of all lines by their way: (place across, low, high, line, whether it is neither first nor last)."""
    ways = ([], [])
    for k, line in enumerate(lines):
        corners = merged(line)
        for at, (a, b) in enumerate(zip(corners, corners[1:])):
            # (way 0 is vertical: x stays)
            way = 0 if abs(a[0] - b[0]) < abs(a[1] - b[1]) else 1
            low, high = sorted((a[1 - way], b[1 - way]))
            ways[way].append((a[way], low, high, k, 0 < at < len(corners) - 2))
    return tuple(map(sorted, ways))


def crossings(lines):
    """How often a vertical segment of one line crosses a horizontal one of another, within both."""
    upright, level = segments(lines)
    places = [segment[0] for segment in upright]
    return sum(other[3] != k and other[1] < at < other[2]
               for at, low, high, k, _ in level
               for other in upright[bisect_right(places, low):bisect_left(places, high)])


def near_pairs(lines, nudge):
    """How many pairs of parallel segments of two lines run side by side, or on each other, nearer than the nudge.
    The first and the last segment of a line are left out."""
    count = 0
    for way in segments(lines):
        inner = [segment for segment in way if segment[4]]
        for at, (across, low, high, k, _) in enumerate(inner):
            for other in inner[at + 1:]:
                if other[0] > across + nudge - 0.01:
                    break
                count += other[3] != k and min(high, other[2]) - max(low, other[1]) > 0.01
    return count
