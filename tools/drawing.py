"""Draws a diagram in GML as SVG, for reroute-svg and reroute-draw.

    text = drawing.svg(data)                       # data: the bytes of a diagram
    text = drawing.svg(data, drawing.PLAIN)

Lines have round corners, and a horizontal line bows over those that it crosses. Where the GML names shapes, colours, dashes
or arrows, they are drawn; PLAIN draws rectangles, square corners, pins, and a colour of six for each line.
"""
import collections
import html
import math
import re
import unicodedata

import gml
import looks
import places

WIDEST = 1600
Look = collections.namedtuple('Look', 'corner bow is_plain')
ROUND, PLAIN = Look(6.0, 4.0, False), Look(0.0, 0.0, True)
LIGHT = {'paper': '#f8f8f6', 'ink': '#2b2f36', 'line': '#4a5261', 'quiet': '#8d929b', 'box': '#ffffff', 'lost': '#c62828',
         'lines': ['#0b6fa4', '#b3541e', '#3f7d3a', '#7a4fa3', '#a33a55', '#5d6470']}
DARK = {'paper': '#14181d', 'ink': '#dfe3e8', 'line': '#aab2bd', 'quiet': '#7d8590', 'box': '#232a32', 'lost': '#ff7066',
        'lines': ['#58b4e6', '#e8935b', '#7fc47a', '#b894e0', '#e07b95', '#a9b1bd']}
REPORT = re.compile(rb'(?m)^# edge \d+: ')
NO_ROUTE = re.compile(rb'(?m)^# edge (\d+): no route')
RECTANGLE = looks.Shape('rectangle', None)
GROUP_FILL = 0.3


# ---- the diagram ----

class Box:
    def __init__(self, node, is_plain):
        graphics = gml.first_list(node.pairs, 'graphics')
        label = gml.first(node.pairs, 'label')
        self.id, self.is_group = node.id, node.is_group
        self.label = gml.text_of(label) if label is not None else str(node.id)
        self.x, self.y, self.w, self.h = (value / 1000 for value in (node.x, node.y, node.w, node.h))
        self.left, self.right = self.x - self.w / 2, self.x + self.w / 2
        self.top, self.bottom = self.y - self.h / 2, self.y + self.h / 2
        self.pins = [(self.x + pin.x / 1000, self.y + pin.y / 1000) for pin in node.pins]
        self.shape = RECTANGLE if is_plain else looks.shape_of(graphics)
        style = gml.text_of(gml.first(graphics, 'style', gml.first(graphics, 'outlineStyle')))
        self.is_hidden = not is_plain and 'invis' in style
        self.fill, self.outline, self.dash = None, None, ()
        if not is_plain:
            self.fill = looks.colour_of(gml.first(graphics, 'fill'))
            self.outline = looks.colour_of(gml.first(graphics, 'outline', gml.first(graphics, 'line')))
            self.dash = looks.dash_of(gml.first(graphics, 'style', gml.first(graphics, 'outlineStyle')))

    def has(self, spot):
        return self.left <= spot[0] <= self.right and self.top <= spot[1] <= self.bottom

    def rectangle(self):
        return self.left, self.top, self.right, self.bottom


class Edge:
    """An edge, whose kind is routed, loop, lost where it has no legal route, or unrouted where nothing is known."""

    def __init__(self, edge, boxes, is_directed, is_plain):
        graphics = gml.first_list(edge.pairs, 'graphics')
        self.place, self.ends = edge.place, (edge.source, edge.target)
        self.label = gml.text_of(gml.first(edge.pairs, 'label'))
        self.source, self.target = boxes[edge.source], boxes[edge.target]
        self.vias = [(x / 1000, y / 1000) for x, y in edge.vias]
        self.line = [(x / 1000, y / 1000) for x, y in edge.line]
        self.kind = 'routed' if len(self.line) > 1 else 'loop' if edge.source == edge.target else 'unrouted'
        self.colour, self.dash, self.is_bold, self.is_hidden = None, (), False, False
        self.heads = (None, ('delta', False))
        if not is_plain:
            style = gml.first(graphics, 'style', gml.first(edge.pairs, 'style', gml.first(graphics, 'stipple')))
            self.colour = looks.colour_of(gml.first(graphics, 'fill', gml.first(edge.pairs, 'fill')))
            self.dash = looks.dash_of(style)
            self.is_bold, self.is_hidden = ('bold' in gml.text_of(style), 'invis' in gml.text_of(style))
            self.heads = looks.heads_of(edge.pairs, graphics, is_directed)


class Scene:
    """The boxes and edges of a diagram, with a line for each edge, and how many units a pixel is."""

    def __init__(self, data, look):
        diagram = gml.read(data)
        self.look, self.nudge = look, diagram.nudge / 1000
        boxes = {node.id: Box(node, look.is_plain) for node in diagram.nodes}
        is_directed = gml.first(diagram.graph, 'directed') != '0'
        edges = [Edge(edge, boxes, is_directed, look.is_plain) for edge in diagram.edges]
        self.edges = [edge for edge in edges if not edge.is_hidden]
        self.boxes = list(boxes.values())
        self.scale = scale_of(self.boxes)
        self.mark_lost(data, edges)
        self.walls, self.lines = places.Field(self.frame()), places.Field(self.frame())
        for box in self.boxes:
            if not box.is_group:
                self.walls.add(box.rectangle(), box)
        self.give_lines()

    def mark_lost(self, data, edges):
        """An edge is lost if the report says so; without a report, if it has no line and another edge has one."""
        reported = {int(place) for place in NO_ROUTE.findall(data)}
        is_routed = REPORT.search(data) or any(edge.kind == 'routed' for edge in edges)
        for edge in edges:
            if edge.kind == 'unrouted' and (edge.place in reported or is_routed):
                edge.kind = 'lost'

    def frame(self):
        """The rectangle round all that has a place."""
        spots = [spot for box in self.boxes for spot in (box.rectangle()[:2], box.rectangle()[2:])]
        spots += [spot for edge in self.edges for spot in [*edge.line, *edge.vias]]
        xs, ys = ([spot[i] for spot in spots] or [0.0] for i in (0, 1))
        return min(xs), min(ys), max(xs), max(ys)

    def give_lines(self):
        """The lines that the file has, to the outlines of their boxes, and then those of loops and of lost edges."""
        for edge in self.edges:
            if edge.kind == 'unrouted':
                edge.line = [(edge.source.x, edge.source.y), (edge.target.x, edge.target.y)]
            if edge.kind in ('routed', 'unrouted') and edge.source is not edge.target:
                edge.line = places.fitted(edge.line, edge.source, edge.target)
            if edge.kind == 'routed':
                self.lines.add_line(edge.line, edge.place)
        for edge in self.edges:
            if edge.kind == 'loop':
                way = places.loop_line(edge.source, 14 * self.scale, self.walls, self.lines)
                self.lines.add_line(way, edge.place)
                edge.line = places.met(places.met(way, edge.source)[::-1], edge.source)[::-1]
        for edge in self.edges:
            if edge.kind == 'lost' and self.look.is_plain:
                edge.line = places.cut([(edge.source.x, edge.source.y), (edge.target.x, edge.target.y)], edge.source)
                edge.line = places.cut(edge.line[::-1], edge.target)[::-1]
            elif edge.kind == 'lost':
                way = places.lost_line(edge.source, edge.target, self.boxes, self.walls, self.lines, 6 * self.scale)
                edge.line = places.fitted(way, edge.source, edge.target)


def scale_of(boxes):
    """How many units a pixel of text and strokes is: 1, unless most boxes are far smaller or larger than a word."""
    heights = sorted(box.h for box in boxes if not box.is_group and box.h > 0)
    middle = heights[len(heights) // 2] if heights else 30.0
    return 1.0 if 9 <= middle <= 150 else middle / 40


# ---- elements ----

def short(value):
    text = f'{value:.3f}'.rstrip('0').rstrip('.') if isinstance(value, float) else str(value)
    return '0' if text == '-0' else text


def element(tag, *content, **attributes):
    written = ''.join(f' {key.strip("_").replace("_", "-")}="{html.escape(short(value))}"'
                      for key, value in attributes.items() if value is not None)
    return f'<{tag}{written}>{"".join(content)}</{tag}>' if content else f'<{tag}{written}/>'


def spots_of(corners):
    return ' '.join(f'{short(x)} {short(y)}' for x, y in corners)


def dashes(lengths, scale):
    return ' '.join(short(length * scale) for length in lengths) or None


# ---- style ----

class Palette:
    """The classes of the colours that the file gives to lines and outlines."""

    def __init__(self):
        self.classes = {}

    def of(self, colour):
        return self.classes.setdefault(colour, f'k{len(self.classes)}')

    def rules(self, is_dark):
        for colour, name in self.classes.items():
            shown = looks.readable_on(DARK['paper'], colour) if is_dark else colour
            yield f'.{name}, .box .{name} {{ stroke: {shown}; }} .head.{name} {{ fill: {shown}; }}'


def colour_rules(theme, palette, is_plain):
    yield f'.paper {{ fill: {theme["paper"]}; }}'
    yield f'.box .shape {{ fill: {theme["box"]}; stroke: {theme["ink"]}; }}'
    yield f'.box text, .box .pin {{ fill: {theme["ink"]}; stroke: none; }}'
    yield f'.group .shape {{ fill: none; stroke: {theme["quiet"]}; }}'
    yield f'.box.group text {{ fill: {theme["quiet"]}; }}'
    yield f'.via {{ fill: {theme["paper"]}; stroke: {theme["ink"]}; }}'
    yield f'.edge .under {{ stroke: {theme["paper"]}; }}'
    yield f'.label {{ fill: {theme["ink"]}; stroke: {theme["paper"]}; }}'
    for i, colour in enumerate(theme['lines'] if is_plain else [theme['line']]):
        yield f'.c{i} {{ stroke: {colour}; }} .head.c{i} {{ fill: {colour}; }}'
    yield f'.box .filled {{ stroke: {LIGHT["ink"]}; }}'
    yield from palette.rules(theme is DARK)
    yield f'.lost {{ stroke: {theme["lost"]}; }} .head.lost {{ fill: {theme["lost"]}; }}'
    yield f'.head.hollow {{ fill: {theme["paper"]}; }} .head.open {{ fill: none; }}'


def style(scale, palette, is_plain):
    width = 1.5 * scale
    yield f'text {{ font: {short(11 * scale)}px sans-serif; }}'
    yield f'.box .shape, .via {{ stroke-width: {short(1.2 * scale)}; }}'
    yield f'.group .shape {{ stroke-dasharray: {dashes((5, 4), scale)}; }}'
    yield f'.edge path, .head {{ fill: none; stroke-width: {short(width)}; stroke-linejoin: round; }}'
    yield f'.edge .bold {{ stroke-width: {short(2 * width)}; }} .edge .under {{ stroke-width: {short(3.5 * scale)}; }}'
    yield f'.label {{ font-size: {short(9 * scale)}px; stroke-width: {short(3.5 * scale)}; paint-order: stroke; ' \
          'stroke-linejoin: round; }'
    yield f'.unrouted path, .edge .lost {{ stroke-dasharray: {dashes((4, 3), scale)}; }}'
    yield from colour_rules(LIGHT, palette, is_plain)
    yield '@media (prefers-color-scheme: dark) {'
    yield from colour_rules(DARK, palette, is_plain)
    yield '}'


# ---- texts ----

def width_of(text):
    """About how wide a text is, in sizes of its font."""
    return sum(1.0 if unicodedata.east_asian_width(c) in 'WF' else 0.32 if c in "iljI.,:;'|!() " else
               0.38 if c in 'tfr' else 0.9 if c in 'mwMW@%' else 0.68 if c.isupper() else 0.58 for c in text)


def shortened(text, room):
    """The text, or its first characters and an ellipsis, as far as there is room."""
    if width_of(text) <= room:
        return text
    used = width_of('\u2026')
    for i, c in enumerate(text):
        used += width_of(c)
        if used > room:
            return text[:i].rstrip() + '\u2026' if i else ''
    return text


def wrapped(text, room, most):
    """Lines within the room, at most `most` of them; what does not fit is cut."""
    lines = []
    for row in text.split('\n'):
        line = ''
        for word in row.replace('\t', ' ').split(' '):
            longer = f'{line} {word}' if line else word
            if line and width_of(longer) > room:
                lines.append(line)
                longer = word
            line = longer
        lines.append(line)
        if len(lines) > most:
            break
    while lines and not lines[-1].strip():
        lines.pop()
    if len(lines) > most:
        lines = lines[:most - 1] + [' '.join(lines[most - 1:])[:1000]]
    return [shortened(line, room) for line in lines]


def fitting(box, scale):
    """The lines of a box's label and their font: the largest in which all of it fits, else what fits of it."""
    width = box.w * looks.ROOM.get(box.shape.kind, 1.0)
    for font in (11 * scale, 9 * scale, 7 * scale):
        room, most = (width - 4 * scale) / font, int((box.h - 2 * scale) / (1.2 * font))
        lines = wrapped(box.label, room, max(1, most)) if box.h >= font else []
        if lines and not any(line.endswith('\u2026') or not line for line in lines):
            break
    return lines, font


def text_colour(box):
    """Dark or light letters on a box that the file fills, in both themes."""
    if not box.fill:
        return None
    return f'fill: {LIGHT["ink"] if looks.contrast(box.fill, LIGHT["ink"]) > 3.5 else "#ffffff"}'


def box_text(box, scale):
    lines, font = fitting(box, scale)
    top = box.y + looks.LOWER.get(box.shape.kind, 0.0) * box.h + 0.36 * font - 0.6 * font * (len(lines) - 1)
    rules = [text_colour(box), None if font == 11 * scale else f'font-size: {short(font)}px']
    look = '; '.join(rule for rule in rules if rule) or None
    return ''.join(element('text', html.escape(line), x=box.x, y=top + 1.2 * font * i, text_anchor='middle', style=look)
                   for i, line in enumerate(lines) if line)


# ---- boxes ----

def outline(box, scale, **look):
    """The shape of a box as an element."""
    kind, corners = box.shape
    if kind in ('ellipse', 'double', 'point'):
        return ellipse(box, 0.0, **look)
    if corners:
        spots = [(box.left + x * box.w, box.top + y * box.h) for x, y in corners]
        return element('polygon', points=spots_of(spots), stroke_linejoin='round', **look)
    radius = min((9 if kind == 'rounded' else 3) * scale, box.w / 2, box.h / 2)
    return element('rect', x=box.left, y=box.top, width=box.w, height=box.h, rx=radius, **look)


def ellipse(box, inset, **look):
    return element('ellipse', cx=box.x, cy=box.y, rx=max(0.0, box.w / 2 - inset),
                   ry=max(0.0, box.h / 2 - inset), **look)


def extra(box, scale, look):
    """What a shape has inside its outline: a second circle, the lid of a cylinder, the fold of a note."""
    if box.shape.kind == 'double':
        return ellipse(box, 4 * scale, fill_opacity='0', **look)
    if box.shape.kind == 'cylinder':
        cap = box.h * looks.CAP
        path = f'M{short(box.left)} {short(box.top + cap)}a{short(box.w / 2)} {short(cap)} 0 0 0 {short(box.w)} 0'
    elif box.shape.kind == 'note':
        path = f'M{short(box.right - 0.14 * box.w)} {short(box.top)}v{short(0.25 * box.h)}h{short(0.14 * box.w)}'
    else:
        return ''
    return element('path', d=path, fill_opacity='0', **look)


def drawn_box(box, scale, palette, is_plain, corner=None):
    """A box with its title and label; the label of a group stands at the corner."""
    rules = [f'fill: {box.fill}' if box.fill else None, f'fill-opacity: {GROUP_FILL}' if box.fill and box.is_group else None,
             'fill: none; stroke: none' if box.shape.kind == 'bare' else None,
             f'stroke-dasharray: {dashes(box.dash, scale)}' if box.dash else None]
    colour = palette.of(box.outline) if box.outline else 'filled' if box.fill and not box.is_group else ''
    look = {'class_': f'shape {colour}' if colour and box.shape.kind != 'bare' else 'shape',
            'style': '; '.join(rule for rule in rules if rule) or None}
    drawn = outline(box, scale, **look) + extra(box, scale, look)
    pins = [element('rect', class_='pin', x=x - 2.5 * scale, y=y - 2.5 * scale, width=5 * scale, height=5 * scale)
            for x, y in box.pins] if is_plain else []
    text = group_text(box, scale, corner) if box.is_group else '' if box.shape.kind == 'point' else box_text(box, scale)
    return element('g', element('title', html.escape(box.label or f'node {box.id}')), drawn, text, *pins,
                   id=f'node-{box.id}', class_='box group' if box.is_group else 'box')


def group_label(box, scale):
    return shortened(box.label.replace('\n', ' '), (box.w - 6 * scale) / (11 * scale))


def group_text(box, scale, corner):
    text = group_label(box, scale)
    return element('text', html.escape(text), x=corner[0], y=corner[1] + 4 * scale, text_anchor='middle') if text else ''


def group_corner(box, scene):
    """Where the label of a group stands: along its upper or its lower border, on as little as can be."""
    w, h = width_of(group_label(box, scene.scale)) * 11 * scene.scale, 13 * scene.scale
    def price(spot):
        rectangle = (spot[0] - w / 2, spot[1] - h / 2, spot[0] + w / 2, spot[1] + h / 2)
        return 3 * len(scene.walls.meeting(rectangle)) + len(scene.lines.meeting(rectangle))
    inset = 5 * scene.scale
    return min(((x, y) for y in (box.top + inset + h / 3, box.bottom - inset - h / 3)
                for x in (box.left + inset + w / 2, box.x, box.right - inset - w / 2)), key=price)


# ---- lines ----

def head_sizes(edge, scale):
    """How long the heads at both ends are: as long as their runs leave room for."""
    spans = [math.dist(one, other) for one, other in zip(edge.line, edge.line[1:])]
    if not spans:
        return 0.0, 0.0
    most = 9 * scale * (1.3 if edge.is_bold else 1)
    share = 2 if len(spans) == 1 and all(edge.heads) else 1
    return tuple(max(min(most, span / share), 4 * scale) if head else 0.0
                 for head, span in zip(edge.heads, (spans[0], spans[-1])))


def moved(spot, towards, distance):
    length = math.dist(spot, towards) or 1.0
    return tuple(a + (b - a) * min(distance, length) / length for a, b in zip(spot, towards))


def pulled_back(edge, sizes):
    """The line without what its heads cover."""
    line = list(edge.line)
    for (i, j), head, size in zip(((0, 1), (-1, -2)), edge.heads, sizes):
        if head:
            line[i] = moved(line[i], line[j], size * looks.HEADS[head[0]].ends)
    return line


def path_of(edge, sizes, uprights, look, scale):
    """The path of a line: each corner rounded, and a bow over each upright run that a horizontal one crosses."""
    line = pulled_back(edge, sizes)
    cuts = places.corner_cuts(edge.line, look.corner * scale, sizes)
    words = [f'M{spots_of(line[:1])}']
    for i, run in enumerate(zip(line, line[1:])):
        if look.bow and run[0][1] == run[1][1] and edge.kind != 'lost':
            words += bow_words(run, uprights, edge.place, look.bow * scale, (cuts[i] or sizes[0] * (i == 0),
                                                                             cuts[i + 1] or sizes[1] * (i == len(line) - 2)))
        words.append(f'L{spots_of([moved(run[1], run[0], cuts[i + 1])])}')
        if cuts[i + 1]:
            words.append(f'Q{spots_of([run[1]])} {spots_of([moved(run[1], line[i + 2], cuts[i + 1])])}')
    return ' '.join(words)


def bow_words(run, uprights, place, radius, cuts):
    """The bows of one horizontal run: a quarter of a circle up, a way over all that one bow spans, and one down."""
    way, y = (1 if run[1][0] > run[0][0] else -1), run[0][1]
    turn = f'A{short(radius)} {short(radius)} 0 0 {1 if way > 0 else 0}'
    for first, last in places.bows_of(run, uprights, place, radius, cuts):
        yield f'L{short(first - way * radius)} {short(y)} {turn} {short(first)} {short(y - radius)}'
        yield (f'H{short(last)} ' if last != first else '') + f'{turn} {short(last + way * radius)} {short(y)}'


def colour_class(edge, palette, is_plain):
    if edge.kind == 'lost':
        return 'lost'
    if edge.colour:
        return palette.of(edge.colour)
    return f'c{(edge.place - 1) % len(LIGHT["lines"]) if is_plain else 0}'


def title_of(edge):
    said = {'lost': ', no legal route', 'unrouted': ', not routed'}.get(edge.kind, '')
    return element('title', html.escape(f'edge {edge.place}: {edge.ends[0]} to {edge.ends[1]}'
                                        + (f', {edge.label}' if edge.label else '') + said))


def drawn_edge(edge, uprights, scene, palette):
    """The line of an edge, without its heads; plain ones have a border of paper, which shows what passes over what."""
    kind = {'loop': 'edge loop', 'lost': 'edge unrouted', 'unrouted': 'edge unrouted'}.get(edge.kind, 'edge')
    drawn = []
    if len(set(edge.line)) > 1:
        path = path_of(edge, head_sizes(edge, scene.scale), uprights, scene.look, scene.scale)
        name = colour_class(edge, palette, scene.look.is_plain) + (' bold' if edge.is_bold else '')
        rules = f'stroke-dasharray: {dashes(edge.dash, scene.scale)}' if edge.dash else None
        drawn = [element('path', class_=name, d=path, style=rules)]
        if scene.look.is_plain and edge.kind == 'routed':
            drawn.insert(0, element('path', class_='under', d=path))
    return element('g', title_of(edge), *drawn, id=f'edge-{edge.place}', class_=kind)


def drawn_heads(edge, scene, palette):
    """The heads of a line, each with its tip at the line's end."""
    line, scale = edge.line, scene.scale
    if len(set(line)) < 2:
        return
    for end, tip, before, head, size in zip(('source', 'target'), (line[0], line[-1]), (line[1], line[-2]), edge.heads,
                                            head_sizes(edge, scale)):
        if head:
            kind, is_hollow = head
            name = f'head {colour_class(edge, palette, scene.look.is_plain)}' + (' hollow' if is_hollow else '')
            turn = math.degrees(math.atan2(tip[1] - before[1], tip[0] - before[0]))
            yield element('g', head_shape(kind, size, name), id=f'edge-{edge.place}-{end}',
                          transform=f'translate({short(tip[0])} {short(tip[1])}) rotate({short(turn)})')


def head_shape(kind, size, name):
    if kind == 'circle':
        return element('circle', class_=name, cx=-0.4 * size, cy=0, r=0.38 * size)
    head = looks.HEADS[kind]
    numbers = [float(word) * size for word in head.corners.split()]
    path = 'M' + ' '.join(map(short, numbers)) + ('z' if head.is_closed else '')
    return element('path', class_=name if head.is_closed else f'{name} open', d=path)


# ---- labels of lines ----

def label_lines(edge):
    """A label as at most three lines, of at most 40 letters' width."""
    return wrapped(edge.label, 30, 3) or ['']


def label_sizes(edge, scale):
    rows = label_lines(edge)
    return max(map(width_of, rows)) * 9 * scale + 5 * scale, (10.5 * len(rows) + 2) * scale


def placed_labels(scene):
    """The centre of each label. All are placed in turn, the shortest lines first, and then once more beside all others."""
    heads = places.Field(scene.frame())
    for edge in scene.edges:
        if len(edge.line) > 1:
            for tip, before, size in zip((edge.line[0], edge.line[-1]), (edge.line[1], edge.line[-2]),
                                         head_sizes(edge, scene.scale)):
                if size:
                    heads.add(places.around(tip, moved(tip, before, size), 3 * scene.scale), edge.place)
    for edge in scene.edges:
        if edge.kind in ('lost', 'unrouted'):
            scene.lines.add_line(edge.line, edge.place)
    labels, centres = places.Labels(scene.frame(), scene.walls, heads, scene.lines), {}
    labelled = [edge for edge in scene.edges if edge.label.strip() and len(edge.line) > 1]
    for edge in 2 * sorted(labelled, key=lambda edge: places.length_of(edge.line)):
        centres[edge.place] = labels.put(edge.place, edge.line, *label_sizes(edge, scene.scale), 3 * scene.scale)
    return [(edge, centres[edge.place], labels.placed[edge.place]) for edge in labelled]


def drawn_label(edge, centre, scale):
    rows = label_lines(edge)
    top = centre[1] + 3.2 * scale - 5.25 * scale * (len(rows) - 1)
    return ''.join(element('text', html.escape(row), class_='label', x=centre[0], y=top + 10.5 * scale * i,
                           text_anchor='middle') for i, row in enumerate(rows) if row)


# ---- the picture ----

def view_of(scene, labels):
    """The rectangle of the picture, with a margin."""
    rectangles = [scene.frame(), *(rectangle for _, _, rectangle in labels)]
    left, top = (min(rectangle[i] for rectangle in rectangles) for i in (0, 1))
    right, bottom = (max(rectangle[i] for rectangle in rectangles) for i in (2, 3))
    margin = 16 * scene.scale
    return left - margin, top - margin, right - left + 2 * margin, bottom - top + 2 * margin


def drawn_things(scene, labels, palette):
    """All elements in their order: groups, lines, boxes, lines without a route, heads, checkpoints, labels."""
    uprights = sorted((x, min(y, v), max(y, v), edge.place) for edge in scene.edges if edge.kind in ('routed', 'loop')
                      for (x, y), (u, v) in zip(edge.line, edge.line[1:]) if x == u)
    is_plain = scene.look.is_plain
    shown = [box for box in scene.boxes if not box.is_hidden]
    for box in sorted((box for box in shown if box.is_group), key=lambda box: -box.w * box.h):
        yield drawn_box(box, scene.scale, palette, is_plain, group_corner(box, scene))
    yield from (drawn_edge(edge, uprights, scene, palette) for edge in scene.edges if edge.kind != 'lost')
    yield from (drawn_box(box, scene.scale, palette, is_plain) for box in shown if not box.is_group)
    yield from (drawn_edge(edge, uprights, scene, palette) for edge in scene.edges if edge.kind == 'lost')
    for edge in scene.edges:
        yield from drawn_heads(edge, scene, palette)
    yield from (element('circle', class_='via', cx=x, cy=y, r=3 * scene.scale) for edge in scene.edges for x, y in edge.vias)
    yield from (drawn_label(edge, centre, scene.scale) for edge, centre, _ in labels)


def svg(data, look=ROUND):
    """The picture of a diagram; raises gml.Fault for what is no diagram."""
    scene, palette = Scene(data, look), Palette()
    labels = placed_labels(scene)
    drawn = list(drawn_things(scene, labels, palette))
    x, y, w, h = view_of(scene, labels)
    pixels = min(1 / scene.scale, WIDEST / w, WIDEST / h)
    parts = [element('style', '\n', '\n'.join(style(scene.scale, palette, look.is_plain)), '\n'),
             element('rect', class_='paper', x=x, y=y, width=w, height=h, rx=6 * scene.scale), *drawn]
    return element('svg', '\n', '\n'.join(parts), '\n', xmlns='http://www.w3.org/2000/svg', width=math.ceil(w * pixels),
                   height=math.ceil(h * pixels), viewBox=' '.join(map(short, (x, y, w, h)))) + '\n'
