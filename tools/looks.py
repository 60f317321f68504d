"""How boxes and lines of a diagram look where its GML says so: colours, outlines, dashes, and heads of arrows.

Shapes, styles and arrows have the names of yEd, OGDF and Graphviz; a name that is not known is passed over. Outlines are
corners in parts of the box's width and height, from its upper left.
"""
import collections
import math
import re

import gml

# The colours that have names in CSS.
NAMED = dict(zip(*[iter('''
aliceblue f0f8ff antiquewhite faebd7 aqua 00ffff aquamarine 7fffd4 azure f0ffff beige f5f5dc bisque ffe4c4 black
000000 blanchedalmond ffebcd blue 0000ff blueviolet 8a2be2 brown a52a2a burlywood deb887 cadetblue 5f9ea0 chartreuse
7fff00 chocolate d2691e coral ff7f50 cornflowerblue 6495ed cornsilk fff8dc crimson dc143c cyan 00ffff darkblue 00008b
darkcyan 008b8b darkgoldenrod b8860b darkgray a9a9a9 darkgreen 006400 darkgrey a9a9a9 darkkhaki bdb76b darkmagenta
8b008b darkolivegreen 556b2f darkorange ff8c00 darkorchid 9932cc darkred 8b0000 darksalmon e9967a darkseagreen 8fbc8f
darkslateblue 483d8b darkslategray 2f4f4f darkslategrey 2f4f4f darkturquoise 00ced1 darkviolet 9400d3 deeppink ff1493
deepskyblue 00bfff dimgray 696969 dimgrey 696969 dodgerblue 1e90ff firebrick b22222 floralwhite fffaf0 forestgreen
228b22 fractal 808080 freeze 000000 fuchsia ff00ff gainsboro dcdcdc ghostwhite f8f8ff gold ffd700 goldenrod daa520
gray 808080 green 008000 grey 808080 honeydew f0fff0 hotpink ff69b4 indianred cd5c5c indigo 4b0082 ivory fffff0 khaki
f0e68c lavender e6e6fa lavenderblush fff0f5 lawngreen 7cfc00 lemonchiffon fffacd lightblue add8e6 lightcoral f08080
lightcyan e0ffff lightgoldenrodyellow fafad2 lightgray d3d3d3 lightgreen 90ee90 lightgrey d3d3d3 lightpink ffb6c1
lightsalmon ffa07a lightseagreen 20b2aa lightskyblue 87cefa lightslategray 778899 lightslategrey 778899 lightsteelblue
b0c4de lightyellow ffffe0 lime 00ff00 limegreen 32cd32 linen faf0e6 magenta ff00ff maroon 800000 matte 000000
mediumaquamarine 66cdaa mediumblue 0000cd mediumorchid ba55d3 mediumpurple 9370db mediumseagreen 3cb371
mediumslateblue 7b68ee mediumspringgreen 00fa9a mediumturquoise 48d1cc mediumvioletred c71585 midnightblue 191970
mintcream f5fffa mistyrose ffe4e1 moccasin ffe4b5 navajowhite ffdead navy 000080 oldlace fdf5e6 olive 808000 olivedrab
6b8e23 opaque 000000 orange ffa500 orangered ff4500 orchid da70d6 palegoldenrod eee8aa palegreen 98fb98 paleturquoise
afeeee palevioletred db7093 papayawhip ffefd5 peachpuff ffdab9 peru cd853f pink ffc0cb plum dda0dd powderblue b0e0e6
purple 800080 red ff0000 rosybrown bc8f8f royalblue 4169e1 saddlebrown 8b4513 salmon fa8072 sandybrown f4a460 seagreen
2e8b57 seashell fff5ee sienna a0522d silver c0c0c0 skyblue 87ceeb slateblue 6a5acd slategray 708090 slategrey 708090
snow fffafa springgreen 00ff7f steelblue 4682b4 tan d2b48c teal 008080 thistle d8bfd8 tomato ff6347 turquoise 40e0d0
violet ee82ee wheat f5deb3 white ffffff whitesmoke f5f5f5 yellow ffff00 yellowgreen 9acd32
'''.split())] * 2))
HEX = re.compile(r'#?([0-9a-f]{3,4}|[0-9a-f]{6}|[0-9a-f]{8})')
GREY = re.compile(r'gr[ae]y(\d\d?|100)')
# By whether a style speaks of dashes, and whether of dots.
DASHES = {(False, False): (), (True, False): (5, 4), (False, True): (1.5, 3), (True, True): (6, 3, 1.5, 3)}

# ---- colours ----


def colour_of(value):
    """A colour of GML as #rrggbb; None for one that is not known, and for black and white, which are those of the paper."""
    name = gml.text_of(value).strip().lower()
    hit, grey = HEX.fullmatch(name), GREY.fullmatch(name)
    if grey:
        digits = f'{round(int(grey[1]) * 2.55):02x}' * 3
    elif name in NAMED or not hit:
        digits = NAMED.get(name)
    else:
        digits = hit[1][:6] if len(hit[1]) > 4 else ''.join(c * 2 for c in hit[1][:3])
    return None if digits in (None, '000000', 'ffffff') else f'#{digits}'


def parts_of(colour):
    return [int(colour[i:i + 2], 16) for i in (1, 3, 5)]


def brightness(colour):
    """The relative luminance, as the rules for readable pages on the Web reckon it."""
    red, green, blue = ((part / 255 / 12.92 if part <= 10 else ((part / 255 + 0.055) / 1.055) ** 2.4)
                        for part in parts_of(colour))
    return 0.2126 * red + 0.7152 * green + 0.0722 * blue


def contrast(one, other):
    low, high = sorted((brightness(one), brightness(other)))
    return (high + 0.05) / (low + 0.05)


def readable_on(paper, colour):
    """The colour, mixed with white until a line of it is seen on dark paper."""
    for step in range(11):
        mixed = '#' + ''.join(f'{round(part + (255 - part) * step / 10):02x}' for part in parts_of(colour))
        if contrast(paper, mixed) >= 3.5:
            break
    return mixed


def dash_of(value):
    """The lengths of dashes and gaps of a style, in widths of a thin line; none for a solid line."""
    text = gml.text_of(value).lower()
    return DASHES['dash' in text, 'dot' in text]


# ---- outlines of boxes ----

Shape = collections.namedtuple('Shape', 'kind corners')
CORNERS = {
    'diamond': '.5 0 1 .5 .5 1 0 .5', 'triangle': '.5 0 1 1 0 1', 'invtriangle': '0 0 1 0 .5 1',
    'parallelogram': '.2 0 1 0 .8 1 0 1', 'invparallelogram': '0 0 .8 0 1 1 .2 1',
    'trapezium': '.2 0 .8 0 1 1 0 1', 'invtrapezium': '0 0 1 0 .8 1 .2 1',
    'pentagon': '.5 0 1 .38 .81 1 .19 1 0 .38', 'hexagon': '.2 0 .8 0 1 .5 .8 1 .2 1 0 .5',
    'octagon': '.29 0 .71 0 1 .29 1 .71 .71 1 .29 1 0 .71 0 .29', 'house': '.5 0 1 .38 1 1 0 1 0 .38',
    'invhouse': '0 0 1 0 1 .62 .5 1 0 .62',
    'star': '.5 0 .62 .38 1 .38 .69 .62 .81 1 .5 .76 .19 1 .31 .62 0 .38 .38 .38',
    'note': '0 0 .86 0 1 .25 1 1 0 1', 'tab': '0 0 .4 0 .4 .15 1 .15 1 1 0 1'}
# The names that other tools have for these, and for what has no corners.
ALIASES = {
    'ellipse': 'ellipse', 'circle': 'ellipse', 'oval': 'ellipse', 'egg': 'ellipse', 'mcircle': 'ellipse', 'doublecircle': 'double',
    'point': 'point', 'cylinder': 'cylinder', 'roundrectangle': 'rounded', 'mrecord': 'rounded', 'plaintext': 'bare',
    'plain': 'bare', 'none': 'bare', 'underline': 'bare', 'mdiamond': 'diamond', 'rhomb': 'diamond', 'trapezoid': 'trapezium',
    'trapeze': 'trapezium', 'trapezoid2': 'invtrapezium', 'invtrapeze': 'invtrapezium', 'doubleoctagon': 'octagon',
    'tripleoctagon': 'octagon', 'folder': 'tab', 'star5': 'star', 'star6': 'star', 'star8': 'star'}
# How much of its width an outline leaves to the text.
ROOM = {'ellipse': 0.86, 'double': 0.8, 'diamond': 0.72, 'triangle': 0.62, 'invtriangle': 0.62, 'star': 0.6, 'parallelogram': 0.8,
        'invparallelogram': 0.8, 'trapezium': 0.85, 'invtrapezium': 0.85, 'hexagon': 0.85}
# How far below the middle its text stands, in heights of the box.
LOWER = {'triangle': 0.18, 'invtriangle': -0.18, 'house': 0.1, 'invhouse': -0.1, 'pentagon': 0.06, 'tab': 0.07,
         'cylinder': 0.06}
CAP, POINTS = 0.1, 32


def arc(x, y, across, along, start, end):
    """Corners along a part of an ellipse, from one angle to another, in turns."""
    turns = [start + (end - start) * k / POINTS for k in range(POINTS + 1)]
    return [(x + across * math.cos(2 * math.pi * turn), y + along * math.sin(2 * math.pi * turn)) for turn in turns]


def shape_of(graphics):
    """The shape that a node's graphics name; a rectangle where they name none that is known."""
    name = gml.text_of(gml.first(graphics, 'type')).lower()
    kind = name if name in CORNERS else ALIASES.get(name, 'rectangle')
    if kind == 'rectangle' and 'rounded' in gml.text_of(gml.first(graphics, 'style')).lower():
        kind = 'rounded'
    if kind in CORNERS:
        numbers = [float(word) for word in CORNERS[kind].split()]
        return Shape(kind, list(zip(numbers[::2], numbers[1::2])))
    if kind in ('ellipse', 'double', 'point'):
        return Shape(kind, arc(0.5, 0.5, 0.5, 0.5, 0, 1))
    if kind == 'cylinder':
        return Shape(kind, arc(0.5, CAP, 0.5, CAP, 0.5, 1) + arc(0.5, 1 - CAP, 0.5, CAP, 0, 0.5))
    return Shape(kind, None)


def touched(corners, box, end, step):
    """Where the straight line from an end on the box's border, which goes on by this step, first meets the outline."""
    spots = [(box.left + x * box.w, box.top + y * box.h) for x, y in corners]
    parts = []
    for (x, y), (u, v) in zip(spots, spots[1:] + spots[:1]):
        across = step[0] * (v - y) - step[1] * (u - x)
        if across:
            part = ((x - end[0]) * (v - y) - (y - end[1]) * (u - x)) / across
            along = ((x - end[0]) * step[1] - (y - end[1]) * step[0]) / across
            if part >= -1e-6 and 0 <= along <= 1:
                parts.append(part)
    part = min(parts, default=0.0)
    return end[0] + part * step[0], end[1] + part * step[1]


# ---- heads of arrows ----

# The corners of each head, the first being its tip at 0 0, which points to the right; whether it is closed, and how far
# behind its tip the line ends.
Head = collections.namedtuple('Head', 'corners is_closed ends')
HEADS = {
    'delta': Head('0 0 -1 -.42 -1 .42', True, 0.9), 'open': Head('-1 -.42 0 0 -1 .42', False, 0.1),
    'diamond': Head('0 0 -.6 -.38 -1.2 0 -.6 .38', True, 1.1), 'box': Head('0 -.38 -.76 -.38 -.76 .38 0 .38', True, 0.7),
    'circle': Head('', True, 0.7), 'tee': Head('-.15 -.45 -.15 .45', False, 0.0),
    'crow': Head('0 -.45 -1 0 0 .45', False, 0.0)}
ARROWS = {
    'none': None, 'normal': 'delta', 'inv': 'delta', 'standard': 'delta', 'empty': 'delta', 'vee': 'open', 'open': 'open',
    'plain': 'open', 'halfopen': 'open', 'short': 'delta', 'dot': 'circle', 'square': 'box', 't_shape': 'tee', 'dash': 'tee'}


def head_of(value):
    """The kind of head that an arrow's name means, and whether it is hollow; None for no head."""
    name = gml.text_of(value).lower().strip()
    kind = re.sub(r'^(white_|transparent_|o(?=normal|diamond|box|dot)|e(?=diamond|box))', '', name)
    is_hollow = kind != name or name == 'empty'
    if kind.startswith('crow'):
        kind = 'crow'
    kind = ARROWS.get(kind, kind)
    return None if kind is None else (kind if kind in HEADS else 'delta', is_hollow)


def heads_of(edge_pairs, graphics, is_directed):
    """The heads at both ends. Without a word of the file a directed edge has one at its target."""
    named = [gml.first(graphics, key, gml.first(edge_pairs, key)) for key in ('sourceArrow', 'targetArrow')]
    if named != [None, None]:
        return tuple(None if name is None else head_of(name) for name in named)
    ends = gml.text_of(gml.first(graphics, 'arrow')).lower()
    if ends in ('none', 'first', 'last', 'both'):
        return tuple(('delta', False) if ends in (way, 'both') else None for way in ('first', 'last'))
    return (None, ('delta', False) if is_directed else None)
