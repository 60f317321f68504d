"""Reads and writes GML, for all tools: the pairs of a file as they stand in it, and the boxes and edges of a diagram.

    graph = gml.graph_of(data)                # the pairs of the first list graph; data are bytes
    diagram = gml.read(data)                  # its settings, nodes and edges as reroute reads them, lengths in thousandths
    gml.first(node.pairs, 'fill')             # further keys of a node or an edge
    gml.written(gml.parse(data))              # the same text as reroute prints it

A value is a list of pairs, or a text as it is spelled in the file, a string in its quotes; `text_of` takes these off.
Repeated keys, their order, and the spelling of numbers are kept. What is no GML or no diagram raises `Fault`, which says
where, as `line 3, column 7`, in one line.
"""
import collections
import decimal
import html
import re
import sys

TOKEN = re.compile(rb'[ \t\n\r]+|#[^\n]*|("[^"]*"|[\w+.-]+|[\[\]])', re.ASCII)
KEY = re.compile(r'[A-Za-z_][A-Za-z0-9_]*', re.ASCII)
NUMBER = re.compile(r'([+-]?)(\d+\.?\d*|\.\d+)(?:[eE]([+-]?\d+))?', re.ASCII)
WHOLE = re.compile(r'[+-]?\d{1,18}', re.ASCII)
REFUSAL = re.compile(rb'(words: |diagram: |read fault: |too long: |edge 1: )[^\n]*')
VERSION = '0.1.0'        # of all tools
MOST_LISTS = 64
FARTHEST = 2 * 10**9
ALL_SIDES = 'ESWN'

Pair = collections.namedtuple('Pair', 'key value at')
# Lengths are whole thousandths; the offset of a pin is from the centre of its box. A node's `at` is its offset in the file.
Pin = collections.namedtuple('Pin', 'kind x y sides')
Node = collections.namedtuple('Node', 'place at id x y w h is_group pins pairs')
Edge = collections.namedtuple('Edge', 'place at source target classes vias line pairs')
Diagram = collections.namedtuple('Diagram', 'penalty buffer nudge nodes edges graph')


class Fault(Exception):
    """What is wrong with the input, as one line; `at` is the offset where it is, if it is known."""

    def __init__(self, text, at=None):
        super().__init__(text)
        self.at = at


# ---- pairs ----

def place_of(data, at):
    return f'line {data.count(10, 0, at) + 1}, column {at - data.rfind(10, 0, at)}'


def fits(word, key, depth):
    """Whether the word may stand where it stands: after a key, or where a key may stand."""
    if key is None:
        return depth > 0 if word == ']' else bool(KEY.fullmatch(word))
    return word == '[' or word[0] == '"' or bool(NUMBER.fullmatch(word))


def parse(data):
    """The pairs of a document."""
    at, key, begun, found, above = 0, None, 0, [], []
    while at < len(data):
        hit = TOKEN.match(data, at)
        word = (hit.group(1) or b'').decode('latin-1') if hit else '?'
        if word and not fits(word, key, len(above)):
            raise Fault(f'not GML at {place_of(data, at)}', at)
        if word == ']':
            found = above.pop()
        elif word and key is None:
            key, begun = word, at
        elif word:
            found.append(Pair(key, [] if word == '[' else word, begun))
            if word == '[':
                if len(above) == MOST_LISTS:
                    raise Fault(f'more than {MOST_LISTS} lists in each other at {place_of(data, at)}', at)
                above.append(found)
                found = found[-1].value
            key = None
        at = hit.end()
    if above or key is not None:
        raise Fault('not GML: the file ends inside a list or after a key', len(data))
    return found


def first(pairs, key, other=None):
    return next((pair.value for pair in pairs if pair.key == key), other)


def first_list(pairs, key):
    """The pairs of the first list of this key; none where there is no such list."""
    return next((pair.value for pair in pairs if pair.key == key and isinstance(pair.value, list)), [])


def list_pairs(pairs, key):
    return [pair for pair in pairs if pair.key == key and isinstance(pair.value, list)]


def lists(pairs, key):
    return [pair.value for pair in list_pairs(pairs, key)]


def graph_of(data):
    """The pairs of the first list graph."""
    refusal = REFUSAL.match(data)
    if refusal:
        raise Fault(f'the input is not a diagram but an answer of reroute: {refusal.group().decode("utf-8", "replace")}')
    found = list_pairs(parse(data), 'graph')
    if not found:
        raise Fault('there is no list graph in the input')
    return found[0].value


# ---- values ----

def milli_of(value):
    """A number in whole thousandths, halves away from zero; None where it is none, far out where it is too large."""
    hit = NUMBER.fullmatch(value) if isinstance(value, str) else None
    if not hit:
        return None
    sign, mantissa, exponent = hit.groups()
    digits = (exponent or '0').lstrip('+-').lstrip('0') or '0'
    power = int(digits[:9]) if len(digits) < 10 else 10**9
    power = -power if (exponent or '').startswith('-') else power
    found = decimal.Decimal(mantissa)
    high = found.adjusted() + power
    if not found or high < -6:
        return 0
    if high > 12:
        far = 10**16
    else:
        exact = decimal.Context(prec=len(mantissa) + 40, Emax=10**9, Emin=-10**9)
        far = int(found.scaleb(power + 3, exact).quantize(1, decimal.ROUND_HALF_UP, exact))
    return -far if sign == '-' else far


def milli(pairs, key, where, default=None, most=FARTHEST):
    """The number of a key in whole thousandths; `default` where the key is missing."""
    value = first(pairs, key)
    if value is None and default is not None:
        return default
    found = milli_of(value)
    if found is None:
        raise Fault(f'{where}: {key} is {"missing" if value is None else "no number"}')
    if abs(found) > most:
        raise Fault(f'{where}: {key} is beyond {most // 1000:,}')
    return found


def whole(pairs, key, where, default=None):
    value = first(pairs, key)
    if value is None and default is not None:
        return default
    if not isinstance(value, str) or not WHOLE.fullmatch(value):
        raise Fault(f'{where}: {key} is {"missing" if value is None else "no whole number"}')
    return int(value)


def text_of(value):
    """A string without its quotes and escapes, with the characters that may stand in XML; '' for a list or None."""
    if not isinstance(value, str):
        return ''
    raw = value.strip('"').encode('latin-1')
    try:
        text = raw.decode('utf-8')
    except UnicodeDecodeError:
        text = raw.decode('latin-1')
    return ''.join(c for c in html.unescape(text) if c in '\n\t' or (c >= ' ' and not 0x7f <= ord(c) < 0xa0
                                                                   and not 0xd800 <= ord(c) < 0xe000
                                                                   and ord(c) & 0xfffe != 0xfffe))


# ---- diagrams ----

def point(pairs, where):
    return milli(pairs, 'x', where), milli(pairs, 'y', where)


def points(pairs, key, where):
    return tuple(point(spot, f'{where}, {key} {k}') for k, spot in enumerate(lists(pairs, key), 1))


def pin(pairs, where):
    sides = first(pairs, 'dirs', f'"{ALL_SIDES}"')
    sides = sides.strip('"') if isinstance(sides, str) else ''
    if not sides or len(set(sides)) < len(sides) or set(sides) - set(ALL_SIDES):
        raise Fault(f'{where}: dirs is not one to four different letters of E, S, W, N')
    return Pin(whole(pairs, 'class', where), *point(pairs, where), sides)


def node(pair, place, data):
    where = f'node {place} ({place_of(data, pair.at)})'
    graphics = first(pair.value, 'graphics')
    if not isinstance(graphics, list):
        raise Fault(f'{where}: there is no list graphics, so it has no place', pair.at)
    w, h = milli(graphics, 'w', where, 30000), milli(graphics, 'h', where, 30000)
    if min(w, h) < 0:
        raise Fault(f'{where}: a size is negative', pair.at)
    pins = tuple(pin(found, f'{where}, pin {k}') for k, found in enumerate(lists(pair.value, 'pin'), 1))
    return Node(place, pair.at, whole(pair.value, 'id', where), *point(graphics, where), w, h,
                milli_of(first(pair.value, 'isGroup')) == 1000, pins, pair.value)


def edge(pair, place, data, ids):
    """An edge between nodes of these ids. Of a loop, reroute reads neither classes nor checkpoints."""
    where = f'edge {place} ({place_of(data, pair.at)})'
    ends = [whole(pair.value, key, where) for key in ('source', 'target')]
    for key, end in zip(('source', 'target'), ends):
        if end not in ids:
            raise Fault(f'{where}: its {key} {end} is the id of no node', pair.at)
    is_loop = ends[0] == ends[1]
    classes = (0, 0) if is_loop else tuple(whole(pair.value, key, where, 0) for key in ('sourcePin', 'targetPin'))
    line = first_list(first_list(pair.value, 'graphics'), 'Line')
    return Edge(place, pair.at, *ends, classes, () if is_loop else points(pair.value, 'via', where),
                points(line, 'point', where), pair.value)


def read(data):
    """The diagram in some bytes: its settings with their defaults, its nodes and its edges."""
    graph, nodes = graph_of(data), {}
    router = first_list(graph, 'router')
    settings = [milli(router, key, 'router', default) for key, default in
                (('penalty', 50000), ('buffer', 4000), ('nudge', 4000))]
    for place, pair in enumerate(list_pairs(graph, 'node'), 1):
        found = node(pair, place, data)
        if nodes.setdefault(found.id, found) is not found:
            raise Fault(f'node {place} ({place_of(data, pair.at)}): the id {found.id} stands twice', pair.at)
    edges = [edge(pair, place, data, nodes) for place, pair in enumerate(list_pairs(graph, 'edge'), 1)]
    return Diagram(*settings, list(nodes.values()), edges, graph)


# ---- writing ----

def units(value):
    """A length in thousandths as reroute writes it, in units with three digits after the point."""
    return f'{"-" if value < 0 else ""}{abs(value) // 1000}.{abs(value) % 1000:03}'


def short_units(value):
    """The same without zeros at its end."""
    return units(value).rstrip('0').rstrip('.')


def quoted(text):
    """A text as a string of GML, in ASCII."""
    text = text.replace('&', '&amp;').replace('"', '&quot;')
    return '"' + ''.join(c if c == '\n' or ' ' <= c <= '~' else f'&#{ord(c)};' for c in text) + '"'


def written(pairs, depth=0):
    """Pairs (key, value, ..) as reroute prints them: each on a line of its own, two spaces for each open list."""
    indent, rows = '  ' * depth, []
    for key, value, *_ in pairs:
        if isinstance(value, list):
            rows.append(f'{indent}{key} [\n{written(value, depth + 1)}{indent}]\n')
        else:
            rows.append(f'{indent}{key} {value}\n')
    return ''.join(rows)


# ---- files ----

def read_file(name):
    """The bytes of a file, or of standard input for -."""
    if name == '-':
        return sys.stdin.buffer.read()
    with open(name, 'rb') as file:
        return file.read()
