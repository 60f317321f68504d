"""The pages: their prose, code, headings, links and tables. A helper of check-pages and make-pages."""
import collections
import os
import re
import urllib.parse

CODE_SPAN = re.compile(r'(`+)(.+?)\1')
LINK = re.compile(r'(!?)\[([^\[\]]*)\]\(([^()\s]*)\)')
OUTSIDE = re.compile(r'[a-z][a-z0-9+.-]*:|//')
Link = collections.namedtuple('Link', 'line start text target')
Fence = collections.namedtuple('Fence', 'line language lines')


def slug_of(heading):
    plain = LINK.sub(lambda hit: hit[2], heading)
    return re.sub(r'[^\w\- ]', '', plain.replace('`', '').strip().lower()).replace(' ', '-')


class Page:
    """A page: its lines, those of its prose, its fences, headings, anchors and links."""

    def __init__(self, path, text):
        self.path = path
        self.lines = text.split('\n')
        self.prose = list(self.lines)
        self.fences = []
        self.open_fence = self.find_fences()
        self.headings = [(number, line.split(' ', 1)[1].strip())
                         for number, line in enumerate(self.prose, 1) if re.match('#{1,6} ', line)]
        self.links = [link for number, line in enumerate(self.prose, 1) for link in links_of(number, line)]
        slugs = [slug_of(heading) for _, heading in self.headings]
        befores = [slugs[:at].count(slug) for at, slug in enumerate(slugs)]
        self.anchors = {f'{slug}-{before}' if before else slug for slug, before in zip(slugs, befores)}

    def find_fences(self):
        """Takes the blocks of code out of the prose; answers the line of one that does not end, or 0."""
        mark = None
        for number, line in enumerate(self.lines, 1):
            hit = re.match(r' *(```+)(.*)$', line)
            if hit or mark:
                self.prose[number - 1] = ''
            if hit and not mark:
                mark = hit[1]
                self.fences.append(Fence(number, hit[2].strip(), []))
            elif hit and hit[1].startswith(mark) and not hit[2].strip():
                mark = None
            elif mark:
                self.fences[-1].lines.append(line)
        return self.fences[-1].line if mark else 0


def links_of(number, line):
    """The links of a line: those round pictures too, and none that stands in code."""
    found = []
    rest = CODE_SPAN.sub(lambda hit: hit[1] + re.sub(r'[\[\]()!]', '\0', hit[2]) + hit[1], line)
    for is_image in (True, False):
        hits = [hit for hit in LINK.finditer(rest) if bool(hit[1]) == is_image]
        found += [Link(number, hit.start(), line[hit.start(2):hit.end(2)], hit[3]) for hit in hits]
        for hit in hits:
            rest = rest[:hit.start()] + ' ' * len(hit[0]) + rest[hit.end():]
    return found


def path_of(page, target):
    """The path that a target leads to, from the top, and its anchor."""
    path, _, anchor = urllib.parse.unquote(target).partition('#')
    if not path:
        return page.path, anchor
    joined = os.path.normpath(os.path.join(os.path.dirname(page.path), path))
    return '' if joined == '.' else joined, anchor


def cells_of(line):
    """The cells of a row of a table, or none of another line."""
    return [cell.strip() for cell in re.split(r'(?<!\\)\|', line.strip(' |'))] if line.startswith('|') else []


def tables_of(page):
    """Each table of the page: the cells of its head, and its rows with their lines."""
    found, table, before = [], None, []
    for number, line in enumerate(page.prose, 1):
        cells = cells_of(line)
        if not cells:
            table = None
        elif before and re.match(r'\|[ :|-]+\|\s*$', line):
            table = before, []
            found.append(table)
        elif table:
            table[1].append((number, cells + [''] * (len(table[0]) - len(cells))))
        before = cells
    return found


def spans_of(text):
    return [hit[2] for hit in CODE_SPAN.finditer(text)]
