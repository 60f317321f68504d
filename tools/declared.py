"""What the files of the repository declare: a helper of check-pages and make-pages."""
import os
import re
import subprocess
from pathlib import PurePosixPath


class Fault(Exception):
    """Why the check cannot be made, as one line."""


class Tree:
    """The tracked files, by their paths from the top."""

    def __init__(self, top):
        self.top = top
        done = subprocess.run(['git', '-C', top, 'ls-files', '-z'], capture_output=True, check=False)
        if done.returncode:
            raise Fault(f'git ls-files: {done.stderr.decode(errors="replace").strip()}')
        self.files = os.fsdecode(done.stdout).split('\0')[:-1]
        self.tracked = set(self.files)
        self.folders = {''}.union(*(map(str, PurePosixPath(name).parents) for name in self.files)) - {'.'}
        self.texts = {}

    def text(self, path):
        """The text of a tracked file, or none where it is no text or is not there."""
        if path not in self.texts:
            try:
                with open(os.path.join(self.top, path), encoding='utf-8', newline='') as file:
                    self.texts[path] = file.read()
            except (OSError, UnicodeDecodeError):
                self.texts[path] = None
        return self.texts[path]

    def ending(self, *ends):
        return [path for path in self.files if path.endswith(ends)]

    def crates(self):
        """The crates that crates.txt names, with their lines."""
        lines = enumerate((self.text('crates.txt') or '').split('\n'), 1)
        return {hit[1]: number for number, line in lines if (hit := re.match(r'(\w+)(?: \w+)?:', line))}


MODIFIERS = set('pub abbrev record module mod data abstract private opaque macro unfoldable'.split())
TOKEN_OF_ANTT = re.compile(r'[^\s:(){},]+|[:(){},]')
WORDS_OF_RT = r'(?:pub(?:\([^)]*\))?\s+)?(?:(?:const|unsafe|ghost|async|default|extern "C")\s+)*'
ITEM_OF_RT = re.compile(rf'\s*{WORDS_OF_RT}(fn|struct|enum|trait|const|static|type|mod|union)\s+([A-Za-z_]\w*)')
MEMBER_OF_RT = re.compile(r'    (?:pub(?:\([^)]*\))?\s+)?([A-Za-z_]\w*)\s*(?:[,:({]|$)')


def antt_names(text):
    """What a file of definitions or proofs declares: its names, and the fields of its records."""
    found = set()
    for line in text.split('\n'):
        if not line.strip() or line.startswith(('--', 'use ')):
            continue
        words = TOKEN_OF_ANTT.findall(line)
        kinds = [word for word in words[:4] if word in MODIFIERS]
        words = words[len(kinds):]
        if words and (line[0] != ' ' or words[1:2] == [':'] or set(kinds) - {'pub'}):
            found.add(words[0])
    return found


def owner_of(header):
    """The type that an `impl` is of, without its parameters."""
    while re.search(r'<[^<>]*>', header):
        header = re.sub(r'<[^<>]*>', '', header.replace('->', '  '))
    hit = re.match(r'(?:unsafe\s+)?impl\s+(?:[^{]*?\sfor\s+)?&?(?:mut\s+)?(?:\w+::)*(\w+)', header)
    return hit[1] if hit else None


def rt_names(text):
    """What a file of code declares: its items, and what stands in them, alone and after the name of its owner."""
    found, owner, lines = set(), None, text.split('\n')
    for at, line in enumerate(lines):
        owner = None if line.startswith('}') else owner
        item = ITEM_OF_RT.match(line)
        if re.match(r'(?:unsafe\s+)?impl\b', line):
            owner = owner_of(' '.join(lines[at:at + 6]).split('{')[0])
        elif item:
            found.add(item[2])
            if line[0] == ' ' and owner:
                found.add(f'{owner}::{item[2]}')
            elif line[0] != ' ' and item[1] in ('struct', 'enum', 'trait', 'union') and not line.endswith((';', '}')):
                owner = item[2]
        elif owner and (member := MEMBER_OF_RT.match(line)):
            found.update((member[1], f'{owner}::{member[1]}'))
    return found


class Names:
    """The names that files declare, looked up once."""

    def __init__(self, tree):
        self.tree = tree
        self.found = {}

    def of(self, path):
        if path not in self.found:
            self.found[path] = (rt_names if path.endswith('.rt') else antt_names)(self.tree.text(path) or '')
        return self.found[path]

    def has(self, path, name):
        """Whether the name is that of the file, of its crate, or of something that it declares."""
        stem = os.path.basename(path).rsplit('.', 1)[0]
        if name == stem or f'/{path}'.endswith(f'/{name}'):
            return True
        if path.endswith('.edit'):
            return False
        crate = path.split('/')[1] if path.startswith('crates/') else stem
        name = re.sub(r'\(.*\)$|<.*>$', '', name)
        first, _, rest = name.partition('::')
        return name == crate or name in self.of(path) or first in (stem, crate) and rest in self.of(path)
