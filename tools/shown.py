"""Runs the commands that pages show, and compares outputs, statuses and pictures: a helper of check-pages."""
import os
import pathlib
import re
import shutil
import subprocess
import tempfile

from declared import Fault
from pages import spans_of, tables_of

# The pages whose commands are run, and the names in them of the tools.
RUN_PAGES = ('docs/GUIDE.md', 'docs/SPECIFICATION.md', 'examples/README.md', 'examples/other_tools/README.md')
TOOLS = {'reroute-svg': 'reroute-svg', 'reroute-pins': 'reroute-pins', 'from-dot': 'from-dot',
         'reroute-explain': 'explain', 'reroute-draw': 'reroute-draw'}
PROGRAMS = {'reroute', 'cat', 'sed', *TOOLS}
SUBCOMMANDS = ('check', 'route', 'make', 'preview', 'shared', 'prove', 'audit')
# The pictures, and the commands that draw them, in the folder of the examples.
PICTURES = {
    'services': 'reroute-draw services.gml',
    'before_move': 'reroute route move_a_box.gml /dev/null | reroute-svg',
    'after_move': 'reroute route move_a_box.gml move_a_box.script | reroute-svg',
    **{name: f'reroute route {name}.gml {name}.script | reroute-svg'
       for name in ('round_a_box', 'parallel_edges', 'narrow_channel')},
    'with_pins': 'from-dot orders.plain | reroute route /dev/stdin /dev/null | reroute-svg',
    'without_pins': 'from-dot --without-pins orders.plain | reroute route /dev/stdin /dev/null | reroute-svg'}
# What begins like this in a sentence is an output.
OUTPUT = re.compile(r'# |diagram: |edge \d|words: |read fault: |too long: |audit: |shared \d|crossings \d|preview \d')
RUN = rf'reroute (?:{"|".join(SUBCOMMANDS)}) [^`]+'


class Bench:
    """A temporary folder in which the commands of one page are run, with all examples."""

    def __init__(self, tree, program, folder):
        self.work, path = f'{folder}/work', f'{folder}/bin'
        os.mkdir(self.work)
        os.makedirs(path)
        program = os.path.abspath(program)
        live = os.path.join(os.path.dirname(program), 'reroute_live')
        self.has_live = os.path.exists(live)
        programs = {'reroute': program, **({'reroute_live': live} if self.has_live else {})}
        for name, target in {**programs, **{name: f'{tree.top}/tools/{tool}' for name, tool in TOOLS.items()}}.items():
            os.symlink(target, f'{path}/{name}')
        # (the executables that the tools take in place of those of the repository)
        of_tools = {name.upper(): target for name, target in programs.items()}
        self.environment = {**os.environ, **of_tools, 'PATH': f'{path}:{os.environ.get("PATH", "")}'}
        for example in tree.files:
            if re.match(r'examples/(other_tools/)?[\w.]+\.(gml|script|plain|dot)$', example):
                shutil.copy(f'{tree.top}/{example}', self.work)

    def file(self, name):
        return pathlib.Path(self.work, name)

    def may_run(self, command):
        """Whether the line is of known programs alone, on files that are there."""
        if not self.has_live and re.search('reroute-(draw|pins)|from-dot', command):
            return False
        if re.search(r'[;&$`\\*?~]|\.\.|\b(?:FILE|SEED|N)\b', command):
            return False
        command = re.sub(r"'[^']*'", 'QUOTED', re.sub(r'(?:>|-o) *[\w.-]+', '', command))
        files = re.findall(r'\S+\.(?:gml|script|dot|plain|svg|proof)(?!\S)', command)
        first = [(stage.split() or [''])[0] for stage in command.split('|')]
        return PROGRAMS.issuperset(first) and all(self.file(name).exists() for name in files)

    def run(self, command):
        """The status of a line and its standard output, or what it says on standard error where it prints nothing."""
        try:
            done = subprocess.run(['sh', '-c', command], cwd=self.work, env=self.environment, stdin=subprocess.DEVNULL,
                                  capture_output=True, timeout=120, check=False)
        except subprocess.TimeoutExpired:
            raise Fault(f'`{command}` has not ended after 120 s') from None
        return done.returncode, (done.stdout or done.stderr).decode(errors='replace')


class Shown:
    """What one page shows, run part by part: `before` is the last paragraph, `last` the last command and its output."""

    def __init__(self, page, bench, report):
        self.page, self.bench, self.report, self.before, self.last = page, bench, report, '', None

    def say(self, line, text):
        self.report.say(self.page.path, line, text)

    def run(self, line, command, status=None):
        """The output of a command, if it can be run, or none; the status is compared where one is given."""
        if not self.bench.may_run(command):
            return None
        self.report.counts['commands run'] += 1
        ended, output = self.bench.run(command)
        if status not in (None, ended):
            self.say(line, f'`{command}` ended with the status {ended}, and not {status}: {output[:80].strip()!r}')
        return output

    def parts(self):
        """The paragraphs and the blocks of code of the page, in their order."""
        fences, at = {fence.line: fence for fence in self.page.fences}, 1
        while at <= len(self.page.lines):
            start = at
            while at <= len(self.page.lines) and self.page.prose[at - 1].strip():
                at += 1
            if at > start:
                self.paragraph(start, ' '.join(self.page.prose[start - 1:at - 1]))
            elif at in fences:
                self.block(fences[at])
                at += len(fences[at].lines) + 2
            else:
                at += 1

    def has_lines(self, line, name, output, said):
        for text in spans_of(said):
            if OUTPUT.match(text) and text not in output.split('\n'):
                self.say(line, f'`{name}` does not print `{text}`')

    def paragraph(self, line, text):
        """Outputs that stand in a sentence after the command that prints them, or after the file that has them."""
        for command, said in re.findall(rf'`({RUN})`([^`]*?\bprints\b(?:[^.`]|`[^`]*`)*)?', text):
            output = self.run(line, command)
            if output is not None:
                self.has_lines(line, command, output, said)
        for name, said in re.findall(r'`([\w.-]+\.gml)` begins with((?:[^.`]|`[^`]*`)*)', text):
            if self.bench.file(name).exists():
                self.has_lines(line, name, self.bench.file(name).read_text(encoding='utf-8'), said)
        self.before = text

    def block(self, fence):
        """A block of commands, or one that shows a file, or what a command prints."""
        named = re.findall(r'\b(?:into|as|[Tt]his(?: one)?,) `([\w.-]+\.(?:gml|script))`', self.before)
        command = re.search(rf'`({RUN})`[^`]*?\bprints\b', self.before)
        if fence.language == 'sh':
            for at, line in enumerate(map(str.strip, fence.lines), fence.line + 1):
                self.last = line, self.run(at, line, 0)
        elif fence.language:
            return
        elif named:
            self.bench.file(named[-1]).write_text('\n'.join(fence.lines + ['']), encoding='utf-8')
        elif command:
            self.compare(fence, command[1], self.run(fence.line, command[1]) or '')
        elif re.search(r'\bthis prints$', self.before.rstrip(': ')) and self.last and self.last[1] is not None:
            self.compare(fence, *self.last)

    def compare(self, fence, command, output):
        lines = output.rstrip('\n').split('\n')
        if lines[:len(fence.lines)] != fence.lines:
            self.say(fence.line, f'`{command}` prints something else: {lines[:2]!r}')

    def tables(self):
        for head, rows in tables_of(self.page):
            for line, cells in rows:
                if head[-2:] == ['command', 'status']:
                    self.example(line, cells)
                elif head == ['bytes', 'answer']:
                    self.bytes_row(line, cells)

    def example(self, line, cells):
        """A row with commands and their statuses; what the row shows in backquotes stands in an output."""
        pairs = zip(spans_of(cells[-2]), cells[-1].split(', '))
        outputs = ''.join(self.run(line, f'reroute {command}', int(status)) or '' for command, status in pairs)
        for text in spans_of(cells[1]):
            if outputs and text not in outputs and text not in SUBCOMMANDS:
                self.say(line, f'no output has `{text}`')

    def bytes_row(self, line, cells):
        """A file of some bytes, and the fault that `check` finds in it."""
        count, text = re.fullmatch(r'(?:(\d+) times )?`([^`]+)`', cells[0]).groups()
        self.bench.file('bytes.gml').write_text(text * int(count or 1), encoding='utf-8')
        output = self.run(line, 'reroute check bytes.gml', 3)
        if output != f'diagram: {cells[1].replace("`", "")}\n':
            self.say(line, f'`check` prints {output!r}')


def check_pictures(tree, bench, report):
    """The pictures are as their commands draw them."""
    for path in tree.files:
        name = re.match(r'docs/pictures/(.*)\.svg$', path)
        if name and name[1] not in PICTURES:
            report.say(path, 1, 'PICTURES of tools/shown.py has no command for it')
        elif name and bench.may_run(command := PICTURES[name[1]]):
            report.counts['pictures'] += 1
            if bench.run(command)[1] != tree.text(path):
                report.say(path, 1, f'`{command}` draws another picture')


def check(tree, pages, program, report):
    for path in RUN_PAGES:
        with tempfile.TemporaryDirectory() as folder:
            page = Shown(pages[path], Bench(tree, program, folder), report)
            page.parts()
            page.tables()
    with tempfile.TemporaryDirectory() as folder:
        check_pictures(tree, Bench(tree, program, folder), report)
