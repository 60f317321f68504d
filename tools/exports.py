"""The exports of the library for C, for tools/build-library and tools/build-wasm; it is no program itself.

It reads them from the sources of the crate reroute_c, makes a program of the crate so that each is lowered, and finds them in
the text of the module that comes of that.
"""
import os
import re

CRATE = f'{os.path.dirname(os.path.dirname(os.path.realpath(__file__)))}/crates/reroute_c'


def sources():
    for name in sorted(os.listdir(f'{CRATE}/src')):
        with open(f'{CRATE}/src/{name}') as file:
            yield name[:-len('.rt')], file.read()


EXPORT = re.compile(r'#\[unsafe\(no_mangle\)\]\npub (?:unsafe )?extern "C" fn (\w+)\(([^)]*)\)(?: -> (\w+))?')


def exports():
    """Each export: its module, its parameters' types and its result's."""
    found = {}
    for module, text in sources():
        for name, words, result in EXPORT.findall(text):
            types = [word.split(':', 1)[1].strip() for word in words.split(',') if word.strip()]
            found[name] = (module, types, result)
    return found


VALUES = {'Global': 'alloc', '&mut Handle': 'handle', 'i64': '0', 'u32': '0', 'usize': '0', '&mut u32': '&mut number',
          '&mut u64': '&mut cost', '&mut usize': '&mut count', '&mut Corner': '&mut corner', '*mut u8': 'at',
          '&[u8]': 'b"graph [ ]"', '&mut [u8]': '&mut bytes[..]',
          '&mut BoxInfo': '&mut a_box', '&mut PinInfo': '&mut pin', '&mut ConnectorInfo': '&mut connector',
          '&mut SettingsInfo': '&mut settings', 'bool': 'true', '&mut [SharedInfo]': '&mut shared[..]', '&[Corner]': '&corners[..]',
          '&mut Verdict': '&mut verdict',
          'Directions': 'crate::edits::Directions { east: true, south: true, west: true, north: true }'}
MAIN = '''
fn main(rt: HostRuntime) -> std::io::Result<()> {
    let alloc = rt.alloc();
    let mut room = [0u64; 512];
    let at = &mut room as *mut [u64; 512] as *mut u8;
    let handle = unsafe { &mut *(at as *mut crate::handle::Handle) };
    let (mut number, mut cost, mut count) = (0u32, 0u64, 0usize);
    let mut corner = crate::lines::Corner { x: 0, y: 0 };
    let mut bytes = [0u8; 8];
    let mut a_box = crate::scene::BoxInfo { id: 0, x: 0, y: 0, w: 0, h: 0, pins: 0, group: false };
    let directions = crate::edits::Directions { east: true, south: true, west: true, north: true };
    let mut pin = crate::scene::PinInfo { class: 0, dx: 0, dy: 0, directions };
    let mut connector = crate::scene::ConnectorInfo { number: 0, from: 0, from_class: 0, to: 0, to_class: 0, checkpoints: 0 };
    let mut settings = crate::scene::SettingsInfo { penalty: 0, buffer: 0, nudge: 0 };
    let mut shared = [crate::checks::SharedInfo { a: 0, b: 0, first: 0, last: 0, b_first: 0, b_last: 0, back: 0, ahead: 0, side: 0 }];
    let corners = [crate::lines::Corner { x: 0, y: 0 }];
    let mut verdict = crate::checks::Verdict { breach: 0, place: 0, hit: 0, cost: 0 };
%s    Ok(())
}
'''


def as_program(folder):
    """Makes a program of the crate in the folder, whose main names each export, so that each is lowered. It is not run."""
    crate = f'{folder}/crates/reroute_c'
    os.rename(f'{crate}/src/lib.rt', f'{crate}/src/main.rt')
    lines = ''
    for name, (module, types, _) in exports().items():
        call = f'crate::{module}::{name}({", ".join(VALUES[kind] for kind in types)})'
        lines += f'    unsafe {{ {call} }};\n' if '*mut u8' in types else f'    let _ = {call};\n'
    with open(f'{crate}/src/main.rt', 'a') as file:
        file.write(MAIN % lines)
    with open(f'{folder}/crates.txt') as file:
        text = file.read()
    with open(f'{folder}/crates.txt', 'w') as file:
        file.write(text.replace('reroute_c staticlib:', 'reroute_c:'))


SHOWN = re.compile(r'^define internal (?P<result>.*?) @"reroute_c::\w+::(?P<name>reroute_\w+)"\((?P<words>.*)\) #0 \{$')


def show_exports(path, shown_export):
    """Adds a function to the module for each export that a host can call; `shown_export` gives its text."""
    with open(path) as file:
        found = [match for match in map(SHOWN.match, file) if match]
    with open(path, 'a') as file:
        for match in found:
            _, types, struct = exports()[match['name']]
            words = [word for word in match['words'].split(', ') if word]
            file.write(shown_export(match['result'], match['name'], words, types, struct))
