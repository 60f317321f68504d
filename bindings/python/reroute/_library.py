"""The calls of libreroute, by ctypes alone."""
import ctypes as c
import functools
import os

SONAME = 'libreroute.so.0'
BESIDE = os.path.join(os.path.dirname(os.path.realpath(__file__)), SONAME)
# Where tools/build-library --install puts it, seen from where it puts this package.
INSTALLED = os.path.join(os.path.dirname(os.path.realpath(__file__)), '..', '..', '..', '..', 'lib', SONAME)
# Until 1.0 each minor version may change calls: 0.1, as major * 256 + minor.
CALLS_OF = 1


class Fault(c.Structure):
    _fields_ = [('code', c.c_uint32), ('value', c.c_int64)]


class Point(c.Structure):
    _fields_ = [('x', c.c_int64), ('y', c.c_int64)]


class Line(c.Structure):
    _fields_ = [('connector', c.c_uint32), ('corners', c.c_size_t), ('changed', c.c_bool)]


class Directions(c.Structure):
    _fields_ = [('east', c.c_bool), ('south', c.c_bool), ('west', c.c_bool), ('north', c.c_bool)]


class BoxInfo(c.Structure):
    _fields_ = [('id', c.c_int64), ('x', c.c_int64), ('y', c.c_int64), ('w', c.c_int64), ('h', c.c_int64),
                ('pins', c.c_size_t), ('group', c.c_bool)]


class PinInfo(c.Structure):
    _fields_ = [('pin_class', c.c_uint32), ('dx', c.c_int64), ('dy', c.c_int64), ('directions', Directions)]


class ConnectorInfo(c.Structure):
    _fields_ = [('number', c.c_uint32), ('start', c.c_int64), ('start_class', c.c_uint32), ('end', c.c_int64),
                ('end_class', c.c_uint32), ('checkpoints', c.c_size_t)]


class SettingsInfo(c.Structure):
    _fields_ = [('penalty', c.c_int64), ('buffer', c.c_int64), ('nudge', c.c_int64)]


class SharedInfo(c.Structure):
    _fields_ = [(name, c.c_uint32) for name in ('a', 'b', 'first', 'last', 'b_first', 'b_last', 'back', 'ahead', 'side')]


class VerdictInfo(c.Structure):
    _fields_ = [('breach', c.c_uint32), ('place', c.c_uint32), ('box', c.c_int64), ('cost', c.c_uint64)]


class Handle(c.Structure):
    _fields_ = [('held', c.c_void_p)]


I, U, Z, HANDLE = c.c_int64, c.c_uint32, c.c_size_t, c.POINTER(Handle)
# Each call of a session: its result, and its parameters after the session.
CALLS = {
    'open': (Fault,), 'close': (None,), 'begin': (Fault,), 'commit': (Fault,), 'abort': (Fault,), 'undo': (Fault,),
    'redo': (Fault,), 'add_box': (Fault, I, I, I, I, I), 'move_box': (Fault, I, I, I), 'size_box': (Fault, I, I, I),
    'drop_box': (Fault, I), 'add_pin': (Fault, I, U, I, I, Directions), 'drop_pin': (Fault, I, U),
    'connect': (Fault, I, U, I, U, c.POINTER(U)), 'reconnect': (Fault, U, c.c_bool, I, U, c.POINTER(U)), 'next': (U,),
    'cut': (Fault, U), 'set_classes': (Fault, U, U, U),
    'add_checkpoint': (Fault, U, U, I, I), 'drop_checkpoint': (Fault, U, U), 'set_penalty': (Fault, I),
    'set_buffer': (Fault, I), 'set_nudge': (Fault, I), 'label_box': (Fault, I, c.c_char_p, Z),
    'label_connector': (Fault, U, c.c_char_p, Z), 'lines': (Fault, c.POINTER(Z)), 'line': (Line, Z),
    'corner': (c.c_bool, Z, Z, c.POINTER(Point)), 'cost': (c.c_bool, U, c.POINTER(c.c_uint64)),
    'searched': (c.c_uint64,), 'box_count': (Z,), 'connector_count': (Z,), 'preview': (Fault, c.POINTER(Z)),
    'gone_count': (Z,), 'gone': (U, Z), 'box': (c.c_bool, Z, c.POINTER(BoxInfo)), 'pin': (c.c_bool, Z, Z, c.POINTER(PinInfo)),
    'connector': (c.c_bool, Z, c.POINTER(ConnectorInfo)), 'checkpoint': (c.c_bool, Z, Z, c.POINTER(Point)),
    'settings': (c.c_bool, c.POINTER(SettingsInfo)), 'shared': (Fault, c.POINTER(SharedInfo), Z, c.POINTER(Z)),
    'crossings': (Fault, c.POINTER(c.c_uint64)), 'check': (Fault, U, c.POINTER(Point), Z, c.POINTER(VerdictInfo)),
    'open_gml': (Fault, c.c_char_p, Z), 'write_gml': (Fault, c.c_char_p, Z, c.POINTER(Z)),
    'play': (Fault, c.c_char_p, Z, c.POINTER(Z))}


def default_path() -> str:
    """The library of the variable REROUTE_LIBRARY, else that beside this file or installed with it, else the system's."""
    there = [path for path in (BESIDE, INSTALLED) if os.path.exists(path)]
    return os.environ.get('REROUTE_LIBRARY') or (there + [SONAME])[0]


@functools.lru_cache(maxsize=None)
def loaded(path: str) -> c.CDLL:
    """The library, with the types of its calls; loaded once."""
    try:
        library = c.CDLL(path)
        library.reroute_version.restype, library.reroute_version.argtypes = U, []
        version = library.reroute_version()
    except (OSError, AttributeError) as fault:
        raise ImportError(f'libreroute cannot be loaded: {fault}; REROUTE_LIBRARY may name it') from None
    if version >> 8 != CALLS_OF:
        spelled = f'{version >> 16}.{version >> 8 & 255}.{version & 255}'
        raise ImportError(f'{path} is version {spelled} of libreroute, and not 0.1')
    for name, (result, *words) in CALLS.items():
        call = getattr(library, f'reroute_{name}')
        call.restype, call.argtypes = result, [HANDLE, *words]
    library.reroute_size.restype, library.reroute_size.argtypes = Z, []
    library.reroute_ready.restype, library.reroute_ready.argtypes = None, [c.c_void_p]
    return library
