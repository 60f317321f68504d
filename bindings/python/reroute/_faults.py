"""What a call is refused for, and what is refused before a call."""
import enum
import math
import operator
from typing import SupportsFloat, SupportsIndex, Union

__all__ = ['Code', 'Refused', 'milli', 'whole']


class Code(enum.IntEnum):
    """The codes of `Refused.code`, as `reroute.h` has them."""
    SYNTAX = 1
    NO_TRANSACTION = 2
    ALREADY_OPEN = 3
    UNKNOWN_NODE = 4
    UNKNOWN_EDGE = 5
    NODE_EXISTS = 6
    NODE_IN_USE = 7
    SAME_NODE = 8
    OUT_OF_RANGE = 9
    PIN_OUTSIDE = 10
    UNKNOWN_PIN_CLASS = 11
    NO_SUCH_PLACE = 12
    TOO_MANY = 13
    NOTHING_TO_UNDO = 14
    NOTHING_TO_REDO = 15
    PIN_IN_USE = 17
    NO_SESSION = 98
    GML_SYNTAX = 101
    GML_TOO_DEEP = 102
    NO_GRAPH = 103
    BAD_ID = 104
    SAME_ID = 105
    NO_PLACE = 106
    BAD_PIN = 107
    BAD_END = 108
    BAD_VIA = 109
    BAD_WEIGHT = 110
    ROUTER_BAD_NUMBER = 111
    NODE_BAD_NUMBER = 112
    ROUTER_OUT_OF_RANGE = 121
    NODE_OUT_OF_RANGE = 122
    TOO_MANY_NODES = 132
    TOO_MANY_EDGES = 133
    TOO_MANY_PINS = 134
    TOO_MANY_VIAS = 135


DIAGRAM_NAMES = {
    Code.GML_SYNTAX: 'Syntax at', Code.GML_TOO_DEEP: 'TooDeep at', Code.NO_GRAPH: 'NoGraph', Code.BAD_ID: 'BadId node',
    Code.SAME_ID: 'SameId node', Code.NO_PLACE: 'NoPlace node', Code.BAD_PIN: 'BadPin node', Code.BAD_END: 'BadEnd edge',
    Code.BAD_VIA: 'BadVia edge', Code.BAD_WEIGHT: 'BadWeight edge', Code.ROUTER_BAD_NUMBER: 'BadNumber router',
    Code.NODE_BAD_NUMBER: 'BadNumber node', Code.ROUTER_OUT_OF_RANGE: 'OutOfRange router',
    Code.NODE_OUT_OF_RANGE: 'OutOfRange node', Code.TOO_MANY_NODES: 'TooMany node', Code.TOO_MANY_EDGES: 'TooMany edge',
    Code.TOO_MANY_PINS: 'TooMany pin', Code.TOO_MANY_VIAS: 'TooMany via'}
WITHOUT_VALUE = {
    Code.SYNTAX, Code.NO_TRANSACTION, Code.ALREADY_OPEN, Code.NOTHING_TO_UNDO, Code.NOTHING_TO_REDO, Code.NO_SESSION,
    Code.NO_GRAPH, Code.ROUTER_BAD_NUMBER, Code.ROUTER_OUT_OF_RANGE, Code.TOO_MANY_NODES, Code.TOO_MANY_EDGES,
    Code.TOO_MANY_PINS, Code.TOO_MANY_VIAS}


class Refused(Exception):
    """A call that was refused. Nothing is changed by it, but that no transaction is open any more, except after a label or a
    `check`.

    `code` is a `Code`, `reason` its name as the program prints it, `value` what the refusal names or None, and `line` that
    of a script, from 1, otherwise 0.
    """

    def __init__(self, code: int, value: int, line: int = 0) -> None:
        self.code = Code(code)
        self.reason = DIAGRAM_NAMES.get(self.code) or ''.join(map(str.capitalize, self.code.name.split('_')))
        self.value = None if self.code in WITHOUT_VALUE else value
        self.line = line
        words = [f'line {line}:'] if line else []
        words += [f'X{code}'] if self.code < Code.NO_SESSION else []
        super().__init__(' '.join([*words, self.reason, *([] if self.value is None else [str(value)])]))

    def __reduce__(self):
        return Refused, (int(self.code), self.value or 0, self.line)


# Lengths, in units, whose thousandths fit 64 bits; the engine has nearer limits, and names them.
FARTHEST = 9e15


def milli(value: Union[SupportsFloat, int]) -> int:
    """A length in thousandths."""
    if not math.isfinite(value):
        raise ValueError(f'{value} is no length')
    if abs(value) > FARTHEST:
        raise OverflowError(f'{value} is too long')
    return round(float(value) * 1000)


def whole(value: Union[SupportsIndex, int], bits: int) -> int:
    """A number of 64 bits, or of 32 without a sign."""
    number = operator.index(value)
    low, high = (-2**63, 2**63) if bits == 64 else (0, 2**32)
    if not low <= number < high:
        raise OverflowError(f'{number} does not fit {bits} bits')
    return number
