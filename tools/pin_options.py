"""The options of programs that choose pins, what they choose with them, and what they say of it; for reroute-pins and from-dot."""
import argparse

import gml
import pins
import session


def length(text):
    """A length of an option, in whole thousandths."""
    value = gml.milli_of(text)
    if value is None or not 0 <= value <= 10**6:
        raise argparse.ArgumentTypeError(f'{text[:40]!r} is not from 0 to 1000')
    return value


def count(text):
    if not text.isdecimal() or len(text) > 6:
        raise argparse.ArgumentTypeError(f'{text[:40]!r} is not from 0 to 999999')
    return int(text)


def positive_length(text):
    value = length(text)
    if not value:
        raise argparse.ArgumentTypeError(f'{text[:40]!r} is not from 0.001 to 1000')
    return value


def add(parser):
    parser.add_argument('--buffer', type=positive_length, metavar='N',
                        help='how far lines keep from boxes; without it, what the diagram sets, or the best of 12 to 1')
    parser.add_argument('--nudge', type=length, metavar='N',
                        help='how far lines keep from each other; without it, what the diagram sets, or 8')
    parser.add_argument('--tries', type=count, metavar='N', help='how many places and sides to try; by the number of '
                        f'edges, and at most {pins.TRIES}')
    parser.add_argument('--live', metavar='PROGRAM', help='reroute_live, if it is not beside this program or on the path')
    parser.add_argument('--plain', action='store_true',
                        help='pins on the sides that face the other boxes, evenly spread, without running reroute_live')


def choice(data, given):
    if given.plain:
        return pins.plain(data, given.buffer, given.nudge)
    return pins.choose(data, session.live_program(given.live), given.buffer, given.nudge, given.tries)


def remarks(found):
    """Lines on what a choice does not reach."""
    if found.bare:
        yield f'{found.bare} ends have no pin, since a diagram has at most 256'
    unrouted = [str(place) for place, line in sorted(found.lines.items()) if line is None]
    if unrouted:
        yield 'no legal route: edge ' + ', '.join(unrouted[:10]) + (' and more' if len(unrouted) > 10 else '')
