"""Two connectors cross; one gets its start at another box, and then runs beside the other. Lines of other origin are judged,
and what is asked of a box or a connector that is not there is refused.

python3 move_an_end.py [PROGRAM]: in this process, or over PROGRAM, which is reroute_live. It finds the package where it is
installed, or beside the examples.
"""
import os
import sys

sys.path.append(os.path.join(os.path.dirname(os.path.realpath(__file__)), '..', '..', 'bindings', 'python'))
import reroute  # noqa: E402
import reroute.live  # noqa: E402


def show_scene(session, title):
    """Prints the paths that routes share, and how often lines cross."""
    print(f'{title}:')
    for path in session.shared_paths():
        print(f'  shared {path.a} {path.b} runs {path.first}-{path.last}: back {path.back}, ahead {path.ahead}, '
              f'side {path.side or "none"}')
    print(f'  crossings {session.crossings()}')


def judge(session, connector, corners):
    """Prints the verdict on a line."""
    verdict = session.check(connector, corners)
    words = ['cost', f'{verdict.cost:g}'] if verdict.breach is None else [verdict.breach]
    words += [str(verdict.place)] if verdict.place else []
    words += [f'node {verdict.box}'] if verdict.box is not None else []
    print(' ', *(f'({x:g}, {y:g})' for x, y in corners), end=': ')
    print(*words)


def main(session):
    with session.transaction():
        for box, x, y in ((1, 0, 0), (2, 200, 0), (3, 100, -100), (4, 100, 100)):
            session.add_box(box, x, y, 20, 20)
        session.connect(1, 2)
        old = session.connect(3, 4)
    show_scene(session, 'Connector 2 from box 3 to box 4')
    with session.transaction():
        connector = session.reconnect(old, 'start', 1)
    show_scene(session, 'Connector 3 from box 1 to box 4')
    below, above = [(0, 0), (0, 100), (100, 100)], [(0, 0), (0, -100), (100, -100), (100, 100)]
    print(f'Lines for connector {connector}:')
    judge(session, connector, below)
    judge(session, connector, above)
    print('Refused:')
    try:
        with session.transaction():
            session.reconnect(connector, 'end', 9)
    except reroute.Refused as refused:
        print(f'  {refused}')
    try:
        session.check(old, below)
    except reroute.Refused as refused:
        print(f'  {refused}')


program = sys.argv[1:]
with reroute.live.Session(*program) if program else reroute.Session() as session:
    main(session)
