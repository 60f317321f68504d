"""A drag, on the screen's own copy of the lines, which it keeps by what is told alone: 50 previews, cancelled; the same again,
released; one released over another box, which leaves connectors without a line; and both undone.

python3 drag_a_box.py DIAGRAM [PROGRAM]: in this process, or over PROGRAM, which is reroute_live. It finds the package where it
is installed, or beside the examples.
"""
import os
import sys

sys.path.append(os.path.join(os.path.dirname(os.path.realpath(__file__)), '..', '..', 'bindings', 'python'))
import reroute  # noqa: E402
import reroute.live  # noqa: E402

BOX, STEPS = 25, 50


def show(title, changes):
    print(f'{title}:')
    for connector, corners in changes.items():
        print(f'  connector {connector}:', *([f'({x:g}, {y:g})' for x, y in corners] or ['no line']))


def drag(session, start, end):
    """Previews the box at 50 places on its way, and shows what the last one changes."""
    told = gone = 0
    for step in range(1, STEPS + 1):
        with session.trial():
            session.move(BOX, *(a + (b - a) * step / STEPS for a, b in zip(start, end)))
            changes = session.preview_changes()
        told += len(changes)
        gone += sum(not corners for corners in changes.values())
    show(f'Held, after {STEPS} previews that told {told} changes, {gone} of them that a line is gone', changes)


def release(session, end):
    with session.transaction():
        session.move(BOX, *end)


def redraw(session, screen, title):
    """Draws what changed, and wipes out the lines that are gone."""
    changes = session.changes()
    show(title, changes)
    screen.update(changes)
    for connector in [connector for connector, corners in changes.items() if not corners]:
        del screen[connector]
    if screen != session.lines():
        sys.exit('the screen has other lines than the session')


def main(session):
    rest, between, over, screen = (300, 320), (300, 120), (300, 80), {}
    redraw(session, screen, 'Before')
    drag(session, rest, between)
    redraw(session, screen, 'Cancelled')
    drag(session, rest, between)
    release(session, between)
    redraw(session, screen, 'Released between others')
    drag(session, between, over)
    release(session, over)
    redraw(session, screen, 'Released over another')
    session.undo()
    session.undo()
    redraw(session, screen, 'Undone twice')


diagram, *program = sys.argv[1:]
with reroute.live.Session(program[0], diagram) if program else reroute.Session.open(diagram) as session:
    main(session)
